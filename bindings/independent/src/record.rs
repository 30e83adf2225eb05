//! The records of a file, as they are held. A text is a part of the file itself.

use crate::date::Date;
use crate::supplement::Supplement;
use crate::usage::Instruction;

/// RP number, 1 to 999.
#[derive(Clone, Copy, Debug, Default, PartialEq, Eq, PartialOrd, Ord)]
pub struct RpNumber(pub u16);

/// Drug serial, 1 to 99, in record 201.
#[derive(Clone, Copy, Debug, Default, PartialEq, Eq, PartialOrd, Ord)]
pub struct DrugSerial(pub u8);

/// Supplement serial, 1 to 99, in record 181.
#[derive(Clone, Copy, Debug, Default, PartialEq, Eq, PartialOrd, Ord)]
pub struct SupplementSerial(pub u8);

/// One record.
#[derive(Clone, Copy, Debug, PartialEq, Eq)]
pub enum Record<'a> {
    /// A record "kept as one or more fields of text".
    Kept(Kept<'a>),
    /// 51: the issue date.
    Issue(Date),
    /// 101
    Rp(Rp<'a>),
    /// 111
    Usage(Usage<'a>),
    /// 181
    Extra(Extra<'a>),
    /// 201
    Drug(Drug<'a>),
}

/// A record that has no line of its own in document 01.
#[derive(Clone, Copy, Debug, PartialEq, Eq)]
pub struct Kept<'a> {
    /// The record number.
    pub number: u16,
    /// The fields after it.
    pub fields: Fields<'a>,
}

/// The fields of a kept record.
#[derive(Clone, Copy, Debug)]
pub enum Fields<'a> {
    /// As they stand in a line, parted by commas: always one or more.
    Line(&'a [u8]),
    /// One by one, as a caller may hold them.
    List(&'a [&'a [u8]]),
}

/// Record 101.
#[derive(Clone, Copy, Debug, PartialEq, Eq)]
pub struct Rp<'a> {
    /// RP number.
    pub rp: RpNumber,
    /// Form, 1 to 99.
    pub form: u8,
    /// Form name, perhaps empty.
    pub form_name: &'a [u8],
    /// Quantity, 1 to 999.
    pub quantity: u16,
}

/// Record 111.
#[derive(Clone, Copy, Debug, PartialEq, Eq)]
pub struct Usage<'a> {
    /// RP number.
    pub rp: RpNumber,
    /// Kind, 1 or 2.
    pub kind: u8,
    /// Usage code: with kind 2 alone.
    pub code: Option<Instruction>,
    /// Name.
    pub name: &'a [u8],
    /// Times per day, 1 to 99.
    pub times: Option<u8>,
}

/// Record 181.
#[derive(Clone, Copy, Debug, PartialEq, Eq)]
pub struct Extra<'a> {
    /// RP number.
    pub rp: RpNumber,
    /// Serial.
    pub serial: SupplementSerial,
    /// Kind, 1 to 99.
    pub kind: Option<u8>,
    /// Text.
    pub text: &'a [u8],
    /// Supplementary code: with kind 8 alone.
    pub supplement: Option<Supplement>,
    /// Site: with kind 9 alone, else empty.
    pub site: &'a [u8],
}

/// Record 201.
#[derive(Clone, Copy, Debug, PartialEq, Eq)]
pub struct Drug<'a> {
    /// RP number.
    pub rp: RpNumber,
    /// Serial.
    pub serial: DrugSerial,
    /// Kind, 1 to 3.
    pub kind: Option<u8>,
    /// Code kind: 1 2 3 4 6 7.
    pub code_kind: u8,
    /// Drug code, perhaps empty.
    pub code: &'a [u8],
    /// Name, perhaps empty.
    pub name: &'a [u8],
    /// Amount in hundred-thousandths.
    pub amount: u64,
    /// Flag, 1 or 2.
    pub flag: u8,
    /// Unit.
    pub unit: &'a [u8],
}

impl Record<'_> {
    /// The record number.
    pub fn number(&self) -> u16 {
        match self {
            Record::Kept(kept) => kept.number,
            Record::Issue(_) => 51,
            Record::Rp(_) => 101,
            Record::Usage(_) => 111,
            Record::Extra(_) => 181,
            Record::Drug(_) => 201,
        }
    }
}

impl<'a> Fields<'a> {
    /// The fields, one by one.
    pub fn iter(&self) -> impl Iterator<Item = &'a [u8]> {
        let (line, list) = match *self {
            Fields::Line(line) => (Some(line), &[][..]),
            Fields::List(list) => (None, list),
        };
        let of_line = line.into_iter().flat_map(|line| line.split(|&c| c == b','));
        of_line.chain(list.iter().copied())
    }
}

/// Fields are equal where they are the same texts, however they are held.
impl PartialEq for Fields<'_> {
    fn eq(&self, other: &Self) -> bool {
        self.iter().eq(other.iter())
    }
}

impl Eq for Fields<'_> {}

/// Whether a record number is known: the header records, then those of RPs and drugs.
pub fn is_known(number: u16) -> bool {
    is_typed(number)
        || matches!(
            number,
            1..=5 | 11..=14 | 21..=25 | 27..=31 | 52 | 61..=63 | 81 | 82
                | 102 | 211 | 221 | 231 | 241 | 281
        )
}

/// Whether a record has a line of its own in document 01, so is not kept as mere texts.
pub fn is_typed(number: u16) -> bool {
    matches!(number, 51 | 101 | 111 | 181 | 201)
}
