//! The records of a sheet.

use core::ops::Range;

use crate::ffi;
use crate::{Amount, AmountOf, Date, DrugCode, DrugKind, Form, Supplement, SupplementKind, Text, Usage};

/// One record. Texts are Shift_JIS, as they stand in the file.
#[derive(Clone, Copy, Debug, PartialEq, Eq, Hash)]
#[non_exhaustive]
pub enum Record<'a> {
    /// 51: the date of issue.
    Issue(Date),
    /// 101: an RP begins.
    Rp(RpRecord<'a>),
    /// 111: how its drugs are taken.
    Usage(UsageRecord<'a>),
    /// 181: a supplement to that.
    Supplement(SupplementRecord<'a>),
    /// 201: a drug.
    Drug(DrugRecord<'a>),
    /// Any other, kept as it stands.
    Kept(KeptRecord<'a>),
}

/// Record 101: an RP begins.
///
/// ```
/// use yawsimbel::{Form, RpRecord};
///
/// let fourteen_days = RpRecord::new(1, Form::Oral, 14);
/// let visit = RpRecord::new(2, Form::Unknown, 1).form_name(b"VISIT");
/// # assert_eq!((fourteen_days.quantity, visit.form_name.as_bytes()), (14, &b"VISIT"[..]));
/// ```
#[derive(Clone, Copy, Debug, PartialEq, Eq, Hash)]
#[non_exhaustive]
pub struct RpRecord<'a> {
    /// RP number, 1 to 999, rising.
    pub rp: u16,
    /// Form, 1 to 99.
    pub form: Form,
    /// Its name, perhaps empty.
    pub form_name: Text<'a>,
    /// Quantity, 1 to 999: days, or times.
    pub quantity: u16,
}

/// Record 111: how the drugs of an RP are taken. It is of kind 2 where it has a code, else of kind 1.
///
/// ```
/// use yawsimbel::{Usage, UsageRecord};
///
/// let usage: Usage = "1013044400000000".parse()?;
/// let record = UsageRecord::new(1, b"AFTER MEALS").code(usage).times(3);
/// # assert_eq!((record.code, record.times), (Some(usage), Some(3)));
/// # Ok::<(), yawsimbel::CodeRefusal>(())
/// ```
#[derive(Clone, Copy, Debug, PartialEq, Eq, Hash)]
#[non_exhaustive]
pub struct UsageRecord<'a> {
    /// RP number.
    pub rp: u16,
    /// The code.
    pub code: Option<Usage>,
    /// The usage's name.
    pub name: Text<'a>,
    /// Times per day, 1 to 99.
    pub times: Option<u16>,
}

/// Record 181: a supplement to a usage.
///
/// ```
/// use yawsimbel::{Supplement, SupplementKind, SupplementRecord};
///
/// let code: Supplement = "I1100000".parse()?;
/// let record = SupplementRecord::new(1, 1, b"EVERY OTHER DAY").kind(SupplementKind::Code(code));
/// # assert_eq!(record.kind.number(), Some(8));
/// # Ok::<(), yawsimbel::CodeRefusal>(())
/// ```
#[derive(Clone, Copy, Debug, PartialEq, Eq, Hash)]
#[non_exhaustive]
pub struct SupplementRecord<'a> {
    /// RP number.
    pub rp: u16,
    /// Serial within the RP, 1, 2, 3.
    pub serial: u16,
    /// What it adds, with its code or site.
    pub kind: SupplementKind<'a>,
    /// The text.
    pub text: Text<'a>,
}

/// Record 201: a drug.
///
/// ```
/// use yawsimbel::{Amount, DrugCode, DrugKind, DrugRecord};
///
/// let record = DrugRecord::new(1, 1, Amount::from(3), b"TAB").kind(DrugKind::Medicine).name(b"TABLET A");
/// # assert_eq!((record.code, record.name.as_bytes()), (DrugCode::None, &b"TABLET A"[..]));
/// ```
#[derive(Clone, Copy, Debug, PartialEq, Eq, Hash)]
#[non_exhaustive]
pub struct DrugRecord<'a> {
    /// RP number.
    pub rp: u16,
    /// Serial within the RP, 1, 2, 3.
    pub serial: u16,
    /// Kind.
    pub kind: Option<DrugKind>,
    /// The drug's code, with which kind of code it is.
    pub code: DrugCode<'a>,
    /// The drug's name; empty only beside a code of the claims computer.
    pub name: Text<'a>,
    /// The amount.
    pub amount: Amount,
    /// What the amount counts.
    pub amount_of: AmountOf,
    /// The amount's unit.
    pub unit: Text<'a>,
}

/// A record that is kept as it stands.
///
/// ```
/// use yawsimbel::KeptRecord;
///
/// let clinic = KeptRecord::new(1, b"1,7654321,13,KITA CLINIC");
/// # assert_eq!(clinic.number, 1);
/// ```
#[derive(Clone, Copy, Debug, PartialEq, Eq, Hash)]
#[non_exhaustive]
pub struct KeptRecord<'a> {
    /// The record's number. One that has a type of its own is not kept, and refused where it is written so.
    pub number: u16,
    /// Its fields, with the commas between them.
    pub fields: Text<'a>,
}

impl<'a> RpRecord<'a> {
    /// With no name of its form.
    pub fn new(rp: u16, form: Form, quantity: u16) -> RpRecord<'a> {
        RpRecord { rp, form, form_name: Text::default(), quantity }
    }

    /// The same with this name of its form.
    #[must_use]
    pub fn form_name(self, form_name: impl Into<Text<'a>>) -> RpRecord<'a> {
        RpRecord { form_name: form_name.into(), ..self }
    }
}

impl<'a> UsageRecord<'a> {
    /// With a name alone.
    pub fn new(rp: u16, name: impl Into<Text<'a>>) -> UsageRecord<'a> {
        UsageRecord { rp, code: None, name: name.into(), times: None }
    }

    /// The same with this code.
    #[must_use]
    pub fn code(self, code: Usage) -> UsageRecord<'a> {
        UsageRecord { code: Some(code), ..self }
    }

    /// The same with so many times per day.
    #[must_use]
    pub fn times(self, times: u16) -> UsageRecord<'a> {
        UsageRecord { times: Some(times), ..self }
    }
}

impl<'a> SupplementRecord<'a> {
    /// With a text alone.
    pub fn new(rp: u16, serial: u16, text: impl Into<Text<'a>>) -> SupplementRecord<'a> {
        SupplementRecord { rp, serial, kind: SupplementKind::Unknown, text: text.into() }
    }

    /// The same of this kind.
    #[must_use]
    pub fn kind(self, kind: SupplementKind<'a>) -> SupplementRecord<'a> {
        SupplementRecord { kind, ..self }
    }
}

impl<'a> DrugRecord<'a> {
    /// With no kind, code or name; the amount counts units.
    pub fn new(rp: u16, serial: u16, amount: Amount, unit: impl Into<Text<'a>>) -> DrugRecord<'a> {
        DrugRecord {
            rp,
            serial,
            kind: None,
            code: DrugCode::None,
            name: Text::default(),
            amount,
            amount_of: AmountOf::PriceUnit,
            unit: unit.into(),
        }
    }

    /// The same of this kind.
    #[must_use]
    pub fn kind(self, kind: DrugKind) -> DrugRecord<'a> {
        DrugRecord { kind: Some(kind), ..self }
    }

    /// The same with this code.
    #[must_use]
    pub fn code(self, code: DrugCode<'a>) -> DrugRecord<'a> {
        DrugRecord { code, ..self }
    }

    /// The same with this name.
    #[must_use]
    pub fn name(self, name: impl Into<Text<'a>>) -> DrugRecord<'a> {
        DrugRecord { name: name.into(), ..self }
    }

    /// The same, its amount counting this.
    #[must_use]
    pub fn amount_of(self, amount_of: AmountOf) -> DrugRecord<'a> {
        DrugRecord { amount_of, ..self }
    }
}

impl<'a> KeptRecord<'a> {
    /// With these fields, and the commas between them.
    pub fn new(number: u16, fields: impl Into<Text<'a>>) -> KeptRecord<'a> {
        KeptRecord { number, fields: fields.into() }
    }
}

impl From<Date> for Record<'_> {
    fn from(date: Date) -> Self {
        Record::Issue(date)
    }
}

impl<'a> From<RpRecord<'a>> for Record<'a> {
    fn from(record: RpRecord<'a>) -> Self {
        Record::Rp(record)
    }
}

impl<'a> From<UsageRecord<'a>> for Record<'a> {
    fn from(record: UsageRecord<'a>) -> Self {
        Record::Usage(record)
    }
}

impl<'a> From<SupplementRecord<'a>> for Record<'a> {
    fn from(record: SupplementRecord<'a>) -> Self {
        Record::Supplement(record)
    }
}

impl<'a> From<DrugRecord<'a>> for Record<'a> {
    fn from(record: DrugRecord<'a>) -> Self {
        Record::Drug(record)
    }
}

impl<'a> From<KeptRecord<'a>> for Record<'a> {
    fn from(record: KeptRecord<'a>) -> Self {
        Record::Kept(record)
    }
}

/// Where a code stands among its record's numbers: after all of its other fields.
const USAGE_CODE: Range<usize> = 6..6 + ffi::USAGE;
const SUPPLEMENT_CODE: Range<usize> = 8..8 + ffi::SUPPLEMENT;

/// `Some(0)` is no number, and must not become an empty one, which is 0 to the library.
fn optional_number(number: Option<u16>) -> u64 {
    match number {
        None => 0,
        Some(0) => u64::MAX,
        Some(number) => u64::from(number),
    }
}

/// A record's numbers, with the file that its texts lie in. Each value is `None` where this crate does not know it.
struct Told<'n, 'a> {
    n: &'n ffi::Record,
    file: &'a [u8],
}

impl<'a> Told<'_, 'a> {
    fn number(&self, at: usize) -> Option<u16> {
        u16::try_from(self.n[at]).ok()
    }

    fn text(&self, at: usize) -> Option<Text<'a>> {
        let (from, to) = (usize::try_from(self.n[at]).ok()?, usize::try_from(self.n[at + 1]).ok()?);
        self.file.get(from..to).map(Text::from)
    }

    fn issue(&self) -> Option<Date> {
        Date::of(&[self.n[1], self.n[2], self.n[3], self.n[4]])
    }

    fn rp(&self) -> Option<RpRecord<'a>> {
        let form = Form::of(self.number(2)?);
        Some(RpRecord { rp: self.number(1)?, form, form_name: self.text(3)?, quantity: self.number(5)? })
    }

    fn usage(&self) -> Option<UsageRecord<'a>> {
        let mut code = [0; ffi::USAGE];
        code.copy_from_slice(&self.n[USAGE_CODE]);
        // Kind 1 has no code, kind 2 has one.
        let code = match (self.n[2], code[0]) {
            (1, 0) => None,
            (2, _) => Some(Usage::of(&code)?),
            _ => return None,
        };
        let times = Some(self.number(5)?).filter(|times| *times != 0);
        Some(UsageRecord { rp: self.number(1)?, code, name: self.text(3)?, times })
    }

    fn supplement(&self) -> Option<SupplementRecord<'a>> {
        let mut code = [0; ffi::SUPPLEMENT];
        code.copy_from_slice(&self.n[SUPPLEMENT_CODE]);
        let (named, site) = (code[0] != 0, self.text(6)?);
        let kind = SupplementKind::of(self.n[3], Supplement::of(&code), site)?;
        // A code or a site stands with its own kind alone.
        if kind.code().is_some() != named || kind.site() != site {
            return None;
        }
        Some(SupplementRecord { rp: self.number(1)?, serial: self.number(2)?, kind, text: self.text(4)? })
    }

    /// A record of a number that a newer library reads as a type of its own has other numbers there, and not the place of all of its fields.
    fn kept(&self) -> Option<KeptRecord<'a>> {
        let fields = self.text(1)?;
        let before = usize::try_from(self.n[1]).ok()?.checked_sub(1)?;
        let whole = self.file.get(before) == Some(&b',') && self.file.get(before + 1 + fields.len()) == Some(&b'\r');
        Some(KeptRecord { number: self.number(0)?, fields }).filter(|_| whole)
    }

    fn drug(&self) -> Option<DrugRecord<'a>> {
        Some(DrugRecord {
            rp: self.number(1)?,
            serial: self.number(2)?,
            kind: DrugKind::of(self.n[3])?,
            code: DrugCode::of(self.n[4], self.text(5)?).filter(|code| Some(code.text()) == self.text(5))?,
            name: self.text(7)?,
            amount: Amount::of_hundred_thousandths(self.n[9]),
            amount_of: AmountOf::of(self.n[10])?,
            unit: self.text(11)?,
        })
    }
}

/// A record's numbers as they are lent, with its texts in one piece of bytes: one text as it is, more of them side by side in `scratch`.
pub(crate) struct Lent<'s> {
    pub(crate) n: ffi::Record,
    pub(crate) texts: &'s [u8],
}

impl<'s> Lent<'s> {
    fn of(number: u16) -> Lent<'s> {
        let mut n = [0; ffi::RECORD];
        n[0] = u64::from(number);
        Lent { n, texts: &[] }
    }

    /// Its only text, whose place stands at `at`.
    fn only(&mut self, at: usize, text: Text<'s>) {
        self.n[at + 1] = text.len() as u64;
        self.texts = text.as_bytes();
    }
}

impl<'a> Record<'a> {
    /// The record's number.
    pub fn number(&self) -> u16 {
        match self {
            Record::Issue(_) => 51,
            Record::Rp(_) => 101,
            Record::Usage(_) => 111,
            Record::Supplement(_) => 181,
            Record::Drug(_) => 201,
            Record::Kept(kept) => kept.number,
        }
    }

    /// Of the numbers that the library gives, its texts in the file; `None` where this crate does not know one.
    pub(crate) fn of(n: &ffi::Record, file: &'a [u8]) -> Option<Record<'a>> {
        let told = Told { n, file };
        Some(match n[0] {
            51 => Record::Issue(told.issue()?),
            101 => Record::Rp(told.rp()?),
            111 => Record::Usage(told.usage()?),
            181 => Record::Supplement(told.supplement()?),
            201 => Record::Drug(told.drug()?),
            _ => Record::Kept(told.kept()?),
        })
    }

    /// Its numbers and texts, to be written.
    pub(crate) fn lent<'s>(&'s self, scratch: &'s mut Scratch) -> Lent<'s> {
        match self {
            Record::Issue(date) => {
                let mut lent = Lent::of(51);
                lent.n[1..5].copy_from_slice(&date.numbers());
                lent
            }
            Record::Rp(rp) => rp.lent(),
            Record::Usage(usage) => usage.lent(),
            Record::Supplement(supplement) => supplement.lent(scratch),
            Record::Drug(drug) => drug.lent(scratch),
            Record::Kept(kept) => kept.lent(),
        }
    }
}

impl RpRecord<'_> {
    fn lent(&self) -> Lent<'_> {
        let mut lent = Lent::of(101);
        lent.n[1] = u64::from(self.rp);
        lent.n[2] = u64::from(self.form.number());
        lent.n[5] = u64::from(self.quantity);
        lent.only(3, self.form_name);
        lent
    }
}

impl UsageRecord<'_> {
    fn lent(&self) -> Lent<'_> {
        let mut lent = Lent::of(111);
        lent.n[1] = u64::from(self.rp);
        lent.n[2] = if self.code.is_some() { 2 } else { 1 };
        lent.n[5] = optional_number(self.times);
        lent.only(3, self.name);
        if let Some(code) = self.code {
            lent.n[USAGE_CODE].copy_from_slice(&code.numbers());
        }
        lent
    }
}

impl SupplementRecord<'_> {
    fn lent<'s>(&'s self, scratch: &'s mut Scratch) -> Lent<'s> {
        let mut lent = Lent::of(181);
        lent.n[1] = u64::from(self.rp);
        lent.n[2] = u64::from(self.serial);
        lent.n[3] = optional_number(self.kind.number());
        lent.n[4..6].copy_from_slice(&scratch.add(self.text, 100));
        lent.n[6..8].copy_from_slice(&scratch.add(self.kind.site(), 3));
        if let Some(code) = self.kind.code() {
            lent.n[SUPPLEMENT_CODE].copy_from_slice(&code.numbers());
        }
        lent.texts = scratch.all();
        lent
    }
}

impl DrugRecord<'_> {
    fn lent<'s>(&'s self, scratch: &'s mut Scratch) -> Lent<'s> {
        let mut lent = Lent::of(201);
        lent.n[1] = u64::from(self.rp);
        lent.n[2] = u64::from(self.serial);
        lent.n[3] = self.kind.map_or(0, |kind| kind as u64);
        lent.n[4] = u64::from(self.code.number());
        lent.n[5..7].copy_from_slice(&scratch.add(self.code.text(), 13));
        lent.n[7..9].copy_from_slice(&scratch.add(self.name, 80));
        lent.n[9] = self.amount.hundred_thousandths();
        lent.n[10] = self.amount_of as u64;
        lent.n[11..13].copy_from_slice(&scratch.add(self.unit, 12));
        lent.texts = scratch.all();
        lent
    }
}

impl KeptRecord<'_> {
    fn lent(&self) -> Lent<'_> {
        match self.number {
            // A record with a type of its own cannot be put as a kept one: as the number 0 it is unknown.
            51 | 101 | 111 | 181 | 201 => Lent::of(0),
            number => {
                let mut lent = Lent::of(number);
                lent.only(1, self.fields);
                lent
            }
        }
    }
}

/// Room for the texts of one record.
pub(crate) struct Scratch {
    bytes: [u8; 128],
    length: usize,
}

impl Scratch {
    pub(crate) fn new() -> Scratch {
        Scratch { bytes: [0; 128], length: 0 }
    }

    /// Adds a text and tells its place. Of a text that is too long one byte more than the most is enough: it is refused as the whole would be.
    fn add(&mut self, text: Text<'_>, most: usize) -> [u64; 2] {
        let text = &text.as_bytes()[..text.len().min(most + 1)];
        let from = self.length;
        self.length += text.len();
        self.bytes[from..self.length].copy_from_slice(text);
        [from as u64, self.length as u64]
    }

    fn all(&self) -> &[u8] {
        &self.bytes[..self.length]
    }
}

// Records that this library does not give, as a newer one might.
#[cfg(test)]
mod newer {
    use super::*;

    const FILE: &[u8] = b"JAHIS5\r\n281,1,1,,TEXT,\r\n\x1a";

    fn record(numbers: &[u64]) -> Option<Record<'static>> {
        let mut n = [0; ffi::RECORD];
        n[..numbers.len()].copy_from_slice(numbers);
        Record::of(&n, FILE)
    }

    #[test]
    fn a_kept_record_with_a_type_is_not_known() {
        assert_eq!(record(&[281, 12, 22]), Some(KeptRecord::new(281, b"1,1,,TEXT,").into()));
        for numbers in [[281, 1, 1, 0], [281, 12, 21, 0], [281, 11, 22, 0], [281, 0, 0, 0], [281, 22, 12, 0]] {
            assert_eq!(record(&numbers), None, "{numbers:?}");
        }
        assert_eq!(record(&[281, 12, u64::MAX]), None);
    }

    #[test]
    fn a_value_that_no_rule_has_is_not_known() {
        let rp = [101, 1, 1, 0, 0, 14];
        assert_eq!(record(&rp), Some(RpRecord::new(1, Form::Oral, 14).into()));
        for at in 1..=5 {
            let mut numbers = rp;
            numbers[at] = 1 << 16;
            assert_eq!(record(&numbers), None, "{at}");
        }
        assert_eq!(record(&[51, 6, 2018, 7, 2]), None);
        assert_eq!(record(&[111, 3, 3, 0, 0, 0]), None);
        assert_eq!(record(&[111, 1, 2, 0, 0, 0, 3]), None);
        assert_eq!(record(&[201, 1, 1, 4, 1, 0, 0, 0, 0, 1, 1]), None);
        assert_eq!(record(&[201, 1, 1, 1, 5, 0, 0, 0, 0, 1, 1]), None);
        assert_eq!(record(&[201, 1, 1, 1, 1, 0, 0, 0, 0, 1, 3]), None);
        assert_eq!(record(&[201, 1, 1, 1, 1, 0, 6, 0, 0, 1, 1]), None);
        assert!(record(&[201, 1, 1, 1, 1, 0, 0, 0, 0, 1, 1]).is_some());
        assert!(record(&[181, 1, 1, 9, 0, 0, 0, 3]).is_some());
        assert_eq!(record(&[181, 1, 1, 7, 0, 0, 0, 3]), None);
        assert_eq!(record(&[181, 1, 1, 8, 0, 0, 0, 0]), None);
        assert_eq!(record(&[181, 1, 1, 7, 0, 0, 0, 0, u64::from(b'I'), 1, 1]), None);
    }
}
