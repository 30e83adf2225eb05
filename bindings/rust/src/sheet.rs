//! Sheets, read and written.

use core::error::Error;
use core::fmt;
use core::iter::FusedIterator;

use crate::ffi;
use crate::record::{Lent, Scratch};
use crate::{CodeRefusal, Reason, Record};

/// Bytes of the longest file.
pub const LONGEST_FILE: usize = ffi::FILE_MOST;

/// A refusal of a sheet.
///
/// ```
/// let refusal = yawsimbel::check(b"JAHIS4\r\n\x1a").unwrap_err();
/// assert_eq!(refusal.to_string(), "the first line is not JAHIS5 (22) at byte 0");
/// ```
#[derive(Clone, Copy, Debug, PartialEq, Eq, Hash)]
#[non_exhaustive]
pub struct SheetRefusal {
    /// Why.
    pub reason: Reason,
    /// The offset of the record's first byte, at the end of the 1Ah's; for [`Reason::Frame`] of the byte at fault.
    pub offset: u64,
    /// The field, counted from 1 after the record's number.
    pub field: Option<u64>,
    /// For [`Reason::Code`] what is wrong with the code.
    pub code: Option<CodeRefusal>,
}

impl SheetRefusal {
    pub(crate) fn of(number: u16, n: &ffi::Refusal) -> SheetRefusal {
        let reason = Reason::of(number);
        let code = CodeRefusal { reason: Reason::of(u16::try_from(n[2]).unwrap_or(0)), place: n[3] };
        SheetRefusal {
            reason,
            offset: n[0],
            field: Some(n[1]).filter(|field| *field != 0),
            code: Some(code).filter(|_| reason == Reason::Code),
        }
    }

    /// Of a record that holds what this crate does not know.
    fn not_known(offset: u64) -> SheetRefusal {
        SheetRefusal { reason: Reason::Other, offset, field: None, code: None }
    }
}

/// In one line, with the code's own refusal.
impl fmt::Display for SheetRefusal {
    fn fmt(&self, f: &mut fmt::Formatter<'_>) -> fmt::Result {
        write!(f, "{} at byte {}", self.reason, self.offset)?;
        if let Some(field) = self.field {
            write!(f, ", field {}", field)?;
        }
        match self.code {
            Some(code) => write!(f, ": {}", code),
            None => Ok(()),
        }
    }
}

impl Error for SheetRefusal {}

/// Checks a whole file and counts its records, the version line with them. [`Reason::TooLong`] to [`Reason::Missing`], with the place.
///
/// ```
/// let refusal = yawsimbel::check(b"JAHIS5\r\n1,A\r\n\x1a").unwrap_err();
/// assert_eq!((refusal.reason, refusal.offset), (yawsimbel::Reason::Missing, 13));
/// ```
pub fn check(file: &[u8]) -> Result<u64, SheetRefusal> {
    let mut records = 0;
    let mut refusal = [0; ffi::REFUSAL];
    match ffi::sheet_check(file, &mut records, &mut refusal) {
        0 => Ok(records),
        number => Err(SheetRefusal::of(number, &refusal)),
    }
}

/// The records of a file, one by one: an iterator that ends after the last record or after a refusal. It is always opened: there is no way to
/// make one with a state of the caller's own.
///
/// ```
/// use yawsimbel::{KeptRecord, Reason, Sheet};
///
/// let mut sheet = Sheet::open(b"JAHIS5\r\n1,A\r\n\x1a");
/// assert_eq!(sheet.next(), Some(Ok(KeptRecord::new(1, b"A").into())));
/// // A refusal ends it: this one says that the sheet ends too early.
/// assert_eq!(sheet.next().unwrap().unwrap_err().reason, Reason::Missing);
/// assert_eq!(sheet.next(), None);
/// ```
#[derive(Clone)]
#[must_use]
pub struct Sheet<'a> {
    file: &'a [u8],
    state: ffi::State,
    ended: bool,
}

impl<'a> Sheet<'a> {
    /// Begins to read a file. What is wrong with it as a whole is the first thing that the iterator says.
    pub fn open(file: &'a [u8]) -> Sheet<'a> {
        let mut state = [0; ffi::STATE];
        // The answer may be left alone: yws_sheet_next says it again, with its place.
        let _ = ffi::sheet_open(file, &mut state);
        Sheet { file, state, ended: false }
    }

    /// The offset of the next record.
    pub fn offset(&self) -> u64 {
        self.state[0]
    }
}

impl<'a> Iterator for Sheet<'a> {
    type Item = Result<Record<'a>, SheetRefusal>;

    fn next(&mut self) -> Option<Self::Item> {
        if self.ended {
            return None;
        }
        let offset = self.offset();
        let mut record = [0; ffi::RECORD];
        let mut refusal = [0; ffi::REFUSAL];
        let answer = match ffi::sheet_next(self.file, &mut self.state, &mut record, &mut refusal) {
            0 => Some(Record::of(&record, self.file).ok_or(SheetRefusal::not_known(offset))),
            ffi::END => None,
            number => Some(Err(SheetRefusal::of(number, &refusal))),
        };
        self.ended = !matches!(answer, Some(Ok(_)));
        answer
    }
}

impl FusedIterator for Sheet<'_> {}

/// Where it is, without the file's bytes.
impl fmt::Debug for Sheet<'_> {
    fn fmt(&self, f: &mut fmt::Formatter<'_>) -> fmt::Result {
        let mut shown = f.debug_struct("Sheet");
        shown.field("length", &self.file.len()).field("offset", &self.offset()).field("ended", &self.ended);
        shown.finish_non_exhaustive()
    }
}

/// A refusal to write. It leaves the writer and its buffer as they were.
///
/// ```
/// use yawsimbel::{Reason, WriteRefusal};
///
/// let refusal = WriteRefusal::Record(Reason::Missing);
/// assert_eq!(refusal.to_string(), "the record would be refused when it is read (34): a needed record is missing (32)");
/// ```
#[derive(Clone, Copy, Debug, PartialEq, Eq, Hash)]
#[non_exhaustive]
pub enum WriteRefusal {
    /// There is no room.
    Room,
    /// The reader would refuse the record here, or the end, for this reason.
    Record(Reason),
}

impl WriteRefusal {
    fn of(number: u16, own: u64) -> WriteRefusal {
        match Reason::of(number) {
            Reason::Room => WriteRefusal::Room,
            _ => WriteRefusal::Record(Reason::of(u16::try_from(own).unwrap_or(0))),
        }
    }

    /// Nothing, or a refusal.
    fn unless_zero(number: u16, own: u64) -> Result<(), WriteRefusal> {
        match number {
            0 => Ok(()),
            number => Err(WriteRefusal::of(number, own)),
        }
    }
}

/// In one line, with the reader's own reason.
impl fmt::Display for WriteRefusal {
    fn fmt(&self, f: &mut fmt::Formatter<'_>) -> fmt::Result {
        match self {
            WriteRefusal::Room => Reason::Room.fmt(f),
            WriteRefusal::Record(own) => write!(f, "{}: {}", Reason::Record, own),
        }
    }
}

impl Error for WriteRefusal {}

/// Writes a file into a buffer. [`LONGEST_FILE`] bytes are enough for any. It is always opened, as a [`Sheet`] is.
///
/// ```
/// use yawsimbel::{KeptRecord, Writer, WriteRefusal, LONGEST_FILE};
///
/// let mut out = [0; LONGEST_FILE];
/// let mut writer = Writer::open(&mut out)?;
/// writer.put(KeptRecord::new(1, b"1,7654321,13,KITA CLINIC"))?;
/// assert_eq!(writer.written(), b"JAHIS5\r\n1,1,7654321,13,KITA CLINIC\r\n");
/// # Ok::<(), WriteRefusal>(())
/// ```
pub struct Writer<'b> {
    out: &'b mut [u8],
    state: ffi::State,
}

impl<'b> Writer<'b> {
    /// Begins a file with its version line. [`WriteRefusal::Room`] for a buffer of less than nine bytes.
    pub fn open(out: &'b mut [u8]) -> Result<Writer<'b>, WriteRefusal> {
        let mut state = [0; ffi::STATE];
        let number = ffi::writer_open(out, &mut state);
        WriteRefusal::unless_zero(number, 0)?;
        Ok(Writer { out, state })
    }

    /// Writes a record. [`WriteRefusal::Record`] where the reader would refuse it here; then [`WriteRefusal::Room`] where its line and the end of
    /// the file have no room in the buffer, or in [`LONGEST_FILE`] bytes.
    pub fn put<'r>(&mut self, record: impl Into<Record<'r>>) -> Result<(), WriteRefusal> {
        let record = record.into();
        let mut scratch = Scratch::new();
        let Lent { n, texts } = record.lent(&mut scratch);
        let mut own = 0;
        let number = ffi::writer_put(self.out, &mut self.state, &n, texts, &mut own);
        WriteRefusal::unless_zero(number, own)
    }

    /// Ends the file. Afterwards [`Writer::written`] is all of it. [`WriteRefusal::Record`] with [`Reason::Missing`] where it may not end here, with
    /// [`Reason::Order`] where it has ended.
    pub fn close(&mut self) -> Result<(), WriteRefusal> {
        let mut own = 0;
        let number = ffi::writer_close(self.out, &mut self.state, &mut own);
        WriteRefusal::unless_zero(number, own)
    }

    /// What has been written so far.
    pub fn written(&self) -> &[u8] {
        &self.out[..self.state[0] as usize]
    }
}

/// Where it is, without the buffer's bytes.
impl fmt::Debug for Writer<'_> {
    fn fmt(&self, f: &mut fmt::Formatter<'_>) -> fmt::Result {
        let mut shown = f.debug_struct("Writer");
        shown.field("room", &self.out.len()).field("written", &self.written().len()).finish_non_exhaustive()
    }
}

// States that no call gave, which only a caller of the C functions can have.
#[cfg(test)]
mod states {
    use crate::ffi;

    const FILE: &[u8] = b"JAHIS5\r\n1,A\r\n\x1a";

    /// What the next call on a state says, and that it leaves the state.
    fn next(state: ffi::State) -> (u16, ffi::Refusal) {
        let (mut after, mut record, mut refusal) = (state, [7; ffi::RECORD], [7; ffi::REFUSAL]);
        let number = ffi::sheet_next(FILE, &mut after, &mut record, &mut refusal);
        assert_eq!((after, record), (state, [7; ffi::RECORD]));
        (number, refusal)
    }

    /// What a put and the close say of a writer's state, with the reader's number; and that they leave state and buffer.
    fn put_and_close(state: ffi::State) -> [(u16, u64); 2] {
        let (mut after, mut out, mut record, mut own) = (state, [b'!'; 99], [0; ffi::RECORD], [7; 2]);
        record[0] = 1;
        let numbers = [
            ffi::writer_put(&mut out, &mut after, &record, FILE, &mut own[0]),
            ffi::writer_close(&mut out, &mut after, &mut own[1]),
        ];
        assert_eq!((after, out), (state, [b'!'; 99]));
        [(numbers[0], own[0]), (numbers[1], own[1])]
    }

    fn state(place: u64, second: u64) -> ffi::State {
        let mut state = [0; ffi::STATE];
        state[0] = place;
        state[1] = second;
        state
    }

    #[test]
    fn never_opened() {
        for place in [0, 100] {
            for second in [0, 2, 20, 24, 255, 256, 257, 65_535, 65_536, 65_537, u64::MAX] {
                assert_eq!(next(state(place, second)), (24, [place, 0, 0, 0]));
                assert_eq!(put_and_close(state(place, second)), [(34, 24); 2]);
            }
        }
    }

    #[test]
    fn refused_on_opening() {
        for (second, number) in [(21, 20), (22, 21), (23, 22)] {
            assert_eq!(next(state(5, second)), (number, [5, 0, 0, 0]));
        }
        let mut opened = [0; ffi::STATE];
        let number = ffi::sheet_open(b"JAHIS5", &mut opened);
        assert_eq!((number, opened), (21, state(6, 22)));
    }

    #[test]
    fn outside_the_file() {
        for place in [14, 15, 16_384, u64::MAX] {
            assert_eq!(next(state(place, 1)), (23, [place, 0, 0, 0]));
        }
        // At its 1Ah: the end only after a drug.
        assert_eq!(next(state(13, 1)), (32, [13, 0, 0, 0]));
    }

    #[test]
    fn no_room_leaves_the_state() {
        let (mut after, mut out) = ([7; ffi::STATE], [b'!'; 8]);
        let number = ffi::writer_open(&mut out, &mut after);
        assert_eq!((number, after, out), (33, [7; ffi::STATE], [b'!'; 8]));
    }
}
