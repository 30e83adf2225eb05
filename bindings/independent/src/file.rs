//! The whole file: its frame, its version line, and its records one by one.

use crate::number;
use crate::order::Order;
use crate::record::{is_known, Record};
use crate::rules::{Fault, Raw, FIELD_COUNT};

/// "At most 16,384 bytes."
pub const LONGEST: usize = 16_384;

/// The version line.
pub(crate) const VERSION: &[u8] = b"JAHIS5";

/// The byte that ends a file.
pub(crate) const END: u8 = 0x1a;

/// A refusal of a file. What does not apply is 0.
#[derive(Clone, Copy, Debug, PartialEq, Eq)]
pub struct FileRefusal {
    /// The number in the table of refusals.
    pub number: u16,
    /// The offset: with 20 to 22 as the table says, else that of the record's first byte, or of the
    /// closing 1Ah.
    pub at: usize,
    /// The field, from 1.
    pub field: usize,
    /// With 29, the number that the code was refused with.
    pub code: u16,
    /// With 29, the place in the code.
    pub place: usize,
}

impl FileRefusal {
    pub(crate) fn new(number: u16, at: usize) -> Self {
        FileRefusal { number, at, field: 0, code: 0, place: 0 }
    }

    fn of(fault: Fault, at: usize) -> Self {
        let (code, place) = fault.code.map_or((0, 0), |own| (own.number, own.place));
        FileRefusal { number: fault.number, at, field: fault.field, code, place }
    }
}

/// The first offset at which no well framed file agrees. "Well framed is one or more such lines
/// (even empty), then 1Ah, at any length." "Other bytes below 20h, and 7Fh, never stand."
fn frame_fault(file: &[u8]) -> Option<usize> {
    let mut line = 0;
    loop {
        let stop = file[line..].iter().position(|&b| b < 0x20 || b == 0x7f);
        let at = stop.map_or(file.len(), |within| line + within);
        match file[at..] {
            [b'\r', b'\n', ..] => line = at + 2,
            [b'\r', ..] => return Some(at + 1),
            [END] if at == line && line > 0 => return None,
            [END, ..] if at == line && line > 0 => return Some(at + 1),
            _ => return Some(at),
        }
    }
}

/// Hands out the records of a lent file one at a time.
#[derive(Clone, Debug)]
pub struct Reader<'a> {
    file: &'a [u8],
    at: usize,
    order: Order,
}

impl<'a> Reader<'a> {
    /// Opens a file: "20, 21, 22" come here, before any record.
    pub fn open(file: &'a [u8]) -> Result<Self, FileRefusal> {
        if file.len() > LONGEST {
            return Err(FileRefusal::new(20, 0));
        }
        if let Some(at) = frame_fault(file) {
            return Err(FileRefusal::new(21, at));
        }
        match file.strip_prefix(VERSION) {
            Some([b'\r', ..]) => Ok(Reader { file, at: VERSION.len() + 2, order: Order::new() }),
            _ => Err(FileRefusal::new(22, 0)),
        }
    }

    /// A reader at a place that no reading got to, perhaps outside the file, as if no record stood before it.
    pub fn at(file: &'a [u8], at: usize) -> Self {
        Reader { file, at, order: Order::new() }
    }

    /// The place: the offset of the line that comes next.
    pub fn offset(&self) -> usize {
        self.at
    }

    /// The next record, or `None` at the end. "After a refusal it refuses the same again; after the
    /// end it says the end again": neither moves the reader.
    pub fn read(&mut self) -> Result<Option<Record<'a>>, FileRefusal> {
        // Outside the file there is no record, so no record number either.
        let rest = self.file.get(self.at..).filter(|rest| !rest.is_empty()).ok_or(FileRefusal::new(23, self.at))?;
        if rest[0] == END {
            return match self.order.stage.is_whole() {
                true => Ok(None),
                false => Err(FileRefusal::new(32, self.at)),
            };
        }
        let length = rest.iter().position(|&b| b == b'\r').unwrap_or(rest.len());
        let record = self.read_line(&rest[..length])?;
        self.at += length + 2;
        Ok(Some(record))
    }

    /// "Each record by 23, 24, 32, 25, then field by field."
    fn read_line(&mut self, line: &'a [u8]) -> Result<Record<'a>, FileRefusal> {
        let at = self.at;
        let (number, fields) = match line.iter().position(|&b| b == b',') {
            Some(comma) => (&line[..comma], Some(&line[comma + 1..])),
            None => (line, None),
        };
        let number = record_number(number).ok_or(FileRefusal::new(23, at))?;
        let stage = self.order.stage.step(number).map_err(|number| FileRefusal::new(number, at))?;
        let record = fields
            .ok_or(FIELD_COUNT)
            .and_then(|fields| Raw::of_line(number, fields)?.judge(&self.order))
            .map_err(|fault| FileRefusal::of(fault, at))?;
        self.order.advance(stage, &record);
        Ok(record)
    }
}

/// A known record number, as written.
fn record_number(text: &[u8]) -> Option<u16> {
    let number = number::read(text)?.try_into().ok()?;
    is_known(number).then_some(number)
}

/// The records in turn. After a refusal every further item is that refusal again.
impl<'a> Iterator for Reader<'a> {
    type Item = Result<Record<'a>, FileRefusal>;

    fn next(&mut self) -> Option<Self::Item> {
        self.read().transpose()
    }
}

/// Checks a whole file and counts its lines, the version line with them.
pub fn check(file: &[u8]) -> Result<usize, FileRefusal> {
    let mut reader = Reader::open(file)?;
    let mut lines = 1;
    while reader.read()?.is_some() {
        lines += 1;
    }
    Ok(lines)
}
