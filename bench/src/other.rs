//! The independent implementation.

use crate::seen::see;
use crate::sheets::Asked;
use independent::calendar::{self, MOST_DAYS};
use independent::file::{self, Reader};
use independent::writer::Writer;

/// How many lines a sheet has, or its refusal's number.
pub fn check(file: &[u8]) -> Result<usize, u16> {
    file::check(file).map_err(|refusal| refusal.number)
}

/// Reads every record; how many lines there are, or the refusal's number.
pub fn read(file: &[u8]) -> Result<usize, u16> {
    let mut lines = 1;
    for record in Reader::open(file).map_err(|refusal| refusal.number)? {
        see(&record.map_err(|refusal| refusal.number)?);
        lines += 1;
    }
    Ok(lines)
}

/// Reads every record and writes it again; the length written, or the refusal's number.
pub fn write(file: &[u8], out: &mut [u8]) -> Result<usize, u16> {
    let mut writer = Writer::open(out).map_err(|refusal| refusal.number())?;
    for record in Reader::open(file).map_err(|refusal| refusal.number)? {
        let record = record.map_err(|refusal| refusal.number)?;
        writer.put(&record).map_err(|refusal| refusal.number())?;
    }
    writer.close().map_err(|refusal| refusal.number())
}

/// The longest calendar of an RP; its days, or the refusal's number.
pub fn calendar(file: &[u8], asked: Asked, out: &mut [u8]) -> Result<usize, u16> {
    let filled = calendar::fill(file, asked.rp, asked.start, MOST_DAYS as u32, out);
    filled.map(|()| MOST_DAYS).map_err(|refusal| refusal.number)
}

/// Opens a sheet only.
pub fn open(file: &[u8]) -> bool {
    Reader::open(file).is_ok()
}
