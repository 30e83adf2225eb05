//! The library, through its C interface.

use crate::seen::see;
use crate::sheets::Asked;
use yawsimbel_sys::*;

/// How many lines a sheet has, or its refusal's number.
pub fn check(file: &[u8]) -> Result<usize, u16> {
    let (mut records, mut refusal) = (0, [0; REFUSAL]);
    // SAFETY: `file` is a slice of that length, the others are what the header asks for, and none overlaps another.
    match unsafe { yws_sheet_check(file.as_ptr(), file.len() as u64, &mut records, &mut refusal) } {
        0 => Ok(records as usize),
        number => Err(number),
    }
}

/// Hands every record of a sheet to `take`; how many lines it has, or its refusal's number.
fn each(file: &[u8], mut take: impl FnMut(&Record)) -> Result<usize, u16> {
    let (mut state, mut record, mut refusal) = ([0; STATE], [0; RECORD], [0; REFUSAL]);
    let mut lines = 1;
    // SAFETY: as in `check`.
    let mut number = unsafe { yws_sheet_open(file.as_ptr(), file.len() as u64, &mut state) };
    while number == 0 {
        // SAFETY: as in `check`; the file is the one that was opened.
        number = unsafe { yws_sheet_next(file.as_ptr(), file.len() as u64, &mut state, &mut record, &mut refusal) };
        if number == 0 {
            take(&record);
            lines += 1;
        }
    }
    match number {
        END => Ok(lines),
        number => Err(number),
    }
}

/// Reads every record; how many lines there are, or the refusal's number.
pub fn read(file: &[u8]) -> Result<usize, u16> {
    each(file, |record| {
        see(record);
    })
}

/// Reads every record and writes it again; the length written, or the refusal's number.
pub fn write(file: &[u8], out: &mut [u8]) -> Result<usize, u16> {
    let (mut state, mut own, mut number) = ([0; STATE], 0, 0);
    let (start, room) = (out.as_mut_ptr(), out.len() as u64);
    // SAFETY: `out` is a slice of that length, the others are what the header asks for, and none overlaps another.
    unsafe { yws_writer_open(start, room, &mut state) };
    each(file, |record| {
        // SAFETY: as above, and `file` is a slice of that length, which the texts lie in.
        number |=
            unsafe { yws_writer_put(start, room, &mut state, record, file.as_ptr(), file.len() as u64, &mut own) };
    })?;
    // SAFETY: as above.
    number |= unsafe { yws_writer_close(start, room, &mut state, &mut own) };
    match number {
        0 => Ok(state[0] as usize),
        number => Err(number),
    }
}

/// The longest calendar of an RP; its days, or the refusal's number.
pub fn calendar(file: &[u8], asked: Asked, out: &mut [u8]) -> Result<usize, u16> {
    let (mut refusal, [year, month, day]) = ([0; REFUSAL], asked.start);
    let (from, length, to, room) = (file.as_ptr(), file.len() as u64, out.as_mut_ptr(), out.len() as u64);
    // SAFETY: as in `check`, and `out` is a slice of that length.
    let number =
        unsafe { yws_calendar(from, length, asked.rp, year, month, day, DAYS_MOST as u32, to, room, &mut refusal) };
    match number {
        0 => Ok(DAYS_MOST),
        number => Err(number),
    }
}

/// Opens a sheet only: the tests of its length, its frame and its version line.
pub fn open(file: &[u8]) -> bool {
    let mut state = [0; STATE];
    // SAFETY: as in `check`.
    unsafe { yws_sheet_open(file.as_ptr(), file.len() as u64, &mut state) == 0 }
}

/// The numbers of a usage code.
pub fn usage_read(code: &[u8]) -> Usage {
    let (mut numbers, mut place) = ([0; USAGE], 0);
    // SAFETY: as in `check`.
    unsafe { yws_usage_read(code.as_ptr(), code.len() as u64, &mut numbers, &mut place) };
    numbers
}

/// The usage code of numbers.
pub fn usage_write(numbers: &Usage) -> [u8; 16] {
    let mut code = [0; 16];
    // SAFETY: as in `check`.
    unsafe { yws_usage_write(numbers, &mut code) };
    code
}

/// The numbers of a supplementary code.
pub fn supplement_read(code: &[u8]) -> Supplement {
    let (mut numbers, mut place) = ([0; SUPPLEMENT], 0);
    // SAFETY: as in `check`.
    unsafe { yws_supplement_read(code.as_ptr(), code.len() as u64, &mut numbers, &mut place) };
    numbers
}

/// The supplementary code of numbers.
pub fn supplement_write(numbers: &Supplement) -> [u8; 8] {
    let mut code = [0; 8];
    // SAFETY: as in `check`.
    unsafe { yws_supplement_write(numbers, &mut code) };
    code
}
