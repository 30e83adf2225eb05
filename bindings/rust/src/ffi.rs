//! The library's functions, each lent slices: the one place that has unsafe code. The header says what each promises.

#![allow(unsafe_code)]

pub(crate) use yawsimbel_sys::{
    Date, Days, Record, Refusal, State, Supplement, Usage, DAYS, DAYS_MOST, END, FILE_MOST, RECORD, REFUSAL, RUN_MOST,
    STATE, SUPPLEMENT, USAGE,
};

use yawsimbel_sys as sys;

// SAFETY, of every call below: a slice's pointer is not NULL and has that many bytes; an array that is borrowed has the length that its type says;
// what is written is borrowed mutably, so it overlaps nothing else; and no function keeps a pointer.

fn length(slice: &[u8]) -> u64 {
    slice.len() as u64
}

pub(crate) fn usage_read(code: &[u8], numbers: &mut Usage, place: &mut u64) -> u16 {
    // SAFETY: as above.
    unsafe { sys::yws_usage_read(code.as_ptr(), length(code), numbers, place) }
}

pub(crate) fn usage_write(numbers: &Usage, code: &mut [u8; 16]) -> u16 {
    // SAFETY: as above.
    unsafe { sys::yws_usage_write(numbers, code) }
}

pub(crate) fn supplement_read(code: &[u8], numbers: &mut Supplement, place: &mut u64) -> u16 {
    // SAFETY: as above.
    unsafe { sys::yws_supplement_read(code.as_ptr(), length(code), numbers, place) }
}

pub(crate) fn supplement_write(numbers: &Supplement, code: &mut [u8; 8]) -> u16 {
    // SAFETY: as above.
    unsafe { sys::yws_supplement_write(numbers, code) }
}

pub(crate) fn run_read(issue: u8, codes: &[u8], days: &mut Days, refusal: &mut [u64; 2]) -> u16 {
    // SAFETY: as above.
    unsafe { sys::yws_run_read(issue, codes.as_ptr(), length(codes), days, refusal) }
}

pub(crate) fn set_write(issue: u8, days: &Days, out: &mut [u8], count: &mut u64) -> u16 {
    // SAFETY: as above.
    unsafe { sys::yws_set_write(issue, days, out.as_mut_ptr(), length(out), count) }
}

pub(crate) fn sheet_check(file: &[u8], records: &mut u64, refusal: &mut Refusal) -> u16 {
    // SAFETY: as above.
    unsafe { sys::yws_sheet_check(file.as_ptr(), length(file), records, refusal) }
}

pub(crate) fn sheet_open(file: &[u8], state: &mut State) -> u16 {
    // SAFETY: as above.
    unsafe { sys::yws_sheet_open(file.as_ptr(), length(file), state) }
}

/// Any state may be lent: the library answers whatever its numbers are.
pub(crate) fn sheet_next(file: &[u8], state: &mut State, record: &mut Record, refusal: &mut Refusal) -> u16 {
    // SAFETY: as above.
    unsafe { sys::yws_sheet_next(file.as_ptr(), length(file), state, record, refusal) }
}

/// Any numbers may be handed in. The start is a year, a month and a day.
pub(crate) fn calendar(
    file: &[u8],
    rp: u32,
    [year, month, day]: [u32; 3],
    days: u32,
    doses: &mut [u8],
    refusal: &mut Refusal,
) -> u16 {
    let (file_length, room) = (length(file), length(doses));
    // SAFETY: as above.
    unsafe {
        sys::yws_calendar(file.as_ptr(), file_length, rp, year, month, day, days, doses.as_mut_ptr(), room, refusal)
    }
}

pub(crate) fn writer_open(out: &mut [u8], state: &mut State) -> u16 {
    // SAFETY: as above.
    unsafe { sys::yws_writer_open(out.as_mut_ptr(), length(out), state) }
}

pub(crate) fn writer_put(out: &mut [u8], state: &mut State, record: &Record, lent: &[u8], own: &mut u64) -> u16 {
    // SAFETY: as above.
    unsafe { sys::yws_writer_put(out.as_mut_ptr(), length(out), state, record, lent.as_ptr(), length(lent), own) }
}

pub(crate) fn writer_close(out: &mut [u8], state: &mut State, own: &mut u64) -> u16 {
    // SAFETY: as above.
    unsafe { sys::yws_writer_close(out.as_mut_ptr(), length(out), state, own) }
}

pub(crate) fn date_make(year: u16, month: u8, day: u8, style: u8, numbers: &mut Date, text: &mut [u8; 8]) -> u16 {
    // SAFETY: as above.
    unsafe { sys::yws_date_make(year, month, day, style, numbers, text) }
}
