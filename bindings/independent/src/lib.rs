//! Prescription sheets, read and written: usage codes of sixteen characters, supplementary codes of
//! eight, runs of date codes, and the whole file; and the doses of an RP, day by day.
//!
//! Every rule quotes or cites document 01, "What we are building and its rules", or document 02,
//! "Customer requests after the base", where it changes a rule of 01 or adds one. Numbers of refusals
//! are those of 01's table "Numbers a caller gets back", and those that 02 adds. Characters, codes and
//! fields count from 1, offsets from 0.

pub mod calendar;
pub mod date;
pub mod days;
pub mod file;
pub mod number;
pub mod order;
pub mod record;
mod rules;
pub mod supplement;
pub mod text;
pub mod usage;
pub mod writer;

/// A refusal of a code, a day set or a date: its number and the place it names.
#[derive(Clone, Copy, Debug, PartialEq, Eq)]
pub struct Refusal {
    /// The number in the table of refusals.
    pub number: u16,
    /// The character at fault, counted from 1; 0 where no place is named.
    pub place: usize,
}

impl Refusal {
    pub(crate) const fn new(number: u16, place: usize) -> Self {
        Refusal { number, place }
    }
}

/// "Every character not named below is 0": 6 at the first one, from `place` on, that is not.
pub(crate) fn zeros_from(code: &[u8], place: usize) -> Result<(), Refusal> {
    match code[place - 1..].iter().position(|&c| c != b'0') {
        None => Ok(()),
        Some(beyond) => Err(Refusal::new(6, place + beyond)),
    }
}
