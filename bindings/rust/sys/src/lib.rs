//! The functions of `include/yawsimbel.h`, which says what each promises.
//!
//! Arrays are passed by reference: a reference to an array is a pointer to its first element, never NULL. The crate `yawsimbel` is safe Rust over
//! these.
#![no_std]
#![warn(missing_docs)]

/// What [`yws_sheet_next`] returns after the last record.
pub const END: u16 = 65_535;

/// Numbers of a usage code.
pub const USAGE: usize = 29;
/// Numbers of a supplementary code.
pub const SUPPLEMENT: usize = 22;
/// Masks of a set of days.
pub const DAYS: usize = 13;
/// Numbers of a date.
pub const DATE: usize = 4;
/// Numbers of a record.
pub const RECORD: usize = 40;
/// Numbers of a reader's or a writer's state.
pub const STATE: usize = 16;
/// Numbers of a sheet's refusal.
pub const REFUSAL: usize = 4;
/// Bytes of the longest file.
pub const FILE_MOST: usize = 16_384;
/// Bytes of the longest run, 67 codes of 8.
pub const RUN_MOST: usize = 536;
/// Days of the longest dose calendar, a byte each.
pub const DAYS_MOST: usize = 366;

/// A usage code.
pub type Usage = [u64; USAGE];
/// A supplementary code.
pub type Supplement = [u64; SUPPLEMENT];
/// A set of days.
pub type Days = [u32; DAYS];
/// A date.
pub type Date = [u64; DATE];
/// A record.
pub type Record = [u64; RECORD];
/// A state.
pub type State = [u64; STATE];
/// A sheet's refusal.
pub type Refusal = [u64; REFUSAL];

extern "C" {
    /// Reads a usage code.
    pub fn yws_usage_read(code: *const u8, length: u64, numbers: &mut Usage, place: &mut u64) -> u16;

    /// Writes a usage code.
    pub fn yws_usage_write(numbers: &Usage, code: &mut [u8; 16]) -> u16;

    /// Reads a supplementary code.
    pub fn yws_supplement_read(code: *const u8, length: u64, numbers: &mut Supplement, place: &mut u64) -> u16;

    /// Writes a supplementary code.
    pub fn yws_supplement_write(numbers: &Supplement, code: &mut [u8; 8]) -> u16;

    /// Reads a run of date codes.
    pub fn yws_run_read(issue: u8, codes: *const u8, length: u64, days: &mut Days, refusal: &mut [u64; 2]) -> u16;

    /// Writes the run for a set of days.
    pub fn yws_set_write(issue: u8, days: &Days, out: *mut u8, room: u64, count: &mut u64) -> u16;

    /// Checks a whole file.
    pub fn yws_sheet_check(file: *const u8, length: u64, records: &mut u64, refusal: &mut Refusal) -> u16;

    /// Begins to read a file.
    pub fn yws_sheet_open(file: *const u8, length: u64, state: &mut State) -> u16;

    /// Reads the next record.
    pub fn yws_sheet_next(
        file: *const u8,
        length: u64,
        state: &mut State,
        record: &mut Record,
        refusal: &mut Refusal,
    ) -> u16;

    /// Writes the dose calendar of an RP.
    pub fn yws_calendar(
        file: *const u8,
        length: u64,
        rp: u32,
        year: u32,
        month: u32,
        day: u32,
        days: u32,
        doses: *mut u8,
        room: u64,
        refusal: &mut Refusal,
    ) -> u16;

    /// Begins to write a file.
    pub fn yws_writer_open(out: *mut u8, room: u64, state: &mut State) -> u16;

    /// Writes a record.
    pub fn yws_writer_put(
        out: *mut u8,
        room: u64,
        state: &mut State,
        record: &Record,
        lent: *const u8,
        length: u64,
        own: &mut u64,
    ) -> u16;

    /// Ends the file.
    pub fn yws_writer_close(out: *mut u8, room: u64, state: &mut State, own: &mut u64) -> u16;

    /// Makes a date.
    pub fn yws_date_make(year: u16, month: u8, day: u8, style: u8, numbers: &mut Date, text: &mut [u8; 8]) -> u16;
}
