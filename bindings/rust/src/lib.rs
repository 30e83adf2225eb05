//! Japanese prescription files (JAHIS Ver.1.4), and the usage and supplementary codes in them, read and written; and the doses that they give a day.
//!
//! A safe cover over the C interface of a library that is proved. Nothing is allocated: texts are parts of the file that was read, and files
//! are written into a buffer of the caller's.
//!
//! ```
//! use yawsimbel::{check, Record, Sheet};
//!
//! fn drugs(file: &[u8]) -> Result<(), yawsimbel::SheetRefusal> {
//!     // The whole sheet first: nothing is told of one that is refused further on.
//!     check(file)?;
//!     for record in Sheet::open(file) {
//!         if let Record::Drug(drug) = record? {
//!             println!("RP {}: {:?}, {} {:?}", drug.rp, drug.name, drug.amount, drug.unit);
//!         }
//!     }
//!     Ok(())
//! }
//!
//! let refusal = drugs(b"JAHIS4\r\n\x1a").unwrap_err();
//! assert_eq!(refusal.to_string(), "the first line is not JAHIS5 (22) at byte 0");
//! ```
//!
//! With the feature `utf8` (in `utf8/Cargo.toml`; off by default) `Text::to_str` hands a text out as a `str`.
#![no_std]
#![deny(unsafe_code)]
#![warn(missing_docs)]

#[cfg(feature = "utf8")]
extern crate alloc;

mod amount;
mod calendar;
mod code;
mod date;
mod days;
mod detail;
mod event;
mod few;
mod ffi;
mod kinds;
mod reason;
mod record;
mod sheet;
mod supplement;
mod text;
mod usage;
#[cfg(feature = "utf8")]
mod utf8;
mod week;

pub use amount::Amount;
pub use calendar::{Calendar, CalendarRefusal};
pub use code::{Code, SupplementCode, UsageCode};
pub use date::{Date, DateText, Era, Style};
pub use days::{Day, DaySet, DaySetIter, RunRefusal};
pub use detail::{Class, Detail};
pub use event::{Condition, Event};
pub use few::{DatesOfMonth, Few, Hours};
pub use kinds::{AmountOf, DrugCode, DrugKind, Form, SupplementKind};
pub use reason::{CodeRefusal, Reason};
pub use record::{DrugRecord, KeptRecord, Record, RpRecord, SupplementRecord, UsageRecord};
pub use sheet::{check, Sheet, SheetRefusal, WriteRefusal, Writer, LONGEST_FILE};
pub use supplement::{Period, Supplement};
pub use text::Text;
pub use usage::{About, Evening, Meal, Morning, Timing, Usage};
#[cfg(feature = "utf8")]
pub use utf8::TextRefusal;
pub use week::{Week, WeekIter, Weekday};

/// The program that README.md shows.
#[cfg(doctest)]
#[doc = include_str!("../README.md")]
struct Readme;
