//! Sets of days, and the runs of date codes that name them.

use core::error::Error;
use core::fmt;
use core::iter::FusedIterator;

use crate::ffi;
use crate::Reason;

/// A day, 1 to 31, of a named month or of every month. Whether a month has it is seen when the set that it is in is written.
///
/// ```
/// use yawsimbel::Day;
///
/// let day = Day::of_month(12, 10)?;
/// assert_eq!((day.month(), day.day()), (Some(12), 10));
/// assert_eq!(day, Day::try_from((12, 10))?);
/// assert!(Day::of_every_month(32).is_err());
/// # Ok::<(), yawsimbel::Reason>(())
/// ```
#[derive(Clone, Copy, PartialEq, Eq, PartialOrd, Ord, Hash)]
pub struct Day {
    month: Option<u8>,
    day: u8,
}

impl Day {
    /// A day of a month, 1 to 12. [`Reason::DaySet`] where there is no such month, or the day is not 1 to 31.
    pub const fn of_month(month: u8, day: u8) -> Result<Day, Reason> {
        match (month, day) {
            (1..=12, 1..=31) => Ok(Day { month: Some(month), day }),
            _ => Err(Reason::DaySet),
        }
    }

    /// A day of every month. [`Reason::DaySet`] where it is not 1 to 31.
    pub const fn of_every_month(day: u8) -> Result<Day, Reason> {
        match day {
            1..=31 => Ok(Day { month: None, day }),
            _ => Err(Reason::DaySet),
        }
    }

    /// Its month; `None` for every month.
    pub const fn month(self) -> Option<u8> {
        self.month
    }

    /// 1 to 31.
    pub const fn day(self) -> u8 {
        self.day
    }

    /// Its mask among a set's, and its bit in that.
    fn place(self) -> (usize, u32) {
        (self.month.map_or(0, usize::from), 1 << (self.day - 1))
    }
}

/// Month and day.
impl TryFrom<(u8, u8)> for Day {
    type Error = Reason;

    fn try_from((month, day): (u8, u8)) -> Result<Day, Reason> {
        Day::of_month(month, day)
    }
}

/// The day of every month.
impl TryFrom<u8> for Day {
    type Error = Reason;

    fn try_from(day: u8) -> Result<Day, Reason> {
        Day::of_every_month(day)
    }
}

/// Month and day, as `12:10`; `0:10` for every month.
impl fmt::Display for Day {
    fn fmt(&self, f: &mut fmt::Formatter<'_>) -> fmt::Result {
        write!(f, "{}:{}", self.month.unwrap_or(0), self.day)
    }
}

impl fmt::Debug for Day {
    fn fmt(&self, f: &mut fmt::Formatter<'_>) -> fmt::Result {
        fmt::Display::fmt(self, f)
    }
}

/// Days of every month, or of named months.
///
/// ```
/// use yawsimbel::{Day, DaySet, Reason};
///
/// let set: DaySet = [(12, 10), (12, 20), (12, 30), (1, 15), (1, 30)].into_iter().map(Day::try_from).collect::<Result<_, _>>()?;
/// let mut out = [0; DaySet::LONGEST_RUN];
/// assert_eq!(set.write(12, &mut out)?, b"DCAKU000D1FU0000");
/// # Ok::<(), Reason>(())
/// ```
#[derive(Clone, Copy, Default, PartialEq, Eq, Hash)]
pub struct DaySet {
    masks: ffi::Days,
}

/// A refusal of a run.
///
/// ```
/// let refusal = yawsimbel::DaySet::read(1, b"DCAKU000D1FU0000").unwrap_err();
/// assert_eq!(refusal.to_string(), "the date codes do not follow each other, or there are none (12) at code 2");
/// ```
#[derive(Clone, Copy, Debug, PartialEq, Eq, Hash)]
#[non_exhaustive]
pub struct RunRefusal {
    /// Why.
    pub reason: Reason,
    /// The character at fault; for [`Reason::Run`] the code's number; 0 for none.
    pub place: u64,
    /// The number, counted from 1, of a code that is refused by itself; else 0.
    pub code: u64,
}

impl fmt::Display for RunRefusal {
    fn fmt(&self, f: &mut fmt::Formatter<'_>) -> fmt::Result {
        self.reason.fmt(f)?;
        match (self.code, self.place) {
            (0, 0) => Ok(()),
            (0, code) => write!(f, " at code {}", code),
            (code, 0) => write!(f, " at code {}", code),
            (code, place) => write!(f, " at character {} of code {}", place, code),
        }
    }
}

impl Error for RunRefusal {}

impl DaySet {
    /// Bytes of the longest run.
    pub const LONGEST_RUN: usize = ffi::RUN_MOST;

    /// No day.
    pub fn new() -> DaySet {
        DaySet::default()
    }

    /// Reads a run of codes, one after another, of a sheet issued in the month `issue`. [`Reason::IssueMonth`], [`Reason::Length`],
    /// [`Reason::Run`], or the refusal of one of its codes.
    pub fn read(issue: u8, codes: &[u8]) -> Result<DaySet, RunRefusal> {
        let mut masks = [0; ffi::DAYS];
        let mut refusal = [0; 2];
        match ffi::run_read(issue, codes, &mut masks, &mut refusal) {
            0 => Ok(DaySet { masks }),
            number => Err(RunRefusal { reason: Reason::of(number), place: refusal[0], code: refusal[1] }),
        }
    }

    /// Writes the set's run into the front of `out` and returns it. [`Reason::IssueMonth`], [`Reason::DaySet`] or [`Reason::Room`]; a refusal
    /// leaves `out` as it was.
    pub fn write<'a>(&self, issue: u8, out: &'a mut [u8]) -> Result<&'a [u8], Reason> {
        let mut count = 0;
        match ffi::set_write(issue, &self.masks, out, &mut count) {
            0 => Ok(&out[..8 * count as usize]),
            number => Err(Reason::of(number)),
        }
    }

    /// Whether the day stands in it. A day of every month does not stand for that of each.
    pub fn contains(&self, day: Day) -> bool {
        let (cell, bit) = day.place();
        self.masks[cell] & bit != 0
    }

    /// Adds a day; false where it was there.
    pub fn insert(&mut self, day: Day) -> bool {
        let (cell, bit) = day.place();
        let new = self.masks[cell] & bit == 0;
        self.masks[cell] |= bit;
        new
    }

    /// Takes a day out; false where it was not there.
    pub fn remove(&mut self, day: Day) -> bool {
        let (cell, bit) = day.place();
        let old = self.masks[cell] & bit != 0;
        self.masks[cell] &= !bit;
        old
    }

    /// How many days there are.
    pub fn len(&self) -> usize {
        self.masks.iter().map(|mask| mask.count_ones() as usize).sum()
    }

    /// Whether there is none.
    pub fn is_empty(&self) -> bool {
        self.masks.iter().all(|mask| *mask == 0)
    }

    /// The days, those of every month first, then by month, rising.
    pub fn iter(&self) -> DaySetIter {
        DaySetIter { masks: self.masks }
    }
}

impl Extend<Day> for DaySet {
    fn extend<I: IntoIterator<Item = Day>>(&mut self, days: I) {
        days.into_iter().for_each(|day| {
            self.insert(day);
        });
    }
}

impl FromIterator<Day> for DaySet {
    fn from_iter<I: IntoIterator<Item = Day>>(days: I) -> DaySet {
        let mut set = DaySet::new();
        set.extend(days);
        set
    }
}

impl IntoIterator for DaySet {
    type Item = Day;
    type IntoIter = DaySetIter;

    fn into_iter(self) -> DaySetIter {
        self.iter()
    }
}

impl IntoIterator for &DaySet {
    type Item = Day;
    type IntoIter = DaySetIter;

    fn into_iter(self) -> DaySetIter {
        self.iter()
    }
}

impl fmt::Debug for DaySet {
    fn fmt(&self, f: &mut fmt::Formatter<'_>) -> fmt::Result {
        f.debug_set().entries(self).finish()
    }
}

/// The days of a [`DaySet`].
#[derive(Clone, Debug)]
pub struct DaySetIter {
    masks: ffi::Days,
}

impl Iterator for DaySetIter {
    type Item = Day;

    fn next(&mut self) -> Option<Day> {
        let (cell, mask) = self.masks.iter_mut().enumerate().find(|(_, mask)| **mask != 0)?;
        let bit = mask.trailing_zeros() as u8;
        *mask &= *mask - 1;
        Some(Day { month: (cell != 0).then_some(cell as u8), day: bit + 1 })
    }
}

impl FusedIterator for DaySetIter {}
