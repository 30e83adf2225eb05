//! Days of the week.

use core::fmt;
use core::iter::FusedIterator;

/// A day of the week.
#[derive(Clone, Copy, Debug, PartialEq, Eq, PartialOrd, Ord, Hash)]
#[repr(u8)]
pub enum Weekday {
    /// 日
    Sunday,
    /// 月
    Monday,
    /// 火
    Tuesday,
    /// 水
    Wednesday,
    /// 木
    Thursday,
    /// 金
    Friday,
    /// 土
    Saturday,
}

impl Weekday {
    /// All of them, Sunday first, as a code has them.
    pub const ALL: [Weekday; 7] = [
        Weekday::Sunday,
        Weekday::Monday,
        Weekday::Tuesday,
        Weekday::Wednesday,
        Weekday::Thursday,
        Weekday::Friday,
        Weekday::Saturday,
    ];
}

/// A set of days of the week.
///
/// ```
/// use yawsimbel::{Supplement, Week, Weekday};
///
/// let week: Week = [Weekday::Thursday, Weekday::Monday].into_iter().collect();
/// assert_eq!(format!("{week:?}"), "{Monday, Thursday}");
/// assert_eq!(Supplement::Week(week).write()?.as_str(), "W0100100");
/// # Ok::<(), yawsimbel::Reason>(())
/// ```
#[derive(Clone, Copy, Default, PartialEq, Eq, Hash)]
pub struct Week([bool; 7]);

impl Week {
    /// Whether the day stands in it.
    pub fn contains(&self, day: Weekday) -> bool {
        self.0[day as usize]
    }

    /// The days, Sunday first.
    pub fn iter(&self) -> WeekIter {
        WeekIter { left: self.0, at: 0 }
    }
}

impl IntoIterator for Week {
    type Item = Weekday;
    type IntoIter = WeekIter;

    fn into_iter(self) -> WeekIter {
        self.iter()
    }
}

impl IntoIterator for &Week {
    type Item = Weekday;
    type IntoIter = WeekIter;

    fn into_iter(self) -> WeekIter {
        self.iter()
    }
}

/// The days of a [`Week`].
#[derive(Clone, Debug)]
pub struct WeekIter {
    left: [bool; 7],
    at: usize,
}

impl Iterator for WeekIter {
    type Item = Weekday;

    fn next(&mut self) -> Option<Weekday> {
        self.at += self.left.get(self.at..)?.iter().position(|day| *day)? + 1;
        Weekday::ALL.get(self.at - 1).copied()
    }
}

impl FusedIterator for WeekIter {}

impl Extend<Weekday> for Week {
    fn extend<I: IntoIterator<Item = Weekday>>(&mut self, days: I) {
        days.into_iter().for_each(|day| self.0[day as usize] = true);
    }
}

impl FromIterator<Weekday> for Week {
    fn from_iter<I: IntoIterator<Item = Weekday>>(days: I) -> Week {
        let mut week = Week::default();
        week.extend(days);
        week
    }
}

/// Sunday first.
impl From<[bool; 7]> for Week {
    fn from(week: [bool; 7]) -> Week {
        Week(week)
    }
}

/// Sunday first.
impl From<Week> for [bool; 7] {
    fn from(week: Week) -> [bool; 7] {
        week.0
    }
}

impl fmt::Debug for Week {
    fn fmt(&self, f: &mut fmt::Formatter<'_>) -> fmt::Result {
        f.debug_set().entries(self).finish()
    }
}
