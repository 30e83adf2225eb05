//! The dose calendar: how many doses of an RP fall on each day from a start date on. Its rules are those
//! of document 02, ticket 3, and are quoted from it.

use crate::date::{exists, last_of_month, Day};
use crate::days::DaySet;
use crate::file::{FileRefusal, Reader};
use crate::record::Record;
use crate::supplement::{Supplement, Week};
use crate::usage::{Instruction, Timing};

/// "A number of days, 1 to 366."
pub const MOST_DAYS: usize = 366;

/// Writes the doses of each day into the front of a lent output, a place a day, the start date first.
/// The start is a year, a month and a day. Any numbers may be handed in; none wraps.
///
/// "Refusals: the file's own; 53 no such RP; 51 for a bad number of days, a start that is no day from
/// 1868 to 2099, or one before the issue date; then 50 where the RP has a C supplement, no code, kind 5,
/// or an about or range count; then 33 exactly when the lent output has fewer places than days." But for
/// the file's own, all places are 0. A refusal leaves the output as it was.
pub fn fill(file: &[u8], rp: u32, start: [u32; 3], days: u32, output: &mut [u8]) -> Result<(), FileRefusal> {
    let refusal = |number| FileRefusal::new(number, 0);
    let regimen = Regimen::find(file, rp)?.ok_or(refusal(53))?;
    let days = usize::try_from(days).ok().filter(|days| (1..=MOST_DAYS).contains(days)).ok_or(refusal(51))?;
    let start = day_of(start).filter(|start| *start >= regimen.issue).ok_or(refusal(51))?;
    let doses = regimen.doses().ok_or(refusal(50))?;
    let output = output.get_mut(..days).ok_or(refusal(33))?;
    output.copy_from_slice(&regimen.calendar(start, doses)[..days]);
    Ok(())
}

/// The day of a year, a month and a day: "a day from 1868 to 2099".
fn day_of([year, month, day]: [u32; 3]) -> Option<Day> {
    let day = (year.try_into().ok()?, month.try_into().ok()?, day.try_into().ok()?);
    exists(day).then_some(day)
}

/// The day after, in any year: "Days past 2099 follow the same calendar."
fn day_after((year, month, day): Day) -> Day {
    match (month, day == last_of_month(year, month)) {
        (_, false) => (year, month, day + 1),
        (12, true) => (year + 1, 1, 1),
        (_, true) => (year, month + 1, 1),
    }
}

/// 0 is Sunday, 6 Saturday. A day of the year 1 or later.
fn weekday((year, month, day): Day) -> u32 {
    // 1 January of the year 1 is a Monday. A year has 52 weeks and a day, and a leap year a day more.
    let years = u32::from(year) - 1;
    let leap_days = years / 4 - years / 100 + years / 400;
    let months: u32 = (1..month).map(|month| u32::from(last_of_month(year, month))).sum();
    (years + leap_days + months + u32::from(day)) % 7
}

/// What a file says of the doses of one RP.
struct Regimen {
    /// "The issue date is record 51's."
    issue: Day,
    /// The RP's usage code.
    code: Option<Instruction>,
    /// Its supplements, taken together.
    when: When,
}

/// The days that the kind 8 records of an RP name.
enum When {
    /// "No supplement means every day."
    EveryDay,
    /// I
    OnOff { on: u8, off: u8 },
    /// W
    Week(Week),
    /// D: the days of all codes of the run.
    Dates(DaySet),
    /// C, which names no days.
    Times,
}

impl Regimen {
    /// What the file says of an RP; `None` where it has no such RP. The whole file is read, so a refusal
    /// comes also from after the RP.
    fn find(file: &[u8], rp: u32) -> Result<Option<Regimen>, FileRefusal> {
        let (mut issue, mut found) = ((0, 0, 0), None);
        for record in Reader::open(file)? {
            match record? {
                Record::Issue(date) => issue = (date.year, date.month, date.day),
                Record::Usage(usage) if u32::from(usage.rp.0) == rp => {
                    found = Some(Regimen { issue, code: usage.code, when: When::EveryDay });
                }
                Record::Extra(extra) if u32::from(extra.rp.0) == rp => {
                    if let (Some(found), Some(supplement)) = (&mut found, extra.supplement) {
                        found.when.add(supplement);
                    }
                }
                _ => {}
            }
        }
        Ok(found)
    }

    /// The doses of a day that has some: "Doses per day come from kinds 1, 2, 3 and 6, and from kind 7
    /// with 0 in the 5th." `None` is 50.
    fn doses(&self) -> Option<u8> {
        if let When::Times = self.when {
            return None;
        }
        match self.code?.timing {
            Timing::Meals(meals) => Some(meals.times()),
            Timing::Even { times, .. } => Some(times),
            Timing::Hours(hours) => Some(hours.times()),
            Timing::Parts(parts) => Some(parts.times()),
            Timing::Count { times, about: b'0' } => Some(times),
            Timing::Count { .. } | Timing::Event(_) => None,
        }
    }

    /// "The calendar begins as 366 days without a dose and is then filled."
    fn calendar(&self, start: Day, doses: u8) -> [u8; MOST_DAYS] {
        let mut calendar = [0; MOST_DAYS];
        let mut day = start;
        for (since, place) in calendar.iter_mut().enumerate() {
            if self.when.names(since, day, self.issue) {
                *place = doses;
            }
            day = day_after(day);
        }
        calendar
    }
}

impl When {
    /// With one supplement more. In a file that is taken only D codes come together, and V never.
    fn add(&mut self, supplement: Supplement) {
        *self = match supplement {
            Supplement::OnOff { on, off } => When::OnOff { on, off },
            Supplement::Week(week) => When::Week(week),
            Supplement::Dates(dates) => {
                let mut set = match self {
                    When::Dates(set) => *set,
                    _ => DaySet::default(),
                };
                set.0[usize::from(dates.month)] |= dates.days;
                When::Dates(set)
            }
            Supplement::Cycle { .. } | Supplement::Unequal(_) => When::Times,
        };
    }

    /// Whether a day has doses, so many days after the start.
    fn names(&self, since: usize, day: Day, issue: Day) -> bool {
        match self {
            When::EveryDay => true,
            // "I runs its days on, then its days off, from the start date."
            When::OnOff { on, off } => since % (usize::from(*on) + usize::from(*off)) < usize::from(*on),
            // "W goes by weekday"
            When::Week(week) => week.0 >> weekday(day) & 1 == 1,
            // "D by date; an every-month 31 gives nothing in a shorter month."
            When::Dates(set) => {
                let of_month = |month: u8| set.0[usize::from(month)] >> (day.2 - 1) & 1 == 1;
                of_month(0) || (of_month(day.1) && is_in_window(day, issue))
            }
            When::Times => false,
        }
    }
}

/// "Named months count only in the twelve months that begin with the issue month."
fn is_in_window(day: Day, issue: Day) -> bool {
    let month = |day: Day| i32::from(day.0) * 12 + i32::from(day.1);
    (0..12).contains(&(month(day) - month(issue)))
}

#[cfg(test)]
mod tests {
    use super::*;

    const WEEK: [&str; 7] = ["Sunday", "Monday", "Tuesday", "Wednesday", "Thursday", "Friday", "Saturday"];

    /// Days whose weekdays are on record; the first is the first that any date can be.
    #[test]
    fn known_weekdays() {
        let known = [
            ((1868, 1, 1), "Wednesday"),
            ((1868, 10, 23), "Friday"),
            ((1900, 1, 1), "Monday"),
            ((1900, 2, 28), "Wednesday"),
            ((1900, 3, 1), "Thursday"),
            ((1912, 7, 30), "Tuesday"),
            ((1926, 12, 25), "Saturday"),
            ((1945, 8, 15), "Wednesday"),
            ((1964, 10, 10), "Saturday"),
            ((1969, 7, 20), "Sunday"),
            ((1989, 1, 7), "Saturday"),
            ((1999, 12, 31), "Friday"),
            ((2000, 1, 1), "Saturday"),
            ((2000, 2, 29), "Tuesday"),
            ((2011, 3, 11), "Friday"),
            ((2018, 7, 2), "Monday"),
            ((2019, 5, 1), "Wednesday"),
            ((2024, 2, 29), "Thursday"),
            ((2099, 12, 31), "Thursday"),
            ((2100, 1, 1), "Friday"),
            ((2100, 2, 28), "Sunday"),
            ((2100, 3, 1), "Monday"),
        ];
        for (day, name) in known {
            assert_eq!(WEEK[weekday(day) as usize], name, "{day:?}");
        }
    }

    #[test]
    fn month_ends() {
        for (day, after) in [
            ((2018, 7, 2), (2018, 7, 3)),
            ((2018, 7, 31), (2018, 8, 1)),
            ((2018, 9, 30), (2018, 10, 1)),
            ((2018, 12, 31), (2019, 1, 1)),
            ((1900, 2, 28), (1900, 3, 1)),
            ((2000, 2, 28), (2000, 2, 29)),
            ((2000, 2, 29), (2000, 3, 1)),
            ((2019, 2, 28), (2019, 3, 1)),
            ((2020, 2, 28), (2020, 2, 29)),
            ((2099, 12, 31), (2100, 1, 1)),
            ((2100, 2, 28), (2100, 3, 1)),
        ] {
            assert_eq!(day_after(day), after);
        }
    }

    /// From the first day of all to the last that a calendar can have: days rise as their numbers do, each
    /// exists, weekdays go round, and every year has its length.
    #[test]
    fn days_of_all_years() {
        let mut day = (1868, 1, 1);
        let mut in_year = 0;
        while day.0 < 2101 {
            assert!(day.0 == 2100 || exists(day), "{day:?}");
            let after = day_after(day);
            assert!(after > day);
            assert_eq!(weekday(after), (weekday(day) + 1) % 7, "{after:?}");
            in_year += 1;
            if after.0 != day.0 {
                let leap = matches!(day.0, 1868..=1896 | 1904..=2096) && day.0 % 4 == 0;
                assert_eq!((in_year, day.1, day.2), (365 + u32::from(leap), 12, 31), "{day:?}");
                in_year = 0;
            }
            day = after;
        }
    }

    #[test]
    fn start_dates() {
        assert_eq!(day_of([1868, 1, 1]), Some((1868, 1, 1)));
        assert_eq!(day_of([2099, 12, 31]), Some((2099, 12, 31)));
        assert_eq!(day_of([2000, 2, 29]), Some((2000, 2, 29)));
        let bytes = 256;
        let halves = 65_536;
        for start in [
            [1867, 12, 31],
            [2100, 1, 1],
            [1900, 2, 29],
            [2019, 2, 29],
            [2018, 4, 31],
            [2018, 0, 1],
            [2018, 13, 1],
            [2018, 7, 0],
            [2018, 7, 32],
            [2018, 7 + bytes, 2],
            [2018, 7, 2 + bytes],
            [2018 + halves, 7, 2],
            [2018, 7, 2 + halves],
            [u32::MAX, 7, 2],
            [2018, u32::MAX, u32::MAX],
            [0, 0, 0],
        ] {
            assert_eq!(day_of(start), None, "{start:?}");
        }
    }

    #[test]
    fn twelve_months() {
        let first_and_last = |issue, first, last| {
            let mut day = (1868, 1, 1);
            let mut inside = Vec::new();
            while day.0 < 2102 {
                if is_in_window(day, issue) {
                    inside.push(day);
                }
                day = day_after(day);
            }
            assert_eq!((inside.first(), inside.last()), (Some(&first), Some(&last)), "{issue:?}");
            inside.len()
        };
        assert_eq!(first_and_last((2018, 7, 2), (2018, 7, 1), (2019, 6, 30)), 365);
        assert_eq!(first_and_last((2018, 7, 31), (2018, 7, 1), (2019, 6, 30)), 365);
        assert_eq!(first_and_last((2018, 1, 1), (2018, 1, 1), (2018, 12, 31)), 365);
        assert_eq!(first_and_last((2018, 12, 31), (2018, 12, 1), (2019, 11, 30)), 365);
        assert_eq!(first_and_last((2019, 3, 1), (2019, 3, 1), (2020, 2, 29)), 366);
        assert_eq!(first_and_last((2099, 12, 31), (2099, 12, 1), (2100, 11, 30)), 365);
    }
}
