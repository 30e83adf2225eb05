//! Runs of date codes, and the sets of days they stand for.

use crate::date::longest_month;
use crate::supplement::{self, Dates, Supplement};
use crate::Refusal;

/// "A day set has thirteen cells, every-month and twelve named months": cell 0 is every month. Day d
/// is bit d - 1; bit 31 stands for no day.
#[derive(Clone, Copy, Debug, Default, PartialEq, Eq)]
pub struct DaySet(pub [u32; 13]);

/// A refusal of a run.
#[derive(Clone, Copy, Debug, PartialEq, Eq)]
pub struct RunRefusal {
    /// The number in the table of refusals.
    pub number: u16,
    /// The character at fault; with 12, the code number.
    pub place: usize,
    /// The number of the code that was refused by itself, from 1; else 0.
    pub code: usize,
}

/// How many bytes one code takes.
const CODE: usize = 8;

/// How far a named month is ahead of the issue month, 0 to 11.
fn distance(issue: u8, month: u8) -> u8 {
    (month + 12 - issue) % 12
}

/// Whether one D code may come right after another in a run: "All are every-month, or months come
/// in order of distance ahead of the issue month. Days rise through all codes of one month, and a
/// code with fewer than six days is the last of its month."
pub(crate) fn follows(issue: u8, before: &Dates, next: &Dates) -> bool {
    if before.month == next.month {
        return before.is_full() && next.first() > before.last();
    }
    before.month != 0 && next.month != 0 && distance(issue, before.month) < distance(issue, next.month)
}

/// Reads a run. "Runs: 10, 1, then code by code its own refusal (the code number with it) and 12."
pub fn read_run(issue: u8, run: &[u8]) -> Result<DaySet, RunRefusal> {
    let refuse = |number, place, code| Err(RunRefusal { number, place, code });
    if !(1..=12).contains(&issue) {
        return refuse(10, 0, 0);
    }
    if run.len() % CODE != 0 {
        return refuse(1, 0, 0);
    }
    if run.is_empty() {
        return refuse(12, 0, 0);
    }
    let mut set = DaySet::default();
    let mut before = None;
    for (code, number) in run.chunks_exact(CODE).zip(1..) {
        let dates = match supplement::read(code) {
            Err(own) => return refuse(own.number, own.place, number),
            Ok(Supplement::Dates(dates)) => dates,
            Ok(_) => return refuse(12, number, 0),
        };
        if before.map_or(false, |before| !follows(issue, &before, &dates)) {
            return refuse(12, number, 0);
        }
        set.0[usize::from(dates.month)] |= dates.days;
        before = Some(dates);
    }
    Ok(set)
}

/// Writes the run for a set into a lent buffer and tells the number of codes. "Sets: 10, 11, 33
/// exactly when the buffer is shorter than the codes." A refusal leaves the buffer as it was.
pub fn write_run(issue: u8, set: &DaySet, buffer: &mut [u8]) -> Result<usize, Refusal> {
    if !(1..=12).contains(&issue) {
        return Err(Refusal::new(10, 0));
    }
    if !is_writable(set) {
        return Err(Refusal::new(11, 0));
    }
    let codes = set.0.iter().map(|days| ((days.count_ones() + 5) / 6) as usize).sum::<usize>();
    let buffer = buffer.get_mut(..CODE * codes).ok_or_else(|| Refusal::new(33, 0))?;
    let ahead = (issue..=12).chain(1..issue);
    let mut cells = buffer.chunks_exact_mut(CODE);
    for month in std::iter::once(0).chain(ahead) {
        let mut days = set.0[usize::from(month)];
        while days != 0 {
            let left = without_first_six(days);
            if let Some(cell) = cells.next() {
                let mut code = [b'0'; CODE];
                supplement::write_dates(&mut code, &Dates { month, days: days & !left });
                cell.copy_from_slice(&code);
            }
            days = left;
        }
    }
    Ok(codes)
}

/// A set that some run stands for: some day, days that exist in their months, and every-month days
/// or days of named months but not both.
fn is_writable(set: &DaySet) -> bool {
    let exist = set.0.iter().zip(0..).all(|(days, month)| u64::from(*days) >> longest_month(month) == 0);
    let every = set.0[0] != 0;
    let named = set.0[1..].iter().any(|days| *days != 0);
    exist && every != named
}

fn without_first_six(days: u32) -> u32 {
    (0..6).fold(days, |left, _| left & left.wrapping_sub(1))
}

#[cfg(test)]
mod tests {
    use super::*;

    fn refused(issue: u8, run: &str) -> (u16, usize, usize) {
        let r = read_run(issue, run.as_bytes()).unwrap_err();
        (r.number, r.place, r.code)
    }

    #[test]
    fn worked_by_hand() {
        let set = read_run(12, b"DCAKU000D1FU0000").unwrap();
        let mut want = DaySet::default();
        want.0[12] = 1 << 9 | 1 << 19 | 1 << 29;
        want.0[1] = 1 << 14 | 1 << 29;
        assert_eq!(set, want);
        assert_eq!(refused(1, "DCAKU000D1FU0000"), (12, 2, 0));
    }

    #[test]
    fn order_of_refusals() {
        assert_eq!(refused(0, ""), (10, 0, 0));
        assert_eq!(refused(13, "D110000"), (10, 0, 0));
        assert_eq!(refused(1, "X1100000D110"), (1, 0, 0));
        assert_eq!(refused(1, ""), (12, 0, 0));
        assert_eq!(refused(1, "D1100000D2U00000"), (8, 3, 2));
        assert_eq!(refused(1, "I1100000"), (12, 1, 0));
        assert_eq!(refused(1, "D1100000D1200000"), (12, 2, 0));
        assert_eq!(refused(1, "D1234567D1700000"), (12, 2, 0));
        assert_eq!(refused(1, "D0100000D1100000"), (12, 2, 0));
    }

    #[test]
    fn longest_run_has_67_codes() {
        let mut set = DaySet::default();
        for month in 1..=12 {
            set.0[usize::from(month)] = (1 << longest_month(month)) - 1;
        }
        for issue in 1..=12 {
            let mut buffer = [b'!'; 67 * 8 + 1];
            assert_eq!(write_run(issue, &set, &mut buffer), Ok(67));
            assert_eq!(buffer[67 * 8], b'!');
            assert_eq!(read_run(issue, &buffer[..67 * 8]), Ok(set));
            let mut short = [b'!'; 67 * 8 - 1];
            assert_eq!(write_run(issue, &set, &mut short), Err(Refusal::new(33, 0)));
            assert!(short.iter().all(|&b| b == b'!'));
        }
    }

    #[test]
    fn sets_that_no_run_stands_for() {
        let with = |cells: &[(usize, u32)]| {
            let mut set = DaySet::default();
            cells.iter().for_each(|&(m, d)| set.0[m] = d);
            write_run(1, &set, &mut [0; 80])
        };
        let eleven = Err(Refusal::new(11, 0));
        assert_eq!(with(&[]), eleven);
        assert_eq!(with(&[(0, 1), (3, 1)]), eleven);
        assert_eq!(with(&[(2, 1 << 29)]), eleven);
        assert_eq!(with(&[(0, 1 << 31)]), eleven);
        assert_eq!(with(&[(0, 1 << 30)]), Ok(1));
        assert_eq!(write_run(0, &DaySet::default(), &mut []), Err(Refusal::new(10, 0)));
    }
}
