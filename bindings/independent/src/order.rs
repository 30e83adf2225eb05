//! What may come next in a file: record numbers, counters, and the supplements of an RP.

use crate::days::follows;
use crate::record::{DrugSerial, Record, RpNumber, SupplementSerial};
use crate::supplement::{Dates, Supplement};

/// "Needed are 1, 5, 11, 12, 13, 22, 23, 51."
const NEEDED: [u16; 8] = [1, 5, 11, 12, 13, 22, 23, 51];

/// The last record number of the header.
const LAST_HEADER: u16 = 82;

/// Where a file stands, by record numbers alone. The number is that of the last record.
#[derive(Clone, Copy, Debug, PartialEq, Eq)]
pub(crate) enum Stage {
    /// In the header; 0 before its first record.
    Header(u16),
    /// In an RP, before its first drug.
    Rp(u16),
    /// In a drug.
    Drug(u16),
}

impl Stage {
    /// The stage after a known record; else 24 or 32. 24: "by record numbers alone, no records put
    /// just before this one would help". 32: "some would: a needed record is missing".
    pub(crate) fn step(self, number: u16) -> Result<Stage, u16> {
        match self {
            Stage::Header(last) if number <= LAST_HEADER => {
                let rises = number > last || (number == 81 && last == 81);
                match rises {
                    false => Err(24),
                    true if misses_needed(last, number) => Err(32),
                    true => Ok(Stage::Header(number)),
                }
            }
            // Among RPs a header record is past help; any other record could come after whole RPs
            // and drugs put before it.
            _ if number <= LAST_HEADER => Err(24),
            Stage::Header(last) if number == 101 && !misses_needed(last, number) => Ok(Stage::Rp(101)),
            Stage::Rp(last) if follows_in_rp(last, number) => Ok(match number {
                201 => Stage::Drug(201),
                _ => Stage::Rp(number),
            }),
            Stage::Drug(_) if number == 101 => Ok(Stage::Rp(101)),
            Stage::Drug(last) if follows_in_drug(last, number) => Ok(Stage::Drug(number)),
            _ => Err(32),
        }
    }

    /// Whether the file may end here.
    pub(crate) fn is_whole(self) -> bool {
        matches!(self, Stage::Drug(_))
    }
}

/// Whether a needed header record lies between two numbers.
fn misses_needed(last: u16, number: u16) -> bool {
    NEEDED.iter().any(|&needed| last < needed && needed < number)
}

/// "101, perhaps 102, 111, any 181s, then one or more drugs."
fn follows_in_rp(last: u16, number: u16) -> bool {
    matches!((last, number), (101, 102 | 111) | (102, 111) | (111 | 181, 181 | 201))
}

/// "201, perhaps 211, 221, 231, 241 in that order, any 281s"; and the next drug.
fn follows_in_drug(last: u16, number: u16) -> bool {
    match number {
        201 => true,
        211 | 221 | 231 | 241 => last < number,
        281 => true,
        _ => false,
    }
}

/// The supplements of an RP so far. "In an RP, kind 8 records hold one I, W or C, or one date run
/// for the month of record 51; never V."
#[derive(Clone, Copy, Debug, PartialEq, Eq)]
pub(crate) enum List {
    Empty,
    /// One I, W or C: nothing more may come.
    Single,
    /// A date run that ends in this code.
    Run(Dates),
}

impl List {
    /// The list with one supplement more; `None` is 31.
    pub(crate) fn with(self, issue_month: u8, supplement: &Supplement) -> Option<List> {
        use Supplement as S;
        match (self, supplement) {
            (List::Empty, S::OnOff { .. } | S::Week(_) | S::Cycle { .. }) => Some(List::Single),
            (List::Empty, S::Dates(next)) => Some(List::Run(*next)),
            (List::Run(before), S::Dates(next)) if follows(issue_month, &before, next) => Some(List::Run(*next)),
            _ => None,
        }
    }
}

/// All that the records so far say about the next one.
#[derive(Clone, Copy, Debug)]
pub(crate) struct Order {
    pub(crate) stage: Stage,
    issue_month: u8,
    rp: RpNumber,
    drug: DrugSerial,
    extra: SupplementSerial,
    list: List,
}

impl Order {
    /// Before the first record.
    pub(crate) const fn new() -> Self {
        Order {
            stage: Stage::Header(0),
            issue_month: 0,
            rp: RpNumber(0),
            drug: DrugSerial(0),
            extra: SupplementSerial(0),
            list: List::Empty,
        }
    }

    /// "RP numbers rise as numbers."
    pub(crate) fn takes_new_rp(&self, rp: RpNumber) -> bool {
        rp > self.rp
    }

    /// "111, 181 and 201 carry their RP's."
    pub(crate) fn is_in_rp(&self, rp: RpNumber) -> bool {
        rp == self.rp
    }

    /// "Both serials run 1, 2, 3 in each RP."
    pub(crate) fn takes_drug(&self, serial: DrugSerial) -> bool {
        serial.0 == self.drug.0 + 1
    }

    /// The same for supplements.
    pub(crate) fn takes_extra(&self, serial: SupplementSerial) -> bool {
        serial.0 == self.extra.0 + 1
    }

    /// Whether a supplement "with those before it in its RP" begins an allowed list.
    pub(crate) fn takes_supplement(&self, supplement: &Supplement) -> bool {
        self.list.with(self.issue_month, supplement).is_some()
    }

    /// The order after a record that was taken, at the stage it leads to.
    pub(crate) fn advance(&mut self, stage: Stage, record: &Record) {
        self.stage = stage;
        match record {
            Record::Kept(_) | Record::Usage(_) => {}
            Record::Issue(date) => self.issue_month = date.month,
            Record::Rp(rp) => {
                self.rp = rp.rp;
                self.drug = DrugSerial(0);
                self.extra = SupplementSerial(0);
                self.list = List::Empty;
            }
            Record::Extra(extra) => {
                self.extra = extra.serial;
                if let Some(supplement) = &extra.supplement {
                    self.list = self.list.with(self.issue_month, supplement).unwrap_or(self.list);
                }
            }
            Record::Drug(drug) => self.drug = drug.serial,
        }
    }
}

#[cfg(test)]
mod tests {
    use super::*;

    fn walk(numbers: &[u16]) -> Result<Stage, u16> {
        numbers.iter().try_fold(Stage::Header(0), |stage, &number| stage.step(number))
    }

    const HEADER: [u16; 8] = NEEDED;

    fn after_header(numbers: &[u16]) -> Result<Stage, u16> {
        walk(&[&HEADER[..], numbers].concat())
    }

    #[test]
    fn header() {
        assert_eq!(walk(&[1, 5]), Ok(Stage::Header(5)));
        assert_eq!(walk(&[5]), Err(32));
        assert_eq!(walk(&[1, 1]), Err(24));
        assert_eq!(walk(&[1, 2, 2]), Err(24));
        assert_eq!(walk(&[1, 3, 2]), Err(24));
        assert_eq!(walk(&[1, 11]), Err(32));
        assert_eq!(walk(&[1, 101]), Err(32));
        assert_eq!(walk(&[201]), Err(32));
        assert_eq!(after_header(&[81, 81, 82]), Ok(Stage::Header(82)));
        assert_eq!(after_header(&[82, 81]), Err(24));
        assert_eq!(after_header(&[82, 82]), Err(24));
        assert_eq!(after_header(&[111]), Err(32));
    }

    #[test]
    fn rps_and_drugs() {
        assert_eq!(after_header(&[101, 102, 111, 181, 181, 201, 211, 241, 281, 281]), Ok(Stage::Drug(281)));
        assert_eq!(after_header(&[101, 111, 201, 201, 101]), Ok(Stage::Rp(101)));
        for helped in [&[101, 102, 102][..], &[101, 111, 111], &[101, 111, 201, 221, 211], &[101, 111, 201, 181]] {
            assert_eq!(after_header(helped), Err(32));
        }
        for helped in [&[101, 101][..], &[101, 201], &[101, 111, 211], &[101, 111, 201, 281, 241]] {
            assert_eq!(after_header(helped), Err(32));
        }
        assert_eq!(after_header(&[101, 51]), Err(24));
        assert_eq!(after_header(&[101, 111, 201, 81]), Err(24));
        assert!(!walk(&HEADER).unwrap().is_whole());
    }

    /// 24 and 32 by their words: 32 exactly when some records put just before would help.
    #[test]
    fn helped_or_not() {
        let known: Vec<u16> = (0..=300).filter(|&n| crate::record::is_known(n)).collect();
        assert_eq!(known.len(), 36);
        let reach = |from: Stage| {
            let mut stages = vec![from];
            let mut at = 0;
            while at < stages.len() {
                let here = stages[at];
                for next in known.iter().filter_map(|&n| here.step(n).ok()) {
                    if !stages.contains(&next) {
                        stages.push(next);
                    }
                }
                at += 1;
            }
            stages
        };
        for stage in reach(Stage::Header(0)) {
            let later = reach(stage);
            for &number in &known {
                let helped = later.iter().any(|s| s.step(number).is_ok());
                match stage.step(number) {
                    Ok(_) => {}
                    Err(number) => assert_eq!(number, if helped { 32 } else { 24 }),
                }
            }
            assert!(later.iter().any(|s| s.is_whole()), "the end is always helped");
        }
    }
}
