//! Questions about the dose calendar: each of its rules over all that it can meet, then sheets and numbers of chance.

use independent::record::Record;
use independent::supplement::{Dates, Supplement};
use independent::usage::Timing;

use crate::answer::{Met, Question};
use crate::codes::{grown_set, grown_supplement, run_of, taken_usage};
use crate::model;
use crate::random::Random;
use crate::sheets;

/// Days of the longest calendar.
const MOST_DAYS: u32 = 366;

/// A year, a month and a day, or any numbers in their place.
type Date = [u32; 3];

/// A question: an RP of a file, a start date, a number of days, and the places of the output.
pub struct Asked<'a> {
    pub rp: u32,
    pub start: Date,
    pub days: u32,
    pub room: u32,
    pub file: &'a [u8],
}

impl<'a> Asked<'a> {
    /// From the bytes of the question.
    pub fn of(bytes: &'a [u8]) -> Self {
        let (numbers, file) = bytes.split_at(6 * 4);
        let n = |i: usize| numbers[4 * i..4 * i + 4].iter().rev().fold(0, |n, &byte| n << 8 | u32::from(byte));
        Asked { rp: n(0), start: [n(1), n(2), n(3)], days: n(4), room: n(5), file }
    }

    fn question(&self) -> Question {
        let [year, month, day] = self.start;
        let numbers = [self.rp, year, month, day, self.days, self.room];
        let mut bytes: Vec<u8> = numbers.iter().flat_map(|n| n.to_le_bytes()).collect();
        bytes.extend(self.file);
        Question { asked: b'L', bytes }
    }
}

// ---- Days, for drawing questions and seeing what they meet.

/// A date as a number of days (Gregorian), counted from 1 March of the year 0: so a leap day ends a year.
const fn number_of([year, month, day]: Date) -> u32 {
    let (year, month) = if month > 2 { (year, month - 3) } else { (year - 1, month + 9) };
    year * 365 + year / 4 - year / 100 + year / 400 + (153 * month + 2) / 5 + day - 1
}

/// The first and the last day that is a start.
const FIRST: u32 = number_of([1868, 1, 1]);
const LAST: u32 = number_of([2099, 12, 31]);

/// The date of a number of days.
fn date_of(number: u32) -> Date {
    let ages = number / 146_097;
    let in_age = number % 146_097;
    let year = (in_age - in_age / 1460 + in_age / 36_524 - in_age / 146_096) / 365;
    let in_year = in_age - (365 * year + year / 4 - year / 100);
    let month = (5 * in_year + 2) / 153;
    let day = in_year - (153 * month + 2) / 5 + 1;
    let year = ages * 400 + year;
    if month < 10 {
        [year, month + 3, day]
    } else {
        [year + 1, month - 9, day]
    }
}

/// The first day of the month that is so many months after a date's.
fn months_after([year, month, _]: Date, months: u32) -> u32 {
    let month = month - 1 + months;
    number_of([year + month / 12, month % 12 + 1, 1])
}

/// Whether it is a day from 1868 to 2099.
fn is_start([year, month, day]: Date) -> bool {
    let small = |n: u32| u8::try_from(n).unwrap_or(u8::MAX);
    model::date_make(u16::try_from(year).unwrap_or(u16::MAX), small(month), small(day), 1).is_ok()
}

// ---- What a file says of its RPs.

struct Told {
    issue: Date,
    rps: Vec<ToldRp>,
}

struct ToldRp {
    number: u32,
    timing: Option<Timing>,
    supplements: Vec<Supplement>,
}

/// As far as the file is read; an issue date of its own where none was read.
fn told(file: &[u8]) -> Told {
    let mut told = Told { issue: [2018, 7, 2], rps: Vec::new() };
    let Ok(mut reader) = model::open(file) else { return told };
    while let Ok(Some(record)) = reader.read() {
        match record {
            Record::Issue(date) => told.issue = [date.year.into(), date.month.into(), date.day.into()],
            Record::Usage(usage) => {
                let timing = usage.code.map(|code| code.timing);
                told.rps.push(ToldRp { number: usage.rp.0.into(), timing, supplements: Vec::new() });
            }
            Record::Extra(extra) => {
                if let Some(rp) = told.rps.last_mut() {
                    rp.supplements.extend(extra.supplement);
                }
            }
            _ => {}
        }
    }
    told
}

// ---- What questions meet.

/// All that must be met.
pub const MEETS: &[Met] = &[
    (0, "no supplement"),
    (0, "I"),
    (0, "I from a later start than the issue date"),
    (0, "W"),
    (0, "D of every month"),
    (0, "D of named months"),
    (0, "D of a day that a month of the calendar has not"),
    (0, "D of a day after the twelve months"),
    (0, "kind 1"),
    (0, "kind 2"),
    (0, "kind 3"),
    (0, "kind 6"),
    (0, "kind 7"),
    (0, "29 February"),
    (0, "days past 2099"),
    (0, "a start on the issue date"),
    (0, "366 days"),
    (0, "more places than days"),
    (33, "no place"),
    (33, "a place too few"),
    (50, "C"),
    (50, "no code"),
    (50, "kind 5"),
    (50, "about"),
    (50, "a range"),
    (50, "too few places as well"),
    (51, "no days"),
    (51, "367 days"),
    (51, "more days than 16 bits hold"),
    (51, "no such start"),
    (51, "a start before 1868"),
    (51, "a start after 2099"),
    (51, "a start a day before the issue date"),
    (51, "no doses as well"),
    (51, "too few places as well"),
    (53, "RP 0"),
    (53, "RP 1000"),
    (53, "an RP's number and 65,536"),
    (53, "a bad number of days as well"),
];

/// What a question and its answer meet. A refusal that comes from one test of several is told where that test alone fails.
pub fn met(asked: &Asked, answer: &[u8]) -> Vec<Met> {
    let number = u16::from_le_bytes([answer[0], answer[1]]);
    let told = told(asked.file);
    let rp = told.rps.iter().find(|rp| rp.number == asked.rp);
    let mut what = Vec::new();
    let mut note = |so: bool, it: &'static str| {
        if so {
            what.push((number, it));
        }
    };
    let [too_few, bad_days] = [asked.room < asked.days, !(1..=MOST_DAYS).contains(&asked.days)];
    match (number, rp) {
        (0, Some(rp)) => {
            let doses = &answer[2 + 8 * 4..][..asked.days as usize];
            note(asked.room > asked.days, "more places than days");
            note(asked.days == MOST_DAYS, "366 days");
            note(asked.start == told.issue, "a start on the issue date");
            note_taken(asked, told.issue, rp, doses, &mut note);
        }
        (33, Some(_)) => {
            note(asked.room == 0, "no place");
            note(asked.room > 0 && asked.room + 1 == asked.days, "a place too few");
        }
        (50, Some(rp)) => {
            note(too_few, "too few places as well");
            let why = undosed(rp);
            if let [one] = why[..] {
                note(true, one);
            }
        }
        (51, Some(rp)) => {
            note(too_few && !bad_days, "too few places as well");
            note(!undosed(rp).is_empty(), "no doses as well");
            let starts = is_start(asked.start);
            let early = starts && asked.start < told.issue;
            if starts && !early {
                note(asked.days == 0, "no days");
                note(asked.days == MOST_DAYS + 1, "367 days");
                note(
                    asked.days > 65_535 && (1..=MOST_DAYS).contains(&(asked.days % 65_536)),
                    "more days than 16 bits hold",
                );
            }
            if !bad_days {
                let year = asked.start[0];
                let as_in = |year: u32| is_start([year, asked.start[1], asked.start[2]]);
                note(!starts && is_start([year, 1, 1]) && asked.start > told.issue, "no such start");
                note(!starts && year == 1867 && as_in(1871), "a start before 1868");
                note(!starts && year == 2100 && as_in(2099), "a start after 2099");
                note(
                    early && number_of(asked.start) + 1 == number_of(told.issue),
                    "a start a day before the issue date",
                );
            }
        }
        (53, None) => {
            note(asked.rp == 0, "RP 0");
            note(asked.rp == 1000, "RP 1000");
            note(told.rps.iter().any(|rp| rp.number + 65_536 == asked.rp), "an RP's number and 65,536");
            note(bad_days, "a bad number of days as well");
        }
        _ => {}
    }
    what
}

/// Why no doses follow from an RP.
fn undosed(rp: &ToldRp) -> Vec<&'static str> {
    let mut why = Vec::new();
    if rp.supplements.iter().any(|supplement| matches!(supplement, Supplement::Cycle { .. })) {
        why.push("C");
    }
    why.extend(match rp.timing {
        None => Some("no code"),
        Some(Timing::Event(_)) => Some("kind 5"),
        Some(Timing::Count { about: b'0', .. }) => None,
        Some(Timing::Count { about: b'A', .. }) => Some("about"),
        Some(Timing::Count { .. }) => Some("a range"),
        _ => None,
    });
    why
}

/// What a calendar that is taken meets. A supplement counts where it has days with doses and days without.
fn note_taken(asked: &Asked, issue: Date, rp: &ToldRp, doses: &[u8], note: &mut impl FnMut(bool, &'static str)) {
    let kind = match rp.timing {
        Some(Timing::Meals(_)) => "kind 1",
        Some(Timing::Even { .. }) => "kind 2",
        Some(Timing::Hours(_)) => "kind 3",
        Some(Timing::Parts(_)) => "kind 6",
        _ => "kind 7",
    };
    note(doses.iter().any(|doses| *doses != 0), kind);
    let dates: Vec<Date> = (number_of(asked.start)..).take(doses.len()).map(date_of).collect();
    note(dates.iter().any(|date| date[1..] == [2, 29]), "29 February");
    note(dates.iter().any(|date| *date == [2100, 3, 1]), "days past 2099");
    let both = doses.contains(&0) && doses.iter().any(|doses| *doses != 0);
    match rp.supplements[..] {
        [] => note(true, "no supplement"),
        [Supplement::OnOff { .. }, ..] => {
            note(both, "I");
            note(both && asked.start > issue, "I from a later start than the issue date");
        }
        [Supplement::Week(_), ..] => note(both, "W"),
        [Supplement::Dates(first), ..] if first.month == 0 => note(both, "D of every month"),
        _ => note(both, "D of named months"),
    }
    let runs = rp.supplements.iter().filter_map(|supplement| match supplement {
        Supplement::Dates(dates) => Some(dates),
        _ => None,
    });
    let window = months_after(issue, 12);
    let (mut after, mut lacking) = (false, false);
    for Dates { month, days } in runs {
        let named = |day: u32| days >> (day - 1) & 1 == 1;
        for date in dates.iter().filter(|date| *month == 0 || date[1] == u32::from(*month)) {
            after |= *month != 0 && named(date[2]) && number_of(*date) >= window;
            // The last day of a month, and a day is named that would come after it.
            lacking |= date_of(number_of(*date) + 1)[2] == 1 && (date[2] + 1..=31).any(named);
        }
    }
    note(after, "D of a day after the twelve months");
    note(lacking, "D of a day that a month of the calendar has not");
}

// ---- Sheets.

/// Three times a day.
const THREE: &[u8] = b"1013044400000000";

/// An RP: its usage code, none where it is empty, and its supplementary codes.
type Rp = (Vec<u8>, Vec<Vec<u8>>);

/// An RP three times a day.
fn three(supplements: Vec<Vec<u8>>) -> Rp {
    (THREE.to_vec(), supplements)
}

/// A short sheet issued on a date, as a record 51 has it, with RPs under these numbers.
fn sheet<'a>(issue: &str, rps: impl IntoIterator<Item = (u32, &'a Rp)>) -> Vec<u8> {
    let mut file = b"JAHIS5\r\n1,\r\n5,\r\n11,\r\n12,\r\n13,\r\n22,\r\n23,\r\n51,".to_vec();
    file.extend(issue.bytes());
    for (number, (code, supplements)) in rps {
        let kind = 1 + usize::from(!code.is_empty());
        file.extend(format!("\r\n101,{number},1,,1\r\n111,{number},{kind},").bytes());
        file.extend(code);
        file.extend(b",A,");
        for (code, serial) in supplements.iter().zip(1..) {
            file.extend(format!("\r\n181,{number},{serial},8,A,").bytes());
            file.extend(code);
            file.push(b',');
        }
        file.extend(format!("\r\n201,{number},1,,1,,A,1,1,T").bytes());
    }
    file.extend(b"\r\n\x1a");
    file
}

/// A sheet with one RP, 1.
fn sheet_of_one(issue: &str, rp: &Rp) -> Vec<u8> {
    sheet(issue, [(1, rp)])
}

/// A date as western characters.
fn western([year, month, day]: Date) -> String {
    format!("{year:04}{month:02}{day:02}")
}

/// The codes of a run.
fn run(issue: u32, set: &[u32; 13]) -> Vec<Vec<u8>> {
    run_of(issue as u8, set).chunks(8).map(<[u8]>::to_vec).collect()
}

// ---- Questions.

/// All of them: `count` sheets of chance with some questions each.
pub fn calendars(random: &mut Random, corpus: &[Vec<u8>], count: usize, ask: &mut impl FnMut(Question)) {
    weekdays_and_dates(ask);
    named_months(ask);
    days_on_and_off(ask);
    lengths_and_rooms(ask);
    starts(ask);
    issues_and_starts(ask);
    rp_numbers(ask);
    usages(random, ask);
    for file in corpus {
        (0..20).for_each(|_| ask(drawn(random, file)));
    }
    for _ in 0..count {
        let file = if random.once_in(3) { sheets::sheet(random, corpus) } else { drawn_sheet(random) };
        (0..3).for_each(|_| ask(drawn(random, &file)));
    }
}

/// Every day from 1868 to 2100 by weekday and as the first or one of the last of its month.
fn weekdays_and_dates(ask: &mut impl FnMut(Question)) {
    let mut codes: Vec<&[u8]> = vec![b"D0100000", b"D0STUV00", b"D0V00000"];
    codes.extend(
        [b"W1000000", b"W0100000", b"W0010000", b"W0001000", b"W0000100", b"W0000010", b"W0000001"].map(|w| &w[..]),
    );
    let rps: Vec<Rp> = codes.iter().map(|code| three(vec![code.to_vec()])).collect();
    let file = sheet("18680101", (1..).zip(&rps));
    for year in 1868..=2099 {
        for rp in 1..=rps.len() as u32 {
            for start in [[year, 1, 1], [2099, 12, 31]] {
                if start[1] == 1 || year == 2099 {
                    ask(Asked { rp, start, days: MOST_DAYS, room: MOST_DAYS + 2, file: &file }.question());
                }
            }
        }
    }
}

/// The first and the last days of all twelve months, for each month of issue from 1868 to 2099, from the issue date on and from before the window's end.
fn named_months(ask: &mut impl FnMut(Question)) {
    let mut set = [0; 13];
    for (days, last) in set[1..].iter_mut().zip([31, 29, 31, 30, 31, 30, 31, 31, 30, 31, 30, 31]) {
        *days = 1 | 1 << 27 | 1 << (last - 1);
    }
    for year in 1868..=2099 {
        for month in 1..=12 {
            let day = if (year + month) % 2 == 0 { 1 } else { 28 };
            let issue = [year, month, day];
            let file = sheet_of_one(&western(issue), &three(run(month, &set)));
            let end = date_of(months_after(issue, 12) - 100);
            for start in [issue, end] {
                ask(Asked { rp: 1, start, days: MOST_DAYS, room: MOST_DAYS, file: &file }.question());
            }
        }
    }
}

/// Every number of days on with every number of days off.
fn days_on_and_off(ask: &mut impl FnMut(Question)) {
    let characters = b"123456789ABCDEFGHIJKLMNOPQRSTUV";
    for on in characters {
        for off in characters {
            let code = [b'I', *on, *off, b'0', b'0', b'0', b'0', b'0'].to_vec();
            let file = sheet_of_one("20180702", &three(vec![code]));
            ask(Asked { rp: 1, start: [2018, 7, 5], days: MOST_DAYS, room: 400, file: &file }.question());
        }
    }
}

/// Added to a small number they make one that is as small in its lowest bits alone.
const WIDE: [u32; 4] = [1 << 8, 1 << 9, 1 << 16, 1 << 31];

/// Every number of days to 400, with a place too few, as many and one more, of an RP with doses and of one without; then large numbers.
fn lengths_and_rooms(ask: &mut impl FnMut(Question)) {
    let rps = [three(vec![b"I2300000".to_vec()]), (b"1050110000000000".to_vec(), Vec::new())];
    let file = sheet("20180702", (1..).zip(&rps));
    let mut asked = |rp, days, room| ask(Asked { rp, start: [2018, 7, 2], days, room, file: &file }.question());
    for days in 0..=400u32 {
        for room in [0, days.saturating_sub(1), days, days + 1] {
            (1..=2).for_each(|rp| asked(rp, days, room));
        }
        asked(1, days, 65_536 + 3);
    }
    let wide = WIDE.iter().flat_map(|wide| [0, 1, 7, 365, 366].map(|days| wide + days));
    for days in wide.chain([u32::MAX - 366, u32::MAX - 1, u32::MAX]) {
        for room in [0, days % 256, 366, 1000] {
            (1..=2).for_each(|rp| asked(rp, days, room));
        }
    }
}

/// Numbers about all that a year, a month and a day can be, and those that would be one of them in fewer bits.
fn starts(ask: &mut impl FnMut(Question)) {
    let file = sheet_of_one("18680101", &three(Vec::new()));
    let years =
        [0, 1, 1867, 1868, 1869, 1900, 2000, 2019, 2020, 2099, 2100, 65_535, 65_536 + 2018, (1 << 31) + 2018, u32::MAX];
    let wide = |n: u32| [255, 256, 256 + n, 65_536 + n, (1 << 31) + n, u32::MAX];
    for year in years {
        for month in (0..=13).chain(wide(7)) {
            for day in (0..=33).chain(wide(2)) {
                ask(Asked { rp: 1, start: [year, month, day], days: 1, room: 1, file: &file }.question());
            }
        }
    }
}

/// Days about the borders of years, of eras and of February.
const CORNERS: [Date; 30] = [
    [1868, 1, 1],
    [1868, 1, 2],
    [1868, 2, 29],
    [1899, 12, 31],
    [1900, 2, 28],
    [1900, 3, 1],
    [1912, 7, 29],
    [1912, 7, 30],
    [1926, 12, 24],
    [1926, 12, 25],
    [1989, 1, 7],
    [1989, 1, 8],
    [1999, 12, 31],
    [2000, 1, 1],
    [2000, 2, 28],
    [2000, 2, 29],
    [2000, 3, 1],
    [2018, 7, 1],
    [2018, 7, 2],
    [2018, 8, 1],
    [2019, 4, 30],
    [2019, 5, 1],
    [2019, 7, 2],
    [2020, 2, 29],
    [2096, 2, 29],
    [2098, 12, 31],
    [2099, 2, 28],
    [2099, 3, 1],
    [2099, 12, 30],
    [2099, 12, 31],
];

/// Each of these as the issue date, in both styles, with each as the start.
fn issues_and_starts(ask: &mut impl FnMut(Question)) {
    let rp = three(vec![b"W1010101".to_vec()]);
    for [year, month, day] in CORNERS {
        for style in [1, 2] {
            let made = model::date_make(year as u16, month as u8, day as u8, style);
            let (_, text) = made.expect("each is a day");
            let text = String::from_utf8_lossy(&text);
            let file = sheet_of_one(text.trim_end_matches('\0'), &rp);
            for start in CORNERS {
                ask(Asked { rp: 1, start, days: 3, room: 5, file: &file }.question());
            }
        }
    }
}

/// Every RP number to 1100 of a file with some, of which one has no doses, and those numbers with more bits.
fn rp_numbers(ask: &mut impl FnMut(Question)) {
    let numbers = [1, 2, 10, 255, 256, 257, 512, 999];
    let codes: [&[u8]; 8] = [
        b"1011000090000000",
        b"1022000000000000",
        THREE,
        b"1024000000000000",
        b"2B65199990000000",
        b"2B76000000000000",
        b"",
        b"1038ABCDEFGX0000",
    ];
    let rps = codes.map(|code| (code.to_vec(), Vec::new()));
    let file = sheet("20180702", numbers.into_iter().zip(&rps));
    let wide = numbers.iter().flat_map(|number| WIDE.map(|wide| wide + number));
    for rp in (0..=1100).chain(wide).chain([u32::MAX]) {
        ask(Asked { rp, start: [2018, 7, 2], days: 3, room: 4, file: &file }.question());
        ask(Asked { rp, start: [2018, 7, 2], days: 0, room: 0, file: &file }.question());
    }
}

/// Usage codes of chance, with and without a supplement of each letter.
fn usages(random: &mut Random, ask: &mut impl FnMut(Question)) {
    for _ in 0..2000 {
        let (code, _) = taken_usage(random);
        let letter = *random.of(b"IWDC");
        let supplements = if random.once_in(2) { Vec::new() } else { vec![grown_supplement(random, letter)] };
        let file = sheet_of_one("20180702", &(code, supplements));
        let room = *random.of(&[0, 7, 7, 7, 9]);
        ask(Asked { rp: 1, start: [2018, 7, 2], days: 7, room, file: &file }.question());
    }
}

/// A short sheet of chance: one to four RPs, each with any usage code or none and any supplements.
fn drawn_sheet(random: &mut Random) -> Vec<u8> {
    let issue = match random.below(3) {
        0 => *random.of(&CORNERS),
        _ => date_of(random.between(FIRST as usize, LAST as usize) as u32),
    };
    let mut rps = Vec::new();
    let mut number = 0;
    for _ in 0..random.between(1, 4) {
        number += *random.of(&[1, 1, 2, 9, 200]);
        let code = match random.below(8) {
            0 => Vec::new(),
            1..=3 => THREE.to_vec(),
            _ => taken_usage(random).0,
        };
        let supplements = match random.below(9) {
            0 => Vec::new(),
            1 | 2 => vec![grown_supplement(random, b'I')],
            3 | 4 => vec![grown_supplement(random, b'W')],
            5 => vec![grown_supplement(random, b'C')],
            _ => run(issue[1], &grown_set(random)),
        };
        rps.push((number, (code, supplements)));
    }
    sheet(&western(issue), rps.iter().map(|(number, rp)| (*number, rp)))
}

/// A question of chance about a file.
fn drawn(random: &mut Random, file: &[u8]) -> Question {
    let Told { issue, rps } = told(file);
    let rp = match rps[..] {
        [] => 1,
        _ => random.of(&rps).number,
    };
    let rp = match random.below(16) {
        0 => *random.of(&[0, 1, 2, 999, 1000, rp + 1, rp + 256, rp + 65_536, u32::MAX]),
        _ => rp,
    };
    let days = match random.below(10) {
        0 => *random.of(&[0, 367, 368, 400, 512 + 7, 65_535, 65_536, 65_536 + 7, (1 << 31) + 7, u32::MAX]),
        1..=3 => random.between(1, MOST_DAYS as usize) as u32,
        _ => *random.of(&[1, 2, 7, 14, 28, 30, 31, 62, 365, 366, 366]),
    };
    let places = days.min(400);
    let room = match random.below(8) {
        0 => places.saturating_sub(1),
        1 => random.below(places as usize + 1) as u32,
        2 => places + 1,
        3 => 400,
        _ => places,
    };
    Asked { rp, start: drawn_start(random, issue), days, room, file }.question()
}

/// A start of chance: about the issue date, ends of months, leap days, the window's end and the last days, and now and then none.
fn drawn_start(random: &mut Random, issue: Date) -> Date {
    let [year, month, _] = issue;
    let at = number_of(issue);
    let near = |random: &mut Random, day: u32| date_of(day + random.below(5) as u32 - 2);
    let mut start = match random.below(12) {
        0 => {
            *random.of(&[[1867, 12, 31], [1868, 1, 1], [2099, 12, 31], [2100, 1, 1], [2019, 2, 29], [year, month, 31]])
        }
        1 | 2 => date_of(at + random.below(3) as u32 - 1),
        3 => issue,
        4 | 5 => {
            let months = random.between(1, 14) as u32;
            near(random, months_after(issue, months))
        }
        6 => {
            let leap = (year + 4) / 4 * 4;
            near(random, number_of([leap, 3, 1]))
        }
        7 | 8 => near(random, months_after(issue, 12)),
        9 => near(random, LAST - 1),
        _ => date_of(at + random.below(800) as u32),
    };
    if random.once_in(24) {
        start[random.below(3)] += *random.of(&[1 << 8, 1 << 16, 1 << 31]);
    }
    start
}
