//! Questions about codes, runs, sets of days and dates.

use crate::answer::Question;
use crate::model;
use crate::random::Random;

/// Characters that codes have, and some that stand next to them.
const ALPHABET: &[u8] = b"0123456789ABCDEFGHIJKLMNOPQRSTUVWXYZ0000.N@[`az/: ";

/// Codes and runs that were worked out by hand or drawn before.
#[derive(Default)]
pub struct Known {
    usage: Vec<Vec<u8>>,
    supplement: Vec<Vec<u8>>,
    run: Vec<(u8, Vec<u8>)>,
}

impl Known {
    /// From the lines of the corpus: `usage CODE`, `supplement CODE`, `run ISSUE CODES`.
    pub fn of_lines(text: &[u8]) -> Self {
        let mut known = Known::default();
        for line in text.split(|&c| c == b'\n') {
            if let Some(code) = line.strip_prefix(b"usage ") {
                known.usage.push(code.to_vec());
            } else if let Some(code) = line.strip_prefix(b"supplement ") {
                known.supplement.push(code.to_vec());
            } else if let Some(run) = line.strip_prefix(b"run ") {
                let space = run.iter().position(|&c| c == b' ').unwrap_or(run.len());
                let issue = run[..space].iter().fold(0u8, |n, c| n.wrapping_mul(10).wrapping_add(c - b'0'));
                known.run.push((issue, run.get(space + 1..).unwrap_or_default().to_vec()));
            }
        }
        assert!(!known.usage.is_empty() && !known.supplement.is_empty() && !known.run.is_empty());
        known
    }
}

/// A code with some characters changed, and now and then one more or one less.
fn damaged(random: &mut Random, mut code: Vec<u8>) -> Vec<u8> {
    for _ in 0..*random.of(&[0, 0, 1, 1, 1, 2, 3]) {
        let c = if random.once_in(8) { random.byte() } else { *random.of(ALPHABET) };
        let at = random.below(code.len() + 1);
        match random.below(20) {
            0 => code.insert(at, c),
            1 if at < code.len() => drop(code.remove(at)),
            2 if at + 1 < code.len() => code.swap(at, at + 1),
            _ if at < code.len() => code[at] = c,
            _ => {}
        }
    }
    code
}

/// Characters of an alphabet, or any bytes, in a length near the right one.
fn scattered(random: &mut Random, length: usize) -> Vec<u8> {
    let length = if random.once_in(10) { random.below(2 * length + 4) } else { length };
    let any = random.once_in(6);
    (0..length).map(|_| if any { random.byte() } else { *random.of(ALPHABET) }).collect()
}

/// A usage code that is right, or nearly.
fn grown_usage(random: &mut Random) -> Vec<u8> {
    let oral = random.once_in(2);
    let mut code = vec![b'0'; 16];
    code[0] = if oral { b'1' } else { b'2' };
    code[1] = if oral { *random.of(b"0123") } else { *random.of(b"ABCDEFGHJKLMNPQRSTU") };
    code[2] = if oral { *random.of(b"12357") } else { *random.of(b"567") };
    if oral && code[2] == b'7' {
        code[1] = b'3';
    }
    match code[2] {
        b'1' | b'6' => {
            let sets: [&[u8]; 6] = match code[2] {
                b'1' => [b"01", b"0123456", b"0123456", b"0123456", b"09", b"00000P"],
                _ => [b"01", b"09A", b"09", b"09A", b"09", b"0000AFX"],
            };
            for (cell, set) in code[4..10].iter_mut().zip(sets) {
                *cell = *random.of(set);
            }
            if code[9] == b'P' && random.once_in(2) {
                code[4..9].copy_from_slice(b"14440");
            }
            let times = code[4..10].iter().filter(|&&c| c != b'0').count();
            code[3] = b'0' + times as u8;
        }
        b'2' => {
            code[3] = *random.of(b"23468");
            code[4] = *random.of(b"0ABCKLWX");
        }
        b'3' => {
            let times = random.between(1, 8);
            let mut hours: Vec<u8> = (b'A'..=b'X').collect();
            while hours.len() > times {
                hours.remove(random.below(hours.len()));
            }
            code[3] = b'0' + times as u8;
            code[4..4 + times].copy_from_slice(&hours);
        }
        b'5' => {
            let row = [*random.of(b"123456789ABW"), *random.of(b"123456789"), *random.of(b"000024567")];
            code[4..7].copy_from_slice(&row);
            code[7] = *random.of(b"01234568C");
            code[8] = *random.of(b"0123456789AC");
        }
        _ => {
            let pair = random.of(&["10", "20", "30", "40", "60", "3A", "4A", "6A", "12", "1N", "23", "34", "45"]);
            code[3..5].copy_from_slice(pair.as_bytes());
        }
    }
    code
}

/// A usage code that is taken, and its numbers.
pub fn taken_usage(random: &mut Random) -> (Vec<u8>, model::UsageNumbers) {
    loop {
        let code = grown_usage(random);
        if let Ok(numbers) = model::usage_read(&code) {
            return (code, numbers);
        }
    }
}

/// The character of a value.
fn character(value: usize) -> u8 {
    b"0123456789ABCDEFGHIJKLMNOPQRSTUVWXYZ"[value]
}

/// A supplementary code that is right, or nearly.
pub fn grown_supplement(random: &mut Random, letter: u8) -> Vec<u8> {
    let mut code = vec![b'0'; 8];
    code[0] = letter;
    match letter {
        b'I' => {
            code[1] = character(random.between(1, 31));
            code[2] = character(random.between(1, 31));
        }
        b'W' => code[1..].fill_with(|| *random.of(b"01")),
        b'D' => {
            code[1] = character(random.below(13));
            let count = random.between(1, 6);
            let mut days: Vec<usize> = (1..=31).collect();
            while days.len() > count {
                days.remove(random.below(days.len()));
            }
            for (cell, day) in code[2..].iter_mut().zip(days) {
                *cell = character(day);
            }
        }
        b'C' => {
            code[1] = *random.of(b"YMW");
            code[2] = character(random.between(1, 35));
        }
        _ => {
            code[1] = character(random.between(1, 5));
            let whole = random.between(1, 6);
            code[2] = *random.of(b"0123456789");
            code[3..2 + whole].fill_with(|| *random.of(b"0123456789"));
            if code[2] == b'0' && random.below(4) > 0 {
                code[2] = b'1';
            }
            let mut end = 2 + whole;
            if end < 7 && random.once_in(2) {
                let places = random.between(1, 7 - end);
                code[end] = b'.';
                code[end + 1..end + 1 + places].fill_with(|| *random.of(b"0123456789"));
                end += 1 + places;
            }
            code[end..].fill(b'N');
        }
    }
    code
}

/// Numbers near those that a code has.
fn damaged_numbers<const N: usize>(random: &mut Random, mut numbers: [u64; N]) -> Vec<u8> {
    for _ in 0..*random.of(&[0, 1, 1, 1, 2, 3]) {
        let at = random.below(N);
        numbers[at] = match random.below(8) {
            0 => random.any(),
            1 => *random.of(&[255, 256, 257, 65_535, 65_536, 1 << 32, (1 << 32) + 1, u64::MAX, 1 << 63]),
            2 => numbers[at].wrapping_add(1),
            3 => numbers[at].wrapping_sub(1),
            4 => numbers[random.below(N)],
            // Equal to a number that stands, in its lowest bits only.
            5 => numbers[at].wrapping_add(1 << *random.of(&[8, 16, 32, 40])),
            _ => random.below(40) as u64,
        };
    }
    numbers.iter().flat_map(|n| n.to_le_bytes()).collect()
}

fn all_of_one_place(codes: &[&[u8]], asked: u8, ask: &mut impl FnMut(Question)) {
    for code in codes {
        for at in 0..code.len() {
            for c in 0..=255 {
                let mut changed = code.to_vec();
                changed[at] = c;
                ask(Question { asked, bytes: changed });
            }
        }
    }
}

/// Usage codes: every byte at every place of some, then drawn ones, read and written.
pub fn usages(random: &mut Random, known: &Known, count: usize, ask: &mut impl FnMut(Question)) {
    let some: [&[u8]; 12] = [
        b"1013044400000000",
        b"131514440P000000",
        b"1114104490000000",
        b"1023A00000000000",
        b"1033IMS000000000",
        b"1038ABCDEFGX0000",
        b"10505226C0000000",
        b"1371N00000000000",
        b"2A65099A9X000000",
        b"2B6100000A000000",
        b"2U50A14000000000",
        b"2K74A00000000000",
    ];
    all_of_one_place(&some, b'U', ask);
    for _ in 0..count {
        let code = match random.below(10) {
            0..=1 => {
                let code = random.of(&known.usage).clone();
                damaged(random, code)
            }
            2 => scattered(random, 16),
            _ => {
                let code = grown_usage(random);
                damaged(random, code)
            }
        };
        ask(Question { asked: b'U', bytes: code });
    }
    for _ in 0..count {
        let (_, numbers) = taken_usage(random);
        ask(Question { asked: b'u', bytes: damaged_numbers(random, numbers) });
    }
}

/// The rows of table 8: every event of two digits or letters, with each of them and some bytes beside them as its condition, oral and external. Each is
/// read, and its values are written.
pub fn event_rows(ask: &mut impl FnMut(Question)) {
    let characters = b"0123456789ABCDEFGHIJKLMNOPQRSTUVWXYZ";
    let conditions = [&characters[..], b"/:@[az \0\x80\xb0\xff"].concat();
    for code in [b"1050110000000000", b"2U50110000000000"] {
        let numbers = model::usage_read(code).expect("11 is an event");
        for first in characters {
            for second in characters {
                for condition in &conditions {
                    event_row(*code, numbers, [*first, *second, *condition], ask);
                }
            }
        }
    }
}

/// A code and its numbers, with another row of table 8, or none.
fn event_row(mut code: [u8; 16], mut numbers: model::UsageNumbers, row: [u8; 3], ask: &mut impl FnMut(Question)) {
    code[4..7].copy_from_slice(&row);
    numbers[model::EVENT_ROW].copy_from_slice(&row.map(model::value));
    ask(Question::new(b'U', &code));
    ask(Question { asked: b'u', bytes: numbers.iter().flat_map(|n| n.to_le_bytes()).collect() });
}

/// Supplementary codes, the same.
pub fn supplements(random: &mut Random, known: &Known, count: usize, ask: &mut impl FnMut(Question)) {
    let some: [&[u8]; 12] = [
        b"I1100000",
        b"IVV00000",
        b"W0100100",
        b"W0000001",
        b"D0V00000",
        b"D2AKST00",
        b"DC12345V",
        b"CYZ00000",
        b"CW100000",
        b"V31.0NNN",
        b"V1123456",
        b"V50.0001",
    ];
    all_of_one_place(&some, b'S', ask);
    for _ in 0..count {
        let letter = *random.of(b"IWDCVDV");
        let code = match random.below(10) {
            0..=1 => {
                let code = random.of(&known.supplement).clone();
                damaged(random, code)
            }
            2 => scattered(random, 8),
            _ => {
                let code = grown_supplement(random, letter);
                damaged(random, code)
            }
        };
        ask(Question { asked: b'S', bytes: code });
    }
    for _ in 0..count {
        let numbers = loop {
            let letter = *random.of(b"IWDCVDV");
            if let Ok(numbers) = model::supplement_read(&grown_supplement(random, letter)) {
                break numbers;
            }
        };
        ask(Question { asked: b's', bytes: damaged_numbers(random, numbers) });
    }
}

/// A set of days that can be written, mostly.
pub fn grown_set(random: &mut Random) -> [u32; 13] {
    const LONGEST: [u32; 13] = [31, 31, 29, 31, 30, 31, 30, 31, 31, 30, 31, 30, 31];
    let mut set = [0; 13];
    let every = random.once_in(4);
    for (month, cell) in set.iter_mut().enumerate() {
        let thin = random.below(4);
        if (month == 0) != every || (!every && random.once_in(2)) {
            continue;
        }
        *cell = (0..thin).fold(u32::MAX, |days, _| days & random.any() as u32) & (u32::MAX >> (32 - LONGEST[month]));
    }
    set
}

/// The run of a set.
pub fn run_of(issue: u8, set: &[u32; 13]) -> Vec<u8> {
    let mut out = vec![0; 536];
    let codes = model::set_write(issue, set, &mut out).unwrap_or(0);
    out.truncate(8 * codes as usize);
    out
}

/// Any month, and now and then none.
fn issue_month(random: &mut Random) -> u8 {
    match random.below(16) {
        0 => *random.of(&[0, 13, 14, 128, 255]),
        n => 1 + n as u8 % 12,
    }
}

/// A run with codes moved, dropped, doubled or damaged.
fn damaged_run(random: &mut Random, run: Vec<u8>) -> Vec<u8> {
    let mut codes: Vec<Vec<u8>> = run.chunks(8).map(<[u8]>::to_vec).collect();
    for _ in 0..*random.of(&[0, 0, 1, 1, 2]) {
        if codes.is_empty() {
            break;
        }
        let at = random.below(codes.len());
        let other = random.below(codes.len());
        match random.below(8) {
            0 => codes.swap(at, other),
            1 => drop(codes.remove(at)),
            2 => codes.insert(other, codes[at].clone()),
            3 => {
                let letter = *random.of(b"IWDCV");
                codes[at] = grown_supplement(random, letter);
            }
            // A run may be cut short, or damaged until nothing of a code is left.
            4 if codes[at].len() > 1 => codes[at][1] = *random.of(b"0123456789ABC"),
            5 => {
                let code = codes[at].clone();
                codes[at] = damaged(random, code);
            }
            6 if !codes[at].is_empty() => {
                let c = *random.of(ALPHABET);
                let place = random.below(codes[at].len());
                codes[at][place] = c;
            }
            _ => codes.truncate(at),
        }
    }
    codes.concat()
}

/// Runs, read.
pub fn runs(random: &mut Random, known: &Known, count: usize, ask: &mut impl FnMut(Question)) {
    for _ in 0..count {
        let (mut issue, run) = if random.once_in(4) {
            random.of(&known.run).clone()
        } else {
            let issue = issue_month(random);
            let set = grown_set(random);
            (issue, run_of(issue.clamp(1, 12), &set))
        };
        if random.once_in(8) {
            issue = issue_month(random);
        }
        let mut bytes = vec![issue];
        bytes.extend(damaged_run(random, run));
        ask(Question { asked: b'R', bytes });
    }
}

/// Sets, written into rooms about the size of the run.
pub fn sets(random: &mut Random, count: usize, ask: &mut impl FnMut(Question)) {
    for _ in 0..count {
        let issue = issue_month(random);
        let mut set = grown_set(random);
        if random.once_in(4) {
            let month = random.below(13);
            set[month] |= 1 << random.below(32);
        }
        if random.once_in(16) {
            set.fill_with(|| random.any() as u32);
        }
        let length = run_of(issue.clamp(1, 12), &set).len();
        let room = match random.below(6) {
            0 => length,
            1 => length.saturating_sub(1),
            2 => length + 1,
            3 => random.below(length + 1),
            _ => 536 + random.below(64),
        };
        let mut bytes = vec![issue];
        set.iter().for_each(|days| bytes.extend(days.to_le_bytes()));
        bytes.extend((room as u32).to_le_bytes());
        ask(Question { asked: b'r', bytes });
    }
}

/// Dates: the corners of the years and the years in which eras change, with all months and days; then every day of the years that are dates, in each
/// style.
pub fn dates(ask: &mut impl FnMut(Question)) {
    let corners = (0..=2).chain(1866..=1870).chain(1899..=1901).chain(1910..=1914).chain(1924..=1928);
    let corners = corners.chain(1986..=1991).chain(1999..=2001).chain(2017..=2021).chain(2086..=2090);
    let corners = corners.chain(2095..=2101).chain([2400, 9999, 10_000, 18_700, 32_768, 65_535]);
    let mut date = |year: u16, month: u8, day: u8, style: u8| {
        let mut bytes = year.to_le_bytes().to_vec();
        bytes.extend([month, day, style]);
        ask(Question { asked: b'D', bytes });
    };
    for year in corners {
        for month in (0..=13).chain([255]) {
            for day in (0..=32).chain([255]) {
                for style in [0, 1, 2, 3, 255] {
                    date(year, month, day, style);
                }
            }
        }
    }
    for year in 1868..=2099 {
        for month in 1..=12 {
            for day in 1..=31 {
                (0..=2).for_each(|style| date(year, month, day, style));
            }
        }
    }
}
