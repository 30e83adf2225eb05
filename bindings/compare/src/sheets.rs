//! Questions about sheets: issued on all kinds of dates, drawn whole, damaged, and records put one by one.

use crate::answer::Question;
use crate::codes::{grown_supplement, taken_usage};
use crate::model;
use crate::random::Random;

/// The longest file.
const LONGEST: usize = 16_384;

/// What fields may hold that are easily got wrong.
const TRICKY: &[&[u8]] = &[
    b"",
    b"",
    b"0",
    b"1",
    b"2",
    b"3",
    b"7",
    b"8",
    b"9",
    b"01",
    b"10",
    b"99",
    b"100",
    b"999",
    b"1000",
    b"65536",
    b"4294967297",
    b"18446744073709551617",
    b" ",
    b" 1",
    b"1 ",
    b"+1",
    b"-1",
    b"1.0",
    b"0.5",
    b".5",
    b"5.",
    b"00.5",
    b"0.00001",
    b"0.000001",
    b"999999.99999",
    b"1000000",
    b"777770000",
    b"X",
    b"A00",
    b"0a0",
    b"\x81\x40",
    b"\x83\x81@",
    b"\x83",
    b"@\x81\x40",
    b"\x81\x40@",
    b"\xa0",
    b"\x80",
    b"\xf0\x40",
    b"\xfd",
    b"\xe0\x7f",
    b"\xef\xfc",
    b"\xb1",
    b"19890101",
    b"4010101",
    b"1010101",
    b"20990229",
    b"20000229",
    b"19000229",
    b"2100101",
    b"4310501",
    b"5010430",
    b"5010501",
    b"1990230",
    b"18671231",
    b"21000101",
    b"1013044400000000",
    b"1012044400000000",
    b"131514440P000000",
    b"101200040P000000",
    b"1033IMS000000000",
    b"2B71X00000000000",
    b"I1100000",
    b"W0000000",
    b"D1100000",
    b"D0100000",
    b"V31.0NNN",
    b"DCAKU000",
    b"D2U00000",
    b"CY100000",
    b"00000000000000",
    b"0000000000000",
    b"123456789012",
    b"1234567890123",
];

/// Record numbers, known and not.
const NUMBERS: &[&[u8]] = &[
    b"1",
    b"2",
    b"3",
    b"4",
    b"5",
    b"11",
    b"12",
    b"13",
    b"14",
    b"21",
    b"22",
    b"23",
    b"24",
    b"25",
    b"27",
    b"28",
    b"29",
    b"30",
    b"31",
    b"51",
    b"52",
    b"61",
    b"62",
    b"63",
    b"81",
    b"82",
    b"101",
    b"102",
    b"111",
    b"181",
    b"201",
    b"211",
    b"221",
    b"231",
    b"241",
    b"281",
    b"6",
    b"26",
    b"022",
    b"",
    b"22 ",
    b"999",
    b"65537",
    b"4294967318",
    b"JAHIS5",
];

/// A text, of single bytes and pairs, of at most so many bytes, one or more.
fn text(random: &mut Random, most: usize) -> Vec<u8> {
    let long = random.once_in(12);
    let length = if long { most } else { random.between(1, most.min(24)) };
    let mut text = Vec::new();
    while text.len() < length {
        let last = text.len() + 1 == length;
        match random.below(5) {
            0 if !last => {
                text.push(*random.of(&[0x81, 0x82, 0x83, 0x8e, 0x9f, 0xe0, 0xea, 0xef]));
                text.push(*random.of(&[0x40, 0x41, 0x5c, 0x7e, 0x80, 0x81, 0x9f, 0xa0, 0xe0, 0xfc]));
            }
            1 => text.push(random.between(0xa1, 0xdf) as u8),
            2 if !text.is_empty() && !last => text.push(b' '),
            _ => text.push(*random.of(b"ABCXYZabz019.-@\\~\"")),
        }
    }
    text
}

/// One line's fields after the record's number.
type Line = Vec<Vec<u8>>;

fn decimal(n: usize) -> Vec<u8> {
    n.to_string().into_bytes()
}

fn line(number: usize, fields: &[Vec<u8>]) -> Line {
    let mut line = vec![decimal(number)];
    line.extend_from_slice(fields);
    line
}

fn kept(random: &mut Random, number: usize) -> Line {
    let count = *random.of(&[1, 1, 2, 3, 5, 9]);
    let fields: Vec<_> = (0..count).map(|_| if random.once_in(3) { Vec::new() } else { text(random, 200) }).collect();
    line(number, &fields)
}

/// The last year of each era, from Meiji on.
const LAST_YEARS: [usize; 5] = [45, 15, 64, 31, 81];

/// A date, but for a day before its era in the era's first year or after it in the last.
fn date(random: &mut Random) -> Vec<u8> {
    let (month, day) = (random.between(1, 12), random.between(1, 28));
    let text = if random.once_in(3) {
        let era = random.between(1, LAST_YEARS.len());
        format!("{era}{:02}{month:02}{day:02}", random.between(1, LAST_YEARS[era - 1]))
    } else {
        format!("{}{month:02}{day:02}", random.between(1868, 2099))
    };
    text.into_bytes()
}

fn amount(random: &mut Random) -> Vec<u8> {
    let whole = *random.of(&[0, 1, 3, 10, 999_999, 12_345]);
    let text = match random.below(3) {
        0 => format!("{whole}.{}{}", *random.of(&["", "0", "00", "0000"]), random.between(1, 9)),
        _ => whole.to_string(),
    };
    text.into_bytes()
}

/// The kind 8 codes of one RP.
fn schedule(random: &mut Random, issue: u8) -> Vec<Vec<u8>> {
    match random.below(6) {
        0 => vec![grown_supplement(random, b'I')],
        1 => vec![grown_supplement(random, b'W')],
        2 => vec![grown_supplement(random, b'C')],
        3 | 4 => {
            let mut set = [0; 13];
            let months = if random.once_in(3) { 0..=0 } else { 1..=12 };
            for month in months {
                if month == 0 || random.once_in(4) {
                    set[month] = random.any() as u32 & random.any() as u32 & ((1 << 29) - 1);
                }
            }
            let mut out = vec![0; 536];
            let codes = model::set_write(issue, &set, &mut out).unwrap_or(0) as usize;
            out[..8 * codes].chunks(8).map(<[u8]>::to_vec).collect()
        }
        _ => Vec::new(),
    }
}

/// A sheet that is right, but for a code of chance now and then.
fn grown(random: &mut Random) -> Vec<Line> {
    let mut lines = vec![vec![b"JAHIS5".to_vec()]];
    let mut issue = 1;
    for number in [1, 2, 3, 4, 5, 11, 12, 13, 14, 21, 22, 23, 24, 25, 27, 28, 29, 30, 31, 51, 52, 61, 62, 63, 81, 82] {
        let needed = matches!(number, 1 | 5 | 11 | 12 | 13 | 22 | 23 | 51);
        if !needed && random.below(8) > 0 {
            continue;
        }
        if number == 51 {
            let date = date(random);
            let month = &date[date.len() - 4..date.len() - 2];
            issue = (month[0] - b'0') * 10 + month[1] - b'0';
            lines.push(line(51, &[date]));
            continue;
        }
        let times = if number == 81 { random.between(1, 3) } else { 1 };
        (0..times).for_each(|_| lines.push(kept(random, number)));
    }
    let mut rp = 0;
    for _ in 0..random.between(1, 4) {
        rp += *random.of(&[1, 1, 1, 2, 8, 90]);
        grow_rp(random, rp, issue, &mut lines);
    }
    lines
}

fn grow_rp(random: &mut Random, rp: usize, issue: u8, lines: &mut Vec<Line>) {
    let optional = |random: &mut Random, most: usize| {
        if random.once_in(2) {
            Vec::new()
        } else {
            decimal(random.between(1, most))
        }
    };
    let form_name = if random.once_in(2) { Vec::new() } else { text(random, 80) };
    let form = decimal(random.between(1, 99));
    lines.push(line(101, &[decimal(rp), form, form_name, decimal(random.between(1, 999))]));
    if random.once_in(4) {
        lines.push(kept(random, 102));
    }
    let coded = random.below(4) > 0;
    let code = if coded { taken_usage(random).0 } else { Vec::new() };
    let kind = decimal(1 + usize::from(coded));
    let name = text(random, 80);
    lines.push(line(111, &[decimal(rp), kind, code, name, optional(random, 99)]));
    let mut serial = 0;
    for code in schedule(random, issue) {
        if random.once_in(5) {
            serial += 1;
            let site = (0..3).map(|_| *random.of(b"0189AKZ")).collect();
            let note = text(random, 100);
            lines.push(line(181, &[decimal(rp), decimal(serial), b"9".to_vec(), note, Vec::new(), site]));
        }
        serial += 1;
        let note = text(random, 100);
        lines.push(line(181, &[decimal(rp), decimal(serial), b"8".to_vec(), note, code, Vec::new()]));
    }
    if random.once_in(4) {
        serial += 1;
        let kind = random.of(&["", "1", "7", "10", "99"]).as_bytes().to_vec();
        let note = text(random, 100);
        lines.push(line(181, &[decimal(rp), decimal(serial), kind, note, Vec::new(), Vec::new()]));
    }
    for serial in 1..=random.between(1, 4) {
        let coding = *random.of(b"123467");
        let code = match coding {
            b'1' => Vec::new(),
            b'7' if random.once_in(2) => Vec::new(),
            _ => random.of(&["777770000", "620001901", "1124001F1-x.9", "A"]).as_bytes().to_vec(),
        };
        let nameless = coding == b'2' && code != b"777770000" && random.once_in(2);
        let name = if nameless { Vec::new() } else { text(random, 80) };
        let kind = optional(random, 3);
        let flag = decimal(random.between(1, 2));
        let (amount, unit) = (amount(random), text(random, 12));
        lines.push(line(201, &[decimal(rp), decimal(serial), kind, vec![coding], code, name, amount, flag, unit]));
        for number in [211, 221, 231, 241, 281, 281] {
            if random.once_in(6) {
                lines.push(kept(random, number));
            }
        }
    }
}

/// The bytes of lines.
fn joined(lines: &[Line]) -> Vec<u8> {
    let mut bytes = Vec::new();
    for line in lines {
        bytes.extend(line.join(&b','));
        bytes.extend(b"\r\n");
    }
    bytes.push(0x1a);
    bytes
}

/// The lines of bytes, whatever they are.
fn parted(bytes: &[u8]) -> Vec<Line> {
    let body = bytes.strip_suffix(&[0x1a]).unwrap_or(bytes);
    let body = body.strip_suffix(b"\r\n").unwrap_or(body);
    let lines = body.split(|&c| c == b'\n').map(|line| line.strip_suffix(b"\r").unwrap_or(line));
    lines.map(|line| line.split(|&c| c == b',').map(<[u8]>::to_vec).collect()).collect()
}

/// One change to a line or a field.
fn damage_lines(random: &mut Random, lines: &mut Vec<Line>) {
    if lines.len() < 2 {
        return;
    }
    let first = usize::from(!random.once_in(20));
    let at = random.between(first, lines.len() - 1);
    let other = random.between(1, lines.len() - 1);
    match random.below(16) {
        0 => drop(lines.remove(at)),
        1 => lines.insert(other, lines[at].clone()),
        2 => lines.swap(at, other),
        3 => lines[at][0] = random.of(NUMBERS).to_vec(),
        4 => lines[at].push(random.of(TRICKY).to_vec()),
        5 => {
            // An empty line has one field, an empty one: every line has a first.
            lines[at].pop();
            if lines[at].is_empty() {
                lines[at].push(Vec::new());
            }
        }
        6 => {
            let number = random.of(NUMBERS).to_vec();
            let filling = text(random, 20);
            lines.insert(other, vec![number, filling]);
        }
        7 => lines.truncate(at + 1),
        8 => {
            // The same field of another line.
            let field = random.below(lines[at].len().max(1));
            if let Some(from) = lines[other].get(field).cloned() {
                if let Some(cell) = lines[at].get_mut(field) {
                    *cell = from;
                }
            }
        }
        9 => {
            let field = random.below(lines[at].len().max(1));
            let long = *random.of(&[12, 13, 14, 79, 80, 81, 100, 101, 199, 200, 201]);
            let filling = (0..long).map(|i| if random.once_in(60) { b' ' } else { b'a' + (i % 26) as u8 }).collect();
            if let Some(cell) = lines[at].get_mut(field) {
                *cell = filling;
            }
        }
        10 => {
            let field = random.below(lines[at].len().max(1));
            if let Some(cell) = lines[at].get_mut(field) {
                let place = random.below(cell.len() + 1);
                cell.insert(place, *random.of(b" 0A1\x81\x83\xa0.-"));
            }
        }
        _ => {
            let field = random.between(usize::from(lines[at].len() > 1), lines[at].len().max(2) - 1);
            if let Some(cell) = lines[at].get_mut(field) {
                *cell = random.of(TRICKY).to_vec();
            }
        }
    }
}

/// One change to a byte or some.
fn damage_bytes(random: &mut Random, bytes: &mut Vec<u8>) {
    let at = random.below(bytes.len() + 1);
    let odd = [0, 9, 10, 13, 0x1a, 0x1b, 0x1f, 0x20, b',', 0x7e, 0x7f, 0x80, 0x81, 0xa0, 0xf0, 0xff];
    let c = if random.once_in(2) { *random.of(&odd) } else { random.byte() };
    match random.below(6) {
        0 => bytes.insert(at, c),
        1 if at < bytes.len() => drop(bytes.remove(at)),
        2 => bytes.truncate(at),
        3 => bytes.push(c),
        _ if at < bytes.len() => bytes[at] = c,
        _ => {}
    }
}

/// A sheet filled up with records that may repeat, to about the longest.
fn filled(random: &mut Random, mut lines: Vec<Line>) -> Vec<u8> {
    let aim = LONGEST + random.below(5) - 2;
    let Some(place) = lines.iter().position(|line| line[0] == b"101") else {
        return joined(&lines);
    };
    lines.retain(|line| line[0] != b"81" && line[0] != b"82");
    let mut place = place.min(lines.len());
    while place > 1 && lines[place - 1][0] != b"51" && lines[place - 1][0] != b"63" {
        place -= 1;
    }
    let mut left = aim.saturating_sub(joined(&lines).len());
    let mut fillers = Vec::new();
    while left > 0 {
        // "81,", CR LF, and up to 200 bytes a field.
        let body = match left {
            0..=4 => break,
            5..=400 => left - 5,
            _ => random.between(0, 390),
        };
        let mut fields: Vec<Vec<u8>> = vec![vec![b'f'; body.min(200)]];
        if body > 200 {
            fields.push(vec![b'g'; body - 201]);
        }
        left -= body + 5;
        fillers.push(line(81, &fields));
    }
    lines.splice(place..place, fillers);
    joined(&lines)
}

/// One sheet: drawn or from the corpus, whole or damaged.
pub fn sheet(random: &mut Random, corpus: &[Vec<u8>]) -> Vec<u8> {
    let mut lines = if random.once_in(4) { parted(random.of::<Vec<u8>>(corpus)) } else { grown(random) };
    for _ in 0..*random.of(&[0, 0, 0, 1, 1, 1, 1, 2, 3]) {
        damage_lines(random, &mut lines);
    }
    if random.once_in(200) {
        return filled(random, lines);
    }
    let mut bytes = joined(&lines);
    if random.once_in(4) {
        for _ in 0..random.between(1, 3) {
            damage_bytes(random, &mut bytes);
        }
    }
    bytes
}

/// Month and day of the last and the first days of eras, and a leap day.
const BORDER_DAYS: [(u64, u64); 11] =
    [(1, 1), (1, 7), (1, 8), (2, 29), (4, 30), (5, 1), (7, 29), (7, 30), (12, 24), (12, 25), (12, 31)];

/// The years in which eras begin and end, with their neighbours outside; Heisei's 40th and 100th.
const BORDER_YEARS: [u64; 10] = [1867, 1868, 1912, 1926, 1989, 2019, 2028, 2088, 2099, 2100];

/// A short sheet, issued on a date.
fn issued(date: &str) -> Vec<u8> {
    let header = "JAHIS5\r\n1,\r\n5,\r\n11,\r\n12,\r\n13,\r\n22,\r\n23,\r\n";
    format!("{header}51,{date}\r\n101,1,1,,1\r\n111,1,1,,A,\r\n201,1,1,,1,,A,1,1,T\r\n\x1a").into_bytes()
}

/// Issue dates: read, with every first three digits, so every era number and year, and with every western year; held and put, in every era.
pub fn issue_dates(ask: &mut impl FnMut(Question)) {
    let mut records = records_of(&issued("20180702"));
    for (month, day) in BORDER_DAYS {
        let era_years = (0..=999).map(|era_year| format!("{era_year:03}"));
        for year in era_years.chain((1866..=2101).map(|year| year.to_string())) {
            about(&issued(&format!("{year}{month:02}{day:02}")), LONGEST, ask);
        }
        for year in BORDER_YEARS {
            for era in 0..=9 {
                let issue = records.iter_mut().find(|(numbers, _)| numbers[0] == 51).expect("a sheet has its 51");
                issue.0[1..5].copy_from_slice(&[era, year, month, day]);
                ask(put_in_turn(&records, LONGEST));
            }
        }
    }
}

/// A sheet checked, read record by record, and rewritten with some room.
fn about(file: &[u8], room: usize, ask: &mut impl FnMut(Question)) {
    ask(Question::new(b'C', file));
    ask(Question::new(b'A', file));
    let mut bytes = (room as u32).to_le_bytes().to_vec();
    bytes.extend(file);
    ask(Question { asked: b'W', bytes });
}

/// Sheets, with room of chance.
pub fn sheets(random: &mut Random, corpus: &[Vec<u8>], count: usize, ask: &mut impl FnMut(Question)) {
    let mut in_some_room = |random: &mut Random, file: &[u8]| {
        let room = match random.below(8) {
            0 => random.below(file.len() + 2),
            1 => file.len(),
            2 => file.len().saturating_sub(1),
            _ => LONGEST + random.below(64),
        };
        about(file, room, ask);
    };
    corpus.iter().for_each(|file| in_some_room(random, file));
    for length in [0, 1, 2, 3, 7, 8, 9, 10, LONGEST, LONGEST + 1, 65_536] {
        let any: Vec<u8> = (0..length).map(|_| random.byte()).collect();
        in_some_room(random, &any);
        in_some_room(random, &vec![b'a'; length]);
    }
    for _ in 0..count {
        let file = sheet(random, corpus);
        in_some_room(random, &file);
    }
}

/// Records put one by one: those of a sheet, with numbers and places changed here and there.
pub fn puts(random: &mut Random, corpus: &[Vec<u8>], count: usize, ask: &mut impl FnMut(Question)) {
    for _ in 0..count {
        let file = if random.once_in(12) {
            let lines = grown(random);
            filled(random, lines)
        } else if random.once_in(8) {
            sheet(random, corpus)
        } else {
            joined(&grown(random))
        };
        let mut records = records_of(&file);
        let damages = *random.of(&[0, 1, 2, 4]);
        for _ in 0..damages {
            damage_records(random, &mut records);
        }
        let room = match random.below(8) {
            0 => random.below(file.len() + 2),
            1 => file.len(),
            2 => 0,
            _ => LONGEST + random.below(4096),
        };
        let question = put_in_turn(&records, room);
        if question.bytes.len() < 100_000 {
            ask(question);
        }
    }
}

/// A record's numbers and the bytes of its texts.
type Put = (model::RecordNumbers, Vec<u8>);

/// The records of a file, as far as it is taken.
fn records_of(file: &[u8]) -> Vec<Put> {
    let mut records = Vec::new();
    if let Ok(mut reader) = model::open(file) {
        while let Ok(Some(record)) = reader.read() {
            records.push(alone(file, model::record_numbers(file, &record)));
        }
    }
    records
}

/// Records put one by one into some room.
fn put_in_turn(records: &[Put], room: usize) -> Question {
    let mut bytes = (room as u32).to_le_bytes().to_vec();
    for (numbers, lent) in records {
        numbers.iter().for_each(|n| bytes.extend(n.to_le_bytes()));
        bytes.extend((lent.len() as u16).to_le_bytes());
        bytes.extend(lent);
    }
    Question { asked: b'P', bytes }
}

/// Where a record's places stand among its numbers.
fn places(number: u64) -> &'static [usize] {
    match number {
        51 => &[],
        101 => &[3],
        111 => &[3],
        181 => &[4, 6],
        201 => &[5, 7, 11],
        _ => &[1],
    }
}

/// A record with the bytes of its own texts only.
fn alone(file: &[u8], mut numbers: model::RecordNumbers) -> Put {
    let mut lent = Vec::new();
    for &at in places(numbers[0]) {
        let text = &file[numbers[at] as usize..numbers[at + 1] as usize];
        numbers[at] = lent.len() as u64;
        lent.extend(text);
        numbers[at + 1] = lent.len() as u64;
    }
    (numbers, lent)
}

fn damage_records(random: &mut Random, records: &mut Vec<Put>) {
    if records.is_empty() {
        return;
    }
    let mut at = random.below(records.len());
    let other = random.below(records.len());
    // Headers are many and supplements few: go on to the next one now and then.
    if random.once_in(3) {
        at = records.iter().skip(at).position(|(numbers, _)| numbers[0] == 181).map_or(at, |ahead| at + ahead);
    }
    let (numbers, lent) = &mut records[at];
    if numbers[0] == 181 && random.once_in(2) {
        let letter = *random.of(b"IWDCVD");
        if let Ok(code) = model::supplement_read(&grown_supplement(random, letter)) {
            numbers[3] = 8;
            numbers[7] = numbers[6];
            numbers[model::SUPPLEMENT_CODE].copy_from_slice(&code);
        }
        return;
    }
    match random.below(14) {
        0 => drop(records.remove(at)),
        1 => records.swap(at, other),
        2 => {
            let twice = records[at].clone();
            records.insert(other, twice);
        }
        3 => {
            let any = [0, 6, 22, 51, 81, 101, 111, 181, 201, 281, 65_536 + 81, (1 << 32) + 22, u64::MAX];
            numbers[0] = *random.of(&any);
        }
        4 | 5 => {
            if let Some(&place) = places(numbers[0]).first() {
                let place = place + random.below(2);
                let length = lent.len() as u64;
                let any = [0, 1, length, length + 1, length.wrapping_sub(1), 65_536, 1 << 32, u64::MAX, 1 << 63];
                numbers[place] = *random.of(&any);
            }
        }
        6 => {
            let text = *random.of(TRICKY);
            if let Some(&place) = places(numbers[0]).last() {
                numbers[place] = lent.len() as u64;
                lent.extend(text);
                numbers[place + 1] = lent.len() as u64;
            }
        }
        7 if !lent.is_empty() => {
            let place = random.below(lent.len());
            lent[place] = *random.of(&[0, 10, 13, 0x1a, b',', b' ', 0x7f, 0x81, 0xa0, b'a']);
        }
        8 => {
            let cell = random.below(model::RECORD);
            numbers[cell] = random.any() >> random.below(64);
        }
        _ => {
            let last = *random.of(&[4, 12, model::RECORD - 1]);
            let cell = random.between(1, last);
            let standing = numbers[cell];
            let any = [
                0,
                1,
                2,
                8,
                9,
                99,
                100,
                255,
                256,
                999,
                1000,
                65_535,
                65_536,
                standing.wrapping_add(1),
                standing.wrapping_sub(1),
                standing.wrapping_add(256),
                standing.wrapping_add(65_536),
                standing.wrapping_add(1 << 32),
                99_999_999_999,
                100_000_000_000,
                u64::MAX,
            ];
            numbers[cell] = *random.of(&any);
        }
    }
}
