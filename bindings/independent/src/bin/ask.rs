//! Answers questions about codes and sheets from standard input.
//!
//! `ask codes`: a question a line; `ask sheet`: `ok N` or the refusal of the sheet; `ask rewrite`:
//! the sheet, read and written again; `ask calendar`: after a line `RP YEAR MONTH DAY DAYS ROOM` the
//! sheet, and the doses of each day or the refusal.

use std::fmt::Write as _;
use std::io::{self, Read, Write};
use std::process::ExitCode;

use independent::calendar;
use independent::date::{self, Date, Wish};
use independent::days::{self, DaySet};
use independent::file::{self, FileRefusal, Reader, LONGEST};
use independent::supplement::{self, Supplement};
use independent::usage::{self, Class, Instruction, Timing};
use independent::writer::{WriteRefusal, Writer};
use independent::Refusal;

fn main() -> ExitCode {
    let asked = std::env::args().nth(1);
    let mut input = Vec::new();
    if let Err(error) = io::stdin().read_to_end(&mut input) {
        eprintln!("ask: {error}");
        return ExitCode::FAILURE;
    }
    let answer = match asked.as_deref() {
        Some("codes") => answer_codes(&input),
        Some("sheet") => answer_sheet(&input),
        Some("rewrite") => rewrite(&input),
        Some("calendar") => answer_calendar(&input),
        _ => {
            eprintln!("usage: ask codes|sheet|rewrite|calendar");
            return ExitCode::FAILURE;
        }
    };
    match io::stdout().write_all(&answer) {
        Ok(()) => ExitCode::SUCCESS,
        Err(_) => ExitCode::FAILURE,
    }
}

/// One answer a line.
fn answer_codes(input: &[u8]) -> Vec<u8> {
    let mut answers = String::new();
    for question in input.strip_suffix(b"\n").unwrap_or(input).split(|&c| c == b'\n') {
        let answer = answer_question(question).unwrap_or_else(|| "no such question".into());
        answers.push_str(&answer);
        answers.push('\n');
    }
    answers.into_bytes()
}

fn answer_question(question: &[u8]) -> Option<String> {
    let (what, rest) = word(question);
    match what {
        b"usage" => Some(match usage::read(rest) {
            Ok(instruction) => format!("taken {}", show_instruction(&instruction)),
            Err(refusal) => show_refusal(refusal),
        }),
        b"supplement" => Some(match supplement::read(rest) {
            Ok(supplement) => format!("taken supplement={}", show_supplement(&supplement)),
            Err(refusal) => show_refusal(refusal),
        }),
        b"run" => answer_run(rest),
        b"set" => answer_set(rest),
        b"date" => answer_date(rest),
        _ => None,
    }
}

/// The first word, and what stands after one space.
fn word(text: &[u8]) -> (&[u8], &[u8]) {
    match text.iter().position(|&c| c == b' ') {
        Some(space) => (&text[..space], &text[space + 1..]),
        None => (text, b""),
    }
}

/// Digits as a number; one past the greatest is the greatest.
fn number(text: &[u8], greatest: usize) -> Option<usize> {
    let digit = |c: u8| c.is_ascii_digit().then(|| usize::from(c - b'0'));
    let add = |n: usize, &c: &u8| Some(n.saturating_mul(10).saturating_add(digit(c)?));
    match text {
        [] => None,
        text => text.iter().try_fold(0, add).map(|n| n.min(greatest)),
    }
}

fn small(text: &[u8]) -> Option<u8> {
    number(text, 255).map(|n| n as u8)
}

/// `run ISSUE CODES`
fn answer_run(rest: &[u8]) -> Option<String> {
    let (issue, run) = word(rest);
    Some(match days::read_run(small(issue)?, run) {
        Ok(set) => format!("taken {}", show_set(&set)),
        Err(r) if r.code > 0 => format!("refused {} {} code {}", r.number, r.place, r.code),
        Err(r) => format!("refused {} {}", r.number, r.place),
    })
}

/// `set ISSUE SET ROOM`
fn answer_set(rest: &[u8]) -> Option<String> {
    let (issue, rest) = word(rest);
    let (set, room) = word(rest);
    let mut buffer = vec![0; number(room, 1 << 20)?];
    Some(match days::write_run(small(issue)?, &parse_set(set)?, &mut buffer) {
        Ok(codes) => format!("written {codes} {}", String::from_utf8_lossy(&buffer[..8 * codes])),
        Err(refusal) => show_refusal(refusal),
    })
}

/// `-`, or cells as `month:day,day` parted by `/`.
fn parse_set(text: &[u8]) -> Option<DaySet> {
    let mut set = DaySet::default();
    if text == b"-" {
        return Some(set);
    }
    for cell in text.split(|&c| c == b'/') {
        let colon = cell.iter().position(|&c| c == b':')?;
        let month = set.0.get_mut(number(&cell[..colon], 13)?)?;
        for day in cell[colon + 1..].split(|&c| c == b',') {
            *month |= 1u32.checked_shl((number(day, 33)? as u32).checked_sub(1)?)?;
        }
    }
    Some(set)
}

/// `date YEAR MONTH DAY STYLE`
fn answer_date(rest: &[u8]) -> Option<String> {
    let (year, rest) = word(rest);
    let (month, rest) = word(rest);
    let (day, style) = word(rest);
    let wish = match style {
        b"none" => Wish::None,
        b"western" => Wish::Western,
        b"era" => Wish::Era,
        _ => return None,
    };
    Some(match Date::new(number(year, 65_535)? as u16, small(month)?, small(day)?, wish) {
        Ok(date) => {
            let text = date::write(&date)?;
            format!("taken {}", String::from_utf8_lossy(&text))
        }
        Err(refusal) => show_refusal(refusal),
    })
}

fn show_refusal(refusal: Refusal) -> String {
    format!("refused {} {}", refusal.number, refusal.place)
}

fn show_instruction(instruction: &Instruction) -> String {
    let class = match instruction.class {
        Class::Oral => "oral",
        Class::External => "external",
    };
    let timing = show_timing(&instruction.timing);
    format!("class={class};detail={};{timing}", char::from(instruction.detail))
}

fn show_timing(timing: &Timing) -> String {
    let meal = |m: Option<usage::Meal>| m.map_or('0', |m| char::from(m as u8));
    let part = |p: Option<usage::Part>| p.map_or('0', |p| char::from(p as u8));
    let hour = |h: Option<u8>| h.map_or("-".to_string(), |h| h.to_string());
    let yes = u8::from;
    match timing {
        Timing::Meals(m) => format!(
            "kind=1;times={};bedtime={};supper={};lunch={};breakfast={};waking={};at15={}",
            m.times(),
            yes(m.bedtime),
            meal(m.supper),
            meal(m.lunch),
            meal(m.breakfast),
            yes(m.waking),
            yes(m.at_fifteen)
        ),
        Timing::Even { times, start } => format!("kind=2;times={times};start={}", hour(*start)),
        Timing::Hours(hours) => format!("kind=3;times={};hours={}", hours.times(), join(hours.iter())),
        Timing::Event(e) => format!(
            "kind=5;event={};condition={};interval={};limit={}",
            String::from_utf8_lossy(&e.event),
            char::from(e.condition),
            char::from(e.interval),
            char::from(e.limit)
        ),
        Timing::Parts(p) => format!(
            "kind=6;times={};bedtime={};evening={};noon={};morning={};waking={};hour={}",
            p.times(),
            yes(p.bedtime),
            part(p.evening),
            yes(p.noon),
            part(p.morning),
            yes(p.waking),
            hour(p.hour)
        ),
        Timing::Count { times, about } => format!("kind=7;times={times};about={}", char::from(*about)),
    }
}

fn show_supplement(supplement: &Supplement) -> String {
    match supplement {
        Supplement::OnOff { on, off } => format!("I;on={on};off={off}"),
        Supplement::Week(week) => format!("W;days={}", join((0..7).map(|d| week.0 >> d & 1))),
        Supplement::Dates(d) => format!("D;month={};days={}", d.month, join(day_numbers(d.days))),
        Supplement::Cycle { period, count } => format!("C;period={};count={count}", char::from(*period as u8)),
        Supplement::Unequal(v) => format!("V;order={};digits={};places={}", v.order, v.digits, v.places),
    }
}

fn show_set(set: &DaySet) -> String {
    let mut text = String::new();
    for (month, &days) in set.0.iter().enumerate().filter(|(_, days)| **days != 0) {
        let slash = if text.is_empty() { "" } else { "/" };
        let _ = write!(text, "{slash}{month}:{}", join(day_numbers(days)));
    }
    text
}

fn day_numbers(days: u32) -> impl Iterator<Item = u8> {
    (1..=32).filter(move |d| days >> (d - 1) & 1 == 1)
}

fn join(numbers: impl Iterator<Item = u8>) -> String {
    numbers.map(|n| n.to_string()).collect::<Vec<_>>().join(",")
}

fn answer_sheet(sheet: &[u8]) -> Vec<u8> {
    match file::check(sheet) {
        Ok(lines) => format!("ok {lines}\n"),
        Err(refusal) => show_file_refusal(refusal),
    }
    .into_bytes()
}

/// The doses of each day, or the refusal.
fn answer_calendar(input: &[u8]) -> Vec<u8> {
    let end = input.iter().position(|&c| c == b'\n').unwrap_or(input.len());
    let sheet = input.get(end + 1..).unwrap_or_default();
    match asked_of(&input[..end]) {
        Some(([rp, year, month, day, days], room)) => {
            let mut output = vec![0; room];
            match calendar::fill(sheet, rp, [year, month, day], days, &mut output) {
                Ok(()) => {
                    let doses = output[..days as usize].iter().map(|doses| format!(" {doses}"));
                    format!("doses{}\n", doses.collect::<String>())
                }
                Err(refusal) => show_file_refusal(refusal),
            }
        }
        None => "unknown question\n".into(),
    }
    .into_bytes()
}

/// RP, year, month, day and days; then the room.
fn asked_of(line: &[u8]) -> Option<([u32; 5], usize)> {
    let mut words = line.split(|&c| c == b' ');
    let mut asked = [0; 5];
    for asked in &mut asked {
        *asked = number(words.next()?, u32::MAX as usize)? as u32;
    }
    let room = number(words.next()?, 1 << 20)?;
    words.next().is_none().then_some((asked, room))
}

/// The number, "then `offset` (20 to 22), or `record` and, where there is one, `field`"; of 33 and from 50 on, where no
/// place is named, the number alone.
fn show_file_refusal(r: FileRefusal) -> String {
    if r.number > 32 {
        return format!("refused {}\n", r.number);
    }
    let place = if r.number <= 22 { "offset" } else { "record" };
    let mut text = format!("refused {} {place} {}", r.number, r.at);
    if r.field > 0 {
        let _ = write!(text, " field {}", r.field);
    }
    if r.number == 29 {
        let _ = write!(text, " code {} place {}", r.code, r.place);
    }
    text.push('\n');
    text
}

/// The sheet written again from its records; its refusal, where it has one.
fn rewrite(sheet: &[u8]) -> Vec<u8> {
    let reader = match Reader::open(sheet) {
        Ok(reader) => reader,
        Err(refusal) => return show_file_refusal(refusal).into_bytes(),
    };
    let records = match reader.collect::<Result<Vec<_>, _>>() {
        Ok(records) => records,
        Err(refusal) => return show_file_refusal(refusal).into_bytes(),
    };
    let mut buffer = vec![0; LONGEST];
    let written = Writer::open(&mut buffer).and_then(|mut writer| {
        records.iter().try_for_each(|record| writer.put(record))?;
        writer.close()
    });
    match written {
        Ok(length) => {
            buffer.truncate(length);
            buffer
        }
        Err(WriteRefusal::NoRoom) => b"refused 33\n".to_vec(),
        Err(WriteRefusal::Refused(number)) => format!("refused 34 {number}\n").into_bytes(),
    }
}
