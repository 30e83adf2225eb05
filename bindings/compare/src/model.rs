//! The functions of `yawsimbel.h` over the independent implementation: its values as the plain numbers of the C interface, and back.

use std::ops::Range;

use independent::calendar;
use independent::date::{self, Date, Era, Style, Wish};
use independent::days::{self, DaySet};
use independent::file::{FileRefusal, Reader};
use independent::record::{Drug, DrugSerial, Extra, Fields, Kept, Record, Rp, RpNumber, SupplementSerial, Usage};
use independent::supplement::{self, Dates, Period, Supplement, Unequal, Week};
use independent::usage::{self, Class, Event, Hours, Instruction, Meal, Meals, Part, Parts, Timing};
use independent::writer::{WriteRefusal, Writer};

// Lengths of the arrays, as in `include/yawsimbel.h`.
const USAGE: usize = 29;
const SUPPLEMENT: usize = 22;
pub const RECORD: usize = 40;
pub const STATE: usize = 16;

/// The numbers of a usage code.
pub type UsageNumbers = [u64; USAGE];
/// The numbers of a supplementary code.
pub type SupplementNumbers = [u64; SUPPLEMENT];
/// The numbers of a record.
pub type RecordNumbers = [u64; RECORD];
/// Offset, field, the code's own number, where in the field.
pub type SheetRefusal = [u64; 4];
/// The numbers of a reader's or a writer's state.
pub type State = [u64; STATE];

/// Where the event and the condition of kind 5 stand among a usage code's numbers.
pub const EVENT_ROW: Range<usize> = 11..14;
/// Where the hours of kind 3 stand among a usage code's numbers. Those after them are left over.
const HOURS: Range<usize> = 17..25;
/// Where a code stands among its record's numbers.
const USAGE_CODE: Range<usize> = 6..6 + USAGE;
pub const SUPPLEMENT_CODE: Range<usize> = 8..8 + SUPPLEMENT;
/// The numbers of a state that are left over.
pub const STATE_LEFT: Range<usize> = 11..STATE;

/// No hour.
const NO_HOUR: u64 = 24;

/// A character's value: "0 to 9, A 10 to Z 35".
pub fn value(c: u8) -> u64 {
    match c {
        b'0'..=b'9' => u64::from(c - b'0'),
        b'A'..=b'Z' => u64::from(c - b'A') + 10,
        _ => u64::MAX,
    }
}

/// The character of a value; one that no code has where there is none.
fn character(value: u64) -> u8 {
    match value {
        0..=9 => b'0' + value as u8,
        10..=35 => b'A' + (value - 10) as u8,
        _ => b'?',
    }
}

/// A number in eight bits. All above them become their greatest, which is in no field's range.
fn byte(n: u64) -> u8 {
    n.min(255) as u8
}

fn half(n: u64) -> u16 {
    n.min(65_535) as u16
}

// ---- usage codes

/// `yws_usage_read`: the numbers, or the refusal's number and place.
pub fn usage_read(code: &[u8]) -> Result<UsageNumbers, (u16, u64)> {
    usage::read(code).map(|i| usage_numbers(&i)).map_err(|r| (r.number, r.place as u64))
}

/// `yws_usage_write`.
pub fn usage_write(numbers: &UsageNumbers) -> Option<[u8; 16]> {
    usage::write(&instruction(numbers))
}

/// An instruction as its numbers.
fn usage_numbers(i: &Instruction) -> UsageNumbers {
    let hour = |h: Option<u8>| h.map_or(NO_HOUR, u64::from);
    let flag = u64::from;
    let mut n = [0; USAGE];
    n[9] = NO_HOUR;
    n[10] = NO_HOUR;
    n[HOURS].fill(NO_HOUR);
    n[0] = match i.class {
        Class::Oral => 1,
        Class::External => 2,
    };
    n[1] = value(i.detail);
    match &i.timing {
        Timing::Meals(m) => {
            let meal = |m: Option<Meal>| m.map_or(0, |m| value(m as u8));
            n[2] = 1;
            n[3] = u64::from(m.times());
            n[4..9].copy_from_slice(&[
                flag(m.bedtime),
                meal(m.supper),
                meal(m.lunch),
                meal(m.breakfast),
                flag(m.waking),
            ]);
            n[9] = if m.at_fifteen { 15 } else { NO_HOUR };
        }
        Timing::Even { times, start } => {
            n[2] = 2;
            n[3] = u64::from(*times);
            n[10] = hour(*start);
        }
        Timing::Hours(hours) => {
            n[2] = 3;
            n[3] = u64::from(hours.times());
            for (cell, hour) in n[HOURS].iter_mut().zip(hours.iter()) {
                *cell = u64::from(hour);
            }
        }
        Timing::Event(e) => {
            n[2] = 5;
            let characters = [e.event[0], e.event[1], e.condition, e.interval, e.limit];
            n[11..16].copy_from_slice(&characters.map(value));
        }
        Timing::Parts(p) => {
            let part = |p: Option<Part>| p.map_or(0, |p| value(p as u8));
            n[2] = 6;
            n[3] = u64::from(p.times());
            n[4..9].copy_from_slice(&[flag(p.bedtime), part(p.evening), flag(p.noon), part(p.morning), flag(p.waking)]);
            n[9] = hour(p.hour);
        }
        Timing::Count { times, about } => {
            n[2] = 7;
            n[3] = u64::from(*times);
            n[16] = value(*about);
        }
    }
    n
}

/// An instruction that no code reads as: an oral detail that there is not.
const NO_INSTRUCTION: Instruction =
    Instruction { class: Class::Oral, detail: b'?', timing: Timing::Count { times: 1, about: b'0' } };

/// The instruction of some numbers; one that no code reads as, where they are no code's.
fn instruction(n: &UsageNumbers) -> Instruction {
    // The numbers say some things twice (times a day) and have places for things that another kind names, so they are a
    // code's only where that code's numbers are these; those left over are not looked at.
    match instruction_like(n) {
        Some(i) if usage_numbers(&i)[..HOURS.end] == n[..HOURS.end] => i,
        _ => NO_INSTRUCTION,
    }
}

fn instruction_like(n: &UsageNumbers) -> Option<Instruction> {
    let class = match n[0] {
        1 => Class::Oral,
        2 => Class::External,
        _ => return None,
    };
    let hour = |h: u64| if h == NO_HOUR { None } else { Some(byte(h)) };
    let timing = match n[2] {
        1 => Timing::Meals(Meals {
            bedtime: n[4] != 0,
            supper: meal(n[5])?,
            lunch: meal(n[6])?,
            breakfast: meal(n[7])?,
            waking: n[8] != 0,
            at_fifteen: n[9] == 15,
        }),
        2 => Timing::Even { times: byte(n[3]), start: hour(n[10]) },
        3 => {
            let standing = n[HOURS].iter().filter(|&&h| h < NO_HOUR);
            Timing::Hours(Hours(standing.fold(0, |hours, &h| hours | 1 << h)))
        }
        5 => Timing::Event(Event {
            event: [character(n[11]), character(n[12])],
            condition: character(n[13]),
            interval: character(n[14]),
            limit: character(n[15]),
        }),
        6 => Timing::Parts(Parts {
            bedtime: n[4] != 0,
            evening: part(n[5])?,
            noon: n[6] != 0,
            morning: part(n[7])?,
            waking: n[8] != 0,
            hour: hour(n[9]),
        }),
        7 => Timing::Count { times: byte(n[3]), about: character(n[16]) },
        _ => return None,
    };
    Some(Instruction { class, detail: character(n[1]), timing })
}

fn meal(n: u64) -> Option<Option<Meal>> {
    Some(match n {
        0 => None,
        1 => Some(Meal::Before),
        2 => Some(Meal::JustBefore),
        3 => Some(Meal::JustAfter),
        4 => Some(Meal::After),
        5 => Some(Meal::TwoHoursAfter),
        6 => Some(Meal::During),
        _ => return None,
    })
}

fn part(n: u64) -> Option<Option<Part>> {
    Some(match n {
        0 => None,
        9 => Some(Part::Nine),
        10 => Some(Part::A),
        _ => return None,
    })
}

// ---- supplementary codes

/// `yws_supplement_read`.
pub fn supplement_read(code: &[u8]) -> Result<SupplementNumbers, (u16, u64)> {
    supplement::read(code).map(|s| supplement_numbers(&s)).map_err(|r| (r.number, r.place as u64))
}

/// `yws_supplement_write`.
pub fn supplement_write(numbers: &SupplementNumbers) -> Option<[u8; 8]> {
    supplement::write(&supplement_of(numbers))
}

fn supplement_numbers(s: &Supplement) -> SupplementNumbers {
    let mut n = [0; SUPPLEMENT];
    match s {
        Supplement::OnOff { on, off } => {
            n[0] = u64::from(b'I');
            n[1] = u64::from(*on);
            n[2] = u64::from(*off);
        }
        Supplement::Week(week) => {
            n[0] = u64::from(b'W');
            for (weekday, cell) in n[3..10].iter_mut().enumerate() {
                *cell = u64::from(week.0 >> weekday & 1);
            }
        }
        Supplement::Dates(dates) => {
            n[0] = u64::from(b'D');
            n[10] = u64::from(dates.month);
            let days = (1..=31).filter(|day| dates.days >> (day - 1) & 1 == 1);
            for (cell, day) in n[11..17].iter_mut().zip(days) {
                *cell = day;
            }
        }
        Supplement::Cycle { period, count } => {
            n[0] = u64::from(b'C');
            n[17] = *period as u64;
            n[18] = u64::from(*count);
        }
        Supplement::Unequal(unequal) => {
            n[0] = u64::from(b'V');
            n[19] = u64::from(unequal.order);
            n[20] = u64::from(unequal.digits);
            n[21] = u64::from(unequal.places);
        }
    }
    n
}

/// As `instruction`.
fn supplement_of(n: &SupplementNumbers) -> Supplement {
    match supplement_like(n) {
        Some(s) if supplement_numbers(&s) == *n => s,
        _ => Supplement::OnOff { on: 0, off: 0 },
    }
}

fn supplement_like(n: &SupplementNumbers) -> Option<Supplement> {
    Some(match byte(n[0]) {
        b'I' => Supplement::OnOff { on: byte(n[1]), off: byte(n[2]) },
        b'W' => Supplement::Week(Week((0..7).fold(0, |week, day| week | u8::from(n[3 + day] != 0) << day))),
        b'D' => {
            let standing = n[11..17].iter().filter(|day| (1..=31).contains(*day));
            Supplement::Dates(Dates { month: byte(n[10]), days: standing.fold(0, |days, day| days | 1 << (day - 1)) })
        }
        b'C' => {
            let period = match byte(n[17]) {
                b'Y' => Period::Year,
                b'M' => Period::Month,
                b'W' => Period::Week,
                _ => return None,
            };
            Supplement::Cycle { period, count: byte(n[18]) }
        }
        b'V' => {
            let digits = n[20].min(u64::from(u32::MAX)) as u32;
            Supplement::Unequal(Unequal { order: byte(n[19]), digits, places: byte(n[21]) })
        }
        _ => return None,
    })
}

// ---- runs, sets, dates

/// `yws_run_read`: the masks, or the number with the place and the code's number.
pub fn run_read(issue: u8, codes: &[u8]) -> Result<[u32; 13], (u16, [u64; 2])> {
    days::read_run(issue, codes).map(|set| set.0).map_err(|r| (r.number, [r.place as u64, r.code as u64]))
}

/// `yws_set_write`: how many codes were written.
pub fn set_write(issue: u8, masks: &[u32; 13], out: &mut [u8]) -> Result<u64, u16> {
    days::write_run(issue, &DaySet(*masks), out).map(|codes| codes as u64).map_err(|r| r.number)
}

/// `yws_date_make`: the numbers and the characters.
pub fn date_make(year: u16, month: u8, day: u8, style: u8) -> Result<([u64; 4], [u8; 8]), u16> {
    let wish = match style {
        0 => Wish::None,
        1 => Wish::Western,
        _ => Wish::Era,
    };
    let date = Date::new(year, month, day, wish).map_err(|r| r.number)?;
    let mut text = [0; 8];
    let written = date::write(&date).unwrap_or_default();
    text[..written.len()].copy_from_slice(&written);
    Ok((date_numbers(&date), text))
}

fn date_numbers(date: &Date) -> [u64; 4] {
    let era = match date.style {
        Style::Western => 0,
        Style::Era(era) => era as u64,
    };
    [era, u64::from(date.year), u64::from(date.month), u64::from(date.day)]
}

fn date_of(n: &[u64]) -> Date {
    let style = match n[0] {
        0 => Some(Style::Western),
        1 => Some(Style::Era(Era::Meiji)),
        2 => Some(Style::Era(Era::Taisho)),
        3 => Some(Style::Era(Era::Showa)),
        4 => Some(Style::Era(Era::Heisei)),
        5 => Some(Style::Era(Era::Reiwa)),
        _ => None,
    };
    match style {
        Some(style) => Date { year: half(n[1]), month: byte(n[2]), day: byte(n[3]), style },
        // No date has the year 0.
        None => Date { year: 0, month: 1, day: 1, style: Style::Western },
    }
}

// ---- sheets

/// What is said of a refused sheet.
pub fn sheet_refusal(r: &FileRefusal) -> (u16, SheetRefusal) {
    (r.number, [r.at as u64, r.field as u64, u64::from(r.code), r.place as u64])
}

/// `yws_sheet_check`.
pub fn sheet_check(file: &[u8]) -> Result<u64, (u16, SheetRefusal)> {
    independent::file::check(file).map(|lines| lines as u64).map_err(|r| sheet_refusal(&r))
}

/// `yws_calendar`: the number, and what is said of a refused sheet. The start is a year, a month and a day.
pub fn calendar(file: &[u8], rp: u32, start: [u32; 3], days: u32, doses: &mut [u8]) -> (u16, SheetRefusal) {
    match calendar::fill(file, rp, start, days, doses) {
        Ok(()) => (0, [0; 4]),
        Err(refusal) => sheet_refusal(&refusal),
    }
}

/// A record of a file as its numbers.
pub fn record_numbers(file: &[u8], record: &Record) -> RecordNumbers {
    let mut n = [0; RECORD];
    n[0] = u64::from(record.number());
    let place = |text: &[u8]| {
        let from = (text.as_ptr() as usize).wrapping_sub(file.as_ptr() as usize);
        [from as u64, (from + text.len()) as u64]
    };
    let optional = |n: Option<u8>| n.map_or(0, u64::from);
    match record {
        Record::Kept(kept) => {
            if let Fields::Line(line) = kept.fields {
                n[1..3].copy_from_slice(&place(line));
            }
        }
        Record::Issue(date) => n[1..5].copy_from_slice(&date_numbers(date)),
        Record::Rp(rp) => {
            n[1] = u64::from(rp.rp.0);
            n[2] = u64::from(rp.form);
            n[3..5].copy_from_slice(&place(rp.form_name));
            n[5] = u64::from(rp.quantity);
        }
        Record::Usage(usage) => {
            n[1] = u64::from(usage.rp.0);
            n[2] = u64::from(usage.kind);
            n[3..5].copy_from_slice(&place(usage.name));
            n[5] = optional(usage.times);
            n[USAGE_CODE].copy_from_slice(&usage.code.as_ref().map_or([0; USAGE], usage_numbers));
        }
        Record::Extra(extra) => {
            n[1] = u64::from(extra.rp.0);
            n[2] = u64::from(extra.serial.0);
            n[3] = optional(extra.kind);
            n[4..6].copy_from_slice(&place(extra.text));
            n[6..8].copy_from_slice(&place(extra.site));
            n[SUPPLEMENT_CODE].copy_from_slice(&extra.supplement.as_ref().map_or([0; SUPPLEMENT], supplement_numbers));
        }
        Record::Drug(drug) => {
            n[1] = u64::from(drug.rp.0);
            n[2] = u64::from(drug.serial.0);
            n[3] = optional(drug.kind);
            n[4] = u64::from(drug.code_kind);
            n[5..7].copy_from_slice(&place(drug.code));
            n[7..9].copy_from_slice(&place(drug.name));
            n[9] = drug.amount;
            n[10] = u64::from(drug.flag);
            n[11..13].copy_from_slice(&place(drug.unit));
        }
    }
    n
}

/// A byte that no text has, for a place that is not in the lent bytes.
const NO_TEXT: &[u8] = &[0];

/// The record of some numbers, its texts in the lent bytes.
pub fn record_of<'a>(n: &RecordNumbers, lent: &'a [u8]) -> Record<'a> {
    let text = |i: usize| -> &'a [u8] {
        let within = |n: u64| usize::try_from(n).ok();
        within(n[i]).zip(within(n[i + 1])).and_then(|(from, to)| lent.get(from..to)).unwrap_or(NO_TEXT)
    };
    let optional = |n: u64| if n == 0 { None } else { Some(byte(n)) };
    match n[0] {
        51 => Record::Issue(date_of(&n[1..5])),
        101 => Record::Rp(Rp { rp: RpNumber(half(n[1])), form: byte(n[2]), form_name: text(3), quantity: half(n[5]) }),
        111 => {
            let mut code = [0; USAGE];
            code.copy_from_slice(&n[USAGE_CODE]);
            Record::Usage(Usage {
                rp: RpNumber(half(n[1])),
                kind: byte(n[2]),
                code: if code[0] == 0 { None } else { Some(instruction(&code)) },
                name: text(3),
                times: optional(n[5]),
            })
        }
        181 => {
            let mut code = [0; SUPPLEMENT];
            code.copy_from_slice(&n[SUPPLEMENT_CODE]);
            Record::Extra(Extra {
                rp: RpNumber(half(n[1])),
                serial: SupplementSerial(byte(n[2])),
                kind: optional(n[3]),
                text: text(4),
                supplement: if code[0] == 0 { None } else { Some(supplement_of(&code)) },
                site: text(6),
            })
        }
        201 => Record::Drug(Drug {
            rp: RpNumber(half(n[1])),
            serial: DrugSerial(byte(n[2])),
            kind: optional(n[3]),
            code_kind: byte(n[4]),
            code: text(5),
            name: text(7),
            amount: n[9],
            flag: byte(n[10]),
            unit: text(11),
        }),
        number => Record::Kept(Kept { number: half(number), fields: Fields::Line(text(1)) }),
    }
}

/// The number of a refusal to write, and the reader's number that follows it.
pub fn write_refusal(refusal: WriteRefusal) -> (u16, u64) {
    match refusal {
        WriteRefusal::NoRoom => (33, 0),
        WriteRefusal::Refused(own) => (34, u64::from(own)),
    }
}

/// `yws_sheet_open` and `yws_sheet_next`.
pub fn open(file: &[u8]) -> Result<Reader<'_>, (u16, SheetRefusal)> {
    Reader::open(file).map_err(|r| sheet_refusal(&r))
}

/// `yws_writer_open`.
pub fn open_writer(out: &mut [u8]) -> Result<Writer<'_>, (u16, u64)> {
    Writer::open(out).map_err(write_refusal)
}

/// `yws_sheet_next` on a state that no call gave. The header: "state[1] is 1 while it is open; 21, 22 or 23 for a reader whose opening returned 20,
/// 21 or 22; any other number says that nothing is open". One that is open has only zeros after that here, but for
/// what is left over: no record stands before its place.
pub fn next_of<'a>(file: &'a [u8], state: &State) -> (Reader<'a>, Result<Option<Record<'a>>, (u16, SheetRefusal)>) {
    let mut reader = Reader::at(file, state[0] as usize);
    let refused = |number| Err((number, [state[0], 0, 0, 0]));
    let answer = match state[1] {
        1 => reader.read().map_err(|r| sheet_refusal(&r)),
        21 => refused(20),
        22 => refused(21),
        23 => refused(22),
        _ => refused(24),
    };
    (reader, answer)
}

/// The writer of a state that no call gave; `None` where it is not open. As for `next_of`.
pub fn writer_of<'b>(out: &'b mut [u8], state: &State) -> Option<Writer<'b>> {
    (state[1] == 1).then(|| Writer::at(out, state[0] as usize))
}
