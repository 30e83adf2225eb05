//! The other side of the answerer: the same questions, answered in the same bytes by the independent implementation.

use crate::calendars::{self, Asked};
use crate::model;

/// What memory holds that a call has not written.
pub const UNTOUCHED: u8 = 0xa5;
const UNTOUCHED_NUMBER: u64 = u64::from_ne_bytes([UNTOUCHED; 8]);

/// What `yws_sheet_next` returns after the last record.
const END: u16 = 65_535;

/// A question: what is asked, and of what.
pub struct Question {
    /// The letter.
    pub asked: u8,
    /// What follows it.
    pub bytes: Vec<u8>,
}

impl Question {
    /// A question.
    pub fn new(asked: u8, bytes: &[u8]) -> Self {
        Question { asked, bytes: bytes.to_vec() }
    }

    /// As it is sent.
    pub fn sent(&self) -> Vec<u8> {
        let mut sent = vec![self.asked];
        sent.extend((self.bytes.len() as u32).to_le_bytes());
        sent.extend(&self.bytes);
        sent
    }
}

/// The numbers that an answer gives: one, or for records put one by one that of each call, a reader's own in place of 34.
pub fn numbers_given(question: &Question, answer: &[u8]) -> Vec<u16> {
    let mut parts = Parts(answer);
    match question.asked {
        // What opening says is the first of these, and tells less than what the check says.
        b'A' | b'W' => Vec::new(),
        b'P' => {
            let mut records = Parts(&question.bytes);
            let opened = parts.number(2) as u16;
            parts.take(usize::from(opened != 0));
            records.take(4);
            let mut calls = 2;
            while !records.0.is_empty() {
                records.take(model::RECORD * 8);
                let length = records.number(2) as usize;
                records.take(length);
                calls += 1;
            }
            let mut given = vec![opened];
            for _ in 0..calls {
                let (number, own) = (parts.number(2) as u16, parts.number(8) as u16);
                parts.take(if number == 0 { 8 * state_at(0).len() } else { 1 });
                given.push(if own == 0 { number } else { own });
            }
            given
        }
        _ => vec![parts.number(2) as u16],
    }
}

/// Something that a question and its answer meet: the number that is answered, and what it came from.
pub type Met = (u16, &'static str);

/// What a question and its answer meet beside their number.
pub fn met(question: &Question, answer: &[u8]) -> Vec<Met> {
    match question.asked {
        b'L' => calendars::met(&Asked::of(&question.bytes), answer),
        _ => Vec::new(),
    }
}

#[derive(Default)]
struct Answer(Vec<u8>);

impl Answer {
    /// What a call returned.
    fn returned(&mut self, number: u16) {
        self.0.extend(number.to_le_bytes());
    }

    fn byte(&mut self, n: u8) {
        self.0.push(n);
    }

    fn numbers(&mut self, numbers: &[u64]) {
        numbers.iter().for_each(|n| self.0.extend(n.to_le_bytes()));
    }

    fn bytes(&mut self, bytes: &[u8]) {
        self.0.extend(bytes);
    }
}

/// The fixed parts at the front of a question.
struct Parts<'a>(&'a [u8]);

impl<'a> Parts<'a> {
    fn take(&mut self, length: usize) -> &'a [u8] {
        let (taken, rest) = self.0.split_at(length);
        self.0 = rest;
        taken
    }

    fn number(&mut self, length: usize) -> u64 {
        self.take(length).iter().rev().fold(0, |n, &byte| n << 8 | u64::from(byte))
    }

    fn numbers<const N: usize>(&mut self) -> [u64; N] {
        let mut numbers = [0; N];
        numbers.fill_with(|| self.number(8));
        numbers
    }
}

/// The answer to a question.
pub fn answer(question: &Question) -> Vec<u8> {
    let mut answer = Answer::default();
    let mut parts = Parts(&question.bytes);
    match question.asked {
        b'U' => read_code(model::usage_read(parts.0), &mut answer),
        b'u' => written_code(model::usage_write(&parts.numbers()), &mut answer),
        b'S' => read_code(model::supplement_read(parts.0), &mut answer),
        b's' => written_code(model::supplement_write(&parts.numbers()), &mut answer),
        b'R' => run_read(parts, &mut answer),
        b'r' => set_write(parts, &mut answer),
        b'D' => date_make(parts, &mut answer),
        b'C' => sheet_check(parts.0, &mut answer),
        b'A' => sheet_records(parts.0, &mut answer),
        b'W' => sheet_rewrite(parts, &mut answer),
        b'P' => puts_in_turn(parts, &mut answer),
        b'N' => sheet_next(parts, &mut answer),
        b'K' => put_and_close(parts, &mut answer),
        b'L' => calendar(parts.0, &mut answer),
        other => unreachable!("no question {other}"),
    }
    answer.0
}

fn read_code<const N: usize>(read: Result<[u64; N], (u16, u64)>, answer: &mut Answer) {
    let (number, place, numbers) = match read {
        Ok(numbers) => (0, 0, numbers),
        Err((number, place)) => (number, place, [UNTOUCHED_NUMBER; N]),
    };
    answer.returned(number);
    answer.numbers(&[place]);
    answer.numbers(&numbers);
}

fn written_code<const N: usize>(code: Option<[u8; N]>, answer: &mut Answer) {
    answer.returned(if code.is_some() { 0 } else { 35 });
    answer.bytes(&code.unwrap_or([UNTOUCHED; N]));
}

fn run_read(mut parts: Parts, answer: &mut Answer) {
    let issue = parts.number(1) as u8;
    let (number, refusal, days) = match model::run_read(issue, parts.0) {
        Ok(days) => (0, [0; 2], days),
        Err((number, refusal)) => (number, refusal, [UNTOUCHED_NUMBER as u32; 13]),
    };
    answer.returned(number);
    answer.numbers(&refusal);
    answer.numbers(&days.map(u64::from));
}

fn set_write(mut parts: Parts, answer: &mut Answer) {
    let issue = parts.number(1) as u8;
    let mut days = [0; 13];
    days.fill_with(|| parts.number(4) as u32);
    let mut out = vec![UNTOUCHED; parts.number(4) as usize];
    let (number, count) = match model::set_write(issue, &days, &mut out) {
        Ok(count) => (0, count),
        Err(number) => (number, UNTOUCHED_NUMBER),
    };
    answer.returned(number);
    answer.numbers(&[count]);
    answer.bytes(&out);
}

fn date_make(mut parts: Parts, answer: &mut Answer) {
    let year = parts.number(2) as u16;
    let [month, day, style] = [0; 3].map(|_: u8| parts.number(1) as u8);
    let (number, numbers, text) = match model::date_make(year, month, day, style) {
        Ok((numbers, text)) => (0, numbers, text),
        Err(number) => (number, [UNTOUCHED_NUMBER; 4], [UNTOUCHED; 8]),
    };
    answer.returned(number);
    answer.numbers(&numbers);
    answer.bytes(&text);
}

fn sheet_check(file: &[u8], answer: &mut Answer) {
    let (number, records, refusal) = match model::sheet_check(file) {
        Ok(records) => (0, records, [0; 4]),
        Err((number, refusal)) => (number, UNTOUCHED_NUMBER, refusal),
    };
    answer.returned(number);
    answer.numbers(&[records]);
    answer.numbers(&refusal);
}

fn calendar(question: &[u8], answer: &mut Answer) {
    let asked = Asked::of(question);
    let mut doses = vec![UNTOUCHED; asked.room as usize];
    let (number, refusal) = model::calendar(asked.file, asked.rp, asked.start, asked.days, &mut doses);
    answer.returned(number);
    answer.numbers(&refusal);
    answer.bytes(&doses);
}

/// What is said of a state that a call left: where it is, and 0s for what is left over.
fn state_at(place: u64) -> [u64; 1 + model::STATE_LEFT.end - model::STATE_LEFT.start] {
    let mut said = [0; 1 + model::STATE_LEFT.end - model::STATE_LEFT.start];
    said[0] = place;
    said
}

fn sheet_records(file: &[u8], answer: &mut Answer) {
    let opened = model::open(file);
    answer.returned(opened.as_ref().map_or_else(|r| r.0, |_| 0));
    let last = opened.and_then(|mut reader| loop {
        match reader.read() {
            Ok(Some(record)) => {
                answer.returned(0);
                answer.numbers(&[0; 4]);
                answer.numbers(&model::record_numbers(file, &record));
                answer.numbers(&state_at(reader.offset() as u64));
            }
            Ok(None) => break Ok(()),
            Err(refusal) => break Err(model::sheet_refusal(&refusal)),
        }
    });
    let (number, refusal) = match last {
        Ok(()) => (END, [0; 4]),
        Err(refused) => refused,
    };
    answer.returned(number);
    answer.numbers(&refusal);
    answer.numbers(&[UNTOUCHED_NUMBER; model::RECORD]);
    answer.byte(1);
}

fn sheet_next(mut parts: Parts, answer: &mut Answer) {
    let state = parts.numbers();
    let file = parts.0;
    let (reader, next) = model::next_of(file, &state);
    let (number, refusal) = match &next {
        Ok(Some(_)) => (0, [0; 4]),
        Ok(None) => (END, [0; 4]),
        Err(refused) => *refused,
    };
    answer.returned(number);
    answer.numbers(&refusal);
    match &next {
        Ok(Some(record)) => {
            answer.numbers(&model::record_numbers(file, record));
            answer.numbers(&state_at(reader.offset() as u64));
        }
        _ => {
            answer.numbers(&[UNTOUCHED_NUMBER; model::RECORD]);
            answer.numbers(&state);
        }
    }
}

/// The number with what follows it; that a refusal left everything as it was.
fn written(result: Result<u64, (u16, u64)>, answer: &mut Answer) {
    match result {
        Ok(place) => {
            answer.returned(0);
            answer.numbers(&[0]);
            answer.numbers(&state_at(place));
        }
        Err((number, own)) => {
            answer.returned(number);
            answer.numbers(&[own]);
            answer.byte(1);
        }
    }
}

/// What is written with `room` bytes: opened, records put until `put` has no more or wants no more, closed twice.
fn writing<'a>(
    room: usize,
    mut next: impl FnMut() -> Option<independent::record::Record<'a>>,
    stops: bool,
    answer: &mut Answer,
) {
    let mut out = vec![UNTOUCHED; room];
    let opened = model::open_writer(&mut out);
    let mut writer = match opened {
        Ok(writer) => {
            answer.returned(0);
            Some(writer)
        }
        Err((number, _)) => {
            answer.returned(number);
            answer.byte(1);
            None
        }
    };
    while let Some(record) = next() {
        let result = match &mut writer {
            Some(writer) => match writer.put(&record) {
                Ok(()) => Ok(writer.written().len() as u64),
                Err(refusal) => Err(model::write_refusal(refusal)),
            },
            None => Err((34, 24)),
        };
        written(result, answer);
        if result.is_err() && stops {
            break;
        }
    }
    for _ in 0..2 {
        let result = match &mut writer {
            Some(writer) => writer.close().map(|length| length as u64).map_err(model::write_refusal),
            None => Err((34, 24)),
        };
        written(result, answer);
    }
    if let Some(writer) = writer {
        answer.numbers(&[writer.written().len() as u64]);
        answer.bytes(writer.written());
        answer.byte(1);
    }
}

fn sheet_rewrite(mut parts: Parts, answer: &mut Answer) {
    let room = parts.number(4) as usize;
    let mut reader = model::open(parts.0).ok();
    let next = || reader.as_mut()?.read().ok().flatten();
    writing(room, next, true, answer);
}

fn puts_in_turn(mut parts: Parts, answer: &mut Answer) {
    let room = parts.number(4) as usize;
    let next = || {
        if parts.0.is_empty() {
            return None;
        }
        let numbers = parts.numbers();
        let length = parts.number(2) as usize;
        Some(model::record_of(&numbers, parts.take(length)))
    };
    writing(room, next, false, answer);
}

fn put_and_close(mut parts: Parts, answer: &mut Answer) {
    let mut out = vec![UNTOUCHED; parts.number(4) as usize];
    let state = parts.numbers();
    let numbers = parts.numbers();
    let record = model::record_of(&numbers, parts.0);
    match model::writer_of(&mut out, &state) {
        Some(mut writer) => {
            let put = writer.put(&record).map(|()| writer.offset() as u64);
            written(put.map_err(model::write_refusal), answer);
            let closed = writer.close().map(|length| length as u64);
            written(closed.map_err(model::write_refusal), answer);
        }
        None => {
            written(Err((34, 24)), answer);
            written(Err((34, 24)), answer);
        }
    }
    answer.bytes(&out);
}
