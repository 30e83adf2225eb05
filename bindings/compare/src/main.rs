//! Asks the library and the independent implementation the same questions and compares every answer byte by byte.
//!
//! `compare CORPUS PROGRAM [WORDS...]`: CORPUS is the folder of known codes and sheets, PROGRAM the answerer, which may be an emulator
//! with the answerer as its last word. The questions follow from the seeds below and are the same in every run, unless COMPARE_SEED is set to a
//! number that is added to each.

mod answer;
mod calendars;
mod codes;
mod model;
mod random;
mod sheets;
mod states;

use std::collections::BTreeMap;
use std::fs;
use std::io::{self, BufReader, BufWriter, Read, Write};
use std::path::Path;
use std::process::{Child, Command, ExitCode, Stdio};
use std::sync::mpsc::{channel, Receiver};
use std::thread;
use std::time::Instant;

use answer::{Met, Question};
use random::Random;

/// How many differences of a kind are shown.
const SHOWN: usize = 5;

/// What is asked about, with its seed and how many are drawn.
const KINDS: [(&str, u64, usize); 11] = [
    ("usage codes", 101, 200_000),
    ("event rows", 0, 0),
    ("supplementary codes", 102, 200_000),
    ("runs", 103, 20_000),
    ("sets", 104, 20_000),
    ("dates", 0, 0),
    ("issue dates", 0, 0),
    ("sheets", 105, 40_000),
    ("records put", 106, 12_000),
    ("calendars", 108, 12_000),
    ("states that no call gave", 107, 20_000),
];

/// Numbers that the questions of a kind must have been answered with, so that a generator which misses its aim is seen.
fn expected(kind: &str) -> &'static [u16] {
    match kind {
        "usage codes" => &[0, 1, 2, 3, 4, 5, 6, 7, 8, 9, 35],
        "event rows" => &[0, 8, 35],
        "supplementary codes" => &[0, 1, 2, 5, 6, 8, 9, 35],
        "runs" => &[0, 1, 2, 5, 6, 8, 9, 10, 12],
        "sets" => &[0, 10, 11, 33],
        "dates" | "issue dates" => &[0, 27],
        "sheets" => &[0, 20, 21, 22, 23, 24, 25, 26, 27, 28, 29, 30, 31, 32],
        "calendars" => &[0, 20, 21, 22, 23, 24, 25, 26, 27, 28, 29, 30, 31, 32, 33, 50, 51, 53],
        // The end is none of them: it comes only after a drug.
        "states that no call gave" => &[0, 20, 21, 22, 23, 24, 32, 33, 34],
        // 25 is no record's: each has its fields.
        _ => &[0, 23, 24, 26, 27, 28, 29, 30, 31, 32, 33],
    }
}

/// How many questions of a kind must have been answered with 0, where the papers say it: the 127 rows of table 8, oral and external, read and written.
fn taken(kind: &str) -> Option<usize> {
    (kind == "event rows").then_some(4 * 127)
}

/// What the questions of a kind must have met besides.
fn expected_to_meet(kind: &str) -> &'static [Met] {
    match kind {
        "calendars" => calendars::MEETS,
        _ => &[],
    }
}

fn main() -> ExitCode {
    let words: Vec<String> = std::env::args().skip(1).collect();
    let [corpus, answerer @ ..] = &words[..] else {
        eprintln!("usage: compare CORPUS PROGRAM [WORDS...]");
        return ExitCode::from(2);
    };
    if answerer.is_empty() {
        eprintln!("usage: compare CORPUS PROGRAM [WORDS...]");
        return ExitCode::from(2);
    }
    match compare_all(Path::new(corpus), answerer) {
        Ok(0) => ExitCode::SUCCESS,
        Ok(_) => ExitCode::FAILURE,
        Err(error) => {
            eprintln!("compare: {error}");
            ExitCode::from(2)
        }
    }
}

/// All kinds in turn; how many differences and other faults there were.
fn compare_all(corpus: &Path, answerer: &[String]) -> io::Result<usize> {
    let known = fs::read(corpus.join("codes.txt"))?;
    let mut names: Vec<_> =
        fs::read_dir(corpus.join("sheets"))?.map(|entry| Ok(entry?.path())).collect::<io::Result<_>>()?;
    // The order of a folder is not the same everywhere, and the questions are to be.
    names.sort();
    let sheets = names.iter().map(fs::read).collect::<io::Result<Vec<_>>>()?;
    let more = std::env::var("COMPARE_SEED").ok().and_then(|seed| seed.parse().ok()).unwrap_or(0u64);
    let (mut questions, mut faults) = (0, 0);
    let start = Instant::now();
    for (kind, seed, count) in KINDS {
        let tally = compare_kind(kind, seed.wrapping_add(more), count, &known, &sheets, answerer)?;
        questions += tally.questions;
        faults += tally.faults;
    }
    println!("{questions} questions, {faults} faults, {:.1} s", start.elapsed().as_secs_f64());
    Ok(faults)
}

struct Tally {
    questions: usize,
    faults: usize,
}

fn compare_kind(
    kind: &'static str,
    seed: u64,
    count: usize,
    known: &[u8],
    sheets: &[Vec<u8>],
    answerer: &[String],
) -> io::Result<Tally> {
    let start = Instant::now();
    let mut child = Command::new(&answerer[0])
        .args(&answerer[1..])
        .stdin(Stdio::piped())
        .stdout(Stdio::piped())
        .spawn()
        .map_err(|error| io::Error::new(error.kind(), format!("{}: {error}", answerer[0])))?;
    let to = child.stdin.take().ok_or(io::ErrorKind::BrokenPipe)?;
    // Not bounded: the pipes are, and a bound here as well could leave each side waiting for the other.
    let (send, receive) = channel::<Question>();
    let (known, sheets) = (codes::Known::of_lines(known), sheets.to_vec());
    let asking = thread::spawn(move || {
        let mut to = BufWriter::with_capacity(1 << 16, to);
        let mut random = Random::new(seed);
        // A pipe that breaks is seen by the side that reads: the answers end.
        let mut ask = |question: Question| {
            if to.write_all(&question.sent()).is_ok() {
                let _ = send.send(question);
            }
        };
        match kind {
            "usage codes" => codes::usages(&mut random, &known, count, &mut ask),
            "event rows" => codes::event_rows(&mut ask),
            "supplementary codes" => codes::supplements(&mut random, &known, count, &mut ask),
            "runs" => codes::runs(&mut random, &known, count, &mut ask),
            "sets" => codes::sets(&mut random, count, &mut ask),
            "dates" => codes::dates(&mut ask),
            "issue dates" => sheets::issue_dates(&mut ask),
            "sheets" => sheets::sheets(&mut random, &sheets, count, &mut ask),
            "records put" => sheets::puts(&mut random, &sheets, count, &mut ask),
            "calendars" => calendars::calendars(&mut random, &sheets, count, &mut ask),
            _ => states::states(&mut random, &sheets, count, &mut ask),
        }
    });
    let (mut tally, Seen { numbers, met }) = compare_answers(kind, &mut child, receive)?;
    if asking.join().is_err() {
        println!("{kind}: the questions stopped early");
        tally.faults += 1;
    }
    let ended = child.wait()?;
    if !ended.success() {
        println!("{kind}: the answerer ended with {ended}");
        tally.faults += 1;
    }
    let missed: Vec<_> = expected(kind).iter().filter(|&number| !numbers.contains_key(number)).collect();
    if !missed.is_empty() {
        println!("{kind}: no question was answered with {missed:?}");
        tally.faults += 1;
    }
    let missed: Vec<_> = expected_to_meet(kind).iter().filter(|&what| !met.contains_key(what)).collect();
    if !missed.is_empty() {
        println!("{kind}: no question met {missed:?}");
        tally.faults += 1;
    }
    if let Some(count) = taken(kind).filter(|count| numbers.get(&0) != Some(count)) {
        println!("{kind}: {} questions were answered with 0, not {count}", numbers.get(&0).unwrap_or(&0));
        tally.faults += 1;
    }
    let numbers: Vec<_> = numbers.iter().map(|(n, times)| format!("{n}: {times}")).collect();
    println!(
        "{kind}: {} questions (seed {seed}), {} faults, {:.1} s; answers by number {}",
        tally.questions,
        tally.faults,
        start.elapsed().as_secs_f64(),
        numbers.join(", ")
    );
    let mut lines = BTreeMap::<u16, Vec<String>>::new();
    for ((number, what), times) in met {
        lines.entry(number).or_default().push(format!("{what}: {times}"));
    }
    for (number, what) in lines {
        println!("{kind}: questions answered with {number} by what they meet, {}", what.join(", "));
    }
    Ok(tally)
}

/// How often each number was given, and what else was met.
#[derive(Default)]
struct Seen {
    numbers: BTreeMap<u16, usize>,
    met: BTreeMap<Met, usize>,
}

fn compare_answers(kind: &str, child: &mut Child, asked: Receiver<Question>) -> io::Result<(Tally, Seen)> {
    let mut from = BufReader::with_capacity(1 << 16, child.stdout.take().ok_or(io::ErrorKind::BrokenPipe)?);
    let mut tally = Tally { questions: 0, faults: 0 };
    let mut seen = Seen::default();
    let mut theirs = Vec::new();
    for question in asked {
        tally.questions += 1;
        let ours = answer::answer(&question);
        if let Err(error) = read_answer(&mut from, &mut theirs) {
            println!("{kind}: no answer ({error}) to {}", shown(&question));
            tally.faults += 1;
            break;
        }
        for number in answer::numbers_given(&question, &ours) {
            *seen.numbers.entry(number).or_default() += 1;
        }
        for what in answer::met(&question, &ours) {
            *seen.met.entry(what).or_default() += 1;
        }
        if ours != theirs {
            tally.faults += 1;
            if tally.faults <= SHOWN {
                println!("{kind}: DIFFERENCE");
                println!("  question    {}", shown(&question));
                println!("  library     {}", hex(&theirs));
                println!("  independent {}", hex(&ours));
                let at = ours.iter().zip(&theirs).position(|(a, b)| a != b).unwrap_or(ours.len().min(theirs.len()));
                println!("  first at byte {at} of {} and {}", theirs.len(), ours.len());
            }
        }
    }
    Ok((tally, seen))
}

fn read_answer(from: &mut impl Read, answer: &mut Vec<u8>) -> io::Result<()> {
    let mut length = [0; 4];
    from.read_exact(&mut length)?;
    answer.resize(u32::from_le_bytes(length) as usize, 0);
    from.read_exact(answer)
}

/// The letter and the bytes; a text beside them where it is one.
fn shown(question: &Question) -> String {
    let text = String::from_utf8_lossy(&question.bytes).escape_debug().to_string();
    let text = if matches!(question.asked, b'U' | b'S' | b'C' | b'A') { format!(" = {text}") } else { String::new() };
    format!("{} {}{text}", char::from(question.asked), hex(&question.bytes))
}

fn hex(bytes: &[u8]) -> String {
    bytes.iter().map(|byte| format!("{byte:02x}")).collect()
}
