//! Times checking, reading and writing sheets and telling their calendars: the library beside other implementations, in one run.

use std::env;
use std::fs;
use std::io::{self, Write};
use std::os::raw::c_int;
use std::path::Path;
use std::time::Instant;

mod library;
mod other;
#[cfg(feature = "pipeline")]
mod pipeline;
mod seen;
mod sheets;

use seen::seen;
use sheets::{Asked, Parts, MOST, SUPPLEMENTS};

/// What is timed.
#[derive(Clone, Copy, PartialEq, Eq)]
enum Work {
    /// Is the sheet right?
    Check,
    /// Every record handed out.
    Read,
    /// Every record read and written again.
    Write,
    /// The doses of an RP on each of 366 days.
    Calendar(Asked),
}

const WORKS: [(Work, &str); 3] = [(Work::Check, "check"), (Work::Read, "read"), (Work::Write, "write")];

/// One that works: what it answers is a count or a length, or a refusal's number.
type Answer = Result<usize, u16>;

struct Side {
    name: &'static str,
    check: fn(&[u8]) -> Answer,
    read: fn(&[u8]) -> Answer,
    write: fn(&[u8], &mut [u8]) -> Answer,
    calendar: fn(&[u8], Asked, &mut [u8]) -> Answer,
}

/// The library, the independent implementation, and the pipeline where it is there. The pipeline can check nothing: it reads instead. Nor has it
/// calendars, and is not asked for any.
const SIDES: &[Side] = &[
    Side {
        name: "library",
        check: library::check,
        read: library::read,
        write: library::write,
        calendar: library::calendar,
    },
    Side {
        name: "independent",
        check: other::check,
        read: other::read,
        write: other::write,
        calendar: other::calendar,
    },
    #[cfg(feature = "pipeline")]
    Side {
        name: "pipeline",
        check: pipeline::read,
        read: pipeline::read,
        write: pipeline::write,
        calendar: |_, _, _| Err(0),
    },
];

impl Side {
    /// Not inlined, so that a trace has where the work begins.
    #[inline(never)]
    fn work(&self, work: Work, sheet: &[u8], out: &mut [u8]) -> Answer {
        match work {
            Work::Check => (self.check)(sheet),
            Work::Read => (self.read)(sheet),
            Work::Write => (self.write)(sheet, out),
            Work::Calendar(asked) => (self.calendar)(sheet, asked, out),
        }
    }
}

/// How many rounds, of which the median is told.
const ROUNDS: usize = 9;

/// And of the batch.
const BATCH_ROUNDS: usize = 3;

/// About how many bytes are worked through in one round.
const BYTES: usize = 1 << 20;

/// How many sheets of each size there are.
const EACH: usize = 16;

const SIZES: [(usize, &str); 3] = [(1 << 10, "1 KiB"), (4 << 10, "4 KiB"), (16 << 10, "16 KiB")];

fn median(mut of: Vec<f64>) -> f64 {
    of.sort_by(f64::total_cmp);
    of[of.len() / 2]
}

/// The median of the rounds for each of `count` things, in nanoseconds by `unit`. Each round runs all of them, each time beginning with another.
fn medians(count: usize, rounds: usize, unit: usize, mut run: impl FnMut(usize)) -> Vec<f64> {
    let mut times = vec![Vec::new(); count];
    for round in 0..rounds {
        for i in 0..count {
            let which = (round + i) % count;
            let start = Instant::now();
            run(which);
            times[which].push(start.elapsed().as_nanos() as f64 / unit as f64);
        }
    }
    times.into_iter().map(median).collect()
}

/// Nanoseconds per byte of each side over these sheets, so many times each.
fn time(work: Work, sheets: &[Vec<u8>], times: usize, rounds: usize) -> Vec<f64> {
    let bytes: usize = sheets.iter().map(Vec::len).sum();
    let mut out = vec![0; MOST];
    medians(SIDES.len(), rounds, bytes * times, |side| {
        for _ in 0..times {
            for sheet in sheets {
                seen(SIDES[side].work(work, seen(sheet), &mut out)).ok();
            }
        }
    })
}

/// Do the library and the independent implementation answer the same, and write the same bytes?
fn agree(sheet: &[u8]) -> bool {
    let (mut ours, mut theirs) = (vec![0; MOST], vec![0; MOST]);
    let same = |work| SIDES[0].work(work, sheet, &mut [0; MOST]) == SIDES[1].work(work, sheet, &mut [0; MOST]);
    same(Work::Check)
        && same(Work::Read)
        && SIDES[0].work(Work::Write, sheet, &mut ours) == SIDES[1].work(Work::Write, sheet, &mut theirs)
        && (SIDES[0].work(Work::Check, sheet, &mut []).is_err() || ours == theirs)
}

/// Do they tell the same calendar?
fn agree_on(sheet: &[u8], asked: Asked) -> bool {
    let (mut ours, mut theirs) = (vec![0; MOST], vec![0; MOST]);
    let answer = SIDES[0].work(Work::Calendar(asked), sheet, &mut ours);
    answer.is_ok() && answer == SIDES[1].work(Work::Calendar(asked), sheet, &mut theirs) && ours == theirs
}

fn differ(sheet: &[u8]) -> io::Error {
    println!("the library and the independent implementation differ about {:?}", sheet);
    io::Error::new(io::ErrorKind::Other, "they differ")
}

/// One line of the table.
fn line(what: &str, of: &str, bytes: usize, ns: &[f64]) {
    print!("{:<7}{:<8}{:>10}", what, of, bytes);
    for side in ns {
        print!("{:>13.2}", side);
    }
    print!("{:>15.2}", ns[0] / ns[1]);
    if let Some(pipeline) = ns.get(2) {
        print!("{:>15.2}", pipeline / ns[0]);
    }
    println!();
    io::stdout().flush().ok();
}

fn head() {
    print!("{:<7}{:<8}{:>10}", "", "", "bytes");
    for side in SIDES {
        print!("{:>13}", side.name);
    }
    print!("{:>15}", "library/indep.");
    if SIDES.len() > 2 {
        print!("{:>15}", "pipel./library");
    }
    println!();
}

fn table(folder: &Path) -> io::Result<()> {
    let corpus = sheets::corpus(folder)?;
    let parts = Parts::of(&corpus);
    let built: Vec<Vec<Vec<u8>>> = SIZES.iter().map(|(most, _)| parts.sheets(*most, EACH)).collect();
    let batch = sheets::batch(&corpus, &built, 10_000);
    let refused = batch.iter().filter(|sheet| other::check(sheet).is_err()).count();
    if let Some(sheet) = built.iter().flatten().chain(&batch).find(|sheet| !agree(sheet)) {
        return Err(differ(sheet));
    }
    println!("Nanoseconds per byte, medians of {} rounds; {} sheets of each size.", ROUNDS, EACH);
    println!("Batch: {} sheets of mixed sizes, {} of them refused; {} rounds.", batch.len(), refused, BATCH_ROUNDS);
    println!();
    head();
    let mut grown = Vec::new();
    for (work, name) in WORKS {
        let mut by_size = Vec::new();
        for (sheets, (most, size)) in built.iter().zip(SIZES) {
            let bytes: usize = sheets.iter().map(Vec::len).sum();
            let ns = time(work, sheets, BYTES / (EACH * most), ROUNDS);
            line(name, size, bytes / EACH, &ns);
            by_size.push(ns);
        }
        grown.push((name, by_size));
    }
    let bytes: usize = batch.iter().map(Vec::len).sum();
    for (work, name) in WORKS {
        line(name, "batch", bytes, &time(work, &batch, 1, BATCH_ROUNDS));
    }
    println!();
    println!("Growth: time per byte at 4 KiB and at 16 KiB, that at 1 KiB being 1; flat is 1.00 1.00.");
    for (name, by_size) in &grown {
        print!("{:<25}", name);
        for (side, _) in SIDES.iter().enumerate() {
            let at = |size: usize| by_size[size][side] / by_size[0][side];
            print!("{:>8.2}{:>5.2}", at(1), at(2));
        }
        println!();
    }
    singles(&built, &corpus);
    calendars(&parts)
}

/// Calendars of 366 days beside checking the same sheets, of the library and of the independent implementation, in nanoseconds per byte.
fn calendars(parts: &Parts) -> io::Result<()> {
    let (most, size) = SIZES[1];
    println!();
    println!(
        "A calendar of 366 days for the last RP of a sheet of {}, beside checking it, in nanoseconds per byte.",
        size
    );
    print!("{:<15}{:>10}", "Its supplement", "bytes");
    for side in &SIDES[..2] {
        print!("{:>13}{:>10}{:>7}", side.name, "calendar", "ratio");
    }
    println!("{:>15}", "library/indep.");
    for supplement in SUPPLEMENTS {
        let sheets = parts.calendars(most, EACH, supplement);
        let sheets: Vec<_> = sheets.into_iter().map(|sheet| (Asked::of(&sheet), sheet)).collect();
        if let Some((_, sheet)) = sheets.iter().find(|(asked, sheet)| !agree(sheet) || !agree_on(sheet, *asked)) {
            return Err(differ(sheet));
        }
        let bytes: usize = sheets.iter().map(|(_, sheet)| sheet.len()).sum();
        let times = BYTES / (EACH * most);
        let mut out = vec![0; MOST];
        // Of each side the check and the calendar.
        let ns = medians(4, ROUNDS, bytes * times, |which| {
            for _ in 0..times {
                for (asked, sheet) in &sheets {
                    let work = if which % 2 == 0 { Work::Check } else { Work::Calendar(*asked) };
                    seen(SIDES[which / 2].work(work, seen(sheet), &mut out)).ok();
                }
            }
        });
        print!("{:<15}{:>10}", supplement, bytes / EACH);
        for side in ns.chunks(2) {
            print!("{:>13.2}{:>10.2}{:>7.2}", side[0], side[1], side[1] / side[0]);
        }
        println!("{:>15.2}", ns[1] / ns[3]);
    }
    Ok(())
}

/// Single operations, of the library and of the independent implementation, in nanoseconds a call.
fn singles(built: &[Vec<Vec<u8>>], corpus: &[(String, Vec<u8>)]) {
    const CALLS: usize = 20_000;
    let fields = |number: &[u8], at: usize| -> Vec<Vec<u8>> {
        let sheets = corpus.iter().filter(|(name, sheet)| name.starts_with('s') && other::check(sheet).is_ok());
        let lines = sheets.flat_map(|(_, sheet)| sheet.split(|byte| *byte == b'\n'));
        let fields = lines.filter(|line| line.starts_with(number)).map(|line| line.split(|b| *b == b',').nth(at));
        fields.flatten().filter(|field| !field.is_empty()).map(<[u8]>::to_vec).collect()
    };
    let usage = fields(b"111,", 3);
    let supplement = fields(b"181,", 5);
    let tell = |what: &str, run: &mut dyn FnMut(usize, usize)| {
        let ns = medians(2, ROUNDS, CALLS, |side| (0..CALLS).for_each(|i| run(side, i)));
        println!("{:<25}{:>13.1}{:>13.1}{:>15.2}", what, ns[0], ns[1], ns[0] / ns[1]);
    };
    println!();
    println!("{:<25}{:>13}{:>13}{:>15}", "Nanoseconds a call", SIDES[0].name, SIDES[1].name, "library/indep.");
    let sheet = &built[0][0];
    tell("open a sheet of 1 KiB", &mut |side, _| {
        seen(if side == 0 { library::open(seen(sheet)) } else { other::open(seen(sheet)) });
    });
    tell("usage code read", &mut |side, i| {
        let code = seen(&usage[i % usage.len()]);
        if side == 0 {
            seen(library::usage_read(code));
        } else {
            seen(independent::usage::read(code)).ok();
        }
    });
    let numbers: Vec<_> = usage.iter().map(|code| library::usage_read(code)).collect();
    let held: Vec<_> = usage.iter().flat_map(|code| independent::usage::read(code)).collect();
    tell("usage code written", &mut |side, i| {
        if side == 0 {
            seen(library::usage_write(seen(&numbers[i % numbers.len()])));
        } else {
            seen(independent::usage::write(seen(&held[i % held.len()])));
        }
    });
    tell("supplementary code read", &mut |side, i| {
        let code = seen(&supplement[i % supplement.len()]);
        if side == 0 {
            seen(library::supplement_read(code));
        } else {
            seen(independent::supplement::read(code)).ok();
        }
    });
    let numbers: Vec<_> = supplement.iter().map(|code| library::supplement_read(code)).collect();
    let held: Vec<_> = supplement.iter().flat_map(|code| independent::supplement::read(code)).collect();
    tell("supplementary code written", &mut |side, i| {
        if side == 0 {
            seen(library::supplement_write(seen(&numbers[i % numbers.len()])));
        } else {
            seen(independent::supplement::write(seen(&held[i % held.len()])));
        }
    });
}

/// Begins and ends what `bench/run count` counts by the emulator.
#[inline(never)]
#[no_mangle]
pub extern "C" fn bench_mark(what: usize) -> usize {
    seen(what)
}

/// What it counts by callgrind, which knows functions.
#[inline(never)]
fn bench_counted(side: &Side, work: Work, sheet: &[u8], out: &mut [u8]) -> Answer {
    side.work(work, sheet, out)
}

/// One work of one side on one sheet, between two marks.
fn one(side: &str, work: &str, sheet: &Path) -> io::Result<()> {
    let sheet = fs::read(sheet)?;
    let mut out = vec![0; MOST];
    let calendar = (Work::Calendar(Asked::of(&sheet)), "calendar");
    for side in SIDES.iter().filter(|known| known.name == side) {
        for (work, _) in WORKS.into_iter().chain([calendar]).filter(|known| known.1 == work) {
            // Once before, so that what is done once in a process is not counted.
            seen(side.work(work, &sheet, &mut out)).ok();
            bench_mark(1);
            let answer = bench_counted(side, work, &sheet, &mut out);
            bench_mark(2);
            println!("{:?}", answer);
        }
    }
    Ok(())
}

/// The first sheet of that size on standard output, or the first whose last RP has a supplement for its calendar.
fn sheet(folder: &str, bytes: &str, supplement: Option<&str>) -> io::Result<()> {
    let corpus = sheets::corpus(Path::new(folder))?;
    let (parts, most) = (Parts::of(&corpus), bytes.parse().unwrap_or(MOST));
    let sheet = supplement.map_or_else(|| parts.sheet(most, 0), |supplement| parts.calendar(most, 0, supplement));
    io::stdout().write_all(&sheet)
}

/// The program: `CORPUS` for the tables, `sheet CORPUS BYTES` for a sheet of that size on standard output, `sheet CORPUS BYTES SUPPLEMENT` for one
/// whose last RP has that supplement, `one SIDE WORK FILE`.
#[no_mangle]
pub extern "C" fn bench_run() -> c_int {
    let given: Vec<String> = env::args().skip(1).collect();
    let given: Vec<&str> = given.iter().map(String::as_str).collect();
    let done = match given[..] {
        [folder] => table(Path::new(folder)),
        ["sheet", folder, bytes] => sheet(folder, bytes, None),
        ["sheet", folder, bytes, supplement] => sheet(folder, bytes, Some(supplement)),
        ["one", side, work, sheet] => one(side, work, Path::new(sheet)),
        _ => Err(io::Error::new(io::ErrorKind::Other, "bench/README.md says how this is started")),
    };
    // Where C starts the program nobody else does it.
    match done.and_then(|()| io::stdout().flush()) {
        Ok(()) => 0,
        Err(error) => {
            eprintln!("{}", error);
            1
        }
    }
}
