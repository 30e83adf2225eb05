//! The sheets that are timed, built from the corpus; every run builds the same.

use crate::other;
use independent::days::{self, DaySet};
use independent::file::Reader;
use independent::record::Record;
use std::fs;
use std::io;
use std::path::Path;

/// The longest file.
pub const MOST: usize = 16_384;

/// Drawn numbers, the same in every run.
pub struct Draw(pub u64);

impl Draw {
    /// A number below `bound`.
    pub fn below(&mut self, bound: usize) -> usize {
        self.0 = self.0.wrapping_mul(6_364_136_223_846_793_005).wrapping_add(1_442_695_040_888_963_407);
        (self.0 >> 33) as usize % bound
    }
}

/// The sheets of the corpus, by name.
pub fn corpus(folder: &Path) -> io::Result<Vec<(String, Vec<u8>)>> {
    let mut all = Vec::new();
    for entry in fs::read_dir(folder.join("sheets"))? {
        let path = entry?.path();
        let name = path.file_name().map(|name| name.to_string_lossy().into_owned()).unwrap_or_default();
        all.push((name, fs::read(&path)?));
    }
    all.sort();
    Ok(all)
}

/// The lines of a sheet, without CR LF and 1Ah.
fn lines(sheet: &[u8]) -> Vec<&[u8]> {
    let body = sheet.strip_suffix(b"\r\n\x1a").unwrap_or(sheet);
    body.split(|byte| *byte == b'\n').map(|line| line.strip_suffix(b"\r").unwrap_or(line)).collect()
}

fn starts_rp(line: &[u8]) -> bool {
    line.starts_with(b"101,")
}

/// A line of an RP with another RP number, which is the field after the record's own number.
fn renumbered(line: &[u8], rp: usize) -> Vec<u8> {
    let mut fields: Vec<Vec<u8>> = line.split(|byte| *byte == b',').map(<[u8]>::to_vec).collect();
    if let Some(field) = fields.get_mut(1) {
        *field = rp.to_string().into_bytes();
    }
    fields.join(&b',')
}

/// Puts the lines of an RP with another RP number at the end of a sheet.
fn put<T: AsRef<[u8]>>(sheet: &mut Vec<u8>, lines: &[T], rp: usize) {
    for line in lines {
        sheet.extend(renumbered(line.as_ref(), rp));
        sheet.extend_from_slice(b"\r\n");
    }
}

/// What sheets are built of: the lines before the first RP, and the lines of each RP.
pub struct Parts<'a> {
    head: Vec<&'a [u8]>,
    rps: Vec<Vec<&'a [u8]>>,
}

impl<'a> Parts<'a> {
    /// Of the sheets of the corpus that were written as examples (their names begin with s) and are taken.
    pub fn of(corpus: &'a [(String, Vec<u8>)]) -> Parts<'a> {
        let mut parts = Parts { head: Vec::new(), rps: Vec::new() };
        for (name, sheet) in corpus {
            if !name.starts_with('s') || other::check(sheet).is_err() {
                continue;
            }
            let lines = lines(sheet);
            let first = lines.iter().position(|line| starts_rp(line)).unwrap_or(lines.len());
            if parts.head.is_empty() {
                parts.head = lines[..first].to_vec();
            }
            for line in &lines[first..] {
                if starts_rp(line) {
                    parts.rps.push(Vec::new());
                }
                if let Some(rp) = parts.rps.last_mut() {
                    rp.push(line);
                }
            }
        }
        parts
    }

    /// A sheet of at most `most` bytes: the head, then RPs from the one numbered `from` on, around and around, with rising numbers. One that
    /// would make the sheet too long or refused is passed over; none that fits is left out at the end.
    pub fn sheet(&self, most: usize, from: usize) -> Vec<u8> {
        self.ending(most, from, &[])
    }

    /// Such a sheet, but the last RP is of these lines, where there are any.
    fn ending(&self, most: usize, from: usize, last: &[Vec<u8>]) -> Vec<u8> {
        let mut sheet = Vec::new();
        for line in &self.head {
            sheet.extend_from_slice(line);
            sheet.extend_from_slice(b"\r\n");
        }
        let (mut rp, mut passed, mut at) = (1, 0, from);
        while passed < self.rps.len() {
            let mut longer = sheet.clone();
            put(&mut longer, &self.rps[at % self.rps.len()], rp);
            let mut whole = longer.clone();
            put(&mut whole, last, rp + 1);
            whole.push(0x1a);
            at += 1;
            if whole.len() <= most && other::check(&whole).is_ok() {
                sheet = longer;
                rp += 1;
                passed = 0;
            } else {
                passed += 1;
            }
        }
        put(&mut sheet, last, rp);
        sheet.push(0x1a);
        sheet
    }

    /// Such a sheet whose last RP has that supplement.
    pub fn calendar(&self, most: usize, from: usize, supplement: &str) -> Vec<u8> {
        self.ending(most, from, &rp_with(supplement))
    }

    /// `count` sheets of that size, each begun at another RP.
    pub fn sheets(&self, most: usize, count: usize) -> Vec<Vec<u8>> {
        (0..count).map(|i| self.sheet(most, i * self.rps.len() / count)).collect()
    }

    /// The same, each with that supplement in its last RP.
    pub fn calendars(&self, most: usize, count: usize, supplement: &str) -> Vec<Vec<u8>> {
        (0..count).map(|i| self.calendar(most, i * self.rps.len() / count, supplement)).collect()
    }
}

/// What is asked of a calendar: the last RP of a sheet, from the day of issue on.
#[derive(Clone, Copy, PartialEq, Eq)]
pub struct Asked {
    pub rp: u32,
    pub start: [u32; 3],
}

impl Asked {
    /// Of a sheet that is taken.
    pub fn of(sheet: &[u8]) -> Asked {
        let mut asked = Asked { rp: 0, start: [0; 3] };
        for record in Reader::open(sheet).into_iter().flatten().map_while(Result::ok) {
            match record {
                Record::Issue(date) => asked.start = [date.year.into(), date.month.into(), date.day.into()],
                Record::Rp(rp) => asked.rp = rp.rp.0.into(),
                _ => {}
            }
        }
        asked
    }
}

/// What the last RP has as its supplement where its calendar is asked for. `longest` is the longest run: every day of every month by its name.
pub const SUPPLEMENTS: [&str; 5] = ["none", "I", "W", "D", "longest"];

/// The supplementary codes of that name.
fn codes(supplement: &str) -> Vec<u8> {
    match supplement {
        "I" => b"I1100000".to_vec(),
        "W" => b"W0100100".to_vec(),
        "D" => b"D0148BFID0MPT000".to_vec(),
        "longest" => {
            let days = [0, 31, 29, 31, 30, 31, 30, 31, 31, 30, 31, 30, 31].map(|last| ((1u64 << last) - 1) as u32);
            let mut run = vec![0; 67 * 8];
            days::write_run(1, &DaySet(days), &mut run).ok();
            run
        }
        _ => Vec::new(),
    }
}

/// The lines of an RP with that supplement.
fn rp_with(supplement: &str) -> Vec<Vec<u8>> {
    let mut lines = vec![b"101,1,1,,14".to_vec(), b"111,1,2,1013044400000000,AFTER MEALS,3".to_vec()];
    for (i, code) in codes(supplement).chunks(8).enumerate() {
        lines.push([format!("181,1,{},8,DAYS,", i + 1).as_bytes(), code, b","].concat());
    }
    lines.push(b"201,1,1,1,1,,TABLET A,3,1,TAB".to_vec());
    lines
}

/// `count` sheets of mixed sizes: of the corpus, and built; one in four has a byte that was drawn at a place that was drawn, so that many are
/// refused.
pub fn batch(corpus: &[(String, Vec<u8>)], built: &[Vec<Vec<u8>>], count: usize) -> Vec<Vec<u8>> {
    let mut draw = Draw(1);
    (0..count)
        .map(|i| {
            // Of ten: three of the corpus, four of 1 KiB, two of 4 KiB, one of 16 KiB.
            let mut sheet = match i % 10 {
                0..=2 => corpus[draw.below(corpus.len())].1.clone(),
                3..=6 => built[0][draw.below(built[0].len())].clone(),
                7..=8 => built[1][draw.below(built[1].len())].clone(),
                _ => built[2][draw.below(built[2].len())].clone(),
            };
            if draw.below(4) == 0 {
                let at = draw.below(sheet.len());
                sheet[at] = draw.below(256) as u8;
            }
            sheet
        })
        .collect()
}
