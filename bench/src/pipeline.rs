//! A pipeline over crates that know no rule of a sheet: Shift_JIS to UTF-8 and lines and fields, every field touched; and back again.

use crate::seen::see;
use csv::{ReaderBuilder, StringRecord, Terminator, WriterBuilder};
use encoding_rs::SHIFT_JIS;

/// Hands every line of a sheet to `take`; how many there are. Where a byte is no Shift_JIS it is replaced, and never refused.
fn each(file: &[u8], mut take: impl FnMut(&StringRecord)) -> Result<usize, u16> {
    let body = file.strip_suffix(b"\x1a").unwrap_or(file);
    let (text, _, _) = SHIFT_JIS.decode(body);
    let mut reader = ReaderBuilder::new().has_headers(false).flexible(true).quoting(false).from_reader(text.as_bytes());
    let mut record = StringRecord::new();
    let mut lines = 0;
    while reader.read_record(&mut record).map_err(|_| 1u16)? {
        take(&record);
        lines += 1;
    }
    Ok(lines)
}

/// Reads every field; how many lines there are.
pub fn read(file: &[u8]) -> Result<usize, u16> {
    each(file, |record| {
        for field in record {
            see(&field);
        }
    })
}

/// Reads every field and writes it again; the length written.
pub fn write(file: &[u8], out: &mut [u8]) -> Result<usize, u16> {
    let mut writer = WriterBuilder::new()
        .flexible(true)
        .quote_style(csv::QuoteStyle::Never)
        .terminator(Terminator::CRLF)
        .from_writer(Vec::new());
    let mut wrong = false;
    each(file, |record| wrong |= writer.write_record(record).is_err())?;
    let text = writer.into_inner().map_err(|_| 1u16)?;
    let text = String::from_utf8(text).map_err(|_| 1u16)?;
    let (bytes, _, _) = SHIFT_JIS.encode(&text);
    let length = bytes.len() + 1;
    if wrong || length > out.len() {
        return Err(1);
    }
    out[..length - 1].copy_from_slice(&bytes);
    out[length - 1] = 0x1a;
    Ok(length)
}
