//! Writing a file into a lent buffer, record by record.

use crate::file::{END, LONGEST, VERSION};
use crate::order::Order;
use crate::record::{is_known, is_typed, Drug, Extra, Record, Rp, Usage};
use crate::rules::Raw;
use crate::{date, number, supplement, usage};

/// A refusal to write. "A refused call leaves the writer as it was", and every lent byte.
#[derive(Clone, Copy, Debug, PartialEq, Eq)]
pub enum WriteRefusal {
    /// 33: "no room".
    NoRoom,
    /// 34: "record the reader would refuse here"; the reader's number follows.
    Refused(u16),
}

impl WriteRefusal {
    /// The number in the table of refusals.
    pub fn number(&self) -> u16 {
        match self {
            WriteRefusal::NoRoom => 33,
            WriteRefusal::Refused(_) => 34,
        }
    }
}

/// A file being written.
#[derive(Debug)]
pub struct Writer<'b> {
    buffer: &'b mut [u8],
    at: usize,
    order: Order,
    closed: bool,
}

impl<'b> Writer<'b> {
    /// "Writing opens with the version line (33 by the same rule)."
    pub fn open(buffer: &'b mut [u8]) -> Result<Self, WriteRefusal> {
        let mut writer = Writer { buffer, at: 0, order: Order::new(), closed: false };
        writer.put_line(VERSION.len(), |line| line.put(VERSION))?;
        Ok(writer)
    }

    /// A writer at a place that no writing got to, perhaps outside the buffer, as if no record stood before it.
    pub fn at(buffer: &'b mut [u8], at: usize) -> Self {
        Writer { buffer, at, order: Order::new(), closed: false }
    }

    /// Writes one record: "then 34, then 33".
    pub fn put(&mut self, record: &Record) -> Result<(), WriteRefusal> {
        if self.closed {
            return Err(WriteRefusal::Refused(24));
        }
        let number = record.number();
        // A kept record cannot stand under a number whose fields are typed: it would not be read
        // back as it is held.
        if !is_known(number) || (matches!(record, Record::Kept(_)) && is_typed(number)) {
            return Err(WriteRefusal::Refused(23));
        }
        let stage = self.order.stage.step(number).map_err(WriteRefusal::Refused)?;
        let raw = Raw::of_record(record);
        let judged = raw.judge(&self.order).map_err(|fault| WriteRefusal::Refused(fault.number))?;
        let mut length = Length(0);
        render(&judged, &mut length);
        self.put_line(length.0, |line| render(&judged, line))?;
        self.order.advance(stage, &judged);
        Ok(())
    }

    /// Ends the file and tells its length. "Closing too early is 34 with 32; any call after
    /// closing, 34 with 24." There is room: every line left a byte for it.
    pub fn close(&mut self) -> Result<usize, WriteRefusal> {
        if self.closed {
            return Err(WriteRefusal::Refused(24));
        }
        if !self.order.stage.is_whole() {
            return Err(WriteRefusal::Refused(32));
        }
        self.buffer[self.at] = END;
        self.at += 1;
        self.closed = true;
        Ok(self.at)
    }

    /// The place: how many bytes are written.
    pub fn offset(&self) -> usize {
        self.at
    }

    /// The bytes written so far.
    pub fn written(&self) -> &[u8] {
        &self.buffer[..self.at]
    }

    /// One line with CR LF. 33 "exactly when the place plus the line with CR LF plus the closing
    /// 1Ah passes the buffer or 16,384".
    fn put_line(&mut self, length: usize, fill: impl Fn(&mut Line)) -> Result<(), WriteRefusal> {
        let end = self.at.saturating_add(length + 2);
        if end >= self.buffer.len().min(LONGEST) {
            return Err(WriteRefusal::NoRoom);
        }
        let mut line = Line { room: &mut self.buffer[self.at..end], at: 0 };
        fill(&mut line);
        line.put(b"\r\n");
        self.at = end;
        Ok(())
    }
}

/// Takes the bytes of a line.
trait Sink {
    fn put(&mut self, bytes: &[u8]);

    /// A comma, then the field.
    fn field(&mut self, bytes: &[u8]) {
        self.put(b",");
        self.put(bytes);
    }

    fn number(&mut self, n: impl Into<u32>) {
        self.field(&number::write(n.into()));
    }

    fn optional(&mut self, n: Option<u8>) {
        match n {
            Some(n) => self.number(n),
            None => self.field(b""),
        }
    }

    /// A code, or an empty field.
    fn code<const N: usize>(&mut self, code: Option<[u8; N]>) {
        self.field(code.as_ref().map_or(&[], |code| &code[..]));
    }
}

/// Counts the bytes only.
struct Length(usize);

impl Sink for Length {
    fn put(&mut self, bytes: &[u8]) {
        self.0 += bytes.len();
    }
}

/// Keeps the bytes in a line of the buffer.
struct Line<'b> {
    room: &'b mut [u8],
    at: usize,
}

impl Sink for Line<'_> {
    fn put(&mut self, bytes: &[u8]) {
        self.room[self.at..self.at + bytes.len()].copy_from_slice(bytes);
        self.at += bytes.len();
    }
}

/// A record that has been judged, as its line.
fn render(record: &Record, sink: &mut impl Sink) {
    sink.put(&number::write(record.number().into()));
    match record {
        Record::Kept(kept) => kept.fields.iter().for_each(|field| sink.field(field)),
        Record::Issue(date) => sink.field(date::write(date).as_deref().unwrap_or_default()),
        Record::Rp(rp) => render_rp(rp, sink),
        Record::Usage(usage) => render_usage(usage, sink),
        Record::Extra(extra) => render_extra(extra, sink),
        Record::Drug(drug) => render_drug(drug, sink),
    }
}

fn render_rp(rp: &Rp, sink: &mut impl Sink) {
    sink.number(rp.rp.0);
    sink.number(rp.form);
    sink.field(rp.form_name);
    sink.number(rp.quantity);
}

fn render_usage(record: &Usage, sink: &mut impl Sink) {
    sink.number(record.rp.0);
    sink.number(record.kind);
    sink.code(record.code.as_ref().and_then(usage::write));
    sink.field(record.name);
    sink.optional(record.times);
}

fn render_extra(extra: &Extra, sink: &mut impl Sink) {
    sink.number(extra.rp.0);
    sink.number(extra.serial.0);
    sink.optional(extra.kind);
    sink.field(extra.text);
    sink.code(extra.supplement.as_ref().and_then(supplement::write));
    sink.field(extra.site);
}

fn render_drug(drug: &Drug, sink: &mut impl Sink) {
    sink.number(drug.rp.0);
    sink.number(drug.serial.0);
    sink.optional(drug.kind);
    sink.number(drug.code_kind);
    sink.field(drug.code);
    sink.field(drug.name);
    sink.field(&number::write_amount(drug.amount));
    sink.number(drug.flag);
    sink.field(drug.unit);
}
