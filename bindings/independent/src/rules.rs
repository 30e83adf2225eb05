//! The rules of the fields, for a record read from a line and for one held by a caller alike:
//! "field by field 28, 26, 27, 30, 29, 31".

use std::ops::RangeInclusive;

use crate::date::{self, Date};
use crate::number::{self, GREATEST_AMOUNT};
use crate::order::Order;
use crate::record::{Drug, DrugSerial, Extra, Fields, Kept, Record, Rp, RpNumber, SupplementSerial, Usage};
use crate::supplement::{self, Supplement};
use crate::usage::{self, Instruction};
use crate::{text, Refusal};

/// Why a record is refused, once its number and place are in order.
#[derive(Clone, Copy, Debug)]
pub(crate) struct Fault {
    pub(crate) number: u16,
    /// From 1; 0 where the fault names no field.
    pub(crate) field: usize,
    /// With 29 the refusal of the code.
    pub(crate) code: Option<Refusal>,
}

/// The number of fields is wrong.
pub(crate) const FIELD_COUNT: Fault = Fault { number: 25, field: 0, code: None };

/// Gives a refused field its number.
fn field(field: usize) -> impl Fn(u16) -> Fault {
    move |number| Fault { number, field, code: None }
}

/// A field is given as nothing, as a value, or as something that is none.
type Given<T, E = Malformed> = Result<Option<T>, E>;

#[derive(Clone, Copy)]
pub(crate) struct Malformed;

/// A record as its fields are given, not judged yet.
pub(crate) enum Raw<'a> {
    Kept(Kept<'a>),
    Issue(Given<Date>),
    Rp(RawRp<'a>),
    Usage(RawUsage<'a>),
    Extra(RawExtra<'a>),
    Drug(RawDrug<'a>),
}

pub(crate) struct RawRp<'a> {
    rp: Given<u32>,
    form: Given<u32>,
    form_name: &'a [u8],
    quantity: Given<u32>,
}

pub(crate) struct RawUsage<'a> {
    rp: Given<u32>,
    kind: Given<u32>,
    code: Given<Instruction, Refusal>,
    name: &'a [u8],
    times: Given<u32>,
}

pub(crate) struct RawExtra<'a> {
    rp: Given<u32>,
    serial: Given<u32>,
    kind: Given<u32>,
    text: &'a [u8],
    supplement: Given<Supplement, Refusal>,
    site: &'a [u8],
}

pub(crate) struct RawDrug<'a> {
    rp: Given<u32>,
    serial: Given<u32>,
    kind: Given<u32>,
    code_kind: Given<u32>,
    code: &'a [u8],
    name: &'a [u8],
    amount: Given<u64>,
    flag: Given<u32>,
    unit: &'a [u8],
}

/// What a text gives: nothing where it is empty, else what `read` makes of it.
fn given<T, E>(text: &[u8], read: impl Fn(&[u8]) -> Result<T, E>) -> Given<T, E> {
    match text {
        [] => Ok(None),
        text => read(text).map(Some),
    }
}

fn given_number(text: &[u8]) -> Given<u32> {
    given(text, |text| number::read(text).ok_or(Malformed))
}

/// "Fields part at commas only." Exactly `N` fields, else 25.
fn split<const N: usize>(line: &[u8]) -> Result<[&[u8]; N], Fault> {
    let mut parts = line.split(|&c| c == b',');
    let mut fields = [&line[..0]; N];
    for field in &mut fields {
        *field = parts.next().ok_or(FIELD_COUNT)?;
    }
    match parts.next() {
        None => Ok(fields),
        Some(_) => Err(FIELD_COUNT),
    }
}

impl<'a> Raw<'a> {
    /// The record of a line: its known number, and what follows the first comma.
    pub(crate) fn of_line(number: u16, line: &'a [u8]) -> Result<Raw<'a>, Fault> {
        Ok(match number {
            51 => {
                let [date] = split(line)?;
                Raw::Issue(given(date, |text| date::read(text).ok_or(Malformed)))
            }
            101 => Raw::Rp(RawRp::of_fields(split(line)?)),
            111 => Raw::Usage(RawUsage::of_fields(split(line)?)),
            181 => Raw::Extra(RawExtra::of_fields(split(line)?)),
            201 => Raw::Drug(RawDrug::of_fields(split(line)?)),
            number => Raw::Kept(Kept { number, fields: Fields::Line(line) }),
        })
    }

    /// A record as a caller holds it, "fields taken as held".
    pub(crate) fn of_record(record: &Record<'a>) -> Raw<'a> {
        match record {
            Record::Kept(kept) => Raw::Kept(*kept),
            Record::Issue(date) => Raw::Issue(match date::write(date) {
                Some(_) => Ok(Some(*date)),
                None => Err(Malformed),
            }),
            Record::Rp(rp) => Raw::Rp(RawRp::of_record(rp)),
            Record::Usage(usage) => Raw::Usage(RawUsage::of_record(usage)),
            Record::Extra(extra) => Raw::Extra(RawExtra::of_record(extra)),
            Record::Drug(drug) => Raw::Drug(RawDrug::of_record(drug)),
        }
    }

    /// The record, if the reader takes it here.
    pub(crate) fn judge(self, order: &Order) -> Result<Record<'a>, Fault> {
        Ok(match self {
            Raw::Kept(kept) => Record::Kept(judge_kept(kept)?),
            Raw::Issue(date) => Record::Issue(required(date, |_| true).map_err(field(1))?),
            Raw::Rp(raw) => Record::Rp(raw.judge(order)?),
            Raw::Usage(raw) => Record::Usage(raw.judge(order)?),
            Raw::Extra(raw) => Record::Extra(raw.judge(order)?),
            Raw::Drug(raw) => Record::Drug(raw.judge(order)?),
        })
    }
}

/// A held number.
fn held(n: impl Into<u32>) -> Given<u32> {
    Ok(Some(n.into()))
}

/// A held number that may be empty.
fn held_option(n: Option<u8>) -> Given<u32> {
    Ok(n.map(u32::from))
}

/// A held code: 35 where no code reads as it.
fn held_code<T, C>(value: Option<T>, write: impl Fn(&T) -> Option<C>) -> Given<T, Refusal> {
    match value {
        Some(value) if write(&value).is_none() => Err(Refusal::new(35, 0)),
        value => Ok(value),
    }
}

impl<'a> RawRp<'a> {
    fn of_fields([rp, form, form_name, quantity]: [&'a [u8]; 4]) -> Self {
        RawRp { rp: given_number(rp), form: given_number(form), form_name, quantity: given_number(quantity) }
    }

    fn of_record(rp: &Rp<'a>) -> Self {
        RawRp { rp: held(rp.rp.0), form: held(rp.form), form_name: rp.form_name, quantity: held(rp.quantity) }
    }

    /// "RP*, form* 1 to 99, form name 80, quantity* 1 to 999."
    fn judge(self, order: &Order) -> Result<Rp<'a>, Fault> {
        Ok(Rp {
            rp: rp_number(self.rp, |rp| order.takes_new_rp(rp)).map_err(field(1))?,
            form: required_number(self.form, 1..=99).map_err(field(2))? as u8,
            form_name: checked(self.form_name, 80).map_err(field(3))?,
            quantity: required_number(self.quantity, 1..=999).map_err(field(4))? as u16,
        })
    }
}

impl<'a> RawUsage<'a> {
    fn of_fields([rp, kind, code, name, times]: [&'a [u8]; 5]) -> Self {
        RawUsage {
            rp: given_number(rp),
            kind: given_number(kind),
            code: given(code, usage::read),
            name,
            times: given_number(times),
        }
    }

    fn of_record(record: &Usage<'a>) -> Self {
        RawUsage {
            rp: held(record.rp.0),
            kind: held(record.kind),
            code: held_code(record.code, usage::write),
            name: record.name,
            times: held_option(record.times),
        }
    }

    /// "RP*, kind* 1 or 2, code, name* 80, times per day 1 to 99 or empty." "Code in 111: required
    /// with kind 2, else forbidden."
    fn judge(self, order: &Order) -> Result<Usage<'a>, Fault> {
        let rp = rp_number(self.rp, |rp| order.is_in_rp(rp)).map_err(field(1))?;
        let kind = required_number(self.kind, 1..=2).map_err(field(2))? as u8;
        let code = code_with(kind == 2, self.code, 3)?;
        let name = required_text(self.name, 80).map_err(field(4))?;
        let times = optional_number(self.times, 1..=99).map_err(field(5))?;
        Ok(Usage { rp, kind, code, name, times })
    }
}

impl<'a> RawExtra<'a> {
    fn of_fields([rp, serial, kind, text, supplement, site]: [&'a [u8]; 6]) -> Self {
        RawExtra {
            rp: given_number(rp),
            serial: given_number(serial),
            kind: given_number(kind),
            text,
            supplement: given(supplement, supplement::read),
            site,
        }
    }

    fn of_record(record: &Extra<'a>) -> Self {
        RawExtra {
            rp: held(record.rp.0),
            serial: held(record.serial.0),
            kind: held_option(record.kind),
            text: record.text,
            supplement: held_code(record.supplement, supplement::write),
            site: record.site,
        }
    }

    /// "RP*, serial*, kind 1 to 99 or empty, text* 100, supplement, site." "Supplement in 181: the
    /// same with kind 8; site, three digits or capitals: the same with kind 9."
    fn judge(self, order: &Order) -> Result<Extra<'a>, Fault> {
        let rp = rp_number(self.rp, |rp| order.is_in_rp(rp)).map_err(field(1))?;
        let serial = required_number(self.serial, 1..=99).map_err(field(2))?;
        let serial = SupplementSerial(serial as u8);
        ordered(order.takes_extra(serial)).map_err(field(2))?;
        let kind = optional_number(self.kind, 1..=99).map_err(field(3))?;
        let text = required_text(self.text, 100).map_err(field(4))?;
        let supplement = code_with(kind == Some(8), self.supplement, 5)?;
        if supplement.map_or(false, |s| !order.takes_supplement(&s)) {
            return Err(field(5)(31));
        }
        let site = site_with(kind == Some(9), self.site).map_err(field(6))?;
        Ok(Extra { rp, serial, kind, text, supplement, site })
    }
}

impl<'a> RawDrug<'a> {
    fn of_fields(fields: [&'a [u8]; 9]) -> Self {
        let [rp, serial, kind, code_kind, code, name, amount, flag, unit] = fields;
        RawDrug {
            rp: given_number(rp),
            serial: given_number(serial),
            kind: given_number(kind),
            code_kind: given_number(code_kind),
            code,
            name,
            amount: given(amount, |text| number::read_amount(text).ok_or(Malformed)),
            flag: given_number(flag),
            unit,
        }
    }

    fn of_record(drug: &Drug<'a>) -> Self {
        RawDrug {
            rp: held(drug.rp.0),
            serial: held(drug.serial.0),
            kind: held_option(drug.kind),
            code_kind: held(drug.code_kind),
            code: drug.code,
            name: drug.name,
            amount: Ok(Some(drug.amount)),
            flag: held(drug.flag),
            unit: drug.unit,
        }
    }

    /// "RP*, serial*, kind 1 to 3 or empty, code kind* 1 2 3 4 6 7, drug code 13, name 80, amount*,
    /// flag* 1 or 2, unit* 12."
    fn judge(self, order: &Order) -> Result<Drug<'a>, Fault> {
        let rp = rp_number(self.rp, |rp| order.is_in_rp(rp)).map_err(field(1))?;
        let serial = DrugSerial(required_number(self.serial, 1..=99).map_err(field(2))? as u8);
        ordered(order.takes_drug(serial)).map_err(field(2))?;
        let kind = optional_number(self.kind, 1..=3).map_err(field(3))?;
        let code_kind = required(self.code_kind, |n| matches!(n, 1..=4 | 6 | 7)).map_err(field(4))? as u8;
        let code = drug_code(code_kind, self.code).map_err(field(5))?;
        let name = drug_name(code_kind, code, self.name).map_err(field(6))?;
        let amount = required(self.amount, |amount| *amount <= GREATEST_AMOUNT).map_err(field(7))?;
        let flag = required_number(self.flag, 1..=2).map_err(field(8))? as u8;
        let unit = required_text(self.unit, 12).map_err(field(9))?;
        Ok(Drug { rp, serial, kind, code_kind, code, name, amount, flag, unit })
    }
}

/// "Kept as one or more fields of text, each 0 to 200 bytes."
fn judge_kept(kept: Kept) -> Result<Kept, Fault> {
    let mut count = 0;
    for (text, i) in kept.fields.iter().zip(1..) {
        checked(text, 200).map_err(field(i))?;
        count = i;
    }
    match count {
        0 => Err(FIELD_COUNT),
        _ => Ok(kept),
    }
}

/// 28 where a required value is missing, 27 where it is none or not one asked for.
fn required<T>(given: Given<T>, asked: impl Fn(&T) -> bool) -> Result<T, u16> {
    match given {
        Ok(None) => Err(28),
        Ok(Some(value)) if asked(&value) => Ok(value),
        _ => Err(27),
    }
}

fn required_number(given: Given<u32>, range: RangeInclusive<u32>) -> Result<u32, u16> {
    required(given, |n| range.contains(n))
}

/// A number of at most two digits, or empty.
fn optional_number(given: Given<u32>, range: RangeInclusive<u32>) -> Result<Option<u8>, u16> {
    match given {
        Ok(None) => Ok(None),
        given => required_number(given, range).map(|n| Some(n as u8)),
    }
}

/// 30: "RP number or serial not as ordered".
fn ordered(is: bool) -> Result<(), u16> {
    is.then_some(()).ok_or(30)
}

fn rp_number(given: Given<u32>, takes: impl Fn(RpNumber) -> bool) -> Result<RpNumber, u16> {
    let rp = RpNumber(required_number(given, 1..=999)? as u16);
    ordered(takes(rp))?;
    Ok(rp)
}

/// 26: "badly formed, end space, too long".
fn checked(text: &[u8], most: usize) -> Result<&[u8], u16> {
    text::is_sound(text, most).then_some(text).ok_or(26)
}

fn required_text(text: &[u8], most: usize) -> Result<&[u8], u16> {
    match text {
        [] => Err(28),
        text => checked(text, most),
    }
}

/// 28 unless a field is filled exactly when it is required.
fn filled_when(required: bool, filled: bool) -> Result<(), u16> {
    (required == filled).then_some(()).ok_or(28)
}

/// A code "required with" a kind, "else forbidden": 28, then 29 with the code's own refusal.
fn code_with<T>(asked: bool, given: Given<T, Refusal>, at: usize) -> Result<Option<T>, Fault> {
    filled_when(asked, !matches!(given, Ok(None))).map_err(field(at))?;
    given.map_err(|own| Fault { number: 29, field: at, code: Some(own) })
}

/// "Site, three digits or capitals."
fn site_with(asked: bool, site: &[u8]) -> Result<&[u8], u16> {
    filled_when(asked, !site.is_empty())?;
    let three = site.len() == 3 && site.iter().all(|c| c.is_ascii_digit() || c.is_ascii_uppercase());
    (!asked || three).then_some(site).ok_or(27)
}

/// "Drug code (digits, letters of either case, point, hyphen): empty for code kind 1, free for 7,
/// else required."
fn drug_code(code_kind: u8, code: &[u8]) -> Result<&[u8], u16> {
    if code_kind != 7 {
        filled_when(code_kind != 1, !code.is_empty())?;
    }
    checked(code, 13)?;
    let known = |c: &u8| c.is_ascii_alphanumeric() || matches!(c, b'.' | b'-');
    code.iter().all(known).then_some(code).ok_or(27)
}

/// "The name may be empty only for code kind 2, and not for code 777770000."
fn drug_name<'a>(code_kind: u8, code: &[u8], name: &'a [u8]) -> Result<&'a [u8], u16> {
    let may_be_empty = code_kind == 2 && code != b"777770000";
    match may_be_empty {
        true => checked(name, 80),
        false => required_text(name, 80),
    }
}
