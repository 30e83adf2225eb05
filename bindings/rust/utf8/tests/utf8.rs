//! Texts as `str`, of the sheet of drugs that the examples have.

use std::borrow::Cow;

use yawsimbel::{Record, Sheet, Text};

const SHEET: &[u8] = include_bytes!("../../../../examples/drugs.sheet");

#[test]
fn names_of_drugs() {
    let mut names = Vec::new();
    for record in Sheet::open(SHEET) {
        if let Record::Drug(drug) = record.unwrap() {
            names.push((drug.name.to_str().unwrap(), drug.amount.to_string(), drug.unit.to_str().unwrap()));
        }
    }
    assert_eq!(names.len(), 17);
    assert_eq!(names[1], ("ノルバスク錠２．５ｍｇ".into(), "4".into(), "錠".into()));
    assert_eq!(names[9], ("【般】ニフェジピンカプセル10mg".into(), "1".into(), "カプセル".into()));
}

#[test]
fn single_bytes_and_pairs() {
    assert!(matches!(Text::from(b"TAB").to_str(), Ok(Cow::Borrowed("TAB"))));
    assert_eq!(Text::from(b"\xb6\xcc\xdf").to_str().unwrap(), "ｶﾌﾟ");
    // 83h 81h 40h is a pair and `@`.
    assert_eq!(Text::from(b"\x83\x81@").to_str().unwrap(), "メ@");
    let words = Text::from(b"\x85\x40").to_str().unwrap_err().to_string();
    assert_eq!(words, "the text has a pair of bytes that is no character of Shift_JIS");
    assert_eq!(format!("{:?}", Text::from(b"\x8f\xf9 A")), "\"錠 A\"");
    assert_eq!(format!("{:?}", Text::from(b"\x85\x40")), r#""\x85@""#);
}
