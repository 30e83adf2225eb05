//! Document 01's sample file and its neighbours, read, refused and written.

use independent::date::{Date, Era, Style, Wish};
use independent::file::{check, FileRefusal, Reader, LONGEST};
use independent::record::{Drug, DrugSerial, Extra, Fields, Kept, Record, Rp, RpNumber, SupplementSerial, Usage};
use independent::supplement::{Supplement, Unequal, Week};
use independent::usage::{self, Hours, Timing};
use independent::writer::{WriteRefusal, Writer};

const SAMPLE: [&str; 13] = [
    "JAHIS5",
    "1,1,7654321,13,KITA CLINIC",
    "5,,,SATO",
    "11,YAMADA JIRO,",
    "12,1",
    "13,19700203",
    "22,",
    "23,,,1",
    "51,20180702",
    "101,1,1,,14",
    "111,1,2,1013044400000000,AFTER MEALS,3",
    "181,1,1,8,EVERY OTHER DAY,I1100000,",
    "201,1,1,1,1,,TABLET A,3,1,TAB",
];

/// The lines, "each with CR LF, then 1Ah".
fn sheet(lines: &[&str]) -> Vec<u8> {
    let mut bytes = Vec::new();
    for line in lines {
        bytes.extend(line.chars().map(|c| c as u8));
        bytes.extend(b"\r\n");
    }
    bytes.push(0x1a);
    bytes
}

/// The sample with its line `at` replaced by some lines; the offset of the first of them.
fn with(at: usize, lines: &[&str]) -> (Vec<u8>, usize) {
    let mut all = SAMPLE[..at].to_vec();
    let offset = sheet(&all).len() - 1;
    all.extend(lines);
    all.extend(&SAMPLE[at + 1..]);
    (sheet(&all), offset)
}

/// The answer for the sample with one line replaced, as number and field; the record must be the
/// replaced line.
fn replaced(at: usize, line: &str) -> (u16, usize) {
    let (bytes, offset) = with(at, &[line]);
    match check(&bytes) {
        Ok(_) => (0, 0),
        Err(r) => {
            assert_eq!(r.at, offset, "{line}");
            (r.number, r.field)
        }
    }
}

/// Checks each line of a table of replacements.
fn table(at: usize, rows: &[(&str, (u16, usize))]) {
    for (line, want) in rows {
        assert_eq!(replaced(at, line), *want, "{line}");
    }
}

#[test]
fn sample() {
    assert_eq!(check(&sheet(&SAMPLE)), Ok(13));
    let (bytes, _) = with(10, &["111,1,2,1012044400000000,AFTER MEALS,3"]);
    let refusal = FileRefusal { number: 29, at: 121, field: 3, code: 7, place: 4 };
    assert_eq!(check(&bytes), Err(refusal));
}

#[test]
fn framing() {
    let refused = |bytes: &[u8]| check(bytes).map_err(|r| (r.number, r.at)).unwrap_err();
    assert_eq!(refused(b""), (21, 0));
    assert_eq!(refused(b"\x1a"), (21, 0));
    assert_eq!(refused(b"\r\n\x1a"), (22, 0));
    assert_eq!(refused(b"JAHIS5\r\n\x1a"), (32, 8));
    assert_eq!(refused(b"JAHIS5\r\r\n\x1a"), (21, 7));
    assert_eq!(refused(b"JAHIS5\n\x1a"), (21, 6));
    assert_eq!(refused(b"JAHIS5\x1a"), (21, 6));
    assert_eq!(refused(b"JAHIS5\r\n"), (21, 8));
    assert_eq!(refused(b"JAHIS5\r"), (21, 7));
    assert_eq!(refused(b"JAHIS5\r\n\x1a\x1a"), (21, 9));
    assert_eq!(refused(b"JAHIS50\r\n\x1a"), (22, 0));
    assert_eq!(refused(b"JAHIS4\r\n\x7f\r\n\x1a"), (21, 8));
    assert_eq!(refused(&[b'a'; LONGEST]), (21, LONGEST));
    assert_eq!(refused(&[0; LONGEST + 1]), (20, 0));
}

/// Plainly: lines of plain bytes, at least one, each ended by CR LF, then 1Ah.
fn well_framed(file: &[u8]) -> bool {
    let Some(lines) = file.strip_suffix(b"\x1a") else {
        return false;
    };
    let Ok(text) = std::str::from_utf8(lines) else {
        return false;
    };
    text.strip_suffix("\r\n").is_some_and(|text| text.split("\r\n").all(|l| l.bytes().all(|b| b >= 0x20 && b != 0x7f)))
}

/// "First byte where no well framed file agrees, or the end", over all short files.
#[test]
fn framing_by_its_words() {
    let agrees = |begin: &[u8]| {
        let ends: [&[u8]; 4] = [b"", b"\x1a", b"\n\x1a", b"\r\n\x1a"];
        ends.iter().any(|end| well_framed(&[begin, end].concat()))
    };
    for n in 0..6u32.pow(7) {
        let file: Vec<u8> = (0..7).map(|i| b"a\r\n\x1a\x7f!"[(n / 6u32.pow(i) % 6) as usize]).collect();
        let file = &file[..file.iter().position(|&b| b == b'!').unwrap_or(7)];
        let want = match well_framed(file) {
            true => (22, 0),
            false => (21, (0..file.len()).find(|&k| !agrees(&file[..=k])).unwrap_or(file.len())),
        };
        assert_eq!(check(file).map_err(|r| (r.number, r.at)), Err(want), "{file:?}");
    }
}

#[test]
fn numbers_and_order() {
    table(6, &[("022,", (23, 0)), ("22 ,", (23, 0)), ("", (23, 0)), ("22", (25, 0)), ("99,", (23, 0))]);
    table(6, &[("23,", (32, 0))]);
    table(6, &[("13,", (24, 0)), ("101,1,1,,14", (32, 0)), ("201,", (32, 0))]);
    table(9, &[("51,20180702", (24, 0)), ("111,", (32, 0))]);
    table(10, &[("102", (25, 0)), ("101,", (32, 0)), ("201,", (32, 0)), ("1,", (24, 0))]);
    table(12, &[("102,", (32, 0)), ("111,", (32, 0)), ("211,", (32, 0)), ("101,", (32, 0))]);
    let (bytes, offset) = with(12, &[]);
    assert_eq!(check(&bytes).map_err(|r| (r.number, r.at)), Err((32, offset)));
}

#[test]
fn issue_date() {
    table(
        8,
        &[
            ("51,", (28, 1)),
            ("51,20180702,", (25, 0)),
            ("51,4300702", (0, 0)),
            ("51,4310430", (0, 0)),
            ("51,4310501", (27, 1)),
            ("51,5010430", (27, 1)),
            ("51,5010501", (0, 0)),
            ("51,5811231", (0, 0)),
            ("51,5820101", (27, 1)),
            ("51,4400101", (27, 1)),
            ("51,6010501", (27, 1)),
            ("51,20190229", (27, 1)),
            ("51,18671231", (27, 1)),
            ("51,4000101", (27, 1)),
            ("51, 20180702", (27, 1)),
        ],
    );
}

#[test]
fn rp_fields() {
    table(
        9,
        &[
            ("101,1,1,14", (25, 0)),
            ("101,1,1,,14,", (25, 0)),
            ("101,,1,,14", (28, 1)),
            ("101,0,1,,14", (27, 1)),
            ("101,01,1,,14", (27, 1)),
            ("101,1000,1,,14", (27, 1)),
            ("101,1,100,,14", (27, 2)),
            ("101,1,1, X,14", (26, 3)),
            ("101,1,1,,0", (27, 4)),
            ("101,1,1,,999", (0, 0)),
        ],
    );
    let long = "X".repeat(81);
    assert_eq!(replaced(9, &format!("101,1,1,{long},14")), (26, 3));
    assert_eq!(replaced(9, &format!("101,1,1,{},14", &long[1..])), (0, 0));
}

#[test]
fn usage_fields() {
    table(
        10,
        &[
            ("111,2,2,1013044400000000,A,3", (30, 1)),
            ("111,1,3,,A,3", (27, 2)),
            ("111,1,1,1013044400000000,A,3", (28, 3)),
            ("111,1,1,X,A,3", (28, 3)),
            ("111,1,2,,A,3", (28, 3)),
            ("111,1,2,X,A,3", (29, 3)),
            ("111,1,2,1050310000000000,A,3", (0, 0)),
            ("111,1,2,1050313000000000,A,3", (29, 3)),
            ("111,1,1,,,3", (28, 4)),
            ("111,1,1,,A,", (0, 0)),
            ("111,1,1,,A,100", (27, 5)),
            ("111,1,1,,\u{83}\u{81}@,3", (0, 0)),
            ("111,1,1,,\u{81}@,3", (26, 4)),
            ("111,1,1,,\u{83},3", (26, 4)),
        ],
    );
}

#[test]
fn extra_fields() {
    table(
        11,
        &[
            ("181,2,1,8,A,I1100000,", (30, 1)),
            ("181,1,2,8,A,I1100000,", (30, 2)),
            ("181,1,100,8,A,I1100000,", (27, 2)),
            ("181,1,1,,A,I1100000,", (28, 5)),
            ("181,1,1,8,A,,", (28, 5)),
            ("181,1,1,8,A,W0000000,", (29, 5)),
            ("181,1,1,8,A,V11NNNNN,", (31, 5)),
            ("181,1,1,8,A,V11NNNNN,42L", (31, 5)),
            ("181,1,1,8,A,I1100000,42L", (28, 6)),
            ("181,1,1,9,A,,", (28, 6)),
            ("181,1,1,9,A,,42L", (0, 0)),
            ("181,1,1,9,A,,42l", (27, 6)),
            ("181,1,1,9,A,,42", (27, 6)),
            ("181,1,1,0,A,,", (27, 3)),
            ("181,1,1,,,,", (28, 4)),
        ],
    );
}

#[test]
fn supplements_of_an_rp() {
    let answer = |lines: &[&str]| {
        let numbered: Vec<String> = lines.iter().zip(1..).map(|(code, n)| format!("181,1,{n},8,A,{code},")).collect();
        let (bytes, _) = with(11, &numbered.iter().map(String::as_str).collect::<Vec<_>>());
        check(&bytes).map_err(|r| (r.number, r.field))
    };
    assert_eq!(answer(&["I1100000", "I1100000"]), Err((31, 5)));
    assert_eq!(answer(&["W1000000", "D0100000"]), Err((31, 5)));
    assert_eq!(answer(&["D0100000", "CY100000"]), Err((31, 5)));
    // The issue month is July.
    assert_eq!(answer(&["D7100000", "D6100000"]), Ok(14));
    assert_eq!(answer(&["D6100000", "D7100000"]), Err((31, 5)));
    assert_eq!(answer(&["D0123456", "D0700000"]), Ok(14));
    assert_eq!(answer(&["D0123450", "D0700000"]), Err((31, 5)));
}

/// The issue month is that of the date in era style too: April is the last of the twelve from May on.
#[test]
fn issue_month_in_reiwa() {
    let answer = |issue: &str, months: [&str; 2]| {
        let extras = [format!("181,1,1,8,A,D{}100000,", months[0]), format!("181,1,2,8,A,D{}100000,", months[1])];
        let lines = [&SAMPLE[..8], &[issue], &SAMPLE[9..11], &[&extras[0], &extras[1]], &SAMPLE[12..]].concat();
        check(&sheet(&lines)).map_err(|r| (r.number, r.field))
    };
    assert_eq!(answer("51,5010501", ["5", "4"]), Ok(14));
    assert_eq!(answer("51,5010501", ["4", "5"]), Err((31, 5)));
    assert_eq!(answer("51,4310430", ["4", "5"]), Ok(14));
    assert_eq!(answer("51,4310501", ["5", "4"]), Err((27, 1)));
}

#[test]
fn drug_fields() {
    table(
        12,
        &[
            ("201,1,2,1,1,,A,3,1,TAB", (30, 2)),
            ("201,1,1,4,1,,A,3,1,TAB", (27, 3)),
            ("201,1,1,,5,,A,3,1,TAB", (27, 4)),
            ("201,1,1,,1,X,A,3,1,TAB", (28, 5)),
            ("201,1,1,,2,,A,3,1,TAB", (28, 5)),
            ("201,1,1,,7,,A,3,1,TAB", (0, 0)),
            ("201,1,1,,7,1234567890.-aZ,A,3,1,TAB", (26, 5)),
            ("201,1,1,,7,123456789.-aZ,A,3,1,TAB", (0, 0)),
            ("201,1,1,,7,1 2,A,3,1,TAB", (27, 5)),
            ("201,1,1,,7,1 ,A,3,1,TAB", (26, 5)),
            ("201,1,1,,2,777770000,,3,1,TAB", (28, 6)),
            ("201,1,1,,2,777770001,,3,1,TAB", (0, 0)),
            ("201,1,1,,3,777770001,,3,1,TAB", (28, 6)),
            ("201,1,1,,1,,A,,1,TAB", (28, 7)),
            ("201,1,1,,1,,A,.5,1,TAB", (27, 7)),
            ("201,1,1,,1,,A,0,1,TAB", (0, 0)),
            ("201,1,1,,1,,A,999999.99999,1,TAB", (0, 0)),
            ("201,1,1,,1,,A,3,0,TAB", (27, 8)),
            ("201,1,1,,1,,A,3,1,", (28, 9)),
            ("201,1,1,,1,,A,3,1,1234567890123", (26, 9)),
        ],
    );
}

#[test]
fn rp_numbers_rise_as_numbers() {
    let rp = |n: u16| [format!("101,{n},1,,14"), format!("111,{n},1,,A,"), format!("201,{n},1,,1,,A,1,1,TAB")];
    let two = |a: u16, b: u16| {
        let lines = [rp(a), rp(b)].concat();
        let mut all = SAMPLE[..9].to_vec();
        all.extend(lines.iter().map(String::as_str));
        check(&sheet(&all)).map_err(|r| (r.number, r.field))
    };
    assert_eq!(two(2, 10), Ok(15));
    assert_eq!(two(10, 2), Err((30, 1)));
    assert_eq!(two(2, 2), Err((30, 1)));
}

#[test]
fn reader_repeats_its_last_answer() {
    let bytes = sheet(&SAMPLE);
    let mut reader = Reader::open(&bytes).unwrap();
    assert_eq!(reader.by_ref().count(), 12);
    assert_eq!(reader.read(), Ok(None));
    assert_eq!(reader.read(), Ok(None));
    let (bytes, at) = with(12, &["201,1,2,1,1,,A,3,1,TAB"]);
    let mut reader = Reader::open(&bytes).unwrap();
    let refusal = FileRefusal { number: 30, at, field: 2, code: 0, place: 0 };
    for _ in 0..11 {
        assert!(reader.read().is_ok());
    }
    assert_eq!(reader.read(), Err(refusal));
    assert_eq!(reader.read(), Err(refusal));
}

fn records(bytes: &[u8]) -> Vec<Record<'_>> {
    Reader::open(bytes).unwrap().collect::<Result<_, _>>().unwrap()
}

#[test]
fn records_handed_out() {
    let bytes = sheet(&SAMPLE);
    let all = records(&bytes);
    let kept = Kept { number: 11, fields: Fields::List(&[b"YAMADA JIRO", b""]) };
    assert_eq!(all[2], Record::Kept(kept));
    assert_eq!(all[7], Record::Issue(Date::new(2018, 7, 2, Wish::Western).unwrap()));
    assert_eq!(all[8], Record::Rp(Rp { rp: RpNumber(1), form: 1, form_name: b"", quantity: 14 }));
    let code = usage::read(b"1013044400000000").ok();
    let usage = Usage { rp: RpNumber(1), kind: 2, code, name: b"AFTER MEALS", times: Some(3) };
    assert_eq!(all[9], Record::Usage(usage));
    let drug = Drug {
        rp: RpNumber(1),
        serial: DrugSerial(1),
        kind: Some(1),
        code_kind: 1,
        code: b"",
        name: b"TABLET A",
        amount: 300_000,
        flag: 1,
        unit: b"TAB",
    };
    assert_eq!(all[11], Record::Drug(drug));
}

#[test]
fn written_back() {
    let bytes = sheet(&SAMPLE);
    for room in 0..bytes.len() + 3 {
        let mut buffer = vec![b'!'; room];
        let length = write_all(&records(&bytes), &mut buffer);
        match length {
            Ok(length) => {
                assert!(room >= bytes.len());
                assert_eq!(buffer[..length], bytes);
                assert!(buffer[length..].iter().all(|&b| b == b'!'));
            }
            Err(refusal) => {
                assert!(room < bytes.len());
                assert_eq!(refusal, WriteRefusal::NoRoom);
                let same = buffer.iter().zip(&bytes).take_while(|(a, b)| a == b).count();
                assert!(buffer[same..].iter().all(|&b| b == b'!'));
                assert!(same == 0 || bytes[..same].ends_with(b"\r\n"));
            }
        }
    }
}

fn write_all(records: &[Record], buffer: &mut [u8]) -> Result<usize, WriteRefusal> {
    let mut writer = Writer::open(buffer)?;
    for record in records {
        writer.put(record)?;
    }
    writer.close()
}

/// A file never passes 16,384 bytes, however long the buffer is.
#[test]
fn longest_file() {
    let bytes = sheet(&SAMPLE);
    let text = [b'x'; 200];
    let free = LONGEST - bytes.len() - "281".len() - 2;
    for over in [0, 1] {
        // Fields with their commas that fill what is free, or pass it by one.
        let left = free + over;
        let mut fields: Vec<&[u8]> = vec![&text; left / 201];
        if !left.is_multiple_of(201) {
            fields.push(&text[..left % 201 - 1]);
        }
        let mut all = records(&bytes);
        all.push(Record::Kept(Kept { number: 281, fields: Fields::List(&fields) }));
        let mut buffer = vec![0; LONGEST + 100];
        match write_all(&all, &mut buffer) {
            Ok(length) => {
                assert_eq!((over, length), (0, LONGEST));
                assert_eq!(check(&buffer[..length]), Ok(14));
            }
            Err(refusal) => assert_eq!((over, refusal), (1, WriteRefusal::NoRoom)),
        }
    }
}

/// Puts the sample's records but the one at `at`, for which it puts another, and tells the answer.
fn put_instead(at: usize, record: Record) -> Result<(), WriteRefusal> {
    let bytes = sheet(&SAMPLE);
    let all = records(&bytes);
    let mut buffer = vec![b'!'; LONGEST];
    let mut writer = Writer::open(&mut buffer).unwrap();
    for record in &all[..at] {
        writer.put(record).unwrap();
    }
    let before = writer.written().to_vec();
    let answer = writer.put(&record);
    if answer.is_err() {
        assert_eq!(writer.written(), before);
        assert_eq!(writer.put(&all[at]), Ok(()));
    }
    let length = writer.written().len();
    assert!(buffer[length..].iter().all(|&b| b == b'!'));
    answer
}

fn kept<'a>(number: u16, fields: &'a [&'a [u8]]) -> Record<'a> {
    Record::Kept(Kept { number, fields: Fields::List(fields) })
}

fn refused(number: u16) -> Result<(), WriteRefusal> {
    Err(WriteRefusal::Refused(number))
}

#[test]
fn writer_refuses_as_the_reader_does() {
    assert_eq!(put_instead(0, kept(99, &[b""])), refused(23));
    assert_eq!(put_instead(1, kept(1, &[b""])), refused(24));
    assert_eq!(put_instead(1, kept(11, &[b""])), refused(32));
    assert_eq!(put_instead(1, kept(5, &[])), refused(25));
    for text in [&b"a,b"[..], b"a\r", b"a\nb", b"a\x1ab", b" a", b"\x83", &[b'x'; 201]] {
        assert_eq!(put_instead(1, kept(5, &[b"", text])), refused(26));
    }
    assert_eq!(put_instead(1, kept(5, &[&[b'x'; 200]])), Ok(()));
    let in_2019 = |month, day, era| Record::Issue(Date { year: 2019, month, day, style: Style::Era(era) });
    assert_eq!(put_instead(7, in_2019(4, 30, Era::Heisei)), Ok(()));
    assert_eq!(put_instead(7, in_2019(4, 30, Era::Reiwa)), refused(27));
    assert_eq!(put_instead(7, in_2019(5, 1, Era::Heisei)), refused(27));
    assert_eq!(put_instead(7, in_2019(5, 1, Era::Reiwa)), Ok(()));
    assert_eq!(put_instead(7, in_2019(5, 1, Era::Meiji)), refused(27));
    assert_eq!(put_instead(7, in_2019(5, 32, Era::Reiwa)), refused(27));
    let rp = Rp { rp: RpNumber(1), form: 1, form_name: b"", quantity: 14 };
    assert_eq!(put_instead(8, Record::Rp(Rp { rp: RpNumber(1000), ..rp })), refused(27));
    assert_eq!(put_instead(8, Record::Rp(Rp { form: 0, ..rp })), refused(27));
    assert_eq!(put_instead(8, Record::Rp(Rp { form_name: b"a,b", ..rp })), refused(26));
}

#[test]
fn writer_refuses_codes_and_drugs() {
    let code = usage::read(b"1013044400000000").unwrap();
    let line = Usage { rp: RpNumber(1), kind: 2, code: Some(code), name: b"A", times: None };
    let none = usage::Instruction { timing: Timing::Hours(Hours(0)), ..code };
    assert_eq!(put_instead(9, Record::Usage(line)), Ok(()));
    assert_eq!(put_instead(9, Record::Usage(Usage { code: Some(none), ..line })), refused(29));
    assert_eq!(put_instead(9, Record::Usage(Usage { kind: 1, code: Some(none), ..line })), refused(28));
    assert_eq!(put_instead(9, Record::Usage(Usage { code: None, ..line })), refused(28));
    assert_eq!(put_instead(9, Record::Usage(Usage { name: b"", ..line })), refused(28));
    assert_eq!(put_instead(9, Record::Usage(Usage { rp: RpNumber(2), ..line })), refused(30));
    let v = |digits| Some(Supplement::Unequal(Unequal { order: 1, digits, places: 0 }));
    let extra = Extra {
        rp: RpNumber(1),
        serial: SupplementSerial(1),
        kind: Some(8),
        text: b"A",
        supplement: Some(Supplement::Week(Week(1))),
        site: b"",
    };
    assert_eq!(put_instead(10, Record::Extra(extra)), Ok(()));
    assert_eq!(put_instead(10, Record::Extra(Extra { supplement: v(1), ..extra })), refused(31));
    assert_eq!(put_instead(10, Record::Extra(Extra { supplement: v(1_000_000), ..extra })), refused(29));
    assert_eq!(put_instead(10, Record::Extra(Extra { kind: Some(9), ..extra })), refused(28));
    let at_site = Extra { kind: Some(9), supplement: None, site: b"4,L", ..extra };
    assert_eq!(put_instead(10, Record::Extra(at_site)), refused(27));
    let bytes = sheet(&SAMPLE);
    let Record::Drug(drug) = records(&bytes)[11] else { panic!() };
    assert_eq!(put_instead(11, Record::Drug(Drug { amount: 100_000_000_000, ..drug })), refused(27));
    assert_eq!(put_instead(11, Record::Drug(Drug { amount: 99_999_999_999, ..drug })), Ok(()));
    assert_eq!(put_instead(11, Record::Drug(Drug { serial: DrugSerial(2), ..drug })), refused(30));
}

#[test]
fn opening_and_closing() {
    for room in 0..9 {
        let mut buffer = vec![b'!'; room];
        assert_eq!(Writer::open(&mut buffer).err(), Some(WriteRefusal::NoRoom));
        assert!(buffer.iter().all(|&b| b == b'!'));
    }
    let mut buffer = [b'!'; 9];
    let mut writer = Writer::open(&mut buffer).unwrap();
    assert_eq!(writer.close(), Err(WriteRefusal::Refused(32)));
    assert_eq!(&buffer, b"JAHIS5\r\n!");
    let bytes = sheet(&SAMPLE);
    let mut buffer = [b'!'; 1000];
    let mut writer = Writer::open(&mut buffer).unwrap();
    let all = records(&bytes);
    all.iter().for_each(|record| writer.put(record).unwrap());
    assert_eq!(writer.close(), Ok(bytes.len()));
    assert_eq!(writer.close(), Err(WriteRefusal::Refused(24)));
    assert_eq!(writer.put(&all[11]), refused(24));
    assert_eq!(writer.written(), bytes);
}
