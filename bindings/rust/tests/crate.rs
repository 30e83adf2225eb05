//! The crate against the library: document 01's worked rows, and sheets written back.

use std::fmt::Debug;

use yawsimbel::*;

const SAMPLE: &[u8] =
    b"JAHIS5\r\n1,1,7654321,13,KITA CLINIC\r\n5,,,SATO\r\n11,YAMADA JIRO,\r\n12,1\r\n13,19700203\r\n22,\r\n23,,,1\r\n\
51,20180702\r\n101,1,1,,14\r\n111,1,2,1013044400000000,AFTER MEALS,3\r\n181,1,1,8,EVERY OTHER DAY,I1100000,\r\n\
201,1,1,1,1,,TABLET A,3,1,TAB\r\n\x1a";

/// Why and where a code is refused.
fn refused<T: Debug>(read: Result<T, CodeRefusal>) -> (Reason, u64) {
    let refusal = read.unwrap_err();
    (refusal.reason, refusal.place)
}

#[test]
fn usage_codes() {
    let after = Some(Meal::After);
    let usage = Usage::read(b"1013044400000000").unwrap();
    let timing = Timing::Meals {
        bedtime: false,
        supper: after,
        lunch: after,
        breakfast: after,
        waking: false,
        at_fifteen: false,
    };
    assert_eq!(usage, Usage::new(Detail::Swallowed, timing));
    assert_eq!((usage.class(), usage.times()), (Class::Oral, Some(3)));
    assert_eq!(refused(Usage::read(b"1012044400000000")), (Reason::Count, 4));
    assert_eq!(refused(Usage::read(b"101200040P000000")), (Reason::Rule, 10));
    assert_eq!(refused(Usage::read(b"")), (Reason::Length, 0));
    let hours = Hours::try_from([8, 12, 18]).unwrap();
    assert_eq!(Usage::read(b"1033IMS000000000").unwrap().timing, Timing::Hours(hours));
    let headache =
        Timing::Event { event: Event::Headache, condition: Condition::May, interval: Some(6), limit: Some(12) };
    assert_eq!("10501206C0000000".parse::<Usage>().unwrap().timing, headache);
    use Condition::{AtLeast, AtMost, Below, Equal, May, Must};
    for (digit, condition) in b"024567".iter().zip([May, Must, Equal, Below, AtMost, AtLeast]) {
        let pressure = Timing::Event { event: Event::HighBloodPressure, condition, interval: None, limit: None };
        assert_eq!(Usage::read(&code(b"1050310000000000", 6, &[*digit])).unwrap().timing, pressure);
    }
    let mouth = Usage::try_from(&b"1371N00000000000"[..]).unwrap();
    assert_eq!(mouth, Usage::new(Detail::InMouth, Timing::Count { times: 1, about: About::OrSeveral }));
    let codes = [
        "1013044400000000",
        "131514440P000000",
        "1023A00000000000",
        "1038ABCDEFGX0000",
        "10505226C0000000",
        "2A65099A9X000000",
        "2K74A00000000000",
        "1371N00000000000",
    ];
    for code in codes {
        assert_eq!(Usage::read(code.as_bytes()).unwrap().write().unwrap().as_str(), code);
    }
}

#[test]
fn usages_that_no_code_has() {
    let none = |timing| {
        assert_eq!(Usage::new(Detail::Swallowed, timing).write(), Err(Reason::NoCode), "{timing:?}");
        assert_eq!(Usage::new(Detail::Patch, timing).write(), Err(Reason::NoCode), "{timing:?}");
    };
    for start in [24, 25, 255] {
        none(Timing::Even { times: 3, start: Some(start) });
    }
    for hours in [&[][..], &[8, 8], &[9, 8], &[24], &[255]] {
        none(Timing::Hours(Hours::try_from(hours).unwrap()));
    }
    let event = |interval, limit| Timing::Event { event: Event::Pain, condition: Condition::May, interval, limit };
    for timing in [event(Some(0), None), event(Some(7), None), event(None, Some(0)), event(None, Some(11))] {
        none(timing);
    }
    for (event, condition) in [(Event::Pain, Condition::AtLeast), (Event::Swelling, Condition::Must)] {
        none(Timing::Event { event, condition, interval: None, limit: None });
    }
    for about in [About::UpTo(0), About::UpTo(1), About::UpTo(10), About::UpTo(23), About::UpTo(255)] {
        none(Timing::Count { times: 1, about });
    }
    assert_eq!(Hours::try_from([0, 1, 2, 3, 4, 5, 6, 7, 8]), Err(Reason::NoCode));
}

/// The characters that a code can have.
const CHARACTERS: &[u8] = b"0123456789ABCDEFGHIJKLMNOPQRSTUVWXYZ";

/// How many of these codes are taken; each that is must be known to the crate and written back as it is.
fn taken(codes: impl Iterator<Item = Vec<u8>>) -> usize {
    let written_back = |code: Vec<u8>| match Usage::read(&code) {
        Ok(usage) => {
            assert_eq!(usage.write().unwrap().as_bytes()[..], code[..], "{usage:?}");
            true
        }
        Err(refusal) => {
            assert_ne!(refusal.reason, Reason::Other, "{code:?}");
            false
        }
    };
    codes.filter(|code| written_back(code.clone())).count()
}

/// A code with these characters put into it.
fn code(pattern: &[u8; 16], at: usize, characters: &[u8]) -> Vec<u8> {
    let mut code = pattern.to_vec();
    code[at..at + characters.len()].copy_from_slice(characters);
    code
}

fn all(count: u32) -> impl Iterator<Item = Vec<u8>> {
    (0..36usize.pow(count)).map(move |n| (0..count).map(|place| CHARACTERS[n / 36usize.pow(place) % 36]).collect())
}

#[test]
fn every_detail_event_and_count() {
    // The first two characters: 4 oral and 19 external details.
    assert_eq!(taken(all(2).map(|two| code(b"0050110000000000", 0, &two))), 23);
    assert_eq!(Detail::ALL.len(), 23);
    // Table 8: 43 events with one condition, 14 with six; nine intervals and twelve limits go with each.
    assert_eq!(taken(all(3).map(|row| code(b"1050000000000000", 4, &row))), 43 + 14 * 6);
    assert_eq!(taken(all(2).map(|two| code(b"1050110000000000", 7, &two))), 9 * 12);
    // Kind 7 has thirteen pairs.
    assert_eq!(taken(all(2).map(|pair| code(b"2B70000000000000", 3, &pair))), 13);
    // Kind 2: five counts, no hour or one of 24.
    assert_eq!(taken(all(2).map(|two| code(b"1020000000000000", 3, &two))), 5 * 25);
    // Kind 1: one occasion, six ways for each of three meals, bedtime or waking.
    let one = all(2).flat_map(|two| (4..8).map(move |at| code(b"1011000000000000", at, &two)));
    assert_eq!(taken(one), 1 + 6 + 6 + 6 + 6 + 6 + 6 + 1);
    // Kind 6: one occasion, evening and morning two ways, an hour 24 ways; each pair of places sees those of both.
    let one = all(2).flat_map(|two| (4..9).map(move |at| code(b"2A61000000000000", at, &two)));
    assert_eq!(taken(one), (1 + 2) + (2 + 1) + (1 + 2) + (2 + 1) + (1 + 24));
}

#[test]
fn supplementary_codes() {
    let week = Week::from_iter([Weekday::Monday, Weekday::Thursday]);
    assert_eq!(Supplement::read(b"W0100100"), Ok(Supplement::Week(week)));
    assert_eq!(week.iter().collect::<Vec<_>>(), [Weekday::Monday, Weekday::Thursday]);
    assert_eq!(Week::from_iter(Weekday::ALL).iter().collect::<Vec<_>>(), Weekday::ALL);
    assert_eq!(refused(Supplement::read(b"W0000000")), (Reason::Rule, 2));
    assert_eq!(refused(Supplement::read(b"D2TU0000")), (Reason::Rule, 4));
    assert_eq!(refused("V101NNNN".parse::<Supplement>()), (Reason::Character, 4));
    assert_eq!("V31.0NNN".parse(), Ok(Supplement::Unequal { order: 3, digits: 10, places: 1 }));
    let dates = |month, days: &[u8]| Supplement::Dates { month, days: DatesOfMonth::try_from(days).unwrap() };
    assert_eq!("D2AKST00".parse(), Ok(dates(Some(2), &[10, 20, 28, 29])));
    for code in ["I1V00000", "W0100100", "D0V00000", "D2AKST00", "D1123456", "CYZ00000", "V31.0NNN", "V1123456"] {
        assert_eq!(code.parse::<Supplement>().unwrap().write().unwrap().as_str(), code);
    }
    let none = [dates(Some(0), &[1]), dates(None, &[]), dates(None, &[1, 0]), Supplement::Interval { on: 0, off: 1 }];
    for supplement in none {
        assert_eq!(SupplementCode::try_from(supplement), Err(Reason::NoCode), "{supplement:?}");
    }
    assert_eq!(dates(None, &[1]).write().unwrap().to_string(), "D0100000");
}

/// How many of these codes are taken; each that is must be known to the crate and written back as it is.
fn taken_supplements(codes: impl Iterator<Item = Vec<u8>>) -> usize {
    let written_back = |code: &Vec<u8>| match Supplement::read(code) {
        Ok(supplement) => {
            assert_eq!(supplement.write().unwrap().as_bytes()[..], code[..], "{supplement:?}");
            true
        }
        Err(refusal) => {
            assert_ne!(refusal.reason, Reason::Other, "{code:?}");
            false
        }
    };
    codes.filter(written_back).count()
}

#[test]
fn every_supplement_of_two_characters() {
    let with = |pattern: &'static [u8; 8]| all(2).map(|two| [&pattern[..1], &two, &pattern[3..]].concat());
    assert_eq!(taken_supplements(with(b"I0000000")), 31 * 31);
    assert_eq!(taken_supplements(with(b"C0000000")), 3 * 35);
    // Every day of a year of 366 days, and of every month.
    assert_eq!(taken_supplements(with(b"D0000000")), 366 + 31);
    assert_eq!(taken_supplements(with(b"V00NNNNN")), 5 * 10);
    let weeks = (0..128u8).map(|week| format!("W{week:07b}").into_bytes());
    assert_eq!(taken_supplements(weeks), 127);
}

/// A set of days of named months.
fn days_of(days: &[(u8, u8)]) -> DaySet {
    days.iter().map(|day| Day::try_from(*day).unwrap()).collect()
}

#[test]
fn runs_and_sets() {
    let run = b"DCAKU000D1FU0000";
    let set = DaySet::read(12, run).unwrap();
    assert_eq!(set, days_of(&[(1, 15), (12, 30), (1, 30), (12, 10), (12, 20)]));
    assert_eq!(format!("{set:?}"), "{1:15, 1:30, 12:10, 12:20, 12:30}");
    assert!(set.contains(Day::of_month(12, 10).unwrap()) && !set.contains(Day::of_every_month(10).unwrap()));
    assert_eq!((set.len(), set.is_empty(), set.iter().collect::<DaySet>()), (5, false, set));
    let mut out = [b'!'; DaySet::LONGEST_RUN];
    assert_eq!(set.write(12, &mut out), Ok(&run[..]));
    assert_eq!(set.write(12, &mut [0; 15]), Err(Reason::Room));
    assert_eq!(set.write(0, &mut out), Err(Reason::IssueMonth));
    assert_eq!(DaySet::new().write(1, &mut []), Err(Reason::DaySet));
    assert_eq!(days_of(&[(2, 30)]).write(1, &mut out), Err(Reason::DaySet));
    let mut every = DaySet::from_iter([Day::of_every_month(31).unwrap()]);
    assert_eq!(every.write(5, &mut out), Ok(&b"D0V00000"[..]));
    let last = Day::of_every_month(31).unwrap();
    assert!(!every.insert(last) && every.remove(last) && !every.remove(last) && every.is_empty());
    for day in [Day::of_every_month(0), Day::of_every_month(32), Day::of_month(13, 1), Day::of_month(0, 1)] {
        assert_eq!(day, Err(Reason::DaySet));
    }
}

#[test]
fn refused_runs() {
    let told = |issue, codes: &[u8]| {
        let refusal = DaySet::read(issue, codes).unwrap_err();
        ((refusal.reason, refusal.place, refusal.code), refusal.to_string())
    };
    assert_eq!(told(1, b"DCAKU000D1FU0000").0, (Reason::Run, 2, 0));
    let (numbers, words) = told(1, b"D1100000D2U00000");
    assert_eq!(numbers, (Reason::Rule, 3, 2));
    assert!(words.ends_with(" (8) at character 3 of code 2"), "{words}");
    assert_eq!(told(13, b"").1, "the issue month is not 1 to 12 (10)");
}

#[test]
fn dates() {
    let date = Date::make(1989, 1, 1, Style::Era).unwrap();
    assert_eq!((date.era(), date.year(), date.month(), date.day()), (Some(Era::Showa), 1989, 1, 1));
    assert_eq!((date.to_string(), format!("{date:?}")), ("3640101".into(), "1989-01-01 (Showa 64)".into()));
    assert_eq!("3640101".parse(), Ok(date));
    let date: Date = "5010501".parse().unwrap();
    assert_eq!((date.era(), date.year(), date.month(), date.day()), (Some(Era::Reiwa), 2019, 5, 1));
    assert_eq!((date.to_string(), format!("{date:?}")), ("5010501".into(), "2019-05-01 (Reiwa 1)".into()));
    assert_eq!(Date::make(2088, 1, 1, Style::Era).unwrap().to_string(), "5700101");
    assert_eq!(Date::make(2090, 1, 1, Style::default()).unwrap().to_string(), "5720101");
    for style in [Style::Western, Style::Era] {
        for (year, month, day) in [(2019, 2, 29), (1867, 12, 31), (2100, 1, 1)] {
            assert_eq!(Date::make(year, month, day, style), Err(Reason::Value));
        }
    }
    assert_eq!(Date::try_from((2018, 7, 2)), "20180702".parse());
    assert_eq!(format!("{:?}", Date::try_from((2018, 7, 2)).unwrap()), "2018-07-02");
    for text in
        ["20190229", "18671231", "21000101", "0010101", "6010101", "201807", "2018-7-2", "201807020", "20180702 "]
    {
        assert_eq!(text.parse::<Date>(), Err(Reason::Value), "{text}");
    }
    for text in ["4310501", "4400101", "5010101", "5030229", "5820101"] {
        assert_eq!(text.parse::<Date>(), Err(Reason::Value), "{text}");
    }
    assert_eq!("".parse::<Date>(), Err(Reason::Present));
}

#[test]
fn amounts() {
    for (text, amount) in [("0", 0), ("3", 300_000), ("7.5", 750_000), ("0.00001", 1), ("123456.78901", 12_345_678_901)]
    {
        assert_eq!(text.parse(), Ok(Amount::of_hundred_thousandths(amount)));
        assert_eq!(Amount::of_hundred_thousandths(amount).to_string(), text);
    }
    for text in ["", ".", ".5", "5.", "5.0", "05", "00", "1234567", "0.123456", "+1", "-1", "1,5", "1.5.1", " 1"] {
        assert_eq!(text.parse::<Amount>(), Err(Reason::Value), "{text}");
    }
}

#[test]
fn sample_is_read() {
    assert_eq!(check(SAMPLE), Ok(13));
    let records: Vec<_> = Sheet::open(SAMPLE).collect::<Result<_, _>>().unwrap();
    assert_eq!(records.len(), 12);
    assert_eq!(records[0], KeptRecord::new(1, b"1,7654321,13,KITA CLINIC").into());
    assert_eq!(records[7], Date::try_from((2018, 7, 2)).unwrap().into());
    assert_eq!(records[8], RpRecord::new(1, Form::Oral, 14).into());
    let usage = "1013044400000000".parse().unwrap();
    assert_eq!(records[9], UsageRecord::new(1, b"AFTER MEALS").code(usage).times(3).into());
    let kind = SupplementKind::Code(Supplement::Interval { on: 1, off: 1 });
    assert_eq!(records[10], SupplementRecord::new(1, 1, b"EVERY OTHER DAY").kind(kind).into());
    let drug = DrugRecord::new(1, 1, Amount::from(3), b"TAB").kind(DrugKind::Medicine).name(b"TABLET A");
    assert_eq!(records[11], drug.into());
    let shown = "Drug(DrugRecord { rp: 1, serial: 1, kind: Some(Medicine), code: None, name: \"TABLET A\", amount: 3, \
                 amount_of: PriceUnit, unit: \"TAB\" })";
    assert_eq!(format!("{:?}", records[11]), shown);
    assert_eq!(format!("{:?}", Sheet::open(SAMPLE)), "Sheet { length: 230, offset: 8, ended: false, .. }");
}

#[test]
fn refusals() {
    let mut sheet = SAMPLE.to_vec();
    let at = sheet.windows(4).position(|w| w == b"1013").unwrap();
    sheet[at + 3] = b'2';
    let refusal = check(&sheet).unwrap_err();
    assert_eq!((refusal.reason, refusal.offset, refusal.field), (Reason::Code, 121, Some(3)));
    assert_eq!(refusal.code.map(|code| (code.reason, code.place)), Some((Reason::Count, 4)));
    let words = "the usage or supplementary code is refused (29) at byte 121, field 3: \
                 the times a day differ from the occasions that the code names (7) at character 4";
    assert_eq!(refusal.to_string(), words);
    let mut records = Sheet::open(&sheet);
    assert_eq!(records.by_ref().filter(Result::is_ok).count(), 9);
    assert_eq!(records.next(), None);
    assert_eq!(Sheet::open(&sheet).last(), Some(Err(refusal)));
    for (file, reason) in [(&b""[..], Reason::Frame), (b"JAHIS4\r\n\x1a", Reason::Version)] {
        let told: Vec<_> = Sheet::open(file).map(|record| record.unwrap_err()).collect();
        assert_eq!(told.len(), 1);
        assert_eq!((told[0].reason, told[0].offset, told[0].field, told[0].code), (reason, 0, None, None));
    }
    assert_eq!(check(&[b'a'; LONGEST_FILE + 1]).unwrap_err().reason, Reason::TooLong);
}

#[test]
fn texts_show_themselves() {
    assert_eq!(format!("{:?}", Text::from(b"\x8f\xf9 A\"")), r#""\x8f\xf9 A\"""#);
}

/// A sheet that is taken, written again record by record.
fn rewritten(sheet: &[u8]) -> Vec<u8> {
    let mut out = vec![0; LONGEST_FILE];
    let mut writer = Writer::open(&mut out).unwrap();
    for record in Sheet::open(sheet) {
        writer.put(record.unwrap()).unwrap();
    }
    writer.close().unwrap();
    writer.written().to_vec()
}

#[test]
fn written_back() {
    assert_eq!(rewritten(SAMPLE), SAMPLE);
    let mut out = [0; LONGEST_FILE];
    let mut writer = Writer::open(&mut out).unwrap();
    assert_eq!(writer.close(), Err(WriteRefusal::Record(Reason::Missing)));
    Sheet::open(SAMPLE).for_each(|record| writer.put(record.unwrap()).unwrap());
    writer.close().unwrap();
    assert_eq!(writer.close(), Err(WriteRefusal::Record(Reason::Order)));
    assert_eq!(format!("{writer:?}"), "Writer { room: 16384, written: 230, .. }");
}

/// The sheets of the corpus: each that is taken is written back as it is, so no value of it is unknown to the crate.
#[test]
fn corpus_is_written_back() {
    let folder = concat!(env!("CARGO_MANIFEST_DIR"), "/../corpus/sheets");
    let mut taken = 0;
    for sheet in std::fs::read_dir(folder).unwrap() {
        let sheet = std::fs::read(sheet.unwrap().path()).unwrap();
        match check(&sheet) {
            Ok(_) => {
                assert_eq!(rewritten(&sheet), sheet);
                taken += 1;
            }
            Err(refusal) => assert_eq!(Sheet::open(&sheet).last(), Some(Err(refusal))),
        }
    }
    assert!(taken >= 20, "{taken}");
}

/// The sample with another line in the place of one.
fn with(line: &str, other: &str) -> Vec<u8> {
    let sheet = std::str::from_utf8(SAMPLE).unwrap();
    assert!(sheet.contains(line));
    sheet.replace(line, other).into_bytes()
}

#[test]
fn every_kind_is_read_and_written_back() {
    for form in 1..=99 {
        let sheet = with("101,1,1,,14", &format!("101,1,{form},,14"));
        assert!(Sheet::open(&sheet).any(|record| matches!(record, Ok(Record::Rp(rp)) if rp.form == Form::of(form))));
        assert_eq!(rewritten(&sheet), sheet);
        assert_eq!(Form::of(form).number(), form);
    }
    for kind in (1..=99).filter(|kind| ![8, 9].contains(kind)).map(|kind| kind.to_string()).chain(["".into()]) {
        let sheet = with("181,1,1,8,EVERY OTHER DAY,I1100000,", &format!("181,1,1,{kind},EVERY OTHER DAY,,"));
        assert_eq!(rewritten(&sheet), sheet);
    }
    let sheet = with("181,1,1,8,EVERY OTHER DAY,I1100000,", "181,1,1,9,LEFT EAR,,42L");
    let site = SupplementRecord::new(1, 1, b"LEFT EAR").kind(SupplementKind::SiteCode(b"42L".into()));
    assert_eq!(Sheet::open(&sheet).nth(10), Some(Ok(site.into())));
    assert_eq!(rewritten(&sheet), sheet);
    for (kind, code) in ["", "1", "2", "3"]
        .iter()
        .flat_map(|kind| ["1,", "2,6", "3,A", "4,A", "6,1", "7,", "7,A"].map(|code| (kind, code)))
    {
        for flag in [1, 2] {
            let sheet = with("201,1,1,1,1,,TABLET A,3,1,TAB", &format!("201,1,1,{kind},{code},TABLET A,3,{flag},TAB"));
            assert_eq!(rewritten(&sheet), sheet);
        }
    }
}

/// Why a record is refused, which leaves what is written.
fn refused_record<'r>(writer: &mut Writer, record: impl Into<Record<'r>>) -> Reason {
    let before = writer.written().to_vec();
    let refusal = writer.put(record).unwrap_err();
    assert_eq!(writer.written(), before);
    match refusal {
        WriteRefusal::Record(reason) => reason,
        other => panic!("{other:?}"),
    }
}

#[test]
fn refused_records() {
    let mut out = [0; LONGEST_FILE];
    let mut writer = Writer::open(&mut out).unwrap();
    for number in [51, 101, 111, 181, 201] {
        assert_eq!(refused_record(&mut writer, KeptRecord::new(number, b"20180702")), Reason::Unknown);
    }
    assert_eq!(refused_record(&mut writer, KeptRecord::new(1, b" ")), Reason::Text);
    assert_eq!(refused_record(&mut writer, KeptRecord::new(1, b"a\r")), Reason::Text);
    assert_eq!(refused_record(&mut writer, KeptRecord::new(5, b"a")), Reason::Missing);
    assert_eq!(writer.written(), b"JAHIS5\r\n");
    Sheet::open(SAMPLE).take(8).for_each(|record| writer.put(record.unwrap()).unwrap());
    for form in [Form::Other(0), Form::Other(100)] {
        assert_eq!(refused_record(&mut writer, RpRecord::new(1, form, 14)), Reason::Value);
    }
    assert_eq!(refused_record(&mut writer, RpRecord::new(1, Form::Oral, 1000)), Reason::Value);
    writer.put(RpRecord::new(1, Form::Oral, 14)).unwrap();
    let usage = UsageRecord::new(1, b"AS TOLD");
    assert_eq!(refused_record(&mut writer, usage.times(0)), Reason::Value);
    assert_eq!(refused_record(&mut writer, UsageRecord::new(2, b"AS TOLD")), Reason::Counter);
    let no_code = Usage::new(Detail::Swallowed, Timing::Even { times: 5, start: None });
    assert_eq!(refused_record(&mut writer, usage.code(no_code)), Reason::Code);
    writer.put(usage).unwrap();
    let supplement = SupplementRecord::new(1, 1, b"A");
    let kinds = [SupplementKind::Other(8), SupplementKind::Other(9), SupplementKind::SiteCode(b"".into())];
    for kind in kinds {
        assert_eq!(refused_record(&mut writer, supplement.kind(kind)), Reason::Present);
    }
    for kind in [SupplementKind::Other(0), SupplementKind::Other(100), SupplementKind::SiteCode(b"42l".into())] {
        assert_eq!(refused_record(&mut writer, supplement.kind(kind)), Reason::Value);
    }
    let drug = DrugRecord::new(1, 1, "1.5".parse().unwrap(), b"ML").name(b"A").code(DrugCode::Generic(b"".into()));
    let drug = drug.amount_of(AmountOf::Potency);
    let long = [b'x'; 300];
    assert_eq!(refused_record(&mut writer, drug.name(&long)), Reason::Text);
    assert_eq!(refused_record(&mut writer, drug.code(DrugCode::Yj(b"".into()))), Reason::Present);
    assert_eq!(refused_record(&mut writer, drug.code(DrugCode::Hot((&long).into()))), Reason::Text);
    let much = DrugRecord::new(1, 1, Amount::of_hundred_thousandths(u64::MAX), b"ML").name(b"A");
    assert_eq!(refused_record(&mut writer, much), Reason::Value);
    writer.put(drug.name(&long[..80])).unwrap();
    writer.close().unwrap();
    assert!(check(writer.written()).is_ok());
    assert_eq!(Writer::open(&mut [0; 8]).unwrap_err(), WriteRefusal::Room);
    assert!(Writer::open(&mut [0; 9]).is_ok());
}

fn day(year: u16, month: u8, day: u8) -> Date {
    Date::try_from((year, month, day)).unwrap()
}

/// The doses of RP 1 of a file, the same by value and in a buffer, of which the rest stays.
fn doses(file: &[u8], start: Date, days: usize) -> Vec<u8> {
    let calendar = Calendar::make(file, 1, start, days).unwrap();
    let mut out = vec![b'!'; days + 2];
    assert_eq!(Calendar::fill(file, 1, start, days, &mut out), Ok(calendar.as_slice()));
    assert_eq!(out[days..], *b"!!");
    assert_eq!(calendar.into_iter().copied().collect::<Vec<_>>(), calendar.as_slice());
    calendar.as_slice().to_vec()
}

#[test]
fn calendars() {
    assert_eq!(doses(SAMPLE, day(2018, 7, 2), 7), [3, 0, 3, 0, 3, 0, 3]);
    assert_eq!(doses(SAMPLE, day(2018, 7, 3), 3), [3, 0, 3]);
    assert_eq!(doses(SAMPLE, "4310430".parse().unwrap(), 3), [3, 0, 3]);
    let with_code = |code: &str| with("I1100000", code);
    assert_eq!(doses(&with_code("W0100100"), day(2018, 7, 2), 8), [3, 0, 0, 3, 0, 0, 0, 3]);
    assert_eq!(doses(&with_code("W0000010"), day(2099, 12, 31), 2), [0, 3]);
    assert_eq!(doses(&with_code("D0V00000"), day(2018, 8, 30), 4), [0, 3, 0, 0]);
    assert_eq!(doses(&with_code("D7V00000"), day(2018, 7, 30), 4), [0, 3, 0, 0]);
    assert_eq!(doses(&with_code("D7V00000"), day(2019, 7, 30), 4), [0; 4]);
    assert_eq!(doses(&with_code("D2T00000"), day(2019, 2, 28), 2), [0, 0]);
    let every_day = with("181,1,1,8,EVERY OTHER DAY,I1100000,", "181,1,1,3,EVERY OTHER DAY,,");
    assert_eq!(doses(&every_day, day(2099, 12, 31), Calendar::LONGEST), [3; Calendar::LONGEST]);
    let calendar = Calendar::make(SAMPLE, 1, day(2018, 7, 2), 3).unwrap();
    assert_eq!((format!("{calendar:?}"), calendar.as_ref()), ("[3, 0, 3]".into(), &[3, 0, 3][..]));
    assert_eq!(calendar, Calendar::make(SAMPLE, 1, day(2018, 7, 4), 3).unwrap());
    assert_ne!(calendar, Calendar::make(SAMPLE, 1, day(2018, 7, 2), 4).unwrap());
}

/// Why a calendar is refused, by value and in a buffer of some room, which stays.
fn refused_calendar(file: &[u8], rp: u16, start: Date, days: usize, room: usize) -> CalendarRefusal {
    let mut out = vec![b'!'; room];
    let refusal = Calendar::fill(file, rp, start, days, &mut out).unwrap_err();
    assert!(out.iter().all(|byte| *byte == b'!'));
    if refusal != CalendarRefusal::Room {
        assert_eq!(Calendar::make(file, rp, start, days), Err(refusal));
    }
    refusal
}

#[test]
fn refused_calendars() {
    let start = day(2018, 7, 2);
    let before = day(2018, 7, 1);
    let words = with("111,1,2,1013044400000000,AFTER MEALS,3", "111,1,1,,AFTER MEALS,3");
    let bad = with("1013044400000000", "1012044400000000");
    // One fault less each time.
    let own = check(&bad).unwrap_err();
    assert_eq!(refused_calendar(&bad, 2, before, 0, 0), CalendarRefusal::Sheet(own));
    assert_eq!(refused_calendar(&words, 2, before, 0, 0), CalendarRefusal::NoRp);
    assert_eq!(refused_calendar(&words, 1, before, 0, 0), CalendarRefusal::Calendar);
    assert_eq!(refused_calendar(&words, 1, before, 1, 0), CalendarRefusal::Calendar);
    assert_eq!(refused_calendar(&words, 1, start, 1, 0), CalendarRefusal::Doses);
    assert_eq!(refused_calendar(SAMPLE, 1, start, 1, 0), CalendarRefusal::Room);
    assert_eq!(refused_calendar(SAMPLE, 1, start, 366, 365), CalendarRefusal::Room);
    for rp in [0, 2, 257, 999, 1000, u16::MAX] {
        assert_eq!(refused_calendar(SAMPLE, rp, start, 1, 9), CalendarRefusal::NoRp);
    }
    for days in [0, 367, 512 + 7, 65_536 + 7, u32::MAX as usize, usize::MAX] {
        assert_eq!(refused_calendar(SAMPLE, 1, start, days, 400), CalendarRefusal::Calendar);
    }
    for code in ["1050110000000000", "2B73A00000000000", "2B71200000000000", "2B71N00000000000"] {
        assert_eq!(refused_calendar(&with("1013044400000000", code), 1, start, 7, 9), CalendarRefusal::Doses, "{code}");
    }
    assert_eq!(refused_calendar(&with("I1100000", "CW100000"), 1, start, 7, 9), CalendarRefusal::Doses);
    let own = CalendarRefusal::Sheet(own);
    assert_eq!((own.reason(), own.to_string()), (Reason::Code, check(&bad).unwrap_err().to_string()));
    let room = CalendarRefusal::Room;
    assert_eq!((room.reason(), room.to_string().as_str()), (Reason::Room, "the buffer has no room (33)"));
}

/// Every RP of the corpus: a shorter calendar is the beginning of the longest, and a refusal is the same for all lengths.
#[test]
fn calendars_of_the_corpus() {
    let folder = concat!(env!("CARGO_MANIFEST_DIR"), "/../corpus/sheets");
    let (mut taken, mut refused) = (0, 0);
    for sheet in std::fs::read_dir(folder).unwrap() {
        let sheet = std::fs::read(sheet.unwrap().path()).unwrap();
        let mut issue = None;
        for record in Sheet::open(&sheet).map_while(Result::ok) {
            match record {
                Record::Issue(date) => issue = Some(date),
                Record::Rp(rp) => {
                    let start = issue.unwrap();
                    let longest = Calendar::make(&sheet, rp.rp, start, Calendar::LONGEST);
                    for days in [1, 2, 7, 31, 365] {
                        let shorter = Calendar::make(&sheet, rp.rp, start, days);
                        assert_eq!(
                            shorter.map(|shorter| shorter.as_slice().to_vec()),
                            longest.map(|longest| longest.as_slice()[..days].to_vec())
                        );
                    }
                    match longest {
                        Ok(_) => taken += 1,
                        Err(refusal) => {
                            assert!(refusal == CalendarRefusal::Doses || check(&sheet).is_err(), "{refusal}");
                            refused += 1;
                        }
                    }
                }
                _ => {}
            }
        }
    }
    assert!(taken >= 20 && refused >= 20, "{taken} {refused}");
}

#[test]
fn reasons() {
    let known: Vec<u16> = (0..=255).filter(|number| Reason::of(*number) != Reason::Other).collect();
    assert_eq!(known, (1..=12).chain(20..=35).chain([50, 51, 53]).collect::<Vec<_>>());
    for number in known {
        assert_eq!(u16::from(Reason::of(number)), number);
        assert!(Reason::of(number).to_string().ends_with(&format!(" ({number})")));
    }
    assert_eq!(Reason::from(65_535), Reason::Other);
}

/// Every refusal is an error, and every type can be sent to and shared with other threads.
#[test]
fn errors_and_threads() {
    fn error<T: std::error::Error + Send + Sync + 'static>() {}
    fn shared<T: Send + Sync>() {}
    error::<Reason>();
    error::<CodeRefusal>();
    error::<RunRefusal>();
    error::<SheetRefusal>();
    error::<WriteRefusal>();
    error::<CalendarRefusal>();
    shared::<Sheet>();
    shared::<Writer>();
    shared::<Record>();
    shared::<DaySet>();
    shared::<Calendar>();
}
