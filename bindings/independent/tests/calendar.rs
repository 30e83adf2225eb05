//! The dose calendar of sheets, by document 02's ticket 3: which days have doses and how many, and what
//! is refused in which order.

use independent::calendar::{fill, MOST_DAYS};
use independent::file::{check, FileRefusal};

const HEAD: [&str; 8] =
    ["JAHIS5", "1,1,7654321,13,KITA CLINIC", "5,,,SATO", "11,YAMADA JIRO,", "12,1", "13,19700203", "22,", "23,,,1"];

const THREE: &str = "1013044400000000";

/// What stands in a place that nothing has written.
const UNTOUCHED: u8 = b'!';

/// An RP: its number, its usage code (none where it is empty), and its 181s from their kind on.
type Rp<'a> = (u32, &'a str, &'a [&'a str]);

/// A sheet issued on a date.
fn sheet(issue: &str, rps: &[Rp]) -> Vec<u8> {
    let mut lines: Vec<String> = HEAD.iter().map(|line| line.to_string()).collect();
    lines.push(format!("51,{issue}"));
    for (rp, code, extras) in rps {
        let kind = if code.is_empty() { 1 } else { 2 };
        lines.push(format!("101,{rp},1,,14"));
        lines.push(format!("111,{rp},{kind},{code},DIRECTIONS,"));
        lines.extend(extras.iter().zip(1..).map(|(extra, serial)| format!("181,{rp},{serial},{extra}")));
        lines.push(format!("201,{rp},1,1,1,,TABLET A,3,1,TAB"));
    }
    let mut bytes: Vec<u8> = lines.iter().flat_map(|line| format!("{line}\r\n").into_bytes()).collect();
    bytes.push(0x1a);
    assert!(check(&bytes).is_ok(), "{:?}", check(&bytes));
    bytes
}

/// A sheet with one RP, 1, three times a day, with these supplementary codes.
fn supplemented(issue: &str, codes: &[&str]) -> Vec<u8> {
    let extras: Vec<String> = codes.iter().map(|code| format!("8,BY CODE,{code},")).collect();
    sheet(issue, &[(1, THREE, &extras.iter().map(String::as_str).collect::<Vec<_>>())])
}

/// The doses of an RP's days, in an output with some places more, which stay.
fn doses_of(file: &[u8], rp: u32, start: [u32; 3], days: usize) -> Vec<u8> {
    let mut output = vec![UNTOUCHED; days + 3];
    assert_eq!(fill(file, rp, start, days as u32, &mut output), Ok(()), "{rp} {start:?} {days}");
    assert_eq!(output.split_off(days), [UNTOUCHED; 3]);
    output
}

fn doses(file: &[u8], start: [u32; 3], days: usize) -> Vec<u8> {
    doses_of(file, 1, start, days)
}

/// The days with doses, counted from 0.
fn days_with(file: &[u8], start: [u32; 3], days: usize) -> Vec<usize> {
    let doses = doses(file, start, days);
    (0..days).filter(|day| doses[*day] != 0).collect()
}

/// The number of a refusal that has no place, and that leaves the output.
fn refused(file: &[u8], rp: u32, start: [u32; 3], days: u32, room: usize) -> u16 {
    let mut output = vec![UNTOUCHED; room];
    let refusal = fill(file, rp, start, days, &mut output).unwrap_err();
    assert!(output.iter().all(|place| *place == UNTOUCHED));
    assert_eq!(refusal, FileRefusal { number: refusal.number, at: 0, field: 0, code: 0, place: 0 });
    refusal.number
}

#[test]
fn sample() {
    let file = supplemented("20180702", &["I1100000"]);
    assert_eq!(doses(&file, [2018, 7, 2], 7), [3, 0, 3, 0, 3, 0, 3]);
    assert_eq!(doses(&file, [2018, 7, 3], 3), [3, 0, 3]);
}

/// "Doses per day come from kinds 1, 2, 3 and 6, and from kind 7 with 0 in the 5th"; else 50.
#[test]
fn doses_a_day() {
    for (code, times) in [
        (THREE, 3),
        ("1011000090000000", 1),
        ("131514440P000000", 5),
        ("1022000000000000", 2),
        ("1028A00000000000", 8),
        ("1031A00000000000", 1),
        ("1038ABCDEFGX0000", 8),
        ("2A65199990000000", 5),
        ("2B63090A0C000000", 3),
        ("1371000000000000", 1),
        ("2B72000000000000", 2),
        ("2B76000000000000", 6),
    ] {
        let file = sheet("20180702", &[(1, code, &[])]);
        assert_eq!(doses(&file, [2018, 7, 2], 3), [times; 3], "{code}");
    }
    for code in [
        "",
        "1050110000000000",
        "1050310640000000",
        "2B50A97000000000",
        "2B73A00000000000",
        "1376A00000000000",
        "2B71200000000000",
        "2B71N00000000000",
        "2B72300000000000",
        "1374500000000000",
    ] {
        let file = sheet("20180702", &[(1, code, &["8,EVERY OTHER DAY,I1100000,"])]);
        for days in [1, 7, 366] {
            assert_eq!(refused(&file, 1, [2018, 7, 2], days, MOST_DAYS), 50, "{code}");
        }
    }
}

/// "No supplement means every day": other 181s are none.
#[test]
fn no_supplement() {
    let file = sheet("20180702", &[(1, THREE, &[])]);
    assert_eq!(doses(&file, [2018, 7, 2], MOST_DAYS), [3; MOST_DAYS]);
    let others = ["3,EVERY OTHER DAY,,", "9,LEFT EAR,,42L", ",ON ODD DAYS,,"];
    let file = sheet("20180702", &[(1, THREE, &others)]);
    assert_eq!(doses(&file, [2099, 12, 31], MOST_DAYS), [3; MOST_DAYS]);
    let file = sheet("20180702", &[(1, THREE, &[others[0], "8,BY CODE,I1200000,", others[1]])]);
    assert_eq!(doses(&file, [2018, 7, 2], 4), [3, 0, 0, 3]);
}

/// "I runs its days on, then its days off, from the start date", whatever day that is.
#[test]
fn days_on_and_off() {
    for start in [[2018, 7, 2], [2018, 7, 3], [2020, 2, 27], [2099, 12, 30]] {
        let on_off = |code| doses(&supplemented("20180702", &[code]), start, MOST_DAYS);
        assert_eq!(on_off("I2300000")[..12], [3, 3, 0, 0, 0, 3, 3, 0, 0, 0, 3, 3]);
        assert_eq!(on_off("I1V00000")[..33], [&[3][..], &[0; 31], &[3]].concat());
        assert_eq!(on_off("IVV00000")[..63], [&[3; 31][..], &[0; 31], &[3]].concat());
    }
    // 366 days are six cycles of 61 with 30 days on each.
    let file = supplemented("20180702", &["IUV00000"]);
    assert_eq!(days_with(&file, [2018, 7, 2], MOST_DAYS).len(), 6 * 30);
}

/// "W goes by weekday", Sunday first. 2 July 2018 is a Monday, 1 January 2100 a Friday.
#[test]
fn weekdays() {
    let week = |code| supplemented("20180702", &[code]);
    assert_eq!(doses(&week("W0100100"), [2018, 7, 2], 8), [3, 0, 0, 3, 0, 0, 0, 3]);
    assert_eq!(days_with(&week("W1000000"), [2018, 7, 2], 14), [6, 13]);
    assert_eq!(days_with(&week("W0000001"), [2018, 7, 2], 14), [5, 12]);
    assert_eq!(days_with(&week("W0000010"), [2099, 12, 31], 9), [1, 8]);
    // 2100 has no 29 February: 1 March is a Monday.
    assert_eq!(days_with(&week("W0100000"), [2099, 12, 31], 61).last(), Some(&60));
    assert_eq!(days_with(&week("W1111111"), [2018, 7, 2], MOST_DAYS).len(), MOST_DAYS);
    // From 1868 on, when the first day is a Wednesday.
    assert_eq!(days_with(&supplemented("1010101", &["W0001000"]), [1868, 1, 1], 8), [0, 7]);
}

/// "D by date; an every-month 31 gives nothing in a shorter month." Every month is every one from the start on.
#[test]
fn days_of_every_month() {
    let last = supplemented("20180702", &["D0V00000"]);
    assert_eq!(days_with(&last, [2018, 8, 30], 4), [1]);
    assert!(days_with(&last, [2018, 9, 1], 30).is_empty());
    assert_eq!(days_with(&last, [2019, 1, 1], 365), [30, 89, 150, 211, 242, 303, 364]);
    let some = supplemented("20180702", &["D01TU000"]);
    assert_eq!(days_with(&some, [2019, 1, 30], 62), [0, 2, 30, 58, 59, 61]);
    assert_eq!(days_with(&some, [2020, 1, 30], 62), [0, 2, 30, 31, 59, 60]);
    assert_eq!(days_with(&some, [2099, 12, 31], 62), [1, 29, 30, 32, 60]);
    let first = supplemented("18680131", &["D0100000"]);
    assert_eq!(days_with(&first, [2099, 12, 31], 2), [1]);
    // The days of all codes of the run.
    let many = supplemented("20180702", &["D0123456", "D0789ABC", "D0D00000"]);
    assert_eq!(doses(&many, [2018, 8, 1], 14), [&[3; 13][..], &[0]].concat());
}

/// "Named months count only in the twelve months that begin with the issue month."
#[test]
fn days_of_named_months() {
    let july = supplemented("20180702", &["D7FV0000"]);
    assert_eq!(days_with(&july, [2018, 7, 2], MOST_DAYS), [13, 29]);
    assert_eq!(days_with(&july, [2018, 7, 31], MOST_DAYS), [0]);
    assert!(days_with(&july, [2019, 7, 1], 31).is_empty());
    let june = supplemented("20180731", &["D6U00000"]);
    assert_eq!(days_with(&june, [2019, 6, 29], 4), [1]);
    assert!(days_with(&june, [2020, 6, 1], MOST_DAYS).is_empty());
    let both = supplemented("20180702", &["D7V00000", "D8100000"]);
    assert_eq!(doses(&both, [2018, 7, 30], 4), [0, 3, 3, 0]);
    let into_2100 = supplemented("20991231", &["DC100000", "D1100000", "DBU00000"]);
    assert_eq!(days_with(&into_2100, [2099, 12, 31], MOST_DAYS), [1, 334]);
}

/// A named 29 February stands where the window's February has it.
#[test]
fn leap_days() {
    let february = |issue| supplemented(issue, &["D2ST0000"]);
    let rows: [(&str, [u32; 3], &[usize]); 6] = [
        ("18990301", [1900, 2, 27], &[1]),
        ("19990301", [2000, 2, 27], &[1, 2]),
        ("20180702", [2019, 2, 27], &[1]),
        ("20190702", [2020, 2, 27], &[1, 2]),
        ("20200229", [2020, 2, 29], &[0]),
        ("20190228", [2020, 2, 29], &[]),
    ];
    for (issue, start, days) in rows {
        assert_eq!(days_with(&february(issue), start, 4), days, "{issue}");
    }
    assert_eq!(days_with(&february("20990301"), [2099, 12, 31], 63), [59]);
    let last = supplemented("20000229", &["D2T00000"]);
    assert_eq!(days_with(&last, [2000, 2, 29], 1), [0]);
}

/// The issue date is the day of record 51 in either style.
#[test]
fn issue_dates() {
    for issue in ["5010501", "20190501"] {
        let file = supplemented(issue, &["I1100000"]);
        assert_eq!(doses(&file, [2019, 5, 1], 2), [3, 0]);
        assert_eq!(refused(&file, 1, [2019, 4, 30], 2, 2), 51);
        let file = supplemented(issue, &["D5100000", "D4U00000"]);
        assert_eq!(days_with(&file, [2019, 5, 1], MOST_DAYS), [0, 365]);
    }
}

/// Each RP has its own code and supplements; RP numbers are numbers.
#[test]
fn several_rps() {
    let rps: [Rp; 4] = [
        (1, THREE, &["8,MONDAYS,W0100000,"]),
        (2, "1022000000000000", &[]),
        (10, "1371000000000000", &["8,BY TURNS,I1100000,"]),
        (999, "", &["8,ONCE A WEEK,CW100000,"]),
    ];
    let file = sheet("20180702", &rps);
    assert_eq!(doses_of(&file, 1, [2018, 7, 2], 3), [3, 0, 0]);
    assert_eq!(doses_of(&file, 2, [2018, 7, 2], 3), [2, 2, 2]);
    assert_eq!(doses_of(&file, 10, [2018, 7, 2], 3), [1, 0, 1]);
    assert_eq!(refused(&file, 999, [2018, 7, 2], 3, 3), 50);
    for rp in [0, 3, 9, 11, 100, 998, 1000, 257, 258, 65_537, 65_538, 1 << 31, u32::MAX] {
        assert_eq!(refused(&file, rp, [2018, 7, 2], 3, 3), 53, "{rp}");
    }
}

#[test]
fn numbers_of_days() {
    let file = supplemented("20180702", &["I1100000"]);
    for days in 1..=MOST_DAYS {
        let expected: Vec<u8> = [3, 0].into_iter().cycle().take(days).collect();
        assert_eq!(doses(&file, [2018, 7, 2], days), expected);
        assert_eq!(refused(&file, 1, [2018, 7, 2], days as u32, days - 1), 33);
    }
    for days in [0, 367, 368, 512, 65_536, 65_536 + 7, 1 << 31, u32::MAX] {
        assert_eq!(refused(&file, 1, [2018, 7, 2], days, 1000), 51, "{days}");
    }
}

/// A sheet with all that is refused, then one fault less each time.
#[test]
fn order_of_refusals() {
    let none = sheet("20180702", &[(1, "", &[])]);
    let mut bad = none.clone();
    bad.truncate(none.len() - 1);
    let at = bad.len();
    let own = FileRefusal { number: 21, at, field: 0, code: 0, place: 0 };
    assert_eq!(fill(&bad, 2, [2018, 7, 1], 0, &mut []), Err(own));
    assert_eq!(refused(&none, 2, [2018, 7, 1], 0, 0), 53);
    assert_eq!(refused(&none, 1, [2018, 7, 2], 0, 0), 51);
    assert_eq!(refused(&none, 1, [2018, 7, 1], 1, 0), 51);
    assert_eq!(refused(&none, 1, [2018, 7, 2], 1, 0), 50);
    let some = sheet("20180702", &[(1, THREE, &[])]);
    assert_eq!(refused(&some, 1, [2018, 7, 2], 1, 0), 33);
    assert_eq!(doses(&some, [2018, 7, 2], 1), [3]);
    let count = supplemented("20180702", &["CW100000"]);
    assert_eq!(refused(&count, 1, [2018, 7, 2], 367, 0), 51);
    assert_eq!(refused(&count, 1, [2018, 7, 2], 366, 0), 50);
}

/// The file's own refusal is told whole, also where it stands after the RP.
#[test]
fn file_s_own_refusal() {
    let file = sheet("20180702", &[(1, THREE, &[]), (2, THREE, &[])]);
    let text = String::from_utf8(file).unwrap();
    let wrong = text.replace("111,2,2,1013044400000000", "111,2,2,1012044400000000").into_bytes();
    let own = check(&wrong).unwrap_err();
    assert_eq!((own.number, own.field, own.code, own.place), (29, 3, 7, 4));
    let mut output = [UNTOUCHED; 7];
    for rp in [1, 2, 3] {
        assert_eq!(fill(&wrong, rp, [2018, 7, 2], 7, &mut output), Err(own));
    }
    assert_eq!(output, [UNTOUCHED; 7]);
    assert_eq!(fill(b"", 1, [2018, 7, 2], 7, &mut output).map_err(|refusal| refusal.number), Err(21));
}

/// A longer calendar agrees with a shorter one, and the day after the start with the start a day later, but for I.
#[test]
fn calendars_agree() {
    let codes: [&[&str]; 5] = [&[], &["W0100101"], &["D0TUV000"], &["D71V0000", "D2T00000"], &["I4300000"]];
    for codes in codes {
        let file = supplemented("20190702", codes);
        for start in [[2019, 7, 2], [2020, 2, 28], [2020, 6, 30], [2099, 12, 30]] {
            let longest = doses(&file, start, MOST_DAYS);
            for days in 1..MOST_DAYS {
                assert_eq!(doses(&file, start, days), longest[..days]);
            }
            if codes != ["I4300000"] {
                let [year, month, day] = start;
                let later = if (month, day) == (6, 30) { [year, 7, 1] } else { [year, month, day + 1] };
                assert_eq!(doses(&file, later, MOST_DAYS - 1), longest[1..], "{start:?}");
            }
        }
    }
}
