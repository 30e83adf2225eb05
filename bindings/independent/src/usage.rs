//! Usage codes: sixteen characters that say how and when a drug is taken. Table 8's rows are those of document 02.

use crate::{zeros_from, Refusal};

/// What a usage code says.
#[derive(Clone, Copy, Debug, PartialEq, Eq)]
pub struct Instruction {
    /// 1st character.
    pub class: Class,
    /// 2nd character, as written: oral `0` to `3`, external a letter.
    pub detail: u8,
    /// The timing kind (3rd character) with what follows it.
    pub timing: Timing,
}

/// "1 oral, 2 external."
#[derive(Clone, Copy, Debug, PartialEq, Eq)]
pub enum Class {
    /// `1`
    Oral,
    /// `2`
    External,
}

/// The timing kinds that are read.
#[derive(Clone, Copy, Debug, PartialEq, Eq)]
pub enum Timing {
    /// Kind 1: by meals, bedtime and waking.
    Meals(Meals),
    /// Kind 2: evenly over the day, perhaps from a start hour, 0 to 23.
    Even {
        /// 2, 3, 4, 6 or 8.
        times: u8,
        /// The start hour, where one stands.
        start: Option<u8>,
    },
    /// Kind 3: at fixed hours.
    Hours(Hours),
    /// Kind 5: on an event.
    Event(Event),
    /// Kind 6: by parts of the day.
    Parts(Parts),
    /// Kind 7: a plain, "about" or ranging count.
    Count {
        /// The 4th character as a number.
        times: u8,
        /// The 5th character, as written.
        about: u8,
    },
}

/// Kind 1. The 4th character is worked out: see [`Meals::times`].
#[derive(Clone, Copy, Debug, Default, PartialEq, Eq)]
pub struct Meals {
    /// 5th.
    pub bedtime: bool,
    /// 6th.
    pub supper: Option<Meal>,
    /// 7th.
    pub lunch: Option<Meal>,
    /// 8th.
    pub breakfast: Option<Meal>,
    /// 9th.
    pub waking: bool,
    /// 10th: `P`, 15 h.
    pub at_fifteen: bool,
}

/// "1 before, 2 just before, 6 during, 3 just after, 4 after, 5 two hours after."
#[derive(Clone, Copy, Debug, PartialEq, Eq)]
#[repr(u8)]
pub enum Meal {
    /// `1`
    Before = b'1',
    /// `2`
    JustBefore = b'2',
    /// `3`
    JustAfter = b'3',
    /// `4`
    After = b'4',
    /// `5`
    TwoHoursAfter = b'5',
    /// `6`
    During = b'6',
}

/// Kind 3: bit h stands for h o'clock, 0 to 23.
#[derive(Clone, Copy, Debug, Default, PartialEq, Eq)]
pub struct Hours(pub u32);

/// Kind 5, in the characters of the code.
#[derive(Clone, Copy, Debug, PartialEq, Eq)]
pub struct Event {
    /// 5th and 6th.
    pub event: [u8; 2],
    /// 7th.
    pub condition: u8,
    /// 8th.
    pub interval: u8,
    /// 9th.
    pub limit: u8,
}

/// Kind 6. The 4th character is worked out: see [`Parts::times`].
#[derive(Clone, Copy, Debug, Default, PartialEq, Eq)]
pub struct Parts {
    /// 5th.
    pub bedtime: bool,
    /// 6th.
    pub evening: Option<Part>,
    /// 7th.
    pub noon: bool,
    /// 8th.
    pub morning: Option<Part>,
    /// 9th.
    pub waking: bool,
    /// 10th: an hour, 0 to 23.
    pub hour: Option<u8>,
}

/// "6th and 8th 0, 9 or A."
#[derive(Clone, Copy, Debug, PartialEq, Eq)]
#[repr(u8)]
pub enum Part {
    /// `9`
    Nine = b'9',
    /// `A`
    A = b'A',
}

impl Meals {
    /// "The 4th equals the number of non-zero characters from 5th to 10th."
    pub fn times(&self) -> u8 {
        let flags = [
            self.bedtime,
            self.supper.is_some(),
            self.lunch.is_some(),
            self.breakfast.is_some(),
            self.waking,
            self.at_fifteen,
        ];
        flags.map(u8::from).iter().sum()
    }

    /// "P stands only with bedtime 1, meals 4 4 4, waking 0."
    fn keeps_fifteen_rule(&self) -> bool {
        let after = Some(Meal::After);
        !self.at_fifteen || (self.bedtime && [self.supper, self.lunch, self.breakfast] == [after; 3] && !self.waking)
    }
}

impl Hours {
    /// How many hours stand.
    pub fn times(&self) -> u8 {
        self.0.count_ones() as u8
    }

    /// The hours, rising.
    pub fn iter(self) -> impl Iterator<Item = u8> {
        (0..32).filter(move |h| self.0 >> h & 1 == 1)
    }
}

impl Parts {
    /// "4th equals the non-zero number of 5th to 10th."
    pub fn times(&self) -> u8 {
        let flags =
            [self.bedtime, self.evening.is_some(), self.noon, self.morning.is_some(), self.waking, self.hour.is_some()];
        flags.map(u8::from).iter().sum()
    }
}

type Code = [u8; 16];

/// Reads a usage code. "Codes are tested left to right; at one place 6, 5, 8, 9 in that order; then
/// 7, then the P rule."
pub fn read(code: &[u8]) -> Result<Instruction, Refusal> {
    let code: &Code = code.try_into().map_err(|_| Refusal::new(1, 0))?;
    let class = match code[0] {
        b'1' => Class::Oral,
        b'2' => Class::External,
        _ => return Err(Refusal::new(2, 1)),
    };
    let detail = code[1];
    if !is_detail(class, detail) {
        return Err(Refusal::new(3, 2));
    }
    let timing = match (class, code[2]) {
        (Class::Oral, b'1') => read_meals(code)?,
        (Class::Oral, b'2') => read_even(code)?,
        (Class::Oral, b'3') => read_hours(code)?,
        (_, b'5') => read_event(code)?,
        (Class::External, b'6') => read_parts(code)?,
        (Class::External, b'7') => read_count(code)?,
        (Class::Oral, b'7') if detail == b'3' => read_count(code)?,
        _ => return Err(Refusal::new(4, 3)),
    };
    Ok(Instruction { class, detail, timing })
}

/// "Oral 0 to 3. External A B C D E F G H J K L M N P Q R S T U."
fn is_detail(class: Class, detail: u8) -> bool {
    match class {
        Class::Oral => matches!(detail, b'0'..=b'3'),
        Class::External => matches!(detail, b'A'..=b'H' | b'J'..=b'N' | b'P'..=b'U'),
    }
}

/// The character at a place through `sense`; 5 where it is outside the set.
fn at<T>(code: &Code, place: usize, sense: impl Fn(u8) -> Option<T>) -> Result<T, Refusal> {
    sense(code[place - 1]).ok_or(Refusal::new(5, place))
}

/// `0`, or the one character that says yes.
fn flag(yes: u8) -> impl Fn(u8) -> Option<bool> {
    move |c| match c {
        b'0' => Some(false),
        c if c == yes => Some(true),
        _ => None,
    }
}

/// A digit between two.
fn digit(low: u8, high: u8) -> impl Fn(u8) -> Option<u8> {
    move |c| (low..=high).contains(&c).then(|| c - b'0')
}

/// A member of a set, kept as written.
fn member(set: &[u8]) -> impl Fn(u8) -> Option<u8> + '_ {
    move |c| set.contains(&c).then_some(c)
}

/// "A is 0 h, X is 23 h."
fn hour(c: u8) -> Option<u8> {
    matches!(c, b'A'..=b'X').then(|| c.wrapping_sub(b'A'))
}

/// `0`, or a start hour.
fn hour_or_none(c: u8) -> Option<Option<u8>> {
    match c {
        b'0' => Some(None),
        c => hour(c).map(Some),
    }
}

fn meal(c: u8) -> Option<Option<Meal>> {
    Some(match c {
        b'0' => None,
        b'1' => Some(Meal::Before),
        b'2' => Some(Meal::JustBefore),
        b'3' => Some(Meal::JustAfter),
        b'4' => Some(Meal::After),
        b'5' => Some(Meal::TwoHoursAfter),
        b'6' => Some(Meal::During),
        _ => return None,
    })
}

fn part(c: u8) -> Option<Option<Part>> {
    match c {
        b'0' => Some(None),
        b'9' => Some(Some(Part::Nine)),
        b'A' => Some(Some(Part::A)),
        _ => None,
    }
}

fn read_meals(code: &Code) -> Result<Timing, Refusal> {
    let times = at(code, 4, digit(b'1', b'5'))?;
    let meals = Meals {
        bedtime: at(code, 5, flag(b'1'))?,
        supper: at(code, 6, meal)?,
        lunch: at(code, 7, meal)?,
        breakfast: at(code, 8, meal)?,
        waking: at(code, 9, flag(b'9'))?,
        at_fifteen: at(code, 10, flag(b'P'))?,
    };
    zeros_from(code, 11)?;
    if times != meals.times() {
        return Err(Refusal::new(7, 4));
    }
    if !meals.keeps_fifteen_rule() {
        return Err(Refusal::new(8, 10));
    }
    Ok(Timing::Meals(meals))
}

/// "4th is 2, 3, 4, 6 or 8; 5th is 0 or a start hour A to X."
fn read_even(code: &Code) -> Result<Timing, Refusal> {
    let times = at(code, 4, member(b"23468"))? - b'0';
    let start = at(code, 5, hour_or_none)?;
    zeros_from(code, 6)?;
    Ok(Timing::Even { times, start })
}

/// "4th is n, 1 to 8; the next n are hours A to X, strictly rising."
fn read_hours(code: &Code) -> Result<Timing, Refusal> {
    let n = usize::from(at(code, 4, digit(b'1', b'8'))?);
    let mut hours = 0u32;
    for place in 5..5 + n {
        let hour = at(code, place, hour)?;
        if hours >> hour != 0 {
            return Err(Refusal::new(9, place));
        }
        hours |= 1 << hour;
    }
    zeros_from(code, 5 + n)?;
    Ok(Timing::Hours(Hours(hours)))
}

/// "4th is 0; 5th to 7th a row of table 8; 8th one of 0 1 2 3 4 5 6 8 C; 9th one of 0 to 9, A, C."
fn read_event(code: &Code) -> Result<Timing, Refusal> {
    at(code, 4, member(b"0"))?;
    let row = [code[4], code[5], code[6]];
    if !is_event_row(row) {
        return Err(Refusal::new(8, 5));
    }
    let interval = at(code, 8, member(b"01234568C"))?;
    let limit = at(code, 9, member(b"0123456789AC"))?;
    zeros_from(code, 10)?;
    let [first, second, condition] = row;
    Ok(Timing::Event(Event { event: [first, second], condition, interval, limit }))
}

/// The 127 rows of table 8: "43 with condition 0, 14 with six each".
fn is_event_row([first, second, condition]: [u8; 3]) -> bool {
    let event = [first, second];
    (is_unstarred(event) && condition == b'0') || (is_starred(event) && b"024567".contains(&condition))
}

/// "The starred ones are 31, 32, 51, 52, 71 and A1 to A9." They "take any of the conditions 0, 2, 4, 5, 6, 7".
fn is_starred(event: [u8; 2]) -> bool {
    matches!(&event, b"31" | b"32" | b"51" | b"52" | b"71" | [b'A', b'1'..=b'9'])
}

/// "11 to 17, 21 to 25, 41 to 49, 53, 61 to 67, 72, 81, 82, 91, 92, B1 to B7, W1, W2 with condition 0."
fn is_unstarred(event: [u8; 2]) -> bool {
    matches!(
        &event,
        [b'1', b'1'..=b'7']
            | [b'2', b'1'..=b'5']
            | [b'4', b'1'..=b'9']
            | b"53"
            | [b'6', b'1'..=b'7']
            | b"72"
            | [b'8' | b'9' | b'W', b'1' | b'2']
            | [b'B', b'1'..=b'7']
    )
}

/// "4th is 1 to 5; 5th 0 or 1; 6th and 8th 0, 9 or A; 7th and 9th 0 or 9; 10th 0 or A to X."
fn read_parts(code: &Code) -> Result<Timing, Refusal> {
    let times = at(code, 4, digit(b'1', b'5'))?;
    let parts = Parts {
        bedtime: at(code, 5, flag(b'1'))?,
        evening: at(code, 6, part)?,
        noon: at(code, 7, flag(b'9'))?,
        morning: at(code, 8, part)?,
        waking: at(code, 9, flag(b'9'))?,
        hour: at(code, 10, hour_or_none)?,
    };
    zeros_from(code, 11)?;
    if times != parts.times() {
        return Err(Refusal::new(7, 4));
    }
    Ok(Timing::Parts(parts))
}

/// "4th and 5th are one of 10 20 30 40 60 3A 4A 6A 12 1N 23 34 45."
fn read_count(code: &Code) -> Result<Timing, Refusal> {
    let known = matches!(
        &code[3..5],
        [b'1' | b'2' | b'3' | b'4' | b'6', b'0'] | [b'3' | b'4' | b'6', b'A'] | b"12" | b"1N" | b"23" | b"34" | b"45"
    );
    if !known {
        return Err(Refusal::new(8, 4));
    }
    zeros_from(code, 6)?;
    Ok(Timing::Count { times: code[3] - b'0', about: code[4] })
}

/// Writes the code that reads as an instruction; `None` (35) where no code does.
pub fn write(instruction: &Instruction) -> Option<[u8; 16]> {
    let mut code = [b'0'; 16];
    code[0] = match instruction.class {
        Class::Oral => b'1',
        Class::External => b'2',
    };
    code[1] = instruction.detail;
    match &instruction.timing {
        Timing::Meals(meals) => put(&mut code, &meals_text(meals)),
        Timing::Even { times, start } => put(&mut code, &[b'2', numeral(*times), hour_letter(*start)]),
        Timing::Hours(hours) => write_hours(&mut code, *hours)?,
        Timing::Event(e) => {
            put(&mut code, &[b'5', b'0', e.event[0], e.event[1], e.condition, e.interval, e.limit]);
        }
        Timing::Parts(parts) => put(&mut code, &parts_text(parts)),
        Timing::Count { times, about } => put(&mut code, &[b'7', numeral(*times), *about]),
    }
    // A record may hold what no code says: only a code that reads as the record is handed out.
    (read(&code) == Ok(*instruction)).then_some(code)
}

/// Puts the characters from the 3rd on.
fn put(code: &mut Code, text: &[u8]) {
    code[2..2 + text.len()].copy_from_slice(text);
}

fn meals_text(m: &Meals) -> [u8; 8] {
    let meal = |m: Option<Meal>| m.map_or(b'0', |m| m as u8);
    [
        b'1',
        numeral(m.times()),
        yes(m.bedtime, b'1'),
        meal(m.supper),
        meal(m.lunch),
        meal(m.breakfast),
        yes(m.waking, b'9'),
        yes(m.at_fifteen, b'P'),
    ]
}

fn parts_text(p: &Parts) -> [u8; 8] {
    let part = |p: Option<Part>| p.map_or(b'0', |p| p as u8);
    [
        b'6',
        numeral(p.times()),
        yes(p.bedtime, b'1'),
        part(p.evening),
        yes(p.noon, b'9'),
        part(p.morning),
        yes(p.waking, b'9'),
        hour_letter(p.hour),
    ]
}

fn write_hours(code: &mut Code, hours: Hours) -> Option<()> {
    if hours.times() > 8 {
        return None;
    }
    code[2] = b'3';
    code[3] = numeral(hours.times());
    for (cell, hour) in code[4..].iter_mut().zip(hours.iter()) {
        *cell = hour_letter(Some(hour));
    }
    Some(())
}

fn yes(flag: bool, c: u8) -> u8 {
    if flag {
        c
    } else {
        b'0'
    }
}

fn numeral(n: u8) -> u8 {
    b'0'.wrapping_add(n)
}

fn hour_letter(hour: Option<u8>) -> u8 {
    hour.map_or(b'0', |h| b'A'.wrapping_add(h))
}

#[cfg(test)]
mod tests {
    use super::*;

    fn refused(code: &str) -> (u16, usize) {
        let r = read(code.as_bytes()).unwrap_err();
        (r.number, r.place)
    }

    fn meals(code: &str) -> Meals {
        match read(code.as_bytes()).unwrap().timing {
            Timing::Meals(m) => m,
            other => panic!("{other:?}"),
        }
    }

    #[test]
    fn worked_by_hand() {
        let three = meals("1013044400000000");
        let after = Some(Meal::After);
        assert_eq!((three.supper, three.lunch, three.breakfast), (after, after, after));
        assert_eq!(three.times(), 3);
        assert!(meals("131514440P000000").at_fifteen);
        assert_eq!(meals("1013064400000000").supper, Some(Meal::During));
        assert_eq!(refused("1012044400000000"), (7, 4));
        assert_eq!(refused("1013074400000000"), (5, 6));
        assert_eq!(refused("101200040P000000"), (8, 10));
        let hours = read(b"1033IMS000000000").unwrap().timing;
        assert_eq!(hours, Timing::Hours(Hours(1 << 8 | 1 << 12 | 1 << 18)));
        assert_eq!(refused("1033IMM000000000"), (9, 7));
        let pressure = Event { event: *b"31", condition: b'0', interval: b'0', limit: b'0' };
        assert_eq!(read(b"1050310000000000").unwrap().timing, Timing::Event(pressure));
        assert_eq!(refused("2B72100000000000"), (8, 4));
    }

    #[test]
    fn readings() {
        assert_eq!(refused("1051110000000000"), (5, 4));
        assert_eq!(refused("1033IM0000000000"), (5, 7));
        assert_eq!(refused("1032IMS000000000"), (6, 7));
        assert_eq!(refused("105011X000000000"), (8, 5));
        assert_eq!(refused("10503107X0000000"), (5, 8));
        assert_eq!(refused("10503137X0000000"), (8, 5));
        assert_eq!(refused("2B71X00000000000"), (8, 4));
        assert_eq!(refused("1071000000000000"), (4, 3));
        assert_eq!(refused("101300040P000000"), (7, 4));
        assert_eq!(refused("1012044400000001"), (6, 16));
        assert_eq!(refused("1010000000000000"), (5, 4));
        assert_eq!(refused(""), (1, 0));
        assert_eq!(refused("3"), (1, 0));
    }

    const STARRED: &str = "31 32 51 52 71 A1 A2 A3 A4 A5 A6 A7 A8 A9";
    const UNSTARRED: &str = "11 12 13 14 15 16 17 21 22 23 24 25 41 42 43 44 45 46 47 48 49 53 \
                             61 62 63 64 65 66 67 72 81 82 91 92 B1 B2 B3 B4 B5 B6 B7 W1 W2";

    /// The conditions, of all bytes, with which an event is taken, each as it stands; with any other it is 8 at 5.
    fn conditions(event: [u8; 2]) -> Vec<u8> {
        let taken = |&condition: &u8| {
            let mut code = *b"1050000000000000";
            code[4..6].copy_from_slice(&event);
            code[6] = condition;
            let said = Timing::Event(Event { event, condition, interval: b'0', limit: b'0' });
            let answer = read(&code).map(|instruction| instruction.timing);
            assert!(answer == Ok(said) || answer == Err(Refusal::new(8, 5)), "{code:?}: {answer:?}");
            answer.is_ok()
        };
        (0..=255).filter(taken).collect()
    }

    #[test]
    fn starred_events_take_six_conditions_the_others_one() {
        for (events, some) in [(STARRED, "024567"), (UNSTARRED, "0")] {
            for event in events.split(' ') {
                assert_eq!(conditions(event.as_bytes().try_into().unwrap()), some.as_bytes(), "{event}");
            }
        }
    }

    /// Of all texts of three bytes.
    #[test]
    fn table_8_has_127_rows() {
        let all = (0..=255).flat_map(|first| (0..=255).map(move |second| [first, second]));
        let taken: Vec<_> = all.map(conditions).filter(|some| !some.is_empty()).collect();
        let events_with = |some: &[u8]| taken.iter().filter(|has| *has == some).count();
        assert_eq!((events_with(b"0"), events_with(b"024567")), (43, 14));
        assert_eq!(taken.concat().len(), 127);
    }

    /// "Refusals: 8 at 5 as before."
    #[test]
    fn rows_that_table_8_has_not() {
        let starred = STARRED.split(' ').flat_map(|event| ["1", "3", "8", "9", "A"].map(|c| format!("{event}{c}")));
        let others = ["531", "532", "537", "722", "727", "912", "112", "B74", "W16", "300", "330", "A00", "AA0"];
        for row in starred.chain(others.map(String::from)) {
            assert_eq!(refused(&format!("1050{row}000000000")), (8, 5), "{row}");
        }
    }

    /// Document 01's rows from before the starred events took six conditions.
    #[test]
    fn former_63_rows_are_still_taken() {
        let starred = "312 317 322 327 512 515 522 527 712 717 A12 A14 A22 A32 A42 A52 A62 A72 A82 A92";
        let others = UNSTARRED.split(' ').map(|event| format!("{event}0"));
        let codes = others.chain(starred.split(' ').map(String::from)).map(|row| format!("1050{row}000000000"));
        assert_eq!(codes.filter(|code| read(code.as_bytes()).is_ok()).count(), 63);
    }

    /// Every kind 1 ending that is taken is written back as it stood; there are 1,372.
    #[test]
    fn kind_1_written_back() {
        let mut taken = 0;
        for n in 0..5 * 2 * 7 * 7 * 7 * 2 * 2 {
            let mut rest = n;
            let mut next = |base: u32| {
                let d = rest % base;
                rest /= base;
                d as u8
            };
            let mut code = *b"1010000000000000";
            code[3] = b'1' + next(5);
            code[4] = b'0' + next(2);
            code[5] = b'0' + next(7);
            code[6] = b'0' + next(7);
            code[7] = b'0' + next(7);
            code[8] = b'0' + 9 * next(2);
            code[9] = [b'0', b'P'][usize::from(next(2))];
            if let Ok(instruction) = read(&code) {
                taken += 1;
                assert_eq!(write(&instruction), Some(code));
            }
        }
        assert_eq!(taken, 1372);
    }

    /// Every one-character change of some codes is refused, or taken and written back as it stood.
    #[test]
    fn neighbours_written_back() {
        let seeds: [&[u8; 16]; 7] = [
            b"1013044400000000",
            b"1023X00000000000",
            b"1038ABCDEFGH0000",
            b"2G503273C0000000",
            b"2N651A9A0G000000",
            b"1373A00000000000",
            b"131514440P000000",
        ];
        for seed in seeds {
            assert_eq!(read(seed).ok().and_then(|i| write(&i)), Some(*seed));
            for place in 0..16 {
                for c in 0..=255 {
                    let mut code = *seed;
                    code[place] = c;
                    if let Ok(instruction) = read(&code) {
                        assert_eq!(write(&instruction), Some(code));
                    }
                }
            }
        }
    }

    #[test]
    fn no_code_reads_as_these() {
        let oral = |timing| Instruction { class: Class::Oral, detail: b'0', timing };
        assert_eq!(write(&oral(Timing::Meals(Meals::default()))), None);
        assert_eq!(write(&oral(Timing::Hours(Hours(0)))), None);
        assert_eq!(write(&oral(Timing::Hours(Hours(u32::MAX)))), None);
        assert_eq!(write(&oral(Timing::Hours(Hours(1 << 24)))), None);
        assert_eq!(write(&oral(Timing::Even { times: 5, start: None })), None);
        assert_eq!(write(&oral(Timing::Even { times: 2, start: Some(239) })), None);
        assert_eq!(write(&oral(Timing::Count { times: 1, about: b'0' })), None);
        let fifteen = Meals { at_fifteen: true, ..Meals::default() };
        assert_eq!(write(&oral(Timing::Meals(fifteen))), None);
    }
}
