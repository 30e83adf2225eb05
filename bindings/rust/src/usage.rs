//! Usage codes: sixteen characters that say how and when a drug is taken.

use core::ops::Range;
use core::str::FromStr;

use crate::ffi;
use crate::{Class, Code, CodeRefusal, Condition, Detail, Event, Few, Hours, Reason, UsageCode};

/// What a usage code says.
///
/// ```
/// use yawsimbel::{Detail, Meal, Timing, Usage};
///
/// let usage: Usage = "1013044400000000".parse()?;
/// assert_eq!(usage.detail, Detail::Swallowed);
/// assert_eq!(usage.times(), Some(3));
/// assert!(matches!(usage.timing, Timing::Meals { lunch: Some(Meal::After), bedtime: false, .. }));
///
/// let eye_drops = Usage::new(Detail::EyeDrops, Timing::Count { times: 4, about: Default::default() });
/// assert_eq!(eye_drops.write()?.as_str(), "2H74000000000000");
/// # Ok::<(), Box<dyn std::error::Error>>(())
/// ```
#[derive(Clone, Copy, Debug, PartialEq, Eq, Hash)]
#[non_exhaustive]
pub struct Usage {
    /// In which way, by mouth or on the body.
    pub detail: Detail,
    /// When.
    pub timing: Timing,
}

/// When a drug is taken. Hours are 0 to 23.
///
/// ```
/// use yawsimbel::{Condition, Event, Timing, Usage};
///
/// let usage: Usage = "1050120630000000".parse()?;
/// let (interval, limit) = (Some(6), Some(3));
/// assert_eq!(usage.timing, Timing::Event { event: Event::Headache, condition: Condition::May, interval, limit });
/// # Ok::<(), yawsimbel::CodeRefusal>(())
/// ```
#[derive(Clone, Copy, Debug, PartialEq, Eq, Hash)]
#[non_exhaustive]
pub enum Timing {
    /// Kind 1: by meals, bedtime and waking.
    Meals {
        /// At bedtime.
        bedtime: bool,
        /// About supper.
        supper: Option<Meal>,
        /// About lunch.
        lunch: Option<Meal>,
        /// About breakfast.
        breakfast: Option<Meal>,
        /// On waking.
        waking: bool,
        /// At 15 h as well.
        at_fifteen: bool,
    },
    /// Kind 2: evenly over the day.
    Even {
        /// Times a day.
        times: u8,
        /// The first hour.
        start: Option<u8>,
    },
    /// Kind 3: at hours, rising.
    Hours(Hours),
    /// Kind 5: on an event.
    Event {
        /// The event.
        event: Event,
        /// Under which condition.
        condition: Condition,
        /// How many hours apart at least.
        interval: Option<u8>,
        /// How often a day at most.
        limit: Option<u8>,
    },
    /// Kind 6: by parts of the day.
    Parts {
        /// At bedtime.
        bedtime: bool,
        /// In the evening or afternoon.
        evening: Option<Evening>,
        /// At noon.
        noon: bool,
        /// In the morning or forenoon.
        morning: Option<Morning>,
        /// On waking.
        waking: bool,
        /// At an hour as well.
        hour: Option<u8>,
    },
    /// Kind 7: a count.
    Count {
        /// Times a day.
        times: u8,
        /// How exactly.
        about: About,
    },
}

/// When about a meal.
#[derive(Clone, Copy, Debug, PartialEq, Eq, PartialOrd, Ord, Hash)]
#[repr(u8)]
pub enum Meal {
    /// Before it.
    Before = 1,
    /// Just before it.
    JustBefore = 2,
    /// Just after it.
    JustAfter = 3,
    /// After it.
    After = 4,
    /// Two hours after it.
    TwoHoursAfter = 5,
    /// During it.
    During = 6,
}

/// The later part of the day.
#[derive(Clone, Copy, Debug, PartialEq, Eq, PartialOrd, Ord, Hash)]
#[repr(u8)]
pub enum Evening {
    /// In the evening (夕), `9`.
    Evening = 9,
    /// In the afternoon (午後), `A`.
    Afternoon = 10,
}

/// The earlier part of the day.
#[derive(Clone, Copy, Debug, PartialEq, Eq, PartialOrd, Ord, Hash)]
#[repr(u8)]
pub enum Morning {
    /// In the morning (朝), `9`.
    Morning = 9,
    /// In the forenoon (午前), `A`.
    Forenoon = 10,
}

/// How exactly a count of kind 7 is meant.
#[derive(Clone, Copy, Debug, Default, PartialEq, Eq, Hash)]
#[non_exhaustive]
pub enum About {
    /// So often.
    #[default]
    Exactly,
    /// About so often (程度).
    About,
    /// So often, or up to as often as this.
    UpTo(u8),
    /// So often, or several times (数回).
    OrSeveral,
}

/// An hour's number where there is none.
const NO_HOUR: u64 = 24;

/// What no code has, so the library says so.
const NO_VALUE: u64 = u64::MAX;

/// Where the hours of kind 3 stand among a code's numbers.
const HOURS: Range<usize> = 17..25;

/// The character of a value, `0` to `9`, `A` to `Z`.
fn character(value: u64) -> Option<char> {
    char::from_digit(u32::try_from(value).ok()?, 36).map(|digit| digit.to_ascii_uppercase())
}

fn value(character: char) -> u64 {
    character.to_digit(36).map_or(NO_VALUE, u64::from)
}

fn hour(number: u64) -> Option<u8> {
    u8::try_from(number).ok().filter(|hour| *hour < 24)
}

/// An hour that there is not must not become none: 25 is refused, 24 would not be.
fn hour_number(hour: Option<u8>) -> u64 {
    match hour {
        Some(hour) if hour < 24 => u64::from(hour),
        Some(_) => NO_HOUR + 1,
        None => NO_HOUR,
    }
}

/// A number of which 0 is none. `Some(0)` is no number, and must not become none.
fn optional_number(number: Option<u8>) -> u64 {
    match number {
        None => 0,
        Some(0) => NO_VALUE,
        Some(number) => u64::from(number),
    }
}

impl Meal {
    /// `Some(None)` where none is meant, `None` for a number that is none of these.
    fn of(number: u64) -> Option<Option<Meal>> {
        use Meal::*;
        named(number, [Before, JustBefore, JustAfter, After, TwoHoursAfter, During], |meal| meal as u64)
    }
}

impl Evening {
    fn of(number: u64) -> Option<Option<Evening>> {
        named(number, [Evening::Evening, Evening::Afternoon], |part| part as u64)
    }
}

impl Morning {
    fn of(number: u64) -> Option<Option<Morning>> {
        named(number, [Morning::Morning, Morning::Forenoon], |part| part as u64)
    }
}

/// Which of these has the number; 0 is none of them by intent, and any other number is not known.
fn named<T: Copy, const N: usize>(number: u64, all: [T; N], number_of: impl Fn(T) -> u64) -> Option<Option<T>> {
    match number {
        0 => Some(None),
        number => all.into_iter().find(|each| number_of(*each) == number).map(Some),
    }
}

impl About {
    fn of(number: u64) -> Option<About> {
        Some(match character(number)? {
            '0' => About::Exactly,
            'A' => About::About,
            'N' => About::OrSeveral,
            '1'..='9' => About::UpTo(number as u8),
            _ => return None,
        })
    }

    fn number(self) -> u64 {
        match self {
            About::Exactly => 0,
            About::About => value('A'),
            About::OrSeveral => value('N'),
            About::UpTo(times @ 1..=9) => u64::from(times),
            About::UpTo(_) => NO_VALUE,
        }
    }
}

impl Usage {
    /// A usage; whether a code reads as it is seen when it is written.
    pub const fn new(detail: Detail, timing: Timing) -> Usage {
        Usage { detail, timing }
    }

    /// Reads a code of sixteen characters. [`Reason::Length`] to [`Reason::Rising`], with the character at fault.
    pub fn read(code: &[u8]) -> Result<Usage, CodeRefusal> {
        let mut numbers = [0; ffi::USAGE];
        let mut place = 0;
        match ffi::usage_read(code, &mut numbers, &mut place) {
            0 => Usage::of(&numbers).ok_or(CodeRefusal { reason: Reason::Other, place: 0 }),
            number => Err(CodeRefusal { reason: Reason::of(number), place }),
        }
    }

    /// Writes the code that reads as this; [`Reason::NoCode`] where there is none.
    pub fn write(&self) -> Result<UsageCode, Reason> {
        let mut code = [0; 16];
        match ffi::usage_write(&self.numbers(), &mut code) {
            0 => Ok(Code::of(code)),
            number => Err(Reason::of(number)),
        }
    }

    /// By mouth or on the body.
    pub const fn class(&self) -> Class {
        self.detail.class()
    }

    /// Times a day; `None` for an event, which has none.
    pub fn times(&self) -> Option<u8> {
        match self.timing {
            Timing::Event { .. } => None,
            _ => u8::try_from(self.numbers()[3]).ok(),
        }
    }

    /// Of the numbers that the library gives for a code that it takes; `None` where this crate does not know one.
    pub(crate) fn of(n: &ffi::Usage) -> Option<Usage> {
        let class = match n[0] {
            1 => Class::Oral,
            2 => Class::External,
            _ => return None,
        };
        Some(Usage { detail: Detail::of(class, character(n[1])?)?, timing: Timing::of(n)? })
    }

    pub(crate) fn numbers(&self) -> ffi::Usage {
        let mut n = [0; ffi::USAGE];
        n[9..11].fill(NO_HOUR);
        n[HOURS].fill(NO_HOUR);
        n[0] = match self.class() {
            Class::Oral => 1,
            Class::External => 2,
        };
        n[1] = value(self.detail.character());
        self.timing.put(&mut n);
        n
    }
}

impl Timing {
    fn of(n: &ffi::Usage) -> Option<Timing> {
        let times = u8::try_from(n[3]).ok()?;
        Some(match n[2] {
            1 => Timing::Meals {
                bedtime: n[4] != 0,
                supper: Meal::of(n[5])?,
                lunch: Meal::of(n[6])?,
                breakfast: Meal::of(n[7])?,
                waking: n[8] != 0,
                at_fifteen: n[9] != NO_HOUR,
            },
            2 => Timing::Even { times, start: hour(n[10]) },
            3 => Timing::Hours(Few::of(n[HOURS].iter().map(|number| hour(*number)))),
            5 => Timing::Event {
                event: Event::of([character(n[11])?, character(n[12])?])?,
                condition: Condition::of(u8::try_from(n[13]).ok()?)?,
                interval: Some(u8::try_from(n[14]).ok()?).filter(|hours| *hours != 0),
                limit: Some(u8::try_from(n[15]).ok()?).filter(|times| *times != 0),
            },
            6 => Timing::Parts {
                bedtime: n[4] != 0,
                evening: Evening::of(n[5])?,
                noon: n[6] != 0,
                morning: Morning::of(n[7])?,
                waking: n[8] != 0,
                hour: hour(n[9]),
            },
            7 => Timing::Count { times, about: About::of(n[16])? },
            _ => return None,
        })
    }

    /// Its numbers among those of a code, in which no hour stands yet.
    fn put(&self, n: &mut ffi::Usage) {
        match *self {
            Timing::Meals { bedtime, supper, lunch, breakfast, waking, at_fifteen } => {
                let [supper, lunch, breakfast] =
                    [supper, lunch, breakfast].map(|meal| meal.map_or(0, |meal| meal as u64));
                n[2] = 1;
                n[4..9].copy_from_slice(&[bedtime.into(), supper, lunch, breakfast, waking.into()]);
                n[9] = if at_fifteen { 15 } else { NO_HOUR };
                n[3] = occasions(n);
            }
            Timing::Even { times, start } => {
                n[2] = 2;
                n[3] = u64::from(times);
                n[10] = hour_number(start);
            }
            Timing::Hours(hours) => {
                n[2] = 3;
                n[3] = hours.as_slice().len() as u64;
                let hours = hours.as_slice().iter().map(|hour| hour_number(Some(*hour)));
                n[HOURS].iter_mut().zip(hours).for_each(|(cell, hour)| *cell = hour);
            }
            Timing::Event { event, condition, interval, limit } => {
                let [first, second] = event.characters().map(value);
                n[2] = 5;
                let interval_and_limit = [interval, limit].map(optional_number);
                n[11..14].copy_from_slice(&[first, second, condition as u64]);
                n[14..16].copy_from_slice(&interval_and_limit);
            }
            Timing::Parts { bedtime, evening, noon, morning, waking, hour } => {
                let evening = evening.map_or(0, |part| part as u64);
                let morning = morning.map_or(0, |part| part as u64);
                n[2] = 6;
                n[4..9].copy_from_slice(&[bedtime.into(), evening, noon.into(), morning, waking.into()]);
                n[9] = hour_number(hour);
                n[3] = occasions(n);
            }
            Timing::Count { times, about } => {
                n[2] = 7;
                n[3] = u64::from(times);
                n[16] = about.number();
            }
        }
    }
}

/// How many occasions of kinds 1 and 6 stand.
fn occasions(n: &ffi::Usage) -> u64 {
    n[4..9].iter().filter(|number| **number != 0).count() as u64 + u64::from(n[9] != NO_HOUR)
}

impl TryFrom<&[u8]> for Usage {
    type Error = CodeRefusal;

    fn try_from(code: &[u8]) -> Result<Usage, CodeRefusal> {
        Usage::read(code)
    }
}

impl FromStr for Usage {
    type Err = CodeRefusal;

    fn from_str(code: &str) -> Result<Usage, CodeRefusal> {
        Usage::read(code.as_bytes())
    }
}

impl TryFrom<Usage> for UsageCode {
    type Error = Reason;

    fn try_from(usage: Usage) -> Result<UsageCode, Reason> {
        usage.write()
    }
}
