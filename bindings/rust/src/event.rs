//! On which event a drug is taken: the fifth to the seventh character of a usage code of kind 5.

/// The events, each with its two characters and its words.
macro_rules! events {
    ($($first:literal $second:literal $name:ident $words:literal;)*) => {
        /// On which event a drug is taken, with the term of the table of events.
        ///
        /// ```
        /// use yawsimbel::Event;
        ///
        /// assert_eq!(Event::Headache.characters(), ['1', '2']);
        /// assert_eq!(Event::of(['1', '2']), Some(Event::Headache));
        /// ```
        #[derive(Clone, Copy, Debug, PartialEq, Eq, PartialOrd, Ord, Hash)]
        #[non_exhaustive]
        pub enum Event {
            $(#[doc = $words] $name,)*
        }

        impl Event {
            /// All of them, in the table's order.
            pub const ALL: &'static [Event] = &[$(Event::$name,)*];

            /// Its two characters in a usage code.
            pub const fn characters(self) -> [char; 2] {
                match self {
                    $(Event::$name => [$first, $second],)*
                }
            }
        }
    };
}

events! {
    '1' '1' Pain "In pain (疼痛時).";
    '1' '2' Headache "With a headache (頭痛時).";
    '1' '3' Toothache "With a toothache (歯痛時).";
    '1' '4' ChestPain "With chest pain (胸痛時).";
    '1' '5' StomachAche "With a stomach ache (腹痛時).";
    '1' '6' BackPain "With back pain (腰痛時).";
    '1' '7' JointPain "With pain in a joint (関節痛時).";
    '2' '1' Wheezing "When wheezing (喘鳴時).";
    '2' '2' AsthmaAttack "In an attack of asthma (喘息発作時).";
    '2' '3' ThroatRattling "When the throat rattles (喉がゴロゴロする時).";
    '2' '4' Hiccups "With hiccups (しゃっくり時).";
    '2' '5' Coughing "When coughing (咳込時).";
    '3' '1' HighBloodPressure "When the blood pressure rises (血圧上昇時).";
    '3' '2' HighBloodSugar "When the blood sugar rises (血糖上昇時).";
    '4' '1' Constipation "When constipated (便秘時).";
    '4' '2' StomachRumbling "When the stomach rumbles (お腹がゴロゴロする時).";
    '4' '3' Diarrhea "With diarrhea (下痢時).";
    '4' '4' Defecation "At defecation (排便時).";
    '4' '5' Vomiting "When vomiting (嘔吐時).";
    '4' '6' DryMouth "With a dry mouth (口腔乾燥時).";
    '4' '7' Nausea "With nausea (吐き気時).";
    '4' '8' EmptyStomach "On an empty stomach (空腹時).";
    '4' '9' Bleeding "When bleeding (出血時).";
    '5' '1' LittleUrine "With little urine (乏尿時).";
    '5' '2' MuchUrine "With much urine (多尿時).";
    '5' '3' Swelling "With a swelling (むくみ時).";
    '6' '1' Sleeplessness "When sleepless (不眠時).";
    '6' '2' Anxiety "When anxious (不安時).";
    '6' '3' Restlessness "When restless (不穏時).";
    '6' '4' Irritation "When irritated (いらいら時).";
    '6' '5' Convulsion "In a convulsion (けいれん時).";
    '6' '6' Dizziness "When dizzy (めまい時).";
    '6' '7' Fatigue "When tired (疲労時).";
    '7' '1' Fever "With a fever (発熱時).";
    '7' '2' Chill "With a chill (悪寒時).";
    '8' '1' Itching "When it itches (かゆい時).";
    '8' '2' Rash "With a rash (発疹時).";
    '9' '1' Attack "In an attack (発作時).";
    '9' '2' Symptoms "With symptoms (症状ある時).";
    'A' '1' BeforeExamination "Before an examination (検査前).";
    'A' '2' AtExamination "At an examination (検査時).";
    'A' '3' AfterExamination "After an examination (検査後).";
    'A' '4' BeforeSurgery "Before surgery (手術前).";
    'A' '5' DuringSurgery "During surgery (手術中).";
    'A' '6' AfterSurgery "After surgery (手術後).";
    'A' '7' BeforeTreatment "Before a treatment (処置前).";
    'A' '8' AtTreatment "At a treatment (処置時).";
    'A' '9' AfterTreatment "After a treatment (処置後).";
    'B' '1' Waking "On waking (起床時).";
    'B' '2' BeforeBath "Before a bath (入浴前).";
    'B' '3' BeforeMeal "Before a meal (食事前).";
    'B' '4' AfterMeal "After a meal (食事後).";
    'B' '5' Bedtime "At bedtime (就寝前).";
    'B' '6' GoingOut "When going out (外出時).";
    'B' '7' Nursing "At nursing (哺乳時).";
    'W' '1' WhenNeeded "When needed (必要時).";
    'W' '2' AsAppropriate "As appropriate (適宜).";
}

impl Event {
    /// The event with these characters.
    pub fn of(characters: [char; 2]) -> Option<Event> {
        Event::ALL.iter().copied().find(|event| event.characters() == characters)
    }
}

/// Under which condition a drug is taken on an event. The events with an asterisk in the table (31, 32, 51, 52, 71 and A1 to A9) stand with any of
/// them, every other with `May` alone. A number that a condition speaks of is written apart from the code.
#[derive(Clone, Copy, Debug, Default, PartialEq, Eq, PartialOrd, Ord, Hash)]
#[non_exhaustive]
#[repr(u8)]
pub enum Condition {
    /// It may be taken on the event (任意使用).
    #[default]
    May = 0,
    /// It must be taken on the event (使用必須).
    Must = 2,
    /// It must be taken where a value is equal to a number.
    Equal = 4,
    /// It must be taken where a value is below a number.
    Below = 5,
    /// It must be taken where a value is a number or less.
    AtMost = 6,
    /// It must be taken where a value is a number or more.
    AtLeast = 7,
}

impl Condition {
    /// The condition with this number.
    pub fn of(number: u8) -> Option<Condition> {
        use Condition::*;
        [May, Must, Equal, Below, AtMost, AtLeast].into_iter().find(|condition| *condition as u8 == number)
    }
}
