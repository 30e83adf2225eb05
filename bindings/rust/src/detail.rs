//! How a drug is taken: the second character of a usage code.

/// How a drug is taken.
#[derive(Clone, Copy, Debug, PartialEq, Eq, PartialOrd, Ord, Hash)]
#[non_exhaustive]
pub enum Class {
    /// By mouth (内服).
    Oral,
    /// On the body (外用).
    External,
}

/// The details, each with its class, its character and its words.
macro_rules! details {
    ($($class:ident $character:literal $name:ident $words:literal;)*) => {
        /// In which way a drug is taken, with the term of the table of details.
        ///
        /// ```
        /// use yawsimbel::{Class, Detail};
        ///
        /// assert_eq!(Detail::EyeDrops.class(), Class::External);
        /// assert_eq!(Detail::EyeDrops.character(), 'H');
        /// assert_eq!(Detail::of(Class::External, 'H'), Some(Detail::EyeDrops));
        /// ```
        #[derive(Clone, Copy, Debug, PartialEq, Eq, PartialOrd, Ord, Hash)]
        #[non_exhaustive]
        pub enum Detail {
            $(#[doc = $words] $name,)*
        }

        impl Detail {
            /// All of them, oral ones first.
            pub const ALL: &'static [Detail] = &[$(Detail::$name,)*];

            /// Its class.
            pub const fn class(self) -> Class {
                match self {
                    $(Detail::$name => Class::$class,)*
                }
            }

            /// Its character in a usage code.
            pub const fn character(self) -> char {
                match self {
                    $(Detail::$name => $character,)*
                }
            }
        }
    };
}

details! {
    Oral '0' Swallowed "Swallowed (経口).";
    Oral '1' UnderTongue "Under the tongue (舌下).";
    Oral '2' Buccal "Between gum and cheek (バッカル).";
    Oral '3' InMouth "Applied in the mouth (口腔内塗布).";
    External 'A' Patch "Stuck on (貼付).";
    External 'B' Spread "Applied (塗布).";
    External 'C' Compress "As a compress (湿布).";
    External 'D' Powder "Dusted on (撒布).";
    External 'E' Spray "Sprayed (噴霧).";
    External 'F' Disinfect "To disinfect (消毒).";
    External 'G' EarDrops "As ear drops (点耳).";
    External 'H' EyeDrops "As eye drops (点眼).";
    External 'J' NoseDrops "As nose drops (点鼻).";
    External 'K' Gargle "To gargle (うがい).";
    External 'L' Inhale "Inhaled (吸入).";
    External 'M' Troche "As a troche (トローチ).";
    External 'N' BladderWash "To rinse the bladder (膀胱洗浄).";
    External 'P' NoseWash "To rinse the nose (鼻腔内洗浄).";
    External 'Q' Enema "As an enema (浣腸).";
    External 'R' AnusInsert "Put into the rectum (肛門挿入).";
    External 'S' AnusInstil "Poured into the rectum (肛門注入).";
    External 'T' VaginaInsert "Put into the vagina (膣内挿入).";
    External 'U' BladderInstil "Poured into the bladder (膀胱注入).";
}

impl Detail {
    /// The detail of a class with this character.
    pub fn of(class: Class, character: char) -> Option<Detail> {
        let same = |detail: &Detail| detail.class() == class && detail.character() == character;
        Detail::ALL.iter().copied().find(same)
    }
}
