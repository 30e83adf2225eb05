//! What the numbers of a record's fields stand for.

use crate::{Supplement, Text};

/// The form of an RP's drugs (剤形区分), 1 to 99.
#[derive(Clone, Copy, Debug, PartialEq, Eq, Hash)]
#[non_exhaustive]
pub enum Form {
    /// 1, taken by mouth (内服).
    Oral,
    /// 2, taken as needed (頓服).
    AsNeeded,
    /// 3, used on the body (外用).
    External,
    /// 4, drops taken by mouth (内服滴剤).
    OralDrops,
    /// 5, injected (注射).
    Injection,
    /// 6, medical material (医療材料).
    Material,
    /// 9, not known (不明).
    Unknown,
    /// Any other number.
    Other(u16),
}

impl Form {
    /// The form of a number.
    pub const fn of(number: u16) -> Form {
        match number {
            1 => Form::Oral,
            2 => Form::AsNeeded,
            3 => Form::External,
            4 => Form::OralDrops,
            5 => Form::Injection,
            6 => Form::Material,
            9 => Form::Unknown,
            number => Form::Other(number),
        }
    }

    /// Its number.
    pub const fn number(self) -> u16 {
        match self {
            Form::Oral => 1,
            Form::AsNeeded => 2,
            Form::External => 3,
            Form::OralDrops => 4,
            Form::Injection => 5,
            Form::Material => 6,
            Form::Unknown => 9,
            Form::Other(number) => number,
        }
    }
}

/// What a record 181 adds to a usage (用法補足区分), with the code or site that its kind asks for.
#[derive(Clone, Copy, Debug, Default, PartialEq, Eq, Hash)]
#[non_exhaustive]
pub enum SupplementKind<'a> {
    /// Empty: not known.
    #[default]
    Unknown,
    /// 1, a dose that falls (漸減).
    Tapering,
    /// 2, packed by dose (一包化).
    OneBag,
    /// 3, every other day (隔日).
    Alternate,
    /// 4, crushed (粉砕).
    Crushed,
    /// 5, the usage goes on (用法の続き).
    More,
    /// 6, where on the body, in words (部位).
    Site,
    /// 7, how much at a time (1回使用量).
    Dose,
    /// 8, a supplementary code (JAMI 補足用法).
    Code(Supplement),
    /// 9, the code of a site, three digits or capitals (JAMI 部位).
    SiteCode(Text<'a>),
    /// Any other number.
    Other(u16),
}

impl<'a> SupplementKind<'a> {
    /// Its number; `None` for one that is empty.
    pub const fn number(&self) -> Option<u16> {
        Some(match self {
            SupplementKind::Unknown => return None,
            SupplementKind::Tapering => 1,
            SupplementKind::OneBag => 2,
            SupplementKind::Alternate => 3,
            SupplementKind::Crushed => 4,
            SupplementKind::More => 5,
            SupplementKind::Site => 6,
            SupplementKind::Dose => 7,
            SupplementKind::Code(_) => 8,
            SupplementKind::SiteCode(_) => 9,
            SupplementKind::Other(number) => *number,
        })
    }

    /// Its supplementary code.
    pub const fn code(&self) -> Option<Supplement> {
        match self {
            SupplementKind::Code(code) => Some(*code),
            _ => None,
        }
    }

    /// The code of its site, perhaps empty.
    pub fn site(&self) -> Text<'a> {
        match self {
            SupplementKind::SiteCode(site) => *site,
            _ => Text::default(),
        }
    }

    /// Of what a record has; `None` for kind 8 without a code.
    pub(crate) fn of(number: u64, code: Option<Supplement>, site: Text<'a>) -> Option<SupplementKind<'a>> {
        Some(match number {
            0 => SupplementKind::Unknown,
            1 => SupplementKind::Tapering,
            2 => SupplementKind::OneBag,
            3 => SupplementKind::Alternate,
            4 => SupplementKind::Crushed,
            5 => SupplementKind::More,
            6 => SupplementKind::Site,
            7 => SupplementKind::Dose,
            8 => SupplementKind::Code(code?),
            9 => SupplementKind::SiteCode(site),
            number => SupplementKind::Other(u16::try_from(number).ok()?),
        })
    }
}

/// What a record 201 names (情報区分).
#[derive(Clone, Copy, Debug, PartialEq, Eq, PartialOrd, Ord, Hash)]
#[non_exhaustive]
#[repr(u8)]
pub enum DrugKind {
    /// A medicine (医薬品).
    Medicine = 1,
    /// Medical material (医療材料).
    Material = 2,
    /// A drug that no insurance pays (非保険薬).
    Uninsured = 3,
}

impl DrugKind {
    /// `Some(None)` where it is empty, `None` for a number that this crate does not know.
    pub(crate) fn of(number: u64) -> Option<Option<DrugKind>> {
        Some(match number {
            0 => None,
            1 => Some(DrugKind::Medicine),
            2 => Some(DrugKind::Material),
            3 => Some(DrugKind::Uninsured),
            _ => return None,
        })
    }
}

/// A drug's code (薬品コード), with its kind.
#[derive(Clone, Copy, Debug, Default, PartialEq, Eq, Hash)]
#[non_exhaustive]
pub enum DrugCode<'a> {
    /// 1, no code.
    #[default]
    None,
    /// 2, a code of the claims computer (レセプト電算コード).
    Claim(Text<'a>),
    /// 3, a code of the ministry (厚生省コード).
    Ministry(Text<'a>),
    /// 4, a YJ code.
    Yj(Text<'a>),
    /// 6, a HOT code.
    Hot(Text<'a>),
    /// 7, a generic name (一般名コード); the code may be empty.
    Generic(Text<'a>),
}

impl<'a> DrugCode<'a> {
    /// The number of its kind.
    pub const fn number(&self) -> u16 {
        match self {
            DrugCode::None => 1,
            DrugCode::Claim(_) => 2,
            DrugCode::Ministry(_) => 3,
            DrugCode::Yj(_) => 4,
            DrugCode::Hot(_) => 6,
            DrugCode::Generic(_) => 7,
        }
    }

    /// Its characters, perhaps none.
    pub fn text(&self) -> Text<'a> {
        match self {
            DrugCode::None => Text::default(),
            DrugCode::Claim(code)
            | DrugCode::Ministry(code)
            | DrugCode::Yj(code)
            | DrugCode::Hot(code)
            | DrugCode::Generic(code) => *code,
        }
    }

    /// Of what a record has; `None` for a kind that this crate does not know.
    pub(crate) fn of(number: u64, code: Text<'a>) -> Option<DrugCode<'a>> {
        Some(match number {
            1 => DrugCode::None,
            2 => DrugCode::Claim(code),
            3 => DrugCode::Ministry(code),
            4 => DrugCode::Yj(code),
            6 => DrugCode::Hot(code),
            7 => DrugCode::Generic(code),
            _ => return None,
        })
    }
}

/// What an amount counts (力価フラグ).
#[derive(Clone, Copy, Debug, Default, PartialEq, Eq, PartialOrd, Ord, Hash)]
#[non_exhaustive]
#[repr(u8)]
pub enum AmountOf {
    /// Units of the price list, as tablets (薬価単位).
    #[default]
    PriceUnit = 1,
    /// The active substance, as mg (力価単位).
    Potency = 2,
}

impl AmountOf {
    pub(crate) fn of(number: u64) -> Option<AmountOf> {
        [AmountOf::PriceUnit, AmountOf::Potency].into_iter().find(|of| *of as u64 == number)
    }
}
