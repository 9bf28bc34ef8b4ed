//! Refusals.

use std::fmt;

/// Why a call was refused, or what is wrong with a line of an access list. Checks are made in the order of the numbers, except that
/// [`Refusal::NoSuchCall`] comes before all others; a refused call changes nothing.
#[derive(Clone, Copy, Debug, PartialEq, Eq, Hash, PartialOrd, Ord)]
#[repr(u8)]
pub enum Refusal {
    /// 1: an account number is N or more.
    UnknownAccount = 1,
    /// 2: a chain leads from the member down to the group.
    Circle = 2,
    /// 3: the membership stands.
    MemberStands = 3,
    /// 4: a chain would be longer than 7.
    ChainTooLong = 4,
    /// 5: a count would pass 99,999.
    CountTooLarge = 5,
    /// 6: the membership does not stand.
    NotAMember = 6,
    /// 7: the right is above 7.
    NoSuchRight = 7,
    /// 8: the item is above 255.
    NoSuchItem = 8,
    /// 9: a grant stands for the account, the item and the right.
    GrantStands = 9,
    /// 10: as many grants stand as the capacity.
    BookFull = 10,
    /// 11: no such grant stands.
    NoSuchGrant = 11,
    /// 12: the plan does not know the item.
    ItemUnknown = 12,
    /// 13: the item is not the next number of the equipment table, or is 256.
    NotNext = 13,
    /// 14: a container is not known, or both are equal.
    BadContainer = 14,
    /// 15: the item's height would be 8.
    TooHigh = 15,
    /// 16: no strategy has the name. In access lists only, as all up to 21.
    NoSuchName = 16,
    /// 17: the line is not 18 bytes.
    LineLength = 17,
    /// 18: the letter is none of the seven.
    NoSuchLetter = 18,
    /// 19: a field is not a right-justified number.
    NotANumber = 19,
    /// 20: a column that must be blank is not, or a sign is neither `+` nor `-`.
    NotBlank = 20,
    /// 21: the text has more than 57,000 bytes.
    TextTooLong = 21,
    /// 255: the record is no call. A [`crate::Call`] is always one.
    NoSuchCall = 255,
}

impl Refusal {
    /// All refusals, in the order of their numbers.
    pub const ALL: [Refusal; 22] = [
        Refusal::UnknownAccount,
        Refusal::Circle,
        Refusal::MemberStands,
        Refusal::ChainTooLong,
        Refusal::CountTooLarge,
        Refusal::NotAMember,
        Refusal::NoSuchRight,
        Refusal::NoSuchItem,
        Refusal::GrantStands,
        Refusal::BookFull,
        Refusal::NoSuchGrant,
        Refusal::ItemUnknown,
        Refusal::NotNext,
        Refusal::BadContainer,
        Refusal::TooHigh,
        Refusal::NoSuchName,
        Refusal::LineLength,
        Refusal::NoSuchLetter,
        Refusal::NotANumber,
        Refusal::NotBlank,
        Refusal::TextTooLong,
        Refusal::NoSuchCall,
    ];

    /// Its number, 1 to 21 or 255.
    pub const fn number(self) -> u32 {
        self as u32
    }

    /// The refusal with the number, if there is one.
    pub fn numbered(number: u32) -> Option<Refusal> {
        Refusal::ALL.into_iter().find(|refusal| refusal.number() == number)
    }

    /// What it says.
    pub const fn meaning(self) -> &'static str {
        match self {
            Refusal::UnknownAccount => "an account is not known",
            Refusal::Circle => "a chain leads from the member down to the group",
            Refusal::MemberStands => "the membership stands",
            Refusal::ChainTooLong => "a chain would be longer than 7",
            Refusal::CountTooLarge => "a count would pass 99,999",
            Refusal::NotAMember => "the membership does not stand",
            Refusal::NoSuchRight => "the right is above 7",
            Refusal::NoSuchItem => "the item is above 255",
            Refusal::GrantStands => "a grant stands for the account, the item and the right",
            Refusal::BookFull => "as many grants stand as the capacity",
            Refusal::NoSuchGrant => "no such grant stands",
            Refusal::ItemUnknown => "the plan does not know the item",
            Refusal::NotNext => "the item is not the next number, or is 256",
            Refusal::BadContainer => "a container is not known, or both are equal",
            Refusal::TooHigh => "the item's height would be 8",
            Refusal::NoSuchName => "no strategy has the name",
            Refusal::LineLength => "the line is not 18 bytes",
            Refusal::NoSuchLetter => "the letter is none of the seven",
            Refusal::NotANumber => "a field is not a right-justified number",
            Refusal::NotBlank => "a column that must be blank is not, or a sign is neither + nor -",
            Refusal::TextTooLong => "the text has more than 57,000 bytes",
            Refusal::NoSuchCall => "the record is no call",
        }
    }
}

impl fmt::Display for Refusal {
    fn fmt(&self, f: &mut fmt::Formatter<'_>) -> fmt::Result {
        write!(f, "{}: {}", self.number(), self.meaning())
    }
}

impl std::error::Error for Refusal {}
