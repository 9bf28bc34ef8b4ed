//! Signs.

use std::fmt;

/// A yes or a no.
#[derive(Clone, Copy, Debug, PartialEq, Eq, Hash, PartialOrd, Ord)]
pub enum Sign {
    /// A yes.
    Plus,
    /// A no.
    Minus,
}

impl Sign {
    /// 0 for plus, 1 for minus.
    pub const fn number(self) -> u32 {
        match self {
            Sign::Plus => 0,
            Sign::Minus => 1,
        }
    }

    /// The sign with the number, if there is one.
    pub const fn numbered(number: u32) -> Option<Sign> {
        match number {
            0 => Some(Sign::Plus),
            1 => Some(Sign::Minus),
            _ => None,
        }
    }
}

impl fmt::Display for Sign {
    fn fmt(&self, f: &mut fmt::Formatter<'_>) -> fmt::Result {
        f.write_str(match self {
            Sign::Plus => "+",
            Sign::Minus => "-",
        })
    }
}
