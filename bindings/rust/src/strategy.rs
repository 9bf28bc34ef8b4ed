//! Strategies.

use std::fmt;

/// The names in the order of the numbers.
const NAMES: [&str; 48] = [
    "P+", "P-", "MP+", "MP-", "LP+", "LP-", "MLP+", "MLP-", "LMP+", "LMP-", "GP+", "GP-", "MGP+", "MGP-", "GMP+", "GMP-", "D+P+", "D+P-",
    "D+MP+", "D+MP-", "D+LP+", "D+LP-", "D+MLP+", "D+MLP-", "D+LMP+", "D+LMP-", "D+GP+", "D+GP-", "D+MGP+", "D+MGP-", "D+GMP+", "D+GMP-",
    "D-P+", "D-P-", "D-MP+", "D-MP-", "D-LP+", "D-LP-", "D-MLP+", "D-MLP-", "D-LMP+", "D-LMP-", "D-GP+", "D-GP-", "D-MGP+", "D-MGP-",
    "D-GMP+", "D-GMP-",
];

/// One of the forty-eight strategies, by which the marks that reach a question become one sign.
#[derive(Clone, Copy, Debug, PartialEq, Eq, Hash, PartialOrd, Ord)]
pub struct Strategy(u8);

impl Strategy {
    /// How many strategies there are.
    pub const COUNT: u32 = 48;

    /// The strategy with the number, 0 to 47.
    pub const fn numbered(number: u32) -> Option<Strategy> {
        if number < Strategy::COUNT { Some(Strategy(number as u8)) } else { None }
    }

    /// The strategy with the name, as `MP-` or `D+MLP-`.
    pub fn named(name: &str) -> Option<Strategy> {
        NAMES.iter().zip(0..).find(|(known, _)| **known == name).map(|(_, number)| Strategy(number))
    }

    /// Its number, 0 to 47.
    pub const fn number(self) -> u32 {
        self.0 as u32
    }

    /// Its name.
    pub fn name(self) -> &'static str {
        NAMES.get(usize::from(self.0)).copied().unwrap_or("")
    }

    /// All strategies in the order of their numbers.
    pub fn all() -> impl Iterator<Item = Strategy> {
        (0..Strategy::COUNT).filter_map(Strategy::numbered)
    }
}

impl fmt::Display for Strategy {
    fn fmt(&self, f: &mut fmt::Formatter<'_>) -> fmt::Result {
        f.write_str(self.name())
    }
}
