//! The charts that are measured: eight levels of accounts, each account of a level a member of each of the level above, as far as the
//! limits allow; and grants spread over accounts, rights and the items above channel 255.

use crate::records::CallRecord;

pub const JOIN: u32 = 0;
pub const LEAVE: u32 = 1;
pub const GIVE: u32 = 2;
pub const QUICK: u32 = 4;
pub const WALKED: u32 = 5;
pub const LEAST: u32 = 6;

/// The item asked about, and those above it: each lies in half its number.
pub const ITEMS: [u32; 8] = [255, 127, 63, 31, 15, 7, 3, 1];

/// The right asked about.
pub const RIGHT: u32 = 4;

/// A small generator of numbers, so that a run can be repeated.
pub struct Random(u64);

impl Random {
    pub fn new(seed: u64) -> Random {
        Random(seed.wrapping_mul(0x9e37_79b9_7f4a_7c15) | 1)
    }

    pub fn below(&mut self, n: u32) -> u32 {
        self.0 ^= self.0 << 13;
        self.0 ^= self.0 >> 7;
        self.0 ^= self.0 << 17;
        ((self.0 >> 32) * n as u64 >> 32) as u32
    }
}

pub fn call(kind: u32, numbers: [u32; 4]) -> CallRecord {
    CallRecord {
        kind,
        plan: 0,
        first: numbers[0],
        second: numbers[1],
        third: numbers[2],
        fourth: numbers[3],
    }
}

/// The memberships of a full chart: every account of a level in every account of the level above.
pub fn full(accounts: u32) -> Vec<(u32, u32)> {
    let width = accounts / 8;
    let mut pairs = Vec::new();
    for level in 0..7 {
        for p in level * width..(level + 1) * width {
            for c in (level + 1) * width..(level + 2) * width {
                pairs.push((p, c));
            }
        }
    }
    pairs
}

/// Different grants in a fixed random order: account, item, right, sign.
pub fn grants(accounts: u32, many: usize) -> Vec<(u32, u32, u32, u32)> {
    let mut random = Random::new(7);
    let mut all = Vec::new();
    for account in 0..accounts {
        for item in ITEMS {
            for right in 0..8 {
                all.push((account, item, right, random.below(2)));
            }
        }
    }
    for i in (1..all.len()).rev() {
        all.swap(i, random.below(i as u32 + 1) as usize);
    }
    all.truncate(many);
    all
}

/// Questions of a kind, about random accounts of the lower half and the deepest item.
pub fn questions(kind: u32, accounts: u32, many: usize) -> Vec<CallRecord> {
    let mut random = Random::new(11);
    (0..many)
        .map(|_| {
            let account = accounts / 2 + random.below(accounts - accounts / 2);
            let last = if kind == LEAST { random.below(2) } else { random.below(48) };
            call(kind, [account, ITEMS[0], RIGHT, last])
        })
        .collect()
}
