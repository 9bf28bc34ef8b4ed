//! A small generator of random numbers with a fixed seed, and of random calls: good and bad, with numbers around every limit.
#![allow(dead_code)]

use crate::rules::Rules;

/// xorshift with 64 bits.
pub struct Chance(u64);

impl Chance {
    pub fn new(seed: u64) -> Chance {
        let mut chance = Chance(seed.wrapping_mul(0x9E37_79B9_7F4A_7C15) | 1);
        for _ in 0..8 {
            chance.next();
        }
        chance
    }

    pub fn next(&mut self) -> u64 {
        self.0 ^= self.0 << 13;
        self.0 ^= self.0 >> 7;
        self.0 ^= self.0 << 17;
        self.0
    }

    /// A number below the limit; 0 where the limit is 0.
    pub fn below(&mut self, limit: u32) -> u32 {
        if limit == 0 { 0 } else { ((self.next() >> 16) % u64::from(limit)) as u32 }
    }

    /// True so many times of a hundred.
    pub fn percent(&mut self, part: u32) -> bool {
        self.below(100) < part
    }

    pub fn pick<T: Copy>(&mut self, from: &[T]) -> T {
        from[self.below(from.len() as u32) as usize]
    }

    /// A place by weights.
    pub fn weighted(&mut self, weights: &[u32]) -> usize {
        let mut left = self.below(weights.iter().sum());
        for (place, weight) in weights.iter().enumerate() {
            if left < *weight {
                return place;
            }
            left -= weight;
        }
        0
    }

    pub fn shuffle<T>(&mut self, list: &mut [T]) {
        for i in (1..list.len()).rev() {
            list.swap(i, self.below(i as u32 + 1) as usize);
        }
    }
}

/// What the calls of a list are like.
#[derive(Clone, Debug)]
pub struct Habits {
    /// Weights of the kinds 0 to 7, and last of none of these.
    pub kinds: [u32; 9],
    /// Most accounts are below this.
    pub accounts: u32,
    /// Most joins have a member with a higher number than the group, and at most so much higher.
    pub step: u32,
    /// Most items are below this.
    pub items: u32,
    /// Most rights are below this.
    pub rights: u32,
    /// More memberships than these are rarely made.
    pub memberships: usize,
    /// How many of a hundred numbers are out of range, or nearly so.
    pub odd: u32,
    /// How many of a hundred items of the equipment table lie in the one before.
    pub tall: u32,
}

impl Habits {
    pub fn any(chance: &mut Chance, accounts: u32) -> Habits {
        let used = chance.pick(&[2, 4, 6, 8, 10, 12, 16, 24, 64]).min(accounts.max(1));
        Habits {
            kinds: [24, 7, 20, 6, 14, 9, 8, 10, 2],
            accounts: used,
            step: chance.pick(&[1, 2, 3, 64]),
            items: chance.pick(&[3, 6, 12, 40, 256]),
            rights: chance.pick(&[1, 2, 8]),
            memberships: chance.pick(&[5, 12, 18, 24, 30]).min(used as usize * 2),
            odd: chance.pick(&[0, 1, 3, 10]),
            tall: chance.pick(&[10, 40, 80]),
        }
    }

    fn account(&self, chance: &mut Chance, rules: &Rules) -> u32 {
        let n = rules.accounts;
        if chance.percent(self.odd) {
            let odd = [0, n.wrapping_sub(1), n, n + 1, 31, 32, 63, 64, 65, 255, 256, 1 << 16, 1 << 31, u32::MAX];
            return chance.pick(&odd);
        }
        chance.below(self.accounts.min(n))
    }

    fn item(&self, chance: &mut Chance, rules: &Rules) -> u32 {
        if chance.percent(self.odd) {
            return chance.pick(&[0, 1, 2, 3, 127, 128, 254, 255, 256, 257, 511, 512, 1 << 16, (1 << 31) + 1, u32::MAX]);
        }
        if !rules.grants.is_empty() && chance.percent(40) {
            let below = rules.grants[chance.below(rules.grants.len() as u32) as usize].item;
            return chance.pick(&[below, below, below * 2, below * 2 + 1, below * 4, below / 2, below + 1]).min(255);
        }
        chance.below(self.items)
    }

    fn right(&self, chance: &mut Chance) -> u32 {
        if chance.percent(self.odd) {
            return chance.pick(&[0, 6, 7, 8, 9, 15, 255, 256, 1 << 31, u32::MAX]);
        }
        chance.below(self.rights)
    }

    /// The number of one of so many, or one past them.
    fn one_of(&self, chance: &mut Chance, many: u32) -> u32 {
        if chance.percent(self.odd.min(3)) {
            return chance.pick(&[many - 1, many, many + 1, 255, 256, 1 << 31, u32::MAX]);
        }
        chance.below(many)
    }

    fn membership(&self, chance: &mut Chance, rules: &Rules, standing: u32) -> [u32; 2] {
        let many = rules.members.len() as u32;
        if many > 0 && chance.percent(standing) {
            let place = chance.below(many) as usize;
            let (group, member) = rules.members.all().nth(place).unwrap_or((0, 0));
            return if chance.percent(85) { [group, member] } else { [member, group] };
        }
        let group = self.account(chance, rules);
        if chance.percent(85) && group < rules.accounts {
            let member = group + 1 + chance.below(self.step);
            return [group, member.min(self.accounts.saturating_sub(1))];
        }
        [group, self.account(chance, rules)]
    }

    /// An account, an item and a right, of a grant that stands so many times of a hundred.
    fn place(&self, chance: &mut Chance, rules: &Rules, standing: u32) -> [u32; 3] {
        if !rules.grants.is_empty() && chance.percent(standing) {
            let grant = rules.grants[chance.below(rules.grants.len() as u32) as usize];
            return [grant.account, grant.item, grant.right];
        }
        [self.account(chance, rules), self.item(chance, rules), self.right(chance)]
    }

    /// An item for the equipment table and its containers.
    fn equip(&self, chance: &mut Chance, rules: &Rules) -> [u32; 3] {
        let next = rules.equipment.next();
        let item = if chance.percent(5) { chance.pick(&[0, next + 1, next.wrapping_sub(1), 255, 256, 257, u32::MAX]) } else { next };
        let container = |chance: &mut Chance| match chance.below(100) {
            0..=4 => chance.pick(&[next, next + 1, 255, 256, u32::MAX - 1]),
            5..=34 => u32::MAX,
            _ if chance.percent(self.tall) => next.saturating_sub(1 + chance.below(2)),
            _ => chance.below(next.max(1)),
        };
        let (first, second) = (container(chance), container(chance));
        [item, first, if chance.percent(3) { first } else { second }]
    }

    /// A call, given what stands. What its kind does not use is rubbish.
    pub fn call(&self, chance: &mut Chance, rules: &Rules) -> [u32; 6] {
        let mut kind = chance.weighted(&self.kinds) as u32;
        if kind == 0 && rules.members.len() >= self.memberships && chance.percent(80) {
            kind = chance.pick(&[1, 4, 5, 6]);
        }
        let rubbish = |chance: &mut Chance| chance.next() as u32;
        let plan = self.one_of(chance, 2);
        let any = [rubbish(chance), rubbish(chance), rubbish(chance), rubbish(chance)];
        match kind {
            0 | 1 => {
                let [group, member] = self.membership(chance, rules, if kind == 0 { 12 } else { 75 });
                [kind, plan, group, member, any[2], any[3]]
            }
            2 | 3 => {
                let [account, item, right] = self.place(chance, rules, if kind == 2 { 8 } else { 75 });
                let sign = self.one_of(chance, 2);
                [kind, plan, account, item, right, if kind == 2 { sign } else { any[3] }]
            }
            4..=6 => {
                let [account, item, right] = [self.account(chance, rules), self.item(chance, rules), self.right(chance)];
                let item = if plan == 1 && chance.percent(80) { item.min(rules.equipment.next().saturating_sub(1)) } else { item };
                [kind, plan, account, item, right, self.one_of(chance, if kind == 6 { 2 } else { 48 })]
            }
            7 => {
                let [item, first, second] = self.equip(chance, rules);
                [kind, any[0], item, first, second, any[3]]
            }
            _ => [chance.pick(&[8, 9, 10, 255, 256, 1 << 31, u32::MAX]), plan, any[0] % 64, any[1] % 64, any[2] % 8, any[3] % 2],
        }
    }
}
