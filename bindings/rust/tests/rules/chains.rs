//! Memberships and the chains over them.

use std::collections::BTreeSet;

/// How chains are counted: listed one by one, or summed over levels on charts that have too many to list.
#[derive(Clone, Copy, Debug, PartialEq, Eq)]
pub enum Way {
    Listed,
    Levels,
}

/// The memberships that stand, each a group and a member.
#[derive(Clone, Debug, Default)]
pub struct Members(BTreeSet<(u32, u32)>);

/// Chains down to an account: their upper end, their length, and how many (1 where they are listed).
pub struct Chain {
    pub top: u32,
    pub length: usize,
    pub many: u64,
}

/// The length of the longest chain, and the largest number of chains of one length between two accounts.
pub struct Seen {
    pub longest: usize,
    pub largest: u64,
}

impl Members {
    pub fn add(&mut self, group: u32, member: u32) {
        self.0.insert((group, member));
    }

    pub fn strike(&mut self, group: u32, member: u32) {
        self.0.remove(&(group, member));
    }

    pub fn stands(&self, group: u32, member: u32) -> bool {
        self.0.contains(&(group, member))
    }

    pub fn all(&self) -> impl Iterator<Item = (u32, u32)> + '_ {
        self.0.iter().copied()
    }

    pub fn len(&self) -> usize {
        self.0.len()
    }

    fn of_group(&self, group: u32) -> impl Iterator<Item = u32> + '_ {
        self.0.range((group, 0)..=(group, u32::MAX)).map(|pair| pair.1)
    }

    fn groups_of(&self, member: u32) -> impl Iterator<Item = u32> + '_ {
        self.0.iter().filter(move |pair| pair.1 == member).map(|pair| pair.0)
    }

    pub fn groupless(&self, account: u32) -> bool {
        self.groups_of(account).next().is_none()
    }

    /// Does a chain lead from a down to s? There is one of length 0 from each account to itself.
    pub fn leads(&self, a: u32, s: u32) -> bool {
        let (mut reached, mut next) = (BTreeSet::from([a]), vec![a]);
        while let Some(account) = next.pop() {
            next.extend(self.of_group(account).filter(|member| reached.insert(*member)));
        }
        reached.contains(&s)
    }

    /// Lists the chains that begin with the path, one by one.
    fn each_from(&self, path: &mut Vec<u32>, see: &mut impl FnMut(&[u32])) {
        see(path);
        for member in self.of_group(path[path.len() - 1]) {
            path.push(member);
            self.each_from(path, see);
            path.pop();
        }
    }

    /// Lists the chains that end with the path, which goes upwards, one by one.
    fn each_to(&self, path: &mut Vec<u32>, see: &mut impl FnMut(&[u32])) {
        see(path);
        for group in self.groups_of(path[path.len() - 1]) {
            path.push(group);
            self.each_to(path, see);
            path.pop();
        }
    }

    /// How many chains of each length up to 8 lead down to s from each account, summed over levels.
    fn levels_to(&self, s: u32, accounts: u32) -> Vec<Vec<u64>> {
        let mut level = vec![0; accounts as usize];
        level[s as usize] = 1;
        let mut levels = vec![level];
        for k in 0..8 {
            let mut above = vec![0; accounts as usize];
            for (group, member) in self.all() {
                above[group as usize] += levels[k][member as usize];
            }
            levels.push(above);
        }
        levels
    }

    /// All chains down to s.
    pub fn chains_to(&self, s: u32, accounts: u32, way: Way) -> Vec<Chain> {
        let mut chains = Vec::new();
        match way {
            Way::Listed => self.each_to(&mut vec![s], &mut |path| {
                chains.push(Chain { top: path[path.len() - 1], length: path.len() - 1, many: 1 });
            }),
            Way::Levels => {
                for (length, level) in self.levels_to(s, accounts).into_iter().enumerate() {
                    for (top, many) in (0..).zip(level) {
                        if many > 0 {
                            chains.push(Chain { top, length, many });
                        }
                    }
                }
            }
        }
        chains
    }

    /// The longest chain and the largest count. The memberships have no circle.
    pub fn seen(&self, accounts: u32, way: Way) -> Seen {
        let mut seen = Seen { longest: 0, largest: 0 };
        for account in 0..accounts {
            match way {
                Way::Listed => {
                    let mut counts = vec![[0u64; 16]; accounts as usize];
                    self.each_from(&mut vec![account], &mut |path| {
                        let length = path.len() - 1;
                        let count = &mut counts[path[length] as usize][length];
                        *count += 1;
                        seen.longest = seen.longest.max(length);
                        seen.largest = seen.largest.max(*count);
                    });
                }
                Way::Levels => {
                    for (length, level) in self.levels_to(account, accounts).iter().enumerate() {
                        let most = level.iter().copied().max().unwrap_or(0);
                        if most > 0 {
                            seen.longest = seen.longest.max(length);
                        }
                        seen.largest = seen.largest.max(most);
                    }
                }
            }
        }
        seen
    }

    /// How many chains of each length from 0 to 7 there are from each account to each. None is longer.
    pub fn table(&self, accounts: u32, way: Way) -> Vec<u32> {
        let n = accounts as usize;
        let mut table = vec![0u32; n * n * 8];
        match way {
            Way::Listed => {
                for a in 0..accounts {
                    self.each_from(&mut vec![a], &mut |path| {
                        let length = path.len() - 1;
                        table[(a as usize * n + path[length] as usize) * 8 + length] += 1;
                    });
                }
            }
            Way::Levels => {
                for s in 0..accounts {
                    for (k, level) in self.levels_to(s, accounts).iter().take(8).enumerate() {
                        for (a, count) in level.iter().enumerate() {
                            table[(a * n + s as usize) * 8 + k] = *count as u32;
                        }
                    }
                }
            }
        }
        table
    }
}
