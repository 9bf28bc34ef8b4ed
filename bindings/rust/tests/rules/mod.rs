//! A plain reading of the rules in docs/, for tests: a set of memberships, a list of grants, and chains listed one by one. It keeps no
//! counts and uses nothing of the library or its wrapper.
#![allow(dead_code)]

pub mod chains;
pub mod items;
pub mod list;
pub mod marks;

use chains::{Members, Way};
use items::{Equipment, Plan};
use marks::{Arrival, Mark};

/// A grant that stands; the sign is 0 for plus and 1 for minus.
#[derive(Clone, Copy, Debug, PartialEq, Eq)]
pub struct Grant {
    pub account: u32,
    pub item: u32,
    pub right: u32,
    pub sign: u32,
}

impl Grant {
    fn is_for(&self, account: u32, item: u32, right: u32) -> bool {
        self.account == account && self.item == item && self.right == right
    }
}

/// What a call gives; what it does not give is 0.
#[derive(Clone, Copy, Debug, Default, PartialEq, Eq)]
pub struct Reply {
    pub refusal: u32,
    pub sign: u32,
    pub distance: u64,
    pub plus: [u64; 15],
    pub minus: [u64; 15],
    pub default: [u64; 15],
    pub plus_total: u64,
    pub minus_total: u64,
}

/// What stands.
#[derive(Clone)]
pub struct Rules {
    pub accounts: u32,
    pub capacity: usize,
    pub members: Members,
    pub grants: Vec<Grant>,
    pub equipment: Equipment,
    way: Way,
}

/// The largest number from 0 to 64 whose table fits.
pub fn accounts_in(counts: usize) -> u32 {
    let mut n = 0;
    while n < 64 && (n + 1) * (n + 1) * 8 <= counts {
        n += 1;
    }
    n as u32
}

impl Rules {
    /// A book over so many counts and records. Chains are listed one by one, or counted over levels where there are too many.
    pub fn new(counts: usize, records: usize, way: Way) -> Rules {
        Rules {
            accounts: accounts_in(counts),
            capacity: records.min(512),
            members: Members::default(),
            grants: Vec::new(),
            equipment: Equipment::default(),
            way,
        }
    }

    pub fn join(&mut self, group: u32, member: u32) -> Result<(), u32> {
        if group >= self.accounts || member >= self.accounts {
            return Err(1);
        }
        if self.members.leads(member, group) {
            return Err(2);
        }
        if self.members.stands(group, member) {
            return Err(3);
        }
        let mut with = self.members.clone();
        with.add(group, member);
        let seen = with.seen(self.accounts, self.way);
        if seen.longest > 7 {
            return Err(4);
        }
        if seen.largest > 99_999 {
            return Err(5);
        }
        self.members = with;
        Ok(())
    }

    pub fn leave(&mut self, group: u32, member: u32) -> Result<(), u32> {
        if group >= self.accounts || member >= self.accounts {
            return Err(1);
        }
        if !self.members.stands(group, member) {
            return Err(6);
        }
        self.members.strike(group, member);
        Ok(())
    }

    fn ranges(&self, account: u32, item: u32, right: u32) -> Result<(), u32> {
        if account >= self.accounts {
            return Err(1);
        }
        if right > 7 {
            return Err(7);
        }
        if item > 255 {
            return Err(8);
        }
        Ok(())
    }

    pub fn give(&mut self, grant: Grant) -> Result<(), u32> {
        self.ranges(grant.account, grant.item, grant.right)?;
        if self.grants.iter().any(|g| g.is_for(grant.account, grant.item, grant.right)) {
            return Err(9);
        }
        if self.grants.len() >= self.capacity {
            return Err(10);
        }
        self.grants.push(grant);
        Ok(())
    }

    pub fn withdraw(&mut self, account: u32, item: u32, right: u32) -> Result<(), u32> {
        self.ranges(account, item, right)?;
        if !self.grants.iter().any(|g| g.is_for(account, item, right)) {
            return Err(11);
        }
        self.grants.retain(|g| !g.is_for(account, item, right));
        Ok(())
    }

    /// Every mark that reaches the question.
    pub fn listing(&self, account: u32, item: u32, right: u32, plan: Plan) -> Result<Vec<Arrival>, u32> {
        self.ranges(account, item, right)?;
        if !self.equipment.known(plan, item) {
            return Err(12);
        }
        let mut arrivals = Vec::new();
        let account_chains = self.members.chains_to(account, self.accounts, self.way);
        let item_chains = self.equipment.chains_to(plan, item);
        for grant in self.grants.iter().filter(|g| g.right == right) {
            let mark = if grant.sign == 0 { Mark::Plus } else { Mark::Minus };
            for over_items in item_chains.iter().filter(|c| c.top == grant.item) {
                for over_accounts in account_chains.iter().filter(|c| c.top == grant.account) {
                    let distance = over_accounts.length + over_items.length;
                    arrivals.push(Arrival { mark, distance, many: over_accounts.many });
                }
            }
        }
        let above = |item| item_chains.iter().any(|c| c.top == item);
        let labelled = |a| self.grants.iter().any(|g| g.account == a && g.right == right && above(g.item));
        for a in (0..self.accounts).filter(|a| self.members.groupless(*a) && !labelled(*a)) {
            for chain in account_chains.iter().filter(|c| c.top == a) {
                arrivals.push(Arrival { mark: Mark::Default, distance: chain.length, many: chain.many });
            }
        }
        Ok(arrivals)
    }

    pub fn ask(&self, account: u32, item: u32, right: u32, strategy: u32, plan: Plan) -> Result<Reply, u32> {
        let arrivals = self.listing(account, item, right, plan)?;
        let mut reply = Reply::default();
        for arrival in &arrivals {
            let row = match arrival.mark {
                Mark::Plus => &mut reply.plus,
                Mark::Minus => &mut reply.minus,
                Mark::Default => &mut reply.default,
            };
            row[arrival.distance] += arrival.many;
        }
        let decided = marks::resolve(strategy, &arrivals);
        reply.sign = decided.sign;
        reply.plus_total = decided.plus;
        reply.minus_total = decided.minus;
        Ok(reply)
    }

    pub fn least(&self, account: u32, item: u32, right: u32, sign: u32, plan: Plan) -> Result<Reply, u32> {
        let mark = if sign == 0 { Mark::Plus } else { Mark::Minus };
        let arrivals = self.listing(account, item, right, plan)?;
        let least = arrivals.iter().filter(|a| a.mark == mark).map(|a| a.distance as u64).min();
        Ok(Reply { distance: least.unwrap_or(255), ..Reply::default() })
    }

    /// Makes the call of a record: its kind, its plan and four numbers.
    pub fn call(&mut self, record: [u32; 6]) -> Reply {
        self.called(record).unwrap_or_else(|refusal| Reply { refusal, ..Reply::default() })
    }

    fn called(&mut self, record: [u32; 6]) -> Result<Reply, u32> {
        let [kind, plan, first, second, third, fourth] = record;
        let done = Reply::default();
        let container = |number: u32| if number == u32::MAX { None } else { Some(number) };
        if kind == 7 {
            return self.equipment.add(first, container(second), container(third)).map(|_| done);
        }
        let plan = match plan {
            0 => Plan::Channels,
            1 => Plan::Equipment,
            _ => return Err(255),
        };
        if matches!(kind, 2 | 6) && fourth > 1 || matches!(kind, 4 | 5) && fourth > 47 {
            return Err(255);
        }
        match kind {
            0 => self.join(first, second).map(|_| done),
            1 => self.leave(first, second).map(|_| done),
            2 => self.give(Grant { account: first, item: second, right: third, sign: fourth }).map(|_| done),
            3 => self.withdraw(first, second, third).map(|_| done),
            4 | 5 => self.ask(first, second, third, fourth, plan),
            6 => self.least(first, second, third, fourth, plan),
            _ => Err(255),
        }
    }

    /// The table of counts: how many chains of length k lead from a down to s, at place (a × N + s) × 8 + k.
    pub fn table(&self, way: Way) -> Vec<u32> {
        self.members.table(self.accounts, way)
    }
}
