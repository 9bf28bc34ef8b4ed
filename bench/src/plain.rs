//! The same algorithm, written plainly in Rust: what a programmer would write who trusts tests. Nothing here is proved.

use crate::records::{CallRecord, GrantRecord, ReplyRecord, Run};

const LENGTHS: usize = 8;
const DISTANCES: usize = 15;
const MOST: usize = 64;
const CAP: u64 = 1_000_000_000_000;

#[derive(Clone, Copy, PartialEq)]
enum Sign {
    Plus,
    Minus,
}

#[derive(Clone, Copy)]
struct Grant {
    account: u32,
    item: u32,
    right: u32,
    sign: Sign,
}

#[derive(Clone, Copy, PartialEq)]
enum DefaultRule {
    Dropped,
    Counts(Sign),
}

#[derive(Clone, Copy, PartialEq)]
enum Locality {
    Anywhere,
    Nearest,
    Farthest,
}

#[derive(Clone, Copy, PartialEq)]
enum Majority {
    Skipped,
    Before,
    After,
}

#[derive(Clone, Copy)]
struct Strategy {
    default: DefaultRule,
    locality: Locality,
    majority: Majority,
    preferred: Sign,
}

impl Strategy {
    fn numbered(number: u32) -> Option<Strategy> {
        if number >= 48 {
            return None;
        }
        let (locality, majority) = match number / 2 % 8 {
            0 => (Locality::Anywhere, Majority::Skipped),
            1 => (Locality::Anywhere, Majority::Before),
            2 => (Locality::Nearest, Majority::Skipped),
            3 => (Locality::Nearest, Majority::Before),
            4 => (Locality::Nearest, Majority::After),
            5 => (Locality::Farthest, Majority::Skipped),
            6 => (Locality::Farthest, Majority::Before),
            _ => (Locality::Farthest, Majority::After),
        };
        Some(Strategy {
            default: match number / 16 {
                0 => DefaultRule::Dropped,
                1 => DefaultRule::Counts(Sign::Plus),
                _ => DefaultRule::Counts(Sign::Minus),
            },
            locality,
            majority,
            preferred: if number % 2 == 0 { Sign::Plus } else { Sign::Minus },
        })
    }
}

/// A plan of items.
trait Plan {
    fn known(&self, item: u32) -> bool;
    fn containers(&self, item: u32) -> usize;
    fn container(&self, item: u32, k: usize) -> Option<u32>;
}

struct Channels;

impl Plan for Channels {
    fn known(&self, item: u32) -> bool {
        0 < item && item < 256
    }

    fn containers(&self, item: u32) -> usize {
        (1 < item && item < 256) as usize
    }

    fn container(&self, item: u32, k: usize) -> Option<u32> {
        if k < self.containers(item) {
            Some(item / 2)
        } else {
            None
        }
    }
}

#[derive(Clone, Copy, Default)]
struct Place {
    first: Option<u32>,
    second: Option<u32>,
    height: u32,
}

struct Equipment {
    places: [Place; 256],
    filled: u32,
}

impl Equipment {
    fn new() -> Equipment {
        Equipment {
            places: [Place::default(); 256],
            filled: 0,
        }
    }

    fn height_in(&self, container: Option<u32>) -> u32 {
        container.map_or(0, |c| self.places[c as usize].height + 1)
    }

    fn add(&mut self, item: u32, first: Option<u32>, second: Option<u32>) -> Result<(), u32> {
        if item != self.filled || item == 256 {
            return Err(13);
        }
        let lacks = |c: Option<u32>| c.is_some_and(|c| c >= self.filled);
        if lacks(first) || lacks(second) || (first.is_some() && first == second) {
            return Err(14);
        }
        let height = self.height_in(first).max(self.height_in(second));
        if height > 7 {
            return Err(15);
        }
        self.places[item as usize] = Place { first, second, height };
        self.filled += 1;
        Ok(())
    }
}

impl Plan for Equipment {
    fn known(&self, item: u32) -> bool {
        item < self.filled
    }

    fn containers(&self, item: u32) -> usize {
        if item >= self.filled {
            return 0;
        }
        let place = &self.places[item as usize];
        place.first.is_some() as usize + place.second.is_some() as usize
    }

    fn container(&self, item: u32, k: usize) -> Option<u32> {
        if item >= self.filled {
            return None;
        }
        let place = &self.places[item as usize];
        match (place.first, k) {
            (Some(first), 0) => Some(first),
            (Some(_), 1) => place.second,
            (None, 0) => place.second,
            _ => None,
        }
    }
}

type ItemCounts = [[u32; LENGTHS]; 256];

/// How many chains of each length lead down to the item, from every item.
fn item_counts<P: Plan>(plan: &P, o: u32) -> ItemCounts {
    let mut counts = [[0; LENGTHS]; 256];
    let mut reached = [false; 256];
    counts[o as usize][0] = 1;
    reached[o as usize] = true;
    for item in (0..=o).rev() {
        if !reached[item as usize] {
            continue;
        }
        for k in 0..plan.containers(item) {
            if let Some(container) = plan.container(item, k) {
                for length in 0..LENGTHS - 1 {
                    counts[container as usize][length + 1] += counts[item as usize][length];
                }
                reached[container as usize] = true;
            }
        }
    }
    counts
}

#[derive(Clone, Copy, Default, PartialEq)]
struct Rows {
    plus: [u64; DISTANCES],
    minus: [u64; DISTANCES],
    default: [u64; DISTANCES],
}

struct Answer {
    sign: Sign,
    rows: Rows,
    plus_total: u64,
    minus_total: u64,
}

struct Book<'a> {
    counts: &'a mut [u32],
    accounts: usize,
    groups: [u8; MOST],
    grants: &'a mut [Grant],
    standing: usize,
}

impl<'a> Book<'a> {
    fn make(counts: &'a mut [u32], grants: &'a mut [Grant]) -> Book<'a> {
        let mut accounts = 0;
        while accounts < MOST && (accounts + 1) * (accounts + 1) * LENGTHS <= counts.len() {
            accounts += 1;
        }
        counts[..accounts * accounts * LENGTHS].fill(0);
        for a in 0..accounts {
            counts[(a * accounts + a) * LENGTHS] = 1;
        }
        Book {
            counts,
            accounts,
            groups: [0; MOST],
            grants,
            standing: 0,
        }
    }

    fn row(&self, a: usize, s: usize) -> &[u32; LENGTHS] {
        let at = (a * self.accounts + s) * LENGTHS;
        self.counts[at..at + LENGTHS].try_into().unwrap()
    }

    fn stands(&self, group: usize, member: usize) -> bool {
        self.row(group, member)[1] > 0
    }

    fn leads(&self, a: usize, s: usize, least: usize) -> bool {
        self.row(a, s)[least..].iter().any(|c| *c > 0)
    }

    fn too_long(&self, p: usize, c: usize) -> bool {
        let mut longest = 0;
        for s in 0..self.accounts {
            let row = self.row(c, s);
            let mut k = 7;
            while k > longest && row[k] == 0 {
                k -= 1;
            }
            longest = k;
        }
        (0..self.accounts).any(|a| self.leads(a, p, 7 - longest))
    }

    fn through(up: &[u32; LENGTHS], down: &[u32; LENGTHS], k: usize) -> u64 {
        (0..k).map(|i| up[i] as u64 * down[k - 1 - i] as u64).sum()
    }

    fn too_many(&self, p: usize, c: usize) -> bool {
        for a in 0..self.accounts {
            if !self.leads(a, p, 0) {
                continue;
            }
            let up = self.row(a, p);
            for s in 0..self.accounts {
                if !self.leads(c, s, 0) {
                    continue;
                }
                let down = self.row(c, s);
                let row = self.row(a, s);
                for k in 1..LENGTHS {
                    if row[k] as u64 + Self::through(up, down, k) > 99_999 {
                        return true;
                    }
                }
            }
        }
        false
    }

    fn change(&mut self, p: usize, c: usize, add: bool) {
        let n = self.accounts;
        for a in 0..n {
            if !self.leads(a, p, 0) {
                continue;
            }
            let up = *self.row(a, p);
            for s in 0..n {
                if !self.leads(c, s, 0) {
                    continue;
                }
                let down = *self.row(c, s);
                let at = (a * n + s) * LENGTHS;
                for k in 1..LENGTHS {
                    let past = Self::through(&up, &down, k);
                    let count = self.counts[at + k] as u64;
                    self.counts[at + k] = if add { count + past } else { count - past } as u32;
                }
            }
        }
        self.groups[c] = if add { self.groups[c] + 1 } else { self.groups[c] - 1 };
    }

    fn join(&mut self, group: u32, member: u32) -> Result<(), u32> {
        let (p, c) = (group as usize, member as usize);
        if p >= self.accounts || c >= self.accounts {
            return Err(1);
        }
        if self.leads(c, p, 0) {
            return Err(2);
        }
        if self.stands(p, c) {
            return Err(3);
        }
        if self.too_long(p, c) {
            return Err(4);
        }
        if self.too_many(p, c) {
            return Err(5);
        }
        self.change(p, c, true);
        Ok(())
    }

    fn leave(&mut self, group: u32, member: u32) -> Result<(), u32> {
        let (p, c) = (group as usize, member as usize);
        if p >= self.accounts || c >= self.accounts {
            return Err(1);
        }
        if !self.stands(p, c) {
            return Err(6);
        }
        self.change(p, c, false);
        Ok(())
    }

    fn place_of(&self, account: u32, item: u32, right: u32) -> Option<usize> {
        self.grants[..self.standing]
            .iter()
            .position(|g| g.account == account && g.item == item && g.right == right)
    }

    fn check_grant(&self, account: u32, item: u32, right: u32) -> Result<(), u32> {
        if account as usize >= self.accounts {
            return Err(1);
        }
        if right > 7 {
            return Err(7);
        }
        if item > 255 {
            return Err(8);
        }
        Ok(())
    }

    fn give(&mut self, grant: Grant) -> Result<(), u32> {
        self.check_grant(grant.account, grant.item, grant.right)?;
        if self.place_of(grant.account, grant.item, grant.right).is_some() {
            return Err(9);
        }
        if self.standing >= self.grants.len().min(512) {
            return Err(10);
        }
        self.grants[self.standing] = grant;
        self.standing += 1;
        Ok(())
    }

    fn withdraw(&mut self, account: u32, item: u32, right: u32) -> Result<(), u32> {
        self.check_grant(account, item, right)?;
        let at = self.place_of(account, item, right).ok_or(11u32)?;
        self.grants.copy_within(at + 1..self.standing, at);
        self.standing -= 1;
        Ok(())
    }

    fn admit<P: Plan>(&self, plan: &P, account: u32, item: u32, right: u32) -> Result<(), u32> {
        self.check_grant(account, item, right)?;
        if !plan.known(item) {
            return Err(12);
        }
        Ok(())
    }

    fn quick<P: Plan>(&self, plan: &P, account: u32, item: u32, right: u32, strategy: Strategy) -> Result<Answer, u32> {
        self.admit(plan, account, item, right)?;
        let s = account as usize;
        let items = item_counts(plan, item);
        let mut rows = Rows::default();
        let mut held = [false; MOST];
        for grant in &self.grants[..self.standing] {
            if grant.right != right {
                continue;
            }
            let lengths = &items[grant.item as usize];
            if lengths.iter().all(|c| *c == 0) {
                continue;
            }
            held[grant.account as usize] = true;
            let ups = self.row(grant.account as usize, s);
            let row = match grant.sign {
                Sign::Plus => &mut rows.plus,
                Sign::Minus => &mut rows.minus,
            };
            for i in 0..LENGTHS {
                if ups[i] > 0 {
                    for j in 0..LENGTHS {
                        row[i + j] += ups[i] as u64 * lengths[j] as u64;
                    }
                }
            }
        }
        for a in 0..self.accounts {
            if !held[a] && self.groups[a] == 0 {
                let ups = self.row(a, s);
                for k in 0..LENGTHS {
                    rows.default[k] += ups[k] as u64;
                }
            }
        }
        Ok(resolve(rows, strategy))
    }

    fn walk<W: Weight>(&self, start: [W; MOST], s: usize) -> W {
        let mut level = start;
        let mut sum = level[s];
        for _ in 0..7 {
            if level[..self.accounts].iter().all(|w| w.is_nothing()) {
                return sum;
            }
            let mut below = [W::NOTHING; MOST];
            for g in 0..self.accounts {
                if !level[g].is_nothing() {
                    let next = level[g].step();
                    for m in 0..self.accounts {
                        if self.stands(g, m) {
                            below[m] = below[m].plus(&next);
                        }
                    }
                }
            }
            level = below;
            sum = sum.plus(&level[s]);
        }
        sum
    }

    fn walked<P: Plan>(&self, plan: &P, account: u32, item: u32, right: u32, strategy: Strategy) -> Result<Answer, u32> {
        self.admit(plan, account, item, right)?;
        let items = item_counts(plan, item);
        let mut starts = [Rows::default(); MOST];
        let mut held = [false; MOST];
        for grant in &self.grants[..self.standing] {
            let lengths = &items[grant.item as usize];
            if grant.right != right || lengths.iter().all(|c| *c == 0) {
                continue;
            }
            let a = grant.account as usize;
            held[a] = true;
            let row = match grant.sign {
                Sign::Plus => &mut starts[a].plus,
                Sign::Minus => &mut starts[a].minus,
            };
            for j in 0..LENGTHS {
                row[j] = (row[j] + lengths[j] as u64).min(CAP);
            }
        }
        for a in 0..self.accounts {
            if !held[a] && self.groups[a] == 0 {
                starts[a].default[0] = 1;
            }
        }
        Ok(resolve(self.walk(starts, account as usize), strategy))
    }

    fn least<P: Plan>(&self, plan: &P, account: u32, item: u32, right: u32, sign: Sign) -> Result<Option<u8>, u32> {
        self.admit(plan, account, item, right)?;
        let items = item_counts(plan, item);
        let mut starts = [Least(255); MOST];
        for grant in &self.grants[..self.standing] {
            if grant.right != right || grant.sign != sign {
                continue;
            }
            let lengths = &items[grant.item as usize];
            if let Some(k) = lengths.iter().position(|c| *c > 0) {
                let a = grant.account as usize;
                starts[a] = starts[a].plus(&Least(k as u8));
            }
        }
        let found = self.walk(starts, account as usize);
        Ok(if found.0 == 255 { None } else { Some(found.0) })
    }
}

/// What a walk carries.
trait Weight: Copy {
    const NOTHING: Self;
    fn is_nothing(&self) -> bool;
    fn plus(&self, other: &Self) -> Self;
    fn step(&self) -> Self;
}

fn add_row(a: &[u64; DISTANCES], b: &[u64; DISTANCES]) -> [u64; DISTANCES] {
    std::array::from_fn(|d| (a[d] + b[d]).min(CAP))
}

fn step_row(a: &[u64; DISTANCES]) -> [u64; DISTANCES] {
    std::array::from_fn(|d| if d == 0 { 0 } else { a[d - 1] })
}

impl Weight for Rows {
    const NOTHING: Rows = Rows {
        plus: [0; DISTANCES],
        minus: [0; DISTANCES],
        default: [0; DISTANCES],
    };

    fn is_nothing(&self) -> bool {
        *self == Rows::NOTHING
    }

    fn plus(&self, other: &Rows) -> Rows {
        Rows {
            plus: add_row(&self.plus, &other.plus),
            minus: add_row(&self.minus, &other.minus),
            default: add_row(&self.default, &other.default),
        }
    }

    fn step(&self) -> Rows {
        Rows {
            plus: step_row(&self.plus),
            minus: step_row(&self.minus),
            default: step_row(&self.default),
        }
    }
}

#[derive(Clone, Copy)]
struct Least(u8);

impl Weight for Least {
    const NOTHING: Least = Least(255);

    fn is_nothing(&self) -> bool {
        self.0 == 255
    }

    fn plus(&self, other: &Least) -> Least {
        Least(self.0.min(other.0))
    }

    fn step(&self) -> Least {
        Least(self.0.saturating_add(1))
    }
}

fn votes(rows: &Rows, strategy: Strategy, sign: Sign, d: usize) -> u64 {
    let own = match sign {
        Sign::Plus => rows.plus[d],
        Sign::Minus => rows.minus[d],
    };
    if strategy.default == DefaultRule::Counts(sign) {
        own + rows.default[d]
    } else {
        own
    }
}

fn larger(plus: u64, minus: u64, rest: Sign) -> Sign {
    if plus > minus {
        Sign::Plus
    } else if minus > plus {
        Sign::Minus
    } else {
        rest
    }
}

fn resolve(rows: Rows, strategy: Strategy) -> Answer {
    let plus_total = (0..DISTANCES).map(|d| votes(&rows, strategy, Sign::Plus, d)).sum::<u64>();
    let minus_total = (0..DISTANCES).map(|d| votes(&rows, strategy, Sign::Minus, d)).sum::<u64>();
    let any = |d: &usize| votes(&rows, strategy, Sign::Plus, *d) + votes(&rows, strategy, Sign::Minus, *d) > 0;
    let chosen = match strategy.locality {
        Locality::Anywhere => None,
        Locality::Nearest => (0..DISTANCES).find(any),
        Locality::Farthest => (0..DISTANCES).rev().find(any),
    };
    let (plus, minus) = match chosen {
        None => (plus_total, minus_total),
        Some(d) => (votes(&rows, strategy, Sign::Plus, d), votes(&rows, strategy, Sign::Minus, d)),
    };
    let rest = match (plus > 0, minus > 0) {
        (true, false) => Sign::Plus,
        (false, true) => Sign::Minus,
        _ => strategy.preferred,
    };
    let sign = match strategy.majority {
        Majority::Skipped => rest,
        Majority::Before => larger(plus_total, minus_total, rest),
        Majority::After => larger(plus, minus, rest),
    };
    Answer {
        sign,
        rows,
        plus_total,
        minus_total,
    }
}

fn sign_of(number: u32) -> Option<Sign> {
    match number {
        0 => Some(Sign::Plus),
        1 => Some(Sign::Minus),
        _ => None,
    }
}

fn done(result: Result<(), u32>) -> ReplyRecord {
    ReplyRecord {
        refusal: result.err().unwrap_or(0),
        ..ReplyRecord::default()
    }
}

fn answered(result: Result<Answer, u32>) -> ReplyRecord {
    match result {
        Err(number) => done(Err(number)),
        Ok(answer) => ReplyRecord {
            refusal: 0,
            sign: answer.sign as u32,
            distance: 0,
            plus: answer.rows.plus,
            minus: answer.rows.minus,
            default: answer.rows.default,
            plus_total: answer.plus_total,
            minus_total: answer.minus_total,
        },
    }
}

fn serve_over<P: Plan>(book: &mut Book, plan: &P, call: &CallRecord) -> Option<ReplyRecord> {
    let (a, b, c, d) = (call.first, call.second, call.third, call.fourth);
    Some(match call.kind {
        0 => done(book.join(a, b)),
        1 => done(book.leave(a, b)),
        2 => done(book.give(Grant {
            account: a,
            item: b,
            right: c,
            sign: sign_of(d)?,
        })),
        3 => done(book.withdraw(a, b, c)),
        4 => answered(book.quick(plan, a, b, c, Strategy::numbered(d)?)),
        5 => answered(book.walked(plan, a, b, c, Strategy::numbered(d)?)),
        6 => match book.least(plan, a, b, c, sign_of(d)?) {
            Err(number) => done(Err(number)),
            Ok(distance) => ReplyRecord {
                distance: distance.map_or(255, u64::from),
                ..ReplyRecord::default()
            },
        },
        _ => return None,
    })
}

fn serve(book: &mut Book, equipment: &mut Equipment, call: &CallRecord) -> ReplyRecord {
    let container = |c: u32| if c == u32::MAX { None } else { Some(c) };
    let reply = match (call.kind, call.plan) {
        (7, _) => Some(done(equipment.add(call.first, container(call.second), container(call.third)))),
        (_, 0) => serve_over(book, &Channels, call),
        (_, 1) => serve_over(book, equipment, call),
        _ => None,
    };
    reply.unwrap_or(done(Err(255)))
}

/// Makes a book over the counts and serves the calls.
pub fn run(counts: &mut [u32], records: &mut [GrantRecord], calls: &[CallRecord], replies: &mut [ReplyRecord]) -> Run {
    let none = Grant {
        account: 0,
        item: 0,
        right: 0,
        sign: Sign::Plus,
    };
    let mut grants = [none; 512];
    let capacity = records.len().min(512);
    let mut book = Book::make(counts, &mut grants[..capacity]);
    let mut equipment = Equipment::new();
    for (call, reply) in calls.iter().zip(replies.iter_mut()) {
        *reply = serve(&mut book, &mut equipment, call);
    }
    for (record, grant) in records.iter_mut().zip(&book.grants[..book.standing]) {
        *record = GrantRecord {
            account: grant.account,
            item: grant.item,
            right: grant.right,
            sign: grant.sign as u32,
        };
    }
    Run {
        status: 0,
        calls: calls.len().min(replies.len()) as u64,
        accounts: book.accounts as u64,
        grants: book.standing as u64,
    }
}
