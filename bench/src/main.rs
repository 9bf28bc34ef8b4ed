//! Times the proved book beside the same algorithm in plain Rust and one recursive query in SQLite.

mod chart;
mod plain;
mod records;
mod sqlite;

use chart::*;
use records::{CallRecord, GrantRecord, ReplyRecord, Run};
use std::process::{Command, Stdio};
use std::time::Instant;

type Runner = fn(&mut [u32], &mut [GrantRecord], &[CallRecord], &mut [ReplyRecord]) -> Run;

/// Memory for one run.
struct Memory {
    counts: Vec<u32>,
    records: Vec<GrantRecord>,
    replies: Vec<ReplyRecord>,
}

impl Memory {
    fn new(accounts: u32, calls: usize) -> Memory {
        Memory {
            counts: vec![0; (accounts * accounts * 8) as usize],
            records: vec![GrantRecord::default(); 512],
            replies: vec![ReplyRecord::default(); calls],
        }
    }

    fn seconds(&mut self, runner: Runner, calls: &[CallRecord]) -> f64 {
        let began = Instant::now();
        let ran = runner(&mut self.counts, &mut self.records, calls, &mut self.replies[..calls.len()]);
        let took = began.elapsed().as_secs_f64();
        assert_eq!(ran.calls, calls.len() as u64);
        took
    }
}

fn median(mut times: Vec<f64>) -> f64 {
    times.sort_by(f64::total_cmp);
    times[times.len() / 2]
}

const REPEATS: usize = 15;

/// The median seconds of one of the calls that follow a beginning, for both books, taken in turns; and both agree on every reply.
fn per_call(accounts: u32, beginning: &[CallRecord], timed: &[CallRecord]) -> (f64, f64) {
    let mut all = beginning.to_vec();
    all.extend_from_slice(timed);
    let mut proved = Memory::new(accounts, all.len());
    let mut plain = Memory::new(accounts, all.len());
    let (mut a, mut b) = (Vec::new(), Vec::new());
    for _ in 0..REPEATS {
        let begun = proved.seconds(records::proved, beginning);
        a.push((proved.seconds(records::proved, &all) - begun) / timed.len() as f64);
        let begun = plain.seconds(plain::run, beginning);
        b.push((plain.seconds(plain::run, &all) - begun) / timed.len() as f64);
    }
    assert!(proved.replies == plain.replies, "the two books differ");
    assert!(proved.counts == plain.counts && proved.records == plain.records, "the two books differ");
    (median(a), median(b))
}

/// The memberships of a full chart that the limits allow.
fn accepted(accounts: u32) -> Vec<(u32, u32)> {
    let pairs = full(accounts);
    let calls: Vec<_> = pairs.iter().map(|(p, c)| call(JOIN, [*p, *c, 0, 0])).collect();
    let mut memory = Memory::new(accounts, calls.len());
    memory.seconds(records::proved, &calls);
    pairs.into_iter().zip(&memory.replies).filter(|(_, r)| r.refusal == 0).map(|(pair, _)| pair).collect()
}

fn micro(seconds: f64) -> String {
    format!("{:.3}", seconds * 1e6)
}

fn row(what: &str, times: (f64, f64)) {
    println!("{what:<34} {:>12} {:>12} {:>8.2}", micro(times.0), micro(times.1), times.0 / times.1);
}

/// The same question in SQLite: the median seconds over the same questions, and the same counts.
fn in_sqlite(members: &[(u32, u32)], given: &[(u32, u32, u32, u32)], asked: &[CallRecord], replies: &[ReplyRecord]) -> f64 {
    let database = sqlite::Database::new(members, given);
    let mut times = Vec::new();
    for (question, reply) in asked.iter().zip(replies) {
        let began = Instant::now();
        let rows = database.ask(question.first, question.second, question.third);
        times.push(began.elapsed().as_secs_f64());
        assert!(rows == [reply.plus, reply.minus, reply.default], "SQLite differs");
    }
    median(times)
}

fn measure(accounts: u32, many: usize) -> (f64, f64, f64) {
    let members = accepted(accounts);
    let joins: Vec<_> = members.iter().map(|(p, c)| call(JOIN, [*p, *c, 0, 0])).collect();
    let given = grants(accounts, many);
    let mut beginning = joins.clone();
    beginning.extend(given.iter().map(|(a, i, r, s)| call(GIVE, [*a, *i, *r, *s])));
    let of_right = given.iter().filter(|g| g.2 == RIGHT).count();
    println!("\n{accounts} accounts, {} memberships, {} grants, {of_right} of the right", members.len(), given.len());
    let quick = per_call(accounts, &beginning, &questions(QUICK, accounts, 4000));
    row("quick", quick);
    let walked = per_call(accounts, &beginning, &questions(WALKED, accounts, 300));
    row("walked", walked);
    row("least", per_call(accounts, &beginning, &questions(LEAST, accounts, 1000)));
    row("join", per_call(accounts, &[], &joins));
    let leaves: Vec<_> = members.iter().rev().map(|(p, c)| call(LEAVE, [*p, *c, 0, 0])).collect();
    row("leave", per_call(accounts, &joins, &leaves));
    let asked = questions(QUICK, accounts, if accounts < 64 { 201 } else { 9 });
    let mut all = beginning.clone();
    all.extend_from_slice(&asked);
    let mut memory = Memory::new(accounts, all.len());
    memory.seconds(records::proved, &all);
    let query = in_sqlite(&members, &given, &asked, &memory.replies[beginning.len()..]);
    println!("{:<34} {:>12}", "the quick question in SQLite", micro(query));
    println!("walked / quick {:.1}, SQLite / quick {:.0}", walked.0 / quick.0, query / quick.0);
    (quick.0, walked.0, query)
}

/// Questions on charts whose chains are few, so that what is left is what the number of accounts costs.
fn sparse(accounts: u32) {
    let alone = per_call(accounts, &[], &questions(QUICK, accounts, 4000));
    row(&format!("{accounts} accounts, no membership"), alone);
    let star: Vec<_> = (0..accounts - 1).map(|g| call(JOIN, [g, accounts - 1, 0, 0])).collect();
    let asked: Vec<_> = (0..4000).map(|i| call(QUICK, [accounts - 1, 255, RIGHT, i % 48])).collect();
    row(&format!("{accounts} accounts, one in all others"), per_call(accounts, &star, &asked));
}

/// A list of 3,000 lines: joins, grants, questions, some refused.
fn list() -> Vec<u8> {
    let mut random = Random::new(3);
    let mut text = Vec::new();
    for i in 0..3000u32 {
        let (a, b) = (random.below(32), random.below(32));
        let line = match i % 4 {
            0 => format!("J{a:5}{b:5}       "),
            1 => format!("G{a:5}{:5}{:5} {}", ITEMS[random.below(8) as usize], 4 + random.below(4), if b % 2 == 0 { '+' } else { '-' }),
            _ => format!("Q{a:5}{:5}{:5}  ", ITEMS[random.below(8) as usize], 4 + random.below(4)),
        };
        text.extend_from_slice(line.as_bytes());
        text.push(b'\n');
    }
    text
}

fn lists(program: &str) {
    let text = list();
    let mut out = vec![0; 1 << 20];
    let mut times = Vec::new();
    for _ in 0..REPEATS {
        let began = Instant::now();
        let ran = records::proved_list(&text, &mut out);
        times.push(began.elapsed().as_secs_f64());
        assert_eq!(ran.status, 0);
        out[0] = b' ';
    }
    println!("\na list of 3,000 lines: {:.0} lines a second in the library", 3000.0 / median(times));
    std::fs::write("target/list", &text).expect("the list is written");
    let mut times = Vec::new();
    for _ in 0..REPEATS {
        let input = std::fs::File::open("target/list").expect("the list is there");
        let began = Instant::now();
        let done = Command::new(program).stdin(input).stdout(Stdio::null()).status();
        times.push(began.elapsed().as_secs_f64());
        assert!(done.expect("runlist starts").success());
    }
    println!("a list of 3,000 lines: {:.0} lines a second by runlist, its start included", 3000.0 / median(times));
}

fn main() {
    println!("microseconds a call, medians of {REPEATS}; SQLite {}", sqlite::version());
    println!("{:<34} {:>12} {:>12} {:>8}", "", "proved", "plain Rust", "ratio");
    for accounts in [8, 32, 64] {
        for many in [10, 100, 512] {
            measure(accounts, many);
        }
    }
    println!("\nquick questions without grants");
    for accounts in [8, 16, 32, 64] {
        sparse(accounts);
    }
    if let Some(program) = std::env::args().nth(1) {
        lists(&program);
    }
}
