//! Random lists of calls, made by the library and by a plain reading of the rules, compared reply by reply and memory by memory.

mod chance;
mod rules;

use chance::{Chance, Habits};
use linseedladle::raw::{self, CallRecord, GrantRecord, ReplyRecord};
use linseedladle::{Call, Grant, Plan, Refusal, Reply, Sign, Strategy, make_and_run};
use rules::Rules;
use rules::chains::Way;
use std::collections::BTreeMap;
use std::time::Instant;

/// The lent memory, and how chains are counted on the plain side.
#[derive(Clone, Copy, Debug)]
struct Setting {
    counts: usize,
    records: usize,
    replies: usize,
    rubbish: u64,
    way: Way,
}

/// What was compared.
#[derive(Default)]
struct Tally {
    lists: usize,
    calls: usize,
    typed: usize,
    counts: usize,
    refusals: BTreeMap<u32, usize>,
    accounts: BTreeMap<u32, usize>,
    most: u64,
}

fn call_record(call: &[u32; 6]) -> CallRecord {
    let [kind, plan, first, second, third, fourth] = *call;
    CallRecord { kind, plan, first, second, third, fourth }
}

fn reply_record(reply: &rules::Reply) -> ReplyRecord {
    ReplyRecord {
        refusal: reply.refusal,
        sign: reply.sign,
        distance: reply.distance,
        plus: reply.plus,
        minus: reply.minus,
        default: reply.default,
        plus_total: reply.plus_total,
        minus_total: reply.minus_total,
    }
}

fn grant_record(grant: &rules::Grant) -> GrantRecord {
    GrantRecord { account: grant.account, item: grant.item, right: grant.right, sign: grant.sign }
}

/// Lent memory full of rubbish.
fn rubbish_memory(setting: &Setting) -> (Vec<u32>, Vec<GrantRecord>, Vec<ReplyRecord>) {
    let mut chance = Chance::new(setting.rubbish);
    let mut word = || chance.next() as u32;
    let counts = (0..setting.counts).map(|_| word()).collect();
    let records = (0..setting.records).map(|_| GrantRecord { account: word(), item: word(), right: word(), sign: word() }).collect();
    let replies = (0..setting.replies)
        .map(|_| {
            let long = u64::from(word()) << 20;
            ReplyRecord {
                refusal: word(),
                sign: word(),
                distance: long,
                plus: [long; 15],
                minus: [long + 1; 15],
                default: [long + 2; 15],
                plus_total: long + 3,
                minus_total: long + 4,
            }
        })
        .collect();
    (counts, records, replies)
}

/// The rules and the replies of the calls that there is room for.
fn plain(setting: &Setting, calls: &[[u32; 6]]) -> (Rules, Vec<rules::Reply>) {
    let mut rules = Rules::new(setting.counts, setting.records, setting.way);
    let replies = calls.iter().take(setting.replies).map(|call| rules.call(*call)).collect();
    (rules, replies)
}

/// The first place where two lists differ.
fn first_difference<T: PartialEq + std::fmt::Debug>(what: &str, is: &[T], should: &[T]) -> Result<(), String> {
    if is == should {
        return Ok(());
    }
    let place = is.iter().zip(should).position(|(a, b)| a != b).unwrap_or(is.len().min(should.len()));
    Err(format!("{what} {place}: library {:?}, rules {:?}", is.get(place), should.get(place)))
}

/// The typed call that a record stands for, if a `Call` can say it.
fn typed(call: &[u32; 6]) -> Option<Call> {
    let [kind, plan, first, second, third, fourth] = *call;
    let container = |number: u32| if number == u32::MAX { None } else { Some(number) };
    if kind != 7 {
        Plan::numbered(plan)?;
    }
    Some(match kind {
        0 => Call::Join { group: first, member: second },
        1 => Call::Leave { group: first, member: second },
        2 => Call::Give(Grant { account: first, item: second, right: third, sign: Sign::numbered(fourth)? }),
        3 => Call::Withdraw { account: first, item: second, right: third },
        4 => Call::Quick { account: first, item: second, right: third, strategy: Strategy::numbered(fourth)?, plan: Plan::numbered(plan)? },
        5 => {
            Call::Walked { account: first, item: second, right: third, strategy: Strategy::numbered(fourth)?, plan: Plan::numbered(plan)? }
        }
        6 => Call::Least { account: first, item: second, right: third, sign: Sign::numbered(fourth)?, plan: Plan::numbered(plan)? },
        7 => Call::Equip { item: first, first: container(second), second: container(third) },
        _ => return None,
    })
}

/// The typed reply that the wrapper should give.
fn typed_reply(call: &Call, reply: &rules::Reply) -> Reply {
    if reply.refusal != 0 {
        return Refusal::ALL.into_iter().find(|r| r.number() == reply.refusal).map_or(Reply::Unreadable, Reply::Refused);
    }
    match call {
        Call::Quick { .. } | Call::Walked { .. } => Reply::Answered(linseedladle::Answer {
            sign: if reply.sign == 0 { Sign::Plus } else { Sign::Minus },
            plus: reply.plus,
            minus: reply.minus,
            default: reply.default,
            plus_total: reply.plus_total,
            minus_total: reply.minus_total,
        }),
        Call::Least { .. } if reply.distance == 255 => Reply::Distance(None),
        Call::Least { .. } => Reply::Distance(Some(reply.distance as u8)),
        _ => Reply::Done,
    }
}

/// Makes the calls over rubbish, and compares everything with what the rules gave.
fn differ(setting: &Setting, calls: &[[u32; 6]], rules: &Rules, expected: &[rules::Reply]) -> Result<(), String> {
    let (mut counts, mut records, mut replies) = rubbish_memory(setting);
    let (counts_before, records_before, replies_before) = (counts.clone(), records.clone(), replies.clone());
    let written: Vec<CallRecord> = calls.iter().map(call_record).collect();
    let run = raw::make_and_run(&mut counts, &mut records, &written, &mut replies);
    let made = calls.len().min(setting.replies);
    let came_to = [run.status, run.calls, run.accounts, run.grants];
    first_difference("run", &came_to, &[0, made as u64, u64::from(rules.accounts), rules.grants.len() as u64])?;

    let mut should: Vec<ReplyRecord> = expected.iter().map(reply_record).collect();
    should.extend(&replies_before[made..]);
    first_difference("reply", &replies, &should)?;

    let table = rules.table(setting.way);
    let mut should = table.clone();
    should.extend(&counts_before[table.len()..]);
    first_difference("count", &counts, &should)?;

    let mut should: Vec<GrantRecord> = rules.grants.iter().map(grant_record).collect();
    should.extend(&records_before[rules.grants.len()..]);
    first_difference("record", &records, &should)?;

    // the same through the typed wrapper: what it cannot say is no call, and changes nothing
    let said: Vec<(Call, Reply)> =
        calls.iter().zip(expected).filter_map(|(call, reply)| typed(call).map(|c| (c, typed_reply(&c, reply)))).collect();
    let (typed_calls, typed_replies): (Vec<Call>, Vec<Reply>) = said.into_iter().unzip();
    let (mut typed_counts, mut typed_records) = (counts_before, records_before);
    let run = make_and_run(&mut typed_counts, &mut typed_records, &typed_calls);
    first_difference("typed reply", &run.replies, &typed_replies)?;
    first_difference("typed count", &typed_counts, &counts)?;
    first_difference("typed record", &typed_records, &records)?;
    let standing: Vec<GrantRecord> = run.standing(&typed_records).into_iter().map(GrantRecord::from).collect();
    first_difference("standing", &standing, &records[..rules.grants.len()])?;
    if run.status != 0 || run.accounts != rules.accounts as usize {
        return Err(format!("typed run: {run:?}"));
    }
    Ok(())
}

/// Leaves out calls as long as the difference stays, for ten seconds at most, and tells of the smallest list.
fn shrunk(setting: &Setting, calls: &[[u32; 6]]) -> String {
    let differs = |setting: &Setting, calls: &[[u32; 6]]| {
        let (rules, expected) = plain(setting, calls);
        differ(setting, calls, &rules, &expected).err()
    };
    let (mut setting, mut calls) = (*setting, calls.to_vec());
    let mut told = differs(&setting, &calls).unwrap_or_default();
    let begun = Instant::now();
    let mut part = calls.len();
    while part > 0 {
        let mut end = calls.len();
        while end > 0 && begun.elapsed().as_secs() < 10 {
            let begin = end.saturating_sub(part);
            let fewer = [&calls[..begin], &calls[end..]].concat();
            let smaller = Setting { replies: fewer.len(), ..setting };
            if let Some(difference) = differs(&smaller, &fewer) {
                (setting, calls, told) = (smaller, fewer, difference);
            }
            end = begin;
        }
        part /= 2;
    }
    format!("{told}\n{setting:?}\n{calls:?}")
}

/// Compares one list whose calls are made up as the rules go on.
fn compare(tally: &mut Tally, setting: &Setting, calls: &[[u32; 6]], rules: &Rules, expected: &[rules::Reply]) {
    if let Err(difference) = differ(setting, calls, rules, expected) {
        panic!("list {}: {difference}\nsmallest: {}", tally.lists, shrunk(setting, calls));
    }
    if setting.way == Way::Listed {
        assert_eq!(rules.table(Way::Listed), rules.table(Way::Levels), "both ways of counting on the plain side");
    }
    tally.lists += 1;
    tally.calls += expected.len();
    tally.typed += calls.iter().zip(expected).filter(|(call, _)| typed(call).is_some()).count();
    tally.counts += setting.counts;
    *tally.accounts.entry(rules.accounts).or_default() += 1;
    for reply in expected {
        *tally.refusals.entry(reply.refusal).or_default() += 1;
        tally.most = tally.most.max(reply.plus_total).max(reply.minus_total);
    }
}

/// Makes up so many calls, some of them given first, and compares.
fn random_list(tally: &mut Tally, chance: &mut Chance, setting: &Setting, first: &[[u32; 6]], habits: &Habits, many: usize) {
    let mut rules = Rules::new(setting.counts, setting.records, setting.way);
    let (mut calls, mut expected) = (Vec::new(), Vec::new());
    for place in 0..many {
        let call = first.get(place).copied().unwrap_or_else(|| habits.call(chance, &rules));
        if place < setting.replies {
            expected.push(rules.call(call));
        }
        calls.push(call);
    }
    compare(tally, setting, &calls, &rules, &expected);
}

/// Counts for so many accounts and some more, and other memory of any length.
fn any_setting(chance: &mut Chance, many: usize) -> Setting {
    let n = match chance.below(10) {
        0 => chance.below(4),
        1 => 61 + chance.below(4),
        2 => 31 + chance.below(3),
        _ => chance.below(65),
    } as usize;
    let room = if n == 64 { 9_000 } else { (2 * n + 1) * 8 };
    let more = match chance.below(4) {
        0 => 0,
        1 => 1,
        2 => room - 1,
        _ => chance.below(room as u32) as usize,
    };
    Setting {
        counts: n * n * 8 + more,
        records: chance.pick(&[0, 1, 2, 3, 5, 8, 13, 30, 100, 511, 512, 513, 700]),
        replies: match chance.below(8) {
            0 => chance.below(many as u32 + 1) as usize,
            1 => many + 1 + chance.below(20) as usize,
            _ => many,
        },
        rubbish: chance.next(),
        way: Way::Listed,
    }
}

/// Sparse charts of all sizes.
fn sparse_charts(tally: &mut Tally, chance: &mut Chance) {
    for _ in 0..2000 {
        let many = chance.pick(&[0, 1, 7, 40, 100, 150, 200, 250]);
        let setting = any_setting(chance, many);
        let habits = Habits::any(chance, rules::accounts_in(setting.counts));
        random_list(tally, chance, &setting, &[], &habits, many);
    }
}

/// Rows of accounts, each in the one before, so that chains come near 7.
fn long_chains(tally: &mut Tally, chance: &mut Chance) {
    for _ in 0..150 {
        let setting = Setting { counts: 12 * 12 * 8 + chance.below(200) as usize, records: 20, ..any_setting(chance, 120) };
        let habits = Habits { accounts: 12, step: chance.pick(&[1, 2]), memberships: 18, ..Habits::any(chance, 12) };
        let mut first: Vec<[u32; 6]> = (0..8).map(|a| [0, 0, a, a + 1, 0, 0]).collect();
        chance.shuffle(&mut first);
        random_list(tally, chance, &setting, &first, &habits, 120);
    }
}

/// Lists of little but grants, up to the capacity and above.
fn full_books(tally: &mut Tally, chance: &mut Chance) {
    for records in [0, 1, 40, 511, 512, 513, 1000] {
        let many = 900;
        let setting = Setting { counts: 24 * 24 * 8, records, replies: many, ..any_setting(chance, many) };
        let habits =
            Habits { kinds: [2, 1, 80, 6, 3, 3, 2, 2, 1], accounts: 24, items: 256, rights: 8, memberships: 20, ..Habits::any(chance, 24) };
        random_list(tally, chance, &setting, &[], &habits, many);
    }
}

/// Equipment tables filled to the last place.
fn full_tables(tally: &mut Tally, chance: &mut Chance) {
    for _ in 0..12 {
        let setting = Setting { counts: 10 * 10 * 8, records: 60, replies: 700, ..any_setting(chance, 700) };
        let habits = Habits {
            kinds: [4, 1, 8, 1, 6, 6, 4, 70, 1],
            accounts: 10,
            items: 256,
            rights: 2,
            tall: chance.pick(&[5, 20]),
            ..Habits::any(chance, 10)
        };
        random_list(tally, chance, &setting, &[], &habits, 700);
    }
}

/// Accounts in layers, each in all of the layer before.
fn layered(widths: &[u32]) -> Vec<[u32; 6]> {
    let (mut joins, mut begin) = (Vec::new(), 0);
    for pair in widths.windows(2) {
        let next = begin + pair[0];
        for group in begin..next {
            joins.extend((next..next + pair[1]).map(|member| [0, 0, group, member, 0, 0]));
        }
        begin = next;
    }
    joins
}

/// Layers in which counts come near 99,999, and grants of which very many marks arrive.
fn layered_charts(tally: &mut Tally, chance: &mut Chance) {
    let charts = [
        [1, 7, 7, 7, 7, 7, 7, 1],
        [1, 8, 7, 6, 7, 7, 7, 1],
        [1, 9, 9, 9, 9, 9, 9, 1],
        [1, 6, 8, 10, 10, 6, 6, 2],
        [1, 4, 12, 4, 12, 4, 14, 1],
        [3, 10, 10, 10, 10, 10, 1, 1],
        [12, 7, 7, 7, 7, 7, 5, 1],
    ];
    for widths in charts.into_iter().chain(charts).chain(charts) {
        let many = 1100;
        let used = widths.iter().sum::<u32>();
        let n = (used as usize).max(58);
        let setting = Setting { counts: n * n * 8 + 17, records: 300, replies: many, way: Way::Levels, ..any_setting(chance, many) };
        let mut first = layered(&widths);
        chance.shuffle(&mut first);
        // a table of eight rows of two items, each in both of the row before: 255 chains down to an item of the last
        for item in 0..16u32 {
            let above = item / 2 * 2;
            let containers = if item < 2 { [u32::MAX; 2] } else { [above - 2, above - 1] };
            first.push([7, 0, item, containers[0], containers[1], 0]);
        }
        for account in 0..widths[0] {
            let sign = chance.below(2);
            first.extend((0..16).map(|item| [2, 0, account, item, 0, sign]));
        }
        for item in [13, 15] {
            first.push([4, 1, used - 1, item, 0, chance.below(48)]);
            first.push([5, 1, used - 1, item, 0, chance.below(48)]);
        }
        let habits = Habits {
            kinds: [30, 12, 10, 3, 15, 10, 6, 1, 1],
            accounts: used,
            step: 10,
            items: 16,
            rights: 1,
            memberships: 400,
            ..Habits::any(chance, used)
        };
        random_list(tally, chance, &setting, &first, &habits, many);
    }
}

#[test]
fn library_and_rules_agree_on_random_calls() {
    let (mut tally, mut chance) = (Tally::default(), Chance::new(20_261));
    sparse_charts(&mut tally, &mut chance);
    long_chains(&mut tally, &mut chance);
    full_books(&mut tally, &mut chance);
    full_tables(&mut tally, &mut chance);
    layered_charts(&mut tally, &mut chance);
    println!(
        "{} lists, {} calls, {} of them typed too, {} counts, {} sizes; most marks {}; refusals {:?}",
        tally.lists,
        tally.calls,
        tally.typed,
        tally.counts,
        tally.accounts.len(),
        tally.most,
        tally.refusals
    );
    assert!(tally.calls >= 100_000, "only {} calls were compared", tally.calls);
    for refusal in (0..=15).chain([255]) {
        assert!(tally.refusals.contains_key(&refusal), "no reply with {refusal}");
    }
    assert_eq!(tally.accounts.len(), 65, "a book of every size from 0 to 64 accounts");
    assert!(tally.most > 100_000_000, "the largest total was {}", tally.most);
}
