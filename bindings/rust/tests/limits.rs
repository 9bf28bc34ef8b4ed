//! Edges of the lent memory and of the limits, made by hand.

mod rules;

use linseedladle::raw::{self, CallRecord, GrantRecord, ReplyRecord};
use linseedladle::{Answer, Call, Grant, Plan, Refusal, Reply, Run, Sign, Strategy, make_and_run};

const RUBBISH: u32 = 0x5A5A_5A5A;
const NO_RECORD: GrantRecord = GrantRecord { account: RUBBISH, item: RUBBISH, right: RUBBISH, sign: RUBBISH };

fn join(group: u32, member: u32) -> Call {
    Call::Join { group, member }
}

fn give(account: u32, item: u32, right: u32, sign: Sign) -> Call {
    Call::Give(Grant { account, item, right, sign })
}

fn quick(account: u32, item: u32, right: u32, name: &str) -> Call {
    let strategy = Strategy::named(name).expect("a strategy");
    Call::Quick { account, item, right, strategy, plan: Plan::Channels }
}

fn refused(refusal: Refusal) -> Reply {
    Reply::Refused(refusal)
}

fn answer(reply: &Reply) -> Answer {
    match reply {
        Reply::Answered(answer) => *answer,
        other => panic!("no answer: {other:?}"),
    }
}

/// Accounts for lengths of lent counts; what lies behind the table is untouched.
#[test]
fn accounts_that_counts_have_room_for() {
    for (length, accounts) in [
        (0, 0),
        (1, 0),
        (7, 0),
        (8, 1),
        (9, 1),
        (31, 1),
        (32, 2),
        (71, 2),
        (72, 3),
        (31_751, 62),
        (31_752, 63),
        (32_767, 63),
        (32_768, 64),
        (32_769, 64),
        (33_800, 64),
        (100_000, 64),
    ] {
        let mut counts = vec![RUBBISH; length];
        let last = accounts as u32;
        let calls = [join(last, 0), join(0, last), quick(last, 1, 0, "P-"), give(last, 1, 0, Sign::Plus)];
        let run = make_and_run(&mut counts, &mut [], &calls);
        assert_eq!((run.status, run.accounts, run.grants), (0, accounts, 0));
        assert_eq!(run.replies, vec![refused(Refusal::UnknownAccount); 4], "{length} counts");
        for (place, count) in counts.iter().enumerate() {
            let (pair, k) = (place / 8, place % 8);
            let should = match pair < accounts * accounts {
                true => u32::from(k == 0 && pair / accounts == pair % accounts),
                false => RUBBISH,
            };
            assert_eq!(*count, should, "{length} counts, place {place}");
        }
    }
}

#[test]
fn no_calls_and_nothing_lent() {
    let run = make_and_run(&mut [], &mut [], &[]);
    assert_eq!(run, Run { status: 0, accounts: 0, grants: 0, replies: vec![] });
    let run = raw::make_and_run(&mut [], &mut [], &[], &mut []);
    assert_eq!((run.status, run.calls, run.accounts, run.grants), (0, 0, 0, 0));
}

#[test]
fn no_records_hold_no_grant() {
    let mut counts = [RUBBISH; 8];
    let calls = [
        give(0, 1, 0, Sign::Plus),
        Call::Withdraw { account: 0, item: 1, right: 0 },
        quick(0, 1, 0, "D-P+"),
        Call::Least { account: 0, item: 1, right: 0, sign: Sign::Plus, plan: Plan::Channels },
    ];
    let run = make_and_run(&mut counts, &mut [], &calls);
    assert_eq!(run.replies[..2], [refused(Refusal::BookFull), refused(Refusal::NoSuchGrant)]);
    let answered = answer(&run.replies[2]);
    assert_eq!((answered.sign, answered.default[0], answered.plus_total, answered.minus_total), (Sign::Minus, 1, 0, 1));
    assert_eq!(run.replies[3], Reply::Distance(None));
    assert_eq!(counts, [1, 0, 0, 0, 0, 0, 0, 0]);
}

/// Calls behind the last reply are not made.
#[test]
fn fewer_replies_than_calls() {
    let rubbish = ReplyRecord { refusal: RUBBISH, distance: 77, plus: [5; 15], ..ReplyRecord::default() };
    let calls: Vec<CallRecord> = [join(0, 1), give(0, 1, 0, Sign::Minus), join(1, 0), join(0, 2), give(1, 1, 0, Sign::Plus)]
        .into_iter()
        .map(CallRecord::from)
        .collect();
    for room in 0..8 {
        let (mut counts, mut records, mut replies) = ([RUBBISH; 73], [NO_RECORD; 4], vec![rubbish; room]);
        let run = raw::make_and_run(&mut counts, &mut records, &calls, &mut replies);
        let made = room.min(5);
        let grants = [0, 0, 1, 1, 1, 2][made];
        assert_eq!((run.status, run.calls, run.accounts, run.grants), (0, made as u64, 3, grants));
        let refusals: Vec<u32> = replies[..made].iter().map(|reply| reply.refusal).collect();
        assert_eq!(refusals, [0, 0, 2, 0, 0][..made]);
        assert!(replies[made..].iter().all(|reply| *reply == rubbish));
        assert!(records[grants as usize..].iter().all(|record| *record == NO_RECORD));
        assert_eq!((counts[9], counts[17], counts[72]), (u32::from(made > 0), u32::from(made > 3), RUBBISH), "room for {room}");
    }
}

/// A withdrawal closes the gap; only standing grants are written.
#[test]
fn grants_stand_in_their_order() {
    let (mut counts, mut records) = ([RUBBISH; 32], [NO_RECORD; 4]);
    let calls = [
        give(0, 3, 1, Sign::Plus),
        give(1, 3, 1, Sign::Minus),
        give(0, 255, 7, Sign::Minus),
        give(0, 3, 1, Sign::Minus),
        Call::Withdraw { account: 0, item: 3, right: 1 },
        give(0, 256, 7, Sign::Minus),
        give(0, 256, 8, Sign::Minus),
        give(2, 256, 8, Sign::Minus),
    ];
    let run = make_and_run(&mut counts, &mut records, &calls);
    assert_eq!(run.replies[3], refused(Refusal::GrantStands));
    let order = [Refusal::NoSuchItem, Refusal::NoSuchRight, Refusal::UnknownAccount];
    assert_eq!(run.replies[5..], order.map(refused));
    let standing =
        [Grant { account: 1, item: 3, right: 1, sign: Sign::Minus }, Grant { account: 0, item: 255, right: 7, sign: Sign::Minus }];
    assert_eq!(run.standing(&records), standing);
    assert_eq!(records[2..], [NO_RECORD; 2]);
}

/// A chain of 7 stands, one of 8 is refused; both ends are looked at.
#[test]
fn chains_of_seven_and_no_longer() {
    let mut calls: Vec<Call> = (0..7).map(|a| join(a, a + 1)).collect();
    calls.extend([join(7, 8), join(8, 0), join(3, 9), join(7, 0), join(0, 0), join(0, 1)]);
    let mut counts = vec![RUBBISH; 800];
    let run = make_and_run(&mut counts, &mut [], &calls);
    let last = [Refusal::ChainTooLong, Refusal::ChainTooLong].map(refused);
    assert_eq!(run.replies[..7], [Reply::Done; 7]);
    assert_eq!(run.replies[7..9], last);
    assert_eq!(run.replies[9], Reply::Done);
    assert_eq!(run.replies[10..], [Refusal::Circle, Refusal::Circle, Refusal::MemberStands].map(refused));
    assert_eq!((run.count(&counts, 0, 7, 7), run.count(&counts, 0, 7, 6), run.count(&counts, 0, 9, 4)), (1, 0, 1));
}

/// 99,999 chains of one length between two accounts stand, one more is refused.
#[test]
fn counts_of_99999_and_no_more() {
    // Five layers, of which accounts in layer i have 10 ^ (i - 1) chains of length i to the foot. Beside each of the layers 2 to 5 one
    // account is joined to nine of the layer below and to the one beside it: 9, 99, 999 and 9,999 chains.
    let (foot, top) = (0, 1);
    let layer = |i: u32, k: u32| 2 + (i - 1) * 10 + k;
    let beside = |i: u32| 52 + i - 2;
    let mut calls: Vec<Call> = (0..10).map(|k| join(layer(1, k), foot)).collect();
    for i in 2..=5 {
        let all = (0..10).flat_map(|k| (0..10).map(move |m| join(layer(i, k), layer(i - 1, m))));
        calls.extend(all);
        calls.extend((0..9).map(|m| join(beside(i), layer(i - 1, m))));
        if i > 2 {
            calls.push(join(beside(i), beside(i - 1)));
        }
    }
    calls.extend((0..9).map(|k| join(top, layer(5, k))));
    calls.push(join(top, beside(5)));
    let accepted = calls.len();
    calls.push(join(beside(2), layer(1, 9)));
    calls.push(join(top, layer(5, 9)));
    calls.push(quick(foot, 1, 0, "D+GMP-"));
    let mut counts = vec![RUBBISH; 32_768];
    let run = make_and_run(&mut counts, &mut [], &calls);
    assert!(run.replies[..accepted].iter().all(|reply| *reply == Reply::Done));
    assert_eq!(run.replies[accepted..accepted + 2], [refused(Refusal::CountTooLarge); 2]);
    assert_eq!(run.count(&counts, top as usize, foot as usize, 6), 99_999);
    assert_eq!(run.count(&counts, beside(2) as usize, foot as usize, 2), 9);
    assert_eq!(run.count(&counts, beside(2) as usize, layer(1, 9) as usize, 1), 0);
    let answered = answer(&run.replies[accepted + 2]);
    // the top is a member of none, and so is the last account of layer 5
    assert_eq!((answered.default[6], answered.default[5], answered.plus_total, answered.sign), (99_999, 10_000, 109_999, Sign::Plus));
}

/// Every refusal of the equipment table, and numbers that a wrapper could mistake for none.
#[test]
fn equipment_to_its_limits() {
    let equip = |item, first, second| Call::Equip { item, first, second };
    let mut calls = vec![equip(1, None, None), equip(0, None, None), equip(1, Some(u32::MAX), None), equip(1, None, Some(u32::MAX))];
    calls.extend([equip(1, Some(0), Some(0)), equip(1, None, Some(0)), equip(2, Some(1), Some(0)), equip(3, Some(3), None)]);
    let refusals = [13, 0, 14, 14, 14, 0, 0, 14];
    calls.extend((3..8).map(|item| equip(item, Some(item - 1), None)));
    calls.extend([equip(8, Some(7), None), equip(8, Some(0), Some(7)), equip(u32::MAX, None, None)]);
    calls.extend((8..256).map(|item| equip(item, Some(0), Some(6))));
    calls.push(equip(256, None, None));
    let strategy = Strategy::named("MP-").expect("a strategy");
    for item in [255, 256] {
        calls.push(Call::Walked { account: 0, item, right: 0, strategy, plan: Plan::Equipment });
    }
    let mut records = [NO_RECORD; 2];
    calls.insert(0, give(0, 0, 0, Sign::Plus));
    let run = make_and_run(&mut [RUBBISH; 8], &mut records, &calls);
    let numbers: Vec<u32> = run.replies.iter().skip(1).map(|reply| reply.refusal().map_or(0, Refusal::number)).collect();
    assert_eq!(numbers[..8], refusals);
    assert_eq!(numbers[8..13], [0; 5]);
    assert_eq!(numbers[13..16], [15, 15, 13]);
    assert!(numbers[16..264].iter().all(|number| *number == 0));
    assert_eq!(numbers[264..], [13, 0, 8]);
    // item 6 lies in 0 over two ways: past 2 and past 1
    let answered = answer(&run.replies[run.replies.len() - 2]);
    assert_eq!((answered.plus[1], answered.plus[6], answered.plus[7], answered.plus_total), (1, 1, 1, 3));
}

/// What is no call is told so before anything else of it is looked at, and only where it matters.
#[test]
fn records_that_are_no_call() {
    let record = |kind, plan, fourth| CallRecord { kind, plan, first: 9, second: 999, third: 99, fourth };
    let calls = [
        record(8, 0, 0),
        record(u32::MAX, 0, 0),
        record(0, 2, 0),
        record(1, 2, 0),
        record(3, u32::MAX, 0),
        record(2, 0, 2),
        record(6, 1, 2),
        record(4, 1, 48),
        record(5, 0, u32::MAX),
        record(0, 1, 99),
        record(3, 1, 99),
        record(4, 1, 47),
        record(7, 99, 99),
    ];
    let mut replies = [ReplyRecord::default(); 13];
    raw::make_and_run(&mut [0; 8], &mut [], &calls, &mut replies);
    assert_eq!(replies.map(|reply| reply.refusal), [255, 255, 255, 255, 255, 255, 255, 255, 255, 1, 1, 1, 13]);
}

/// All strategies and refusals have their name and number, there and back.
#[test]
fn names_and_numbers() {
    assert_eq!(Strategy::all().count(), 48);
    for strategy in Strategy::all() {
        assert_eq!(strategy.name(), rules::marks::name(strategy.number()));
        assert_eq!(Strategy::named(strategy.name()), Some(strategy));
        assert_eq!(Strategy::numbered(strategy.number()), Some(strategy));
        assert_eq!(strategy.to_string(), strategy.name());
    }
    for other in ["", "M", "P", "mp-", "MP- ", " MP-", "LGP+", "D+", "P+P+"] {
        assert_eq!(Strategy::named(other), None);
    }
    assert_eq!(Strategy::numbered(48), None);
    for refusal in Refusal::ALL {
        assert_eq!(Refusal::numbered(refusal.number()), Some(refusal));
        assert!(refusal.to_string().starts_with(&format!("{}: ", refusal.number())));
    }
    assert_eq!((0..300).filter(|number| Refusal::numbered(*number).is_some()).count(), 22);
    assert_eq!([Sign::Plus, Sign::Minus].map(|sign| sign.to_string()), ["+", "-"]);
}

/// The worked example of six marks: the plain side gives the sign that docs/STRATEGIES.md has for each strategy.
#[test]
fn six_marks() {
    use rules::marks::{Arrival, Mark, resolve};
    let marks = [(Mark::Plus, 1), (Mark::Minus, 1), (Mark::Default, 1), (Mark::Default, 2), (Mark::Plus, 3), (Mark::Default, 3)];
    let arrivals = marks.map(|(mark, distance)| Arrival { mark, distance, many: 1 });
    let signs: String = (0..48).map(|strategy| if resolve(strategy, &arrivals).sign == 0 { '+' } else { '-' }).collect();
    assert_eq!(signs, concat!("+-+++-+++-++++++", "+-+++-++++++++++", "+---+-----+---+-"));
}

/// Records that the library never writes are read without a panic.
#[test]
fn records_of_another_library() {
    let strange = ReplyRecord { refusal: 99, ..ReplyRecord::default() };
    assert_eq!(Reply::read(&join(0, 1), &strange), Reply::Unreadable);
    let strange = ReplyRecord { sign: 2, distance: 1 << 40, ..ReplyRecord::default() };
    assert_eq!(Reply::read(&quick(0, 1, 0, "P-"), &strange), Reply::Unreadable);
    let least = Call::Least { account: 0, item: 1, right: 0, sign: Sign::Plus, plan: Plan::Channels };
    assert_eq!(Reply::read(&least, &strange), Reply::Unreadable);
    let run = Run { status: 0, accounts: usize::MAX, grants: usize::MAX, replies: vec![] };
    assert_eq!(run.count(&[1, 2, 3], usize::MAX - 1, usize::MAX - 1, 7), 0);
    assert_eq!(run.standing(&[NO_RECORD]), vec![]);
}
