//! Access lists, run by the library and by a plain reading of the format.

mod chance;
mod rules;

use chance::{Chance, Habits};
use linseedladle::{raw, run_list};
use rules::list::{self, Session};
use rules::marks;
use std::collections::BTreeMap;
use std::path::Path;

const TOO_LONG: &[u8] = b"    0 21  0\n";

fn stored(name: &str) -> Vec<u8> {
    let file = Path::new(env!("CARGO_MANIFEST_DIR")).join("../../crates/runlist").join(name);
    std::fs::read(&file).unwrap_or_else(|error| panic!("{}: {error}", file.display()))
}

fn shown(text: &[u8]) -> String {
    text.split_inclusive(|byte| *byte == b'\n').map(|line| format!("{}\n", line.escape_ascii())).collect()
}

/// Runs a text through the wrapper and through lent memory of just enough, of more and of too little, and compares with the rules.
fn compare(text: &[u8]) -> Vec<u32> {
    let (should, numbers) = list::run(text);
    let is = run_list(text).expect("memory");
    if is != should {
        let place = is.split(|b| *b == b'\n').zip(should.split(|b| *b == b'\n')).position(|(a, b)| a != b);
        panic!("line {:?} differs\nlibrary:\n{}\nrules:\n{}\ntext:\n{}", place.map(|p| p + 1), shown(&is), shown(&should), shown(text));
    }
    for more in [0, 9] {
        let mut out = vec![0xA5; should.len() + more];
        let run = raw::run_list(text, &mut out);
        assert_eq!((run.status, run.bytes), (0, should.len() as u64));
        assert!(out[..should.len()] == should[..] && out[should.len()..].iter().all(|byte| *byte == 0xA5));
    }
    if !should.is_empty() {
        let mut out = vec![0xA5; should.len() - 1];
        let run = raw::run_list(text, &mut out);
        assert_eq!((run.status, run.bytes), (1, should.len() as u64));
        assert!(out.iter().all(|byte| *byte == 0xA5));
    }
    numbers
}

#[test]
fn the_stored_list_gives_the_stored_output() {
    assert_eq!(run_list(&stored("stdin")), Ok(stored("stdout")));
    compare(&stored("stdin"));
}

#[test]
fn an_empty_text_gives_nothing() {
    assert_eq!(run_list(b""), Ok(Vec::new()));
    compare(b"");
    compare(b"\n");
    compare(b"\n\n");
}

#[test]
fn a_text_above_57000_bytes_makes_no_call() {
    let line = b"J    0    1       \n";
    let longest = line.repeat(3000);
    assert_eq!(longest.len(), 57_000);
    assert_eq!(run_list(&longest).expect("memory").len(), 3000 * 12);
    compare(&longest);
    let mut above = longest.clone();
    above.push(b'\n');
    assert_eq!(run_list(&above), Ok(TOO_LONG.to_vec()));
    assert_eq!(run_list(&line.repeat(20_000)), Ok(TOO_LONG.to_vec()));
    compare(&above);
}

/// Outputs that are longer than their text: the wrapper asks twice.
#[test]
fn long_outputs_are_whole() {
    compare(&b"Q    0    1    4  \n".repeat(3000));
    compare(&b"\n".repeat(57_000));
}

/// A good line of each letter, with other bytes in each of its columns.
#[test]
fn every_column_of_every_line_damaged() {
    let good = [
        "J    0    1       ",
        "L    0    1       ",
        "G    4    1    4 -",
        "W    4    1    4  ",
        "Q    4    1    4  ",
        "E    0            ",
        "E    1    0       ",
        "E    2    0    1  ",
        "S              MP-",
        "S           D+MLP-",
    ];
    for line in good {
        let mut text = Vec::new();
        for column in 0..18 {
            for byte in *b" 0159+-JSGPMxDL\r\0\x80\xff" {
                let mut damaged = line.as_bytes().to_vec();
                damaged[column] = byte;
                text.extend(damaged);
                text.push(b'\n');
            }
        }
        compare(&text);
    }
}

/// A line that makes the call, with numbers that five columns can hold.
fn spelled(call: &[u32; 6]) -> Vec<u8> {
    let [kind, _, first, second, third, fourth] = *call;
    let number = |n: u32| format!("{:>5}", n.min(99_999));
    let optional = |n: u32| if n == u32::MAX { "     ".to_string() } else { number(n) };
    let three = || format!("{}{}{}", number(first), number(second), number(third));
    let line = match kind {
        0 => format!("J{}{}       ", number(first), number(second)),
        1 => format!("L{}{}       ", number(first), number(second)),
        2 => format!("G{} {}", three(), if fourth == 0 { '+' } else { '-' }),
        3 => format!("W{}  ", three()),
        4 | 5 => format!("Q{}  ", three()),
        6 => format!("S           {:>6}", marks::name(fourth % 48)),
        _ => format!("E{}{}{}  ", number(first), optional(second), optional(third)),
    };
    line.into_bytes()
}

/// Changes, leaves out or puts in a byte.
fn damage(chance: &mut Chance, line: &mut Vec<u8>) {
    let byte = chance.pick(b"  0019+-JLGWQESPMDx\n\r\t\0\x80\xff");
    let place = chance.below(line.len() as u32) as usize;
    match chance.below(6) {
        0 if !line.is_empty() => drop(line.remove(place)),
        1 => line.insert(place, byte),
        2 => line.clear(),
        _ if !line.is_empty() => line[place] = byte,
        _ => line.push(byte),
    }
}

/// A list whose lines are made up as the rules go on, some of them damaged.
fn random_text(chance: &mut Chance, many: usize, habits: &Habits, damaged: u32) -> Vec<u8> {
    let mut session = Session::new();
    let mut text = Vec::new();
    for _ in 0..many {
        let mut call = habits.call(chance, &session.rules);
        if call[0] == 6 {
            call[5] = chance.below(48);
        }
        let mut line = spelled(&call);
        if chance.percent(damaged) {
            damage(chance, &mut line);
        }
        for part in line.split(|byte| *byte == b'\n') {
            session.run_line(part);
        }
        text.extend(line);
        text.push(b'\n');
    }
    if chance.percent(30) {
        text.pop();
    }
    text
}

#[test]
fn library_and_rules_agree_on_random_lists() {
    let mut chance = Chance::new(57_000);
    let mut seen = BTreeMap::new();
    let (mut texts, mut lines) = (0, 0);
    for place in 0..500 {
        let many = chance.pick(&[1, 5, 20, 60, 120, 300]);
        let habits = Habits::any(&mut chance, 32);
        let (many, habits) = match place % 50 {
            0 => (900, Habits { kinds: [2, 1, 80, 3, 5, 0, 2, 2, 0], accounts: 32, items: 256, rights: 8, ..habits }),
            1 => (600, Habits { kinds: [5, 1, 5, 1, 10, 0, 2, 60, 0], items: 256, rights: 2, tall: 10, ..habits }),
            2..10 => (150, Habits { accounts: 12, step: 1, memberships: 18, ..habits }),
            _ => (many, habits),
        };
        let damaged = chance.pick(&[0, 0, 5, 30, 100]);
        let text = random_text(&mut chance, many, &habits, damaged);
        for number in compare(&text) {
            *seen.entry(number).or_insert(0) += 1;
            lines += 1;
        }
        texts += 1;
    }
    println!("{texts} lists, {lines} lines; refusals and faults {seen:?}");
    // a count of 99,999 takes more than 32 accounts, and 21 is a text's
    for number in (0..=20).filter(|number| *number != 5) {
        assert!(seen.contains_key(&number), "no line with {number}");
    }
}

/// Texts of any bytes, and of bytes that lines are made of.
#[test]
fn library_and_rules_agree_on_rubbish() {
    let mut chance = Chance::new(3);
    for _ in 0..300 {
        let many = chance.below(400);
        let any: Vec<u8> = (0..many).map(|_| chance.next() as u8).collect();
        compare(&any);
        let near: Vec<u8> = (0..many).map(|_| chance.pick(b"JLGWQES 0123+-PMDLG    \n")).collect();
        compare(&near);
    }
}
