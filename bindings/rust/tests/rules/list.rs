//! A plain reading of access lists.

use super::chains::Way;
use super::items::Plan;
use super::{Grant, Rules, marks};

/// What a line says.
#[derive(Clone, Copy, Debug, PartialEq, Eq)]
pub enum Line {
    Join(u32, u32),
    Leave(u32, u32),
    Give(Grant),
    Withdraw(u32, u32, u32),
    Ask(u32, u32, u32),
    Equip(u32, Option<u32>, Option<u32>),
    Choose(u32),
}

/// A fault: its number and its column.
pub type Fault = (u32, usize);

/// The columns from one to another, counted from 1.
fn columns(line: &[u8], from: usize, to: usize) -> &[u8] {
    &line[from - 1..to]
}

fn is_blank(field: &[u8]) -> bool {
    field.iter().all(|byte| *byte == b' ')
}

/// The number that stands right-justified in five columns: exactly one spelling of each.
fn number(line: &[u8], from: usize) -> Result<u32, Fault> {
    let field = columns(line, from, from + 4);
    let digits: Vec<u8> = field.iter().copied().skip_while(|byte| *byte == b' ').collect();
    let written = String::from_utf8(digits).ok().filter(|text| !text.is_empty() && text.bytes().all(|b| b.is_ascii_digit()));
    let number: u32 = written.and_then(|text| text.parse().ok()).ok_or((19, from))?;
    if format!("{number:>5}").as_bytes() == field { Ok(number) } else { Err((19, from)) }
}

fn optional(line: &[u8], from: usize) -> Result<Option<u32>, Fault> {
    if is_blank(columns(line, from, from + 4)) { Ok(None) } else { number(line, from).map(Some) }
}

fn blanks(line: &[u8], from: usize, to: usize) -> Result<(), Fault> {
    match (from..=to).find(|column| line[column - 1] != b' ') {
        None => Ok(()),
        Some(column) => Err((20, column)),
    }
}

pub fn read_line(line: &[u8]) -> Result<Line, Fault> {
    if line.len() != 18 {
        return Err((17, 1));
    }
    match line[0] {
        letter @ (b'J' | b'L') => {
            let (group, member) = (number(line, 2)?, number(line, 7)?);
            blanks(line, 12, 18)?;
            Ok(if letter == b'J' { Line::Join(group, member) } else { Line::Leave(group, member) })
        }
        b'G' => {
            let (account, item, right) = (number(line, 2)?, number(line, 7)?, number(line, 12)?);
            blanks(line, 17, 17)?;
            let sign = match line[17] {
                b'+' => 0,
                b'-' => 1,
                _ => return Err((20, 18)),
            };
            Ok(Line::Give(Grant { account, item, right, sign }))
        }
        letter @ (b'W' | b'Q') => {
            let (account, item, right) = (number(line, 2)?, number(line, 7)?, number(line, 12)?);
            blanks(line, 17, 18)?;
            Ok(if letter == b'W' { Line::Withdraw(account, item, right) } else { Line::Ask(account, item, right) })
        }
        b'E' => {
            let item = number(line, 2)?;
            let first = optional(line, 7)?;
            if first.is_none() && !is_blank(columns(line, 12, 16)) {
                return Err((19, 7));
            }
            let second = optional(line, 12)?;
            blanks(line, 17, 18)?;
            Ok(Line::Equip(item, first, second))
        }
        b'S' => {
            blanks(line, 2, 12)?;
            let named = (0..48).find(|strategy| format!("{:>6}", marks::name(*strategy)).as_bytes() == columns(line, 13, 18));
            named.map(Line::Choose).ok_or((16, 13))
        }
        _ => Err((18, 1)),
    }
}

/// The lines of a text, without their line feeds.
fn lines(text: &[u8]) -> Vec<&[u8]> {
    let mut lines: Vec<&[u8]> = text.split(|byte| *byte == b'\n').collect();
    if lines.last().is_some_and(|last| last.is_empty()) {
        lines.pop();
    }
    lines
}

/// A run of an access list, line by line.
pub struct Session {
    pub rules: Rules,
    pub strategy: u32,
}

impl Session {
    pub fn new() -> Session {
        Session { rules: Rules::new(32 * 32 * 8, 512, Way::Listed), strategy: 1 }
    }

    /// What the line comes to: a refusal or 0, a column or 0, and the rest of the line that is written.
    pub fn run_line(&mut self, line: &[u8]) -> (u32, usize, String) {
        let said = match read_line(line) {
            Ok(said) => said,
            Err((number, column)) => return (number, column, String::new()),
        };
        let came_to = match said {
            Line::Join(group, member) => self.rules.join(group, member),
            Line::Leave(group, member) => self.rules.leave(group, member),
            Line::Give(grant) => self.rules.give(grant),
            Line::Withdraw(account, item, right) => self.rules.withdraw(account, item, right),
            Line::Equip(item, first, second) => self.rules.equipment.add(item, first, second),
            Line::Choose(strategy) => {
                self.strategy = strategy;
                Ok(())
            }
            Line::Ask(account, item, right) => {
                let plan = if right < 4 { Plan::Equipment } else { Plan::Channels };
                match self.rules.ask(account, item, right, self.strategy, plan) {
                    Err(refusal) => Err(refusal),
                    Ok(answer) => {
                        let sign = if answer.sign == 0 { '+' } else { '-' };
                        return (0, 0, format!(" {sign}{:>13}{:>13}", answer.plus_total, answer.minus_total));
                    }
                }
            }
        };
        (came_to.err().unwrap_or(0), 0, String::new())
    }
}

/// The output of a list, and the refusals and faults in it.
pub fn run(text: &[u8]) -> (Vec<u8>, Vec<u32>) {
    if text.len() > 57_000 {
        return (b"    0 21  0\n".to_vec(), vec![21]);
    }
    let mut session = Session::new();
    let (mut out, mut numbers) = (String::new(), Vec::new());
    for (line, place) in lines(text).into_iter().zip(1..) {
        let (number, column, rest) = session.run_line(line);
        out.push_str(&format!("{place:>5}{number:>3}{column:>3}{rest}\n"));
        numbers.push(number);
    }
    (out.into_bytes(), numbers)
}
