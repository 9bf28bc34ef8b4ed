//! Marks, and the four steps by which a strategy turns them into one sign.

#[derive(Clone, Copy, Debug, PartialEq, Eq)]
pub enum Mark {
    Plus,
    Minus,
    Default,
}

/// A mark over a distance; many of them where chains were counted over levels, else one.
#[derive(Clone, Copy, Debug)]
pub struct Arrival {
    pub mark: Mark,
    pub distance: usize,
    pub many: u64,
}

/// The sign, 0 for plus and 1 for minus, and the totals once default marks are settled.
pub struct Decided {
    pub sign: u32,
    pub plus: u64,
    pub minus: u64,
}

const DEFAULTS: [&str; 3] = ["", "D+", "D-"];
const MIDDLES: [&str; 8] = ["", "M", "L", "ML", "LM", "G", "MG", "GM"];
const PREFERRED: [&str; 2] = ["P+", "P-"];

/// The parts of a strategy's name.
fn parts(strategy: u32) -> (&'static str, &'static str, u32) {
    let number = strategy as usize;
    (DEFAULTS[number / 16], MIDDLES[number % 16 / 2], strategy % 2)
}

/// A strategy's name.
pub fn name(strategy: u32) -> String {
    let (default, middle, preferred) = parts(strategy);
    format!("{default}{middle}{}", PREFERRED[preferred as usize])
}

/// How many votes of the sign there are.
fn tally(votes: &[(u32, usize, u64)], sign: u32) -> u64 {
    votes.iter().filter(|vote| vote.0 == sign).map(|vote| vote.2).sum()
}

pub fn resolve(strategy: u32, arrivals: &[Arrival]) -> Decided {
    let (default, middle, preferred) = parts(strategy);

    // default
    let mut votes = Vec::new();
    for arrival in arrivals {
        match (arrival.mark, default) {
            (Mark::Plus, _) | (Mark::Default, "D+") => votes.push((0, arrival.distance, arrival.many)),
            (Mark::Minus, _) | (Mark::Default, "D-") => votes.push((1, arrival.distance, arrival.many)),
            (Mark::Default, _) => {}
        }
    }

    // distance
    let distances = votes.iter().map(|vote| vote.1);
    let chosen = if middle.contains('L') {
        distances.min()
    } else if middle.contains('G') {
        distances.max()
    } else {
        None
    };
    let kept: Vec<_> = votes.iter().copied().filter(|vote| chosen.is_none_or(|distance| vote.1 == distance)).collect();

    // majority
    let compared = match middle {
        "M" | "ML" | "MG" => Some(&votes),
        "LM" | "GM" => Some(&kept),
        _ => None,
    };
    let larger = compared.and_then(|some| match tally(some, 0).cmp(&tally(some, 1)) {
        std::cmp::Ordering::Greater => Some(0),
        std::cmp::Ordering::Less => Some(1),
        std::cmp::Ordering::Equal => None,
    });

    // the rest
    let single = match (tally(&kept, 0), tally(&kept, 1)) {
        (1.., 0) => Some(0),
        (0, 1..) => Some(1),
        _ => None,
    };
    Decided { sign: larger.or(single).unwrap_or(preferred), plus: tally(&votes, 0), minus: tally(&votes, 1) }
}
