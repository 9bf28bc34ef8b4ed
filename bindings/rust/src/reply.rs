//! Replies.

use crate::call::Call;
use crate::raw::ReplyRecord;
use crate::refusal::Refusal;
use crate::sign::Sign;

/// The number of no distance.
const NO_DISTANCE: u64 = 255;

/// The answer of a question.
#[derive(Clone, Copy, Debug, PartialEq, Eq, Hash)]
pub struct Answer {
    /// The sign that the strategy gives.
    pub sign: Sign,
    /// How many yeses arrive over each distance from 0 to 14.
    pub plus: [u64; 15],
    /// How many noes arrive over each distance.
    pub minus: [u64; 15],
    /// How many default marks arrive over each distance.
    pub default: [u64; 15],
    /// How many marks are a yes once the strategy has settled the default marks.
    pub plus_total: u64,
    /// How many marks are a no then.
    pub minus_total: u64,
}

/// What a call gave.
#[derive(Clone, Copy, Debug, PartialEq, Eq, Hash)]
#[allow(clippy::large_enum_variant)]
pub enum Reply {
    /// A join, a leave, a give, a withdraw or an equip was accepted.
    Done,
    /// A quick or a walked question was answered.
    Answered(Answer),
    /// A least question was answered: the distance, 0 to 14, or none.
    Distance(Option<u8>),
    /// The call was refused and changed nothing.
    Refused(Refusal),
    /// The record holds what the library never writes. Another library was linked.
    Unreadable,
}

impl Reply {
    /// Reads the record that the call was answered with.
    pub fn read(call: &Call, record: &ReplyRecord) -> Reply {
        Reply::of(call, record).unwrap_or(Reply::Unreadable)
    }

    fn of(call: &Call, record: &ReplyRecord) -> Option<Reply> {
        if record.refusal != 0 {
            return Refusal::numbered(record.refusal).map(Reply::Refused);
        }
        match call {
            Call::Quick { .. } | Call::Walked { .. } => Some(Reply::Answered(Answer {
                sign: Sign::numbered(record.sign)?,
                plus: record.plus,
                minus: record.minus,
                default: record.default,
                plus_total: record.plus_total,
                minus_total: record.minus_total,
            })),
            Call::Least { .. } if record.distance == NO_DISTANCE => Some(Reply::Distance(None)),
            Call::Least { .. } => u8::try_from(record.distance).ok().map(|distance| Reply::Distance(Some(distance))),
            _ => Some(Reply::Done),
        }
    }

    /// The answer of a question, or the refusal; none where it was no question that has an answer.
    pub fn answer(&self) -> Option<Result<&Answer, Refusal>> {
        match self {
            Reply::Answered(answer) => Some(Ok(answer)),
            Reply::Refused(refusal) => Some(Err(*refusal)),
            _ => None,
        }
    }

    /// The refusal, if the call was refused.
    pub fn refusal(&self) -> Option<Refusal> {
        match self {
            Reply::Refused(refusal) => Some(*refusal),
            _ => None,
        }
    }
}
