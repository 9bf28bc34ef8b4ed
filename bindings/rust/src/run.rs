//! Runs of calls on a book.

use crate::call::Call;
use crate::grant::Grant;
use crate::raw::{self, CallRecord, GrantRecord, ReplyRecord, RunRecord};
use crate::reply::Reply;

/// What a run came to.
#[derive(Clone, Debug, PartialEq, Eq)]
pub struct Run {
    /// 0.
    pub status: u64,
    /// How many accounts the book knows.
    pub accounts: usize,
    /// How many grants stand; they are the first records.
    pub grants: usize,
    /// What each call gave, in their order.
    pub replies: Vec<Reply>,
}

impl Run {
    /// How many chains of the length lead from account `a` down to account `s`, read off the counts that were lent to the run; 0 where an
    /// account or the length is out of range.
    pub fn count(&self, counts: &[u32], a: usize, s: usize, length: usize) -> u32 {
        if a >= self.accounts || s >= self.accounts || length > 7 {
            return 0;
        }
        let place = a.checked_mul(self.accounts).and_then(|row| row.checked_add(s)).and_then(|pair| pair.checked_mul(8));
        place.and_then(|place| counts.get(place.checked_add(length)?)).copied().unwrap_or(0)
    }

    /// The grants that stand, read off the records that were lent to the run.
    pub fn standing(&self, records: &[GrantRecord]) -> Vec<Grant> {
        records.iter().take(self.grants).filter_map(Grant::read).collect()
    }
}

/// A number of the library as a length.
fn length(number: u64) -> usize {
    usize::try_from(number).unwrap_or(usize::MAX)
}

/// Writes the calls into records, has the run made, and reads the replies.
fn served(calls: &[Call], run: impl FnOnce(&[CallRecord], &mut [ReplyRecord]) -> RunRecord) -> Run {
    let written: Vec<CallRecord> = calls.iter().map(|call| CallRecord::from(*call)).collect();
    let mut replies = vec![ReplyRecord::default(); calls.len()];
    let came_to = run(&written, &mut replies);
    Run {
        status: came_to.status,
        accounts: length(came_to.accounts),
        grants: length(came_to.grants),
        replies: calls.iter().zip(&replies).take(length(came_to.calls)).map(|(call, record)| Reply::read(call, record)).collect(),
    }
}

/// Makes a book and makes the calls on it, in their order.
///
/// The book knows N accounts, the largest number from 0 to 64 for which N × N × 8 counts fit, and its capacity is the number of records,
/// and 512 at most. What lies in the memory before is not looked at. Afterwards the first N × N × 8 counts are the numbers of chains over the
/// memberships that stand ([`Run::count`]), and the first records are the grants that stand ([`Run::standing`]); everything behind them is
/// left as it is.
pub fn make_and_run(counts: &mut [u32], records: &mut [GrantRecord], calls: &[Call]) -> Run {
    served(calls, |calls, replies| raw::make_and_run(counts, records, calls, replies))
}
