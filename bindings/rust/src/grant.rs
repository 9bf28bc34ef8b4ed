//! Grants.

use crate::raw::GrantRecord;
use crate::sign::Sign;

/// A yes or a no for the use of a right on an item by an account, and by all that it reaches.
#[derive(Clone, Copy, Debug, PartialEq, Eq, Hash)]
pub struct Grant {
    /// The account.
    pub account: u32,
    /// The item.
    pub item: u32,
    /// The right.
    pub right: u32,
    /// The sign.
    pub sign: Sign,
}

impl Grant {
    /// Reads a record; none where its sign is neither 0 nor 1, as may be in records behind the standing grants.
    pub const fn read(record: &GrantRecord) -> Option<Grant> {
        match Sign::numbered(record.sign) {
            Some(sign) => Some(Grant { account: record.account, item: record.item, right: record.right, sign }),
            None => None,
        }
    }
}

impl From<Grant> for GrantRecord {
    fn from(grant: Grant) -> GrantRecord {
        GrantRecord { account: grant.account, item: grant.item, right: grant.right, sign: grant.sign.number() }
    }
}
