//! The declarations of the library, and all `unsafe` code of this package.
//!
//! The records have the layout of `bindings/c/linseedladle.h`. A slice crosses as a pointer and a length; an empty slice of Rust has a pointer
//! that is aligned and not null, as the library asks. Borrowing sees to the rest: nothing that is written overlaps anything else.

use core::mem::{align_of, offset_of, size_of};

/// A grant as it lies in lent memory. The sign is 0 for plus and 1 for minus.
#[repr(C)]
#[derive(Clone, Copy, Debug, Default, PartialEq, Eq)]
pub struct GrantRecord {
    /// The account that the grant is given to.
    pub account: u32,
    /// The item that it is on.
    pub item: u32,
    /// The right that it is of.
    pub right: u32,
    /// 0 for plus, 1 for minus.
    pub sign: u32,
}

/// A call as it lies in memory. [`crate::Call`] writes it; any numbers are allowed, and what is no call is refused with 255.
#[repr(C)]
#[derive(Clone, Copy, Debug, Default, PartialEq, Eq)]
pub struct CallRecord {
    /// 0 join, 1 leave, 2 give, 3 withdraw, 4 quick, 5 walked, 6 least, 7 equip.
    pub kind: u32,
    /// 0 for the channels, 1 for the equipment table; it must be one of them in every kind but equip, where it is not looked at.
    pub plan: u32,
    /// The group, the account, or the item of equip.
    pub first: u32,
    /// The member, the item, or the first container of equip, 4294967295 for none.
    pub second: u32,
    /// The right, or the second container of equip, 4294967295 for none.
    pub third: u32,
    /// The sign of give and least, or the strategy of quick and walked.
    pub fourth: u32,
}

/// A reply as it lies in memory. [`crate::Reply`] reads it. What a call does not give is 0.
#[repr(C)]
#[derive(Clone, Copy, Debug, Default, PartialEq, Eq)]
pub struct ReplyRecord {
    /// 0 if the call was accepted, the number of its refusal, or 255 if the record was no call.
    pub refusal: u32,
    /// The sign of an answered question, 0 for plus and 1 for minus.
    pub sign: u32,
    /// The least distance, 255 for none.
    pub distance: u64,
    /// How many yeses arrive over each distance.
    pub plus: [u64; 15],
    /// How many noes arrive over each distance.
    pub minus: [u64; 15],
    /// How many default marks arrive over each distance.
    pub default: [u64; 15],
    /// How many marks count as a yes.
    pub plus_total: u64,
    /// How many marks count as a no.
    pub minus_total: u64,
}

/// What a run came to.
#[repr(C)]
#[derive(Clone, Copy, Debug, PartialEq, Eq)]
pub struct RunRecord {
    /// 0.
    pub status: u64,
    /// How many calls were made.
    pub calls: u64,
    /// How many accounts the book knows.
    pub accounts: u64,
    /// How many grants stand.
    pub grants: u64,
}

/// What running a list came to.
#[repr(C)]
#[derive(Clone, Copy, Debug, PartialEq, Eq)]
pub struct ListRunRecord {
    /// 0: the output is written. 1: it needs more room. 2: memory was wanting.
    pub status: u64,
    /// How many bytes the output has; 0 where memory was wanting.
    pub bytes: u64,
}

const _: () = {
    assert!(size_of::<usize>() == 8);
    assert!(size_of::<GrantRecord>() == 16 && align_of::<GrantRecord>() == 4);
    assert!(offset_of!(GrantRecord, account) == 0 && offset_of!(GrantRecord, item) == 4);
    assert!(offset_of!(GrantRecord, right) == 8 && offset_of!(GrantRecord, sign) == 12);
    assert!(size_of::<CallRecord>() == 24 && align_of::<CallRecord>() == 4);
    assert!(offset_of!(CallRecord, kind) == 0 && offset_of!(CallRecord, plan) == 4);
    assert!(offset_of!(CallRecord, first) == 8 && offset_of!(CallRecord, second) == 12);
    assert!(offset_of!(CallRecord, third) == 16 && offset_of!(CallRecord, fourth) == 20);
    assert!(size_of::<ReplyRecord>() == 392 && align_of::<ReplyRecord>() == 8);
    assert!(offset_of!(ReplyRecord, refusal) == 0 && offset_of!(ReplyRecord, sign) == 4);
    assert!(offset_of!(ReplyRecord, distance) == 8 && offset_of!(ReplyRecord, plus) == 16);
    assert!(offset_of!(ReplyRecord, minus) == 136 && offset_of!(ReplyRecord, default) == 256);
    assert!(offset_of!(ReplyRecord, plus_total) == 376 && offset_of!(ReplyRecord, minus_total) == 384);
    assert!(size_of::<RunRecord>() == 32 && align_of::<RunRecord>() == 8);
    assert!(offset_of!(RunRecord, status) == 0 && offset_of!(RunRecord, calls) == 8);
    assert!(offset_of!(RunRecord, accounts) == 16 && offset_of!(RunRecord, grants) == 24);
    assert!(size_of::<ListRunRecord>() == 16 && align_of::<ListRunRecord>() == 8);
    assert!(offset_of!(ListRunRecord, status) == 0 && offset_of!(ListRunRecord, bytes) == 8);
};

unsafe extern "C" {
    fn ladle_make_and_run(
        counts: *mut u32,
        counts_length: usize,
        records: *mut GrantRecord,
        records_length: usize,
        calls: *const CallRecord,
        calls_length: usize,
        replies: *mut ReplyRecord,
        replies_length: usize,
    ) -> RunRecord;

    fn ladle_run_list(text: *const u8, text_length: usize, out: *mut u8, out_length: usize) -> ListRunRecord;
}

/// Makes a book and makes the calls, as many as there is room for replies. The first N × N × 8 counts, as many records as grants stand,
/// and a reply for each call made are written; all memory behind them is left as it is.
pub fn make_and_run(counts: &mut [u32], records: &mut [GrantRecord], calls: &[CallRecord], replies: &mut [ReplyRecord]) -> RunRecord {
    // SAFETY: each pointer comes with the length of its slice, and the borrows keep the slices apart.
    unsafe {
        ladle_make_and_run(
            counts.as_mut_ptr(),
            counts.len(),
            records.as_mut_ptr(),
            records.len(),
            calls.as_ptr(),
            calls.len(),
            replies.as_mut_ptr(),
            replies.len(),
        )
    }
}

/// Runs an access list. The output is written where `out` has room for all of it; otherwise `out` is left as it is.
pub fn run_list(text: &[u8], out: &mut [u8]) -> ListRunRecord {
    // SAFETY: each pointer comes with the length of its slice, and the borrows keep the slices apart.
    unsafe { ladle_run_list(text.as_ptr(), text.len(), out.as_mut_ptr(), out.len()) }
}
