//! The records that cross to the proved library, and its functions. The plain book takes the same records.

#[repr(C)]
#[derive(Clone, Copy, Default, Debug, PartialEq)]
pub struct GrantRecord {
    pub account: u32,
    pub item: u32,
    pub right: u32,
    pub sign: u32,
}

#[repr(C)]
#[derive(Clone, Copy, Default, Debug)]
pub struct CallRecord {
    pub kind: u32,
    pub plan: u32,
    pub first: u32,
    pub second: u32,
    pub third: u32,
    pub fourth: u32,
}

#[repr(C)]
#[derive(Clone, Copy, Default, Debug, PartialEq)]
pub struct ReplyRecord {
    pub refusal: u32,
    pub sign: u32,
    pub distance: u64,
    pub plus: [u64; 15],
    pub minus: [u64; 15],
    pub default: [u64; 15],
    pub plus_total: u64,
    pub minus_total: u64,
}

#[repr(C)]
#[derive(Clone, Copy, Default, Debug)]
pub struct Run {
    pub status: u64,
    pub calls: u64,
    pub accounts: u64,
    pub grants: u64,
}

#[repr(C)]
#[derive(Clone, Copy, Default, Debug)]
pub struct ListRun {
    pub status: u64,
    pub bytes: u64,
}

mod linked {
    use super::*;
    extern "C" {
        pub fn ladle_make_and_run(
            counts: *mut u32,
            counts_len: usize,
            records: *mut GrantRecord,
            records_len: usize,
            calls: *const CallRecord,
            calls_len: usize,
            replies: *mut ReplyRecord,
            replies_len: usize,
        ) -> Run;
        pub fn ladle_run_list(text: *const u8, text_len: usize, out: *mut u8, out_len: usize) -> ListRun;
    }
}

/// The proved book.
pub fn proved(counts: &mut [u32], records: &mut [GrantRecord], calls: &[CallRecord], replies: &mut [ReplyRecord]) -> Run {
    unsafe {
        linked::ladle_make_and_run(
            counts.as_mut_ptr(),
            counts.len(),
            records.as_mut_ptr(),
            records.len(),
            calls.as_ptr(),
            calls.len(),
            replies.as_mut_ptr(),
            replies.len(),
        )
    }
}

/// The proved access list.
pub fn proved_list(text: &[u8], out: &mut [u8]) -> ListRun {
    unsafe { linked::ladle_run_list(text.as_ptr(), text.len(), out.as_mut_ptr(), out.len()) }
}
