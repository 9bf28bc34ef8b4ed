//! A safe wrapper of Linseedladle: an access book for shared ground stations, and the access list.
//!
//! [`make_and_run`] makes a book over memory that the caller lends and makes a list of calls on it; [`run_list`] runs an access list. Both
//! are proved functions of the static library; the wrapper around them is only tested. Nothing here panics, whatever it is given.
//!
//! [`raw`] has the same calls over plain records, with memory for the replies lent too, and all `unsafe` code of the package.

#![deny(missing_docs, unsafe_code)]

mod call;
mod grant;
mod list;
#[allow(unsafe_code)]
pub mod raw;
mod refusal;
mod reply;
mod run;
mod sign;
mod strategy;

pub use call::{Call, Plan};
pub use grant::Grant;
pub use list::{ListError, run_list};
pub use raw::GrantRecord;
pub use refusal::Refusal;
pub use reply::{Answer, Reply};
pub use run::{Run, make_and_run};
pub use sign::Sign;
pub use strategy::Strategy;
