//! Access lists.

use crate::raw;
use std::fmt;

/// Texts above this have an output of one line.
const MOST_TEXT: usize = 57_000;

/// Why there is no output.
#[derive(Clone, Copy, Debug, PartialEq, Eq, Hash)]
pub enum ListError {
    /// Memory was wanting.
    Memory,
    /// The library told what it never tells: another status, or that it needs more room than it said. Another library was linked.
    Unreadable,
}

impl fmt::Display for ListError {
    fn fmt(&self, f: &mut fmt::Formatter<'_>) -> fmt::Result {
        f.write_str(match self {
            ListError::Memory => "memory was wanting",
            ListError::Unreadable => "the library told what it never tells",
        })
    }
}

impl std::error::Error for ListError {}

/// What one attempt came to.
enum Attempt {
    Written(Vec<u8>),
    Needs(usize),
}

/// Runs the list with room for so many bytes.
fn attempt(text: &[u8], room: usize) -> Result<Attempt, ListError> {
    let mut out = Vec::new();
    out.try_reserve_exact(room).map_err(|_| ListError::Memory)?;
    out.resize(room, 0);
    let run = raw::run_list(text, &mut out);
    let bytes = usize::try_from(run.bytes).map_err(|_| ListError::Unreadable)?;
    match run.status {
        0 if bytes <= room => {
            out.truncate(bytes);
            Ok(Attempt::Written(out))
        }
        1 => Ok(Attempt::Needs(bytes)),
        2 => Err(ListError::Memory),
        _ => Err(ListError::Unreadable),
    }
}

/// Runs an access list and gives its output, a line for each line of the text. Any bytes are allowed.
pub fn run_list(text: &[u8]) -> Result<Vec<u8>, ListError> {
    // enough unless there are many answers or short lines; otherwise the list is run once more, with the room that it needs
    let room = text.len().min(MOST_TEXT) + 64;
    match attempt(text, room)? {
        Attempt::Written(out) => Ok(out),
        Attempt::Needs(bytes) => match attempt(text, bytes)? {
            Attempt::Written(out) => Ok(out),
            Attempt::Needs(_) => Err(ListError::Unreadable),
        },
    }
}
