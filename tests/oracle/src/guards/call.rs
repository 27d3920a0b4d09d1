//! The guarded call.

use crate::answer::{Answer, Fault};
use crate::model::Guarded;
use crate::reader::read_guarded;
use crate::settle::settle;
use crate::walk::walk_guarded;
use crate::{judge_opened, write};

/// The guarded call: 9, then the reading of all nine sections and the settling, then the walk.
///
/// Answers 1, 2 and 43 write the partial state concerned; otherwise the lent state stays as it is.
pub fn judge_guarded(request: &[u8], lent: &mut [u8], budget: u32) -> Answer {
    judge_guarded_line(request, lent, budget).0
}

/// The guarded call with the line that its answer carries, which is 0 for 43.
pub fn judge_guarded_line(request: &[u8], lent: &mut [u8], budget: u32) -> (Answer, u32) {
    let opened = || open_guarded(request);
    judge_opened(lent, budget, opened, |guarded, lent| {
        walk_guarded(&guarded, budget).map_err(|broken| {
            write(broken.state, lent);
            Answer::of_walk(43, broken.place, broken.count)
        })
    })
}

/// Reads and settles a guarded request: 10 to 21. What is settled asks nothing of the guards.
pub fn open_guarded(request: &[u8]) -> Result<Guarded, Fault> {
    let guarded = read_guarded(request)?;
    settle(&guarded.request)?;
    Ok(guarded)
}
