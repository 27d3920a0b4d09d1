//! The values call.

use super::walk::walk;
use super::Valued;
use crate::answer::{Answer, Fault};
use crate::judge_opened;
use crate::reader::read_valued;
use crate::settle::settle;

/// The values call: 9, then the reading of a values request and the settling, then the walk.
///
/// Answers 1 and 2 write the partial state concerned; otherwise the lent state stays as it is.
pub fn judge_values(request: &[u8], lent: &mut [u8], budget: u32) -> Answer {
    let opened = || open_valued(request);
    judge_opened(lent, budget, opened, |valued, _| Ok(walk(&valued, budget))).0
}

/// Reads and settles a values request: 10 to 21 and 46.
pub fn open_valued(request: &[u8]) -> Result<Valued, Fault> {
    let valued = read_valued(request)?;
    settle(&valued.request)?;
    Ok(valued)
}
