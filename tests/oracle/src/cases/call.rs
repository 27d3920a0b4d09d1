//! The call by cases.

use super::way::walk_by_cases;
use crate::answer::{Answer, Fault, REQUEST};
use crate::{judge_opened, open};

/// The answer to an action with too many cases.
pub const TOO_MANY: u8 = 44;

/// The call by cases: 9, then the request's reading and settling, then the walk by cases.
///
/// Answers 1 and 2 write the partial state concerned; otherwise the lent state stays as it is.
pub fn judge_by_cases(request: &[u8], lent: &mut [u8], budget: u32) -> Answer {
    judge_by_cases_line(request, lent, budget).0
}

/// The call by cases with the line that its answer carries, which is 0 for 44.
pub fn judge_by_cases_line(request: &[u8], lent: &mut [u8], budget: u32) -> (Answer, u32) {
    let opened = || open(request);
    judge_opened(lent, budget, opened, |request, _| {
        // The count is 0, as that of a refusal is.
        walk_by_cases(&request, budget)
            .map_err(|too_many| Answer::refusal(REQUEST, Fault::new(TOO_MANY, too_many.place)))
    })
}
