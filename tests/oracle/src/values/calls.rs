//! Random values calls: requests right or damaged, and budgets about the count.

use super::damage::damage_valued;
use super::generate::any_valued;
use super::walk::walk;
use super::Valued;
use crate::calls::{budget_near, lent_state, outlook, some_damaged, JudgeCall, Outlook, COUNT_CAP};
use crate::encode::encode_valued;
use crate::reader::REQUEST_LIMIT;
use crate::rng::Rng;

/// A values call of any kind; about four of ten requests are damaged.
pub fn values_call(rng: &mut Rng) -> JudgeCall {
    let draft = loop {
        let draft = any_valued(rng);
        if encode_valued(&draft).bytes.len() <= REQUEST_LIMIT {
            break draft;
        }
    };
    some_damaged(
        rng,
        40,
        |rng| damaged_values_call(rng, &draft),
        |rng| sound_values_call(rng, &draft),
    )
}

/// A call with an undamaged request, and a budget about the count at which its walk ends.
pub fn sound_values_call(rng: &mut Rng, draft: &Valued) -> JudgeCall {
    let count = walk(draft, COUNT_CAP).count();
    JudgeCall {
        request: encode_valued(draft).bytes,
        lent: lent_state(rng),
        budget: budget_near(rng, count),
        outlook: Outlook::Walked,
    }
}

/// A call with a damaged request.
pub fn damaged_values_call(rng: &mut Rng, draft: &Valued) -> JudgeCall {
    let damaged = damage_valued(rng, draft);
    JudgeCall {
        lent: lent_state(rng),
        budget: *rng.pick(&[0, 3, 20, 1_000, COUNT_CAP]),
        outlook: outlook(1, &damaged),
        request: damaged.bytes,
    }
}
