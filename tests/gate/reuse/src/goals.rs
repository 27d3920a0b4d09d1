//! Fewer goals: a verified request stays so within its budget, with the same count.

use oracle::rng::Rng;

use crate::asking::Asker;
use crate::drafts::{budget_from, verified_draft, within};
use crate::laws::{Law, Met, Tried};
use crate::parts::Parts;

const SOME_GOALS: &str = "some goals removed";
const ALL_GOALS: &str = "all goals removed";
const SOME_WHETHER: &str = "some whether entries removed";
const ALL_WHETHER: &str = "all whether entries removed";
const BOTH: &str = "goals and whether entries removed";
const NOTHING_LEFT: &str = "nothing is asked";
const JUST_ENOUGH: &str = "budget just the count";

pub const LAW: Law =
    Law { what: "fewer goals", stream: 12, trial, events: &[SOME_GOALS, ALL_GOALS, SOME_WHETHER, ALL_WHETHER, BOTH, NOTHING_LEFT, JUST_ENOUGH] };

fn trial(rng: &mut Rng, asker: &mut Asker, met: &mut Met) -> Result<Tried, String> {
    let Some(first) = verified_draft(rng, asker)? else { return Ok(Tried::No) };
    let fewer = Parts { goals: some(rng, &first.parts.goals), whether: some(rng, &first.parts.whether), ..first.parts.clone() };
    let goals = (fewer.goals.len(), first.parts.goals.len());
    let whether = (fewer.whether.len(), first.parts.whether.len());
    if goals.0 == goals.1 && whether.0 == whether.1 {
        return Ok(Tried::No);
    }
    let budget = budget_from(rng, first.count);
    within(asker, &first, budget)?;
    let told = asker.ask(&fewer.bytes(), budget)?;
    if told.verified() != Some(first.count) {
        return Err(format!("with fewer goals the answer 0 with count {} becomes {:?}", first.count, told.answer));
    }
    met.note(SOME_GOALS, 0 < goals.0 && goals.0 < goals.1);
    met.note(ALL_GOALS, 0 == goals.0 && goals.0 < goals.1);
    met.note(SOME_WHETHER, 0 < whether.0 && whether.0 < whether.1);
    met.note(ALL_WHETHER, 0 == whether.0 && whether.0 < whether.1);
    met.note(BOTH, goals.0 < goals.1 && whether.0 < whether.1);
    met.note(NOTHING_LEFT, goals.0 == 0 && whether.0 == 0);
    met.note(JUST_ENOUGH, budget == first.count);
    Ok(Tried::Yes)
}

/// All, some or none of the entries.
fn some(rng: &mut Rng, entries: &[u8]) -> Vec<u8> {
    let kept = *rng.pick(&[0, 0, 50, 80, 100]);
    entries.iter().copied().filter(|_| rng.chance(kept)).collect()
}
