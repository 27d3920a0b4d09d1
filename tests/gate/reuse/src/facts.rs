//! More facts: a verified request stays so within its budget, with a count that is no larger.

use oracle::reader::{LIST_LIMIT, REQUEST_LIMIT};
use oracle::rng::Rng;

use crate::asking::Asker;
use crate::drafts::{budget_from, verified_draft, within};
use crate::laws::{Law, Met, Tried};
use crate::parts::Parts;

const SMALLER: &str = "count smaller";
const EQUAL: &str = "count equal";
const JUST_ENOUGH: &str = "budget just the first count";
const SMALLER_THOUGH: &str = "budget just the first count, and count smaller";
const ALL_KNOWN: &str = "a fact for each fluent";
const FULL_LIST: &str = "as many facts as a list may have";
const FULL_REQUEST: &str = "as many bytes as a request may have";
const TOO_LONG: &str = "refused by 10";

pub const LAW: Law = Law {
    what: "more facts",
    stream: 11,
    trial,
    events: &[SMALLER, EQUAL, JUST_ENOUGH, SMALLER_THOUGH, ALL_KNOWN, FULL_LIST, FULL_REQUEST, TOO_LONG],
};

fn trial(rng: &mut Rng, asker: &mut Asker, met: &mut Met) -> Result<Tried, String> {
    let Some(first) = verified_draft(rng, asker)? else { return Ok(Tried::No) };
    let facts = more(rng, first.draft.fluents, &first.parts.facts);
    if facts.len() == first.parts.facts.len() {
        return Ok(Tried::No);
    }
    let budget = budget_from(rng, first.count);
    within(asker, &first, budget)?;
    let bytes = Parts { facts, ..first.parts.clone() }.bytes();
    let told = asker.ask(&bytes, budget)?;
    if bytes.len() > REQUEST_LIMIT {
        met.note(TOO_LONG, true);
        return match told.answer {
            [10, 1, 0, 0] => Ok(Tried::No),
            _ => Err("a request that is too long is not refused by 10".to_string()),
        };
    }
    let count = match told.verified() {
        Some(count) if count <= first.count => count,
        Some(count) => return Err(format!("with more facts the count {} becomes {count}", first.count)),
        None => return Err(format!("with more facts the answer 0 becomes {:?}", told.answer)),
    };
    met.note(SMALLER, count < first.count);
    met.note(EQUAL, count == first.count);
    met.note(JUST_ENOUGH, budget == first.count);
    met.note(SMALLER_THOUGH, budget == first.count && count < first.count);
    let facts = usize::from(bytes[2]);
    met.note(ALL_KNOWN, facts == usize::from(first.draft.fluents));
    met.note(FULL_LIST, facts == LIST_LIMIT);
    met.note(FULL_REQUEST, bytes.len() == REQUEST_LIMIT);
    Ok(Tried::Yes)
}

/// The facts with one, some or all of those that can be added, of fluents that are not among them.
fn more(rng: &mut Rng, fluents: u8, facts: &[u8]) -> Vec<u8> {
    let mut open: Vec<u8> = (0..fluents).filter(|fluent| facts.iter().all(|fact| fact / 2 != *fluent)).collect();
    rng.shuffle(&mut open);
    let added = match rng.below(3) {
        0 => 1,
        1 => rng.below(open.len() + 1),
        _ => open.len(),
    };
    open.truncate(added);
    let mut all: Vec<u8> = open.iter().map(|fluent| 2 * fluent + rng.byte(0, 1)).chain(facts.iter().copied()).collect();
    all.sort_unstable();
    all
}
