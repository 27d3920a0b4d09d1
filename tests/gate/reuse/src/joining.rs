//! Plans joined: where X leads to Y by one plan and Y to Z by a second, X leads to Z by both, if the budget is not below what is enough.

use oracle::encode::encode_request;
use oracle::generate::{common, Shape, MIDDLE, SMALL, TINY};
use oracle::model::{item_count, Item, Request};
use oracle::reader::{ITEM_LIMIT, REQUEST_LIMIT};
use oracle::rng::Rng;
use oracle::table::{bit, Known};
use oracle::walk::ends;

use crate::asking::Asker;
use crate::drafts::{another, any_draft, MOST};
use crate::laws::{Law, Met, Tried};
use crate::parts::Parts;

const MANY_ENDS: &str = "more than one end state of the first";
const FIRST_EMPTY: &str = "first plan empty";
const SECOND_EMPTY: &str = "second plan empty";
const BRANCHINGS: &str = "branchings in both";
const JUST_ENOUGH: &str = "budget just (c - e) + e * d";
const SHARP: &str = "budget just (c - e) + e * d, more than one end state, and all of it needed";
const LESS: &str = "count below (c - e) + e * d";
const PRODUCT: &str = "budget c * d";
const PRODUCT_ABOVE: &str = "c * d above (c - e) + e * d";
const ASKS_MORE: &str = "the first asks more than the second starts from";
const ASKED: &str = "goals and whether entries asked of both";
const ALL_ITEMS: &str = "as many items as a plan may have";
const TOO_LONG: &str = "refused by 10";
const TOO_MANY: &str = "refused by 21";

pub const LAW: Law = Law {
    what: "joining",
    stream: 13,
    trial,
    events: &[
        MANY_ENDS,
        FIRST_EMPTY,
        SECOND_EMPTY,
        BRANCHINGS,
        JUST_ENOUGH,
        SHARP,
        LESS,
        PRODUCT,
        PRODUCT_ABOVE,
        ASKS_MORE,
        ASKED,
        ALL_ITEMS,
        TOO_LONG,
        TOO_MANY,
    ],
};

/// Counts above this are not walked to.
const MOST_JOINED: u64 = 100_000;

fn trial(rng: &mut Rng, asker: &mut Asker, met: &mut Met) -> Result<Tried, String> {
    let Some((first, ends)) = first_request(rng) else { return Ok(Tried::No) };
    let second = second_request(rng, &first);
    let (one, two) = (Parts::of(&first), Parts::of(&second));
    let Some(c) = asker.ask(&one.bytes(), MOST)?.verified() else { return Ok(Tried::No) };
    let Some(d) = asker.ask(&two.bytes(), MOST)?.verified() else { return Ok(Tried::No) };
    let (c, d, e) = (u64::from(c), u64::from(d), ends.len() as u64);
    let ran = c.checked_sub(e).ok_or_else(|| format!("the first count is {c}, and there are {e} end states by the independent program"))?;
    let enough = ran + e * d;
    if enough > MOST_JOINED {
        return Ok(Tried::No);
    }
    let joined = one.joined(&two).bytes();
    let plan: Vec<Item> = first.plan.iter().chain(&second.plan).cloned().collect();
    let items = item_count(&plan);
    let written = Request { plan, facts: first.facts.clone(), ..second.clone() };
    if encode_request(&written).bytes != joined {
        return Err("the joined request differs from the one that the independent program writes".to_string());
    }
    // Within the budget that is enough, or one above it, and then within the product of the counts.
    let budget = match rng.below(10) {
        0..=7 => enough as u32,
        8 => enough as u32 + 1 + rng.below(20) as u32,
        _ => u32::MAX,
    };
    let told = asker.ask(&joined, budget)?;
    let refused = match (joined.len() > REQUEST_LIMIT, items > ITEM_LIMIT) {
        (true, _) => Some((10, TOO_LONG)),
        (_, true) => Some((21, TOO_MANY)),
        _ => None,
    };
    if let Some((number, event)) = refused {
        met.note(event, true);
        return match told.number() == number {
            true => Ok(Tried::No),
            false => Err(format!("the joined request has {} bytes and {items} items, and the answer is not {number}", joined.len())),
        };
    }
    let count = not_above(&told.verified(), enough)?;
    let product = c * d;
    if product < enough {
        return Err(format!("{c} * {d} is below {enough}"));
    }
    if let Ok(budget) = u32::try_from(product) {
        let again = not_above(&asker.ask(&joined, budget)?.verified(), enough)?;
        if again != count {
            return Err(format!("the count is {count}, and {again} within a budget of {budget}"));
        }
        met.note(PRODUCT, true);
    }
    met.note(MANY_ENDS, e > 1);
    met.note(FIRST_EMPTY, first.plan.is_empty());
    met.note(SECOND_EMPTY, second.plan.is_empty());
    met.note(BRANCHINGS, branches(&first.plan) && branches(&second.plan));
    met.note(JUST_ENOUGH, u64::from(budget) == enough);
    met.note(SHARP, e > 1 && d > 1 && u64::from(budget) == enough && u64::from(count) == enough);
    met.note(LESS, u64::from(count) < enough);
    met.note(PRODUCT_ABOVE, product > enough);
    met.note(ASKS_MORE, first.goals.len() > second.facts.len());
    met.note(ASKED, [&first, &second].iter().all(|request| !request.goals.is_empty() && !request.whether.is_empty()));
    met.note(ALL_ITEMS, items == ITEM_LIMIT);
    Ok(Tried::Yes)
}

/// The count of a joined request, which has to be verified with a count that is not above what is enough.
fn not_above(count: &Option<u32>, enough: u64) -> Result<u32, String> {
    match *count {
        Some(count) if u64::from(count) <= enough => Ok(count),
        Some(count) => Err(format!("the joined request has a count of {count}, above {enough}")),
        None => Err(format!("the joined request is not verified, and {enough} is enough")),
    }
}

/// A request whose paths all come to their ends, and the end states. Its goals are some of what is known at each end, and so are its whether entries.
fn first_request(rng: &mut Rng) -> Option<(Request, Vec<Known>)> {
    let mut first = any_draft(rng);
    if rng.chance(8) {
        first.plan.clear();
    }
    if encode_request(&first).bytes.len() > REQUEST_LIMIT {
        return None;
    }
    let ends = ends(&first, MOST)?;
    let kept = *rng.pick(&[60, 100, 100, 100]);
    first.goals = common(&ends).literals();
    first.goals.retain(|_| rng.chance(kept));
    first.whether.retain(|&fluent| ends.iter().all(|state| state.marked() & bit(fluent) != 0));
    let long = encode_request(&first).bytes.len() > REQUEST_LIMIT;
    (!long).then_some((first, ends))
}

/// A request over the same table that starts from the first one's goals, or from some of them.
fn second_request(rng: &mut Rng, first: &Request) -> Request {
    let mut facts = first.goals.clone();
    if rng.chance(15) {
        facts.retain(|_| rng.chance(70));
    }
    let shape = Shape { careless: 0, ..*rng.pick(&[TINY, TINY, SMALL, SMALL, MIDDLE]) };
    another(rng, &Request { facts, ..first.clone() }, &shape)
}

fn branches(plan: &[Item]) -> bool {
    plan.iter().any(|item| matches!(item, Item::Branching { .. }))
}
