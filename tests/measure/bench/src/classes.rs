//! The requests that are timed, equally many in each of six classes. Those of the first five have 64 fluents and actions at the most.

use glintstring::STATE_LENGTH;
use oracle::encode::encode_request;
use oracle::generate::{forgetful, request, Shape, LARGE, MIDDLE, SMALL, TINY, WIDE};
use oracle::model::{item_count, Allowance, Item, Knowledge, Request};
use oracle::reader::{ITEM_LIMIT, REQUEST_LIMIT};
use oracle::rng::Rng;
use oracle::walk::{walk, Verdict};

use crate::crowded::crowded_of;

pub const NAMES: [&str; 6] = ["small tables", "medium tables", "large tables", "long plans", "budget spent", "wide tables"];
/// The budget of the program `judge`; walks of all classes but one end within it, and within `MOST`.
const BUDGET: u32 = 100_000;
const MOST: u32 = 10_000;
/// The class whose walks spend their budget, and that budget.
const SPENDING: usize = 4;
const SPENT: u32 = 5_000;
/// Items of a long plan at least, and the least that its walk counts.
const LONG: usize = 256;
const FAR: u64 = 256;

/// A call to be timed, and what it is lent.
pub struct Timed {
    pub request: Vec<u8>,
    pub budget: u32,
    pub lent: [u8; STATE_LENGTH],
}

/// A plan of so many steps over a table of some size.
const LONG_PLAN: Shape = Shape { fluents: (4, 40), actions: (3, 30), steps: (LONG, ITEM_LIMIT), effects: 4, careless: 0, ..LARGE };

/// A small request.
pub fn small(rng: &mut Rng) -> Request {
    let shape = *rng.pick(&[TINY, SMALL]);
    request(rng, &shape)
}

/// One of medium size.
pub fn medium(rng: &mut Rng) -> Request {
    request(rng, &MIDDLE)
}

/// One with a table near its limits.
pub fn large(rng: &mut Rng) -> Request {
    crowded_of(rng, (110, 128), (2, 128))
}

/// So many requests of a class.
pub fn class(seed: u64, class: usize, count: u64) -> Vec<Timed> {
    let of_index = |index: u64| {
        let mut rng = Rng::new(seed, 100 + class as u64, index);
        loop {
            if let Some(timed) = drawn(&mut rng, class, index) {
                return timed;
            }
        }
    };
    (0..count).map(of_index).collect()
}

/// A request of a class, if the one drawn is of it.
fn drawn(rng: &mut Rng, class: usize, index: u64) -> Option<Timed> {
    let draft = match class {
        0 => small(rng),
        1 => medium(rng),
        2 => match rng.chance(50) {
            true => request(rng, &LARGE),
            false => crowded_of(rng, (17, 64), (2, 64)),
        },
        3 => request(rng, &LONG_PLAN),
        SPENDING => spending(rng, index),
        _ => match rng.chance(50) {
            true => request(rng, &WIDE),
            false => crowded_of(rng, WIDE.fluents, WIDE.actions),
        },
    };
    let bytes = encode_request(&draft).bytes;
    let budget = if class == SPENDING { SPENT } else { BUDGET };
    let fits = bytes.len() <= REQUEST_LIMIT && in_class(class, &draft);
    fits.then(|| Timed { request: bytes, budget, lent: [rng.byte(0, 255); STATE_LENGTH] })
}

/// A request whose walk may well spend its budget; the kinds take turns.
fn spending(rng: &mut Rng, index: u64) -> Request {
    match index % 4 {
        0 => looks(rng),
        1 => request(rng, &LARGE),
        2 => request(rng, &LONG_PLAN),
        _ => forgetful(rng, 63, ITEM_LIMIT / 2),
    }
}

/// A table of medium size with a look at each fluent added, and a plan that takes all the looks before and after its own items.
fn looks(rng: &mut Rng) -> Request {
    let mut draft = request(rng, &MIDDLE);
    let (first, fluents) = (draft.actions, draft.fluents);
    draft.actions += fluents;
    for fluent in 0..fluents {
        draft.knowledge.push(Knowledge { place: 0, action: first + fluent, fluent });
        draft.allowances.push(Allowance { action: first + fluent, body: Vec::new() });
    }
    let looks = || (0..fluents).map(|fluent| Item::act(first + fluent));
    draft.plan = looks().chain(draft.plan.clone()).chain(looks()).collect();
    draft
}

fn in_class(class: usize, draft: &Request) -> bool {
    let count = match walk(draft, if class == SPENDING { SPENT } else { MOST }) {
        Verdict::Over => return class == SPENDING,
        Verdict::Verified { count } | Verdict::Missed { count, .. } | Verdict::Stuck { count, .. } => count,
    };
    match class {
        3 => item_count(&draft.plan) >= LONG && count >= FAR,
        SPENDING => false,
        _ => true,
    }
}
