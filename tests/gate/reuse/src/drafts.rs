//! Requests to begin with: the independent program's, and some that come to their limit of bytes.

use oracle::encode::encode_request;
use oracle::generate::{any_request, asked, long_plan, request, Shape, SMALL, TINY};
use oracle::model::{item_count, Branch, Item, Request};
use oracle::reader::{ITEM_LIMIT, REQUEST_LIMIT};
use oracle::rng::Rng;
use oracle::table::Table;

use crate::asking::Asker;
use crate::parts::Parts;

/// Counts above this are not walked to.
pub const MOST: u32 = 5_000;
/// Fluents that an action senses at most where a plan is grown, since each of them doubles the states that it is grown along.
const SENSED: u32 = 6;
/// Bytes that a request that is made long may lack to the limit.
const SPARE: usize = 6;

/// A request of any kind; of a hundred, three are made long, and one has nearly as many items as a plan may have.
pub fn any_draft(rng: &mut Rng) -> Request {
    match rng.below(100) {
        0..=2 => long_draft(rng),
        3 => {
            let items = ITEM_LIMIT - rng.below(5);
            long_plan(rng, items)
        }
        _ => any_request(rng),
    }
}

/// A plan of a shape over the table of a request, from its facts, with goals and whether entries. Where some action senses very much it is one item
/// of that request's plan, or none, and asks nothing.
pub fn another(rng: &mut Rng, first: &Request, shape: &Shape) -> Request {
    let table = Table::new(first);
    if (0..first.actions).all(|action| table.senses(action).count_ones() <= SENSED) {
        return asked(rng, first.clone(), shape);
    }
    let plan = match first.plan.is_empty() || rng.chance(30) {
        true => Vec::new(),
        false => vec![rng.pick(&first.plan).clone()],
    };
    Request { plan, goals: Vec::new(), whether: Vec::new(), ..first.clone() }
}

/// One that was verified, its parts, and its count.
pub struct Verified {
    pub draft: Request,
    pub parts: Parts,
    pub count: u32,
}

/// Such a draft, if the call verifies it.
pub fn verified_draft(rng: &mut Rng, asker: &mut Asker) -> Result<Option<Verified>, String> {
    let draft = any_draft(rng);
    let parts = Parts::of(&draft);
    let told = asker.ask(&parts.bytes(), MOST)?;
    Ok(told.verified().map(|count| Verified { draft, parts, count }))
}

/// A budget from this count on, mostly just it.
pub fn budget_from(rng: &mut Rng, count: u32) -> u32 {
    match rng.below(10) {
        0..=4 => count,
        5 | 6 => count + 1 + rng.below(20) as u32,
        7 => u32::MAX,
        _ => count.max(MOST),
    }
}

/// The verified request asked once more within a budget that is not below its count: the count has to be the same.
pub fn within(asker: &mut Asker, verified: &Verified, budget: u32) -> Result<(), String> {
    match asker.ask(&verified.parts.bytes(), budget)?.verified() {
        Some(count) if count == verified.count => Ok(()),
        _ => Err(format!("verified with a count of {}, it is not so within a budget of {budget}", verified.count)),
    }
}

/// A small request that is made as long as a request may be, or a few bytes less.
fn long_draft(rng: &mut Rng) -> Request {
    let shape = Shape { known: [80; 3], careless: 0, ..*rng.pick(&[TINY, SMALL]) };
    loop {
        let draft = request(rng, &shape);
        if draft.facts.len() >= 3 {
            let spare = rng.below(SPARE + 1);
            return lengthened(rng, &draft, REQUEST_LIMIT - spare);
        }
    }
}

/// The request with branchings before its plan that cover all values of three of its facts' fluents and do nothing. One of their branches that is
/// never followed has actions, so that the length is exactly this.
fn lengthened(rng: &mut Rng, draft: &Request, length: usize) -> Request {
    let mut chosen = draft.facts.clone();
    rng.shuffle(&mut chosen);
    chosen.truncate(3);
    chosen.sort_unstable();
    let branch = |turned: u8| Branch {
        condition: (0..).zip(&chosen).map(|(bit, literal)| literal ^ (turned >> bit & 1)).collect(),
        sequence: Vec::new(),
    };
    let idle: Vec<Branch> = (0..8).map(branch).collect();
    let bytes_of = |request: &Request| encode_request(request).bytes.len();
    let with = |count: usize, actions: usize| {
        let mut plan = vec![Item::case(idle.clone()); count];
        if let Some(Item::Branching { branches, .. }) = plan.first_mut() {
            branches[1].sequence = vec![Item::act(0); actions];
        }
        plan.extend(draft.plan.iter().cloned());
        Request { plan, ..draft.clone() }
    };
    let bytes = bytes_of(draft);
    let each = bytes_of(&with(1, 0)) - bytes;
    let long = with((length - bytes) / each, (length - bytes) % each);
    assert!(bytes_of(&long) == length && item_count(&long.plan) <= ITEM_LIMIT, "a request of {length} bytes");
    long
}
