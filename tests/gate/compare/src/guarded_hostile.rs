//! Guarded requests made to do harm: as large, deep and slow as the format lets them be, and a little beyond.

use oracle::encode::{encode_guarded, encode_request};
use oracle::model::{Allowance, Branch, Effect, Guarded, Item, Request};
use oracle::reader::{GUARD_LIMIT, ITEM_LIMIT, REQUEST_LIMIT};

use crate::calls::Call;
use crate::hostile::{all_lengths, eightfold, literals, senses, wide, Input, Named, FLUENTS, SECTION};

const GUARDS: u8 = GUARD_LIMIT as u8;
/// Budgets of walks that would never end otherwise, and one for walks that are slow for each count.
const BUDGETS: [u32; 3] = [0, 1, 100_000];
const MOST: u32 = BUDGETS[2];
const FEW: u32 = 1_000;
/// Fluents of which all are sensed, where the last of all readings breaks a guard.
const SENSED: u8 = 12;

pub fn guarded(name: &str, request: Vec<u8>, budget: u32) -> Named {
    (format!("guarded: {name}"), Input::Guarded(Call { request, lent: vec![9; glintstring::STATE_LENGTH], budget }))
}

/// A request with a guard for each of the first 64 fluents, which are true at the start.
fn with_guards(request: Request) -> Vec<u8> {
    let guards = literals(0..GUARDS);
    let facts = if request.facts.is_empty() { guards.clone() } else { request.facts.clone() };
    encode_guarded(&Guarded { request: Request { facts, ..request }, guards, ..Guarded::default() }).bytes
}

/// Every request by name, with the deepest guarded walks.
pub fn named(deepest: Vec<(String, Call)>) -> Vec<Named> {
    let mut inputs: Vec<Named> = deepest.into_iter().map(|(name, call)| guarded(&name, call.request, call.budget)).collect();
    inputs.extend(sensed_at_once());
    inputs.extend(long_plans());
    inputs.push(broken_at_last());
    inputs.extend(largest_request());
    inputs.extend(ninth_sections());
    inputs.extend(all_lengths(REQUEST_LIMIT).into_iter().map(|(name, bytes)| guarded(&format!("a request of {name}"), bytes, MOST)));
    inputs
}

/// 64 guards, and all other fluents sensed at once.
fn sensed_at_once() -> Vec<Named> {
    let request = Request { knowledge: senses(0, GUARDS..FLUENTS), plan: vec![Item::act(0)], whether: (0..FLUENTS).collect(), ..wide() };
    let bytes = with_guards(request);
    BUDGETS.iter().map(|&budget| guarded(&format!("{GUARDS} guards, all other fluents sensed at once, budget {budget}"), bytes.clone(), budget)).collect()
}

/// 64 guards before each of 1,024 actions, with 255 effects, and before branchings, which lead to no new state.
fn long_plans() -> Vec<Named> {
    let follow = Item::case(vec![Branch { condition: Vec::new(), sequence: Vec::new() }]);
    let effects = (0..SECTION).map(|i| Effect { place: 0, action: 0, literal: 2 * (i % 32) as u8, body: literals(32..48) }).collect();
    let branching = |branching: Item, times: usize| {
        let plan = [vec![Item::act(0)], vec![branching; times]].concat();
        with_guards(Request { knowledge: senses(0, GUARDS..FLUENTS), plan, ..wide() })
    };
    let last_lacking = Request { facts: literals(0..GUARDS - 1), plan: vec![Item::act(0); ITEM_LIMIT], ..wide() };
    vec![
        guarded("1,024 actions", with_guards(Request { plan: vec![Item::act(0); ITEM_LIMIT], ..wide() }), MOST),
        guarded("1,024 actions with 255 effects", with_guards(Request { effects, plan: vec![Item::act(0); ITEM_LIMIT], ..wide() }), MOST),
        guarded("1,023 branchings before each end state", branching(follow, ITEM_LIMIT - 1), FEW),
        guarded("100 branchings of eight branches before each end state", branching(eightfold(), 100), FEW),
        guarded("the last of 64 guards lacking at the start", with_guards(last_lacking), 0),
    ]
}

/// The last of all readings breaks the last guard: an action makes its fluent false where all fluents sensed are false.
fn broken_at_last() -> Named {
    let last = GUARDS - 1;
    let request = Request {
        knowledge: senses(0, GUARDS..GUARDS + SENSED),
        effects: vec![Effect { place: 0, action: 1, literal: 2 * last + 1, body: literals(GUARDS..GUARDS + SENSED).iter().map(|literal| literal + 1).collect() }],
        plan: vec![Item::act(0), Item::act(1)],
        ..wide()
    };
    guarded("the last guard broken in the last of 4,096 readings", with_guards(request), MOST)
}

/// All that 16,384 bytes can have: 64 guards, 255 effects and 255 executability lines, each with 16 literals, and branchings in what is left.
fn largest_request() -> Vec<Named> {
    let body = literals(0..16);
    let mut request = Request {
        fluents: FLUENTS,
        actions: 1,
        facts: literals(0..GUARDS),
        effects: vec![Effect { place: 0, action: 0, literal: 2 * (FLUENTS - 1), body: body.clone() }; SECTION],
        allowances: vec![Allowance { action: 0, body }; SECTION],
        ..Request::default()
    };
    let left = REQUEST_LIMIT - with_guards(request.clone()).len();
    let size = encode_request(&Request { plan: vec![eightfold()], ..Request::default() }).bytes.len() - encode_request(&Request::default()).bytes.len();
    request.plan = vec![eightfold(); left / size];
    request.plan.extend(vec![Item::act(0); left % size]);
    let full = with_guards(request);
    assert_eq!(full.len(), REQUEST_LIMIT, "the largest guarded request");
    vec![
        guarded("the largest request", full.clone(), MOST),
        guarded("the largest request and one byte more", [&full[..], &[0]].concat(), MOST),
        guarded("the largest request but for one byte", full[..full.len() - 1].to_vec(), MOST),
    ]
}

/// A ninth section that is not there, not whole or too long, or that is followed by all the bytes that a request may have.
fn ninth_sections() -> Vec<Named> {
    let eight = encode_request(&Request { facts: literals(0..GUARDS), ..wide() }).bytes;
    let ninth = |name: &str, section: Vec<u8>| guarded(name, [&eight[..], &section].concat(), MOST);
    let all = |count: u8| [vec![count], literals(0..count.min(FLUENTS))].concat();
    let padded = [vec![0], vec![0; REQUEST_LIMIT - eight.len() - 1]].concat();
    vec![
        ninth("no ninth section", Vec::new()),
        ninth("64 guards, none there", vec![GUARDS]),
        ninth("64 guards, 63 there", all(GUARDS)[..GUARD_LIMIT].to_vec()),
        ninth("65 guards", all(GUARDS + 1)),
        ninth("128 guards", all(FLUENTS)),
        ninth("255 guards, none there", vec![255]),
        ninth("64 guards 0", [vec![GUARDS], vec![0; GUARD_LIMIT]].concat()),
        ninth("no guards, and then as many bytes as there can be", padded),
    ]
}
