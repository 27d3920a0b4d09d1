//! Requests by cases made to do harm: as large, deep and slow as the format lets them be, and a little beyond.

use oracle::encode::encode_request;
use oracle::model::{Allowance, Branch, Effect, Item, Request};
use oracle::reader::{BODY_LIMIT, ITEM_LIMIT, REQUEST_LIMIT};

use crate::calls::Call;
use crate::hostile::{all_lengths, always, eightfold, literals, senses, wide, Input, Named, FLUENTS, SECTION};

/// Open fluents that an action may have.
const OPEN: u8 = glintstring::MOST_OPEN as u8;
/// Budgets of walks that would never end otherwise, and one for walks that are slow for each count.
const BUDGETS: [u32; 3] = [0, 1, 100_000];
const MOST: u32 = BUDGETS[2];
const FEW: u32 = 1_000;
/// The last fluent, which is known true where it is asked for, and so its complement is false.
const LAST: u8 = FLUENTS - 1;
const BODY: u8 = BODY_LIMIT as u8;

pub fn by_cases(name: &str, request: Vec<u8>, budget: u32) -> Named {
    (format!("by cases: {name}"), Input::ByCases(Call { request, lent: vec![9; glintstring::STATE_LENGTH], budget }))
}

/// Every request by name, with the deepest walks by cases.
pub fn named(deepest: Vec<(String, Call)>) -> Vec<Named> {
    let mut inputs: Vec<Named> = deepest.into_iter().map(|(name, call)| by_cases(&name, call.request, call.budget)).collect();
    inputs.extend(dear_actions());
    inputs.extend(many_open());
    inputs.extend(sensed_at_once());
    inputs.push(too_many_at_last());
    inputs.extend(largest_request());
    inputs.extend(all_lengths(REQUEST_LIMIT).into_iter().map(|(name, bytes)| by_cases(&format!("a request of {name}"), bytes, MOST)));
    inputs
}

/// A body of known fluents, and behind them these literals. The known ones stand before the open ones, which stand before the last.
fn ending(last: &[u8]) -> Vec<u8> {
    (0..BODY - last.len() as u8).map(|fluent| 2 * fluent).chain(last.iter().copied()).collect()
}

/// The first of the open fluents.
fn first_open() -> u8 {
    LAST - OPEN
}

/// A plan of action 0 so many times, with these effects and lines; all is known but the open fluents.
fn tried(effects: Vec<Effect>, allowances: Vec<Allowance>, times: usize) -> Vec<u8> {
    let facts = (0..first_open()).chain([LAST]).map(|fluent| 2 * fluent).collect();
    let request = Request { fluents: FLUENTS, actions: 1, facts, effects, allowances, plan: vec![Item::act(0); times], ..Request::default() };
    encode_request(&request).bytes
}

fn effect(literal: u8, body: Vec<u8>) -> Effect {
    Effect { place: 0, action: 0, literal, body }
}

/// Lines that are false at their last literal, and behind them these.
fn lines(last: Vec<Vec<u8>>) -> Vec<Allowance> {
    let never = vec![ending(&[2 * LAST + 1]); SECTION - last.len()];
    never.into_iter().chain(last).map(|body| Allowance { action: 0, body }).collect()
}

/// Actions with 12 open fluents, and as many lines as there can be: which can be run in all of 4,096 fillings, in all but the last, or in none.
fn dear_actions() -> Vec<Named> {
    let open = first_open();
    let effects: Vec<Effect> = (0..SECTION).map(|index| effect(1, ending(&[2 * (open + index as u8 % OPEN), 2 * LAST + 1]))).collect();
    let one_of_two = lines(vec![vec![2 * open], vec![2 * open + 1]]);
    let all_but_last = lines((open..LAST).map(|fluent| vec![2 * fluent]).collect());
    let least = vec![effect(1, literals(open..LAST))];
    vec![
        by_cases("12 open fluents, 255 effects and lines, 10 actions", tried(effects.clone(), one_of_two, 10), MOST),
        by_cases("12 open fluents, not to be run in the last of 4,096 fillings", tried(effects.clone(), all_but_last, 1), MOST),
        by_cases("12 open fluents, 255 effects, no line", tried(effects, Vec::new(), 1), MOST),
        by_cases("12 open fluents, 1,024 actions", tried(least, vec![always(0)], ITEM_LIMIT), MOST),
    ]
}

/// Actions with more open fluents than there may be: one more, and all.
fn many_open() -> Vec<Named> {
    let of = |fluents: u8| (0..fluents).step_by(BODY.into()).map(move |from| effect(0, literals(from..fluents.min(from + BODY)))).collect::<Vec<_>>();
    let request = |fluents: u8| encode_request(&Request { effects: of(fluents), plan: vec![Item::act(0); ITEM_LIMIT], ..wide() }).bytes;
    let rows = [OPEN, OPEN + 1, FLUENTS].map(|fluents| (fluents, request(fluents)));
    rows.into_iter().flat_map(|(fluents, bytes)| [0, FEW].map(|budget| by_cases(&format!("{fluents} open fluents, budget {budget}"), bytes.clone(), budget))).collect()
}

/// All fluents sensed at once, by an action that one line allows where a fluent is true and another where it is false.
fn sensed_at_once() -> Vec<Named> {
    let request = Request {
        allowances: [0, 1].map(|literal| Allowance { action: 0, body: vec![literal] }).to_vec(),
        knowledge: senses(0, 0..FLUENTS),
        plan: vec![Item::act(0)],
        whether: (0..FLUENTS).collect(),
        actions: 1,
        ..wide()
    };
    let bytes = encode_request(&request).bytes;
    BUDGETS.iter().map(|&budget| by_cases(&format!("all fluents sensed at once by one line or the other, budget {budget}"), bytes.clone(), budget)).collect()
}

/// After the last of 4,096 readings an action is met that has 13 open fluents.
fn too_many_at_last() -> Named {
    let none: Vec<u8> = (0..OPEN).map(|fluent| 2 * fluent + 1).collect();
    let branches = (0..OPEN).rev().map(|fluent| {
        let condition = (0..fluent).map(|before| 2 * before + 1).chain([2 * fluent]).collect();
        Branch { condition, sequence: Vec::new() }
    });
    let (first, others): (Vec<Branch>, Vec<Branch>) = branches.partition(|branch| branch.condition.len() <= 6);
    let last = Branch { condition: none, sequence: vec![Item::act(1)] };
    let otherwise = Branch { condition: (0..6).map(|fluent| 2 * fluent + 1).collect(), sequence: vec![Item::case([others, vec![last]].concat())] };
    let request = Request {
        knowledge: senses(0, 0..OPEN),
        effects: vec![Effect { place: 0, action: 1, literal: 0, body: literals(OPEN..2 * OPEN + 1) }],
        plan: vec![Item::act(0), Item::case([first, vec![otherwise]].concat())],
        ..wide()
    };
    by_cases("too many cases after the last of 4,096 readings", encode_request(&request).bytes, MOST)
}

/// All that 16,384 bytes can have: 255 effects and 255 executability lines, each with 16 literals, and branchings in what is left; with 12 open fluents, and
/// with all open.
fn largest_request() -> Vec<Named> {
    let full = |facts: Vec<u8>| {
        let mut request = Request {
            fluents: FLUENTS,
            actions: 1,
            facts,
            effects: vec![effect(2 * LAST, literals(0..BODY)); SECTION],
            allowances: vec![Allowance { action: 0, body: literals(0..BODY) }; SECTION],
            ..Request::default()
        };
        let left = REQUEST_LIMIT - encode_request(&request).bytes.len();
        let size = encode_request(&Request { plan: vec![eightfold()], ..Request::default() }).bytes.len() - encode_request(&Request::default()).bytes.len();
        request.plan = vec![Item::act(0); left % size];
        request.plan.extend(vec![eightfold(); left / size]);
        let bytes = encode_request(&request).bytes;
        assert_eq!(bytes.len(), REQUEST_LIMIT, "the largest request by cases");
        bytes
    };
    let (open, twelve) = (full(Vec::new()), full(literals(0..BODY - OPEN)));
    vec![
        by_cases("the largest request, 16 open fluents", open.clone(), MOST),
        by_cases("the largest request, 12 open fluents", twelve, MOST),
        by_cases("the largest request and one byte more", [&open[..], &[0]].concat(), MOST),
        by_cases("the largest request but for one byte", open[..open.len() - 1].to_vec(), MOST),
    ]
}
