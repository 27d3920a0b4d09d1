//! Values requests made to do harm: as large, deep and slow as the format lets them be, and a little beyond.

use oracle::encode::encode_valued;
use oracle::model::{Allowance, Branch, Effect, Item, Request};
use oracle::reader::{BODY_LIMIT, ITEM_LIMIT, REQUEST_LIMIT};
use oracle::values::literal::Literal;
use oracle::values::Valued;

use crate::calls::Call;
use crate::hostile::{all_lengths, senses, Input, Named, FLUENTS, SECTION};

/// Values that a fluent may have, and those of most fluents here.
const VALUES: u8 = glintstring::MOST_VALUES as u8;
/// Budgets of walks that would never end otherwise, and one for walks that are slow for each count.
const BUDGETS: [u32; 3] = [0, 1, 100_000];
const MOST: u32 = BUDGETS[2];
const FEW: u32 = 1_000;
const BODY: u8 = BODY_LIMIT as u8;
const LAST: u8 = FLUENTS - 1;

pub fn values(name: &str, request: Vec<u8>, budget: u32) -> Named {
    (format!("values: {name}"), Input::Values(Call { request, lent: vec![9; glintstring::STATE_LENGTH], budget }))
}

/// Every request by name, with the deepest walks.
pub fn named(deepest: Vec<(String, Call)>) -> Vec<Named> {
    let mut inputs: Vec<Named> = deepest.into_iter().map(|(name, call)| values(&name, call.request, call.budget)).collect();
    inputs.extend(sensed_at_once());
    inputs.extend(effects_of_one_action());
    inputs.extend(long_lists());
    inputs.extend(branchings());
    inputs.extend(largest_request());
    inputs.extend(numbers_of_values());
    inputs.extend(all_lengths(REQUEST_LIMIT).into_iter().map(|(name, bytes)| values(&format!("a request of {name}"), bytes, MOST)));
    inputs
}

/// These bytes behind a fluent count, and so many values for each fluent.
pub fn after_sizes(bytes: &[u8]) -> Vec<u8> {
    [&[FLUENTS][..], &[VALUES; FLUENTS as usize], bytes].concat()
}

fn encoded(request: Request<Literal>) -> Vec<u8> {
    encode_valued(&Valued { values: vec![VALUES; request.fluents.into()], request }).bytes
}

/// As many fluents as there can be, and an action that can always be run.
fn wide() -> Request<Literal> {
    Request { fluents: FLUENTS, actions: 1, allowances: vec![always()], ..Request::default() }
}

fn always() -> Allowance<Literal> {
    Allowance { action: 0, body: Vec::new() }
}

fn effect(literal: Literal, body: Vec<Literal>) -> Effect<Literal> {
    Effect { place: 0, action: 0, literal, body }
}

fn is(fluent: u8, value: u8) -> Literal {
    Literal::is(fluent, value, VALUES)
}

/// "Is 0" of each of some fluents.
fn zeros(fluents: std::ops::Range<u8>) -> Vec<Literal> {
    fluents.map(|fluent| is(fluent, 0)).collect()
}

/// "Is not" of one fluent and of every value but this.
fn all_but(fluent: u8, value: u8) -> Vec<Literal> {
    (0..VALUES).filter(|&other| other != value).map(|other| Literal::is_not(fluent, other, VALUES)).collect()
}

/// All fluents sensed at once, each of 16 values; and one of them after another.
fn sensed_at_once() -> Vec<Named> {
    let at_once = encoded(Request { knowledge: senses(0, 0..FLUENTS), plan: vec![Item::act(0)], whether: (0..FLUENTS).collect(), ..wide() });
    let budgets = BUDGETS.iter().map(|&budget| values(&format!("{FLUENTS} fluents of 16 values sensed at once, budget {budget}"), at_once.clone(), budget));
    let in_turn = Request {
        actions: FLUENTS,
        allowances: (0..FLUENTS).map(|action| Allowance { action, body: Vec::new() }).collect(),
        knowledge: (0..FLUENTS).flat_map(|action| senses(action, action..action + 1)).collect(),
        plan: (0..FLUENTS).map(Item::act).collect(),
        ..wide()
    };
    budgets.chain([values("128 fluents of 16 values sensed one after another", encoded(in_turn), MOST)]).collect()
}

/// 255 effects of one action, each with 16 literals.
fn effects_of_one_action() -> Vec<Named> {
    let request = |facts: Vec<Literal>, effects: Vec<Effect<Literal>>, items: usize| {
        encoded(Request { facts, effects, plan: vec![Item::act(0); items], ..wide() })
    };
    let same: Vec<Effect<Literal>> = (0..SECTION).map(|i| effect(is((i % 32) as u8, 15), zeros(32..48))).collect();
    // Each sets one of 16 values of the last fluent, and two that differ are exclusive by what is said of one fluent: by one literal, or by 15 together.
    let by_last: Vec<Effect<Literal>> = (0..SECTION).map(|i| effect(is(LAST, i as u8 % VALUES), [zeros(0..15), vec![is(15, i as u8 % VALUES)]].concat())).collect();
    let by_all: Vec<Effect<Literal>> = (0..SECTION).map(|i| effect(is(LAST, i as u8 % VALUES), all_but(0, i as u8 % VALUES))).collect();
    let mut contradictory = by_all.clone();
    contradictory[SECTION - 1] = effect(is(LAST, 3), zeros(16..32));
    // Every two that differ clash, and each line, which agrees with one half of them, rules out the other half by its last literal.
    let clashing: Vec<Effect<Literal>> = (0..SECTION).map(|i| effect(is(LAST, i as u8 % 2), [zeros(0..15), vec![is(15 + i as u8 % 2, 0)]].concat())).collect();
    let lines = vec![Allowance { action: 0, body: [zeros(0..15), vec![is(16, 1)]].concat() }; 200];
    let never_both = Request { facts: zeros(0..15), effects: clashing, allowances: lines.clone(), ..wide() };
    let last_both = Request { allowances: [lines[1..].to_vec(), vec![always()]].concat(), ..never_both.clone() };
    let no_lines = Request { allowances: Vec::new(), plan: vec![Item::act(0)], ..never_both.clone() };
    vec![
        values("255 effects, all possible, 1,024 actions", request(Vec::new(), same.clone(), ITEM_LIMIT), MOST),
        values("255 effects, all known true, 1,024 actions", request(zeros(0..FLUENTS), same, ITEM_LIMIT), MOST),
        values("255 effects, exclusive by their last literals", request(Vec::new(), by_last, ITEM_LIMIT), MOST),
        values("255 effects, exclusive by 15 literals together", request(Vec::new(), by_all, ITEM_LIMIT), MOST),
        values("255 effects, the last contradictory", request(Vec::new(), contradictory, 0), MOST),
        values("255 effects, which clash where the action can't be run", encoded(never_both), MOST),
        values("255 effects, which clash under the last of 200 lines", encoded(last_both), MOST),
        values("255 effects, which clash, of an action without lines", encoded(no_lines), MOST),
    ]
}

/// Facts and goals that name fluents as often as they may: 15 times, up to 128 literals, of which the last leaves none.
fn long_lists() -> Vec<Named> {
    let most = |fluents: std::ops::Range<u8>| fluents.flat_map(|fluent| all_but(fluent, 15)).take(FLUENTS.into()).collect::<Vec<Literal>>();
    let mut none_left = most(0..9);
    none_left.truncate(15);
    none_left.push(Literal::is_not(0, 15, VALUES));
    vec![
        values("128 facts and goals, 15 of each fluent", encoded(Request { facts: most(0..9), goals: most(0..9), ..wide() }), MOST),
        values("16 facts that leave no value", encoded(Request { facts: none_left, ..wide() }), MOST),
        values("128 facts, and goals that they do not give", encoded(Request { facts: most(0..9), goals: most(100..109), ..wide() }), MOST),
    ]
}

/// Eight branches, whose conditions have 16 literals and are told apart by the last; the last branch is followed where the first 16 fluents are 0.
fn eightfold() -> Item<Literal> {
    let branch = |value: u8| Branch { condition: [zeros(0..15), vec![is(15, value)]].concat(), sequence: Vec::new() };
    Item::case((0..8).rev().map(branch).collect())
}

/// Branchings that many paths go through, as no count is made of them, and one inside another beyond the limit.
fn branchings() -> Vec<Named> {
    let follow = Item::case(vec![Branch { condition: Vec::new(), sequence: Vec::new() }]);
    let request = |branching: Item<Literal>, times: usize| {
        let plan = [vec![Item::act(0)], vec![branching; times]].concat();
        encoded(Request { facts: zeros(0..16), knowledge: senses(0, 16..FLUENTS), plan, ..wide() })
    };
    let nested = [vec![1, VALUES, 1, 0, 0, 0, 0], [0, 1, 255, 1, 0].repeat(ITEM_LIMIT), vec![0, 0, 0, 0]].concat();
    vec![
        values("1,023 branchings before each end state", request(follow, ITEM_LIMIT - 1), FEW),
        values("50 branchings of eight branches before each end state", request(eightfold(), 50), FEW),
        values("1,024 branchings one inside another", nested, FEW),
    ]
}

/// All that 16,384 bytes can have: 255 effects with 16 literals each, and executability lines, branchings and actions in what is left.
fn largest_request() -> Vec<Named> {
    let body = zeros(0..BODY);
    let mut request = Request { facts: body.clone(), effects: vec![effect(is(LAST, 15), body.clone()); SECTION], ..wide() };
    request.allowances.extend(vec![Allowance { action: 0, body }; 100]);
    let left = REQUEST_LIMIT - encoded(request.clone()).len();
    let size = encoded(Request { plan: vec![eightfold()], ..wide() }).len() - encoded(wide()).len();
    request.plan = vec![eightfold(); left / size];
    request.plan.extend(vec![Item::act(0); left % size]);
    let full = encoded(request);
    assert_eq!(full.len(), REQUEST_LIMIT, "the largest values request");
    vec![
        values("the largest request", full.clone(), MOST),
        values("the largest request and one byte more", [&full[..], &[0]].concat(), MOST),
        values("the largest request but for one byte", full[..full.len() - 1].to_vec(), MOST),
    ]
}

/// Numbers of values that are missing, too small or too large, and literals of which one byte is missing or too large.
fn numbers_of_values() -> Vec<Named> {
    let sized = |values: u8| [vec![FLUENTS], vec![values; FLUENTS.into()], vec![1]].concat();
    let facts = |after: &[u8]| after_sizes(&[&[1, FLUENTS], after].concat());
    vec![
        values("no number of values", vec![FLUENTS], MOST),
        values("a number of values missing", after_sizes(&[])[..FLUENTS.into()].to_vec(), MOST),
        values("no value", sized(0), MOST),
        values("one value", sized(1), MOST),
        values("17 values", sized(17), MOST),
        values("255 values", sized(255), MOST),
        values("128 facts, none there", facts(&[]), MOST),
        values("128 facts, half a literal there", facts(&[0]), MOST),
        values("literals of bytes 0", facts(&[0; REQUEST_LIMIT / 2]), MOST),
        values("literals of bytes 255", facts(&[255; REQUEST_LIMIT / 2]), MOST),
        values("a value that there is not", facts(&[0, 2 * VALUES]), MOST),
    ]
}
