//! Inputs made to do harm: as large, deep and slow as the format lets them be, and a little beyond.

use oracle::encode::{encode_derivation, encode_request};
use oracle::indexes::calls::LONGEST;
use oracle::model::{Allowance, Branch, Effect, Item, Knowledge, Line, Request};
use oracle::reader::{
    ACTION_LIMIT, BODY_LIMIT, CITATION_LIMIT, DERIVATION_LIMIT, FLUENT_LIMIT, ITEM_LIMIT, LINE_LIMIT, NESTING_LIMIT, REQUEST_LIMIT,
};
use oracle::rng::Rng;

use crate::calls::Call;
use crate::checks::Check;
use crate::deepest;
use crate::indexes::Indexed;
use crate::largest::{self, line};
use crate::releases::Release;
use crate::{by_cases_hostile, derive_hostile, guarded_hostile, index_hostile, release_hostile, values_hostile, whether_hostile};

/// The stream of random numbers of the bytes that have no meaning.
const BYTES: u64 = 10;
/// Budgets of a walk that would never end otherwise; the last takes minutes.
const BUDGETS: [u32; 3] = [0, 1, 100_000];
const LARGEST_BUDGET: u32 = u32::MAX;
/// A budget for walks that are slow for each count.
const FEW: u32 = 1_000;

pub const FLUENTS: u8 = FLUENT_LIMIT as u8;
const ACTIONS: u8 = ACTION_LIMIT as u8;
pub const SECTION: usize = 255;

/// What a call takes.
pub enum Input {
    Walk(Call),
    Guarded(Call),
    ByCases(Call),
    Values(Call),
    /// An index call, whose room is the lent bytes.
    Index(Call),
    Indexed(Indexed),
    /// A derive call, whose room is the lent bytes.
    Derive(Call),
    Derivation(Check),
    Release(Release),
}

/// What it is, and the call.
pub type Named = (String, Input);

fn walk(name: &str, request: Vec<u8>, budget: u32) -> Named {
    (name.to_string(), Input::Walk(Call { request, lent: vec![9; glintstring::STATE_LENGTH], budget }))
}

fn check(name: &str, request: &Request, derivation: Vec<u8>) -> Named {
    (name.to_string(), Input::Derivation(Check::plain(encode_request(request).bytes, derivation)))
}

/// Every input by name, with the deepest walks of a folder; the one whose walk takes minutes is apart.
pub fn named(folder: &str) -> Result<Vec<Named>, String> {
    let deepest = deepest::requests(folder)?;
    let releases = deepest.iter().map(|(name, call)| (name.clone(), call.request.clone(), call.budget)).collect::<Vec<_>>();
    let mut inputs: Vec<Named> = deepest.into_iter().map(|(name, call)| (name, Input::Walk(call))).collect();
    inputs.extend(sensed_at_once(&BUDGETS));
    inputs.extend(largest_request());
    inputs.extend(effects_of_one_action());
    inputs.extend(branchings());
    inputs.extend(item_counts());
    inputs.extend(largest::rows().into_iter().map(|(name, check, _)| (format!("derivation: {name}"), Input::Derivation(check))));
    inputs.extend(citations());
    inputs.extend(slow_lines());
    inputs.extend(all_alike());
    inputs.extend(whether_hostile::named());
    inputs.extend(release_hostile::named(&releases));
    inputs.extend(guarded_hostile::named(deepest::guarded_requests(folder)?));
    inputs.extend(by_cases_hostile::named(deepest::requests_by_cases(folder)?));
    inputs.extend(values_hostile::named(deepest::values_requests(folder)?));
    inputs.extend(index_hostile::named(deepest::requests(folder)?));
    inputs.extend(derive_hostile::named(deepest::requests(folder)?, deepest::requests_to_derive(folder)?));
    Ok(inputs)
}

/// All fluents sensed at once, under the largest budget that there is.
pub fn longest() -> Vec<Named> {
    sensed_at_once(&[LARGEST_BUDGET])
}

/// Any bytes, as a request, guarded, by cases, with an index, to derive or none of these, as a values request, as an index, as a derivation in either layout and as a release
/// file; those of every other start as their input may.
pub fn random(seed: u64, count: u64) -> Vec<Named> {
    let mut inputs = Vec::new();
    for index in 0..count {
        let rng = &mut Rng::new(seed, BYTES, index);
        let most = *rng.pick(&[1, 3, 9, FLUENTS - 1, 2 * (FLUENTS - 1) + 1, 255]);
        let bytes = |rng: &mut Rng, limit: usize, start: [u8; 2]| {
            let length = if rng.chance(20) { rng.range(limit - 1, limit + 1) } else { rng.below(limit) };
            let mut bytes: Vec<u8> = (0..length).map(|_| rng.byte(0, most)).collect();
            if index % 2 == 0 && length >= 2 {
                bytes[..2].copy_from_slice(&start);
            }
            bytes
        };
        let request = bytes(rng, REQUEST_LIMIT, [FLUENTS, ACTIONS]);
        let derivation = bytes(rng, DERIVATION_LIMIT, [4, 0]);
        let closing = bytes(rng, DERIVATION_LIMIT, [0, 1]);
        inputs.push(by_cases_hostile::by_cases(&format!("random request {index}"), request.clone(), FEW));
        let room = rng.below(2 * LONGEST);
        inputs.push(index_hostile::built(&format!("random request {index}"), request.clone(), room));
        inputs.push(derive_hostile::derive(&format!("random request {index}"), request.clone(), room, FEW));
        let by = bytes(rng, 2 * LONGEST, [0, 1]);
        inputs.push(index_hostile::indexed(&format!("random index {index}"), encode_request(&wide()).bytes, by, FEW));
        inputs.push(walk(&format!("random request {index}"), request, FEW));
        inputs.push(check(&format!("random derivation {index}"), &wide(), derivation));
        inputs.push(whether_hostile::check(&format!("random derivation {index}"), &wide(), closing));
        let plans = [release_hostile::table(&wide()), bytes(rng, REQUEST_LIMIT / 2, [64, 0])].concat();
        inputs.push(release_hostile::release(&format!("random plans {index}"), plans, FEW));
        let ninth = [encode_request(&wide()).bytes, bytes(rng, REQUEST_LIMIT / 2, [64, 0])].concat();
        inputs.push(guarded_hostile::guarded(&format!("random guards {index}"), ninth, FEW));
        let valued = bytes(rng, REQUEST_LIMIT, [1, 0]);
        let valued = if index % 2 == 0 { values_hostile::after_sizes(&valued) } else { valued };
        inputs.push(values_hostile::values(&format!("random request {index}"), valued, FEW));
    }
    inputs
}

/// As many fluents as there can be, as many actions that can always be run, and nothing else.
pub fn wide() -> Request {
    Request { fluents: FLUENTS, actions: ACTIONS, allowances: (0..ACTIONS).map(always).collect(), ..Request::default() }
}

pub fn always(action: u8) -> Allowance {
    Allowance { action, body: Vec::new() }
}

pub fn senses(action: u8, fluents: std::ops::Range<u8>) -> Vec<Knowledge> {
    fluents.map(|fluent| Knowledge { place: 0, action, fluent }).collect()
}

/// A literal for each of some fluents, all of them true.
pub fn literals(fluents: std::ops::Range<u8>) -> Vec<u8> {
    fluents.map(|fluent| 2 * fluent).collect()
}

fn sensed_at_once(budgets: &[u32]) -> Vec<Named> {
    let request = Request {
        fluents: FLUENTS,
        actions: 1,
        allowances: vec![always(0)],
        knowledge: senses(0, 0..FLUENTS),
        plan: vec![Item::act(0)],
        whether: (0..FLUENTS).collect(),
        ..Request::default()
    };
    let bytes = encode_request(&request).bytes;
    budgets.iter().map(|&budget| walk(&format!("{FLUENTS} fluents sensed at once, budget {budget}"), bytes.clone(), budget)).collect()
}

/// Eight branches, whose conditions have 16 literals and are told apart by the last three; the last branch is followed where the first 16
/// fluents are true.
pub fn eightfold() -> Item {
    let branch = |bits: u8| {
        let told = (0..3).map(|i| 2 * (13 + i) + (bits >> i & 1));
        Branch { condition: literals(0..13).into_iter().chain(told).collect(), sequence: Vec::new() }
    };
    Item::case((0..8).rev().map(branch).collect())
}

/// All that 16,384 bytes can have: 255 effects and 255 executability lines, each with 16 literals, and branchings in what is left.
fn largest_request() -> Vec<Named> {
    let body = literals(0..16);
    let mut request = Request {
        fluents: FLUENTS,
        actions: 1,
        facts: body.clone(),
        effects: vec![Effect { place: 0, action: 0, literal: 2 * (FLUENTS - 1), body: body.clone() }; SECTION],
        allowances: vec![Allowance { action: 0, body }; SECTION],
        ..Request::default()
    };
    let left = REQUEST_LIMIT - encode_request(&request).bytes.len();
    let size = 2 + 8 * (1 + BODY_LIMIT + 2);
    request.plan = vec![eightfold(); left / size];
    request.plan.extend(vec![Item::act(0); left % size]);
    let full = encode_request(&request).bytes;
    assert_eq!(full.len(), REQUEST_LIMIT, "the largest request");
    let more = [&full[..], &[0]].concat();
    let less = full[..full.len() - 1].to_vec();
    vec![
        walk("the largest request", full, BUDGETS[2]),
        walk("the largest request and one byte more", more, BUDGETS[2]),
        walk("the largest request but for one byte", less, BUDGETS[2]),
    ]
}

/// 255 effects of one action, each with 16 literals.
fn effects_of_one_action() -> Vec<Named> {
    let effect = |literal: u8, body: Vec<u8>| Effect { place: 0, action: 0, literal, body };
    let request = |facts: Vec<u8>, effects: Vec<Effect>, items: usize| {
        let allowances = [vec![Allowance { action: 0, body: literals(40..56) }; SECTION - 1], vec![always(0)]].concat();
        let plan = vec![Item::act(0); items];
        encode_request(&Request { fluents: FLUENTS, actions: 1, facts, effects, allowances, plan, ..Request::default() }).bytes
    };
    let same: Vec<Effect> = (0..SECTION).map(|i| effect(2 * (i % 32) as u8, literals(32..48))).collect();
    // Each makes the last fluent true or false, and two that differ are exclusive by their last literals.
    let told: Vec<Effect> = (0..SECTION).map(|i| effect(2 * (FLUENTS - 1) + (i % 2) as u8, [literals(0..15), vec![30 + (i % 2) as u8]].concat())).collect();
    // Every two that differ clash, and each line, which agrees with one half of them, rules out the other half by its last literal.
    let clashing: Vec<Effect> = (0..SECTION).map(|i| effect(2 * (FLUENTS - 1) + (i % 2) as u8, [literals(0..15), vec![30 + 2 * (i % 2) as u8]].concat())).collect();
    let lines = vec![Allowance { action: 0, body: [literals(0..15), vec![33]].concat() }; SECTION];
    let never_both = Request { fluents: FLUENTS, actions: 1, facts: literals(0..15), effects: clashing.clone(), allowances: lines.clone(), ..Request::default() };
    let last_both = Request { allowances: [lines[1..].to_vec(), vec![always(0)]].concat(), ..never_both.clone() };
    let no_lines = Request { allowances: Vec::new(), plan: vec![Item::act(0)], ..never_both.clone() };
    let mut contradictory = told.clone();
    contradictory[SECTION - 1].literal ^= 1;
    contradictory[SECTION - 1].body = literals(16..32);
    vec![
        walk("255 effects, all possible, 1,024 actions", request(Vec::new(), same.clone(), ITEM_LIMIT), BUDGETS[2]),
        walk("255 effects, all known true, 1,024 actions", request(literals(0..FLUENTS), same, ITEM_LIMIT), BUDGETS[2]),
        walk("255 effects, exclusive by their last literals", request(Vec::new(), told, ITEM_LIMIT), BUDGETS[2]),
        walk("255 effects, the last contradictory", request(Vec::new(), contradictory, 0), BUDGETS[2]),
        walk("255 effects, which clash where the action can't be run", encode_request(&never_both).bytes, BUDGETS[2]),
        walk("255 effects, which clash under the last of 255 lines", encode_request(&last_both).bytes, BUDGETS[2]),
        walk("255 effects, which clash, of an action without lines", encode_request(&no_lines).bytes, BUDGETS[2]),
    ]
}

/// Branchings that many paths go through, as no count is made of them, and one inside another beyond the limit. Those in a row and nested
/// within it are among the deepest walks.
fn branchings() -> Vec<Named> {
    let follow = Item::case(vec![Branch { condition: Vec::new(), sequence: Vec::new() }]);
    let request = |branching: Item, times: usize| {
        let request = Request {
            fluents: FLUENTS,
            actions: 1,
            facts: literals(0..16),
            allowances: vec![always(0)],
            knowledge: senses(0, 16..FLUENTS),
            plan: [vec![Item::act(0)], vec![branching; times]].concat(),
            ..Request::default()
        };
        encode_request(&request).bytes
    };
    let many = ITEM_LIMIT - 1;
    let nested = [vec![1, 1, 0, 0, 0, 0], [0, 1, 255, 1, 0].repeat(ITEM_LIMIT), vec![0, 0, 0, 0]].concat();
    vec![
        walk("1,023 branchings before each end state", request(follow, many), FEW),
        walk("100 branchings of eight branches before each end state", request(eightfold(), 100), FEW),
        walk("1,024 branchings one inside another", nested, FEW),
    ]
}

/// A sequence that says it has 65,535 items, with so many there.
fn actions(count: usize) -> Vec<u8> {
    [vec![255, 255], vec![0; count]].concat()
}

/// The same within eight branchings, whose sequences all say so.
fn nested(items: usize) -> Vec<u8> {
    [[255, 255, 255, 1, 0].repeat(NESTING_LIMIT), actions(items)].concat()
}

/// Derivations, in either layout, that end with such a sequence in their first line.
pub fn long_lines() -> Vec<(&'static str, Vec<u8>)> {
    let plans = [("none there", actions(0)), ("1,025 there", actions(ITEM_LIMIT + 1)), ("nested", nested(ITEM_LIMIT))];
    plans.into_iter().map(|(name, plan)| (name, [vec![0, 1, 0], plan].concat())).collect()
}

/// Sequences that say they have 65,535 items.
fn item_counts() -> Vec<Named> {
    let table = vec![1, 1, 0, 0, 1, 0, 0, 0];
    let request = |plan: &[u8]| [&table[..], plan].concat();
    let mut inputs = vec![
        walk("65,535 items, none there", request(&actions(0)), FEW),
        walk("65,535 items, 1,024 there", request(&actions(ITEM_LIMIT)), FEW),
        walk("65,535 items, 1,025 there", request(&actions(ITEM_LIMIT + 1)), FEW),
        walk("65,535 items in each of eight branchings", request(&nested(ITEM_LIMIT)), FEW),
    ];
    let one = Request { fluents: 1, actions: 1, allowances: vec![always(0)], ..Request::default() };
    inputs.extend(long_lines().into_iter().map(|(name, bytes)| check(&format!("a line of 65,535 items, {name}"), &one, bytes)));
    inputs
}

/// Lines that all have 64 citations; and lines of which each cites 64 plans of more than 200 items.
fn citations() -> Vec<Named> {
    let cites: Vec<u16> = (0..CITATION_LIMIT as u16).collect();
    let length = 1 + 2 + 1 + 1 + 1 + 2 * cites.len();
    let lines = |rule: u8| vec![line(&[], &[], &[], rule, &cites); (DERIVATION_LIMIT - 2) / length];
    let all = |rule: u8| encode_derivation(&lines(rule)).bytes;
    let (request, lines) = long_plans();
    vec![
        check("every line cites 64 lines, rule 3", &wide(), all(3)),
        check("every line cites 64 lines, rule 6", &wide(), all(6)),
        check("every line cites 64 lines, no rule", &wide(), all(0)),
        check("many lines cite 64 plans of 200 items", &request, encode_derivation(&lines).bytes),
    ]
}

/// An action that senses six fluents and then 200 others: these are derived once, then for each reading, then over and over with the first.
fn long_plans() -> (Request, Vec<Line>) {
    const ITEMS: usize = 200;
    let rest = vec![Item::act(1); ITEMS];
    let whole = [vec![Item::act(0)], rest.clone()].concat();
    let request = Request {
        fluents: FLUENTS,
        actions: 2,
        allowances: vec![always(0), always(1)],
        knowledge: senses(0, 0..6),
        plan: whole.clone(),
        ..Request::default()
    };
    // 1, 2, 4, 8 and so on, and 200 by those of its binary digits, so that each line joins two before it.
    let mut lines = vec![line(&[], &rest[..1], &[], 2, &[])];
    for power in 1..8 {
        lines.push(line(&[], &rest[..1 << power], &[], 5, &[power - 1, power - 1]));
    }
    lines.push(line(&[], &rest[..128 + 64], &[], 5, &[7, 6]));
    lines.push(line(&[], &rest, &[], 5, &[8, 3]));
    let derived = lines.len() as u16 - 1;
    for bits in 0..CITATION_LIMIT as u8 {
        let reading: Vec<u8> = (0..6).map(|f| 2 * f + (bits >> (5 - f) & 1)).collect();
        lines.push(line(&reading, &rest, &[], 6, &[derived]));
    }
    let cites: Vec<u16> = (derived + 1..=derived + CITATION_LIMIT as u16).collect();
    let citing = line(&[], &whole, &[], 3, &cites);
    let length = 1 + 2 + whole.len() + 1 + 1 + 1 + 2 * cites.len();
    let left = DERIVATION_LIMIT - encode_derivation(&lines).bytes.len();
    lines.extend(vec![citing; left / length]);
    (request, lines)
}

/// 16 facts, and an action with 255 executability lines, of which the last can always be met, and each other one except for its last literal.
pub fn barred() -> Request {
    let body = [literals(0..15), vec![31]].concat();
    let allowances = [vec![Allowance { action: 0, body }; SECTION - 1], vec![always(0)]].concat();
    Request { facts: literals(0..16), allowances, ..wide() }
}

/// Lines that take long each: rule 2 over 255 effects or 255 executability lines, and branchings with the longest conditions.
fn slow_lines() -> Vec<Named> {
    let (runs, act) = (barred(), [Item::act(0)]);
    let run = line(&runs.facts, &act, &runs.facts, 2, &[]);
    let times = (DERIVATION_LIMIT - 2) / (encode_derivation(&[run.clone()]).bytes.len() - 2);
    let repeated = encode_derivation(&vec![run; times]).bytes;
    let mut request = wide();
    request.effects = vec![Effect { place: 0, action: 0, literal: 0, body: literals(32..48) }; SECTION];
    request.plan = vec![Item::act(0)];
    let line_of_action = line(&[], &request.plan, &[], 2, &[]);
    let actions = encode_derivation(&vec![line_of_action; LINE_LIMIT]).bytes;
    let empty = line(&[], &[], &[], 1, &[]);
    let branchings = vec![eightfold(); (DERIVATION_LIMIT - 100) / (2 + 8 * (1 + BODY_LIMIT + 2))];
    let branched = line(&literals(0..16), &branchings, &[], 4, &[0]);
    vec![
        check("1,024 lines by rule 2 over 255 effects", &request, actions),
        check(&format!("{times} lines by rule 2 over 255 executability lines"), &runs, repeated),
        check("a line of branchings with the longest conditions", &wide(), encode_derivation(&[empty, branched]).bytes),
    ]
}

/// No byte, and bytes that are all the same, of lengths up to a limit and beyond it.
pub fn all_lengths(limit: usize) -> Vec<(String, Vec<u8>)> {
    let mut inputs = vec![("no byte".to_string(), Vec::new())];
    for byte in [0, 255] {
        for length in [1, 2, 64, limit, limit + 1, 1 << 20] {
            inputs.push((format!("{length} bytes {byte}"), vec![byte; length]));
        }
    }
    inputs
}

fn all_alike() -> Vec<Named> {
    let requests = all_lengths(REQUEST_LIMIT).into_iter().map(|(name, bytes)| walk(&format!("a request of {name}"), bytes, BUDGETS[2]));
    let derivations = all_lengths(DERIVATION_LIMIT).into_iter().map(|(name, bytes)| check(&format!("a derivation of {name}"), &wide(), bytes));
    requests.chain(derivations).collect()
}
