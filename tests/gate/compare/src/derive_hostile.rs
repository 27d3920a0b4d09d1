//! Derive calls made to do harm: plans as long and as deep as the format lets them be, readings of readings, tables in which each step takes long, derivations as
//! long as one may be and far longer, and rooms of no byte and of 70,000.

use oracle::derives::calls::{of_bytes, of_looks, of_readings};
use oracle::encode::encode_request;
use oracle::generate::forget_and_sense;
use oracle::indexes::calls::FAR_TOO_LONG;
use oracle::model::{Allowance, Branch, Effect, Item, Request};
use oracle::reader::{BODY_LIMIT, DERIVATION_LIMIT, ITEM_LIMIT, LINE_LIMIT, NESTING_LIMIT, REQUEST_LIMIT};
use oracle::rng::Rng;

use crate::calls::Call;
use crate::hostile::{all_lengths, always, barred, eightfold, literals, senses, wide, Input, Named, FLUENTS, SECTION};

const MOST: u32 = 100_000;
/// The stream of random numbers of requests whose derivations have so many lines or bytes.
const SIZES: u64 = 42;
/// Most actions without knowledge lines on a path: each has two lines, and so has the end state.
const RUNS: usize = LINE_LIMIT / 2 - 1;

pub fn derive(name: &str, request: Vec<u8>, room: usize, budget: u32) -> Named {
    (format!("derive: {name}, room of {room}"), Input::Derive(Call { request, lent: vec![9; room], budget }))
}

/// Every input by name, with the deepest walks, and the requests whose derivations go deepest.
pub fn named(deepest: Vec<(String, Call)>, to_derive: Vec<(String, Call)>) -> Vec<Named> {
    let mut inputs: Vec<Named> = Vec::new();
    for (name, call) in deepest.into_iter().chain(to_derive) {
        inputs.extend([0, DERIVATION_LIMIT].map(|room| derive(&name, call.request.clone(), room, call.budget)));
    }
    for (name, request) in requests() {
        let bytes = encode_request(&request).bytes;
        inputs.extend([0, DERIVATION_LIMIT - 1, DERIVATION_LIMIT, FAR_TOO_LONG].map(|room| derive(&name, bytes.clone(), room, MOST)));
    }
    for (name, bytes) in all_lengths(REQUEST_LIMIT) {
        inputs.extend([0, FAR_TOO_LONG].map(|room| derive(&format!("a request of {name}"), bytes.clone(), room, MOST)));
    }
    inputs
}

fn requests() -> Vec<(String, Request)> {
    let mut all = readings();
    all.extend(paths());
    all.extend(slow_steps());
    for length in [DERIVATION_LIMIT - 3, DERIVATION_LIMIT, DERIVATION_LIMIT + 1] {
        all.push((format!("a derivation of {length} bytes"), of_bytes(&mut Rng::new(1, SIZES, length as u64), length)));
    }
    for lines in [LINE_LIMIT, LINE_LIMIT + 1] {
        all.push((format!("a derivation of {lines} lines"), of_looks(&mut Rng::new(1, SIZES, lines as u64), lines)));
    }
    all
}

/// One look after another, at one fluent or at as many as can be; looks that are too wide; and fluents that are looked at and forgotten.
fn readings() -> Vec<(String, Request)> {
    let looks: [(&str, &[u8]); 11] = [
        ("eight looks at one fluent each", &[1; 8]),
        ("nine looks at one fluent each", &[1; 9]),
        ("sixteen looks at one fluent each", &[1; 16]),
        ("a look at six fluents", &[6]),
        ("looks at six and at two", &[6, 2]),
        ("looks at six and at three", &[6, 3]),
        ("looks at six and at six", &[6, 6]),
        ("a look at seven", &[7]),
        ("looks at six and at seven", &[6, 7]),
        ("a look at sixteen", &[16]),
        ("a look at all", &[FLUENTS]),
    ];
    let mut all: Vec<(String, Request)> = looks.map(|(name, looked)| (name.to_string(), of_readings(looked))).to_vec();
    for (sensed, rounds) in [(1, 9), (3, 3), (6, 1), (6, 2), (7, 1)] {
        all.push((format!("{rounds} times {sensed} looked at, forgotten"), forget_and_sense(sensed, rounds)));
    }
    all
}

/// One path: as many actions as there can be, and as many as have lines; branchings in a row, one inside another, and with the longest conditions.
fn paths() -> Vec<(String, Request)> {
    let follow = |sequence| Item::case(vec![Branch { condition: Vec::new(), sequence }]);
    let acts = |count: usize| vec![Item::act(0); count];
    let nested = |items: Vec<Item>| (0..NESTING_LIMIT).fold(items, |inside, _| vec![follow(inside)]);
    let one = Request { fluents: 1, actions: 1, allowances: vec![always(0)], ..Request::default() };
    let full = Request { facts: literals(0..FLUENTS), goals: literals(0..FLUENTS), ..wide() };
    let branchings = |count: usize| vec![follow(Vec::new()); count];
    let towers = |count: usize| (0..count).flat_map(|_| nested(Vec::new())).collect();
    let size = 2 + 8 * (1 + BODY_LIMIT + 2);
    let conditions = |request: &Request, count: usize| Request { plan: vec![eightfold(); count], ..request.clone() };
    let most = (REQUEST_LIMIT - encode_request(&full).bytes.len()) / size;
    let with = |request: &Request, plan: Vec<Item>| Request { plan, ..request.clone() };
    let all = [
        ("1,024 actions", with(&one, acts(ITEM_LIMIT))),
        ("511 actions", with(&one, acts(RUNS))),
        ("512 actions", with(&one, acts(RUNS + 1))),
        ("200 actions", with(&one, acts(200))),
        ("511 actions, 128 literals known", with(&full, acts(RUNS))),
        ("50 actions, 128 literals known", with(&full, acts(50))),
        ("1,022 branchings in a row", with(&one, branchings(LINE_LIMIT - 2))),
        ("1,023 branchings in a row", with(&one, branchings(LINE_LIMIT - 1))),
        ("1,024 branchings in a row", with(&one, branchings(ITEM_LIMIT))),
        ("100 branchings in a row", with(&one, branchings(100))),
        ("1,016 actions in eight branchings", with(&one, nested(acts(ITEM_LIMIT - NESTING_LIMIT)))),
        ("100 actions in eight branchings", with(&one, nested(acts(100)))),
        ("127 towers of eight branchings", with(&one, towers(127))),
        ("10 towers of eight branchings", with(&one, towers(10))),
        ("branchings with the longest conditions", conditions(&full, most)),
        ("five branchings with the longest conditions", conditions(&full, 5)),
    ];
    all.map(|(name, request)| (name.to_string(), request)).to_vec()
}

/// Steps that take long each: 255 effects or 255 executability lines with 16 literals each; and six fluents that are looked at last among 128 that are known.
fn slow_steps() -> Vec<(String, Request)> {
    let acts = |count: usize| vec![Item::act(0); count];
    let effect = |line: usize| Effect { place: 0, action: 0, literal: 2 * (64 + (line % 32) as u8), body: literals(32..48) };
    let effects = Request { effects: (0..SECTION).map(effect).collect(), facts: literals(32..48), ..wide() };
    let lines = Request { allowances: [vec![Allowance { action: 0, body: literals(0..16) }; SECTION - 1], vec![always(0)]].concat(), ..wide() };
    let last = Request { facts: literals(0..FLUENTS - 6), knowledge: senses(0, 0..FLUENTS), plan: acts(1), ..wide() };
    let one_more = Request { facts: literals(0..FLUENTS - 7), ..last.clone() };
    let mut all = Vec::new();
    for runs in [10, 100, RUNS] {
        all.push((format!("{runs} actions over 255 effects"), Request { plan: acts(runs), ..effects.clone() }));
        all.push((format!("{runs} actions over 255 executability lines"), Request { plan: acts(runs), ..lines.clone() }));
        all.push((format!("{runs} actions, of which each meets the last of 255 lines"), Request { plan: acts(runs), ..barred() }));
    }
    all.push(("a look at 128 fluents, of which six are unknown".to_string(), last));
    all.push(("a look at 128 fluents, of which seven are unknown".to_string(), one_more));
    all
}
