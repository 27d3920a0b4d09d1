//! Times of the derive call, beside the walk call on the same request: of generated requests by what becomes of their derivations, of the longest derivation that is
//! written, and of requests whose lines take longest to count.

use std::cell::RefCell;
use std::hint::black_box;
use std::rc::Rc;

use glintstring::{derive_packed, judge_packed, Packed, DERIVATION_LIMIT, MOST_FORKED, STATE_LENGTH};
use oracle::derives::again::sizes;
use oracle::derives::calls::without_whether;
use oracle::encode::encode_request;
use oracle::generate::{request, LARGE, MIDDLE, SMALL};
use oracle::model::{Allowance, Branch, Item, Knowledge, Request};
use oracle::reader::{BODY_LIMIT, FLUENT_LIMIT, LINE_LIMIT, REQUEST_LIMIT};
use oracle::rng::Rng;
use oracle::Answer;

use crate::walks::side_by_side;

/// The stream of random numbers of the requests.
const REQUESTS: u64 = 200;
/// Generated requests of a row.
const COUNT: u64 = 100;
/// The budget of the program `derive`, which no walk of these spends.
const BUDGET: u32 = 100_000;

const TOO_MANY_LINES: u8 = 38;
const ROOM_SHORT: u8 = 39;
/// Bytes of a derivation at the most, in the rows by size.
const SHORT: u32 = 1_000;
const MIDDLING: u32 = 10_000;
const MOST: u32 = DERIVATION_LIMIT as u32;

const FLUENTS: u8 = FLUENT_LIMIT as u8;
/// Executability lines that there can be.
const LINES: usize = 255;

/// What a row of the table is of, how many requests, and what the derive call answers to each: its number, and between which numbers its count is.
struct Kind {
    name: &'static str,
    requests: u64,
    number: u8,
    counts: [u32; 2],
    request: fn(&mut Rng) -> Request,
}

const KINDS: [Kind; 9] = [
    Kind { name: "generated, a derivation of up to 1,000 bytes", requests: COUNT, number: 0, counts: [0, SHORT], request: generated },
    Kind { name: "generated, of up to 10,000", requests: COUNT, number: 0, counts: [SHORT + 1, MIDDLING], request: generated },
    Kind { name: "generated, of up to 32,768", requests: COUNT, number: 0, counts: [MIDDLING + 1, MOST], request: generated },
    Kind { name: "generated, of more", requests: COUNT, number: ROOM_SHORT, counts: [0; 2], request: generated },
    Kind { name: "generated, too many lines", requests: COUNT, number: TOO_MANY_LINES, counts: [0; 2], request: generated },
    Kind { name: "the longest derivation that is written", requests: 1, number: 0, counts: [MOST; 2], request: longest },
    Kind { name: "the dearest lines", requests: 1, number: ROOM_SHORT, counts: [0; 2], request: dearest },
    Kind { name: "looks over 255 executability lines, then branchings", requests: 1, number: ROOM_SHORT, counts: [0; 2], request: barred },
    Kind { name: "the same behind a look at six fluents", requests: 1, number: TOO_MANY_LINES, counts: [0; 2], request: barred_in_readings },
];

/// A request of some size without whether entries.
fn generated(rng: &mut Rng) -> Request {
    let shape = *rng.pick(&[SMALL, MIDDLE, LARGE]);
    request(rng, &without_whether(&shape))
}

/// Action 1, if there is one, looks at so many fluents that are unknown, which are the first ones. All others are true, and action 0 looks at two of them. Each
/// action can be run.
fn looking(fluents: u8, unknown: u8) -> Request {
    let actions = if unknown > 0 { 2 } else { 1 };
    let senses = |action, fluent| Knowledge { place: 0, action, fluent };
    Request {
        fluents,
        actions,
        facts: (unknown..fluents).map(|fluent| 2 * fluent).collect(),
        allowances: (0..actions).map(|action| Allowance { action, body: Vec::new() }).collect(),
        knowledge: (0..unknown).map(|fluent| senses(1, fluent)).chain([senses(0, unknown), senses(0, fluents - 1)]).collect(),
        ..Request::default()
    }
}

fn looks(count: usize) -> Vec<Item> {
    vec![Item::act(0); count]
}

fn branch(condition: Vec<u8>, sequence: Vec<Item>) -> Branch {
    Branch { condition, sequence }
}

/// Unknown fluents of the longest derivation, looks in each of their readings, and lines behind all readings.
const READ: u8 = MOST_FORKED as u8 - 1;
const WITHIN: usize = 29;
const AROUND: usize = LINE_LIMIT - 1 - (1 << READ) * (WITHIN + 2);

/// As many lines and as many bytes as a derivation may have. Bytes that are missing are in a branch that is not followed, of a branching that only the last line
/// has.
fn longest(_: &mut Rng) -> Request {
    let table = looking(READ + 3, READ);
    let fact = table.facts[0];
    let with = |more: usize| {
        let first = Item::case(vec![branch(vec![fact], Vec::new()), branch(vec![fact + 1], looks(more))]);
        Request { plan: [vec![first], looks(AROUND - 1), vec![Item::act(1)], looks(WITHIN)].concat(), ..table.clone() }
    };
    let least = with(0);
    with(DERIVATION_LIMIT - sizes(&least, &encode_request(&least).bytes).bytes as usize)
}

/// As many items as one path has lines for, of which the first are given. Each other one is a branching with so many branches, of which the last is followed, or a look
/// where there are none: by its place, and by the least number with which the request is no longer than one may be.
fn filled(table: Request, first: Vec<Item>, branches: fn(usize, usize) -> u8) -> Request {
    let item = |branches: u8| match branches.checked_ilog2() {
        None => Item::act(0),
        Some(told) => {
            let condition = |bits: u8| (0..told as u8).map(|at| 2 * (FLUENTS - 3 + at) + (bits >> at & 1)).collect();
            Item::case((0..branches).rev().map(|bits| branch(condition(bits), Vec::new())).collect())
        }
    };
    let by = |number: usize| {
        let others = (first.len() + 1..LINE_LIMIT - 1).map(|place| item(branches(place, number)));
        Request { plan: first.iter().cloned().chain(others).collect(), ..table.clone() }
    };
    let fits = |request: &Request| encode_request(request).bytes.len() <= REQUEST_LIMIT;
    (1..LINE_LIMIT).map(by).find(fits).expect("a request that is short enough")
}

/// An item is in a line for each item up to it, so that branches cost most in the last ones. Up to eight, a branch more takes 4, 5, 6 or 7 bytes, and an item
/// has those that are worth their bytes there.
fn dearest(_: &mut Rng) -> Request {
    filled(looking(FLUENTS, 0), Vec::new(), |place, worth| match place / worth {
        0..=3 => 0,
        4 => 1,
        5 => 2,
        6 => 4,
        _ => 8,
    })
}

/// As many executability lines as there can be. Those of action 0 but one are looked at to their ends: what is last in them is false.
fn with_lines(mut table: Request) -> Request {
    let mut body = table.facts[..BODY_LIMIT].to_vec();
    body[BODY_LIMIT - 1] += 1;
    let others = vec![Allowance { action: 0, body }; LINES - table.allowances.len()];
    table.allowances.splice(0..0, others);
    table
}

fn eightfold_last(place: usize, looks: usize) -> u8 {
    8 * u8::from(place > looks)
}

fn barred(_: &mut Rng) -> Request {
    filled(with_lines(looking(FLUENTS, 0)), Vec::new(), eightfold_last)
}

fn barred_in_readings(_: &mut Rng) -> Request {
    filled(with_lines(looking(FLUENTS, MOST_FORKED as u8)), vec![Item::act(1)], eightfold_last)
}

/// A request, and what its calls are lent; the room is one for all.
struct Timed {
    request: Vec<u8>,
    room: Rc<RefCell<[u8; DERIVATION_LIMIT]>>,
    lent: [u8; STATE_LENGTH],
}

/// The first request that the derive call answers as told.
fn timed(rng: &mut Rng, kind: &Kind, room: &Rc<RefCell<[u8; DERIVATION_LIMIT]>>) -> Timed {
    loop {
        let request = encode_request(&(kind.request)(rng)).bytes;
        let mut timed = Timed { request, room: room.clone(), lent: [9; STATE_LENGTH] };
        let [derived, _] = timed.answers();
        if derived.number() == kind.number && (kind.counts[0]..=kind.counts[1]).contains(&derived.count()) {
            return timed;
        }
        assert!(kind.requests > 1, "{}: {derived:?}, {} bytes", kind.name, timed.request.len());
    }
}

impl Timed {
    fn derive(&mut self) {
        _ = black_box(derive_packed(black_box(&self.request), &mut *self.room.borrow_mut(), BUDGET));
    }

    fn walk(&mut self) {
        _ = black_box(judge_packed(black_box(&self.request), &mut self.lent, BUDGET));
    }

    fn answers(&mut self) -> [Packed; 2] {
        [derive_packed(&self.request, &mut *self.room.borrow_mut(), BUDGET), judge_packed(&self.request, &mut self.lent, BUDGET)]
    }

    /// Both calls answer as the independent program does, which writes the same; the walk's count, and lines and bytes of the derivation.
    fn agreed(&mut self) -> Result<[u64; 3], String> {
        let [derived, walked] = self.answers();
        let mut room = [9; DERIVATION_LIMIT];
        let others = [oracle::derive(&self.request, &mut room, BUDGET), oracle::judge(&self.request, &mut [9; STATE_LENGTH], BUDGET)];
        let same = |packed: Packed, other: Answer| (packed.number(), packed.place() as u32, packed.count()) == (other.number, other.place, other.count);
        let written = if derived.number() == 0 { derived.count() as usize } else { 0 };
        if !same(derived, others[0]) || !same(walked, others[1]) || room[..written] != self.room.borrow()[..written] {
            return Err(format!("derive call {derived:?}, walk call {walked:?}, independent {} and {}", others[0], others[1]));
        }
        let read = oracle::open(&self.request).map_err(|_| "a request that is refused")?;
        let scheme = sizes(&read, &self.request);
        Ok([walked.count().into(), scheme.lines(), scheme.bytes])
    }
}

/// The table, after a comparison of all answers.
pub fn time(seed: u64, rounds: u64) -> Result<String, String> {
    let room = Rc::new(RefCell::new([9; DERIVATION_LIMIT]));
    let mut out = String::from("| requests | bytes, mean | number | count, mean | lines, mean | bytes of a derivation, mean ");
    out += "| derive call, ns | walk call, ns | derive less walk, ns | ratio | quartiles |\n|---|---|---|---|---|---|---|---|---|---|---|\n";
    for (row, kind) in KINDS.iter().enumerate() {
        let mut requests: Vec<Timed> = (0..kind.requests).map(|index| timed(&mut Rng::new(seed, REQUESTS + row as u64, index), kind, &room)).collect();
        let all = requests.iter_mut().map(Timed::agreed).collect::<Result<Vec<[u64; 3]>, String>>()?;
        let ([derive, walk], [[low, middle, high], _]) = side_by_side(&mut requests, rounds, [Timed::derive, Timed::walk]);
        let bytes = requests.iter().map(|timed| timed.request.len() as u64).sum::<u64>() / kind.requests;
        let [count, lines, length] = [0, 1, 2].map(|of| all.iter().map(|of_request| of_request[of]).sum::<u64>() / kind.requests);
        let (name, number, less) = (kind.name, kind.number, derive - walk);
        out += &format!("| {name} | {bytes} | {number} | {count} | {lines} | {length} | {derive:.0} | {walk:.0} | {less:.0} ");
        out += &format!("| {middle:.2} | {low:.2} to {high:.2} |\n");
    }
    Ok(out.trim_end().to_string())
}
