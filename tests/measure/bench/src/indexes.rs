//! Times of the indexed call and of the index call, beside the walk call on the same request: over the largest table that there is, where one index serves many
//! plans, and of the benchmark's own classes, where each request has an index of its own.

use std::hint::black_box;

use glintstring::{index_packed, judge_indexed_packed, judge_packed, Packed, INDEX_MOST, STATE_LENGTH};
use oracle::encode::encode_request;
use oracle::model::{Allowance, Effect, Item, Request};
use oracle::reader::{ACTION_LIMIT, BODY_LIMIT, FLUENT_LIMIT, ITEM_LIMIT, REQUEST_LIMIT};
use oracle::rng::Rng;
use oracle::Answer;

use crate::classes::{class, NAMES};
use crate::clock;
use crate::walks::{find, side_by_side};

/// The stream of random numbers of the largest tables and their plans.
const TABLES: u64 = 180;
/// Tables of a row, and plans of each.
const COUNT: u64 = 4;
const PLANS: u64 = 64;
/// Lines of each kind, and items of a short plan at the most.
const LINES: usize = 255;
const SHORT: usize = 8;
/// The budget, which no walk over the largest table spends.
const BUDGET: u32 = 100_000;

/// A request with its index, and what a call is lent.
struct Timed {
    request: Vec<u8>,
    budget: u32,
    index: Vec<u8>,
    room: [u8; INDEX_MOST],
    lent: [u8; STATE_LENGTH],
}

/// The rows of the table over the largest table; those of the benchmark's classes follow.
const LARGEST: [(&str, fn(&mut Rng) -> Vec<Item>); 3] = [
    ("the largest table, no item", |_| Vec::new()),
    ("the largest table, up to 8 actions", |rng| {
        let items = rng.range(1, SHORT);
        acts(rng, items)
    }),
    ("the largest table, 1,024 actions", |rng| acts(rng, ITEM_LIMIT)),
];

fn acts(rng: &mut Rng, items: usize) -> Vec<Item> {
    (0..items).map(|_| Item::act(rng.byte(0, ACTION_LIMIT as u8 - 1))).collect()
}

/// As many fluents, actions, effects and executability lines as there can be, each body with as many literals. Every fluent is true at the start. Of the two
/// lines of an action one is false in its last literal, and both effects change nothing.
fn largest(rng: &mut Rng) -> Request {
    let fluents = FLUENT_LIMIT as u8;
    let body = |rng: &mut Rng, last: bool| {
        let mut chosen: Vec<u8> = (0..fluents).map(|fluent| 2 * fluent).collect();
        rng.shuffle(&mut chosen);
        chosen.truncate(BODY_LIMIT);
        chosen.sort_unstable();
        chosen[BODY_LIMIT - 1] += u8::from(!last);
        chosen
    };
    let action = |line: usize| (line / 2) as u8;
    let mut effects: Vec<Effect> =
        (0..LINES).map(|line| Effect { place: 0, action: action(line), literal: 2 * rng.byte(0, fluents - 1), body: body(rng, true) }).collect();
    let mut allowances: Vec<Allowance> = (0..LINES).map(|line| Allowance { action: action(line), body: body(rng, line % 2 == 0) }).collect();
    rng.shuffle(&mut effects);
    rng.shuffle(&mut allowances);
    Request { fluents, actions: ACTION_LIMIT as u8, facts: (0..fluents).map(|fluent| 2 * fluent).collect(), effects, allowances, ..Request::default() }
}

/// The requests of a row.
fn row(seed: u64, row: usize, count: u64) -> Vec<Timed> {
    if let Some((_, plan)) = LARGEST.get(row) {
        let of_table = |table: u64| {
            let rng = &mut Rng::new(seed, TABLES + row as u64, table);
            let table = largest(rng);
            let requests = (0..PLANS).map(|_| encode_request(&Request { plan: plan(rng), goals: table.facts[..SHORT].to_vec(), ..table.clone() }).bytes);
            requests.map(|request| timed(request, BUDGET)).collect::<Vec<Timed>>()
        };
        return (0..COUNT).flat_map(of_table).take(count as usize).collect();
    }
    class(seed, row - LARGEST.len(), count).into_iter().map(|call| timed(call.request, call.budget)).collect()
}

/// A request with the index that the index call writes.
fn timed(request: Vec<u8>, budget: u32) -> Timed {
    assert!(request.len() <= REQUEST_LIMIT, "beyond the limits");
    let mut timed = Timed { request, budget, index: Vec::new(), room: [9; INDEX_MOST], lent: [9; STATE_LENGTH] };
    let built = timed.build();
    timed.index = timed.room[..built.count() as usize].to_vec();
    timed
}

impl Timed {
    fn build(&mut self) -> Packed {
        index_packed(black_box(&self.request), &mut self.room)
    }

    fn indexed(&mut self) {
        _ = black_box(judge_indexed_packed(black_box(&self.request), black_box(&self.index), &mut self.lent, self.budget));
    }

    fn index(&mut self) {
        _ = black_box(self.build());
    }

    fn anew(&mut self) {
        let length = self.build().count() as usize;
        _ = black_box(judge_indexed_packed(&self.request, &self.room[..length], &mut self.lent, self.budget));
    }

    fn walk(&mut self) {
        _ = black_box(judge_packed(black_box(&self.request), &mut self.lent, self.budget));
    }

    /// Both calls that walk answer alike, and as the independent program does, which builds the same index; the count.
    fn agreed(&mut self) -> Result<u32, String> {
        let built = self.build();
        let indexed = judge_indexed_packed(&self.request, &self.index, &mut self.lent, self.budget);
        let walked = judge_packed(&self.request, &mut self.lent, self.budget);
        let (mut room, mut state) = ([9; INDEX_MOST], [9; STATE_LENGTH]);
        let others = [oracle::index(&self.request, &mut room), oracle::judge_indexed(&self.request, &self.index, &mut state, self.budget)];
        let same = |packed: Packed, other: Answer| (packed.number(), packed.place() as u32, packed.count()) == (other.number, other.place, other.count);
        match walked == indexed && same(built, others[0]) && same(indexed, others[1]) && room == self.room {
            true => Ok(walked.count()),
            false => Err(format!("index call {built:?}, indexed call {indexed:?}, walk call {walked:?}, independent {} and {}", others[0], others[1])),
        }
    }
}

/// The names of all rows.
fn names() -> Vec<&'static str> {
    LARGEST.iter().map(|(name, _)| *name).chain(NAMES).collect()
}

/// The table, after a comparison of all answers.
pub fn time(seed: u64, rounds: u64) -> Result<String, String> {
    let mut out = String::from(
        "| requests | bytes, mean | bytes of an index, mean | count, mean | walk call, ns | indexed call, ns | index call, ns | indexed less walk, ns ",
    );
    out += "| indexed to walk | quartiles | index built anew, to walk | quartiles |\n|---|---|---|---|---|---|---|---|---|---|---|---|\n";
    for (number, name) in names().into_iter().enumerate() {
        let mut requests = row(seed, number, COUNT * PLANS);
        let counts = requests.iter_mut().map(Timed::agreed).collect::<Result<Vec<u32>, String>>()?;
        let ways = [Timed::indexed, Timed::anew, Timed::index, Timed::walk];
        let ([indexed, _, index, walk], [to_walk, anew, ..]) = side_by_side(&mut requests, rounds, ways);
        let mean = |of: fn(&Timed) -> usize| requests.iter().map(of).sum::<usize>() / requests.len();
        let (bytes, length) = (mean(|timed| timed.request.len()), mean(|timed| timed.index.len()));
        let count = counts.iter().map(|&count| u64::from(count)).sum::<u64>() / counts.len() as u64;
        let told = |[low, middle, high]: [f64; 3]| format!("{middle:.2} | {low:.2} to {high:.2}");
        let (to_walk, anew, less) = (told(to_walk), told(anew), indexed - walk);
        out += &format!("| {name} | {bytes} | {length} | {count} | {walk:.0} | {indexed:.0} | {index:.0} | {less:.0} | {to_walk} | {anew} |\n");
    }
    Ok(out.trim_end().to_string())
}

/// So many passes in one way over the first requests of a row, for a profile.
pub fn only(way: &str, name: &str, count: u64, passes: u64) -> Result<String, String> {
    let ways: [(&str, fn(&mut Timed)); 3] = [("walk", Timed::walk), ("indexed", Timed::indexed), ("index", Timed::index)];
    let (_, way) = ways[find(&ways.map(|(name, _)| name), way)?];
    let mut requests = row(1, find(&names(), name)?, count);
    let start = clock::now();
    for _ in 0..passes {
        requests.iter_mut().for_each(way);
    }
    Ok(format!("{:.0} ns for a call", (clock::now() - start) / (count * passes.max(1)) as f64))
}
