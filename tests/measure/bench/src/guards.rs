//! Times of the guarded call, beside the walk call on the same request without its guards. The guards hold in every state, so both walk alike.

use std::hint::black_box;

use glintstring::{judge_guarded_packed, judge_packed, STATE_LENGTH};
use oracle::encode::{encode_guarded, encode_request};
use oracle::generate::common;
use oracle::model::{Branch, Guarded, Item, Knowledge, Request};
use oracle::reader::{FLUENT_LIMIT, GUARD_LIMIT, ITEM_LIMIT, REQUEST_LIMIT};
use oracle::rng::Rng;
use oracle::walk::{met, walk};

use crate::classes::{large, medium, small};
use crate::walks::side_by_side;

/// The stream of random numbers of the requests.
const REQUESTS: u64 = 140;
/// Requests of each row.
const COUNT: u64 = 100;
/// The budget, which the walks of the last three rows spend, and the most that one of the others counts.
const BUDGET: u32 = 1_000;
const MOST: u32 = 500;

/// What a row of the table is of: requests, and how many guards each has, or as many as hold.
struct Kind {
    name: &'static str,
    guards: Option<usize>,
    request: fn(&mut Rng) -> Request,
}

const KINDS: [Kind; 10] = [
    Kind { name: "small", guards: Some(0), request: small },
    Kind { name: "small", guards: None, request: small },
    Kind { name: "medium", guards: Some(0), request: medium },
    Kind { name: "medium", guards: None, request: medium },
    Kind { name: "large", guards: Some(0), request: large },
    Kind { name: "large", guards: Some(8), request: large },
    Kind { name: "large", guards: Some(GUARD_LIMIT), request: large },
    Kind { name: "1,024 actions", guards: Some(GUARD_LIMIT), request: actions },
    Kind { name: "128 fluents looked at, half of them known", guards: Some(GUARD_LIMIT), request: looking },
    Kind { name: "1,023 branchings before each end state", guards: Some(GUARD_LIMIT), request: branchings },
];

/// The first half of all fluents is true, action 0 looks at the others, and both actions can always be run.
fn half_known() -> Request {
    let half = FLUENT_LIMIT as u8 / 2;
    let always = |action| oracle::model::Allowance { action, body: Vec::new() };
    Request {
        fluents: FLUENT_LIMIT as u8,
        actions: 2,
        facts: (0..half).map(|fluent| 2 * fluent).collect(),
        allowances: vec![always(0), always(1)],
        knowledge: (half..FLUENT_LIMIT as u8).map(|fluent| Knowledge { place: 0, action: 0, fluent }).collect(),
        ..Request::default()
    }
}

pub fn actions(_: &mut Rng) -> Request {
    Request { plan: vec![Item::act(1); ITEM_LIMIT], ..half_known() }
}

pub fn looking(_: &mut Rng) -> Request {
    Request { plan: vec![Item::act(0)], ..half_known() }
}

pub fn branchings(_: &mut Rng) -> Request {
    let follow = Item::case(vec![Branch { condition: Vec::new(), sequence: Vec::new() }]);
    Request { plan: [vec![Item::act(0)], vec![follow; ITEM_LIMIT - 1]].concat(), ..half_known() }
}

/// A request, with its guards and without.
struct Timed {
    guarded: Vec<u8>,
    plain: Vec<u8>,
    guards: usize,
    lent: [u8; STATE_LENGTH],
}

/// The first request whose walk counts little, or is of a kind of which all are alike, and in which so many guards hold.
fn timed(rng: &mut Rng, kind: &Kind) -> Timed {
    loop {
        let request = (kind.request)(rng);
        let alike = request.fluents == FLUENT_LIMIT as u8 && request.actions == 2;
        let mut guards = common(&met(&request, BUDGET)).literals();
        rng.shuffle(&mut guards);
        let wanted = kind.guards.unwrap_or(guards.len().min(GUARD_LIMIT));
        let light = alike || walk(&request, MOST).count().is_some();
        if !light || guards.len() < wanted || (kind.guards.is_none() && guards.is_empty()) {
            continue;
        }
        guards.truncate(wanted);
        guards.sort_unstable();
        let plain = encode_request(&request).bytes;
        let guarded = encode_guarded(&Guarded { request, guards, ..Guarded::default() }).bytes;
        if guarded.len() <= REQUEST_LIMIT {
            return Timed { guarded, plain, guards: wanted, lent: [9; STATE_LENGTH] };
        }
    }
}

impl Timed {
    fn guarded(&mut self) {
        _ = black_box(judge_guarded_packed(black_box(&self.guarded), &mut self.lent, BUDGET));
    }

    fn walk(&mut self) {
        _ = black_box(judge_packed(black_box(&self.plain), &mut self.lent, BUDGET));
    }

    /// Both calls answer alike, and the independent program answers so too.
    fn agreed(&mut self) -> Result<u32, String> {
        let guarded = judge_guarded_packed(&self.guarded, &mut self.lent, BUDGET);
        let plain = judge_packed(&self.plain, &mut self.lent, BUDGET);
        let other = oracle::judge_guarded(&self.guarded, &mut [9; STATE_LENGTH], BUDGET);
        let [number, place, count] = [plain.number().into(), plain.place() as u32, plain.count()];
        match guarded == plain && (u32::from(other.number), other.place, other.count) == (number, place, count) {
            true => Ok(count),
            false => Err(format!("guarded call {guarded:?}, walk call {plain:?}, independent {other}")),
        }
    }
}

/// The table, after a comparison of all answers.
pub fn time(seed: u64, rounds: u64) -> Result<String, String> {
    let mut out = String::from("| requests | bytes, mean | guards, mean | count, mean | guarded call, ns | walk call, ns | ratio | quartiles |\n");
    out += "|---|---|---|---|---|---|---|---|\n";
    for (row, kind) in KINDS.iter().enumerate() {
        let mut requests: Vec<Timed> = (0..COUNT).map(|index| timed(&mut Rng::new(seed, REQUESTS + row as u64, index), kind)).collect();
        let counts: u32 = requests.iter_mut().map(Timed::agreed).sum::<Result<u32, String>>()?;
        let ([guarded, plain], [[low, middle, high], _]) = side_by_side(&mut requests, rounds, [Timed::guarded, Timed::walk]);
        let mean = |of: fn(&Timed) -> usize| requests.iter().map(of).sum::<usize>() / requests.len();
        let (bytes, guards, count) = (mean(|timed| timed.guarded.len()), mean(|timed| timed.guards), u64::from(counts) / COUNT);
        let name = kind.name;
        out += &format!("| {name} | {bytes} | {guards} | {count} | {guarded:.0} | {plain:.0} | {middle:.2} | {low:.2} to {high:.2} |\n");
    }
    Ok(out.trim_end().to_string())
}
