//! Times of the values call, beside the walk call: of requests in which every fluent has two values, beside the request that matches, which both answer alike; and
//! of requests whose fluents have 16 values, beside the same request without values.

use std::hint::black_box;

use glintstring::{judge_packed, judge_values_packed, Packed, MOST_VALUES, STATE_LENGTH};
use oracle::encode::{encode_request, encode_valued};
use oracle::model::{Allowance, Effect, Item, Request};
use oracle::reader::{BODY_LIMIT, FLUENT_LIMIT, REQUEST_LIMIT};
use oracle::rng::Rng;
use oracle::translation::{translated, Translation};
use oracle::values::literal::Literal;
use oracle::values::translate::spelled;
use oracle::values::Valued;
use oracle::Answer;

use crate::classes::{large, medium, small};
use crate::guards::{actions, branchings, looking};
use crate::walks::side_by_side;

/// The stream of random numbers of the requests.
const REQUESTS: u64 = 180;
/// Requests of each row.
const COUNT: u64 = 100;
/// The budget, which the walks of some rows spend.
const BUDGET: u32 = 1_000;
const TWO: u8 = 2;
const SIXTEEN: u8 = MOST_VALUES as u8;

/// What a row of the table is of: requests, and how many values each fluent has.
struct Kind {
    name: &'static str,
    values: u8,
    request: fn(&mut Rng) -> Request,
}

const KINDS: [Kind; 9] = [
    Kind { name: "small", values: TWO, request: small },
    Kind { name: "medium", values: TWO, request: medium },
    Kind { name: "large", values: TWO, request: large },
    Kind { name: "1,024 actions", values: TWO, request: actions },
    Kind { name: "64 fluents looked at", values: TWO, request: looking },
    Kind { name: "64 fluents looked at", values: SIXTEEN, request: looking },
    Kind { name: "1,023 branchings before each end state", values: TWO, request: branchings },
    Kind { name: "255 effects of an action, all known true", values: TWO, request: effects },
    Kind { name: "255 effects of an action, all known true", values: SIXTEEN, request: effects },
];

/// As many effects as there can be, each with a body of 16 literals that are known true, and the plan is their action.
fn effects(_: &mut Rng) -> Request {
    let body: Vec<u8> = (0..BODY_LIMIT as u8).map(|fluent| 2 * fluent).collect();
    let effect = |index: u8| Effect { place: 0, action: 0, literal: 2 * (index % FLUENT_LIMIT as u8), body: body.clone() };
    let facts = (0..FLUENT_LIMIT as u8).map(|fluent| 2 * fluent).collect();
    let allowances = vec![Allowance { action: 0, body: Vec::new() }];
    Request { fluents: FLUENT_LIMIT as u8, actions: 1, facts, effects: (0..255).map(effect).collect(), allowances, plan: vec![Item::act(0)], ..Request::default() }
}

/// True is the value 0 and false the value 1, of so many.
struct Sized(u8);

impl Translation<u8, Literal> for Sized {
    fn literal(&mut self, literal: u8) -> Literal {
        Literal::is(literal / 2, literal % 2, self.0)
    }
}

/// The request said by values; of two values by "is" and by "is not".
fn by_values(rng: &mut Rng, request: &Request, values: u8) -> Vec<u8> {
    let valued = match values {
        TWO => spelled(rng, request),
        _ => Valued { values: vec![values; request.fluents.into()], request: translated(request, &mut Sized(values)) },
    };
    encode_valued(&valued).bytes
}

struct Timed {
    valued: Vec<u8>,
    plain: Vec<u8>,
    lent: [u8; STATE_LENGTH],
}

/// The first request that is no longer than one may be, also said by values.
fn timed(rng: &mut Rng, kind: &Kind) -> Timed {
    loop {
        let request = (kind.request)(rng);
        let (plain, valued) = (encode_request(&request).bytes, by_values(rng, &request, kind.values));
        if plain.len().max(valued.len()) <= REQUEST_LIMIT {
            return Timed { valued, plain, lent: [9; STATE_LENGTH] };
        }
    }
}

impl Timed {
    fn values(&mut self) {
        _ = black_box(judge_values_packed(black_box(&self.valued), &mut self.lent, BUDGET));
    }

    fn walk(&mut self) {
        _ = black_box(judge_packed(black_box(&self.plain), &mut self.lent, BUDGET));
    }

    /// Both calls answer as the independent program does, and of two values alike; the numbers and the counts of both.
    fn agreed(&mut self, values: u8) -> Result<[[u32; 2]; 2], String> {
        let made = [judge_values_packed(&self.valued, &mut self.lent, BUDGET), judge_packed(&self.plain, &mut self.lent, BUDGET)];
        let state = || [9; STATE_LENGTH];
        let others = [oracle::judge_values(&self.valued, &mut state(), BUDGET), oracle::judge(&self.plain, &mut state(), BUDGET)];
        let same = |packed: Packed, other: Answer| (packed.number(), packed.place() as u32, packed.count()) == (other.number, other.place, other.count);
        let told = made.map(|packed| [packed.number().into(), packed.count()]);
        match same(made[0], others[0]) && same(made[1], others[1]) && (values != TWO || told[0] == told[1]) {
            true => Ok(told),
            false => Err(format!("values call {:?}, walk call {:?}, independent {} and {}", made[0], made[1], others[0], others[1])),
        }
    }
}

/// The table, after a comparison of all answers.
pub fn time(seed: u64, rounds: u64) -> Result<String, String> {
    let mut out = String::from("| requests | values of each fluent | bytes, mean | bytes without values, mean | count, mean | count without values, mean | values call, ns | walk call, ns | ratio | quartiles |\n");
    out += "|---|---|---|---|---|---|---|---|---|---|\n";
    for (row, kind) in KINDS.iter().enumerate() {
        let mut requests: Vec<Timed> = (0..COUNT).map(|index| timed(&mut Rng::new(seed, REQUESTS + row as u64, index), kind)).collect();
        let answers = requests.iter_mut().map(|timed| timed.agreed(kind.values)).collect::<Result<Vec<_>, String>>()?;
        let ([values, walk], [[low, middle, high], _]) = side_by_side(&mut requests, rounds, [Timed::values, Timed::walk]);
        let bytes = |of: fn(&Timed) -> &Vec<u8>| requests.iter().map(|timed| of(timed).len()).sum::<usize>() / requests.len();
        let count = |of: usize| answers.iter().map(|answer| u64::from(answer[of][1])).sum::<u64>() / COUNT;
        let (name, sized, valued, plain, by, without) = (kind.name, kind.values, bytes(|timed| &timed.valued), bytes(|timed| &timed.plain), count(0), count(1));
        out += &format!("| {name} | {sized} | {valued} | {plain} | {by} | {without} | {values:.0} | {walk:.0} | {middle:.2} | {low:.2} to {high:.2} |\n");
    }
    Ok(out.trim_end().to_string())
}
