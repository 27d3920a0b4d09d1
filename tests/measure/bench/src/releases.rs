//! Times of the release call, beside as many walk calls as the file has plans, each on the request of its plan.

use std::hint::black_box;

use glintstring::{judge_packed, STATE_LENGTH};
use oracle::encode::{encode_release, encode_request};
use oracle::generate::{asked, request, Shape, LARGE, TINY, WIDE};
use oracle::model::{Effect, Request};
use oracle::reader::{PLAN_LIMIT, REQUEST_LIMIT};
use oracle::rng::Rng;
use oracle::walk::{walk, Verdict};

use crate::classes::{medium, small};
use crate::crowded::crowded_of;
use crate::walks::side_by_side;

extern "C" {
    // As crates/glintstring/src/exports.rt has it.
    fn glintstring_release(file: *const u8, file_length: usize, row: *mut u32, row_length: usize, budget: u32) -> u64;
}

/// The stream of random numbers of the files.
const FILES: u64 = 120;
/// Files of each row.
const COUNT: u64 = 40;
/// The budget, which no walk spends, and the most that one counts.
const BUDGET: u32 = 100_000;
const MOST: u32 = 200;
/// Bytes of a large table at least, for 64 plans to fit behind it at most, and of a plan with its goals at the most.
const LARGE_TABLE: usize = 6_000;
const ROOM: usize = 10_000;
const SHORT_PLAN: usize = 90;
/// The release call's part of the walk calls' time, at the most, where there are 64 plans over a large table.
const BAR: f64 = 0.6;

/// What a row of the table is of.
struct Kind {
    name: &'static str,
    plans: usize,
    table: fn(&mut Rng) -> Request,
}

const KINDS: [Kind; 6] = [
    Kind { name: "large", plans: PLAN_LIMIT, table: large },
    Kind { name: "large", plans: 8, table: large },
    Kind { name: "large", plans: 1, table: large },
    Kind { name: "large, a clash in each", plans: PLAN_LIMIT, table: clashing },
    Kind { name: "medium", plans: PLAN_LIMIT, table: medium },
    Kind { name: "small", plans: PLAN_LIMIT, table: small },
];

/// A file, and the requests of its plans with the row's place of each.
struct Timed {
    file: Vec<u8>,
    row: Vec<u32>,
    table: usize,
    starts: Vec<usize>,
    requests: Vec<Vec<u8>>,
    lent: [u8; STATE_LENGTH],
}

/// A table near its limits, or a wide one.
fn large(rng: &mut Rng) -> Request {
    loop {
        let draft = match rng.chance(30) {
            true => request(rng, &WIDE),
            false => crowded_of(rng, (17, 128), (2, 128)),
        };
        if (LARGE_TABLE..=ROOM).contains(&encode_request(&draft).bytes.len()) {
            return draft;
        }
    }
}

/// The same with two effects that clash where their action can't be run, so that 16 has lines to go through.
fn clashing(rng: &mut Rng) -> Request {
    loop {
        let mut draft = large(rng);
        draft.effects.truncate(254);
        let Some(one) = draft.effects.first().cloned() else { continue };
        draft.effects.push(Effect { literal: one.literal ^ 1, ..one.clone() });
        draft.allowances.retain(|line| line.action != one.action);
        if oracle::open(&encode_request(&draft).bytes).is_ok() {
            return draft;
        }
    }
}

/// A short plan over a table, whose walk counts little.
pub fn plan(rng: &mut Rng, table: &Request) -> Request {
    loop {
        let shape = Shape { steps: (1, 12), items: 40, careless: LARGE.careless, ..TINY };
        let mut plan = asked(rng, table.clone(), &shape);
        plan.goals.truncate(6);
        plan.whether.truncate(6);
        let length = encode_release(table, std::slice::from_ref(&plan)).places;
        let within = !matches!(walk(&plan, MOST), Verdict::Over);
        if length[2] - length[1] <= SHORT_PLAN && within {
            return plan;
        }
    }
}

fn timed(rng: &mut Rng, kind: &Kind) -> Timed {
    let table = (kind.table)(rng);
    let plans: Vec<Request> = (0..kind.plans).map(|_| plan(rng, &table)).collect();
    let encoded = encode_release(&table, &plans);
    assert!(encoded.whole.bytes.len() <= REQUEST_LIMIT, "beyond the limits");
    Timed {
        row: vec![0; 4 * kind.plans],
        table: encoded.places[0],
        starts: encoded.places[1..=kind.plans].to_vec(),
        requests: plans.iter().map(|plan| encode_request(plan).bytes).collect(),
        file: encoded.whole.bytes,
        lent: [9; STATE_LENGTH],
    }
}

impl Timed {
    fn release(&mut self) -> u64 {
        let (file, row) = (black_box(&self.file), &mut self.row);
        unsafe { glintstring_release(file.as_ptr(), file.len(), row.as_mut_ptr(), row.len(), BUDGET) }
    }

    fn walks(&mut self) {
        for request in &self.requests {
            _ = black_box(judge_packed(black_box(request), &mut self.lent, BUDGET));
        }
    }

    /// The row has the walk calls' answers, and so has the independent program's.
    fn agreed(&mut self) -> Result<(), String> {
        let own = self.release();
        let mut walked = Vec::new();
        for (request, start) in self.requests.iter().zip(&self.starts) {
            let answer = judge_packed(request, &mut self.lent, BUDGET);
            let moved = if answer.input() == 1 { start - self.table } else { 0 };
            walked.extend([answer.number().into(), (answer.place() + moved) as u32, answer.count(), answer.input().into()]);
        }
        let mut row = vec![0; self.row.len()];
        let other = oracle::release(&self.file, &mut row, BUDGET);
        match own == 0 && other.number == 0 && self.row == walked && self.row == row {
            true => Ok(()),
            false => Err(format!("own answer {own}, row {:?}, walk calls {walked:?}, independent {row:?}", self.row)),
        }
    }
}

/// The table, after a comparison of all answers.
pub fn time(seed: u64, rounds: u64) -> Result<String, String> {
    let mut out = String::from("| tables | bytes of a table, mean | plans | bytes of a plan, mean | release call, ns | walk calls, ns | ratio | quartiles |\n");
    out += "|---|---|---|---|---|---|---|---|\n";
    for (row, kind) in KINDS.iter().enumerate() {
        let mut files: Vec<Timed> = (0..COUNT).map(|index| timed(&mut Rng::new(seed, FILES + row as u64, index), kind)).collect();
        for file in &mut files {
            file.agreed()?;
        }
        let tables: usize = files.iter().map(|file| file.table).sum();
        let plans: usize = files.iter().map(|file| file.file.len() - file.table - 1).sum();
        let ways = [|file: &mut Timed| _ = black_box(file.release()), Timed::walks];
        let ([release, walks], [[low, middle, high], _]) = side_by_side(&mut files, rounds, ways);
        let (table, plan) = (tables / files.len(), plans / files.len() / kind.plans);
        let (name, count) = (kind.name, kind.plans);
        if row == 0 && middle > BAR {
            return Err(format!("the release call takes {middle:.2} of the walk calls' time, and {BAR} is the most"));
        }
        out += &format!("| {name} | {table} | {count} | {plan} | {release:.0} | {walks:.0} | {middle:.2} | {low:.2} to {high:.2} |\n");
    }
    Ok(out.trim_end().to_string())
}
