//! Release calls and plans calls made both ways, and many of them with how often each number occurred.

use std::time::{Duration, Instant};

use glintstring::Packed;
use oracle::damage::damage_request;
use oracle::encode::{encode_release, encode_request};
use oracle::reader::{PLAN_LIMIT, REQUEST_LIMIT};
use oracle::releases::calls::{lent_row, release_call};
use oracle::releases::run::Tally;
use oracle::rng::Rng;
use oracle::tally::Checked;
use oracle::text::comma_separated;

use crate::calls::{self, answer, numbers};
use crate::cases;
use crate::crowded::{crowded, crowded_plan};
use crate::fence::Fenced;
use crate::generated::{change, cross};
use crate::many::{all_met, each_agreed, ENOUGH};

/// The largest budget for a file whose walks nobody has counted before.
const MOST: u32 = 2_000;
/// Streams of random numbers: of the calls, and of what stands around file and row.
const CALLS: u64 = 17;
const FENCES: u64 = 18;

/// What a release call takes; the plans call takes the file alone.
#[derive(Clone, Debug)]
pub struct Release {
    pub file: Vec<u8>,
    pub lent: Vec<u32>,
    pub budget: u32,
}

/// What they leave: number, input, place and count of the own answer, the row, and how many plans there are.
#[derive(Clone, Debug, PartialEq, Eq)]
pub struct Left {
    pub own: [u64; 4],
    pub row: Vec<u32>,
    pub plans: u32,
}

impl Left {
    /// The own answer with the counts of all plans together in place of its own, which is 0.
    pub fn counted(&self) -> [u64; 4] {
        let [number, input, place, _] = self.own;
        let counts = self.row.chunks(4).filter(|_| number == 0).map(|plan| u64::from(plan[2]));
        [number, input, place, counts.sum()]
    }

    /// The own answer with a sum over the plans and the row, of which each number counts, in place of its count.
    #[allow(dead_code)]
    pub fn summed(&self) -> [u64; 4] {
        let [number, input, place, _] = self.own;
        let sum = self.row.iter().fold(self.plans, |sum, &next| sum.wrapping_mul(31).wrapping_add(next));
        [number, input, place, sum.into()]
    }
}

impl std::fmt::Display for Release {
    fn fmt(&self, out: &mut std::fmt::Formatter<'_>) -> std::fmt::Result {
        write!(out, "budget {}, row {}, release file {}", self.budget, told(&self.lent), comma_separated(&self.file))
    }
}

fn told(row: &[u32]) -> String {
    match row {
        [] => "-".to_string(),
        _ => row.iter().map(u32::to_string).collect::<Vec<_>>().join(","),
    }
}

/// Both exported calls, between fences, and how long the release call took; in words what they changed that they may not.
pub fn timed(rng: &mut Rng, call: &Release) -> Result<(Left, Duration), String> {
    let mut file = Fenced::new(rng, &call.file);
    let mut row = Fenced::new(rng, &call.lent);
    let (file_before, row_before) = (file.clone(), row.clone());
    let began = Instant::now();
    let packed = cases::release(file.lent(), row.lent(), call.budget);
    let took = began.elapsed();
    let afterwards = row.lent().to_vec();
    if file != file_before {
        return Err("the file, or what stands around it, was changed".to_string());
    }
    if row != row_before.with(&afterwards) {
        return Err("what stands around the row was changed".to_string());
    }
    let own = numbers(Packed(packed));
    if own[0] != 0 && afterwards != call.lent {
        return Err(format!("own answer {own:?} left the row {}", told(&afterwards)));
    }
    let plans = cases::plans(file.lent());
    if file != file_before {
        return Err("the file, or what stands around it, was changed by the plans call".to_string());
    }
    Ok((Left { own, row: afterwards, plans }, took))
}

/// The independent program's.
pub fn independent(call: &Release) -> Left {
    let mut row = call.lent.clone();
    let own = oracle::release(&call.file, &mut row, call.budget);
    Left { own: calls::told(own), row, plans: oracle::plans(&call.file) }
}

/// What both leave, or how they differ.
pub fn agreed(rng: &mut Rng, call: &Release) -> Result<Left, String> {
    let (one, _) = timed(rng, call)?;
    expect(&one, &independent(call), "the independent program")?;
    Ok(one)
}

/// Each number counts.
pub fn expect(one: &Left, other: &Left, whose: &str) -> Result<(), String> {
    if one.own != other.own {
        return Err(format!("number, input, place, count are {:?}, by {whose} {:?}", one.own, other.own));
    }
    if one.row != other.row {
        return Err(format!("the row is {}, by {whose} {}", told(&one.row), told(&other.row)));
    }
    match one.plans == other.plans {
        true => Ok(()),
        false => Err(format!("there are {} plans, by {whose} {}", one.plans, other.plans)),
    }
}

/// Makes so many calls from a seed; in words how often each number occurred, or the first difference.
pub fn compare(seed: u64, count: u64) -> Result<String, String> {
    let mut tally = Tally::default();
    let mut longest = 0;
    each_agreed((seed, count), FENCES, call, agreed, |call, left| {
        tally.note(&call.file, call.lent.len(), answer(left.own), &left.row);
        longest = longest.max(call.file.len());
    })?;
    for line in tally.report().lines() {
        println!("  {line}");
    }
    all_met((seed, count), ENOUGH, "release calls", &tally.never_met())?;
    Ok(format!("{count} release calls of seed {seed} agree; the longest file has {longest} bytes"))
}

/// The call with this number from a seed.
pub fn call(seed: u64, index: u64) -> Release {
    any_call(&mut Rng::new(seed, CALLS, index))
}

/// A call of the independent program's own generators, which make about half of the files wrong in some way; some files are made wrong once more
/// or are of another kind.
pub fn any_call(rng: &mut Rng) -> Release {
    let drawn = release_call(rng);
    let mut call = Release { file: drawn.file, lent: drawn.lent, budget: drawn.budget };
    match rng.below(100) {
        0..=4 => {
            for _ in 0..rng.range(1, 3) {
                change(rng, &mut call.file);
            }
        }
        5..=7 => {
            let other = release_call(rng).file;
            cross(rng, &mut call.file, &other);
        }
        8 => {
            let most = *rng.pick(&[3, 5, 8, 255]);
            call.file = (0..rng.below(80)).map(|_| rng.byte(0, most)).collect();
        }
        9 => {
            // A request, which is no release file, or by chance one.
            let draft = crowded(rng);
            call.file = damage_request(rng, &draft).bytes;
        }
        10..=11 => call.file = crowded_file(rng),
        12 if rng.chance(30) => {
            let length = *rng.pick(&[REQUEST_LIMIT - 1, REQUEST_LIMIT, REQUEST_LIMIT + 1, 20_000]);
            call.file.resize(length, rng.byte(0, 3));
        }
        13..=14 => {
            call.lent = (0..rng.below(5 * PLAN_LIMIT)).map(|_| rng.bits() as u32).collect();
            return call;
        }
        _ => return call,
    }
    call.lent = lent_row(rng, &call.file);
    call.budget = call.budget.min(MOST);
    call
}

/// A table near its limits, and plans over it, as many as there is room for.
fn crowded_file(rng: &mut Rng) -> Vec<u8> {
    let table = loop {
        let table = crowded(rng);
        if encode_request(&table).bytes.len() < REQUEST_LIMIT {
            break table;
        }
    };
    let mut plans = vec![table.clone()];
    for _ in 0..rng.below(PLAN_LIMIT) {
        plans.push(crowded_plan(rng, &table));
        if encode_release(&table, &plans).whole.bytes.len() > REQUEST_LIMIT {
            plans.pop();
            break;
        }
    }
    encode_release(&table, &plans).whole.bytes
}
