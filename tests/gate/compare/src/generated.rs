//! Generated and damaged requests, with various budgets and lent states.

use std::collections::BTreeMap;

use glintstring::STATE_LENGTH;
use oracle::calls::judge_call;
use oracle::damage::damage_request;
use oracle::edges::{of_judging, Met, OF_JUDGING};
use oracle::encode::encode_request;
use oracle::open;
use oracle::rng::Rng;
use oracle::run::Stop;

use crate::calls::{agreed, answer, Call};
use crate::crowded::crowded;
use crate::many::{all_met, each_agreed};

/// The numbers of the walk call, each of which has to occur, as have what stands at the limits and answer 2 at items of every kind.
const NUMBERS: [u64; 17] = [0, 1, 2, 3, 9, 10, 11, 12, 13, 14, 15, 16, 17, 18, 19, 20, 21];
/// From so many calls on, all that has to occur is looked for.
const ENOUGH: u64 = 100_000;
/// The largest budget for a request whose walk nobody has counted before.
pub const MOST: u32 = 20_000;
/// Streams of random numbers: of the calls, and of what stands around the lent bytes.
const CALLS: u64 = 3;
const FENCES: u64 = 4;

/// Makes so many calls from a seed; in words how often each number occurred, or the first difference.
pub fn compare(seed: u64, count: u64) -> Result<String, String> {
    let mut seen: BTreeMap<u64, u64> = BTreeMap::new();
    let mut stops: BTreeMap<Stop, u64> = BTreeMap::new();
    let mut edges = Met::default();
    let mut longest = 0;
    each_agreed((seed, count), FENCES, call, agreed, |call, left| {
        *seen.entry(left.answer[0]).or_default() += 1;
        if let (2, Ok(request)) = (left.answer[0], open(&call.request)) {
            let stop = Stop::of(&request, call.request[left.answer[2] as usize], left.line.unwrap_or(0));
            *stops.entry(stop).or_default() += 1;
        }
        edges.note(of_judging(&call.request, call.lent.len(), answer(left.answer)));
        longest = longest.max(call.request.len());
    })?;
    for (number, times) in &seen {
        println!("  answer {number}: {times}");
    }
    for (stop, times) in &stops {
        println!("  answer 2 at {stop:?}: {times}");
    }
    print!("{}", edges.told(&OF_JUDGING));
    let missing = NUMBERS.iter().filter(|number| !seen.contains_key(number)).map(|number| format!("answer {number}"));
    let stops = Stop::ALL.iter().filter(|stop| !stops.contains_key(stop)).map(|stop| format!("answer 2 at {stop:?}"));
    let missing: Vec<String> = missing.chain(stops).chain(edges.never(&OF_JUDGING)).collect();
    all_met((seed, count), ENOUGH, "calls", &missing)?;
    Ok(format!("{count} calls of seed {seed} agree; the longest request has {longest} bytes"))
}

/// The call with this number from a seed.
pub fn call(seed: u64, index: u64) -> Call {
    any_call(&mut Rng::new(seed, CALLS, index))
}

/// A call of the independent program's own generators, which make about three of ten requests wrong in some way, and varied.
pub fn any_call(rng: &mut Rng) -> Call {
    varied(rng, |rng| judge_call(rng).into(), crowded_request)
}

/// The bytes of a crowded request, of which some are damaged.
pub fn crowded_request(rng: &mut Rng) -> Vec<u8> {
    let draft = crowded(rng);
    match rng.chance(40) {
        true => damage_request(rng, &draft).bytes,
        false => encode_request(&draft).bytes,
    }
}

/// A call that is drawn; of some the request is made wrong once more or is one of another kind, or the budget or the lent state is another. A crowded
/// request has lines, items and entries up to their limits.
pub fn varied(rng: &mut Rng, drawn: impl Fn(&mut Rng) -> Call, crowded: impl Fn(&mut Rng) -> Vec<u8>) -> Call {
    let mut call = drawn(rng);
    match rng.below(100) {
        0..=4 => {
            for _ in 0..rng.range(1, 3) {
                change(rng, &mut call.request);
            }
            call.budget = call.budget.min(MOST);
        }
        5..=6 => {
            let other = drawn(rng).request;
            cross(rng, &mut call.request, &other);
            call.budget = call.budget.min(MOST);
        }
        7 => {
            let most = *rng.pick(&[3, 5, 8, 255]);
            call.request = (0..rng.below(60)).map(|_| rng.byte(0, most)).collect();
            call.budget = rng.below(1_000) as u32;
        }
        8..=17 => call.budget = rng.below(80) as u32,
        18..=20 => {
            call.request = crowded(rng);
            call.budget = *rng.pick(&[0, 3, 20, 1_000, MOST]);
        }
        21 => call.lent = (0..rng.below(2 * STATE_LENGTH)).map(|_| rng.byte(0, 255)).collect(),
        _ => {}
    }
    call
}

/// One byte is another, is there once more, or is not there.
pub fn change(rng: &mut Rng, request: &mut Vec<u8>) {
    if request.is_empty() {
        return request.push(rng.byte(0, 255));
    }
    let place = rng.below(request.len());
    match rng.below(6) {
        0 => request[place] = rng.byte(0, 255),
        1 => request[place] = request[place].wrapping_add(1),
        2 => request[place] = request[place].wrapping_sub(1),
        3 => request.insert(place, request[place]),
        4 => request.insert(place, rng.byte(0, 9)),
        _ => _ = request.remove(place),
    }
}

/// The start of one input and the end of another.
pub fn cross(rng: &mut Rng, request: &mut Vec<u8>, other: &[u8]) {
    request.truncate(rng.below(request.len() + 1));
    let from = match other.len() {
        length if rng.chance(50) => request.len().min(length),
        length => rng.below(length + 1),
    };
    request.extend(&other[from..]);
}
