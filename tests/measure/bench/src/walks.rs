//! Times of the walk call by the three programs, class by class.

use std::hint::black_box;

use crate::answers::taken_apart;
use crate::classes::{class, Timed, NAMES};
use crate::clock;
use crate::programs::{agreed, Programs, PROGRAMS};

/// What is timed of a call: all of it, or its reading. For the latter the budget is 0, so that the walk ends at its first action or end state.
const PARTS: [&str; 2] = ["whole", "reading"];

/// Calls of one program in a row, before the next one's turn.
const TURN: usize = 50;

/// One pass over some calls, in nanoseconds.
fn pass(programs: &mut Programs, program: usize, part: usize, calls: &mut [Timed]) -> f64 {
    let start = clock::now();
    for call in calls.iter_mut() {
        let budget = if part == 0 { call.budget } else { 0 };
        black_box(programs.judge(program, black_box(&call.request), &mut call.lent, budget));
    }
    clock::now() - start
}

/// All calls of a class by each program, in turns; whose turn is first goes round.
fn round_of(programs: &mut Programs, round: usize, calls: &mut [Timed]) -> [[f64; 3]; 2] {
    let mut taken = [[0.0; 3]; 2];
    for (index, calls) in calls.chunks_mut(TURN).enumerate() {
        for turn in 0..PROGRAMS.len() {
            let program = (round + index + turn) % PROGRAMS.len();
            for (part, taken) in taken.iter_mut().enumerate() {
                taken[program] += pass(programs, program, part, calls);
            }
        }
    }
    taken
}

/// The lower quartile, the median and the upper quartile.
pub fn quartiles(mut numbers: Vec<f64>) -> [f64; 3] {
    numbers.sort_by(f64::total_cmp);
    [1, 2, 3].map(|quarter| numbers[quarter * (numbers.len() - 1) / 4])
}

/// All inputs in some ways, by turns: of each way the median for one input, in nanoseconds, and the quartiles of the ratio to the last.
pub fn side_by_side<Timed, const WAYS: usize>(
    inputs: &mut [Timed],
    rounds: u64,
    ways: [fn(&mut Timed); WAYS],
) -> ([f64; WAYS], [[f64; 3]; WAYS]) {
    let mut times: Vec<[f64; WAYS]> = Vec::new();
    for round in 0..rounds as usize {
        let mut taken = [0.0; WAYS];
        for (index, timed) in inputs.iter_mut().enumerate() {
            for turn in 0..WAYS {
                let way = (round + index + turn) % WAYS;
                let start = clock::now();
                ways[way](timed);
                taken[way] += clock::now() - start;
            }
        }
        times.push(taken);
    }
    let medians = std::array::from_fn(|way| quartiles(times.iter().map(|taken| taken[way]).collect())[1] / inputs.len() as f64);
    let ratios = std::array::from_fn(|way| quartiles(times.iter().map(|taken| taken[way] / taken[WAYS - 1]).collect()));
    (medians, ratios)
}

/// All times of one class: by part, program and round.
type Times = [[Vec<f64>; 3]; 2];

/// The time of what comes after reading, round by round.
fn walking(times: &Times, program: usize) -> Vec<f64> {
    times[0][program].iter().zip(&times[1][program]).map(|(whole, reading)| whole - reading).collect()
}

fn ratio(one: &[f64], other: &[f64]) -> [f64; 3] {
    quartiles(one.iter().zip(other).map(|(one, other)| one / other).collect())
}

/// The tables, after a comparison of all answers.
pub fn time(seed: u64, rounds: u64, count: u64) -> Result<String, String> {
    let mut programs = Programs::new();
    let mut classes: Vec<Vec<Timed>> = (0..NAMES.len()).map(|index| class(seed, index, count)).collect();
    println!("| class | requests | bytes, mean | answers 0, 1, 2, 3 | count, mean |\n|---|---|---|---|---|");
    for (name, calls) in NAMES.iter().zip(&classes) {
        let mut numbers = [0; 4];
        let (mut bytes, mut counted) = (0, 0);
        for call in calls {
            agreed(&mut programs, &call.request, &call.lent, 0)?;
            let [number, _, _, walked] = taken_apart(agreed(&mut programs, &call.request, &call.lent, call.budget)?);
            numbers[number as usize] += 1;
            bytes += call.request.len();
            counted += walked as usize;
        }
        let all = calls.len();
        let [a, b, c, d] = numbers;
        println!("| {name} | {all} | {} | {a}, {b}, {c}, {d} | {} |", bytes / all, counted / all);
    }
    let mut times: Vec<Times> = NAMES.iter().map(|_| Times::default()).collect();
    for round in 0..rounds as usize {
        for (calls, times) in classes.iter_mut().zip(&mut times) {
            let taken = round_of(&mut programs, round, calls);
            for (part, times) in times.iter_mut().enumerate() {
                for (program, times) in times.iter_mut().enumerate() {
                    times.push(taken[part][program]);
                }
            }
        }
    }
    Ok(tables(&times, classes.iter().map(Vec::len).collect()))
}

/// The whole set is one class more, whose times are the sums.
fn tables(times: &[Times], lengths: Vec<usize>) -> String {
    let mut set = Times::default();
    for part in 0..PARTS.len() {
        for program in 0..PROGRAMS.len() {
            let rounds = times[0][part][program].len();
            set[part][program] = (0..rounds).map(|round| times.iter().map(|times| times[part][program][round]).sum()).collect();
        }
    }
    let classes = NAMES.iter().zip(times).zip(&lengths).map(|((name, times), length)| (*name, times, *length));
    let rows = classes.chain([("the whole set", &set, lengths.iter().sum())]);
    let mut out = String::from("\n| class | part | proved, ns | plain, ns | best, ns | proved to plain | quartiles | proved to best | quartiles |\n");
    out += "|---|---|---|---|---|---|---|---|---|\n";
    for (name, times, length) in rows {
        let walked: [Vec<f64>; 3] = [0, 1, 2].map(|program| walking(times, program));
        for (part, times) in [("whole", &times[0]), ("reading", &times[1]), ("walking", &walked)] {
            let [proved, plain, best] = [0, 1, 2].map(|program| quartiles(times[program].clone())[1] / length as f64);
            let to_plain = ratio(&times[0], &times[1]);
            let to_best = ratio(&times[0], &times[2]);
            out += &format!(
                "| {name} | {part} | {proved:.0} | {plain:.0} | {best:.0} | {:.2} | {:.2} to {:.2} | {:.2} | {:.2} to {:.2} |\n",
                to_plain[1], to_plain[0], to_plain[2], to_best[1], to_best[0], to_best[2]
            );
        }
    }
    out
}

/// Where a name stands among others.
pub fn find(names: &[&str], name: &str) -> Result<usize, String> {
    names.iter().position(|other| *other == name).ok_or(format!("'{name}' is none of {names:?}"))
}

/// So many passes of one program over the first requests of a class, for a profile.
pub fn only(program: &str, name: &str, part: &str, count: u64, passes: u64) -> Result<String, String> {
    let (program, index, part) = (find(&PROGRAMS, program)?, find(&NAMES, name)?, find(&PARTS, part)?);
    let mut calls = class(1, index, count);
    let mut programs = Programs::new();
    let taken: f64 = (0..passes).map(|_| pass(&mut programs, program, part, &mut calls)).sum();
    Ok(format!("{:.0} ns for a call", taken / (count * passes.max(1)) as f64))
}
