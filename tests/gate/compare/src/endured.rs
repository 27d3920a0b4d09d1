//! Hostile inputs through the exported calls: the independent program's answer, no write outside the lent bytes, and a time of at most
//! a + b * count, or a multiple of that where the calls are known to be slow. They can also be written as files, for programs that read files.

use std::fmt::Write;
use std::fs;
use std::time::Duration;

use oracle::indexes::calls::LONGEST;
use oracle::rng::Rng;

use crate::calls::{self, expect, Call, Left};
use crate::checks::Layout;
use crate::hostile::{self, Input, Named};
use crate::indexes::Indexed;
use crate::{by_cases, checks, derivations, derives, generated, guarded, indexes, releases, values, whether};

/// What a call may take, and what it may take for each count more: far more than was ever seen (docs/MEASURED.md).
const A: Duration = Duration::from_secs(1);
const B: Duration = Duration::from_micros(200);
/// By cases an action may be tried in 4,096 fillings.
const B_BY_CASES: Duration = Duration::from_millis(200);
/// How often a call is made that is short, or that takes longer than it may: the shortest time is its own.
const TRIES: usize = 3;
const SHORT: Duration = Duration::from_secs(1);
/// From so large a count on, the time for each is told.
const LARGE: u64 = 500;
/// Rows of the table.
const SHOWN: usize = 16;
/// The stream of random numbers of what stands around the lent bytes.
const FENCES: u64 = 11;
/// Random requests, derivations, and those in the closing layout, of each.
const RANDOM: u64 = 300;

/// What a call answered, of a release file with the counts of all its plans together, and how long it took.
struct Taken {
    answer: [u64; 4],
    took: Duration,
    /// What it may take for each count.
    b: Duration,
}

impl Taken {
    /// a + b * count, as many times as the calls are slower than those that a and b are of.
    fn bound(&self, slower: u32) -> Duration {
        let counts = self.answer[3] as f64;
        (A + self.b.mul_f64(counts)) * slower
    }

    /// Nanoseconds for each count, of large counts.
    fn each(&self) -> Option<u64> {
        let count = self.answer[3];
        (count >= LARGE).then(|| (self.took.as_nanos() / u128::from(count)) as u64)
    }
}

/// The call by both programs; its time is that of the exported one.
fn call(rng: &mut Rng, input: &Input) -> Result<Taken, String> {
    let agreed = |(left, took): (Left, Duration), other: Left, b: Duration| {
        expect(&left, &other, "the independent program")?;
        Ok(Taken { answer: left.answer, took, b })
    };
    match input {
        Input::Walk(call) => agreed(calls::timed(rng, call)?, calls::independent(call), B),
        Input::ByCases(call) => agreed(by_cases::timed(rng, call)?, by_cases::independent(call), B_BY_CASES),
        Input::Guarded(call) => agreed(guarded::timed(rng, call)?, guarded::independent(call), B),
        Input::Values(call) => agreed(values::timed(rng, call)?, values::independent(call), B),
        Input::Index(call) => {
            // The length of the index is no count.
            let taken = agreed(indexes::built(rng, call)?, indexes::independently_built(call), B)?;
            let [number, input, place, _] = taken.answer;
            Ok(Taken { answer: [number, input, place, 0], ..taken })
        }
        Input::Indexed(call) => agreed(indexes::timed(rng, call)?, indexes::independent(call), B),
        Input::Derive(call) => {
            // The length of the derivation is no count, and the walk's is.
            let taken = agreed(derives::timed(rng, call)?, derives::independent(call), B)?;
            let [number, input, place, _] = taken.answer;
            let count = calls::independent(&derives::walk_of(call)).answer[3];
            Ok(Taken { answer: [number, input, place, count], ..taken })
        }
        Input::Derivation(check) => checks::timed(rng, check).map(|(answer, took)| Taken { answer, took, b: B }),
        Input::Release(call) => {
            let (left, took) = releases::timed(rng, call)?;
            releases::expect(&left, &releases::independent(call), "the independent program")?;
            Ok(Taken { answer: left.counted(), took, b: B })
        }
    }
}

/// The same within its time, or in words what went wrong.
fn endured(rng: &mut Rng, input: &Input, slower: u32) -> Result<Taken, String> {
    let mut best = call(rng, input)?;
    for _ in 1..TRIES {
        if best.took < SHORT || best.took > best.bound(slower) {
            let again = call(rng, input)?;
            best.took = best.took.min(again.took);
        }
    }
    match best.took > best.bound(slower) {
        true => Err(format!("{:?} took {:?}, and at most {:?} is allowed", best.answer, best.took, best.bound(slower))),
        false => Ok(best),
    }
}

/// The largest times so far, and whose they are.
struct Largest {
    without_count: (u64, String),
    each: (u64, String),
}

impl Largest {
    fn note(&mut self, name: &str, taken: &Taken) {
        let whole = taken.took.as_nanos() as u64;
        if taken.answer[3] == 0 && whole > self.without_count.0 {
            self.without_count = (whole, name.to_string());
        }
        if taken.each().is_some_and(|each| each > self.each.0) {
            self.each = (taken.each().unwrap_or(0), name.to_string());
        }
    }
}

fn run(inputs: &[Named], slower: u32, largest: &mut Largest) -> Result<Vec<(String, Taken)>, String> {
    let mut all = Vec::new();
    for (index, (name, input)) in inputs.iter().enumerate() {
        let taken = endured(&mut Rng::new(1, FENCES, index as u64), input, slower).map_err(|why| format!("{name}: {why}"))?;
        largest.note(name, &taken);
        all.push((name.clone(), taken));
    }
    Ok(all)
}

/// The calls that took longest.
fn table(mut all: Vec<(String, Taken)>) {
    all.sort_by_key(|(_, taken)| std::cmp::Reverse(taken.took));
    println!("| input | number | place | count | time, us | ns for each count |\n|---|---|---|---|---|---|");
    for (name, taken) in all.iter().take(SHOWN) {
        let [number, _, place, count] = taken.answer;
        let each = taken.each().map_or(String::new(), |each| each.to_string());
        println!("| {name} | {number} | {place} | {count} | {} | {each} |", taken.took.as_micros());
    }
}

/// Every input by name, with the deepest walks of a folder, and random ones; or only the one that takes minutes. The calls may be so many times
/// slower than the library's.
pub fn compare(folder: Option<&str>, slower: u32) -> Result<String, String> {
    let none = (0, "none".to_string());
    let mut largest = Largest { without_count: none.clone(), each: none };
    let (named, random) = match folder {
        Some(folder) => (hostile::named(folder)?, hostile::random(1, RANDOM)),
        None => (hostile::longest(), Vec::new()),
    };
    table(run(&named, slower, &mut largest)?);
    run(&random, slower, &mut largest)?;
    let [(whole, slowest), (each, slowest_each)] = [largest.without_count, largest.each];
    let (a, total) = ((A * slower).as_micros(), named.len() + random.len());
    let [b, b_by_cases] = [B, B_BY_CASES].map(|b| (b * slower).as_nanos());
    println!("  a: {a} us allowed; without a count at most {} us: {slowest}", whole / 1_000);
    println!("  b: {b} ns allowed, and {b_by_cases} ns by cases; for each of {LARGE} counts or more at most {each} ns: {slowest_each}");
    Ok(format!("hostile inputs: {total} agree, none writes outside the lent bytes, and each takes at most a + b * count"))
}

/// Files of one kind: their names, and the independent program's answers.
#[derive(Default)]
struct Written {
    names: String,
    expected: String,
}

impl Written {
    fn add(&mut self, names: &str, answer: [u64; 4]) {
        _ = writeln!(self.names, "{names}");
        self.expect(answer);
    }

    fn expect(&mut self, [number, _, place, count]: [u64; 4]) {
        _ = writeln!(self.expected, "  number {number}, place {place}, count {count}");
    }
}

/// Writes the inputs of a folder's deepest walks, the others by name, and so many generated and random ones as files into another folder.
/// There `walks` has the names of requests, `guarded` those of guarded requests, `indexed` those of requests and indexes, `checks` those of requests and
/// derivations, and `whether` the same in the closing layout; beside them are the answers, by the independent program, walks under this budget. Those of
/// `indexed` are two for each, of the index call with room enough and of the indexed call.
pub fn write(deepest: &str, folder: &str, budget: u32, count: u64) -> Result<String, String> {
    let mut inputs: Vec<Input> = hostile::named(deepest)?.into_iter().chain(hostile::random(1, count)).map(|(_, input)| input).collect();
    inputs.extend((0..count).map(|index| Input::Walk(generated::call(1, index))));
    inputs.extend((0..count).map(|index| Input::Guarded(guarded::call(1, index))));
    inputs.extend((0..count).map(|index| Input::Derivation(derivations::call(1, index))));
    inputs.extend((0..count).map(|index| Input::Derivation(whether::call(1, index))));
    inputs.extend((0..count).map(|index| Input::Indexed(indexes::call(1, index).indexed)));
    // The programs for which files are written take requests, guarded or not, with an index or without, and derivations.
    inputs.retain(|input| !matches!(input, Input::Release(_) | Input::ByCases(_) | Input::Values(_) | Input::Index(_) | Input::Derive(_)));
    let save = |name: String, bytes: &[u8]| fs::write(format!("{folder}/{name}"), bytes).map_err(|error| format!("{folder}/{name}: {error}"));
    let [mut walks, mut guards, mut indexed, mut plain, mut closing] = std::array::from_fn(|_| Written::default());
    for (index, input) in inputs.iter_mut().enumerate() {
        if let Input::Walk(call) | Input::Guarded(call) | Input::Indexed(Indexed { call, .. }) = input {
            call.budget = budget;
            call.lent = vec![0; glintstring::STATE_LENGTH];
            save(format!("{index}.request"), &call.request)?;
        }
        match input {
            Input::Walk(call) => walks.add(&format!("{folder}/{index}.request"), calls::independent(call).answer),
            Input::Guarded(call) => guards.add(&format!("{folder}/{index}.request"), guarded::independent(call).answer),
            Input::Derivation(check) => {
                save(format!("{index}.request"), &check.request)?;
                save(format!("{index}.derivation"), &check.derivation)?;
                let written = match check.layout {
                    Layout::Plain => &mut plain,
                    Layout::Closing => &mut closing,
                };
                written.add(&format!("{folder}/{index}.request {folder}/{index}.derivation"), checks::independent(check));
            }
            Input::Indexed(call) => {
                save(format!("{index}.index"), &call.index)?;
                let room = Call { lent: vec![0; LONGEST], ..call.call.clone() };
                indexed.add(&format!("{folder}/{index}.request {folder}/{index}.index"), indexes::independently_built(&room).answer);
                indexed.expect(indexes::independent(call).answer);
            }
            Input::Release(_) | Input::ByCases(_) | Input::Values(_) | Input::Index(_) | Input::Derive(_) => unreachable!("no such file is written"),
        }
    }
    for (name, written) in [("walks", walks), ("guarded", guards), ("indexed", indexed), ("checks", plain), ("whether", closing)] {
        save(name.to_string(), written.names.as_bytes())?;
        save(format!("{name}.expected"), written.expected.as_bytes())?;
    }
    Ok(format!("{} inputs written", inputs.len()))
}
