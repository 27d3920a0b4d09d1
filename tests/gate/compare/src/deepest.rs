//! The requests on which the walk goes deepest (tests/gate/stack), on a thread with exactly the stack that docs/MEASURED.md asks for.

use std::fmt::Display;
use std::time::Duration;
use std::{fs, thread};

use oracle::indexes::index::index_of;
use oracle::reader::DERIVATION_LIMIT;
use oracle::rng::Rng;

use crate::calls::{expect, exported, independent, Call, Left};
use crate::indexes::Indexed;
use crate::{by_cases, derives, guarded, indexes, values};

/// The requests of a folder, of which the file `list` has a line each: file, budget, items, name.
pub fn requests(folder: &str) -> Result<Vec<(String, Call)>, String> {
    listed(folder, "list")
}

/// The guarded requests, of which the file `guarded` has a line each: file, budget, guards, name.
pub fn guarded_requests(folder: &str) -> Result<Vec<(String, Call)>, String> {
    listed(folder, "guarded")
}

/// The requests by cases, of which the file `by-cases` has a line each: file, budget, open fluents, name.
pub fn requests_by_cases(folder: &str) -> Result<Vec<(String, Call)>, String> {
    listed(folder, "by-cases")
}

/// The values requests, of which the file `values` has a line each: file, budget, values of each fluent, name.
pub fn values_requests(folder: &str) -> Result<Vec<(String, Call)>, String> {
    listed(folder, "values")
}

/// The requests whose derivations go deepest, of which the file `to-derive` has a line each: file, budget, items, name.
pub fn requests_to_derive(folder: &str) -> Result<Vec<(String, Call)>, String> {
    listed(folder, "to-derive")
}

fn listed(folder: &str, list: &str) -> Result<Vec<(String, Call)>, String> {
    let read = |name: &str| fs::read(format!("{folder}/{name}")).map_err(|error| format!("{folder}/{name}: {error}"));
    let list = String::from_utf8(read(list)?).map_err(|error| error.to_string())?;
    let request = |line: &str| {
        let words: Vec<&str> = line.splitn(4, ' ').collect();
        let [file, budget, _, name] = words[..] else { return Err(format!("a line that is none: {line}")) };
        let budget = budget.parse().map_err(|_| format!("a budget that is none: {line}"))?;
        Ok((name.to_string(), Call { request: read(file)?, lent: vec![9; glintstring::STATE_LENGTH], budget }))
    };
    match list.lines().map(request).collect::<Result<Vec<_>, String>>()? {
        none if none.is_empty() => Err("no deep request".to_string()),
        some => Ok(some),
    }
}

/// A call on such a thread.
fn on_thread<T: Send>(call: impl FnOnce() -> T + Send) -> T {
    thread::scope(|scope| thread::Builder::new().stack_size(glintstring::STACK_NEEDED).spawn_scoped(scope, call).expect("a thread").join().expect("a call"))
}

/// Each call is made by both programs, the exported one on such a thread.
fn agreed<C: Display + Sync>(
    calls: &[(String, C)],
    seed: u64,
    timed: impl Fn(&mut Rng, &C) -> Result<(Left, Duration), String> + Sync,
    independent: fn(&C) -> Left,
) -> Result<usize, String> {
    for (index, (name, call)) in calls.iter().enumerate() {
        let one = on_thread(|| timed(&mut Rng::new(seed, 6, index as u64), call));
        one.and_then(|(one, _)| expect(&one, &independent(call), "the independent program")).map_err(|why| format!("{name}: {why}; {call}"))?;
    }
    Ok(calls.len())
}

/// The same request with its own index.
fn with_index((name, call): (String, Call)) -> (String, Indexed) {
    let index = oracle::open(&call.request).map_or(Vec::new(), |request| index_of(&request));
    (name, Indexed { call, index })
}

/// The same call with room for every derivation.
fn with_room((name, call): (String, Call)) -> (String, Call) {
    (name, Call { lent: vec![9; DERIVATION_LIMIT], ..call })
}

/// Compares them.
pub fn compare(folder: &str) -> Result<String, String> {
    let by_index: Vec<(String, Indexed)> = requests(folder)?.into_iter().map(with_index).collect();
    let both = |rng: &mut Rng, call: &Call| exported(rng, call).map(|left| (left, Duration::ZERO));
    let all = agreed(&requests(folder)?, 1, both, independent)?;
    let guards = agreed(&guarded_requests(folder)?, 2, guarded::timed, guarded::independent)?;
    let cases = agreed(&requests_by_cases(folder)?, 3, by_cases::timed, by_cases::independent)?;
    let valued = agreed(&values_requests(folder)?, 7, values::timed, values::independent)?;
    let indexed = agreed(&by_index, 4, indexes::timed, indexes::independent)?;
    let to_derive: Vec<(String, Call)> = requests_to_derive(folder)?.into_iter().map(with_room).collect();
    let derived = agreed(&to_derive, 5, derives::timed, derives::independent)?;
    let stack = glintstring::STACK_NEEDED;
    Ok(format!(
        "{all} deep requests, {guards} guarded ones, {cases} by cases, {valued} with values, {indexed} with an index and {derived} to derive agree, on a thread of {stack} bytes of stack"
    ))
}
