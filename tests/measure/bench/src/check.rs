//! The two walks, and the proved call, against the independent program on the calls of the comparison.

use std::collections::BTreeMap;

use oracle::rng::Rng;

use crate::answers::taken_apart;
use crate::generated::any_call;
use crate::programs::{agreed, Programs};

/// The stream of random numbers of the comparison's calls.
const CALLS: u64 = 3;

/// So many calls of a seed; in words how often each number occurred, or the first difference.
pub fn check(seed: u64, count: u64) -> Result<String, String> {
    let mut programs = Programs::new();
    let mut seen: BTreeMap<u64, u64> = BTreeMap::new();
    for index in 0..count {
        let call = any_call(&mut Rng::new(seed, CALLS, index));
        let answer = agreed(&mut programs, &call.request, &call.lent, call.budget).map_err(|why| format!("seed {seed}, call {index}: {why}"))?;
        *seen.entry(taken_apart(answer)[0]).or_default() += 1;
    }
    let seen: Vec<String> = seen.iter().map(|(number, times)| format!("{number}: {times}")).collect();
    Ok(format!("bench: {count} calls of seed {seed} agree; answers {}", seen.join(", ")))
}
