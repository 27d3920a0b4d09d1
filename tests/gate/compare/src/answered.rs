//! Many derivation calls or whether calls made both ways, and how often each answer occurred.

use std::collections::BTreeMap;

use oracle::edges::{Edge, Met};
use oracle::Answer;

use crate::calls;
use crate::checks::{agreed, Check};
use crate::many::{all_met, each_agreed, ENOUGH};

/// Calls from a seed, what they are called, the stream of random numbers of what stands around the inputs, what each input can be
/// refused by, where 0 is given for neither, and what has to occur at the limits, told from request, derivation and answer.
pub struct Series {
    pub what: &'static str,
    pub call: fn(u64, u64) -> Check,
    pub fences: u64,
    pub of_request: &'static [u64],
    pub of_derivation: &'static [u64],
    pub edges: &'static [Edge],
    pub edges_of: fn(&[u8], &[u8], Answer) -> Vec<Edge>,
}

impl Series {
    /// Makes so many calls from a seed; in words how often each answer occurred, or the first difference.
    pub fn compare(&self, seed: u64, count: u64) -> Result<String, String> {
        let mut seen: BTreeMap<(u64, u64), u64> = BTreeMap::new();
        let mut edges = Met::default();
        let (mut longest, mut most_lines) = (0, 0);
        each_agreed((seed, count), self.fences, self.call, agreed, |check, answer| {
            let [number, input, ..] = answer;
            *seen.entry((number, input)).or_default() += 1;
            edges.note((self.edges_of)(&check.request, &check.derivation, calls::answer(answer)));
            longest = longest.max(check.derivation.len());
            if let ([high, low, ..], 0 | 31..) = (&check.derivation[..], number) {
                most_lines = most_lines.max(u16::from_be_bytes([*high, *low]));
            }
        })?;
        for ((number, input), times) in &seen {
            let whose = ["", " of the request", " of the derivation"][*input as usize];
            println!("  answer {number}{whose}: {times}");
        }
        print!("{}", edges.told(self.edges));
        let what = self.what;
        let missing = self.expected().filter(|answer| !seen.contains_key(answer));
        let missing = missing.map(|(number, input)| format!("answer {number} of input {input}"));
        let missing: Vec<String> = missing.chain(edges.never(self.edges)).collect();
        all_met((seed, count), ENOUGH, what, &missing)?;
        Ok(format!("{count} {what} of seed {seed} agree; the longest has {longest} bytes, and up to {most_lines} lines were gone through"))
    }

    /// Number and input of each answer that has to occur.
    fn expected(&self) -> impl Iterator<Item = (u64, u64)> {
        let of_request = self.of_request.iter().map(|&number| (number, 1));
        let of_derivation = self.of_derivation.iter().map(|&number| (number, 2));
        [(0, 0)].into_iter().chain(of_request).chain(of_derivation)
    }
}
