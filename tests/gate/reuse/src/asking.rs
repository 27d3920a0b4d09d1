//! Walk calls, each between fences and with any bytes lent.

use std::fmt;

use oracle::rng::Rng;
use oracle::text::comma_separated;
use oracle::STATE_LENGTH;

use crate::calls::{timed_by, Call, Judge};

/// Asks the exported call, or one that stands in for it.
pub struct Asker<'a> {
    judge: &'a Judge,
    rng: Rng,
    /// The calls made, for what is told of a difference.
    made: Vec<(Call, [u64; 4])>,
}

/// A walk call's answer: number, input, place and count, and the state that 1 and 2 write.
#[derive(Clone, Debug, PartialEq, Eq)]
pub struct Told {
    pub answer: [u64; 4],
    pub state: Option<Vec<u8>>,
}

impl Told {
    pub fn number(&self) -> u64 {
        self.answer[0]
    }

    /// The count of a verified request.
    pub fn verified(&self) -> Option<u32> {
        match self.answer {
            [0, 0, 0, count] => Some(count as u32),
            _ => None,
        }
    }
}

impl fmt::Display for Told {
    fn fmt(&self, out: &mut fmt::Formatter<'_>) -> fmt::Result {
        write!(out, "{:?}", self.answer)?;
        match &self.state {
            Some(state) => write!(out, " with the state {}", comma_separated(state)),
            None => Ok(()),
        }
    }
}

impl<'a> Asker<'a> {
    /// One who lends what the random numbers give.
    pub fn new(judge: &'a Judge, rng: Rng) -> Asker<'a> {
        Asker { judge, rng, made: Vec::new() }
    }

    /// The answer to a request. An answer that writes no state has to leave the lent bytes as they were, and none may change anything else.
    pub fn ask(&mut self, request: &[u8], budget: u32) -> Result<Told, String> {
        let mut lent = vec![0; STATE_LENGTH];
        lent.fill_with(|| self.rng.byte(0, 255));
        let call = Call { request: request.to_vec(), lent, budget };
        let (left, _) = timed_by(&mut self.rng, &call, self.judge).map_err(|why| format!("{why}; {call}"))?;
        let writes = matches!(left.answer[0], 1 | 2);
        if !writes && left.lent != call.lent {
            return Err(format!("answer {:?} leaves the lent bytes {}; {call}", left.answer, comma_separated(&left.lent)));
        }
        self.made.push((call, left.answer));
        Ok(Told { answer: left.answer, state: writes.then_some(left.lent) })
    }

    /// What has been asked, with the answers.
    pub fn made(&self) -> String {
        let made = self.made.iter().map(|(call, answer)| format!("{call}, gets {answer:?}"));
        made.collect::<Vec<_>>().join("; ")
    }
}
