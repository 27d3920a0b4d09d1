//! The three programs under one form, and the independent one.

use crate::answers::packed;
use crate::{best, plain};

/// The programs in the order of the tables.
pub const PROGRAMS: [&str; 3] = ["proved", "plain", "best"];

/// What the programs need besides what a call is given.
pub struct Programs {
    space: best::Workspace,
}

impl Programs {
    pub fn new() -> Programs {
        Programs { space: best::Workspace::new() }
    }

    /// The walk call by one of the programs.
    #[inline(always)]
    pub fn judge(&mut self, program: usize, request: &[u8], lent: &mut [u8], budget: u32) -> u64 {
        match program {
            0 => glintstring::judge_packed(request, lent, budget).0,
            1 => plain::judge(request, lent, budget),
            _ => best::judge(&mut self.space, request, lent, budget),
        }
    }
}

/// The same by the independent program.
pub fn independent(request: &[u8], lent: &mut [u8], budget: u32) -> u64 {
    let answer = oracle::judge(request, lent, budget);
    packed(answer.number, answer.input, answer.place as usize, answer.count)
}

/// Each program and the independent one on a call: the answer, or who differs and how.
pub fn agreed(programs: &mut Programs, request: &[u8], lent: &[u8], budget: u32) -> Result<u64, String> {
    let mut expected_state = lent.to_vec();
    let expected = independent(request, &mut expected_state, budget);
    for (program, name) in PROGRAMS.iter().enumerate() {
        let mut state = lent.to_vec();
        let answer = programs.judge(program, request, &mut state, budget);
        if answer != expected || state != expected_state {
            let apart = crate::answers::taken_apart;
            let (one, other) = (apart(answer), apart(expected));
            return Err(format!(
                "{name}: number, input, place, count are {one:?}, by the independent program {other:?}; states {state:?}, {expected_state:?}; \
                 budget {budget}, request {request:?}"
            ));
        }
    }
    Ok(expected)
}
