//! An independent reference program for Glintstring's verifier of conditional plans.
//!
//! It is written from the format alone (docs/FORMAT.md) and shares no code with the library
//! that it is compared with. See README.md for what it checks.

pub mod answer;
pub mod calls;
pub mod cases;
pub mod checking;
pub mod damage;
pub mod derives;
pub mod edges;
pub mod encode;
pub mod examples;
pub mod forge;
pub mod form;
pub mod generate;
pub mod guards;
pub mod guides;
pub mod indexes;
pub mod model;
pub mod paths;
pub mod prove;
pub mod reader;
pub mod releases;
pub mod rng;
pub mod rows;
pub mod rules;
pub mod run;
pub mod settle;
pub mod table;
pub mod tally;
pub mod text;
pub mod translation;
pub mod values;
pub mod walk;
pub mod whether;
pub mod worlds;

pub use answer::Answer;
pub use cases::call::{judge_by_cases, judge_by_cases_line};
pub use derives::call::derive;
pub use guards::call::{judge_guarded, judge_guarded_line};
pub use indexes::call::{index, judge_indexed, judge_indexed_line};
pub use releases::call::{plans, release};
pub use values::call::judge_values;

use answer::{Fault, DERIVATION, NEITHER, REQUEST};
use model::Request;
use table::Known;
use walk::Verdict;

/// The length of a lent state, which has a byte for each fluent that a request may have.
pub const STATE_LENGTH: usize = reader::FLUENT_LIMIT;

/// The judging call: 9, then the request's reading and settling, then the walk.
///
/// Answers 1 and 2 write the partial state concerned; otherwise the lent state stays as it is.
pub fn judge(request: &[u8], lent: &mut [u8], budget: u32) -> Answer {
    judge_line(request, lent, budget).0
}

/// The judging call with the line that its answer carries: in answer 2 at an action the place of
/// the executability line that came nearest, 0 where it has none, and in every other answer.
pub fn judge_line(request: &[u8], lent: &mut [u8], budget: u32) -> (Answer, u32) {
    let opened = || open(request);
    judge_opened(lent, budget, opened, |request, _| {
        Ok(walk::walk(&request, budget))
    })
}

/// Any call that walks: 9, then what opening its input refuses, then how the walk ends, or an answer
/// that only this call gives. The line that the answer carries comes along.
fn judge_opened<Opened, State: Marked>(
    lent: &mut [u8],
    budget: u32,
    opened: impl FnOnce() -> Result<Opened, Fault>,
    walked: impl FnOnce(Opened, &mut [u8]) -> Result<Verdict<State>, Answer>,
) -> (Answer, u32) {
    if lent.len() != STATE_LENGTH {
        return (Answer::neither(9, 0), 0);
    }
    let opened = match opened() {
        Ok(opened) => opened,
        Err(fault) => return (Answer::refusal(REQUEST, fault), 0),
    };
    let verdict = match walked(opened, lent) {
        Ok(verdict) => verdict,
        Err(answer) => return (answer, 0),
    };
    let line = match verdict {
        Verdict::Stuck { line, .. } => answer::narrow(line),
        _ => 0,
    };
    (tell(verdict, lent, budget), line)
}

/// The derivation call: the request first, then 30, then the derivation.
pub fn check(request: &[u8], derivation: &[u8]) -> Answer {
    let request = match open(request) {
        Err(fault) => return Answer::refusal(REQUEST, fault),
        Ok(request) => request,
    };
    if !request.whether.is_empty() {
        return Answer::refusal(REQUEST, Fault::new(30, request.whether_place));
    }
    let checked = reader::read_derivation(derivation, &request)
        .and_then(|lines| checking::check_lines(&request, &lines));
    match checked {
        Err(fault) => Answer::refusal(DERIVATION, fault),
        Ok(()) => Answer::neither(0, 0),
    }
}

/// The derivation call of the second layout: the request first, then the derivation. There is
/// no 30: whether entries are asked by the closing list.
pub fn check_whether(request: &[u8], derivation: &[u8]) -> Answer {
    let request = match open(request) {
        Err(fault) => return Answer::refusal(REQUEST, fault),
        Ok(request) => request,
    };
    let checked = reader::read_proof(derivation, &request)
        .and_then(|proof| whether::check::check_proof(&request, &proof));
    match checked {
        Err(fault) => Answer::refusal(DERIVATION, fault),
        Ok(()) => Answer::neither(0, 0),
    }
}

/// The showing call: which input is shown, and from where on to its end.
///
/// An answer that names neither input shows an empty part at the request's start, which is
/// returned as `(0, 0)`. A place beyond the end shows an empty part at that input's end.
pub fn show(answer: Answer, request: &[u8], derivation: &[u8]) -> (u8, usize) {
    let place = usize::try_from(answer.place).unwrap_or(usize::MAX);
    match answer.input {
        REQUEST => (REQUEST, place.min(request.len())),
        DERIVATION => (DERIVATION, place.min(derivation.len())),
        _ => (NEITHER, 0),
    }
}

/// The bytes that the showing call shows.
pub fn shown<'a>(answer: Answer, request: &'a [u8], derivation: &'a [u8]) -> &'a [u8] {
    match show(answer, request, derivation) {
        (REQUEST, start) => &request[start..],
        (DERIVATION, start) => &derivation[start..],
        _ => &request[..0],
    }
}

/// Reads and settles a request: 10 to 21.
pub fn open(request: &[u8]) -> Result<Request, Fault> {
    let request = reader::read_request(request)?;
    settle::settle(&request)?;
    Ok(request)
}

/// Turns the end of a walk into the answer and writes the lent state for 1 and 2.
fn tell(verdict: Verdict<impl Marked>, lent: &mut [u8], budget: u32) -> Answer {
    match verdict {
        Verdict::Verified { count } => Answer::neither(0, answer::narrow_count(count)),
        Verdict::Missed {
            place,
            count,
            state,
        } => {
            write(state, lent);
            Answer::of_walk(1, place, count)
        }
        Verdict::Stuck {
            place,
            count,
            state,
            ..
        } => {
            write(state, lent);
            Answer::of_walk(2, place, count)
        }
        Verdict::Over => Answer::neither(3, budget),
    }
}

/// A partial state that can be written to a lent one.
trait Marked {
    /// What byte f of a lent state shows of fluent f: 0 where it is unknown, and from the number of
    /// fluents up.
    fn mark(&self, fluent: u8) -> u8;
}

/// 1 true, 2 false.
impl Marked for Known {
    fn mark(&self, fluent: u8) -> u8 {
        Known::mark(*self, fluent)
    }
}

/// Writes all bytes of a lent state.
fn write(state: impl Marked, lent: &mut [u8]) {
    for (fluent, byte) in (0..).zip(lent) {
        *byte = state.mark(fluent);
    }
}
