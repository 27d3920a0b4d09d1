//! One derivation call or whether call made both ways, and what is shown of its answer and of others.

use std::time::{Duration, Instant};

use glintstring::Packed;
use oracle::rng::Rng;
use oracle::text::comma_separated;

use crate::calls::{numbers, told};
use crate::fence::Fenced;

/// How the derivation is written, and with it which call is made.
#[derive(Clone, Copy, Debug, PartialEq, Eq)]
pub enum Layout {
    /// By the derivation call.
    Plain,
    /// By the whether call.
    Closing,
}

/// What a derivation call or a whether call takes.
#[derive(Clone, Debug)]
pub struct Check {
    pub layout: Layout,
    pub request: Vec<u8>,
    pub derivation: Vec<u8>,
}

impl Check {
    pub fn plain(request: Vec<u8>, derivation: Vec<u8>) -> Check {
        Check { layout: Layout::Plain, request, derivation }
    }

    pub fn closing(request: Vec<u8>, derivation: Vec<u8>) -> Check {
        Check { layout: Layout::Closing, request, derivation }
    }
}

impl std::fmt::Display for Check {
    fn fmt(&self, out: &mut std::fmt::Formatter<'_>) -> std::fmt::Result {
        let (request, derivation) = (comma_separated(&self.request), comma_separated(&self.derivation));
        let written = match self.layout {
            Layout::Plain => "",
            Layout::Closing => " in the closing layout",
        };
        write!(out, "request {request}, derivation{written} {derivation}")
    }
}

/// Answers made by hand that are shown beside each answer given.
const BY_HAND: usize = 3;

/// Number, input, place and count that both give, where they also show the same; or how they differ.
pub fn agreed(rng: &mut Rng, check: &Check) -> Result<[u64; 4], String> {
    timed(rng, check).map(|(answer, _)| answer)
}

/// The same, and how long the exported call took.
pub fn timed(rng: &mut Rng, check: &Check) -> Result<([u64; 4], Duration), String> {
    let mut request = Fenced::new(rng, &check.request);
    let mut derivation = Fenced::new(rng, &check.derivation);
    let before = (request.clone(), derivation.clone());
    let (exported, unpack): (fn(&[u8], &[u8]) -> Packed, fn(Packed) -> glintstring::Answer) = match check.layout {
        Layout::Plain => (glintstring::check_packed, glintstring::Answer::unpack_checked),
        Layout::Closing => (glintstring::check_whether_packed, glintstring::Answer::unpack_whether),
    };
    let began = Instant::now();
    let packed = exported(request.lent(), derivation.lent());
    let took = began.elapsed();
    unchanged(&before, &request, &derivation, "the call")?;
    let answer = numbers(packed);
    let independent = independent(check);
    if answer != independent {
        return Err(format!("number, input, place, count are {answer:?}, by the independent program {independent:?}"));
    }
    let named = std::panic::catch_unwind(|| unpack(packed)).map_err(|_| format!("{answer:?} is no answer"))?;
    let named_so = [named.number().into(), named.input().into(), named.place() as u64, named.count().into()];
    if named_so != answer || named.packed() != packed {
        return Err(format!("answer {answer:?} is named {named}"));
    }
    let by_hand: Vec<Packed> = (0..BY_HAND).map(|_| any_answer(rng, check)).collect();
    for answer in [packed].into_iter().chain(by_hand) {
        shown_alike(answer, check, request.lent(), derivation.lent())?;
        unchanged(&before, &request, &derivation, "the showing call")?;
    }
    Ok((answer, took))
}

/// The independent program's.
pub fn independent(check: &Check) -> [u64; 4] {
    told(match check.layout {
        Layout::Plain => oracle::check(&check.request, &check.derivation),
        Layout::Closing => oracle::check_whether(&check.request, &check.derivation),
    })
}

fn unchanged(before: &(Fenced, Fenced), request: &Fenced, derivation: &Fenced, who: &str) -> Result<(), String> {
    match (&before.0 == request, &before.1 == derivation) {
        (true, true) => Ok(()),
        (false, _) => Err(format!("the request, or what stands around it, was changed by {who}")),
        _ => Err(format!("the derivation, or what stands around it, was changed by {who}")),
    }
}

/// The start, and the part itself by the Rust crate, against the independent program's.
fn shown_alike(answer: Packed, check: &Check, request: &[u8], derivation: &[u8]) -> Result<(), String> {
    let same = oracle::Answer { number: answer.number(), input: answer.input(), place: answer.place() as u32, count: answer.count() };
    let (_, expected) = oracle::show(same, &check.request, &check.derivation);
    let start = glintstring::show_start(answer, request, derivation);
    if start != expected as u64 {
        return Err(format!("answer {:?} is shown from {start} on, by the independent program from {expected} on", numbers(answer)));
    }
    let part = glintstring::show(answer, request, derivation);
    let within = match answer.input() {
        2 => derivation.as_ptr_range(),
        _ => request.as_ptr_range(),
    };
    let ends = part.as_ptr() == within.start.wrapping_add(expected) && (part.is_empty() || part.as_ptr_range().end == within.end);
    if part != oracle::shown(same, &check.request, &check.derivation) || !ends {
        return Err(format!("answer {:?}: the crate shows {}", numbers(answer), comma_separated(part)));
    }
    Ok(())
}

/// Any answer in one number; most of them name an input, at a place near its start, near its end or anywhere.
fn any_answer(rng: &mut Rng, check: &Check) -> Packed {
    if rng.chance(30) {
        return Packed(rng.bits());
    }
    let input = rng.below(4);
    let length = if input == 2 { check.derivation.len() } else { check.request.len() };
    let place = match rng.below(4) {
        0 => rng.below(4),
        1 => (length + rng.below(5)).saturating_sub(2),
        2 => rng.below(length + 1),
        _ => *rng.pick(&[255, 256, 16_384, 32_767, 32_768, 65_535]),
    };
    let number = *rng.pick(&[0, 1, 3, 9, 10, 11, 18, 30, 34, 35, 36, 255]);
    Packed(number + ((input as u64) << 8) + ((place.min(65_535) as u64) << 16) + (rng.bits() << 32))
}
