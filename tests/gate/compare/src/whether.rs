//! Generated, forged and damaged derivations in the closing layout with their requests.

use oracle::calls::{check_call, CheckCall};
use oracle::edges::{of_proof, OF_CHECKING};
use oracle::encode::{encode_proof, encode_request};
use oracle::generate::{any_request, SMALL};
use oracle::model::{Item, Proof, Request};
use oracle::reader::{read_derivation, ITEM_LIMIT, LINE_LIMIT, LIST_LIMIT};
use oracle::rng::Rng;
use oracle::walk::{walk, Verdict};
use oracle::whether::calls::{any_whether_call, provable, whether_call};
use oracle::whether::prove::{free_proof, many_whether, natural_proof, pad_proof};
use oracle::whether::translate::as_proof;

use crate::answered::Series;
use crate::checks::Check;
use crate::crowded::crowded;
use crate::spoiled::spoil;

/// Streams of random numbers: of the calls, and of what stands around the inputs.
const CALLS: u64 = 13;
const FENCES: u64 = 14;
/// The most whether entries that are asked of a request of another source, and how far its walk is counted.
const ASKED: usize = 4;
const FAR: u32 = 5_000;

pub const SERIES: Series = Series {
    what: "derivations in the closing layout",
    call,
    fences: FENCES,
    of_request: &[10, 11, 12, 13, 14, 15, 16, 17, 18, 19, 20, 21],
    of_derivation: &[10, 11, 12, 13, 14, 15, 18, 19, 20, 21, 31, 32, 33, 34, 36],
    edges: &OF_CHECKING,
    edges_of: of_proof,
};

/// The call with this number from a seed.
pub fn call(seed: u64, index: u64) -> Check {
    any_check(&mut Rng::new(seed, CALLS, index))
}

/// A call of the independent program's own generators, more than half of which are made wrong in some way; of some calls an input is made
/// wrong once more, belongs to another call, or is of another kind.
pub fn any_check(rng: &mut Rng) -> Check {
    let mut check = drawn(rng);
    let turn = rng.below(100);
    spoil(rng, turn, &mut check, drawn);
    match turn {
        12..=14 => of_any(rng, crowded),
        15..=17 => of_any(rng, any_request),
        18 => {
            let sensing = rng.byte(1, 40);
            let asked = rng.byte(0, sensing - 1);
            let (draft, proof) = many_whether(sensing, &[asked]);
            closing(any_whether_call(rng, &draft, &proof))
        }
        21 if rng.chance(30) => {
            let (draft, mut proof) = provable(rng, &SMALL);
            let index = rng.below(proof.lines.len());
            proof.lines[index].sequence = vec![Item::act(0); rng.range(ITEM_LIMIT - 2, ITEM_LIMIT + 2)];
            written(&draft, &proof)
        }
        22..=24 => translated(rng),
        25..=28 => {
            let (draft, mut proof) = provable(rng, &SMALL);
            other_closing(rng, &mut proof);
            written(&draft, &proof)
        }
        _ => check,
    }
}

fn drawn(rng: &mut Rng) -> Check {
    closing(whether_call(rng))
}

fn closing(call: CheckCall) -> Check {
    Check::closing(call.request, call.derivation)
}

fn written(request: &Request, proof: &Proof) -> Check {
    Check::closing(encode_request(request).bytes, encode_proof(proof).bytes)
}

/// A request of another source and its derivation, right or wrong; without goals where it has none with them, and with those whether entries
/// alone, a few, that are known at every end.
fn of_any(rng: &mut Rng, source: fn(&mut Rng) -> Request) -> Check {
    loop {
        let mut draft = source(rng);
        let (goals, mut asked) = (std::mem::take(&mut draft.goals), std::mem::take(&mut draft.whether));
        let verified = |goals: &[u8], whether: &[u8]| {
            let question = Request { goals: goals.to_vec(), whether: whether.to_vec(), ..draft.clone() };
            matches!(walk(&question, FAR), Verdict::Verified { .. })
        };
        rng.shuffle(&mut asked);
        asked.truncate(ASKED);
        asked.retain(|&fluent| verified(&[], &[fluent]));
        asked.sort_unstable();
        let reached = verified(&goals, &[]);
        draft.goals = if reached { goals } else { Vec::new() };
        draft.whether = asked;
        let proof = if rng.chance(50) { natural_proof(&draft) } else { free_proof(rng, &draft) };
        if let Some(mut proof) = proof {
            if rng.chance(10) {
                pad_proof(&mut proof, LINE_LIMIT);
            }
            return closing(any_whether_call(rng, &draft, &proof));
        }
    }
}

/// A derivation of the plain layout, right or wrong, in the closing one; as it is where it cannot be read.
fn translated(rng: &mut Rng) -> Check {
    let call = check_call(rng);
    let proof = oracle::open(&call.request).and_then(|request| read_derivation(&call.derivation, &request)).ok().and_then(|lines| as_proof(&lines));
    let derivation = proof.map_or(call.derivation, |proof| encode_proof(&proof).bytes);
    Check::closing(call.request, derivation)
}

/// Another closing list behind lines that follow: of another length, up to 255, in another order, or with entries that name any line, or none.
fn other_closing(rng: &mut Rng, proof: &mut Proof) {
    let (length, lines) = (proof.closing.len(), proof.lines.len());
    match rng.below(5) {
        0 => proof.closing.truncate(rng.below(length)),
        1 => {
            let most = *rng.pick(&[length + 1, length + 2, LIST_LIMIT, LIST_LIMIT + 1, LIST_LIMIT + 2, 255]);
            let last = proof.closing[length - 1];
            proof.closing.resize(most.max(length + 1), last);
        }
        2 => rng.shuffle(&mut proof.closing),
        3 => {
            let entry = rng.below(length);
            proof.closing[entry] = *rng.pick(&[lines, lines + 1, 1_024, 65_535]) as u16;
        }
        _ => {
            let entry = rng.below(length);
            proof.closing[entry] = rng.below(lines) as u16;
        }
    }
}
