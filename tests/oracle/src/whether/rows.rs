//! Small random derivation calls of the second layout with their answers as rows of text, for
//! others to compute again, one per line:
//! `W REQUEST DERIVATION NUMBER INPUT PLACE COUNT`.
//!
//! Bytes are written as in `rows.rs`, and the inputs are as small. All answers come round in 150
//! rows; the long inputs, item 1,025 and a derivation too long, and the edges of `edges.rs` stand in
//! the first round only.
//! Where the answer is 0, and mostly where it is 34, a line by one of the rules that the first
//! layout lacks is among those accepted, or is the one refused.

use crate::answer::{DERIVATION, NEITHER, REQUEST};
use crate::calls::CheckCall;
use crate::edges::{of_proof, OF_CHECKING};
use crate::model::{Proof, Request};
use crate::reader::{read_proof, DERIVATION_LIMIT, LIST_LIMIT};
use crate::rng::Rng;
use crate::rows::{
    edge_call, rounds, small_shape, tell_bytes, Wanted, BYTES, DERIVATION_BYTES, LONG_BYTES,
    MORE_DERIVATION_BYTES,
};
use crate::whether::calls::{any_whether_call, damage_call, provable, sound_call};
use crate::whether::prove::natural_proof;
use crate::{check_whether, open};

/// How often each answer comes in a round of calls.
const CHECKING: [((u8, u8), u64); 24] = [
    ((0, NEITHER), 44),
    ((31, DERIVATION), 7),
    ((32, DERIVATION), 9),
    ((33, DERIVATION), 10),
    ((34, DERIVATION), 30),
    ((36, DERIVATION), 16),
    ((11, DERIVATION), 4),
    ((12, DERIVATION), 5),
    ((13, DERIVATION), 4),
    ((14, DERIVATION), 3),
    ((15, DERIVATION), 3),
    ((18, DERIVATION), 2),
    ((19, DERIVATION), 1),
    ((20, DERIVATION), 2),
    ((11, REQUEST), 1),
    ((12, REQUEST), 1),
    ((13, REQUEST), 1),
    ((14, REQUEST), 1),
    ((15, REQUEST), 1),
    ((16, REQUEST), 1),
    ((17, REQUEST), 1),
    ((18, REQUEST), 1),
    ((19, REQUEST), 1),
    ((20, REQUEST), 1),
];

/// The answers that take long inputs, which stand in the first round only.
const LONG: [(u8, u8); 2] = [(10, DERIVATION), (21, DERIVATION)];

/// How often one derivation is tried.
const ATTEMPTS: usize = 8;

/// The rules that conclude a fluent.
const WHETHER_RULES: [u8; 5] = [7, 8, 10, 11, 12];

/// So many rows.
pub fn whether_rows(seed: u64, count: u64) -> impl Iterator<Item = String> {
    rounds(seed, 12, count, &CHECKING, &LONG, &OF_CHECKING)
        .zip(0..)
        .map(move |(wanted, index)| row(&mut Rng::new(seed, 13, index), wanted))
}

/// A row as wanted.
fn row(rng: &mut Rng, wanted: Wanted<(u8, u8)>) -> String {
    let call = match wanted {
        Wanted::Shows(edge) => edge_call(
            rng,
            edge,
            provable,
            natural_proof,
            any_whether_call,
            |call| {
                let answer = check_whether(&call.request, &call.derivation);
                of_proof(&call.request, &call.derivation, answer)
            },
        ),
        Wanted::Answered((10, _)) => {
            let mut call = small_call(rng, (11, DERIVATION), DERIVATION_BYTES);
            call.derivation = vec![rng.byte(0, LIST_LIMIT as u8); DERIVATION_LIMIT + 1];
            call
        }
        Wanted::Answered(wanted @ (21, _)) => small_call(rng, wanted, LONG_BYTES),
        Wanted::Answered(wanted) => {
            let most = if rng.chance(5) {
                MORE_DERIVATION_BYTES
            } else {
                DERIVATION_BYTES
            };
            small_call(rng, wanted, most)
        }
    };
    let answer = check_whether(&call.request, &call.derivation);
    format!(
        "W {} {} {answer}",
        tell_bytes(&call.request),
        tell_bytes(&call.derivation)
    )
}

/// A call that may get the answer wanted.
fn attempt(rng: &mut Rng, wanted: (u8, u8), draft: &Request, proof: &Proof) -> CheckCall {
    if wanted.0 == 36 {
        return any_whether_call(rng, draft, proof);
    }
    let mut call = sound_call(draft, proof);
    if wanted.1 != NEITHER {
        damage_call(rng, wanted.1, draft, proof, &mut call);
    }
    call
}

/// A call of the wanted answer with small inputs.
fn small_call(rng: &mut Rng, wanted: (u8, u8), most: usize) -> CheckCall {
    let rule = *rng.pick(&WHETHER_RULES);
    let rule = (wanted.0 == 0 || rng.chance(60)).then_some(rule);
    loop {
        let shape = small_shape(rng);
        let (draft, proof) = provable(rng, shape);
        if proof.lines.len() < 2 || (draft.whether.is_empty() && !rng.chance(20)) {
            continue;
        }
        for _ in 0..ATTEMPTS {
            let call = attempt(rng, wanted, &draft, &proof);
            if call.request.len() > BYTES || call.derivation.len() > most {
                continue;
            }
            let answer = check_whether(&call.request, &call.derivation);
            let place = answer.place as usize;
            if (answer.number, answer.input) == wanted && shows(&call, answer.number, place, rule) {
                return call;
            }
        }
    }
}

/// For 0, that some line is by the rule; for 34, that the line refused is. The other answers may
/// be about any rule.
fn shows(call: &CheckCall, number: u8, place: usize, rule: Option<u8>) -> bool {
    let Some(rule) = rule.filter(|_| matches!(number, 0 | 34)) else {
        return true;
    };
    let by_rule = |proof: &Proof| {
        let mut lines = proof.lines.iter().filter(|line| line.rule == rule);
        lines.any(|line| number == 0 || line.place == place)
    };
    let proof = open(&call.request).and_then(|request| read_proof(&call.derivation, &request));
    proof.is_ok_and(|proof| by_rule(&proof))
}
