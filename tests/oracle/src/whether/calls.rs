//! Random derivation calls of the second layout: inputs, right or damaged.

use crate::answer::{Fault, DERIVATION, REQUEST};
use crate::calls::{outlook, CheckCall, Outlook};
use crate::damage::{change_allowances, damage_request};
use crate::encode::{encode_proof, encode_request, proof_place};
use crate::forge::alter;
use crate::generate::{
    common, drawn, forget_and_sense, forgetful, Shape, FULL, MIDDLE, SMALL, TINY,
};
use crate::model::{Item, Proof, Request};
use crate::prove::{Claim, Prover};
use crate::reader::{DERIVATION_LIMIT, LINE_LIMIT, REQUEST_LIMIT};
use crate::rng::Rng;
use crate::table::{bit, Mask};
use crate::whether::damage::damage_proof;
use crate::whether::prove::{free_proof, many_whether, natural_proof, pad_proof};

/// A derivation call of any kind; more than half of the inputs are damaged.
pub fn whether_call(rng: &mut Rng) -> CheckCall {
    let shape = *rng.pick(&[TINY, TINY, SMALL, SMALL, SMALL, MIDDLE]);
    let (draft, mut proof) = match rng.below(200) {
        0 => {
            let sensing = rng.byte(1, 25);
            many_whether(sensing, &[rng.byte(0, sensing - 1)])
        }
        1 => wide_sensing(rng),
        2 | 3 => provable(rng, &FULL),
        _ => provable(rng, &shape),
    };
    if rng.below(300) == 0 {
        pad_proof(&mut proof, LINE_LIMIT);
    }
    any_whether_call(rng, &draft, &proof)
}

/// A call with a request and its derivation, either of them damaged or not.
pub fn any_whether_call(rng: &mut Rng, draft: &Request, proof: &Proof) -> CheckCall {
    let mut call = sound_call(draft, proof);
    if call.outlook != Outlook::Accepted {
        return call;
    }
    match rng.below(100) {
        0..=39 => {}
        40..=81 => damage_call(rng, DERIVATION, draft, proof, &mut call),
        82..=89 => damage_call(rng, REQUEST, draft, proof, &mut call),
        90..=95 => {
            let mut other = draft.clone();
            if let Some(entry) = ask_otherwise(rng, &mut other) {
                let place = proof_place(&proof.lines, proof.lines.len()) + entry;
                call.outlook = Outlook::Refused(DERIVATION, Fault::new(36, place));
                call.request = encode_request(&other).bytes;
            }
        }
        96..=97 => {
            let mut other = draft.clone();
            change_allowances(rng, &mut other);
            call.outlook = Outlook::Open;
            call.request = encode_request(&other).bytes;
        }
        98 => lengthen(rng, &mut call),
        _ => {
            call.derivation = (0..rng.below(60)).map(|_| rng.byte(0, 12)).collect();
            call.derivation.splice(0..0, [0, rng.byte(1, 3)]);
            call.outlook = Outlook::Open;
        }
    }
    call
}

/// A call with a request and its derivation, which is accepted unless it is too long.
pub fn sound_call(draft: &Request, proof: &Proof) -> CheckCall {
    let derivation = encode_proof(proof).bytes;
    let outlook = match derivation.len() > DERIVATION_LIMIT {
        true => Outlook::Refused(DERIVATION, Fault::new(10, 0)),
        false => Outlook::Accepted,
    };
    CheckCall {
        request: encode_request(draft).bytes,
        derivation,
        outlook,
    }
}

/// Damages one input of a call.
pub fn damage_call(rng: &mut Rng, input: u8, draft: &Request, proof: &Proof, call: &mut CheckCall) {
    let damaged = match input {
        REQUEST => damage_request(rng, draft),
        _ => damage_proof(rng, draft, proof),
    };
    call.outlook = outlook(input, &damaged);
    match input {
        REQUEST => call.request = damaged.bytes,
        _ => call.derivation = damaged.bytes,
    }
}

/// Makes an input longer than its limit, or both.
fn lengthen(rng: &mut Rng, call: &mut CheckCall) {
    let which = rng.below(4);
    if which != 1 {
        let length = DERIVATION_LIMIT + rng.range(1, 40);
        call.derivation.resize(length, rng.byte(0, 3));
        call.outlook = Outlook::Refused(DERIVATION, Fault::new(10, 0));
    }
    if which < 2 {
        let length = REQUEST_LIMIT + rng.range(1, 40);
        call.request.resize(length, rng.byte(0, 3));
        call.outlook = Outlook::Refused(REQUEST, Fault::new(10, 0));
    }
}

/// Changes the question, and nothing that a line rests on; returns how many bytes after the
/// closing count the first bad entry then stands, or 0 where the length is wrong.
fn ask_otherwise(rng: &mut Rng, request: &mut Request) -> Option<usize> {
    let entries = request.whether.len();
    let others = (0..request.fluents).filter(|fluent| !request.whether.contains(fluent));
    let others: Vec<u8> = others.collect();
    match rng.below(7) {
        0 => {
            request.whether.pop()?;
            return Some(0);
        }
        1 if !others.is_empty() => {
            request.whether.push(*rng.pick(&others));
            request.whether.sort_unstable();
            return Some(0);
        }
        2 | 3 if !others.is_empty() && entries > 0 => {
            let before = request.whether.clone();
            request.whether[rng.below(entries)] = *rng.pick(&others);
            request.whether.sort_unstable();
            let first = (0..entries).find(|&entry| request.whether[entry] != before[entry])?;
            return Some(1 + 2 * (first + 1));
        }
        4 => alter(rng, &mut request.facts, request.fluents),
        5 => request
            .plan
            .push(Item::act(rng.byte(0, request.actions - 1))),
        _ => alter(rng, &mut request.goals, request.fluents),
    }
    Some(1)
}

/// A request that senses many fluents at once, up to six of which are unknown where its plan
/// does, and a derivation of it. By rule 7 any number of them may be unknown.
fn wide_sensing(rng: &mut Rng) -> (Request, Proof) {
    loop {
        let mut draft = match rng.chance(50) {
            true => forgetful(rng, 6, 1),
            false => mostly_known(rng),
        };
        if !ask(rng, &mut draft) {
            continue;
        }
        let proof = match rng.chance(50) {
            true => natural_proof(&draft),
            false => free_proof(rng, &draft),
        };
        if let Some(proof) = proof {
            return (draft, proof);
        }
    }
}

/// A request whose plan is to sense seven fluents or more, most of which are known.
fn mostly_known(rng: &mut Rng) -> Request {
    let sensed = rng.byte(7, 20);
    let mut draft = forget_and_sense(sensed, 1);
    draft.plan.pop();
    draft.facts = (0..sensed)
        .map(|fluent| 2 * fluent + rng.byte(0, 1))
        .collect();
    for _ in 0..rng.range(0, 4) {
        draft.facts.remove(rng.below(draft.facts.len()));
    }
    draft.goals = draft.facts.clone();
    draft.goals.retain(|_| rng.chance(30));
    draft
}

/// A request, mostly with whether entries, and a derivation of it.
pub fn provable(rng: &mut Rng, shape: &Shape) -> (Request, Proof) {
    let shape = Shape {
        careless: 0,
        whether: false,
        ..*shape
    };
    loop {
        let mut draft = drawn(rng, &shape);
        if !draft.knowledge.is_empty() && rng.chance(30) {
            let last = rng.pick(&draft.knowledge).action;
            draft.plan.push(Item::act(last));
        }
        if !ask(rng, &mut draft) {
            continue;
        }
        let proof = match rng.chance(30) {
            true => natural_proof(&draft),
            false => free_proof(rng, &draft),
        };
        if let Some(proof) = proof {
            return (draft, proof);
        }
    }
}

/// Gives a request whether entries that every end answers, rather those that not all ends answer
/// alike; seldom none. False where there is nothing to ask.
fn ask(rng: &mut Rng, request: &mut Request) -> bool {
    let claim = Claim::new(&request.facts, &request.plan, &[]);
    let Some(ends) = Prover::new(request).ends(&claim) else {
        return false;
    };
    let known = ends.iter().fold(Mask::MAX, |mask, end| mask & end.marked());
    let shared = common(&ends).marked();
    let answered: Vec<u8> = (0..request.fluents)
        .filter(|&fluent| known & bit(fluent) != 0)
        .collect();
    let most = *rng.pick(&[1, 2, 2, 3, 6]);
    request.whether = Vec::new();
    for &fluent in &answered {
        let percent = if shared & bit(fluent) == 0 { 85 } else { 40 };
        if request.whether.len() < most && rng.chance(percent) {
            request.whether.push(fluent);
        }
    }
    if request.whether.is_empty() && rng.chance(90) {
        if answered.is_empty() {
            return false;
        }
        request.whether.push(*rng.pick(&answered));
    }
    true
}
