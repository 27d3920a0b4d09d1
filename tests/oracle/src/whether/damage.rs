//! Damage to derivations of the second layout: to their bytes, or to their structure before they
//! are written. Where the outcome is certain, the expected fault comes along.

use crate::damage::{
    aimed, at_limits, damage_bytes, drop_entry, turn_citations, wrong_citation, wrong_citations,
    wrong_line_count, wrong_sequence, Bounds, Damaged,
};
use crate::encode::{encode_proof, proof_place, Kind};
use crate::generate::body;
use crate::model::{Conclusion, Item, Proof, Request};
use crate::reader::{DERIVATION_LIMIT, ITEM_LIMIT, LINE_LIMIT};
use crate::rng::Rng;
use crate::whether::forge::forge_proof;

/// Damages a derivation that was right before. Line numbers and rules go wrong most often.
pub fn damage_proof(rng: &mut Rng, request: &Request, proof: &Proof) -> Damaged {
    let whole = encode_proof(proof);
    let bounds = Bounds::of_derivation(request);
    if let Some(damaged) = at_limits(rng, || whole.clone(), bounds) {
        return damaged;
    }
    match rng.below(100) {
        0..=21 => damage_bytes(rng, &whole, bounds),
        22..=24 => wrong_line_count(rng, whole.bytes),
        25..=27 => wrong_closing_count(rng, proof, whole.bytes),
        28..=32 => aimed(rng, &whole, |mark| mark.kind == Kind::Rule, other_rule),
        33..=34 => large_fluent(rng, request, proof),
        35 => too_many_items(rng, proof),
        36..=72 => {
            let mut wrong = proof.clone();
            let Some(fault) = forge_proof(rng, request, &mut wrong) else {
                return damage_bytes(rng, &whole, bounds);
            };
            let bytes = encode_proof(&wrong).bytes;
            match bytes.len() > DERIVATION_LIMIT {
                true => Damaged::sure(bytes, 10, 0),
                false => Damaged::sure(bytes, fault.number, fault.place),
            }
        }
        _ => {
            let mut wrong = proof.clone();
            for _ in 0..*rng.pick(&[1, 1, 1, 2]) {
                misshape(rng, request, &mut wrong);
            }
            Damaged::unsure(encode_proof(&wrong).bytes)
        }
    }
}

/// A closing count above the entries that are there, or below them.
fn wrong_closing_count(rng: &mut Rng, proof: &Proof, mut bytes: Vec<u8>) -> Damaged {
    let place = proof_place(&proof.lines, proof.lines.len());
    let count = proof.closing.len();
    let wrong = match rng.below(4) {
        0 => 255,
        1 => count + 1,
        2 => rng.below(256),
        _ => rng.below(count),
    };
    bytes[place] = wrong as u8;
    let length = bytes.len();
    match wrong.cmp(&count) {
        std::cmp::Ordering::Less => Damaged::sure(bytes, 20, place + 1 + 2 * wrong),
        std::cmp::Ordering::Equal => Damaged::unsure(bytes),
        std::cmp::Ordering::Greater => Damaged::sure(bytes, 11, length),
    }
}

/// Another rule byte before the same bytes: what is a list may be read as a fluent, and the
/// other way round.
fn other_rule(rng: &mut Rng, mut bytes: Vec<u8>, place: usize) -> Damaged {
    bytes[place] = match rng.below(3) {
        0 => *rng.pick(&[7, 8, 10, 11, 12]),
        1 => rng.byte(0, 13),
        _ => *rng.pick(&[0, 1, 2, 6, 9, 13, 255]),
    };
    Damaged::unsure(bytes)
}

/// A fluent in Y's place that is too large.
fn large_fluent(rng: &mut Rng, request: &Request, proof: &Proof) -> Damaged {
    let whole = encode_proof(proof);
    let is_fluent = |kind| kind == Kind::Fluent;
    let fluents = whole.marks.iter().filter(|mark| is_fluent(mark.kind));
    let places: Vec<usize> = fluents.map(|mark| mark.place).collect();
    let mut bytes = whole.bytes;
    if places.is_empty() {
        return Damaged::unsure(bytes);
    }
    let place = *rng.pick(&places);
    bytes[place] = match rng.below(3) {
        0 => request.fluents,
        1 => rng.byte(request.fluents, 255),
        _ => 255,
    };
    Damaged::sure(bytes, 13, place)
}

/// A line with item 1,025.
fn too_many_items(rng: &mut Rng, proof: &Proof) -> Damaged {
    let mut wrong = proof.clone();
    let index = rng.below(wrong.lines.len());
    let line = &mut wrong.lines[index];
    line.sequence = vec![Item::act(0); ITEM_LIMIT + rng.range(1, 3)];
    let items = 1 + line.before.len() + 2;
    let place = proof_place(&wrong.lines, index) + items + ITEM_LIMIT;
    let bytes = encode_proof(&wrong).bytes;
    match bytes.len() > DERIVATION_LIMIT {
        true => Damaged::sure(bytes, 10, 0),
        false => Damaged::sure(bytes, 21, place),
    }
}

/// Lines that can be read, or nearly, but don't follow.
fn misshape(rng: &mut Rng, request: &Request, proof: &mut Proof) {
    let lines = &mut proof.lines;
    let index = rng.below(lines.len());
    let fluents = request.fluents;
    match rng.below(17) {
        0 => lines[index].rule = *rng.pick(&[0, 9, 13, 255]),
        1 => lines[index].rule = rng.byte(1, 12),
        2 => wrong_citations(rng, &mut lines[index].cites),
        3 | 4 => {
            let length = lines.len();
            wrong_citation(rng, length, index, &mut lines[index].cites);
        }
        5 | 6 => turn_citations(rng, lines.iter_mut().map(|line| &mut line.cites)),
        7 => drop_entry(rng, &mut lines[index].before),
        8 => lines[index].before = body(rng, fluents, 2),
        9 => wrong_conclusion(rng, fluents, &mut lines[index].gives),
        10 | 11 => wrong_sequence(rng, request, &mut lines[index].sequence),
        12 if lines.len() > 1 => {
            lines.pop();
        }
        13 if lines.len() < LINE_LIMIT => lines.push(lines[index].clone()),
        14 => {
            let other = rng.below(lines.len());
            lines.swap(index, other);
        }
        15 => {
            let entry = rng.below(proof.closing.len().max(1));
            if let Some(entry) = proof.closing.get_mut(entry) {
                *entry = index as u16;
            }
        }
        _ => rng.shuffle(&mut proof.closing),
    }
}

/// Another conclusion of the same kind.
fn wrong_conclusion(rng: &mut Rng, fluents: u8, gives: &mut Conclusion) {
    match gives {
        Conclusion::List(list) if rng.chance(50) => drop_entry(rng, list),
        Conclusion::List(list) => *list = body(rng, fluents, 2),
        Conclusion::Fluent(fluent) => *fluent = rng.byte(0, fluents - 1),
    }
}
