//! The derivations in the closing layout that the whether call is timed on.

use oracle::encode::{encode_proof, encode_request, proof_place};
use oracle::generate::{SMALL, TINY};
use oracle::model::{Allowance, Conclusion, Item, Knowledge, Proof, ProofLine, Request};
use oracle::reader::{DERIVATION_LIMIT, LINE_LIMIT};
use oracle::rng::Rng;
use oracle::whether::calls::provable;

use crate::derivations::{barred, Row, Timed, EACH, LINES, ROOM, SENSED};

/// The stream of random numbers.
const STREAM: u64 = 201;

fn timed(request: &Request, lines: Vec<ProofLine>, closing: &[u16]) -> Timed {
    let proof = Proof { lines, closing_place: 0, closing: closing.to_vec() };
    Timed { closing: true, request: encode_request(request).bytes, derivation: encode_proof(&proof).bytes }
}

fn line(before: &[u8], sequence: &[Item], rule: u8, gives: Conclusion, cites: &[u16]) -> ProofLine {
    ProofLine { place: 0, before: before.to_vec(), sequence: sequence.to_vec(), rule, gives, cites: cites.to_vec() }
}

fn list(literals: &[u8]) -> Conclusion {
    Conclusion::List(literals.to_vec())
}

/// A generated derivation of ten lines at the most that concludes a fluent, small enough to be said a hundred times.
fn drawn(seed: u64, index: u64) -> (Request, Proof) {
    let mut rng = Rng::new(seed, STREAM, index);
    loop {
        let shape = *rng.pick(&[TINY, SMALL]);
        let (request, proof) = provable(&mut rng, &shape);
        let bytes = encode_proof(&proof).bytes.len();
        if (3..=LINES[0]).contains(&proof.lines.len()) && bytes <= ROOM * proof.lines.len() && !request.whether.is_empty() {
            return (request, proof);
        }
    }
}

/// The lines again and again, each time with citations of its own, the last time named by the closing list; what is missing then are lines by
/// rule 1 before the others.
fn said_again(request: &Request, proof: &Proof, count: usize) -> Timed {
    let mut all = vec![line(&[], &[], 1, list(&[]), &[]); count % proof.lines.len()];
    let mut first = 0;
    while all.len() < count {
        first = all.len() as u16;
        let shifted = |line: &ProofLine| ProofLine { cites: line.cites.iter().map(|cite| cite + first).collect(), ..line.clone() };
        all.extend(proof.lines.iter().map(shifted));
    }
    let closing: Vec<u16> = proof.closing.iter().map(|entry| entry + first).collect();
    timed(request, all, &closing)
}

/// Six fluents sensed at once before a plan of so many items, none or a power of two, which keep what was seen, by as many lines by rule 10 as
/// there is room for. All of them cite the same 64 lines.
fn cited_most(items: usize) -> Timed {
    let asked = SENSED - 1;
    let plan: Vec<Item> = std::iter::once(Item::act(0)).chain((0..items).map(|_| Item::act(1))).collect();
    let rest = &plan[1..];
    let request = Request {
        fluents: SENSED,
        actions: 2,
        allowances: (0..2).map(|action| Allowance { action, body: Vec::new() }).collect(),
        knowledge: (0..SENSED).map(|fluent| Knowledge { place: 0, action: 0, fluent }).collect(),
        plan: plan.clone(),
        whether: vec![asked],
        ..Request::default()
    };
    // Of the fluent alone, once true and once false: the plan by doubling, and then the fluent.
    let mut lines = Vec::new();
    let mut kept = Vec::new();
    for value in 0..2 {
        let known = [2 * asked + value];
        lines.push(match items {
            0 => line(&known, &[], 1, list(&known), &[]),
            _ => line(&known, &rest[..1], 2, list(&known), &[]),
        });
        let mut done = 1;
        while done < items {
            let last = lines.len() as u16 - 1;
            done *= 2;
            lines.push(line(&known, &rest[..done], 5, list(&known), &[last, last]));
        }
        let last = lines.len() as u16 - 1;
        lines.push(line(&known, rest, 8, Conclusion::Fluent(asked), &[last]));
        kept.push(last);
    }
    // Each reading knows more than that: by rule 6 for the list, and for the fluent by rule 11 with the empty plan first.
    let (mut of_list, mut of_fluent) = (Vec::new(), Vec::new());
    for reading in 0..64u8 {
        let read: Vec<u8> = (0..SENSED).map(|fluent| 2 * fluent + (reading >> (SENSED - 1 - fluent) & 1)).collect();
        let (first, derived) = (lines.len() as u16, kept[usize::from(reading & 1)]);
        lines.push(line(&read, &[], 1, list(&read), &[]));
        lines.push(line(&read, &[], 6, list(&read[usize::from(asked)..]), &[first]));
        lines.push(line(&read, rest, 6, list(&[]), &[derived]));
        lines.push(line(&read, rest, 11, Conclusion::Fluent(asked), &[first + 1, derived + 1]));
        of_list.push(first + 2);
        of_fluent.push(first + 3);
    }
    let goals = lines.len() as u16;
    lines.push(line(&[], &plan, 3, list(&[]), &of_list));
    let citing = line(&[], &plan, 10, Conclusion::Fluent(asked), &of_fluent);
    let closing = [goals, goals + 1];
    let length = proof_place(&[citing.clone()], 1) - 2;
    let left = DERIVATION_LIMIT - proof_place(&lines, lines.len()) - (1 + 2 * closing.len());
    let room = LINE_LIMIT - lines.len();
    lines.extend(vec![citing; (left / length).min(room)]);
    timed(&request, lines, &closing)
}

/// 1,024 lines by rule 7 for an action that 255 executability lines are gone through for.
fn look_often() -> Timed {
    let known = barred();
    let (asked, facts) = (63, known.facts.clone());
    let request = Request { knowledge: vec![Knowledge { place: 0, action: 0, fluent: asked }], goals: Vec::new(), whether: vec![asked], ..known };
    let look = |rule, gives, cites: &[u16]| line(&facts, &request.plan, rule, gives, cites);
    let mut lines = vec![line(&[], &[], 1, list(&[]), &[])];
    for value in 0..2 {
        lines.push(line(&[&facts[..], &[2 * asked + value]].concat(), &[], 6, list(&[]), &[0]));
    }
    lines.push(look(3, list(&[]), &[1, 2]));
    lines.resize(LINE_LIMIT, look(7, Conclusion::Fluent(asked), &[]));
    timed(&request, lines, &[3, 4])
}

pub fn rows(seed: u64) -> Vec<Row> {
    let eighteen = Timed {
        closing: true,
        request: include_bytes!("../../../../samples/file-a").to_vec(),
        derivation: include_bytes!("../../../../samples/file-a.derivation").to_vec(),
    };
    let mut rows = vec![("File A".to_string(), vec![eighteen])];
    let bases: Vec<(Request, Proof)> = (0..EACH).map(|index| drawn(seed, index)).collect();
    for count in LINES {
        let calls = bases.iter().map(|(request, proof)| said_again(request, proof, count)).collect();
        rows.push((format!("{EACH} generated"), calls));
    }
    for items in [0, 64] {
        rows.push((format!("64 citations a line by rule 10, {items} items"), vec![cited_most(items)]));
    }
    rows.push(("rule 7 over 255 executability lines".to_string(), vec![look_often()]));
    rows
}
