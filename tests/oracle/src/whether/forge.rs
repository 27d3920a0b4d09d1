//! Derivations of the second layout in which exactly one line, or the closing list, is wrong, in
//! a way whose answer is certain.
//!
//! All lines before the wrong one follow, all lines can be read, and no conditions overlap, so
//! the answer is the wrong line's: 31, 32, 33 or 34. Where only the closing list is wrong, the
//! answer is 36.

use crate::answer::Fault;
use crate::encode::proof_place;
use crate::forge::{
    alter, assume_too_little, halve, say_too_much, sense, turn, under_condition, unmarked,
};
use crate::model::{item_count, Conclusion, Item, Proof, ProofLine, Request};
use crate::reader::{CITATION_LIMIT, ITEM_LIMIT, LINE_LIMIT};
use crate::rng::Rng;
use crate::table::{bit, Known, Table};

/// Makes one line or the closing list wrong; returns the fault, if what was chosen can be made
/// wrong in the way chosen.
pub fn forge_proof(rng: &mut Rng, request: &Request, proof: &mut Proof) -> Option<Fault> {
    if rng.chance(22) {
        return forge_closing(rng, request, proof);
    }
    let lines = &mut proof.lines;
    let index = match some(rng, lines, |line| !is_list(line)) {
        Some((index, _)) if rng.chance(50) => index,
        _ => rng.below(lines.len()),
    };
    let (number, index) = match rng.below(20) {
        0 => (31, misrule(rng, lines, index)),
        1 | 2 => (33, miscount(rng, lines, index)?),
        3 => (32, cite_later(rng, lines, index)?),
        4 => (34, unheld_branch(rng, request, lines, index)?),
        5 | 6 => (34, cite_other_kind(rng, lines, index)?),
        7 => (34, other_kind(rng, request, lines)?),
        8 | 9 => (34, ill_looking(rng, request, lines)?),
        10 | 11 => (34, ill_literal(rng, request, lines)?),
        12 => (34, ill_joining(rng, lines)?),
        13 => (34, near_joining(rng, request, lines, index)?),
        14 | 15 => (34, misread(rng, lines)?),
        _ => (34, unfollow(rng, request, lines, index)?),
    };
    Some(Fault::new(number, proof_place(lines, index)))
}

/// A rule byte that is none, with a list in Y's place.
fn misrule(rng: &mut Rng, lines: &mut [ProofLine], index: usize) -> usize {
    let line = &mut lines[index];
    line.rule = *rng.pick(&[0, 9, 9, 13, 14, 128, 255]);
    if let Conclusion::Fluent(fluent) = line.gives {
        line.gives = Conclusion::List(vec![2 * fluent]);
    }
    index
}

/// A number of citations that the rule doesn't take.
fn miscount(rng: &mut Rng, lines: &mut [ProofLine], index: usize) -> Option<usize> {
    let line = &mut lines[index];
    let number = match rng.chance(50) {
        true => rng.below(4),
        false => rng.range(0, CITATION_LIMIT),
    };
    let taken: &[usize] = match line.rule {
        1 | 2 | 7 => &[0],
        3 | 10 => &[1, 2, 4, 8, 16, 32, 64],
        5 | 11 => &[2],
        _ => &[1],
    };
    line.cites = vec![0; number];
    (!taken.contains(&number)).then_some(index)
}

/// A citation of the line itself, of a later one, or of one that doesn't exist.
fn cite_later(rng: &mut Rng, lines: &mut [ProofLine], index: usize) -> Option<usize> {
    let later = *rng.pick(&[index, index + 1, lines.len(), 65_535]);
    let cites = &mut lines[index].cites;
    let place = rng.below(cites.len().max(1));
    *cites.get_mut(place)? = later as u16;
    Some(index)
}

fn is_list(line: &ProofLine) -> bool {
    matches!(line.gives, Conclusion::List(_))
}

/// The numbers of the lines that are as wanted.
fn numbers(lines: &[ProofLine], wanted: impl Fn(&ProofLine) -> bool) -> Vec<usize> {
    (0..lines.len()).filter(|&i| wanted(&lines[i])).collect()
}

/// One of the lines that are as wanted, with its number.
fn some(
    rng: &mut Rng,
    lines: &[ProofLine],
    wanted: impl Fn(&ProofLine) -> bool,
) -> Option<(usize, ProofLine)> {
    let found = numbers(lines, wanted);
    if found.is_empty() {
        return None;
    }
    let number = *rng.pick(&found);
    Some((number, lines[number].clone()))
}

/// Another fluent than this one.
fn other_fluent(rng: &mut Rng, request: &Request, fluent: u8) -> Option<u8> {
    let others: Vec<u8> = (0..request.fluents).filter(|f| *f != fluent).collect();
    (!others.is_empty()).then(|| *rng.pick(&others))
}

/// Adds a line that doesn't follow.
fn push(lines: &mut Vec<ProofLine>, line: ProofLine) -> Option<usize> {
    if lines.len() >= LINE_LIMIT || item_count(&line.sequence) > ITEM_LIMIT {
        return None;
    }
    lines.push(line);
    Some(lines.len() - 1)
}

/// Cites an earlier line that concludes a fluent where a list is due, or a list where a fluent is.
fn cite_other_kind(rng: &mut Rng, lines: &mut [ProofLine], index: usize) -> Option<usize> {
    let line = &lines[index];
    let place = rng.below(line.cites.len().max(1));
    let list_due = match line.rule {
        10 | 12 => false,
        11 => place == 0,
        _ => true,
    };
    let (number, _) = some(rng, &lines[..index], |line| is_list(line) != list_due)?;
    *lines[index].cites.get_mut(place)? = number as u16;
    Some(index)
}

/// Turns rule 3 into 10, 4 into 12, 5 into 11, or back, with the same citations: what they
/// conclude is of the other kind.
fn other_kind(rng: &mut Rng, request: &Request, lines: &mut [ProofLine]) -> Option<usize> {
    let (index, line) = some(rng, lines, |line| matches!(line.rule, 3..=5 | 10..=12))?;
    let rule = match line.rule {
        3 => 10,
        4 => 12,
        5 => 11,
        10 => 3,
        12 => 4,
        _ => 5,
    };
    let gives = match line.gives {
        Conclusion::List(list) => {
            let any = 2 * rng.byte(0, request.fluents - 1);
            Conclusion::Fluent(list.first().unwrap_or(&any) / 2)
        }
        Conclusion::Fluent(fluent) => match rng.below(3) {
            0 => Conclusion::List(Vec::new()),
            _ => Conclusion::List(vec![2 * fluent + rng.byte(0, 1)]),
        },
    };
    lines[index].rule = rule;
    lines[index].gives = gives;
    Some(index)
}

/// Adds a line that isn't by rule 7: a fluent that isn't sensed, an action that can't be run in
/// X, or a plan that isn't one sensing action.
fn ill_looking(rng: &mut Rng, request: &Request, lines: &mut Vec<ProofLine>) -> Option<usize> {
    if request.knowledge.is_empty() {
        return None;
    }
    let table = Table::new(request);
    let seen = rng.pick(&request.knowledge).clone();
    let mut allowances = request.allowances.iter();
    let allowing = allowances.find(|line| line.action == seen.action);
    let mut line = ProofLine {
        place: 0,
        before: allowing.map_or(Vec::new(), |line| line.body.clone()),
        sequence: vec![Item::act(seen.action)],
        rule: 7,
        gives: Conclusion::Fluent(seen.fluent),
        cites: Vec::new(),
    };
    match rng.below(3) {
        0 => {
            let senses = table.senses(seen.action);
            let unseen = (0..request.fluents).filter(|&fluent| senses & bit(fluent) == 0);
            let unseen: Vec<u8> = unseen.collect();
            if unseen.is_empty() {
                return None;
            }
            line.gives = Conclusion::Fluent(*rng.pick(&unseen));
        }
        1 => line.before = unallowing(rng, request, &table, seen.action, line.before)?,
        _ => {
            let other = rng.byte(0, request.actions - 1);
            line.sequence = match rng.below(5) {
                0 => Vec::new(),
                1 => vec![Item::act(seen.action); 2],
                2 => vec![Item::act(seen.action), Item::act(other)],
                3 => vec![Item::act(other), Item::act(seen.action)],
                _ => under_condition(rng, request.fluents, &[], &line.sequence)?,
            };
        }
    }
    push(lines, line)
}

/// A list in which an action can't be run, if there is one near the list given.
fn unallowing(
    rng: &mut Rng,
    request: &Request,
    table: &Table,
    action: u8,
    mut list: Vec<u8>,
) -> Option<Vec<u8>> {
    for _ in 0..4 {
        if !table.runnable(action, Known::of(&list)) {
            return Some(list);
        }
        alter(rng, &mut list, request.fluents);
    }
    list.clear();
    (!table.runnable(action, Known::of(&list))).then_some(list)
}

/// Adds a line that isn't by rule 8: from a list of no or several literals, for another fluent,
/// from another X or c, or from a line that concludes the fluent already.
fn ill_literal(rng: &mut Rng, request: &Request, lines: &mut Vec<ProofLine>) -> Option<usize> {
    let length = |line: &ProofLine| match &line.gives {
        Conclusion::List(list) => list.len(),
        Conclusion::Fluent(_) => 0,
    };
    let alone = |line: &ProofLine| length(line) == 1;
    let several = |line: &ProofLine| length(line) > 1;
    let (cited, mut line) = match rng.below(6) {
        0 => some(rng, lines, |line| !alone(line))?,
        1 => some(rng, lines, several)?,
        _ => some(rng, lines, alone)?,
    };
    let fluent = match &line.gives {
        Conclusion::Fluent(fluent) => *fluent,
        Conclusion::List(list) if list.is_empty() => rng.byte(0, request.fluents - 1),
        Conclusion::List(list) => rng.pick(list) / 2,
    };
    line.gives = Conclusion::Fluent(fluent);
    if alone(&lines[cited]) {
        match rng.below(4) {
            0 | 1 => line.gives = Conclusion::Fluent(other_fluent(rng, request, fluent)?),
            2 => alter(rng, &mut line.before, request.fluents),
            _ => line.sequence = longer_or_shorter(rng, request, line.sequence),
        }
    }
    line.rule = 8;
    line.cites = vec![cited as u16];
    push(lines, line)
}

/// A sequence with an action more or an item less.
fn longer_or_shorter(rng: &mut Rng, request: &Request, mut sequence: Vec<Item>) -> Vec<Item> {
    if sequence.is_empty() || rng.chance(50) {
        sequence.push(Item::act(rng.byte(0, request.actions - 1)));
    } else {
        sequence.pop();
    }
    sequence
}

/// Adds a line that isn't by rule 11 since its first part concludes a fluent, or one that isn't
/// by rule 5 or 6 since a part does.
fn ill_joining(rng: &mut Rng, lines: &mut Vec<ProofLine>) -> Option<usize> {
    let (one, first) = some(rng, lines, |line| !is_list(line))?;
    let mut line = first.clone();
    if rng.chance(30) {
        let Conclusion::Fluent(fluent) = first.gives else {
            return None;
        };
        line.rule = 6;
        line.gives = match rng.chance(50) {
            true => Conclusion::List(Vec::new()),
            false => Conclusion::List(vec![2 * fluent + rng.byte(0, 1)]),
        };
        line.cites = vec![one as u16];
        return push(lines, line);
    }
    let list = rng.chance(30);
    let (two, second) = some(rng, lines, |line| is_list(line) == list)?;
    line.sequence.extend(second.sequence);
    line.rule = if list { 5 } else { 11 };
    line.gives = second.gives;
    line.cites = vec![one as u16, two as u16];
    push(lines, line)
}

/// Adds a line joined with the empty plan at its start, though the lists in the middle differ by
/// one entry: the first Y says more than the second X, or less.
fn near_joining(
    rng: &mut Rng,
    request: &Request,
    lines: &mut Vec<ProofLine>,
    index: usize,
) -> Option<usize> {
    if lines.len() + 2 > LINE_LIMIT {
        return None;
    }
    let cited = lines[index].clone();
    let mut middle = cited.before.clone();
    alter(rng, &mut middle, request.fluents);
    let empty = lines.len() as u16;
    lines.push(ProofLine {
        before: middle.clone(),
        sequence: Vec::new(),
        rule: 1,
        gives: Conclusion::List(middle.clone()),
        cites: Vec::new(),
        ..cited
    });
    let joined = ProofLine {
        before: middle,
        rule: if is_list(&cited) { 5 } else { 11 },
        cites: vec![empty, index as u16],
        ..cited
    };
    push(lines, joined)
}

/// Adds a line that follows by rule 4 or 12 but for its condition, which isn't within X.
fn unheld_branch(
    rng: &mut Rng,
    request: &Request,
    lines: &mut Vec<ProofLine>,
    index: usize,
) -> Option<usize> {
    let cited = lines[index].clone();
    let sequence = under_condition(rng, request.fluents, &cited.before, &cited.sequence)?;
    let rule = if is_list(&cited) { 4 } else { 12 };
    let line = ProofLine {
        sequence,
        rule,
        cites: vec![index as u16],
        ..cited
    };
    push(lines, line)
}

/// Makes a line one that its rule doesn't give, and returns its number.
fn unfollow(
    rng: &mut Rng,
    request: &Request,
    lines: &mut Vec<ProofLine>,
    index: usize,
) -> Option<usize> {
    let fluents = request.fluents;
    let rule = lines[index].rule;
    match (rule, rng.below(4)) {
        (1, 0) => {
            let action = Item::act(rng.byte(0, request.actions - 1));
            lines[index].sequence.push(action);
        }
        (2, 0) => {
            let line = &mut lines[index];
            line.sequence = sense(rng, request)?;
            line.gives = Conclusion::List(line.before.clone());
        }
        (7, _) => {
            let line = &mut lines[index];
            line.sequence = longer_or_shorter(rng, request, line.sequence.clone());
        }
        (3 | 4 | 5 | 8 | 10 | 11 | 12, 2) => alter(rng, &mut lines[index].before, fluents),
        (4 | 5 | 8 | 11 | 12, 0) => {
            lines[index].sequence.pop()?;
        }
        (5 | 11, 1) => return mismatch(rng, lines, index),
        (6, 0) => {
            let cited = usize::from(lines[index].cites[0]);
            let needed = lines[cited].before.clone();
            assume_too_little(rng, &needed, &mut lines[index].before)?;
        }
        (6, _) => {
            let cited = usize::from(lines[index].cites[0]);
            let Conclusion::List(given) = lines[cited].gives.clone() else {
                return None;
            };
            let Conclusion::List(after) = &mut lines[index].gives else {
                return None;
            };
            say_too_much(rng, &given, after, fluents)?;
        }
        _ => alter_conclusion(rng, request, &mut lines[index].gives)?,
    }
    Some(index)
}

/// Readings of rule 10, or 3, in another order, one for another, half of them, or each twice.
fn misread(rng: &mut Rng, lines: &mut [ProofLine]) -> Option<usize> {
    let rule = if rng.chance(70) { 10 } else { 3 };
    let several = |line: &ProofLine| line.rule == rule && line.cites.len() > 1;
    let (index, _) = some(rng, lines, several)?;
    let cites = &mut lines[index].cites;
    match rng.below(6) {
        0 => halve(cites)?,
        1 => double(cites)?,
        _ => turn(rng, cites)?,
    }
    Some(index)
}

/// Each reading twice: a number that rules 3 and 10 take, but not here.
fn double(cites: &mut Vec<u16>) -> Option<()> {
    if 2 * cites.len() > CITATION_LIMIT {
        return None;
    }
    *cites = cites.repeat(2);
    Some(())
}

/// Another list, or another fluent.
fn alter_conclusion(rng: &mut Rng, request: &Request, gives: &mut Conclusion) -> Option<()> {
    match gives {
        Conclusion::List(list) => alter(rng, list, request.fluents),
        Conclusion::Fluent(fluent) => *fluent = other_fluent(rng, request, *fluent)?,
    }
    Some(())
}

/// Adds lines that join two parts whose middle differs: the first Y says less than the second X.
fn mismatch(rng: &mut Rng, lines: &mut Vec<ProofLine>, index: usize) -> Option<usize> {
    if lines.len() + 2 > LINE_LIMIT {
        return None;
    }
    let joined = lines[index].clone();
    let [one, two] = joined.cites[..] else {
        return None;
    };
    let first = lines[usize::from(one)].clone();
    let Conclusion::List(mut less) = first.gives else {
        return None;
    };
    if less.is_empty() {
        return None;
    }
    less.remove(rng.below(less.len()));
    let added = lines.len() as u16;
    lines.push(ProofLine {
        rule: 6,
        gives: Conclusion::List(less),
        cites: vec![one],
        ..first
    });
    lines.push(ProofLine {
        cites: vec![added, two],
        ..joined
    });
    Some(lines.len() - 1)
}

/// Makes the closing list wrong: its length, or one entry.
fn forge_closing(rng: &mut Rng, request: &Request, proof: &mut Proof) -> Option<Fault> {
    let count = proof.closing.len();
    let whole = |proof: &Proof| Fault::new(36, proof_place(&proof.lines, proof.lines.len()));
    match rng.below(10) {
        0 => {
            proof.closing.truncate(rng.below(count));
            return Some(whole(proof));
        }
        1 => {
            let more = *rng.pick(&[count + 1, count + 1, count + 2, 255]);
            let entry = *rng.pick(&proof.closing);
            proof.closing.resize(more, entry);
            return Some(whole(proof));
        }
        _ => {}
    }
    let index = match rng.below(6) {
        0 | 1 => {
            let lines = proof.lines.len();
            let index = rng.below(count);
            proof.closing[index] = *rng.pick(&[lines, lines, lines + 1, 32_768, 65_535]) as u16;
            index
        }
        2 => other_line(rng, request, proof)?,
        3 => line_of_other_kind(rng, proof)?,
        4 => other_goals(rng, request, proof)?,
        _ => {
            if count < 2 {
                return None;
            }
            let one = rng.below(count - 1);
            let other = rng.range(one + 1, count - 1);
            match rng.below(3) {
                0 => proof.closing.swap(one, other),
                1 => proof.closing[one] = proof.closing[other],
                _ => {
                    proof.closing[other] = proof.closing[one];
                    return Some(entry_fault(proof, other));
                }
            }
            one
        }
    };
    Some(entry_fault(proof, index))
}

fn entry_fault(proof: &Proof, index: usize) -> Fault {
    let place = proof_place(&proof.lines, proof.lines.len());
    Fault::new(36, place + 1 + 2 * index)
}

/// An entry that names a line with another X or another plan.
fn other_line(rng: &mut Rng, request: &Request, proof: &mut Proof) -> Option<usize> {
    let index = rng.below(proof.closing.len());
    let other = |line: &ProofLine| line.before != request.facts || line.sequence != request.plan;
    proof.closing[index] = some(rng, &proof.lines, other)?.0 as u16;
    Some(index)
}

/// An entry for the goals that names a line about a fluent, or the other way round.
fn line_of_other_kind(rng: &mut Rng, proof: &mut Proof) -> Option<usize> {
    let index = rng.below(proof.closing.len());
    let list_due = index == 0;
    let found = some(rng, &proof.lines, |line| is_list(line) != list_due)?;
    proof.closing[index] = found.0 as u16;
    Some(index)
}

/// Names a line that follows and differs from the goals' line in one list only: fewer goals, or
/// more facts.
fn other_goals(rng: &mut Rng, request: &Request, proof: &mut Proof) -> Option<usize> {
    let mut line = ProofLine {
        rule: 6,
        cites: vec![proof.closing[0]],
        ..proof.lines[usize::from(proof.closing[0])].clone()
    };
    let unknown = unmarked(&request.facts, request.fluents);
    if request.goals.is_empty() || (!unknown.is_empty() && rng.chance(50)) {
        if unknown.is_empty() {
            return None;
        }
        line.before.push(2 * rng.pick(&unknown) + rng.byte(0, 1));
        line.before.sort_unstable();
    } else {
        let mut fewer = request.goals.clone();
        fewer.remove(rng.below(fewer.len()));
        line.gives = Conclusion::List(fewer);
    }
    proof.closing[0] = push(&mut proof.lines, line)? as u16;
    Some(0)
}
