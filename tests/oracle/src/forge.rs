//! Derivations in which exactly one line is wrong, in a way whose answer is certain.
//!
//! All lines before the wrong one follow, all lines can be read, and no conditions overlap, so
//! the answer is the wrong line's: 31, 32, 33 or 34.

use crate::model::{item_count, nesting, Branch, Item, Line, Request};
use crate::reader::{BODY_LIMIT, CITATION_LIMIT, ITEM_LIMIT, LINE_LIMIT, NESTING_LIMIT};
use crate::rng::Rng;
use crate::rules::takes;

/// Makes one line wrong; returns the number of the answer and the index of the line, if the
/// line chosen can be made wrong in the way chosen.
pub fn forge(rng: &mut Rng, request: &Request, lines: &mut Vec<Line>) -> Option<(u8, usize)> {
    let index = rng.below(lines.len());
    match rng.below(10) {
        0 => {
            lines[index].rule = *rng.pick(&[0, 7, 8, 128, 255]);
            Some((31, index))
        }
        1 => {
            let number = rng.range(0, CITATION_LIMIT);
            let line = &mut lines[index];
            line.cites = vec![0; number];
            (!takes(line.rule, number)).then_some((33, index))
        }
        2 => {
            let later = *rng.pick(&[index, index + 1, lines.len(), 65_535]);
            let cites = &mut lines[index].cites;
            let place = rng.below(cites.len().max(1));
            *cites.get_mut(place)? = later as u16;
            Some((32, index))
        }
        3 => unheld_branch(rng, request, lines, index).map(|index| (34, index)),
        _ => unfollow(rng, request, lines, index).map(|index| (34, index)),
    }
}

/// Makes a line one that its rule doesn't give, and returns its index.
fn unfollow(
    rng: &mut Rng,
    request: &Request,
    lines: &mut Vec<Line>,
    index: usize,
) -> Option<usize> {
    let fluents = request.fluents;
    match (lines[index].rule, rng.below(3)) {
        (1, 0) => lines[index]
            .sequence
            .push(Item::act(rng.byte(0, request.actions - 1))),
        (2, 0) => {
            let line = &mut lines[index];
            line.sequence = sense(rng, request)?;
            line.after = line.before.clone();
        }
        (3, 0) => turn(rng, &mut lines[index].cites)?,
        (3, 1) => halve(&mut lines[index].cites)?,
        (4 | 5, 0) => alter(rng, &mut lines[index].before, fluents),
        (4 | 5, 1) => {
            lines[index].sequence.pop()?;
        }
        (5, 2) => return mismatch(rng, lines, index),
        (6, 0) => {
            let cited = lines[index].cites[0];
            let needed = lines[usize::from(cited)].before.clone();
            assume_too_little(rng, &needed, &mut lines[index].before)?;
        }
        (6, _) => {
            let cited = lines[index].cites[0];
            let given = lines[usize::from(cited)].after.clone();
            say_too_much(rng, &given, &mut lines[index].after, fluents)?;
        }
        _ => alter(rng, &mut lines[index].after, fluents),
    }
    Some(index)
}

/// Changes a list of literals into another one that can be read.
pub(crate) fn alter(rng: &mut Rng, list: &mut Vec<u8>, fluents: u8) {
    let unmarked = unmarked(list, fluents);
    match rng.below(3) {
        _ if list.is_empty() => list.push(2 * rng.pick(&unmarked) + rng.byte(0, 1)),
        0 if !unmarked.is_empty() => {
            list.push(2 * rng.pick(&unmarked) + rng.byte(0, 1));
            list.sort_unstable();
        }
        1 => {
            list.remove(rng.below(list.len()));
        }
        _ => {
            let place = rng.below(list.len());
            list[place] ^= 1;
        }
    }
}

/// The fluents of which a list says nothing.
pub(crate) fn unmarked(list: &[u8], fluents: u8) -> Vec<u8> {
    (0..fluents)
        .filter(|fluent| list.iter().all(|literal| literal / 2 != *fluent))
        .collect()
}

/// A sensing action, which rule 2 never takes, not even as if it changed nothing.
pub(crate) fn sense(rng: &mut Rng, request: &Request) -> Option<Vec<Item>> {
    if request.knowledge.is_empty() {
        return None;
    }
    Some(vec![Item::act(rng.pick(&request.knowledge).action)])
}

/// Two readings of rule 3 or 10 turned round, or one of them for the other.
pub(crate) fn turn(rng: &mut Rng, cites: &mut [u16]) -> Option<()> {
    if cites.len() < 2 {
        return None;
    }
    let one = rng.below(cites.len() - 1);
    let other = rng.range(one + 1, cites.len() - 1);
    match rng.below(3) {
        0 => cites.swap(one, other),
        1 => cites[one] = cites[other],
        _ => cites[other] = cites[one],
    }
    Some(())
}

/// Half of the readings of rule 3 or 10 only: a number that the rule takes, but not here.
pub(crate) fn halve(cites: &mut Vec<u16>) -> Option<()> {
    if cites.len() < 2 {
        return None;
    }
    cites.truncate(cites.len() / 2);
    Some(())
}

/// Adds lines that join two parts whose middle differs: the first Y says less, or more, than
/// the second X.
fn mismatch(rng: &mut Rng, lines: &mut Vec<Line>, index: usize) -> Option<usize> {
    if lines.len() + 2 > LINE_LIMIT {
        return None;
    }
    let joined = lines[index].clone();
    let [one, two] = joined.cites[..] else {
        return None;
    };
    let first = lines[usize::from(one)].clone();
    let added = lines.len() as u16;
    let mut weaker = Line {
        rule: 6,
        cites: vec![one],
        ..first
    };
    if weaker.after.is_empty() {
        return None;
    }
    weaker.after.remove(rng.below(weaker.after.len()));
    lines.push(weaker);
    lines.push(Line {
        cites: vec![added, two],
        ..joined
    });
    Some(lines.len() - 1)
}

/// Adds a line that follows by rule 4 but for its condition, which isn't within X.
fn unheld_branch(
    rng: &mut Rng,
    request: &Request,
    lines: &mut Vec<Line>,
    index: usize,
) -> Option<usize> {
    if lines.len() == LINE_LIMIT {
        return None;
    }
    let cited = lines[index].clone();
    let sequence = under_condition(rng, request.fluents, &cited.before, &cited.sequence)?;
    lines.push(Line {
        sequence,
        rule: 4,
        cites: vec![index as u16],
        ..cited
    });
    Some(lines.len() - 1)
}

/// A start of a sequence put into a branch, with a condition that isn't within X.
pub(crate) fn under_condition(
    rng: &mut Rng,
    fluents: u8,
    before: &[u8],
    sequence: &[Item],
) -> Option<Vec<Item>> {
    if nesting(sequence) == NESTING_LIMIT || item_count(sequence) == ITEM_LIMIT {
        return None;
    }
    let mut condition = before.to_vec();
    condition.truncate(BODY_LIMIT - 1);
    say_too_much(rng, before, &mut condition, fluents)?;
    let (inner, rest) = sequence.split_at(rng.below(sequence.len() + 1));
    let mut whole = vec![Item::case(vec![Branch {
        condition,
        sequence: inner.to_vec(),
    }])];
    whole.extend(rest.iter().cloned());
    Some(whole)
}

/// Takes a literal of the cited X out of X, or turns it round.
pub(crate) fn assume_too_little(rng: &mut Rng, needed: &[u8], before: &mut Vec<u8>) -> Option<()> {
    if needed.is_empty() {
        return None;
    }
    let literal = *rng.pick(needed);
    let place = before.iter().position(|&entry| entry == literal)?;
    match rng.chance(50) {
        true => before[place] ^= 1,
        false => {
            before.remove(place);
        }
    }
    Some(())
}

/// Adds a literal to a part of what is given that isn't given, or turns one round.
pub(crate) fn say_too_much(
    rng: &mut Rng,
    given: &[u8],
    part: &mut Vec<u8>,
    fluents: u8,
) -> Option<()> {
    let unsaid = unmarked(given, fluents);
    if !unsaid.is_empty() && rng.chance(60) {
        part.push(2 * rng.pick(&unsaid) + rng.byte(0, 1));
        part.sort_unstable();
        return Some(());
    }
    if part.is_empty() {
        return None;
    }
    let place = rng.below(part.len());
    part[place] ^= 1;
    Some(())
}
