//! The rules of derivations, and what they ask of the lines in order: 18 over the plans, then line
//! by line 31, 33, 32, 34. A line of the first layout is one that concludes a list.

use crate::answer::Fault;
use crate::model::{Conclusion, Item, ProofLine, Request};
use crate::reader::CITATION_LIMIT;
use crate::settle::overlap;
use crate::table::{bit, readings, Known, Table};

/// 18 over the plans of all lines, then each line in order; `is_rule` is 31's test.
pub(crate) fn check_all(
    request: &Request,
    lines: &[ProofLine],
    is_rule: fn(u8) -> bool,
) -> Result<(), Fault> {
    if let Some(place) = lines.iter().find_map(|line| overlap(&line.sequence)) {
        return Err(Fault::new(18, place));
    }
    let table = Table::new(request);
    for (index, line) in lines.iter().enumerate() {
        let checked = match is_rule(line.rule) {
            true => check_line(&table, lines, index),
            false => Err(31),
        };
        checked.map_err(|number| Fault::new(number, line.place))?;
    }
    Ok(())
}

/// One line that names a rule of its layout: 33, 32, 34.
fn check_line(table: &Table, lines: &[ProofLine], index: usize) -> Result<(), u8> {
    let line = &lines[index];
    if !takes(line.rule, line.cites.len()) {
        return Err(33);
    }
    if line.cites.iter().any(|&cited| usize::from(cited) >= index) {
        return Err(32);
    }
    let cited: Vec<&ProofLine> = line
        .cites
        .iter()
        .map(|&cite| &lines[usize::from(cite)])
        .collect();
    if !follows(table, line, &cited) {
        return Err(34);
    }
    Ok(())
}

/// Whether a rule takes that many citations.
pub fn takes(rule: u8, citations: usize) -> bool {
    match rule {
        1 | 2 | 7 => citations == 0,
        3 | 10 => citations <= CITATION_LIMIT && citations.is_power_of_two(),
        5 | 11 => citations == 2,
        _ => citations == 1,
    }
}

/// Whether a line is what its rule gives from the lines it cites, which are of a right number.
///
/// Rules 3 and 10, 4 and 12, 5 and 11 differ only in what the line concludes, and with it the
/// lines that it cites.
fn follows(table: &Table, line: &ProofLine, cited: &[&ProofLine]) -> bool {
    use Conclusion::{Fluent, List};
    match (line.rule, &line.gives) {
        (1, List(after)) => line.sequence.is_empty() && *after == line.before,
        (2, List(after)) => by_action(table, line, after),
        (3, List(_)) | (10, Fluent(_)) => by_sensing(table, line, cited),
        (4, List(_)) | (12, Fluent(_)) => by_branching(line, cited[0]),
        (5, List(_)) | (11, Fluent(_)) => by_joining(line, cited[0], cited[1]),
        (6, List(after)) => by_weakening(line, after, cited[0]),
        (7, Fluent(fluent)) => by_looking(table, line, *fluent),
        (8, Fluent(fluent)) => by_literal(line, *fluent, cited[0]),
        _ => false,
    }
}

/// Rule 2: one action without knowledge lines, runnable in X; Y is the state after it.
fn by_action(table: &Table, line: &ProofLine, after: &[u8]) -> bool {
    let before = Known::of(&line.before);
    match line.sequence[..] {
        [Item::Action { action, .. }] => {
            table.senses(action) == 0
                && table.runnable(action, before)
                && table.step(action, before).literals() == after
        }
        _ => false,
    }
}

/// Rules 3 and 10: c starts with a sensing action runnable in X; one line per reading in the
/// walk's order: X with the reading, the rest of c, the same conclusion.
fn by_sensing(table: &Table, line: &ProofLine, cited: &[&ProofLine]) -> bool {
    let before = Known::of(&line.before);
    let Some((Item::Action { action, .. }, rest)) = line.sequence.split_first() else {
        return false;
    };
    let senses = table.senses(*action);
    if senses == 0 || !table.runnable(*action, before) {
        return false;
    }
    let unknown = senses & !before.marked();
    if unknown.count_ones() != cited.len().trailing_zeros() {
        return false;
    }
    readings(before, unknown)
        .into_iter()
        .zip(cited)
        .all(|(reading, cited)| {
            cited.before == reading.literals()
                && cited.sequence == rest
                && cited.gives == line.gives
        })
}

/// Rules 4 and 12: c starts with a branching; some condition is within X; cited: X, that branch
/// joined with the rest, the same conclusion.
fn by_branching(line: &ProofLine, cited: &ProofLine) -> bool {
    let Some((Item::Branching { branches, .. }, rest)) = line.sequence.split_first() else {
        return false;
    };
    cited.before == line.before
        && cited.gives == line.gives
        && branches.iter().any(|branch| {
            within(&branch.condition, &line.before)
                && joined(&branch.sequence, rest, &cited.sequence)
        })
}

/// Rules 5 and 11: X c' Z, then Z c'' with the same conclusion, and c = c' joined c''. Z is a
/// list.
fn by_joining(line: &ProofLine, first: &ProofLine, second: &ProofLine) -> bool {
    let Conclusion::List(middle) = &first.gives else {
        return false;
    };
    first.before == line.before
        && *middle == second.before
        && second.gives == line.gives
        && joined(&first.sequence, &second.sequence, &line.sequence)
}

/// Rule 6: X' c Y', with X' within X and Y within Y'. Both are lists.
fn by_weakening(line: &ProofLine, after: &[u8], cited: &ProofLine) -> bool {
    let Conclusion::List(more) = &cited.gives else {
        return false;
    };
    within(&cited.before, &line.before) && cited.sequence == line.sequence && within(after, more)
}

/// Rule 7: c is one action and nothing else; it is runnable in X and senses the fluent.
fn by_looking(table: &Table, line: &ProofLine, fluent: u8) -> bool {
    match line.sequence[..] {
        [Item::Action { action, .. }] => {
            table.senses(action) & bit(fluent) != 0
                && table.runnable(action, Known::of(&line.before))
        }
        _ => false,
    }
}

/// Rule 8: the same X and c with a list of one literal, which is one of the fluent's two.
fn by_literal(line: &ProofLine, fluent: u8, cited: &ProofLine) -> bool {
    let Conclusion::List(list) = &cited.gives else {
        return false;
    };
    cited.before == line.before
        && cited.sequence == line.sequence
        && matches!(list[..], [literal] if literal / 2 == fluent)
}

/// Every entry of one list stands in the other.
pub(crate) fn within(inner: &[u8], outer: &[u8]) -> bool {
    inner.iter().all(|entry| outer.contains(entry))
}

/// Whether `whole` is `first` joined with `second`.
pub(crate) fn joined(first: &[Item], second: &[Item], whole: &[Item]) -> bool {
    whole.len() == first.len() + second.len()
        && whole[..first.len()] == *first
        && whole[first.len()..] == *second
}
