//! Inputs made to do harm to the whether call: as large, deep and slow as the closing layout lets them be, and a little beyond.

use oracle::encode::encode_request;
use oracle::model::{Item, ProofLine, Request};
use oracle::reader::{BODY_LIMIT, CITATION_LIMIT, DERIVATION_LIMIT, ITEM_LIMIT, LINE_LIMIT};

use crate::checks::Check;
use crate::hostile::{all_lengths, always, barred, eightfold, literals, long_lines, senses, wide, Input, Named, FLUENTS};
use crate::whether_largest::{self, closed, fluent, line, list};

/// Every input by name.
pub fn named() -> Vec<Named> {
    let largest = whether_largest::rows().into_iter().map(|(name, check, _)| (format!("closing layout: {name}"), Input::Derivation(check)));
    let mut inputs: Vec<Named> = largest.collect();
    inputs.extend(citations());
    inputs.extend(slow_lines());
    inputs.extend(slow_entries());
    inputs.extend(long_lines().into_iter().map(|(name, bytes)| check(&format!("a line of 65,535 items, {name}"), &wide(), bytes)));
    inputs.extend(all_lengths(DERIVATION_LIMIT).into_iter().map(|(name, bytes)| check(&format!("a derivation of {name}"), &wide(), bytes)));
    inputs
}

pub fn check(name: &str, request: &Request, derivation: Vec<u8>) -> Named {
    (format!("closing layout: {name}"), Input::Derivation(Check::closing(encode_request(request).bytes, derivation)))
}

/// Lines that all have 64 citations; and lines of which each cites 64 plans of 64 items.
fn citations() -> Vec<Named> {
    let cites: Vec<u16> = (0..CITATION_LIMIT as u16).collect();
    let length = 1 + 2 + 1 + 1 + 1 + 2 * cites.len();
    let all = |rule: u8, gives| closed(&vec![line(&[], &[], rule, gives, &cites); (DERIVATION_LIMIT - 2 - 3) / length], &[0]);
    let (request, lines, closing) = long_plans();
    vec![
        check("every line cites 64 lines, rule 10", &wide(), all(10, fluent(0))),
        check("every line cites 64 lines, rule 11", &wide(), all(11, fluent(0))),
        check("every line cites 64 lines, no rule", &wide(), all(9, list(&[]))),
        check("many lines cite 64 plans of 64 items", &request, closed(&lines, &closing)),
    ]
}

/// An action that senses six fluents and then 64 others, which keep what was seen: for each of the readings these are derived, for the list
/// and for the fluent, and then over and over with the first.
fn long_plans() -> (Request, Vec<ProofLine>, [u16; 2]) {
    const DOUBLED: u16 = 6;
    let rest = vec![Item::act(1); 1 << DOUBLED];
    let whole = [vec![Item::act(0)], rest.clone()].concat();
    let request = Request {
        fluents: FLUENTS,
        actions: 2,
        allowances: vec![always(0), always(1)],
        knowledge: senses(0, 0..6),
        plan: whole.clone(),
        whether: vec![5],
        ..Request::default()
    };
    // Of fluent 5 alone, once true and once false: 1, 2, 4, 8 and so on, then the fluent.
    let mut lines = Vec::new();
    let mut kept = [0; 2];
    for value in 0..2 {
        let (known, first) = ([10 + value], lines.len() as u16);
        lines.push(line(&known, &rest[..1], 2, list(&known), &[]));
        lines.extend((1..=DOUBLED).map(|power| line(&known, &rest[..1 << power], 5, list(&known), &[first + power - 1, first + power - 1])));
        lines.push(line(&known, &rest, 8, fluent(5), &[first + DOUBLED]));
        kept[usize::from(value)] = first + DOUBLED + 1;
    }
    // A reading knows more than fluent 5, and rule 11 with the empty plan first makes up for that.
    let mut ends = [Vec::new(), Vec::new()];
    for bits in 0..64u8 {
        let reading: Vec<u8> = (0..6).map(|f| 2 * f + (bits >> (5 - f) & 1)).collect();
        let (stays, known) = (lines.len() as u16, &reading[5..]);
        let of_fluent = kept[usize::from(reading[5] & 1)];
        lines.push(line(&reading, &[], 1, list(&reading), &[]));
        lines.push(line(&reading, &[], 6, list(known), &[stays]));
        lines.push(line(&reading, &rest, 6, list(&[]), &[of_fluent - 1]));
        lines.push(line(&reading, &rest, 11, fluent(5), &[stays + 1, of_fluent]));
        ends[0].push(stays + 2);
        ends[1].push(stays + 3);
    }
    let first = lines.len() as u16;
    let [of_list, of_fluent] = ends;
    lines.push(line(&[], &whole, 3, list(&[]), &of_list));
    let citing = line(&[], &whole, 10, fluent(5), &of_fluent);
    let closing = [first, first + 1];
    let length = 1 + 2 + whole.len() + 1 + 1 + 1 + 2 * of_fluent.len();
    let left = DERIVATION_LIMIT.saturating_sub(closed(&lines, &closing).len());
    lines.extend(vec![citing; left / length]);
    (request, lines, closing)
}

/// Lines that take long each: rule 7 over 255 executability lines, and branchings with the longest conditions.
fn slow_lines() -> Vec<Named> {
    let request = Request { knowledge: senses(0, 0..FLUENTS), ..barred() };
    let looks = |before: &[u8]| vec![line(before, &[Item::act(0)], 7, fluent(FLUENTS - 1), &[]); LINE_LIMIT];
    let empty = [line(&[], &[], 1, list(&[]), &[]), line(&[], &[], 8, fluent(0), &[0])];
    let branchings = vec![eightfold(); (DERIVATION_LIMIT - 100) / (2 + 8 * (1 + BODY_LIMIT + 2))];
    let branched = line(&literals(0..16), &branchings, 12, fluent(0), &[0]);
    vec![
        check("1,024 lines by rule 7 over 255 executability lines", &request, closed(&looks(&request.facts), &[0])),
        check("1,024 lines by rule 7", &Request { knowledge: senses(0, 0..FLUENTS), ..wide() }, closed(&looks(&[]), &[0])),
        check("a line of branchings with the longest conditions", &wide(), closed(&[empty[0].clone(), branched], &[0])),
        check("rule 8 of an empty list", &wide(), closed(&empty, &[0])),
    ]
}

/// A closing list of 65 entries, each of which names a line with the longest plan that there is room for. More fluents would take more room
/// than there is, since each line says all that is known.
fn slow_entries() -> Vec<Named> {
    const ITEMS: usize = 128;
    const ASKED: u8 = 64;
    let (plan, facts) = (vec![Item::act(0); ITEMS], literals(0..ASKED));
    let request = Request { facts: facts.clone(), plan: plan.clone(), whether: (0..ASKED).collect(), ..wide() };
    let mut lines = vec![line(&facts, &plan[..1], 2, list(&facts), &[])];
    for power in 1..=7u16 {
        lines.push(line(&facts, &plan[..1 << power], 5, list(&facts), &[power - 1, power - 1]));
    }
    lines.push(line(&facts, &plan, 6, list(&[]), &[7]));
    let mut entries = vec![8];
    for asked in 0..ASKED {
        let alone = lines.len() as u16;
        lines.push(line(&facts, &plan, 6, list(&[2 * asked]), &[7]));
        lines.push(line(&facts, &plan, 8, fluent(asked), &[alone]));
        entries.push(alone + 1);
    }
    let mut wrong = entries.clone();
    wrong[usize::from(ASKED)] -= 1;
    let items = vec![Item::act(0); ITEM_LIMIT];
    let long = Request { plan: items.clone(), ..wide() };
    let same = line(&[], &items, 1, list(&[]), &[]);
    vec![
        check("65 entries over plans of 128 items", &request, closed(&lines, &entries)),
        check("65 entries, the last wrong", &request, closed(&lines, &wrong)),
        check("255 entries of one line", &long, closed(&[same], &[0; 255])),
    ]
}
