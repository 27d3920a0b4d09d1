//! Derivations in the closing layout at their limits, and one beyond, each against the format's own answer too.

use oracle::encode::{encode_proof, encode_request, proof_place};
use oracle::model::{Allowance, Branch, Conclusion, Effect, Item, Knowledge, Proof, ProofLine, Request};
use oracle::reader::{DERIVATION_LIMIT, ITEM_LIMIT, LINE_LIMIT, NESTING_LIMIT};

use crate::checks::Check;
use crate::hostile::FLUENTS;
use crate::largest::Row;

/// The most entries that a closing list can have.
const ENTRIES: usize = 255;
/// The most literals of a line where there are four lines for each of 64 readings: there is no room for more.
const TOLD: u8 = 64;

pub fn rows() -> Vec<Row> {
    let mut rows = most_lines_and_bytes();
    rows.extend(most_citations());
    rows.extend(most_entries());
    rows.extend(most_items());
    rows.extend(deepest());
    rows
}

pub fn line(before: &[u8], sequence: &[Item], rule: u8, gives: Conclusion, cites: &[u16]) -> ProofLine {
    ProofLine { place: 0, before: before.to_vec(), sequence: sequence.to_vec(), rule, gives, cites: cites.to_vec() }
}

pub fn list(literals: &[u8]) -> Conclusion {
    Conclusion::List(literals.to_vec())
}

pub fn fluent(fluent: u8) -> Conclusion {
    Conclusion::Fluent(fluent)
}

/// The bytes of lines with a closing list.
pub fn closed(lines: &[ProofLine], closing: &[u16]) -> Vec<u8> {
    encode_proof(&Proof { lines: lines.to_vec(), closing_place: 0, closing: closing.to_vec() }).bytes
}

fn row(name: &str, request: &Request, lines: &[ProofLine], closing: &[u16], answer: [u64; 3]) -> Row {
    (name.to_string(), Check::closing(encode_request(request).bytes, closed(lines, closing)), answer)
}

/// The same row with its derivation changed.
fn edited(name: &str, row: &Row, edit: impl FnOnce(&mut Vec<u8>), answer: [u64; 3]) -> Row {
    let mut check = row.1.clone();
    edit(&mut check.derivation);
    (name.to_string(), check, answer)
}

/// The place of a line, or of the closing list.
fn place(lines: &[ProofLine], index: usize) -> u64 {
    proof_place(lines, index) as u64
}

fn last(lines: &[ProofLine]) -> u64 {
    place(lines, lines.len() - 1)
}

/// 1,024 lines with a closing list of two entries, 32,768 bytes together.
fn most_lines_and_bytes() -> Vec<Row> {
    let facts: Vec<u8> = (0..13).map(|fluent| 2 * fluent).collect();
    let goals: Vec<u8> = facts[..9].to_vec();
    let request = Request { fluents: FLUENTS, actions: 1, facts: facts.clone(), goals: goals.clone(), whether: vec![4], ..Request::default() };
    let stays = |facts: &[u8]| line(facts, &[], 1, list(facts), &[]);
    let longer: Vec<u8> = (0..21).map(|fluent| 2 * fluent).collect();
    let mut lines = vec![stays(&facts); LINE_LIMIT - 4];
    lines.push(stays(&longer));
    lines.push(line(&facts, &[], 6, list(&goals), &[1_019]));
    lines.push(line(&facts, &[], 6, list(&[8]), &[0]));
    lines.push(line(&facts, &[], 8, fluent(4), &[1_022]));
    let (end, count) = (last(&lines), place(&lines, LINE_LIMIT));
    let full = row("1,024 lines, 32,768 bytes", &request, &lines, &[1_021, 1_023], [0, 0, 0]);
    assert_eq!(full.1.derivation.len(), DERIVATION_LIMIT, "the longest derivation");
    let ending = |name: &str, rule: u8, gives: Conclusion, cites: &[u16], answer: [u64; 3]| {
        let mut lines = lines.clone();
        *lines.last_mut().expect("a line") = line(&facts, &[], rule, gives, cites);
        row(name, &request, &lines, &[1_021, 1_023], answer)
    };
    let closing = |name: &str, entries: &[u16], place: u64| row(name, &request, &lines, entries, [36, 2, place]);
    vec![
        edited("one byte more", &full, |bytes| bytes.push(0), [10, 2, 0]),
        edited("one byte less", &full, |bytes| _ = bytes.pop(), [11, 2, 32_767]),
        edited("a line more is said", &full, |bytes| bytes[1] = 1, [12, 2, 0]),
        edited("65,535 lines are said", &full, |bytes| bytes[..2].copy_from_slice(&[255, 255]), [12, 2, 0]),
        edited("an entry less is said", &full, |bytes| bytes[count as usize] = 1, [20, 2, 32_766]),
        edited("255 entries are said", &full, |bytes| bytes[count as usize] = 255, [11, 2, 32_768]),
        edited("the first line has no rule", &full, |bytes| bytes[18] = 9, [31, 2, 2]),
        ending("the last line cites itself", 8, fluent(4), &[1_023], [32, 2, end]),
        ending("the last line cites line 65,535", 8, fluent(4), &[65_535], [32, 2, end]),
        ending("the last line cites nothing", 8, fluent(4), &[], [33, 2, end]),
        ending("the last line cites a longer list", 8, fluent(4), &[1_021], [34, 2, end]),
        ending("the last line says another fluent", 8, fluent(5), &[1_022], [34, 2, end]),
        ending("the last line is a list", 6, list(&[]), &[1_022], [36, 2, count + 3]),
        closing("the closing list names line 1,024", &[1_021, 1_024], count + 3),
        closing("the closing list names line 65,535 first", &[65_535, 1_023], count + 1),
        closing("the closing list names another line first", &[1_020, 1_023], count + 1),
        closing("the closing list is one short", &[1_021], count),
        full,
    ]
}

/// A sensing action over so many fluents, and for each of 64 readings, line by line: what stays, that the rest can be run, one literal, and
/// the fluent.
fn sensing(fluents: u8, asked: u8) -> (Request, Vec<ProofLine>) {
    let request = Request {
        fluents: FLUENTS,
        actions: 1,
        allowances: vec![Allowance { action: 0, body: Vec::new() }],
        knowledge: (0..fluents).map(|fluent| Knowledge { place: 0, action: 0, fluent }).collect(),
        plan: vec![Item::act(0)],
        whether: vec![asked],
        ..Request::default()
    };
    let read = fluents.min(6);
    let reading = |bits: u16| -> Vec<u8> { (0..fluents.min(TOLD)).map(|f| 2 * f + if f < read { (bits >> (read - 1 - f) & 1) as u8 } else { 0 }).collect() };
    let mut lines = Vec::new();
    for bits in 0..64 {
        let state = reading(bits);
        lines.push(line(&state, &[], 1, list(&state), &[]));
        lines.push(line(&state, &[], 6, list(&[]), &[4 * bits]));
        lines.push(line(&state, &[], 6, list(&[state[usize::from(asked)]]), &[4 * bits]));
        lines.push(line(&state, &[], 8, fluent(asked), &[4 * bits + 2]));
    }
    let every = |from: u16| (0..64).map(|bits| 4 * bits + from).collect::<Vec<u16>>();
    lines.push(line(&[], &[Item::act(0)], 3, list(&[]), &every(1)));
    lines.push(line(&[], &[Item::act(0)], 10, fluent(asked), &every(3)));
    (request, lines)
}

/// Lines of 64 citations by rule 10; and rule 7, which takes any number of fluents.
fn most_citations() -> Vec<Row> {
    let (request, lines) = sensing(6, 5);
    let end = last(&lines);
    let named = [256, 257];
    let one = row("64 citations by rule 10", &request, &lines, &named, [0, 0, 0]);
    let count = end as usize + 1 + 3 + 1 + 1;
    assert_eq!(one.1.derivation[count], 64, "the count of citations");
    let citing = lines[lines.len() - 1].clone();
    let length = 1 + 3 + 1 + 1 + 1 + 2 * 64;
    let mut many = lines.clone();
    many.extend(vec![citing; (DERIVATION_LIMIT - one.1.derivation.len()) / length]);
    let mut wrong = many.clone();
    wrong.last_mut().expect("a line").cites[63] = 251;
    let ending = |edit: fn(&mut ProofLine)| {
        let mut lines = lines.clone();
        edit(lines.last_mut().expect("a line"));
        lines
    };
    let (seven, seven_lines) = sensing(7, 0);
    let (wide, wide_lines) = sensing(FLUENTS, TOLD - 1);
    let looks: Vec<ProofLine> = (0..FLUENTS).map(|seen| line(&[], &[Item::act(0)], 7, fluent(seen), &[])).collect();
    let after = place(&looks, looks.len());
    vec![
        edited("65 citations are said", &one, |bytes| bytes[count] = 65, [12, 2, count as u64]),
        row("64 citations under rule 12", &request, &ending(|line| line.rule = 12), &named, [33, 2, end]),
        row("32 citations for 64 readings", &request, &ending(|line| line.cites.truncate(32)), &named, [34, 2, end]),
        row("63 citations", &request, &ending(|line| line.cites.truncate(63)), &named, [33, 2, end]),
        row("64 citations of lists", &request, &ending(|line| line.cites.iter_mut().for_each(|cite| *cite -= 2)), &named, [34, 2, end]),
        row("64 citations in each of many lines", &request, &many, &named, [0, 0, 0]),
        row("many such lines, and the last citation is wrong", &request, &wrong, &named, [34, 2, last(&wrong)]),
        row("seven fluents at once by rule 3", &seven, &seven_lines, &named, [34, 2, place(&seven_lines, 256)]),
        row(&format!("{FLUENTS} fluents at once by rule 3"), &wide, &wide_lines, &named, [34, 2, place(&wide_lines, 256)]),
        row(&format!("{FLUENTS} fluents at once by rule 7"), &wide, &looks, &[u16::from(FLUENTS) - 1; 2], [36, 2, after + 1]),
        one,
    ]
}

/// As many whether entries as there can be, which an action makes known; and closing lists that are longer.
fn most_entries() -> Vec<Row> {
    let (all, act): (Vec<u8>, _) = ((0..FLUENTS).map(|fluent| 2 * fluent).collect(), [Item::act(0)]);
    let request = Request {
        fluents: FLUENTS,
        actions: 1,
        effects: all.iter().map(|&literal| Effect { place: 0, action: 0, literal, body: Vec::new() }).collect(),
        allowances: vec![Allowance { action: 0, body: Vec::new() }],
        plan: act.to_vec(),
        goals: all.clone(),
        whether: (0..FLUENTS).collect(),
        ..Request::default()
    };
    let mut lines = vec![line(&[], &act, 2, list(&all), &[])];
    for asked in 0..FLUENTS {
        lines.push(line(&[], &act, 6, list(&[2 * asked]), &[0]));
        lines.push(line(&[], &act, 8, fluent(asked), &[2 * u16::from(asked) + 1]));
    }
    let entries: Vec<u16> = (0..=u16::from(FLUENTS)).map(|entry| 2 * entry).collect();
    let count = place(&lines, lines.len());
    let with = |entry: usize, names: u16| {
        let mut other = entries.clone();
        other[entry] = names;
        other
    };
    let longer = |length: usize| -> Vec<u16> { entries.iter().copied().cycle().take(length).collect() };
    let (most, last) = (entries.len(), entries[entries.len() - 1]);
    let at_last = count + 1 + 2 * (most as u64 - 1);
    vec![
        row(&format!("{most} entries"), &request, &lines, &entries, [0, 0, 0]),
        row(&format!("{most} entries, the last names another line"), &request, &lines, &with(most - 1, last - 2), [36, 2, at_last]),
        row(&format!("{most} entries, the last names no line"), &request, &lines, &with(most - 1, last + 1), [36, 2, at_last]),
        row(&format!("{} entries", most - 1), &request, &lines, &entries[..most - 1], [36, 2, count]),
        row(&format!("{} entries", most + 1), &request, &lines, &longer(most + 1), [36, 2, count]),
        row("255 entries", &request, &lines, &longer(ENTRIES), [36, 2, count]),
        row("no entry", &request, &lines, &[], [36, 2, count]),
    ]
}

/// Plans of 1,024 items, and of one more.
fn most_items() -> Vec<Row> {
    let plan = vec![Item::act(0); ITEM_LIMIT];
    let request = Request {
        fluents: 1,
        actions: 1,
        facts: vec![0],
        allowances: vec![Allowance { action: 0, body: Vec::new() }],
        plan: plan.clone(),
        goals: vec![0],
        whether: vec![0],
        ..Request::default()
    };
    // Of each length a line for the list and then one for the fluent.
    let mut lines = vec![line(&[0], &plan[..1], 2, list(&[0]), &[]), line(&[0], &plan[..1], 8, fluent(0), &[0])];
    for power in 1..=10 {
        let half = 2 * power - 2;
        lines.push(line(&[0], &plan[..1 << power], 5, list(&[0]), &[half, half]));
        lines.push(line(&[0], &plan[..1 << power], 11, fluent(0), &[half, half + 1]));
    }
    let ending = |edit: fn(&mut ProofLine)| {
        let mut lines = lines.clone();
        edit(lines.last_mut().expect("a line"));
        lines
    };
    let short = ending(|line| _ = line.sequence.pop());
    let longer = ending(|line| line.sequence.push(Item::act(0)));
    let turned = ending(|line| line.cites.reverse());
    let count = place(&lines, lines.len());
    vec![
        row("plans of up to 1,024 items, doubled by rule 11", &request, &lines, &[20, 21], [0, 0, 0]),
        row("1,023 items of twice 512 by rule 11", &request, &short, &[20, 21], [34, 2, last(&short)]),
        row("1,025 items by rule 11", &request, &longer, &[20, 21], [21, 2, last(&longer) + 4 + 1_024]),
        row("the fluent first by rule 11", &request, &turned, &[20, 21], [34, 2, last(&turned)]),
        row("512 items are not the question by rule 11", &request, &lines, &[20, 19], [36, 2, count + 3]),
    ]
}

/// Eight branchings one inside another, and nine.
fn deepest() -> Vec<Row> {
    let nested = |depth: usize| (0..depth).fold(Vec::new(), |inner, _| vec![Item::case(vec![Branch { condition: Vec::new(), sequence: inner }])]);
    let request = Request { fluents: 1, actions: 1, facts: vec![1], plan: nested(NESTING_LIMIT), whether: vec![0], ..Request::default() };
    let mut lines = vec![line(&[1], &[], 1, list(&[1]), &[]), line(&[1], &[], 6, list(&[]), &[0]), line(&[1], &[], 8, fluent(0), &[0])];
    for depth in 1..=NESTING_LIMIT {
        let before = 2 * depth as u16 - 1;
        lines.push(line(&[1], &nested(depth), 4, list(&[]), &[before]));
        lines.push(line(&[1], &nested(depth), 12, fluent(0), &[before + 1]));
    }
    let mut deeper = lines.clone();
    deeper.push(line(&[1], &nested(NESTING_LIMIT + 1), 12, fluent(0), &[18]));
    let ninth = last(&deeper) + 4 + 5 * NESTING_LIMIT as u64;
    vec![
        row("eight branchings by rule 12", &request, &lines, &[17, 18], [0, 0, 0]),
        row("nine branchings by rule 12", &request, &deeper, &[17, 18], [19, 2, ninth]),
    ]
}
