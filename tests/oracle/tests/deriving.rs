//! The derivation call: its order, and each rule with what it refuses.

mod common;

use common::*;
use oracle::encode::encode_derivation;
use oracle::model::{Branch, Item, Line};
use oracle::{check, Answer};

/// Fluents 0, 1, 2; action 0 senses 0, action 1 makes 1 true if 0, action 2 makes 2 true and
/// may be run if 1, action 3 does nothing, action 4 senses 0 and 1.
const TABLE: &str = "3 5 | FACTS | 2  1 2 1 0  2 4 0 | 5  0 0  1 0  2 1 2  3 0  4 0 | \
                     3  0 0  4 0  4 1 | PLAN | GOALS | 0";

fn request(facts: &str, plan: &str, goals: &str) -> Vec<u8> {
    bytes(
        &TABLE
            .replace("FACTS", facts)
            .replace("PLAN", plan)
            .replace("GOALS", goals),
    )
}

/// A request whose question is none of the lines tried.
fn any_request() -> Vec<u8> {
    request("0", "0 2 3 3", "0")
}

fn acts(actions: &[u8]) -> Vec<Item> {
    actions.iter().map(|&action| Item::act(action)).collect()
}

fn line(before: &[u8], sequence: &[Item], after: &[u8], rule: u8, cites: &[u16]) -> Line {
    Line {
        place: 0,
        before: before.to_vec(),
        sequence: sequence.to_vec(),
        after: after.to_vec(),
        rule,
        cites: cites.to_vec(),
    }
}

fn place_of(lines: &[Line], index: usize) -> u32 {
    encode_derivation(&lines[..index]).bytes.len() as u32
}

/// Expects the last line to be refused, or to be right but not the question.
fn last(lines: &[Line], number: u8) {
    let place = place_of(lines, lines.len() - 1);
    let found = check(&any_request(), &encode_derivation(lines).bytes);
    assert_eq!(found, answer(number, 2, place, 0), "{lines:?}");
}

/// The last line follows.
fn right(lines: &[Line]) {
    last(lines, 35);
}

/// The last line doesn't follow.
fn wrong(lines: &[Line]) {
    last(lines, 34);
}

fn offer(request: &[u8], lines: &[Line]) -> Answer {
    check(request, &encode_derivation(lines).bytes)
}

#[test]
fn accepted_is_all_zero() {
    let request = request("1 2", "0 1 2", "1 4");
    let lines = [
        line(&[2], &acts(&[2]), &[2, 4], 2, &[]),
        line(&[2], &acts(&[2]), &[4], 6, &[0]),
    ];
    assert_eq!(offer(&request, &lines), answer(0, 0, 0, 0));
}

#[test]
fn the_request_goes_first() {
    let derivation = vec![0; 40_000];
    assert_eq!(check(&[], &derivation), answer(11, 1, 0, 0));
    assert_eq!(check(&vec![1; 16_385], &derivation), answer(10, 1, 0, 0));
    assert_eq!(check(&changed(11, 3), &derivation), answer(16, 1, 10, 0));
    assert_eq!(check(&changed(27, 1), &derivation), answer(17, 1, 27, 0));
    assert_eq!(check(&changed(41, 1), &derivation), answer(18, 1, 32, 0));
    // 30 goes before the derivation's length.
    assert_eq!(check(&file_a(), &derivation), answer(30, 1, 46, 0));
    assert_eq!(
        check(&file_a_without_whether(), &derivation),
        answer(10, 2, 0, 0)
    );
    // No walk is made: a plan that can't be run is a matter of its lines.
    let stuck = request("0", "0 1 2", "0");
    let lines = [line(&[], &[], &[], 1, &[])];
    assert_eq!(offer(&stuck, &lines), answer(35, 2, 2, 0));
}

#[test]
fn lines_are_read_by_the_same_order() {
    let offer = |text: &str| check(&any_request(), &bytes(text));
    assert_eq!(offer("0 1"), answer(11, 2, 2, 0));
    assert_eq!(offer("0 1 128"), answer(11, 2, 3, 0));
    assert_eq!(offer("0 1 129"), answer(12, 2, 2, 0));
    assert_eq!(offer("0 1 1 6"), answer(13, 2, 3, 0));
    assert_eq!(offer("0 1 2 2 2"), answer(14, 2, 4, 0));
    assert_eq!(offer("0 1 2 3 2"), answer(14, 2, 4, 0));
    assert_eq!(offer("0 1 2 2 3"), answer(15, 2, 4, 0));
    assert_eq!(offer("0 1 0 0 1 5"), answer(13, 2, 5, 0));
    assert_eq!(offer("0 1 0 0 0 128"), answer(11, 2, 6, 0));
    assert_eq!(offer("0 1 0 0 0 129"), answer(12, 2, 5, 0));
    // No rule byte is refused in reading, nor a line number; a citation count above 64 is.
    assert_eq!(offer("0 1 0 0 0 0 255"), answer(11, 2, 7, 0));
    assert_eq!(offer("0 1 0 0 0 0 255 65"), answer(12, 2, 7, 0));
    assert_eq!(offer("0 1 0 0 0 0 255 1 255 255"), answer(31, 2, 2, 0));
    assert_eq!(offer("0 1 0 0 0 0 255 0 9"), answer(20, 2, 8, 0));
    assert_eq!(offer("0 2 0 0 0 0 1 0"), answer(11, 2, 8, 0));
}

#[test]
fn every_start_of_a_derivation_ends_too_soon() {
    let lines = [
        line(&[2], &acts(&[2]), &[2, 4], 2, &[]),
        line(&[2], &acts(&[2]), &[4], 6, &[0]),
    ];
    let derivation = encode_derivation(&lines).bytes;
    for length in 0..derivation.len() {
        let found = check(&any_request(), &derivation[..length]);
        assert_eq!(found, answer(11, 2, length as u32, 0));
    }
}

#[test]
fn each_line_is_a_plan_of_its_own() {
    // Two lines of 1,024 items each are read; the second with one more isn't.
    let long = acts(&[3; 1_024]);
    let mut lines = vec![
        line(&[], &long, &[], 6, &[0]),
        line(&[], &long, &[], 6, &[0]),
    ];
    assert_eq!(offer(&any_request(), &lines), answer(32, 2, 2, 0));
    lines[1].sequence.push(Item::act(3));
    let place = place_of(&lines, 1) + 3 + 1_024;
    assert_eq!(offer(&any_request(), &lines), answer(21, 2, place, 0));
    // Nesting, too.
    let mut deep = Vec::new();
    for _ in 0..8 {
        deep = vec![Item::case(vec![Branch {
            condition: Vec::new(),
            sequence: deep,
        }])];
    }
    let mut lines = vec![line(&[], &deep, &[], 7, &[]), line(&[], &deep, &[], 7, &[])];
    assert_eq!(offer(&any_request(), &lines), answer(31, 2, 2, 0));
    lines[1].sequence = vec![Item::case(vec![Branch {
        condition: Vec::new(),
        sequence: deep,
    }])];
    let place = place_of(&lines, 1) + 3 + 8 * 5;
    assert_eq!(offer(&any_request(), &lines), answer(19, 2, place, 0));
}

#[test]
fn overlapping_conditions_go_before_any_line() {
    let branch = |condition: &[u8]| Branch {
        condition: condition.to_vec(),
        sequence: vec![],
    };
    let overlap = vec![Item::case(vec![branch(&[0]), branch(&[2])])];
    let lines = [
        line(&[], &[], &[], 9, &[5]),
        line(&[0], &overlap, &[], 4, &[0]),
    ];
    let place = place_of(&lines, 1) + 4;
    assert_eq!(offer(&any_request(), &lines), answer(18, 2, place, 0));
}

#[test]
fn line_by_line() {
    let refused = |lines: &[Line], number, index| {
        let found = offer(&any_request(), lines);
        assert_eq!(found, answer(number, 2, place_of(lines, index), 0));
    };
    let good = line(&[], &[], &[], 1, &[]);
    // Within a line: 31, 33, 32, 34.
    refused(&[line(&[0], &[], &[], 0, &[9, 9, 9])], 31, 0);
    refused(&[line(&[0], &[], &[], 7, &[])], 31, 0);
    refused(&[line(&[0], &[], &[], 6, &[9, 9, 9])], 33, 0);
    refused(&[line(&[0], &[], &[], 6, &[9])], 32, 0);
    refused(&[line(&[0], &[], &[], 1, &[])], 34, 0);
    // An early line with 34 goes before a later one with 31.
    refused(
        &[line(&[0], &[], &[], 1, &[]), line(&[], &[], &[], 8, &[])],
        34,
        0,
    );
    refused(
        &[
            good.clone(),
            line(&[], &[], &[], 8, &[]),
            line(&[0], &[], &[], 1, &[]),
        ],
        31,
        1,
    );
    // 35 only after every line; it is about the last line alone.
    refused(&[good.clone(), good.clone()], 35, 1);
    // Itself, a later line, and one that doesn't exist.
    for cited in [1, 2, 3, 256, 65_535] {
        let lines = [good.clone(), line(&[], &[], &[], 6, &[cited]), good.clone()];
        refused(&lines, 32, 1);
    }
}

#[test]
fn numbers_of_citations() {
    let good = line(&[], &[], &[], 1, &[]);
    let takes: [(u8, &[usize]); 6] = [
        (1, &[0]),
        (2, &[0]),
        (3, &[1, 2, 4, 8, 16, 32, 64]),
        (4, &[1]),
        (5, &[2]),
        (6, &[1]),
    ];
    for (rule, numbers) in takes {
        for number in 0..=64 {
            let cites = vec![0; number];
            let lines = [good.clone(), line(&[0], &[], &[2], rule, &cites)];
            let expected = if numbers.contains(&number) { 34 } else { 33 };
            last(&lines, expected);
        }
    }
}

#[test]
fn rule_1() {
    right(&[line(&[0, 3], &[], &[0, 3], 1, &[])]);
    right(&[line(&[], &[], &[], 1, &[])]);
    wrong(&[line(&[0, 3], &[], &[0], 1, &[])]);
    wrong(&[line(&[0], &[], &[0, 3], 1, &[])]);
    wrong(&[line(&[0], &acts(&[3]), &[0], 1, &[])]);
}

#[test]
fn rule_2() {
    right(&[line(&[0], &acts(&[1]), &[0, 2], 2, &[])]);
    right(&[line(&[1], &acts(&[1]), &[1], 2, &[])]);
    // An unknown body takes knowledge away.
    right(&[line(&[3], &acts(&[1]), &[], 2, &[])]);
    wrong(&[line(&[3], &acts(&[1]), &[3], 2, &[])]);
    // Y is all that is known afterwards and no less.
    wrong(&[line(&[0], &acts(&[1]), &[0], 2, &[])]);
    wrong(&[line(&[0], &acts(&[1]), &[0, 2, 4], 2, &[])]);
    // It has to be runnable, and one action.
    right(&[line(&[2], &acts(&[2]), &[2, 4], 2, &[])]);
    wrong(&[line(&[], &acts(&[2]), &[4], 2, &[])]);
    wrong(&[line(&[3], &acts(&[2]), &[3, 4], 2, &[])]);
    wrong(&[line(&[0], &acts(&[1, 3]), &[0, 2], 2, &[])]);
    wrong(&[line(&[0], &[], &[0], 2, &[])]);
    // An action without effects or knowledge changes nothing.
    right(&[line(&[1, 4], &acts(&[3]), &[1, 4], 2, &[])]);
    // A sensing action is never right here.
    wrong(&[line(&[0], &acts(&[0]), &[0], 2, &[])]);
    wrong(&[line(&[], &acts(&[0]), &[], 2, &[])]);
    let branch = Branch {
        condition: vec![],
        sequence: vec![],
    };
    wrong(&[line(&[0], &[Item::case(vec![branch])], &[0], 2, &[])]);
}

/// Lines 0 to 3: the empty plan from each reading of fluents 0 and 1, to nothing.
fn readings() -> Vec<Line> {
    let mut lines = Vec::new();
    for (index, reading) in [[0, 2], [0, 3], [1, 2], [1, 3]].into_iter().enumerate() {
        lines.push(line(&reading, &[], &reading, 1, &[]));
        lines.push(line(&reading, &[], &[], 6, &[2 * index as u16]));
    }
    lines
}

fn after_readings(last: Line) -> Vec<Line> {
    let mut lines = readings();
    lines.push(last);
    lines
}

#[test]
fn rule_3_over_several_fluents() {
    right(&after_readings(line(
        &[],
        &acts(&[4]),
        &[],
        3,
        &[1, 3, 5, 7],
    )));
    wrong(&after_readings(line(
        &[],
        &acts(&[4]),
        &[],
        3,
        &[1, 5, 3, 7],
    )));
    wrong(&after_readings(line(
        &[],
        &acts(&[4]),
        &[],
        3,
        &[5, 7, 1, 3],
    )));
    wrong(&after_readings(line(&[], &acts(&[4]), &[], 3, &[1, 3])));
    wrong(&after_readings(line(
        &[],
        &acts(&[4]),
        &[],
        3,
        &[1, 3, 5, 7, 1, 3, 5, 7],
    )));
    last(
        &after_readings(line(&[], &acts(&[4]), &[], 3, &[1, 3, 5])),
        33,
    );
    last(&after_readings(line(&[], &acts(&[4]), &[], 3, &[])), 33);
    // One fluent known, or both: only the others are read.
    right(&after_readings(line(&[0], &acts(&[4]), &[], 3, &[1, 3])));
    right(&after_readings(line(&[3], &acts(&[4]), &[], 3, &[3, 7])));
    right(&after_readings(line(&[1, 2], &acts(&[4]), &[], 3, &[5])));
    wrong(&after_readings(line(&[1, 2], &acts(&[4]), &[], 3, &[5, 5])));
    // The same Y and the rest of c.
    wrong(&after_readings(line(&[0], &acts(&[4]), &[0], 3, &[1, 3])));
    wrong(&after_readings(line(&[0], &acts(&[4, 3]), &[], 3, &[1, 3])));
    wrong(&after_readings(line(&[0], &acts(&[3, 4]), &[], 3, &[1, 3])));
    right(&after_readings(line(
        &[1, 2],
        &acts(&[4]),
        &[1, 2],
        3,
        &[4],
    )));
    // Not for an action without knowledge lines, nor for no item.
    wrong(&after_readings(line(
        &[0, 2],
        &acts(&[3]),
        &[0, 2],
        3,
        &[0],
    )));
    wrong(&after_readings(line(&[0, 2], &[], &[0, 2], 3, &[0])));
}

#[test]
fn rule_3_with_a_rest() {
    // After look, action 1: a line for each reading.
    let mut lines = vec![
        line(&[0], &acts(&[1]), &[0, 2], 2, &[]),
        line(&[0], &acts(&[1]), &[], 6, &[0]),
        line(&[1], &acts(&[1]), &[1], 2, &[]),
        line(&[1], &acts(&[1]), &[], 6, &[2]),
        line(&[], &acts(&[0, 1]), &[], 3, &[1, 3]),
    ];
    right(&lines);
    // The question itself: accepted.
    let request = request("0", "0 2 0 1", "0");
    assert_eq!(offer(&request, &lines).number, 0);
    // A line cited twice where both would have to be equal isn't right for two readings.
    lines[4].cites = vec![1, 1];
    wrong(&lines);
}

#[test]
fn rule_4() {
    let branch = |condition: &[u8], sequence: &[u8]| Branch {
        condition: condition.to_vec(),
        sequence: acts(sequence),
    };
    let case = Item::case(vec![
        branch(&[0], &[1]),
        branch(&[1, 2], &[3, 3]),
        branch(&[1, 3], &[]),
    ]);
    let with = |before: &[u8], cited: &[u8], rest: &[u8], rule_4_before: &[u8]| {
        // The cited line need only be said again, so it stands on weaker ones.
        let mut lines = proof_of(before, cited);
        let joined = [vec![case.clone()], acts(rest)].concat();
        let index = lines.len() as u16 - 1;
        lines.push(line(rule_4_before, &joined, &[], 4, &[index]));
        lines
    };
    right(&with(&[0], &[1], &[], &[0]));
    right(&with(&[0], &[1, 3], &[3], &[0]));
    right(&with(&[1, 2], &[3, 3], &[], &[1, 2]));
    right(&with(&[1, 3], &[], &[], &[1, 3]));
    right(&with(&[1, 3], &[3], &[3], &[1, 3]));
    // Another branch, a rest too short or too long, another X, a condition that isn't within X.
    wrong(&with(&[0], &[3, 3], &[], &[0]));
    wrong(&with(&[0], &[1], &[3], &[0]));
    wrong(&with(&[0], &[1, 3], &[], &[0]));
    wrong(&with(&[0], &[1], &[], &[0, 2]));
    wrong(&with(&[], &[1], &[], &[]));
    wrong(&with(&[1], &[3, 3], &[], &[1]));
    // No branching at the start.
    let mut lines = proof_of(&[0], &[3]);
    let index = lines.len() as u16 - 1;
    lines.push(line(&[0], &acts(&[3]), &[], 4, &[index]));
    wrong(&lines);
}

/// Lines that end with X, the actions (1 or 3 each), and an empty Y.
fn proof_of(before: &[u8], actions: &[u8]) -> Vec<Line> {
    let mut lines = vec![line(&[], &[], &[], 1, &[])];
    let mut done: Vec<u8> = Vec::new();
    for &action in actions {
        let whole = lines.len() as u16 - 1;
        let one = lines.len() as u16;
        lines.push(line(&[], &acts(&[action]), &[], 2, &[]));
        done.push(action);
        lines.push(line(&[], &acts(&done), &[], 5, &[whole, one]));
    }
    let whole = lines.len() as u16 - 1;
    lines.push(line(before, &acts(&done), &[], 6, &[whole]));
    lines
}

#[test]
fn rule_5() {
    let base = || {
        vec![
            line(&[0], &acts(&[1]), &[0, 2], 2, &[]),
            line(&[0, 2], &acts(&[2]), &[0, 2, 4], 2, &[]),
            line(&[0, 2], &[], &[0, 2], 1, &[]),
            line(&[2], &acts(&[2]), &[2, 4], 2, &[]),
        ]
    };
    let with = |last: Line| {
        let mut lines = base();
        lines.push(last);
        lines
    };
    right(&with(line(&[0], &acts(&[1, 2]), &[0, 2, 4], 5, &[0, 1])));
    // Either part may be empty.
    right(&with(line(&[0], &acts(&[1]), &[0, 2], 5, &[0, 2])));
    right(&with(line(&[0, 2], &acts(&[2]), &[0, 2, 4], 5, &[2, 1])));
    right(&with(line(&[0, 2], &[], &[0, 2], 5, &[2, 2])));
    // The citations turned round, another Z, a first Y that says more than the second X.
    wrong(&with(line(&[0], &acts(&[1, 2]), &[0, 2, 4], 5, &[1, 0])));
    wrong(&with(line(&[0], &acts(&[1, 2]), &[2, 4], 5, &[0, 3])));
    // Another X, Y or sequence.
    wrong(&with(line(&[0, 4], &acts(&[1, 2]), &[0, 2, 4], 5, &[0, 1])));
    wrong(&with(line(&[0], &acts(&[1, 2]), &[0, 2], 5, &[0, 1])));
    wrong(&with(line(&[0], &acts(&[2, 1]), &[0, 2, 4], 5, &[0, 1])));
    wrong(&with(line(&[0], &acts(&[1]), &[0, 2, 4], 5, &[0, 1])));
    wrong(&with(line(&[0], &acts(&[1, 2, 3]), &[0, 2, 4], 5, &[0, 1])));
}

#[test]
fn rule_5_never_cuts_inside_a_branching() {
    let case = |sequence: &[u8]| {
        Item::case(vec![Branch {
            condition: vec![],
            sequence: acts(sequence),
        }])
    };
    let lines = vec![
        line(&[], &acts(&[3]), &[], 2, &[]),
        line(&[], &[case(&[3])], &[], 4, &[0]),
        line(&[], &acts(&[3, 3]), &[], 5, &[0, 0]),
        line(&[], &[case(&[3]), Item::act(3)], &[], 5, &[1, 0]),
        line(&[], &[case(&[3, 3])], &[], 5, &[1, 0]),
    ];
    right(&lines[..4]);
    wrong(&lines);
}

#[test]
fn rule_6() {
    let with = |last: Line| [line(&[0], &acts(&[1]), &[0, 2], 2, &[]), last];
    right(&with(line(&[0], &acts(&[1]), &[0, 2], 6, &[0])));
    right(&with(line(&[0], &acts(&[1]), &[2], 6, &[0])));
    right(&with(line(&[0], &acts(&[1]), &[], 6, &[0])));
    right(&with(line(&[0, 3, 4], &acts(&[1]), &[0, 2], 6, &[0])));
    // Inclusions turned round, and another sequence.
    wrong(&with(line(&[], &acts(&[1]), &[0, 2], 6, &[0])));
    wrong(&with(line(&[1], &acts(&[1]), &[0, 2], 6, &[0])));
    wrong(&with(line(&[0], &acts(&[1]), &[0, 2, 4], 6, &[0])));
    wrong(&with(line(&[0], &acts(&[1]), &[0, 3], 6, &[0])));
    wrong(&with(line(&[0], &acts(&[1, 3]), &[0, 2], 6, &[0])));
    wrong(&with(line(&[0], &[], &[0, 2], 6, &[0])));
}

#[test]
fn the_question() {
    let lines = [
        line(&[2], &acts(&[2]), &[2, 4], 2, &[]),
        // A line that nothing cites does no harm.
        line(&[5], &[], &[5], 1, &[]),
        line(&[2], &acts(&[2]), &[4], 6, &[0]),
    ];
    assert_eq!(offer(&request("1 2", "0 1 2", "1 4"), &lines).number, 0);
    let place = place_of(&lines, 2);
    for other in [
        request("2 0 2", "0 1 2", "1 4"),
        request("0", "0 1 2", "1 4"),
        request("1 2", "0 2 2 2", "1 4"),
        request("1 2", "0 0", "1 4"),
        request("1 2", "0 1 2", "0"),
        request("1 2", "0 1 2", "2 2 4"),
    ] {
        assert_eq!(offer(&other, &lines), answer(35, 2, place, 0));
    }
}

#[test]
fn derivations_reach_further_than_the_walk() {
    let (request, lines) = oracle::prove::many_readings(32);
    let request = oracle::encode::encode_request(&request).bytes;
    assert_eq!(lines.len(), 191);
    assert_eq!(offer(&request, &lines), answer(0, 0, 0, 0));
    expect(&request, 1_000_000, 3, 0, 0, 1_000_000);
}

#[test]
fn seven_fluents_at_once_cant_be_derived() {
    // 64 citations are the most, and 128 readings would be needed.
    let draft = oracle::generate::forget_and_sense(7, 1);
    assert!(oracle::prove::natural(&draft).is_none());
    let draft = oracle::generate::forget_and_sense(6, 1);
    let lines = oracle::prove::natural(&draft).expect("a derivation");
    let request = oracle::encode::encode_request(&draft).bytes;
    assert_eq!(offer(&request, &lines), answer(0, 0, 0, 0));
}

#[test]
fn a_derivation_of_1024_lines() {
    let draft = oracle::generate::forget_and_sense(1, 1);
    let request = oracle::encode::encode_request(&draft).bytes;
    let mut lines = oracle::prove::natural(&draft).expect("a derivation");
    oracle::prove::pad(&mut lines, 1_024);
    assert_eq!(lines.len(), 1_024);
    assert_eq!(offer(&request, &lines), answer(0, 0, 0, 0));
    oracle::prove::pad(&mut lines, 1_025);
    assert_eq!(offer(&request, &lines), answer(12, 2, 0, 0));
}
