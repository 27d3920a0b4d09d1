//! The derivation call of the second layout: its order, each rule with what it refuses, and the
//! closing list.

mod common;

use common::*;
use oracle::encode::{encode_derivation, encode_proof, encode_request, proof_place};
use oracle::model::{Allowance, Branch, Conclusion, Effect, Item, Proof, ProofLine, Request};
use oracle::reader::{read_derivation, FLUENT_LIMIT};
use oracle::whether::prove::{many_whether, pad_proof};
use oracle::whether::translate::{as_lines, as_proof};
use oracle::{check, check_whether, Answer};
use Conclusion::{Fluent, List};

/// Fluents 0, 1, 2; action 0 senses 0, action 1 makes 1 true if 0, action 2 makes 2 true and
/// may be run if 1, action 3 does nothing, action 4 senses 0 and 1, action 5 senses 2 and may be
/// run if 1.
const TABLE: &str = "3 6 | FACTS | 2  1 2 1 0  2 4 0 | 6  0 0  1 0  2 1 2  3 0  4 0  5 1 2 | \
                     4  0 0  4 0  4 1  5 2 | PLAN | GOALS | WHETHER";

fn request(facts: &str, plan: &str, goals: &str, whether: &str) -> Vec<u8> {
    bytes(
        &TABLE
            .replace("FACTS", facts)
            .replace("PLAN", plan)
            .replace("GOALS", goals)
            .replace("WHETHER", whether),
    )
}

/// A request whose question is none of the lines tried.
fn any_request() -> Vec<u8> {
    request("0", "0 2 3 3", "0", "0")
}

fn acts(actions: &[u8]) -> Vec<Item> {
    actions.iter().map(|&action| Item::act(action)).collect()
}

fn case(branches: &[(&[u8], &[u8])]) -> Item {
    let branch = |&(condition, sequence): &(&[u8], &[u8])| Branch {
        condition: condition.to_vec(),
        sequence: acts(sequence),
    };
    Item::case(branches.iter().map(branch).collect())
}

fn line(before: &[u8], sequence: &[Item], rule: u8, gives: Conclusion, cites: &[u16]) -> ProofLine {
    ProofLine {
        place: 0,
        before: before.to_vec(),
        sequence: sequence.to_vec(),
        rule,
        gives,
        cites: cites.to_vec(),
    }
}

/// A line that concludes a list.
fn known(before: &[u8], sequence: &[Item], rule: u8, after: &[u8], cites: &[u16]) -> ProofLine {
    line(before, sequence, rule, List(after.to_vec()), cites)
}

/// A line that concludes that a fluent is known whether.
fn whether(before: &[u8], sequence: &[Item], rule: u8, fluent: u8, cites: &[u16]) -> ProofLine {
    line(before, sequence, rule, Fluent(fluent), cites)
}

fn closed(lines: &[ProofLine], closing: &[u16]) -> Vec<u8> {
    let proof = Proof {
        lines: lines.to_vec(),
        closing_place: 0,
        closing: closing.to_vec(),
    };
    encode_proof(&proof).bytes
}

fn offer(request: &[u8], lines: &[ProofLine], closing: &[u16]) -> Answer {
    check_whether(request, &closed(lines, closing))
}

/// The last line follows, and so does every other: only the closing list is too short.
fn right(lines: &[ProofLine]) {
    let place = proof_place(lines, lines.len()) as u32;
    let found = offer(&any_request(), lines, &[]);
    assert_eq!(found, answer(36, 2, place, 0), "{lines:?}");
}

/// The last line is refused.
fn last(lines: &[ProofLine], number: u8) {
    let place = proof_place(lines, lines.len() - 1) as u32;
    let found = offer(&any_request(), lines, &[]);
    assert_eq!(found, answer(number, 2, place, 0), "{lines:?}");
}

/// The last line doesn't follow.
fn wrong(lines: &[ProofLine]) {
    last(lines, 34);
}

/// Lines and one more.
fn with(lines: &[ProofLine], last: ProofLine) -> Vec<ProofLine> {
    [lines, &[last]].concat()
}

/// File A's plan is look, then B.
fn b() -> Item {
    case(&[(&[1], &[1, 2]), (&[0], &[])])
}

/// A derivation for File A. Lines 0 to 8 are those of case 14; 9 to 11 are about fluent 2 where
/// the bit is set, 12 to 15 where it is clear, 16 is about both, and nothing cites line 17.
const FOR_A: &str = "0 18
    4 0 3 5 7 | 0 0                                  | 1  | 4 0 3 5 7 | 0
    4 0 3 5 7 | 0 0                                  | 6  | 1 7       | 1 0 0
    4 0 3 5 7 | 0 1  255 2  1 1 0 2 1 2  1 0 0 0     | 4  | 1 7       | 1 0 1
    4 1 3 5 7 | 0 1 1                                | 2  | 4 1 2 5 7 | 0
    4 1 2 5 7 | 0 1 2                                | 2  | 4 1 2 4 7 | 0
    4 1 3 5 7 | 0 2 1 2                              | 5  | 4 1 2 4 7 | 2 0 3 0 4
    4 1 3 5 7 | 0 2 1 2                              | 6  | 1 7       | 1 0 5
    4 1 3 5 7 | 0 1  255 2  1 1 0 2 1 2  1 0 0 0     | 4  | 1 7       | 1 0 6
    3 3 5 7   | 0 2  0  255 2  1 1 0 2 1 2  1 0 0 0  | 3  | 1 7       | 2 0 2 0 7
    4 0 3 5 7 | 0 0                                  | 6  | 1 5       | 1 0 0
    4 0 3 5 7 | 0 0                                  | 8  | 2         | 1 0 9
    4 0 3 5 7 | 0 1  255 2  1 1 0 2 1 2  1 0 0 0     | 12 | 2         | 1 0 10
    4 1 2 5 7 | 0 1 2                                | 6  | 1 4       | 1 0 4
    4 1 2 5 7 | 0 1 2                                | 8  | 2         | 1 0 12
    4 1 3 5 7 | 0 2 1 2                              | 11 | 2         | 2 0 3 0 13
    4 1 3 5 7 | 0 1  255 2  1 1 0 2 1 2  1 0 0 0     | 12 | 2         | 1 0 14
    3 3 5 7   | 0 2  0  255 2  1 1 0 2 1 2  1 0 0 0  | 10 | 2         | 2 0 11 0 15
    3 3 5 7   | 0 1 0                                | 7  | 0         | 0
    2 0 8 0 16";

/// The same lines, built.
fn lines_for_a() -> Vec<ProofLine> {
    let (set, clear, open) = ([0, 3, 5, 7], [1, 3, 5, 7], [1, 2, 5, 7]);
    let facts = [3, 5, 7];
    let plan = [Item::act(0), b()];
    vec![
        known(&set, &[], 1, &set, &[]),
        known(&set, &[], 6, &[7], &[0]),
        known(&set, &[b()], 4, &[7], &[1]),
        known(&clear, &acts(&[1]), 2, &open, &[]),
        known(&open, &acts(&[2]), 2, &[1, 2, 4, 7], &[]),
        known(&clear, &acts(&[1, 2]), 5, &[1, 2, 4, 7], &[3, 4]),
        known(&clear, &acts(&[1, 2]), 6, &[7], &[5]),
        known(&clear, &[b()], 4, &[7], &[6]),
        known(&facts, &plan, 3, &[7], &[2, 7]),
        known(&set, &[], 6, &[5], &[0]),
        whether(&set, &[], 8, 2, &[9]),
        whether(&set, &[b()], 12, 2, &[10]),
        known(&open, &acts(&[2]), 6, &[4], &[4]),
        whether(&open, &acts(&[2]), 8, 2, &[12]),
        whether(&clear, &acts(&[1, 2]), 11, 2, &[3, 13]),
        whether(&clear, &[b()], 12, 2, &[14]),
        whether(&facts, &plan, 10, 2, &[11, 15]),
        whether(&facts, &acts(&[0]), 7, 0, &[]),
    ]
}

#[test]
fn file_a() {
    let derivation = bytes(FOR_A);
    assert_eq!(closed(&lines_for_a(), &[8, 16]), derivation);
    assert_eq!(derivation.len(), 328);
    let found = check_whether(&common::file_a(), &derivation);
    assert_eq!(found, answer(0, 0, 0, 0));
    // The former call gives 30 as ever.
    assert_eq!(check(&common::file_a(), &derivation), answer(30, 1, 46, 0));
}

#[test]
fn file_a_with_one_thing_wrong() {
    let refused = |change: fn(&mut Vec<ProofLine>), number, index| {
        let mut lines = lines_for_a();
        change(&mut lines);
        let place = proof_place(&lines, index) as u32;
        let found = offer(&common::file_a(), &lines, &[8, 16]);
        assert_eq!(found, answer(number, 2, place, 0));
    };
    // Readings in the other order, three of them, one of them.
    refused(|lines| lines[16].cites = vec![15, 11], 34, 16);
    refused(|lines| lines[16].cites = vec![11, 15, 15], 33, 16);
    refused(|lines| lines[16].cites = vec![11], 34, 16);
    // Lists cited where the fluent is due, and the fluent where lists are.
    refused(|lines| lines[16].cites = vec![2, 7], 34, 16);
    refused(|lines| lines[8].cites = vec![2, 9], 32, 8);
    refused(|lines| lines[15].cites = vec![6], 34, 15);
    refused(|lines| lines[14].cites = vec![10, 13], 34, 14);
    refused(|lines| lines[14].cites = vec![3, 12], 34, 14);
    refused(|lines| lines[13].cites = vec![4], 34, 13);
    refused(|lines| lines[13].cites = vec![10], 34, 13);
    refused(|lines| lines[12].cites = vec![10], 34, 12);
    // Another fluent.
    refused(|lines| lines[10].gives = Fluent(0), 34, 10);
    refused(|lines| lines[11].gives = Fluent(3), 34, 11);
    refused(|lines| lines[14].gives = Fluent(1), 34, 14);
    refused(|lines| lines[16].gives = Fluent(3), 34, 16);
    refused(|lines| lines[17].gives = Fluent(2), 34, 17);
    // Itself, and a later line.
    refused(|lines| lines[11].cites = vec![11], 32, 11);
    refused(|lines| lines[11].cites = vec![15], 32, 11);
    // Rule 7 cites nothing; look isn't open.
    refused(|lines| lines[17].cites = vec![16], 33, 17);
    refused(|lines| lines[17].sequence = acts(&[1]), 34, 17);
    refused(|lines| lines[17].sequence = acts(&[0, 0]), 34, 17);
    // Bytes that are no rule; 9 is none.
    for rule in [0, 9, 13, 255] {
        let mut lines = lines_for_a();
        lines[12].rule = rule;
        let found = offer(&common::file_a(), &lines, &[8, 16]);
        let place = proof_place(&lines, 12) as u32;
        assert_eq!(found, answer(31, 2, place, 0));
    }
}

#[test]
fn file_a_with_another_closing_list() {
    let place = bytes(FOR_A).len() as u32 - 5;
    let close = |closing: &[u16]| offer(&common::file_a(), &lines_for_a(), closing);
    assert_eq!(close(&[8, 16]), answer(0, 0, 0, 0));
    // The length, at the count.
    for closing in [&[][..], &[8], &[8, 16, 16], &[99], &[8; 255]] {
        assert_eq!(close(closing), answer(36, 2, place, 0));
    }
    // Entry 0: no line, a line about the fluent, another list, another X, another plan.
    for line in [18, 65_535, 16, 7, 9] {
        assert_eq!(close(&[line, 16]), answer(36, 2, place + 1, 0));
    }
    // Entry 1: no line, the goals' line, another X, another plan and fluent.
    for line in [18, 256, 8, 15, 17] {
        assert_eq!(close(&[8, line]), answer(36, 2, place + 3, 0));
    }
    // The first bad entry is told.
    assert_eq!(close(&[16, 8]), answer(36, 2, place + 1, 0));
    assert_eq!(close(&[18, 18]), answer(36, 2, place + 1, 0));
}

#[test]
fn whether_after_looking() {
    // Son and Baral's bomb: whether it is locked, after look.
    let bomb = bytes(
        "3 3 | 2 1 3 | 4 2 2 1 5 2 0 1 4 1 5 1 4 1 4 1 5 | 3 0 1 3 1 1 3 2 1 3 | 1 0 2 | \
         0 1 0 | 0 | 1 2",
    );
    let derivation = bytes(
        "0 5
         0       | 0 0   | 1 | 0 | 0
         3 1 3 4 | 0 0   | 6 | 0 | 1 0 0
         3 1 3 5 | 0 0   | 6 | 0 | 1 0 0
         2 1 3   | 0 1 0 | 3 | 0 | 2 0 1 0 2
         2 1 3   | 0 1 0 | 7 | 2 | 0
         2 0 3 0 4",
    );
    assert_eq!(check_whether(&bomb, &derivation), answer(0, 0, 0, 0));
    verified(&bomb, 3);
    // Their example 2: whether g, after a and then sense_g.
    let second = bytes("2 2 | 1 0 | 1 0 1 0 | 2 0 0 1 0 | 1 1 1 | 0 2 0 1 | 0 | 1 1");
    let derivation = bytes(
        "0 8
         1 0   | 0 1 0   | 2  | 1 1 | 0
         1 1   | 0 1 1   | 7  | 1   | 0
         1 0   | 0 2 0 1 | 11 | 1   | 2 0 0 0 1
         0     | 0 0     | 1  | 0   | 0
         2 1 2 | 0 0     | 6  | 0   | 1 0 3
         2 1 3 | 0 0     | 6  | 0   | 1 0 3
         1 1   | 0 1 1   | 3  | 0   | 2 0 4 0 5
         1 0   | 0 2 0 1 | 5  | 0   | 2 0 0 0 6
         2 0 7 0 2",
    );
    assert_eq!(check_whether(&second, &derivation), answer(0, 0, 0, 0));
    verified(&second, 4);
}

#[test]
fn the_request_goes_first() {
    let derivation = vec![0; 40_000];
    assert_eq!(check_whether(&[], &derivation), answer(11, 1, 0, 0));
    let long = vec![1; 16_385];
    assert_eq!(check_whether(&long, &derivation), answer(10, 1, 0, 0));
    let call = |place, byte| check_whether(&changed(place, byte), &derivation);
    assert_eq!(call(0, 0), answer(12, 1, 0, 0));
    assert_eq!(call(11, 3), answer(16, 1, 10, 0));
    assert_eq!(call(27, 1), answer(17, 1, 27, 0));
    assert_eq!(call(41, 1), answer(18, 1, 32, 0));
    // There is no 30, and no walk is made.
    let a = common::file_a();
    assert_eq!(check_whether(&a, &derivation), answer(10, 2, 0, 0));
    assert_eq!(check_whether(&a, &[]), answer(11, 2, 0, 0));
    let stuck = request("0", "0 1 2", "0", "1 0");
    let lines = [known(&[], &[], 1, &[], &[])];
    assert_eq!(offer(&stuck, &lines, &[0, 0]), answer(36, 2, 9, 0));
}

#[test]
fn lines_are_read_by_the_same_order() {
    let offer = |text: &str| check_whether(&any_request(), &bytes(text));
    assert_eq!(offer("0"), answer(11, 2, 1, 0));
    assert_eq!(offer("0 0"), answer(12, 2, 0, 0));
    assert_eq!(offer("4 1"), answer(12, 2, 0, 0));
    assert_eq!(offer("0 1"), answer(11, 2, 2, 0));
    assert_eq!(offer("0 1 128"), answer(11, 2, 3, 0));
    assert_eq!(offer("0 1 129"), answer(12, 2, 2, 0));
    assert_eq!(offer("0 1 1 6"), answer(13, 2, 3, 0));
    assert_eq!(offer("0 1 2 2 2"), answer(14, 2, 4, 0));
    assert_eq!(offer("0 1 2 2 3"), answer(15, 2, 4, 0));
    assert_eq!(offer("0 1 0 0 1 6"), answer(13, 2, 5, 0));
    assert_eq!(offer("0 1 0 0 1 255 0"), answer(12, 2, 6, 0));
    // The rule byte comes next, and then a list after all but five of them.
    assert_eq!(offer("0 1 0 0 0"), answer(11, 2, 5, 0));
    for rule in (0..=255).filter(|rule| ![7, 8, 10, 11, 12].contains(rule)) {
        let offer = |rest: &str| offer(&format!("0 1 0 0 0 {rule} {rest}"));
        assert_eq!(offer(""), answer(11, 2, 6, 0));
        assert_eq!(offer("128"), answer(11, 2, 7, 0));
        assert_eq!(offer("129"), answer(12, 2, 6, 0));
        assert_eq!(offer("3 0 2"), answer(11, 2, 9, 0));
        assert_eq!(offer("1 6"), answer(13, 2, 7, 0));
        assert_eq!(offer("2 2 0"), answer(14, 2, 8, 0));
        assert_eq!(offer("2 4 5"), answer(15, 2, 8, 0));
        assert_eq!(offer("0 65"), answer(12, 2, 7, 0));
        assert_eq!(offer("0 1 255"), answer(11, 2, 9, 0));
        assert_eq!(offer("0 0"), answer(11, 2, 8, 0));
        assert_eq!(offer("0 0 1 255"), answer(11, 2, 10, 0));
        assert_eq!(offer("0 0 0 7"), answer(20, 2, 9, 0));
    }
    for rule in [7, 8, 10, 11, 12] {
        let offer = |rest: &str| offer(&format!("0 1 0 0 0 {rule} {rest}"));
        assert_eq!(offer(""), answer(11, 2, 6, 0));
        assert_eq!(offer("3"), answer(13, 2, 6, 0));
        assert_eq!(offer("255"), answer(13, 2, 6, 0));
        assert_eq!(offer("2"), answer(11, 2, 7, 0));
        assert_eq!(offer("2 65"), answer(12, 2, 7, 0));
        assert_eq!(offer("2 1 0"), answer(11, 2, 9, 0));
        assert_eq!(offer("2 0"), answer(11, 2, 8, 0));
        assert_eq!(offer("2 0 255 0 1"), answer(11, 2, 11, 0));
        assert_eq!(offer("2 0 1 0 0 9"), answer(20, 2, 11, 0));
    }
    // A closing count is never 12.
    for count in 0..=255 {
        let mut derivation = bytes(&format!("0 1 0 0 0 1 0 0 {count}"));
        derivation.resize(9 + 2 * count, 0);
        let place = if count == 1 { 9 } else { 8 };
        let found = check_whether(&any_request(), &derivation);
        assert_eq!(found, answer(36, 2, place, 0));
        derivation.push(0);
        let found = check_whether(&any_request(), &derivation);
        assert_eq!(found, answer(20, 2, 9 + 2 * count as u32, 0));
        derivation.truncate(derivation.len() - 2);
        if count > 0 {
            let found = check_whether(&any_request(), &derivation);
            assert_eq!(found, answer(11, 2, derivation.len() as u32, 0));
        }
    }
}

#[test]
fn every_start_ends_too_soon_and_nothing_may_follow() {
    let derivation = bytes(FOR_A);
    for length in 0..derivation.len() {
        let found = check_whether(&common::file_a(), &derivation[..length]);
        assert_eq!(found, answer(11, 2, length as u32, 0));
    }
    let mut longer = derivation.clone();
    for byte in [0, 255] {
        longer.push(byte);
        let found = check_whether(&common::file_a(), &longer);
        assert_eq!(found, answer(20, 2, derivation.len() as u32, 0));
    }
    longer.resize(32_768, 0);
    assert_eq!(
        check_whether(&common::file_a(), &longer),
        answer(20, 2, derivation.len() as u32, 0)
    );
    longer.push(0);
    assert_eq!(
        check_whether(&common::file_a(), &longer),
        answer(10, 2, 0, 0)
    );
}

#[test]
fn each_line_is_a_plan_of_its_own() {
    let long = acts(&[3; 1_024]);
    let mut lines = vec![
        whether(&[], &long, 8, 0, &[0]),
        whether(&[], &long, 8, 0, &[0]),
    ];
    assert_eq!(offer(&any_request(), &lines, &[]), answer(32, 2, 2, 0));
    lines[1].sequence.push(Item::act(3));
    let place = proof_place(&lines, 1) as u32 + 3 + 1_024;
    assert_eq!(offer(&any_request(), &lines, &[]), answer(21, 2, place, 0));
    let mut deep = Vec::new();
    for _ in 0..9 {
        let branch = Branch {
            condition: Vec::new(),
            sequence: deep,
        };
        deep = vec![Item::case(vec![branch])];
    }
    let lines = [whether(&[], &deep, 12, 0, &[0])];
    assert_eq!(
        offer(&any_request(), &lines, &[]),
        answer(19, 2, 2 + 3 + 8 * 5, 0)
    );
}

#[test]
fn overlapping_conditions_go_before_any_line() {
    let overlap = [case(&[(&[0], &[]), (&[2], &[])])];
    let lines = [
        known(&[], &[], 9, &[], &[5]),
        whether(&[0], &overlap, 12, 0, &[0]),
        whether(&[0], &overlap, 12, 0, &[0]),
    ];
    let place = proof_place(&lines, 1) as u32 + 4;
    assert_eq!(offer(&any_request(), &lines, &[]), answer(18, 2, place, 0));
}

#[test]
fn line_by_line() {
    let refused = |lines: &[ProofLine], number, index| {
        let place = proof_place(lines, index) as u32;
        let found = offer(&any_request(), lines, &[7, 7]);
        assert_eq!(found, answer(number, 2, place, 0));
    };
    let good = known(&[], &[], 1, &[], &[]);
    // Within a line: 31, 33, 32, 34.
    refused(&[known(&[0], &[], 9, &[], &[9, 9, 9])], 31, 0);
    refused(&[whether(&[0], &[], 8, 1, &[9, 9, 9])], 33, 0);
    refused(&[whether(&[0], &[], 8, 1, &[9])], 32, 0);
    refused(&[whether(&[0], &[], 7, 0, &[])], 34, 0);
    refused(&[whether(&[0], &[], 10, 0, &[])], 33, 0);
    // An early line with 34 goes before a later one with 31, and the other way round.
    let nothing = known(&[], &[], 13, &[], &[]);
    refused(&[whether(&[0], &[], 7, 0, &[]), nothing.clone()], 34, 0);
    refused(
        &[good.clone(), nothing, whether(&[0], &[], 7, 0, &[])],
        31,
        1,
    );
    // Itself, a later line, and one that doesn't exist.
    for cited in [1, 2, 3, 256, 65_535] {
        let lines = [
            good.clone(),
            whether(&[], &[], 8, 0, &[cited]),
            good.clone(),
        ];
        refused(&lines, 32, 1);
        let lines = [
            good.clone(),
            whether(&[], &[], 11, 0, &[0, cited]),
            good.clone(),
        ];
        refused(&lines, 32, 1);
    }
    // 36 comes after every line.
    let lines = [good.clone(), whether(&[0], &[], 8, 0, &[0])];
    refused(&lines, 34, 1);
}

#[test]
fn numbers_of_citations() {
    let good = known(&[], &[], 1, &[], &[]);
    let readings: &[usize] = &[1, 2, 4, 8, 16, 32, 64];
    let takes: [(u8, &[usize]); 11] = [
        (1, &[0]),
        (2, &[0]),
        (3, readings),
        (4, &[1]),
        (5, &[2]),
        (6, &[1]),
        (7, &[0]),
        (8, &[1]),
        (10, readings),
        (11, &[2]),
        (12, &[1]),
    ];
    for (rule, numbers) in takes {
        let gives = match rule {
            1..=6 => List(vec![2]),
            _ => Fluent(1),
        };
        for number in 0..=64 {
            let lines = [
                good.clone(),
                line(&[0], &[], rule, gives.clone(), &vec![0; number]),
            ];
            let expected = if numbers.contains(&number) { 34 } else { 33 };
            last(&lines, expected);
        }
    }
}

#[test]
fn bytes_that_are_no_rule() {
    for rule in (0..=255).filter(|rule| !matches!(rule, 1..=8 | 10..=12)) {
        last(&[known(&[], &[], rule, &[], &[])], 31);
    }
}

/// Fluent 0 known whether after look, from nothing.
fn looked() -> ProofLine {
    whether(&[], &acts(&[0]), 7, 0, &[])
}

#[test]
fn rules_1_to_6() {
    right(&[known(&[0, 3], &[], 1, &[0, 3], &[])]);
    wrong(&[known(&[0, 3], &[], 1, &[0], &[])]);
    wrong(&[known(&[0], &acts(&[3]), 1, &[0], &[])]);
    right(&[known(&[0], &acts(&[1]), 2, &[0, 2], &[])]);
    wrong(&[known(&[0], &acts(&[1]), 2, &[0], &[])]);
    wrong(&[known(&[0], &acts(&[0]), 2, &[0], &[])]);
    wrong(&[known(&[], &acts(&[2]), 2, &[4], &[])]);
    let empty = [
        known(&[], &[], 1, &[], &[]),
        known(&[0], &[], 6, &[], &[0]),
        known(&[1], &[], 6, &[], &[0]),
    ];
    let sensed = known(&[], &acts(&[0]), 3, &[], &[1, 2]);
    right(&with(&empty, sensed.clone()));
    wrong(&with(&empty, known(&[], &acts(&[0]), 3, &[], &[2, 1])));
    wrong(&with(&empty, known(&[], &acts(&[0]), 3, &[], &[1])));
    wrong(&with(&empty, known(&[], &acts(&[0, 3]), 3, &[], &[1, 2])));
    let branching = case(&[(&[0], &[]), (&[1], &[3])]);
    let chosen =
        |before: &[u8], cited| known(before, std::slice::from_ref(&branching), 4, &[], &[cited]);
    right(&with(&empty, chosen(&[0], 1)));
    wrong(&with(&empty, chosen(&[1], 2)));
    wrong(&with(&empty, chosen(&[], 0)));
    let two = [
        known(&[0], &acts(&[1]), 2, &[0, 2], &[]),
        known(&[0, 2], &acts(&[2]), 2, &[0, 2, 4], &[]),
        known(&[2], &acts(&[2]), 2, &[2, 4], &[]),
    ];
    right(&with(
        &two,
        known(&[0], &acts(&[1, 2]), 5, &[0, 2, 4], &[0, 1]),
    ));
    wrong(&with(
        &two,
        known(&[0], &acts(&[1, 2]), 5, &[2, 4], &[0, 2]),
    ));
    wrong(&with(
        &two,
        known(&[0], &acts(&[2, 1]), 5, &[0, 2, 4], &[0, 1]),
    ));
    right(&with(&two, known(&[0, 5], &acts(&[1]), 6, &[2], &[0])));
    wrong(&with(&two, known(&[], &acts(&[1]), 6, &[2], &[0])));
    wrong(&with(&two, known(&[0], &acts(&[1]), 6, &[4], &[0])));
}

#[test]
fn rules_1_to_6_cite_lists_only() {
    // Each would follow from a list, even the empty one.
    let set = whether(&[0], &acts(&[0]), 7, 0, &[]);
    let clear = whether(&[1], &acts(&[0]), 7, 0, &[]);
    let both = [set.clone(), clear];
    wrong(&with(&both, known(&[], &acts(&[0, 0]), 3, &[], &[0, 1])));
    let only = [case(&[(&[], &[0])])];
    wrong(&with(&[looked()], known(&[], &only, 4, &[], &[0])));
    wrong(&with(&[looked()], known(&[], &acts(&[0]), 6, &[], &[0])));
    wrong(&with(&[set], known(&[0], &acts(&[0]), 6, &[0], &[0])));
    let empty = known(&[], &[], 1, &[], &[]);
    let joined = |cites: &[u16]| known(&[], &acts(&[0]), 5, &[], cites);
    wrong(&with(&[looked(), empty.clone()], joined(&[0, 1])));
    wrong(&with(&[looked(), empty], joined(&[1, 0])));
}

#[test]
fn rule_7() {
    right(&[looked()]);
    // Known already; more than one sensed; one of several known.
    right(&[whether(&[0], &acts(&[0]), 7, 0, &[])]);
    right(&[whether(&[1, 4], &acts(&[0]), 7, 0, &[])]);
    right(&[whether(&[], &acts(&[4]), 7, 0, &[])]);
    right(&[whether(&[], &acts(&[4]), 7, 1, &[])]);
    right(&[whether(&[2], &acts(&[4]), 7, 0, &[])]);
    right(&[whether(&[2], &acts(&[4]), 7, 1, &[])]);
    // Not sensed, known or not, and by an action that senses nothing.
    wrong(&[whether(&[], &acts(&[0]), 7, 1, &[])]);
    wrong(&[whether(&[2], &acts(&[0]), 7, 1, &[])]);
    wrong(&[whether(&[0], &acts(&[3]), 7, 0, &[])]);
    wrong(&[whether(&[0], &acts(&[1]), 7, 1, &[])]);
    // It has to be runnable in X.
    right(&[whether(&[2], &acts(&[5]), 7, 2, &[])]);
    right(&[whether(&[2, 5], &acts(&[5]), 7, 2, &[])]);
    wrong(&[whether(&[], &acts(&[5]), 7, 2, &[])]);
    wrong(&[whether(&[3], &acts(&[5]), 7, 2, &[])]);
    // One action and nothing else.
    wrong(&[whether(&[0], &[], 7, 0, &[])]);
    wrong(&[whether(&[], &acts(&[0, 0]), 7, 0, &[])]);
    wrong(&[whether(&[], &acts(&[0, 3]), 7, 0, &[])]);
    wrong(&[whether(&[], &acts(&[3, 0]), 7, 0, &[])]);
    wrong(&[whether(&[], &[case(&[(&[], &[0])])], 7, 0, &[])]);
}

#[test]
fn rule_8() {
    let cited = [
        known(&[0], &acts(&[1]), 2, &[0, 2], &[]),
        known(&[0], &acts(&[1]), 6, &[2], &[0]),
        known(&[0], &acts(&[1]), 6, &[], &[0]),
        known(&[1, 4], &[], 1, &[1, 4], &[]),
        known(&[1, 4], &[], 6, &[1], &[3]),
        known(&[3], &[], 1, &[3], &[]),
        looked(),
    ];
    let after = |line| with(&cited, line);
    // Either literal.
    right(&after(whether(&[0], &acts(&[1]), 8, 1, &[1])));
    right(&after(whether(&[1, 4], &[], 8, 0, &[4])));
    right(&after(whether(&[3], &[], 8, 1, &[5])));
    // Another fluent.
    wrong(&after(whether(&[0], &acts(&[1]), 8, 0, &[1])));
    wrong(&after(whether(&[0], &acts(&[1]), 8, 2, &[1])));
    wrong(&after(whether(&[1, 4], &[], 8, 2, &[4])));
    // A list of two, though it has the literal, and of none.
    wrong(&after(whether(&[0], &acts(&[1]), 8, 1, &[0])));
    wrong(&after(whether(&[0], &acts(&[1]), 8, 0, &[0])));
    wrong(&after(whether(&[1, 4], &[], 8, 0, &[3])));
    wrong(&after(whether(&[1, 4], &[], 8, 2, &[3])));
    wrong(&after(whether(&[0], &acts(&[1]), 8, 1, &[2])));
    // Another X, larger or smaller, or another c.
    wrong(&after(whether(&[0, 5], &acts(&[1]), 8, 1, &[1])));
    wrong(&after(whether(&[1], &[], 8, 0, &[4])));
    wrong(&after(whether(&[0], &acts(&[1, 3]), 8, 1, &[1])));
    wrong(&after(whether(&[0], &[], 8, 1, &[1])));
    // A fluent known whether already.
    wrong(&after(whether(&[], &acts(&[0]), 8, 0, &[6])));
}

#[test]
fn rule_10() {
    // Lines 0 to 11: fluent 0 after nothing, from each reading of fluents 0 and 1.
    let mut lines = Vec::new();
    for reading in [[0, 2], [0, 3], [1, 2], [1, 3]] {
        let first = lines.len() as u16;
        lines.push(known(&reading, &[], 1, &reading, &[]));
        lines.push(known(&reading, &[], 6, &reading[..1], &[first]));
        lines.push(whether(&reading, &[], 8, 0, &[first + 1]));
    }
    let after = |line| with(&lines, line);
    let sensing = |before: &[u8], cites: &[u16]| whether(before, &acts(&[4]), 10, 0, cites);
    right(&after(sensing(&[], &[2, 5, 8, 11])));
    // Other orders, fewer and more.
    wrong(&after(sensing(&[], &[2, 8, 5, 11])));
    wrong(&after(sensing(&[], &[8, 11, 2, 5])));
    wrong(&after(sensing(&[], &[2, 5])));
    wrong(&after(sensing(&[], &[2, 5, 8, 11, 2, 5, 8, 11])));
    last(&after(sensing(&[], &[2, 5, 8])), 33);
    // One fluent known, or both: only the others are read.
    right(&after(sensing(&[0], &[2, 5])));
    right(&after(sensing(&[3], &[5, 11])));
    right(&after(sensing(&[1, 2], &[8])));
    wrong(&after(sensing(&[1, 2], &[8, 8])));
    wrong(&after(sensing(&[1, 2], &[2])));
    // Each cited line concludes the fluent, not a list and not another.
    wrong(&after(sensing(&[0], &[1, 4])));
    wrong(&after(sensing(&[0], &[2, 4])));
    wrong(&after(sensing(&[1, 2], &[7])));
    wrong(&after(whether(&[0], &acts(&[4]), 10, 1, &[2, 5])));
    // The rest of c.
    wrong(&after(whether(&[0], &acts(&[4, 3]), 10, 0, &[2, 5])));
    wrong(&after(whether(&[0], &acts(&[3, 4]), 10, 0, &[2, 5])));
    // Only for a sensing action that can be run, at the start.
    wrong(&after(whether(&[0, 2], &acts(&[3]), 10, 0, &[2])));
    wrong(&after(whether(&[0, 2], &[], 10, 0, &[2])));
    wrong(&after(whether(
        &[0, 2],
        &[case(&[(&[], &[4])])],
        10,
        0,
        &[2],
    )));
    let more = [
        known(&[1, 3, 4], &[], 1, &[1, 3, 4], &[]),
        known(&[1, 3, 4], &[], 6, &[1], &[12]),
        whether(&[1, 3, 4], &[], 8, 0, &[13]),
        whether(&[1, 3, 4], &acts(&[5]), 10, 0, &[14]),
    ];
    wrong(&[&lines[..], &more[..]].concat());
}

#[test]
fn rule_10_with_a_rest() {
    // Look, then action 1: it keeps fluent 0.
    let lines = [
        known(&[0], &acts(&[1]), 2, &[0, 2], &[]),
        known(&[0], &acts(&[1]), 6, &[0], &[0]),
        whether(&[0], &acts(&[1]), 8, 0, &[1]),
        known(&[1], &acts(&[1]), 2, &[1], &[]),
        whether(&[1], &acts(&[1]), 8, 0, &[3]),
        whether(&[], &acts(&[0, 1]), 10, 0, &[2, 4]),
    ];
    right(&lines);
    let request = request("0", "0 2 0 1", "0", "1 0");
    assert_eq!(offer(&request, &lines, &[5, 5]).number, 36);
    let goals = [
        known(&[], &acts(&[1]), 2, &[], &[]),
        known(&[0], &acts(&[1]), 6, &[], &[6]),
        known(&[1], &acts(&[1]), 6, &[], &[6]),
        known(&[], &acts(&[0, 1]), 3, &[], &[7, 8]),
    ];
    let lines = [&lines[..], &goals[..]].concat();
    assert_eq!(offer(&request, &lines, &[9, 5]), answer(0, 0, 0, 0));
}

#[test]
fn rule_11() {
    let cited = [
        known(&[0], &acts(&[1]), 2, &[0, 2], &[]),
        whether(&[0, 2], &acts(&[5]), 7, 2, &[]),
        whether(&[2], &acts(&[5]), 7, 2, &[]),
        known(&[0, 2], &[], 1, &[0, 2], &[]),
        known(&[0, 2], &[], 6, &[2], &[3]),
        known(&[0], &acts(&[1]), 6, &[2], &[0]),
        known(&[2], &[], 1, &[2], &[]),
        whether(&[2], &[], 8, 1, &[6]),
    ];
    let after = |line| with(&cited, line);
    right(&after(whether(&[0], &acts(&[1, 5]), 11, 2, &[0, 1])));
    right(&after(whether(&[0], &acts(&[1, 5]), 11, 2, &[5, 2])));
    // Either part may be empty; so less may be assumed.
    right(&after(whether(&[0, 2], &acts(&[5]), 11, 2, &[4, 2])));
    right(&after(whether(&[0], &acts(&[1]), 11, 1, &[5, 7])));
    right(&after(whether(&[0, 2], &[], 11, 1, &[4, 7])));
    // The first Y merely includes the second X.
    wrong(&after(whether(&[0], &acts(&[1, 5]), 11, 2, &[0, 2])));
    // Turned round; a first part about a fluent; a second part about a list.
    wrong(&after(whether(&[0], &acts(&[1, 5]), 11, 2, &[1, 0])));
    wrong(&after(whether(&[2], &acts(&[5]), 11, 1, &[2, 7])));
    wrong(&after(whether(&[0, 2], &acts(&[5, 5]), 11, 2, &[1, 1])));
    wrong(&after(whether(&[0], &acts(&[1]), 11, 1, &[5, 6])));
    // Another X, fluent or sequence.
    wrong(&after(whether(&[0, 4], &acts(&[1, 5]), 11, 2, &[0, 1])));
    wrong(&after(whether(&[0], &acts(&[1, 5]), 11, 1, &[0, 1])));
    wrong(&after(whether(&[0], &acts(&[5, 1]), 11, 2, &[0, 1])));
    wrong(&after(whether(&[0], &acts(&[1]), 11, 2, &[0, 1])));
    wrong(&after(whether(&[0], &acts(&[1, 5, 3]), 11, 2, &[0, 1])));
    let inside = [case(&[(&[], &[1, 5])])];
    wrong(&after(whether(&[0], &inside, 11, 2, &[0, 1])));
}

#[test]
fn rule_12() {
    let cited = [
        looked(),
        whether(&[0], &acts(&[0]), 7, 0, &[]),
        whether(&[1, 2], &acts(&[0]), 7, 0, &[]),
        known(&[0], &acts(&[3]), 2, &[0], &[]),
        whether(&[0], &acts(&[3]), 8, 0, &[3]),
        whether(&[0, 3], &acts(&[0]), 7, 0, &[]),
    ];
    let branching = case(&[(&[0], &[]), (&[1, 2], &[0]), (&[1, 3], &[3])]);
    let after = |before: &[u8], rest: &[u8], fluent, cite| {
        let sequence = [vec![branching.clone()], acts(rest)].concat();
        with(&cited, whether(before, &sequence, 12, fluent, &[cite]))
    };
    right(&after(&[0], &[0], 0, 1));
    right(&after(&[1, 2], &[], 0, 2));
    right(&after(&[0], &[3], 0, 4));
    right(&after(&[0, 3], &[0], 0, 5));
    // Another fluent, a list, another branch, another rest, another X, no condition within X.
    wrong(&after(&[0], &[0], 1, 1));
    wrong(&after(&[0], &[3], 0, 3));
    wrong(&after(&[1, 2], &[0], 0, 2));
    wrong(&after(&[0], &[], 0, 1));
    wrong(&after(&[0], &[0, 3], 0, 1));
    wrong(&after(&[0, 2], &[0], 0, 1));
    wrong(&after(&[0], &[0], 0, 0));
    wrong(&after(&[], &[0], 0, 0));
    wrong(&after(&[1], &[0], 0, 0));
    // No branching at the start.
    wrong(&with(&cited, whether(&[0], &acts(&[0]), 12, 0, &[1])));
    wrong(&with(&cited, whether(&[0], &[], 12, 0, &[1])));
    let later = [Item::act(0), case(&[(&[], &[])])];
    wrong(&with(&cited, whether(&[0], &later, 12, 0, &[1])));
    // Within X, not only equal to it; the empty condition.
    let empty = [case(&[(&[], &[])]), Item::act(0)];
    right(&with(&cited, whether(&[0, 3], &empty, 12, 0, &[5])));
    right(&with(&cited, whether(&[], &empty, 12, 0, &[0])));
}

#[test]
fn the_closing_list() {
    let lines = [
        known(&[2], &acts(&[2]), 2, &[2, 4], &[]),
        known(&[2], &acts(&[2]), 6, &[4], &[0]),
        known(&[2], &acts(&[2]), 6, &[2], &[0]),
        whether(&[2], &acts(&[2]), 8, 1, &[2]),
        whether(&[2], &acts(&[2]), 8, 2, &[1]),
        known(&[2], &acts(&[2]), 6, &[], &[0]),
        known(&[2, 5], &acts(&[2]), 6, &[4], &[0]),
        whether(&[2], &acts(&[2]), 8, 2, &[1]),
    ];
    let place = proof_place(&lines, lines.len()) as u32;
    let close = |goals: &str, whether: &str, closing: &[u16]| {
        offer(&request("1 2", "0 1 2", goals, whether), &lines, closing)
    };
    let accepted = answer(0, 0, 0, 0);
    let at = |after: u32| answer(36, 2, place + after, 0);
    assert_eq!(close("1 4", "0", &[1]), accepted);
    assert_eq!(close("1 4", "2 1 2", &[1, 3, 4]), accepted);
    // A line that is said twice may be named by either number.
    assert_eq!(close("1 4", "2 1 2", &[1, 3, 7]), accepted);
    // No goals: a line for them is named all the same.
    assert_eq!(close("0", "1 2", &[5, 4]), accepted);
    assert_eq!(close("0", "1 2", &[4]), at(0));
    assert_eq!(close("0", "1 2", &[4, 4]), at(1));
    assert_eq!(close("0", "0", &[]), at(0));
    // The list of goals, no more and no less; X, too.
    assert_eq!(close("1 4", "0", &[0]), at(1));
    assert_eq!(close("2 2 4", "0", &[0]), accepted);
    assert_eq!(close("1 4", "0", &[2]), at(1));
    assert_eq!(close("1 4", "0", &[5]), at(1));
    assert_eq!(close("1 4", "0", &[6]), at(1));
    assert_eq!(close("1 4", "0", &[8]), at(1));
    // Whether entries in their order.
    assert_eq!(close("1 4", "2 1 2", &[1, 4, 3]), at(3));
    assert_eq!(close("1 4", "2 1 2", &[1, 3, 3]), at(5));
    assert_eq!(close("1 4", "2 1 2", &[1, 3, 1]), at(5));
    assert_eq!(close("1 4", "2 1 2", &[1, 3, 8]), at(5));
    assert_eq!(close("1 4", "2 0 2", &[1, 3, 4]), at(3));
    assert_eq!(close("1 4", "1 2", &[1, 3]), at(3));
    assert_eq!(close("1 4", "2 1 2", &[1, 3]), at(0));
    assert_eq!(close("1 4", "1 1", &[1, 3, 4]), at(0));
    // Another plan or other facts: entry 0 is the first that is bad.
    let other = |facts, plan| offer(&request(facts, plan, "1 4", "1 2"), &lines, &[1, 4]);
    assert_eq!(other("1 2", "0 1 2"), accepted);
    assert_eq!(other("2 2 5", "0 1 2"), at(1));
    assert_eq!(other("1 2", "0 2 2 3"), at(1));
    assert_eq!(other("1 2", "0 0"), at(1));
}

#[test]
fn the_last_line_need_not_be_named() {
    let lines = [
        known(&[0], &[], 1, &[0], &[]),
        whether(&[0], &[], 8, 0, &[0]),
        known(&[0], &[], 1, &[0], &[]),
    ];
    let request = request("1 0", "0 0", "1 0", "1 0");
    assert_eq!(offer(&request, &lines, &[0, 1]), answer(0, 0, 0, 0));
    assert_eq!(offer(&request, &lines, &[2, 1]), answer(0, 0, 0, 0));
}

#[test]
fn as_many_entries_as_there_can_be() {
    // An action makes every fluent known; lines that start with all of it would be too long.
    let entries = FLUENT_LIMIT;
    let fluents = entries as u8;
    let all: Vec<u8> = (0..fluents).map(|fluent| 2 * fluent + fluent % 2).collect();
    let effect = |&literal: &u8| Effect {
        place: 0,
        action: 0,
        literal,
        body: Vec::new(),
    };
    let request = Request {
        fluents,
        actions: 1,
        effects: all.iter().map(effect).collect(),
        allowances: vec![Allowance {
            action: 0,
            body: Vec::new(),
        }],
        plan: acts(&[0]),
        goals: all.clone(),
        whether: (0..fluents).collect(),
        ..Request::default()
    };
    let mut lines = vec![known(&[], &acts(&[0]), 2, &all, &[])];
    for fluent in 0..fluents {
        let alone = lines.len() as u16;
        let literal = all[usize::from(fluent)];
        lines.push(known(&[], &acts(&[0]), 6, &[literal], &[0]));
        lines.push(whether(&[], &acts(&[0]), 8, fluent, &[alone]));
    }
    let mut proof = Proof {
        lines,
        closing_place: 0,
        closing: (0..=entries as u16).map(|entry| 2 * entry).collect(),
    };
    let bytes = encode_request(&request).bytes;
    let check = |proof: &Proof| check_whether(&bytes, &encode_proof(proof).bytes);
    assert_eq!(check(&proof), answer(0, 0, 0, 0));
    let place = proof_place(&proof.lines, proof.lines.len()) as u32;
    let last = proof.closing[entries];
    proof.closing[entries] = last - 1;
    assert_eq!(
        check(&proof),
        answer(36, 2, place + 1 + 2 * entries as u32, 0)
    );
    proof.closing[entries] = last;
    proof.closing.push(last);
    assert_eq!(check(&proof), answer(36, 2, place, 0));
    proof.closing.truncate(entries);
    assert_eq!(check(&proof), answer(36, 2, place, 0));
}

#[test]
fn many_fluents_at_once() {
    // Rule 7 takes any number of unknown fluents; rule 10 can't.
    let sensed = FLUENT_LIMIT as u8 - 1;
    let draft = oracle::generate::forget_and_sense(sensed, 1);
    let request = encode_request(&draft).bytes;
    let looks: Vec<ProofLine> = (0..sensed)
        .map(|fluent| whether(&[], &acts(&[0]), 7, fluent, &[]))
        .collect();
    let place = proof_place(&looks, looks.len()) as u32;
    assert_eq!(offer(&request, &looks, &[]), answer(36, 2, place, 0));
    let not_sensed = [whether(&[], &acts(&[0]), 7, sensed, &[])];
    assert_eq!(offer(&request, &not_sensed, &[]), answer(34, 2, 2, 0));
    let sixty_four = with(&looks, whether(&[], &acts(&[0, 0]), 10, 0, &[0; 64]));
    assert_eq!(offer(&request, &sixty_four, &[]), answer(34, 2, place, 0));
}

#[test]
fn from_the_first_layout_and_back() {
    // Case 14.
    let request = file_a_without_whether();
    let b = "255 2  1 1 0 2 1 2  1 0 0 0";
    let former = bytes(&format!(
        "0 9
         4 0 3 5 7 | 0 0      | 4 0 3 5 7 | 1 | 0
         4 0 3 5 7 | 0 0      | 1 7       | 6 | 1 0 0
         4 0 3 5 7 | 0 1 {b}  | 1 7       | 4 | 1 0 1
         4 1 3 5 7 | 0 1 1    | 4 1 2 5 7 | 2 | 0
         4 1 2 5 7 | 0 1 2    | 4 1 2 4 7 | 2 | 0
         4 1 3 5 7 | 0 2 1 2  | 4 1 2 4 7 | 5 | 2 0 3 0 4
         4 1 3 5 7 | 0 2 1 2  | 1 7       | 6 | 1 0 5
         4 1 3 5 7 | 0 1 {b}  | 1 7       | 4 | 1 0 6
         3 3 5 7   | 0 2 0 {b}| 1 7       | 3 | 2 0 2 0 7"
    ));
    assert_eq!(check(&request, &former), answer(0, 0, 0, 0));
    let read = oracle::open(&request).expect("a request");
    let lines = read_derivation(&former, &read).expect("lines");
    let proof = as_proof(&lines).expect("a translation");
    let second = encode_proof(&proof).bytes;
    assert_eq!(second, closed(&lines_for_a()[..9], &[8]));
    assert_eq!((former.len(), second.len()), (171, 174));
    assert_eq!(check_whether(&request, &second), answer(0, 0, 0, 0));
    let back = as_lines(&proof).expect("the way back");
    assert_eq!(encode_derivation(&back).bytes, former);
    // No way back where another line is named, or more of them, or where a rule is new.
    let again = |closing: &[u16], count: usize| {
        as_lines(&Proof {
            lines: lines_for_a()[..count].to_vec(),
            closing_place: 0,
            closing: closing.to_vec(),
        })
    };
    assert!(again(&[8], 9).is_some());
    assert!(again(&[7], 9).is_none());
    assert!(again(&[8, 8], 9).is_none());
    assert!(again(&[], 9).is_none());
    assert!(again(&[10], 11).is_none());
}

#[test]
fn derivations_reach_further_than_the_walk() {
    for asked in [&[0][..], &[31], &[0, 15]] {
        let (request, proof) = many_whether(32, asked);
        let request = encode_request(&request).bytes;
        let derivation = encode_proof(&proof).bytes;
        assert_eq!(check_whether(&request, &derivation), answer(0, 0, 0, 0));
        expect(&request, 1_000_000, 3, 0, 0, 1_000_000);
    }
}

#[test]
fn a_derivation_of_1024_lines() {
    let (request, mut proof) = many_whether(2, &[0, 1]);
    let request = encode_request(&request).bytes;
    pad_proof(&mut proof, 1_024);
    let check = |proof: &Proof| check_whether(&request, &encode_proof(proof).bytes);
    assert_eq!(check(&proof), answer(0, 0, 0, 0));
    pad_proof(&mut proof, 1_025);
    assert_eq!(check(&proof), answer(12, 2, 0, 0));
}
