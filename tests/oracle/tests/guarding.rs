//! The guarded call: the cases that come with the format, and what the rules say of requests that
//! they don't show.

mod common;

use common::{answer, bytes, changed, file_a, state, table_a, LENT};
use oracle::{judge, judge_guarded, judge_guarded_line, Answer, STATE_LENGTH};

const BUDGET: u32 = 100_000;

/// The guarded call with a lent state of the right length; the state afterwards comes along.
fn run(request: &[u8], budget: u32) -> (Answer, [u8; STATE_LENGTH]) {
    let mut lent = [LENT; STATE_LENGTH];
    let answer = judge_guarded(request, &mut lent, budget);
    (answer, lent)
}

/// A request and its ninth section.
fn with(mut request: Vec<u8>, ninth: &str) -> Vec<u8> {
    request.extend(bytes(ninth));
    request
}

/// File A with a ninth section.
fn a(ninth: &str) -> Vec<u8> {
    with(file_a(), ninth)
}

/// Expects an answer that leaves the lent state alone.
fn stays(request: &[u8], budget: u32, number: u8, place: u32, count: u32) {
    let input = u8::from(!matches!(number, 0 | 3 | 9));
    let expected = answer(number, input, place, count);
    assert_eq!(run(request, budget), (expected, [LENT; STATE_LENGTH]));
}

/// Expects 1, 2 or 43, with the state.
fn writes(request: &[u8], budget: u32, number: u8, place: u32, count: u32, line: &str) {
    let expected = answer(number, 1, place, count);
    assert_eq!(run(request, budget), (expected, state(line)));
}

#[test]
fn rows_of_the_walk() {
    stays(&a("0"), BUDGET, 0, 0, 5);
    stays(&a("1 7"), BUDGET, 0, 0, 5);
    writes(&a("1 3"), BUDGET, 43, 49, 3, "-+--");
    writes(&a("1 3"), 3, 43, 49, 3, "-+--");
    stays(&a("1 3"), 2, 3, 0, 2);
    writes(&a("1 0"), 0, 43, 49, 0, "?---");
    writes(&a("2 5 7"), BUDGET, 43, 49, 4, "-++-");
    writes(&a("2 3 6"), BUDGET, 43, 50, 0, "?---");
    writes(&table_a("0 1 1 0 0 | 2 5 7"), BUDGET, 43, 36, 1, "?+-?");
    writes(&table_a("0 1 1 1 7 0 | 1 7"), BUDGET, 43, 36, 1, "?+-?");
    let missing = "0 2 0 255 2 1 1 0 2 1 2 1 0 0 0 1 1 0 | 1 3";
    writes(&table_a(missing), BUDGET, 43, 48, 3, "-+--");
    writes(&table_a("0 2 1 1 0 0 | 1 3"), BUDGET, 43, 36, 1, "?+-?");
    writes(&table_a("0 1 2 0 0 | 1 0"), BUDGET, 43, 35, 0, "?---");
    writes(&table_a("0 2 1 1 0 0 | 1 5"), BUDGET, 2, 32, 1, "?+-?");
    writes(&table_a("0 0 1 7 1 0 | 1 7"), BUDGET, 1, 34, 1, "?---");
    stays(&a("1 7"), 4, 3, 0, 4);
    writes(&a("1 1"), BUDGET, 43, 49, 0, "?---");
}

#[test]
fn sixty_four_guards() {
    let all: Vec<u8> = (0..64).map(|fluent| 2 * fluent).collect();
    let list = |count: usize| [&[count as u8], &all[..count]].concat();
    let request = [&[128, 1], &list(64)[..], &[0; 7], &list(64)].concat();
    stays(&request, BUDGET, 0, 0, 1);
    let request = [&[128, 1], &list(63)[..], &[0; 7], &list(64)].concat();
    let known = "+".repeat(63);
    writes(&request, BUDGET, 43, request.len() as u32 - 1, 0, &known);
}

#[test]
fn rows_of_refusals() {
    stays(&a("65"), BUDGET, 12, 48, 0);
    stays(&a("1 8"), BUDGET, 13, 49, 0);
    stays(&a("2 7 5"), BUDGET, 14, 50, 0);
    stays(&a("2 2 3"), BUDGET, 15, 50, 0);
    stays(&a("0 0"), BUDGET, 20, 49, 0);
    stays(&a(""), BUDGET, 11, 48, 0);
    stays(&a("1"), BUDGET, 11, 49, 0);
    stays(&with(changed(11, 3), "1 0"), BUDGET, 16, 10, 0);
    stays(&with(changed(27, 1), "1 0"), BUDGET, 17, 27, 0);
    stays(&with(changed(41, 1), "1 0"), BUDGET, 18, 32, 0);
    stays(&with(changed(11, 3), "0 0"), BUDGET, 20, 49, 0);
    stays(&[0; 16_385], BUDGET, 10, 0, 0);
    for length in [0, 64, 127, 129] {
        let mut lent = vec![LENT; length];
        let answer = judge_guarded(&a("0"), &mut lent, BUDGET);
        assert_eq!((answer, lent), (Answer::neither(9, 0), vec![LENT; length]));
    }
    let plain = judge(&a("0"), &mut [LENT; STATE_LENGTH], BUDGET);
    assert_eq!(plain, answer(20, 1, 48, 0));
}

#[test]
fn the_line() {
    let line = |request: &[u8]| judge_guarded_line(request, &mut [LENT; STATE_LENGTH], BUDGET).1;
    assert_eq!(line(&table_a("0 2 1 1 0 0 | 1 5")), 20);
    assert_eq!(line(&table_a("0 2 1 1 0 0 | 1 3")), 0);
    assert_eq!(line(&a("1 7")), 0);
}

/// A ninth section is read from the left, each of its bytes before the next is missed.
#[test]
fn faults_of_the_ninth_section_meet() {
    stays(&a("255"), BUDGET, 12, 48, 0);
    stays(&a("3 8"), BUDGET, 13, 49, 0);
    stays(&a("3 2 3"), BUDGET, 15, 50, 0);
    stays(&a("3 3 2"), BUDGET, 14, 50, 0);
    stays(&a("3 2 2"), BUDGET, 14, 50, 0);
    stays(&a("64 1"), BUDGET, 11, 50, 0);
    stays(&a("1 7 9 9"), BUDGET, 20, 50, 0);
}

/// Two fluents, both known true. Action 0 senses 0 and 1, action 1 makes 0 false, 2 does nothing.
const TABLE: &str = "2 3 | 2 0 2 | 1 1 1 0 | 3 0 0 1 0 2 0 | 2 0 0 0 1";

fn on(plan: &str) -> Vec<u8> {
    bytes(&format!("{TABLE} | {plan}"))
}

/// A sensing action that forks nothing leads to a state, and a branching leads to none.
#[test]
fn states_that_are_met() {
    stays(&on("0 1 0 | 0 | 0 | 2 0 2"), BUDGET, 0, 0, 2);
    let lost = on("0 2 1 255 1 0 0 0 | 0 | 0 | 1 0");
    writes(&lost, BUDGET, 43, lost.len() as u32 - 1, 1, "-+");
    let inside = on("0 1 255 1 1 0 0 1 1 | 0 | 0 | 1 0");
    writes(&inside, BUDGET, 43, inside.len() as u32 - 1, 1, "-+");
    stays(&on("0 1 255 1 1 0 0 0 | 0 | 0 | 1 0"), BUDGET, 0, 0, 1);
    // A branching that can't be followed, in a state that lacks nothing and in one that does.
    let stuck = on("0 1 255 1 1 1 0 0 | 0 | 0 | 1 0");
    writes(&stuck, BUDGET, 2, 23, 0, "++");
    let broken = on("0 2 1 255 1 1 0 0 0 | 0 | 0 | 1 0");
    writes(&broken, BUDGET, 43, broken.len() as u32 - 1, 1, "-+");
}

/// A guard lost and won again is lacked where it is lost, though every end state has it.
#[test]
fn lost_and_won_again() {
    let table = "1 2 | 1 0 | 2 0 1 0 1 0 0 | 2 0 0 1 0 | 0";
    let plain = bytes(&format!("{table} | 0 2 0 1 | 1 0 | 0"));
    stays(&with(plain.clone(), "0"), BUDGET, 0, 0, 3);
    let place = plain.len() as u32 + 1;
    writes(&with(plain.clone(), "1 0"), BUDGET, 43, place, 1, "-");
    stays(&with(plain, "1 0"), 0, 3, 0, 0);
}
