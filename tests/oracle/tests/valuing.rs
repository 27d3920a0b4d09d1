//! The values call: examples of the literature with values, and what the rules say of requests that
//! these don't show.

mod common;

use common::{answer, bytes, LENT};
use oracle::{judge_values, Answer, STATE_LENGTH};

const BUDGET: u32 = 100_000;

/// The values call with a lent state of the right length; the state afterwards comes along.
fn run(request: &[u8], budget: u32) -> (Answer, [u8; STATE_LENGTH]) {
    let mut lent = [LENT; STATE_LENGTH];
    let answer = judge_values(request, &mut lent, budget);
    (answer, lent)
}

/// Expects an answer that leaves the lent state alone.
fn stays(request: &str, budget: u32, number: u8, place: u32, count: u32) {
    let input = u8::from(!matches!(number, 0 | 3 | 9));
    let expected = answer(number, input, place, count);
    let found = run(&bytes(request), budget);
    assert_eq!(found, (expected, [LENT; STATE_LENGTH]), "{request}");
}

fn verified(request: &str, count: u32) {
    stays(request, BUDGET, 0, 0, count);
}

fn refused(request: &str, number: u8, place: u32) {
    stays(request, BUDGET, number, place, 0);
}

/// Expects 1 or 2, with the first bytes of the state.
fn writes(request: &str, number: u8, place: u32, count: u32, first: &[u8]) {
    let mut state = [0; STATE_LENGTH];
    state[..first.len()].copy_from_slice(first);
    let expected = answer(number, 1, place, count);
    assert_eq!(run(&bytes(request), BUDGET), (expected, state), "{request}");
}

/// One fluent with three values; action 0 looks at it.
fn traffic_light(asked: &str) -> String {
    format!("1 3 1 | 0 | 0 | 1  0 0 | 1  0 0 | {asked}")
}

#[test]
fn traffic_light_is_looked_at() {
    verified(&traffic_light("0 1 0 | 0 | 1 0"), 4);
    writes(&traffic_light("0 1 0 | 1  0 0 | 0"), 1, 15, 4, &[2]);
    writes(&traffic_light("0 0 | 0 | 1 0"), 1, 15, 1, &[0]);
    stays(&traffic_light("0 1 0 | 0 | 1 0"), 3, 3, 0, 3);
    // Red: nothing; amber: look again; green: nothing.
    let branching = "255 3  1 0 0  0 0  1 0 2  0 1 0  1 0 4  0 0";
    verified(&traffic_light(&format!("0 2 0 {branching} | 0 | 1 0")), 5);
    // Not red; red.
    let branching = "255 2  1 0 1  0 0  1 0 0  0 0";
    verified(&traffic_light(&format!("0 2 0 {branching} | 0 | 1 0")), 4);
}

#[test]
fn gas_has_sixteen_values() {
    verified("1 16 1 | 0 | 0 | 1  0 0 | 1  0 0 | 0 1 0 | 0 | 1 0", 17);
}

/// Fluents: the current directory, whether the other one exists, whether a file exists. Actions: 0
/// changes the directory if the other one exists, 1 lists the file.
fn directories(asked: &str) -> String {
    format!("3  2 2 2  2 | 2  0 0  1 0 | 1  0  0 2  1  1 0 | 2  0 0  1 0 | 1  1 2 | {asked}")
}

#[test]
fn directories_are_changed_and_listed() {
    verified(&directories("0 1 0 | 1  0 2 | 0"), 2);
    verified(&directories("0 1 1 | 0 | 1 2"), 3);
    writes(&directories("0 1 0 | 1  0 0 | 0"), 1, 29, 2, &[2, 1, 0]);
}

/// Fluents: the illness, which is one of five or none, the color of a stain, whether the blood count
/// is high, no stain yet, dead, no blood sample yet; 0 counts as true of those with two values. Actions:
/// 0 stain, 1 inspect, 2 blood sample, 3 analyze, 4 to 8 medicate against an illness.
fn illness(asked: &str) -> String {
    let medicate = |j: u8| {
        let (action, is, is_not) = (j + 4, 2 * j, 2 * j + 1);
        format!("{action}  0 10  1  0 {is}    {action}  4 0  1  0 {is_not} ")
    };
    let medicate: String = (0..5).map(medicate).collect();
    format!(
        "6  6 3 2 2 2 2  9 | 4  0 11  3 2  4 2  5 2 | \
         22  0  3 0  0    0  1 0  1  0 0    0  1 0  1  0 2    0  1 2  1  0 4 \
             0  1 2  1  0 6    0  1 4  1  0 8 \
             2  5 0  0    2  2 2  1  0 2    2  2 2  1  0 6 \
             2  2 0  1  0 0    2  2 0  1  0 4    2  2 0  1  0 8    {medicate} | \
         9  0 0  1 1  3 0  2 0  3 1  5 0  4 0  5 0  6 0  7 0  8 0 | 2  1 1  3 2 | {asked}"
    )
}

#[test]
fn illness_stays_unknown() {
    let length = bytes(&illness("")).len() as u32;
    let place = length + 2 + 4 + 1 + 1;
    let state = [0, 1, 1, 1, 2, 1];
    writes(&illness("0 4 0 1 2 3 | 0 | 1 0"), 1, place, 14, &state);
}

/// What a fluent is not is forgotten where more than one value is left.
#[test]
fn what_a_fluent_is_not_is_forgotten() {
    writes(
        "1 3 1 | 1  0 1 | 0 | 0 | 0 | 0 0 | 1  0 1 | 0",
        1,
        12,
        1,
        &[0],
    );
    verified("1 3 1 | 2  0 1  0 3 | 0 | 0 | 0 | 0 0 | 1  0 4 | 1 0", 1);
    verified("1 2 1 | 1  0 1 | 0 | 0 | 0 | 0 0 | 1  0 2 | 1 0", 1);
    // The value that it is not is read, too.
    writes(
        "1 3 1 | 1  0 1 | 0 | 1  0 0 | 1  0 0 | 0 1 0 | 1  0 1 | 0",
        1,
        17,
        4,
        &[1],
    );
}

#[test]
fn effects_set_and_forget_values() {
    let request = |facts: &str, effects: &str| {
        format!("2 3 2 1 | {facts} | {effects} | 1  0 0 | 0 | 0 1 0 | 1  0 0 | 1 1")
    };
    let place = |facts: &str, effects: &str| {
        let tail = bytes("1  0 0 | 0 | 0 1 0 | 1").len();
        4 + (bytes(facts).len() + bytes(effects).len() + tail) as u32
    };
    let expect = |facts: &str, effects: &str, state: &[u8]| {
        writes(&request(facts, effects), 1, place(facts, effects), 2, state);
    };
    // A possible effect sets another value, or the same one.
    expect("1  0 2", "1  0  0 4  1  1 0", &[0, 0]);
    expect("1  0 2", "1  0  0 2  1  1 0", &[2, 0]);
    // A sure effect and a possible one that sets the same value, and another one.
    expect("1  0 0", "2  0  0 2  0    0  0 2  1  1 0", &[2, 0]);
    expect(
        "2  0 2  1 0",
        "2  0  0 4  1  1 0    0  0 0  1  1 2",
        &[3, 1],
    );
    // Two possible effects, of which one is known not to happen; "is not" of an unknown fluent is possible.
    expect(
        "1  0 2",
        "2  0  0 2  2  0 2  1 0    0  0 4  1  0 3",
        &[2, 0],
    );
    expect("1  1 0", "1  0  0 2  1  0 1", &[0, 1]);
}

#[test]
fn readings_ascend() {
    // Two fluents with three and two values, the second read first in the table.
    let request = "2 3 2 1 | 0 | 0 | 1  0 0 | 2  0 1  0 0 | 0 1 0 | 1  0 1 | 0";
    writes(request, 1, 18, 7, &[1, 1]);
    let request = "2 3 2 1 | 0 | 0 | 1  0 0 | 2  0 1  0 0 | 0 1 0 | 1  0 3 | 0";
    writes(request, 1, 18, 7, &[2, 1]);
    let request = "2 3 2 1 | 0 | 0 | 1  0 0 | 2  0 1  0 0 | 0 1 0 | 1  1 0 | 0";
    writes(request, 1, 18, 7, &[1, 2]);
    // A known fluent keeps its value.
    let request = "2 3 2 1 | 1  0 4 | 0 | 1  0 0 | 2  0 1  0 0 | 0 1 0 | 1  1 2 | 0";
    writes(request, 1, 20, 3, &[3, 1]);
}

#[test]
fn items_that_cannot_be_run() {
    let request = "1 3 1 | 1  0 1 | 0 | 1  0  1  0 1 | 0 | 0 1 0 | 0 | 0";
    writes(request, 2, 15, 0, &[0]);
    let request = "1 3 1 | 1  0 2 | 0 | 1  0  1  0 1 | 0 | 0 1 0 | 0 | 0";
    verified(request, 2);
    stays(request, 1, 3, 0, 1);
    let request = "1 3 1 | 0 | 0 | 0 | 0 | 0 1 255 2  1 0 0  0 0  1 0 1  0 0 | 0 | 0";
    writes(request, 2, 9, 0, &[0]);
    let request = "1 3 1 | 1  0 4 | 0 | 0 | 0 | 0 1 255 2  1 0 0  0 0  1 0 1  0 0 | 0 | 0";
    verified(request, 1);
}

#[test]
fn sizes_are_read_first() {
    refused("", 11, 0);
    refused("0", 12, 0);
    refused("129", 12, 0);
    refused("2", 11, 1);
    refused("2 1", 12, 1);
    refused("2 17", 12, 1);
    refused("2 2", 11, 2);
    refused("2 16 0", 12, 2);
    refused("2 16 255", 12, 2);
    refused("2 2 2", 11, 3);
    refused("2 2 2 0", 12, 3);
    refused("2 2 2 129", 12, 3);
    let most = format!(
        "128 {} 128 | 0 | 0 | 0 | 0 | 0 0 | 0 | 0",
        "16 ".repeat(128)
    );
    verified(&most, 1);
}

#[test]
fn literals_are_judged_byte_by_byte() {
    refused("1 3 1 | 1", 11, 4);
    refused("1 3 1 | 1  1", 13, 4);
    refused("1 3 1 | 1  255 255", 13, 4);
    refused("1 3 1 | 1  0", 11, 5);
    refused("1 3 1 | 1  0 6", 13, 5);
    refused("1 3 1 | 1  0 255", 13, 5);
    refused("2 3 4 1 | 1  1 8", 13, 6);
    refused("2 3 4 1 | 1  1 7 | 0 | 0 | 0 | 0 0 | 1  0 6", 13, 14);
    // 14 waits for the second byte, 13 does not.
    refused("2 3 4 1 | 2  1 0  0", 11, 8);
    refused("2 3 4 1 | 2  1 0  0 6", 13, 8);
    refused("2 3 4 1 | 2  1 0  0 5", 14, 7);
    refused("1 3 1 | 2  0 0  0", 11, 7);
    refused("1 3 1 | 2  0 0  0 6", 13, 7);
    refused("1 3 1 | 2  0 0  1", 13, 6);
}

#[test]
fn lists_ascend_and_leave_a_value() {
    refused("1 3 1 | 2  0 2  0 2", 14, 6);
    refused("1 3 1 | 2  0 3  0 2", 14, 6);
    refused("1 3 1 | 2  0 2  0 3", 15, 6);
    refused("1 3 1 | 2  0 0  0 2", 15, 6);
    refused("1 3 1 | 2  0 1  0 0", 14, 6);
    refused("1 3 1 | 3  0 1  0 3  0 5", 15, 8);
    refused("1 2 1 | 2  0 1  0 3", 15, 6);
    verified("1 3 1 | 2  0 0  0 3 | 0 | 0 | 0 | 0 0 | 0 | 1 0", 1);
    verified(
        "1 3 1 | 2  0 3  0 4 | 0 | 0 | 0 | 0 0 | 2  0 1  0 4 | 1 0",
        1,
    );
    verified("1 3 1 | 3  0 1  0 3  0 4 | 0 | 0 | 0 | 0 0 | 0 | 1 0", 1);
    // One fluent leaves another alone.
    verified(
        "2 2 2 1 | 2  0 1  1 3 | 0 | 0 | 0 | 0 0 | 2  0 2  1 0 | 2 0 1",
        1,
    );
    // In a body and in a condition; a list of fluents has no 15.
    refused("1 3 1 | 0 | 0 | 1  0  2  0 0  0 2", 15, 10);
    refused("1 3 1 | 0 | 1  0  0 0  2  0 4  0 5", 15, 11);
    refused("1 3 1 | 0 | 0 | 0 | 0 | 0 1 255 1  2  0 0  0 4", 15, 14);
    refused("1 3 1 | 0 | 0 | 0 | 0 | 0 0 | 0 | 2 0 0", 14, 12);
    // Counts are those of literals.
    refused("1 3 1 | 129", 12, 3);
    refused("1 3 1 | 0 | 0 | 1  0  17", 12, 7);
}

#[test]
fn effects_say_is() {
    refused("1 3 1 | 0 | 1  0  0 1", 46, 6);
    refused("1 3 1 | 0 | 1  0  0 1  17", 46, 6);
    refused("1 3 1 | 0 | 1  0  0 7", 13, 7);
    refused("1 3 1 | 0 | 1  0  0", 11, 7);
    refused("1 3 1 | 0 | 1  0  1 1", 13, 6);
    refused("1 3 1 | 0 | 1  1  0 1", 13, 5);
    refused("1 3 1 | 0 | 2  0  0 0  0    0  0 3", 46, 10);
}

/// Effects of action 0 on fluent 0, with bodies and the executability line of it that are given.
fn effects_with(one: &str, other: &str, line: &str) -> String {
    format!("2 3 3 1 | 0 | 2  0  0 0  {one}    0  0 2  {other} | 1  0  {line} | 0 | 0 0 | 0 | 0")
}

#[test]
fn effects_contradict_pair_by_pair() {
    refused(&effects_with("0", "0", "0"), 16, 10);
    refused(&effects_with("1  1 1", "1  1 3", "0"), 16, 12);
    refused(&effects_with("1  1 0", "1  1 3", "0"), 16, 12);
    verified(&effects_with("1  1 0", "1  1 1", "0"), 1);
    verified(&effects_with("1  1 0", "1  1 2", "0"), 1);
    verified(&effects_with("1  1 4", "2  1 1  1 5", "0"), 1);
    // Only by two literals together.
    verified(&effects_with("2  1 1  1 3", "1  1 5", "0"), 1);
    refused(&effects_with("1  1 1", "1  1 5", "0"), 16, 12);
    // Three that no value satisfies, though each two agree.
    refused(&effects_with("1  1 1", "1  1 3", "1  1 5"), 16, 12);
    verified(&effects_with("1  1 1", "1  1 3", "1  1 0"), 1);
    verified(&effects_with("1  1 1", "1  1 3", "1  1 2"), 1);
    refused(&effects_with("1  1 1", "1  1 3", "1  1 4"), 16, 12);
    verified(&effects_with("1  1 1", "1  1 3", "2  1 3  1 5"), 1);
    // Without an executability line, and the same value twice.
    verified(
        "1 3 2 | 0 | 2  0  0 0  0    0  0 2  0 | 1  1 0 | 0 | 0 0 | 0 | 0",
        1,
    );
    verified(
        "1 3 1 | 0 | 2  0  0 2  0    0  0 2  0 | 1  0 0 | 0 | 0 0 | 0 | 0",
        1,
    );
}

#[test]
fn an_action_with_effects_senses_nothing() {
    refused(
        "1 3 1 | 0 | 1  0  0 2  0 | 1  0 0 | 1  0 0 | 0 0 | 0 | 0",
        17,
        13,
    );
}

#[test]
fn conditions_are_exclusive() {
    let two = |one: &str, other: &str| {
        format!("2 3 3 1 | 0 | 0 | 0 | 0 | 0 1 255 2  {one}  0 0  {other}  0 0 | 0 | 0")
    };
    let mut stuck = |one: &str, other: &str| writes(&two(one, other), 2, 10, 0, &[0, 0]);
    stuck("1  0 0", "1  0 2");
    stuck("1  0 0", "1  0 1");
    stuck("2  0 1  0 3", "1  0 5");
    stuck("2  0 0  1 0", "2  0 0  1 4");
    refused(&two("1  0 1", "1  0 3"), 18, 10);
    refused(&two("1  0 0", "1  0 3"), 18, 10);
    refused(&two("1  0 0", "1  1 0"), 18, 10);
    refused(&two("0", "1  1 0"), 18, 10);
}

#[test]
fn what_stands_outside() {
    let request = bytes(&traffic_light("0 1 0 | 0 | 1 0"));
    let mut longer = request.clone();
    longer.push(0);
    assert_eq!(run(&longer, BUDGET).0, answer(20, 1, 17, 0));
    assert_eq!(run(&[1; 16_385], BUDGET).0, answer(10, 1, 0, 0));
    for length in [0, 64, 127, 129] {
        let mut lent = vec![LENT; length];
        assert_eq!(
            judge_values(&request, &mut lent, BUDGET),
            answer(9, 0, 0, 0)
        );
        assert_eq!(lent, vec![LENT; length]);
    }
}
