//! Reading and settling: 10 to 21, where they meet at one byte, and in which order.

mod common;

use common::*;
use oracle::check;
use oracle::reader::{ACTION_LIMIT, FLUENT_LIMIT};

/// `fluents` and `actions`, nothing else before the plan, and an action 0 that may be run.
fn with_plan(fluents: u8, actions: u8, plan: &[u8], tail: &str) -> Vec<u8> {
    let mut request = vec![fluents, actions, 0, 0, 1, 0, 0, 0];
    request.extend(plan);
    request.extend(bytes(tail));
    request
}

/// Where the plan starts in these.
const PLAN: u32 = 8;

/// So many branchings, each the only item of the one before it, down to an item count.
fn nested(depth: usize) -> Vec<u8> {
    let mut plan = Vec::new();
    for _ in 0..depth {
        plan.extend([0, 1, 255, 1, 0]);
    }
    plan
}

/// A sequence of so many actions 0.
fn flat(items: u16) -> Vec<u8> {
    let mut plan = items.to_be_bytes().to_vec();
    plan.resize(2 + usize::from(items), 0);
    plan
}

#[test]
fn order_goes_before_complement() {
    refused(&bytes("2 1 2 1 0"), 14, 4);
    refused(&bytes("2 1 2 0 0"), 14, 4);
    refused(&bytes("2 1 2 0 1"), 15, 4);
    refused(&bytes("2 1 2 1 2"), 11, 5);
}

#[test]
fn fluents_have_no_complements() {
    let request = with_plan(4, 1, &[0, 0], "0 4 0 1 2 3");
    failed(&request, 1, PLAN + 4, 1, "????");
    refused(&with_plan(4, 1, &[0, 0], "0 2 3 2"), 14, PLAN + 5);
    refused(&with_plan(4, 1, &[0, 0], "0 2 2 2"), 14, PLAN + 5);
    refused(&with_plan(4, 1, &[0, 0], "0 2 2 4"), 13, PLAN + 5);
}

#[test]
fn too_large_bytes() {
    // A literal from 2n on, as fact, effect, body, condition and goal.
    refused(&bytes("2 2 1 4"), 13, 3);
    refused(&bytes("2 2 0 1 0 4"), 13, 5);
    refused(&bytes("2 2 0 1 0 3 1 4"), 13, 7);
    refused(&bytes("2 2 0 0 1 0 1 255"), 13, 7);
    refused(&with_plan(2, 1, &bytes("0 1 255 1 1 4"), ""), 13, PLAN + 5);
    refused(&with_plan(2, 1, &[0, 0], "1 4 0"), 13, PLAN + 3);
    // A fluent from n on.
    refused(&bytes("2 2 0 0 0 1 0 2"), 13, 7);
    // An action from m on.
    refused(&bytes("2 2 0 1 2"), 13, 4);
    refused(&bytes("2 2 0 0 1 2"), 13, 5);
    refused(&bytes("2 2 0 0 0 1 2"), 13, 6);
    for byte in [2, 3, 63, 64, 128, 254] {
        refused(&with_plan(2, 2, &[0, 1, byte], ""), 13, PLAN + 2);
    }
    refused(&with_plan(2, 2, &[0, 1, 255], ""), 11, PLAN + 3);
    // 13 goes before 14 and 15.
    refused(&bytes("1 1 2 0 2"), 13, 4);
    refused(&bytes("64 1 2 127 128"), 13, 4);
}

#[test]
fn bytes_too_large_for_the_most_fluents_and_actions() {
    // Item bytes from 128 on are no actions, and 255 is a branching.
    for byte in 128..=254 {
        refused(&with_plan(2, 128, &[0, 1, byte], ""), 13, PLAN + 2);
    }
    failed(
        &with_plan(2, 128, &[0, 1, 127], "0 0"),
        2,
        PLAN + 2,
        0,
        "??",
    );
    refused(&with_plan(2, 127, &[0, 1, 127], "0 0"), 13, PLAN + 2);
    refused(&with_plan(2, 128, &[0, 1, 255], "0 0"), 12, PLAN + 3);
    // The two largest literals are those of fluent 127.
    for byte in [254, 255] {
        let facts = |fluents: u8| [&[fluents, 1, 1, byte][..], &[0; 7]].concat();
        refused(&facts(127), 13, 3);
        verified(&facts(128), 1);
    }
    // A fluent is a byte of its own.
    let whether =
        |fluents: u8, fluent: u8| [&[fluents, 1, 0, 0, 0, 0, 0, 0, 0, 1][..], &[fluent]].concat();
    for fluent in [128, 255] {
        refused(&whether(128, fluent), 13, 10);
    }
    refused(&whether(127, 127), 13, 10);
    failed(&whether(128, 127), 1, 10, 1, &"?".repeat(128));
}

#[test]
fn largest_bytes_that_are_read() {
    let [fluents, actions] = [FLUENT_LIMIT, ACTION_LIMIT].map(|limit| limit as u8);
    let literals = || (0..fluents).map(|fluent| 2 * fluent + 1);
    let mut request = vec![fluents, actions, fluents];
    request.extend(literals());
    request.extend([1, actions - 1, 2 * (fluents - 1) + 1, 0]);
    request.extend([1, actions - 1, 0]);
    request.extend([0, 0, 1, actions - 1]);
    request.push(fluents);
    request.extend(literals());
    request.push(fluents);
    request.extend(0..fluents);
    verified(&request, 2);
}

#[test]
fn a_list_may_claim_more_than_the_table_has() {
    refused(&bytes("2 1 10 0 2 4"), 13, 5);
    refused(&bytes("2 1 10 0 2 2"), 14, 5);
    refused(&bytes("2 1 10 0 1"), 15, 4);
    refused(&bytes("2 1 10 0 2"), 11, 5);
}

#[test]
fn counts_outside_their_limits() {
    refused(&[0], 12, 0);
    refused(&[129], 12, 0);
    refused(&[1, 0], 12, 1);
    refused(&[1, 129], 12, 1);
    refused(&[2, 1, 129], 12, 2);
    refused(&bytes("2 1 0 1 0 0 17"), 12, 6);
    refused(&bytes("2 1 0 0 1 0 17"), 12, 6);
    refused(&with_plan(2, 1, &bytes("0 1 255 0"), ""), 12, PLAN + 3);
    refused(&with_plan(2, 1, &bytes("0 1 255 9"), ""), 12, PLAN + 3);
    refused(&with_plan(2, 1, &bytes("0 1 255 1 17"), ""), 12, PLAN + 4);
    refused(&with_plan(2, 1, &[0, 0], "129"), 12, PLAN + 2);
    refused(&with_plan(2, 1, &[0, 0], "0 129"), 12, PLAN + 3);
    // Up to 128 they are within.
    for count in [65, 128] {
        refused(&[count], 11, 1);
        refused(&[1, count], 11, 2);
        refused(&[2, 1, count], 11, 3);
        let count = count.to_string();
        refused(&with_plan(2, 1, &[0, 0], &count), 11, PLAN + 3);
        refused(
            &with_plan(2, 1, &[0, 0], &format!("0 {count}")),
            11,
            PLAN + 4,
        );
    }
    // Sections 3 to 5 take any count.
    refused(&bytes("2 1 0 255"), 11, 4);
    refused(&bytes("2 1 0 0 255"), 11, 5);
    refused(&bytes("2 1 0 0 0 255"), 11, 6);
}

#[test]
fn a_body_of_sixteen_literals() {
    let mut request = vec![16, 1, 0, 1, 0, 0, 16];
    request.extend((0..16).map(|fluent| 2 * fluent));
    request.extend([0, 0, 0, 0, 0, 0]);
    verified(&request, 1);
}

#[test]
fn every_start_of_a_request_ends_too_soon() {
    let request = file_a();
    for length in 0..request.len() {
        refused(&request[..length], 11, length as u32);
    }
}

#[test]
fn half_a_two_byte_count() {
    refused(&with_plan(2, 1, &[255], ""), 11, PLAN + 1);
    refused(&with_plan(2, 1, &[0], ""), 11, PLAN + 1);
    let request = file_a_without_whether();
    assert_eq!(check(&request, &[]), answer(11, 2, 0, 0));
    assert_eq!(check(&request, &[4]), answer(11, 2, 1, 0));
    assert_eq!(check(&request, &[255]), answer(11, 2, 1, 0));
    assert_eq!(check(&request, &[4, 1]), answer(12, 2, 0, 0));
    assert_eq!(check(&request, &[255, 255]), answer(12, 2, 0, 0));
    assert_eq!(check(&request, &[0, 0]), answer(12, 2, 0, 0));
    assert_eq!(check(&request, &[0, 0, 7]), answer(12, 2, 0, 0));
    assert_eq!(check(&request, &[4, 0]), answer(11, 2, 2, 0));
}

#[test]
fn nine_branchings() {
    let mut eight = nested(8);
    eight.extend([0, 0]);
    verified(&with_plan(1, 1, &eight, "0 0"), 1);
    let mut nine = nested(8);
    nine.extend([0, 1, 255]);
    refused(&with_plan(1, 1, &nine, ""), 19, PLAN + 42);
    nine.extend([9, 9, 9]);
    refused(&with_plan(1, 1, &nine, ""), 19, PLAN + 42);
    // Eight branchings inside one another, and then again eight, are no nine.
    let mut twice = vec![0, 2];
    for _ in 0..2 {
        twice.extend(&nested(8)[2..]);
        twice.extend([0, 0]);
    }
    verified(&with_plan(1, 1, &twice, "0 0"), 1);
}

#[test]
fn item_1025() {
    verified(&with_plan(1, 1, &flat(1_024), "0 0"), 1_025);
    refused(&with_plan(1, 1, &flat(1_025), "0 0"), 21, PLAN + 2 + 1_024);
    // Whatever byte it starts with; where there is none it is 11.
    for byte in [1, 254, 255] {
        let mut plan = flat(1_024);
        plan[1] = 1;
        plan.push(byte);
        refused(&with_plan(1, 1, &plan, ""), 21, PLAN + 2 + 1_024);
    }
    let mut short = flat(1_024);
    short[1] = 1;
    refused(&with_plan(1, 1, &short, ""), 11, PLAN + 2 + 1_024);
}

#[test]
fn items_of_all_branches_are_counted() {
    // One branching with 500 items in a branch that is never walked, and 523 after it.
    let mut plan = bytes("2 12 255 1 1 0");
    plan.extend(flat(500));
    plan.resize(plan.len() + 523, 0);
    let full = with_plan(1, 1, &plan, "0 0");
    failed(&full, 2, PLAN + 2, 0, "?");
    plan[1] += 1;
    plan.push(0);
    let place = PLAN + plan.len() as u32 - 1;
    refused(&with_plan(1, 1, &plan, "0 0"), 21, place);
}

#[test]
fn item_1025_goes_before_the_ninth_branching() {
    // Eight branchings, then 1,016 actions in the innermost, then a byte 255.
    let mut plan = nested(8);
    plan.extend((1_017u16).to_be_bytes());
    plan.resize(plan.len() + 1_016, 0);
    plan.push(255);
    let place = PLAN + plan.len() as u32 - 1;
    refused(&with_plan(1, 1, &plan, ""), 21, place);
    // One action less, and it is the ninth branching.
    let mut plan = nested(8);
    plan.extend((1_016u16).to_be_bytes());
    plan.resize(plan.len() + 1_015, 0);
    plan.push(255);
    let place = PLAN + plan.len() as u32 - 1;
    refused(&with_plan(1, 1, &plan, ""), 19, place);
}

#[test]
fn an_item_count_is_never_refused() {
    let mut plan = vec![255, 255];
    plan.resize(2 + 1_024, 0);
    refused(&with_plan(1, 1, &plan, ""), 11, PLAN + 2 + 1_024);
    plan.push(0);
    refused(&with_plan(1, 1, &plan, ""), 21, PLAN + 2 + 1_024);
    refused(&with_plan(1, 1, &[255, 255, 7], ""), 13, PLAN + 2);
    refused(&with_plan(1, 1, &[4, 1], ""), 11, PLAN + 2);
}

#[test]
fn bytes_left_go_before_settling() {
    // Contradictory effects, a mixed action and overlapping conditions, with and without a
    // byte too many.
    let table = "1 1 0 | 2 0 0 0 0 1 0 | 1 0 0 | 1 0 0";
    let mut request = bytes(table);
    request.extend(bytes("0 1 255 2 0 0 0 0 0 0 | 0 | 0"));
    refused(&request, 16, 7);
    request.push(0);
    refused(&request, 20, request.len() as u32 - 1);
}

#[test]
fn settling_is_three_passes() {
    // The overlap stands after the mixed action, this after the contradiction, whatever the
    // places are: each is found once those before it are gone.
    let overlap = "0 1 255 2 0 0 0 0 0 0 | 0 | 0";
    let mixed = bytes(&format!("1 1 0 | 1 0 0 0 | 0 | 1 0 0 | {overlap}"));
    refused(&mixed, 17, 9);
    let plain = bytes(&format!("1 1 0 | 0 | 0 | 1 0 0 | {overlap}"));
    refused(&plain, 18, 10);
}

#[test]
fn contradictory_effects() {
    let settled =
        |effects: &str| bytes(&format!("3 2 0 | {effects} | 2 0 0 1 0 | 0 | 0 0 | 0 | 0"));
    // The pairs are of lines 0 and 3, and of 1 and 2: line 2 is the earliest later one.
    refused(&settled("4  0 0 0  0 2 0  0 3 0  0 1 0"), 16, 10);
    // Other actions, equal literals and exclusive bodies contradict nothing.
    verified(&settled("2  0 0 0  1 1 0"), 1);
    verified(&settled("2  0 0 0  0 0 0"), 1);
    verified(&settled("2  0 0 1 2  0 1 1 3"), 1);
    verified(&settled("2  0 0 2 2 4  0 1 2 0 5"), 1);
    refused(&settled("2  0 0 1 2  0 1 1 4"), 16, 8);
    refused(&settled("2  0 0 1 2  0 1 0"), 16, 8);
    // A body that holds the effect's own literal is nothing special.
    verified(&settled("2  0 0 1 1  0 1 1 0"), 1);
    // An action that senses, too: 16 goes first.
    refused(
        &bytes("1 1 0 | 2 0 0 0 0 1 0 | 1 0 0 | 1 0 0 | 0 0 | 0 | 0"),
        16,
        7,
    );
}

#[test]
fn effects_that_clash_where_the_action_cannot_be_run() {
    let settled = |effects: &str, lines: &str| {
        bytes(&format!("3 2 0 | {effects} | {lines} | 0 | 0 0 | 0 | 0"))
    };
    // No line, or lines of another action only.
    verified(&settled("2  0 4 0  0 5 0", "0"), 1);
    verified(&settled("2  0 4 0  0 5 0", "2  1 0  1 0"), 1);
    refused(&settled("2  0 4 0  0 5 0", "1  0 0"), 16, 7);
    refused(&settled("2  0 4 0  0 5 0", "2  1 1 0  0 1 0"), 16, 7);
    // A line against the first body, against the second, against neither.
    verified(&settled("2  0 4 1 0  0 5 0", "1  0 1 1"), 1);
    verified(&settled("2  0 4 0  0 5 1 0", "1  0 1 1"), 1);
    refused(&settled("2  0 4 1 0  0 5 0", "1  0 1 2"), 16, 8);
    // A line against each body, in either order, and one against neither.
    let apart = "2  0 4 1 0  0 5 1 2";
    verified(&settled(apart, "2  0 1 1  0 1 3"), 1);
    verified(&settled(apart, "2  0 1 3  0 1 1"), 1);
    verified(&settled(apart, "1  0 2 1 3"), 1);
    refused(&settled(apart, "3  0 1 1  0 1 3  0 1 4"), 16, 8);
    refused(&settled(apart, "2  0 1 0  0 1 1"), 16, 8);
    // The literals of the effects do not count: the line may hold either.
    refused(&settled(apart, "1  0 1 5"), 16, 8);
    // The first pair can't meet, the second can: the third line is the place.
    refused(&settled("3  0 2 0  0 3 1 0  0 3 1 4", "1  0 1 1"), 16, 11);
    // An action that senses, too.
    verified(
        &bytes("1 2 0 | 2 0 0 0 0 1 0 | 1 1 0 | 1 1 0 | 0 0 | 0 | 0"),
        1,
    );
    refused(
        &bytes("1 1 0 | 2 0 0 0 0 1 0 | 0 | 1 0 0 | 0 0 | 0 | 0"),
        17,
        12,
    );
}

#[test]
fn mixed_actions() {
    // First in the order of the file, not of the smallest action.
    let request = bytes("1 3 0 | 2 0 0 0 2 0 0 | 0 | 3 1 0 2 0 0 0 | 0 0 | 0 | 0");
    refused(&request, 17, 14);
}

#[test]
fn overlapping_conditions() {
    let settled = |plan: &str| with_plan(3, 1, &bytes(plan), "0 0");
    // An outer branching stands before the inner one, which stands before the next.
    refused(
        &settled("0 1 255 2  0 0 1 255 2 0 0 0 0 0 0  0 0 0"),
        18,
        PLAN + 2,
    );
    refused(
        &settled("0 1 255 2  1 0 0 1 255 2 0 0 0 0 0 0  1 1 0 0"),
        18,
        PLAN + 8,
    );
    refused(&settled("0 2 255 1 0 0 0  255 2 0 0 0 0 0 0"), 18, PLAN + 7);
    // All pairs are compared, not neighbours only.
    refused(
        &settled("0 1 255 3  1 0 0 0  2 1 2 0 0  1 0 0 0"),
        18,
        PLAN + 2,
    );
    refused(
        &settled("0 1 255 3  2 0 2 0 0  1 1 0 0  1 0 0 0"),
        18,
        PLAN + 2,
    );
    // An empty condition is exclusive with none, and alone it is always known true.
    refused(&settled("0 1 255 2  0 0 0  1 0 0 0"), 18, PLAN + 2);
    verified(&settled("0 1 255 1  0 0 0"), 1);
    // Exclusive by one of several literals.
    failed(
        &settled("0 1 255 2  2 0 2 0 0  2 1 2 0 0"),
        2,
        PLAN + 2,
        0,
        "???",
    );
}

#[test]
fn a_request_too_long_goes_first() {
    refused(&vec![0; 16_385], 10, 0);
    let request = file_a_without_whether();
    assert_eq!(check(&vec![0; 16_385], &[]), answer(10, 1, 0, 0));
    assert_eq!(check(&request, &vec![0; 32_769]), answer(10, 2, 0, 0));
    assert_eq!(check(&request, &vec![0; 32_768]), answer(12, 2, 0, 0));
}
