//! The walk: what is counted, what ends it, what is written, and how deep it goes.

mod common;

use common::*;
use oracle::encode::encode_request;
use oracle::generate::forget_and_sense;
use oracle::reader::FLUENT_LIMIT;
use oracle::table::Known;
use oracle::{judge, judge_line, open, paths, walk, worlds, STATE_LENGTH};

#[test]
fn a_stuck_item_at_the_budget() {
    // Look, then convert, which can't be run: met at count 1.
    let request = table_a("0 2 0 2 0 0");
    let stuck = (answer(2, 1, 32, 1), state("+---"));
    assert_eq!(run(&request, 1), stuck);
    assert_eq!(run(&request, 2), stuck);
    expect(&request, 0, 3, 0, 0, 0);
    // With budget 0: a first item that can't be run, and the empty plan.
    assert_eq!(
        run(&table_a("0 1 2 0 0"), 0),
        (answer(2, 1, 31, 0), state("?---"))
    );
    expect(&table_a("0 0 0 0"), 0, 3, 0, 0, 0);
    expect(&table_a("0 0 0 0"), 1, 0, 0, 0, 1);
}

/// Expects a number, a place and the line that the answer carries, of both walks.
fn carries(request: &[u8], budget: u32, number: u8, place: u32, line: u32) {
    let mut lent = [LENT; STATE_LENGTH];
    let (answer, carried) = judge_line(request, &mut lent, budget);
    let given = (answer.number, answer.place, carried);
    assert_eq!(given, (number, place, line), "{request:?}");
    if let Ok(read) = open(request) {
        let second = paths::answer(&read, budget, 1_000).expect("few paths");
        assert_eq!(second.line, line as usize, "{request:?}");
    }
}

#[test]
fn the_line_that_lacks_least() {
    // Of four fluents 0 is known true and 1 known false; the plan is action 0, or the bytes given.
    let with = |section: &str, rest: &str| bytes(&format!("4 2 2 0 3 0 {section} {rest}"));
    let plan = "0 0 1 0 0 0";
    let stuck = |section: &str, place, line| carries(&with(section, plan), 100_000, 2, place, line);
    stuck("1  1 0", 12, 0);
    stuck("1  0 2 0 4", 14, 7);
    stuck("3  1 0  0 1 4  0 1 6", 18, 9);
    stuck("2  0 1 4  0 1 4", 16, 7);
    stuck("2  0 2 4 6  0 1 6", 17, 11);
    stuck("3  0 2 4 6  0 1 6  0 2 0 4", 21, 11);
    // Unknown and known false count alike.
    stuck("2  0 1 2  0 1 4", 16, 7);
    stuck("2  0 1 4  0 1 2", 16, 7);
    stuck("2  0 2 4 6  0 2 0 2", 18, 11);
    // A sensing action, a branching, and a later line that allows the action.
    carries(&with("1  0 1 4", "1 0 2  0 1 0 0 0"), 100_000, 2, 15, 7);
    let branching = "0  0 1 255 1 1 4 0 0  0 0";
    carries(&with("1  0 1 4", branching), 100_000, 2, 13, 0);
    carries(&with("2  0 1 4  0 0", plan), 100_000, 0, 0, 0);
}

#[test]
fn the_line_of_file_a() {
    let convert = table_a("0 1 2 0 0");
    carries(&convert, 100_000, 2, 31, 23);
    carries(&convert, 0, 2, 31, 23);
    // Open twice: it is lacking in the state that the first one left.
    carries(&table_a("0 2 1 1 0 0"), 100_000, 2, 32, 20);
    let unseen = table_a("0 1 255 2 1 1 0 2 1 2 1 0 0 0 1 7 1 2");
    carries(&unseen, 100_000, 2, 31, 0);
    // Every other answer carries none.
    carries(&file_a(), 100_000, 0, 0, 0);
    carries(&table_a("0 0 1 7 1 0"), 100_000, 1, 34, 0);
    carries(&file_a(), 4, 3, 0, 0);
    carries(&file_a()[..47], 100_000, 11, 47, 0);
    let mut short = [LENT; STATE_LENGTH - 1];
    let (answer, line) = judge_line(&convert, &mut short, 100_000);
    assert_eq!((answer.number, line), (9, 0));
}

#[test]
fn a_missed_goal_is_forgotten_where_an_item_cant_be_run() {
    // After look: where the bit is set the plan ends and misses goal 1; else convert is stuck.
    let request = table_a("0 2 0 255 2 1 0 0 0 1 1 0 1 2 1 2 0");
    failed(&request, 2, 42, 2, "----");
    // The other way round the stuck item comes first.
    let request = table_a("0 2 0 255 2 1 1 0 0 1 0 0 1 2 1 2 0");
    failed(&request, 2, 42, 1, "+---");
}

#[test]
fn the_first_miss_of_the_first_such_end_state() {
    // Look, then nothing; whether 0 is found, whether 1 is known, goals miss.
    failed(&table_a("0 1 0 2 1 7 0"), 1, 33, 3, "+---");
    failed(&table_a("0 1 0 2 0 7 0"), 1, 33, 3, "----");
    failed(&table_a("0 1 0 2 3 6 0"), 1, 34, 3, "+---");
    // Goals go before whether entries, also where a whether entry is missed earlier on.
    failed(&table_a("0 0 1 2 1 0"), 1, 32, 1, "?---");
    failed(&table_a("0 0 1 3 3 0 1 2"), 1, 34, 1, "?---");
    failed(&table_a("0 0 0 3 0 1 2"), 1, 33, 1, "?---");
    verified(&table_a("0 0 1 3 3 1 2 3"), 1);
}

/// Action 0 senses fluents 0 and 1, its lines in descending order and one of them twice.
fn two_sensed(tail: &str) -> Vec<u8> {
    let mut request = bytes("2 1 0 0 1 0 0 3 0 1 0 0 0 1");
    request.extend(bytes(tail));
    request
}

#[test]
fn the_smallest_fluent_turns_slowest() {
    // Branches that cover some readings only: the first one uncovered tells the order.
    let case = |conditions: &str| two_sensed(&format!("0 2 0 255 {conditions} 0 0"));
    failed(&case("1 2 1 3 0 0"), 2, 17, 1, "++");
    failed(&case("1 2 0 2 0 0"), 2, 17, 2, "+-");
    failed(&case("2 2 0 2 0 0 2 0 3 0 0"), 2, 17, 3, "-+");
    failed(&case("3 2 0 2 0 0 2 0 3 0 0 2 1 2 0 0"), 2, 17, 4, "--");
    verified(&case("4 2 0 2 0 0 2 0 3 0 0 2 1 2 0 0 2 1 3 0 0"), 5);
    verified(&two_sensed("0 1 0 0 2 0 1"), 5);
}

#[test]
fn end_states_in_the_order_of_the_walk() {
    let met = |tail: &str, budget: u32| {
        let request = open(&two_sensed(tail)).expect("a readable request");
        let ends = walk::ends(&request, budget)?;
        Some(ends.into_iter().map(Known::literals).collect::<Vec<_>>())
    };
    let all = vec![vec![0, 2], vec![0, 3], vec![1, 2], vec![1, 3]];
    assert_eq!(met("0 1 0 0 2 0 1", 5), Some(all.clone()));
    // A goal that is missed ends nothing. A spent budget does, and so does an item that can't be run.
    assert_eq!(met("0 1 0 1 0 0", 5), Some(all));
    assert_eq!(met("0 1 0 0 0", 4), None);
    assert_eq!(met("0 2 0 255 1 1 0 0 0 0 0", 5), None);
    assert_eq!(met("0 0 0 0", 1), Some(vec![vec![]]));
}

#[test]
fn sensing_what_is_known() {
    // Run and counted once, nothing forked.
    let mut request = two_sensed("0 2 0 0 0 2 0 1");
    verified(&request, 9);
    request[2] = 2;
    request.splice(3..3, [0, 3]);
    verified(&request, 3);
    // It needs an executability line like any other.
    let unallowed = bytes("1 1 1 0 0 0 1 0 0 0 1 0 0 0");
    failed(&unallowed, 2, 11, 0, "+");
}

#[test]
fn an_action_without_effects_or_knowledge() {
    let request = bytes("2 1 1 2 0 1 0 0 0 0 2 0 0 1 2 0");
    verified(&request, 3);
    // Without an executability line it is never run, not even with an empty table.
    failed(&bytes("1 1 0 0 0 0 0 1 0 0 0"), 2, 8, 0, "?");
}

#[test]
fn executability_needs_one_whole_body() {
    let request = |facts: &str| {
        bytes(&format!(
            "3 1 {facts} | 0 | 2 0 2 0 2 0 1 5 | 0 | 0 1 0 | 0 | 0"
        ))
    };
    verified(&request("2 0 2"), 2);
    verified(&request("1 5"), 2);
    assert_eq!(run(&request("1 0"), 9).0.number, 2);
    assert_eq!(run(&request("2 0 3"), 9).0.number, 2);
    assert_eq!(run(&request("1 4"), 9).0.number, 2);
}

#[test]
fn branchings_are_not_counted() {
    let plan = "0 3  255 1 0 0 1 255 1 0 0 0  255 1 1 3 0 0  255 1 0 0 0";
    verified(&table_a(&format!("{plan} 0 0")), 1);
}

#[test]
fn what_follows_the_branching_is_walked_in_each_branch() {
    // File A's plan, then look again in both branches.
    let plan = "0 3  0  255 2  1 1 0 2 1 2  1 0 0 0  0";
    verified(&table_a(&format!("{plan} 1 7 1 2")), 7);
}

#[test]
fn an_unknown_condition_is_not_false() {
    failed(&table_a("0 1 255 2 1 0 0 0 1 1 0 0 0 0"), 2, 31, 0, "?---");
}

#[test]
fn possible_effects_take_knowledge_away() {
    // Fluent 1 unknown; the action makes 0 false if 1: then 0 isn't known any more.
    let request = |facts: &str, goal: u8| {
        bytes(&format!(
            "2 1 {facts} | 1 0 1 1 2 | 1 0 0 | 0 | 0 1 0 | 1 {goal} | 0"
        ))
    };
    failed(&request("1 0", 0), 1, 17, 2, "??");
    verified(&request("2 0 3", 0), 2);
    verified(&request("2 0 2", 1), 2);
    verified(&request("1 1", 1), 2);
    // Made true again by a body that is known, while the other one is known false.
    let both = "2 1 2 0 2 | 2 0 0 1 2 0 1 1 3 | 1 0 0 | 0 | 0 1 0 | 1 0 | 0";
    verified(&bytes(both), 2);
}

#[test]
fn repeated_lines_change_nothing() {
    let once = bytes("2 2 1 3 | 1 0 0 1 3 | 2 0 0 1 1 3 | 1 1 1 | 0 2 0 1 | 1 0 | 0");
    let twice = bytes(
        "2 2 1 3 | 2 0 0 1 3 0 0 1 3 | 4 0 0 1 1 3 0 0 1 1 3 | 2 1 1 1 1 | 0 2 0 1 | 1 0 | 0",
    );
    verified(&once, 3);
    verified(&twice, 3);
}

#[test]
fn bytes_from_the_number_of_fluents_up_are_cleared() {
    for lent in [0, 1, 255].map(|byte| [byte; STATE_LENGTH]) {
        let mut written = lent;
        let answer = judge(&table_a("0 0 1 2 0"), &mut written, 9);
        assert_eq!(answer.number, 1);
        assert_eq!(written, state("?---"));
        let mut kept = lent;
        assert_eq!(judge(&file_a(), &mut kept, 4).number, 3);
        assert_eq!(kept, lent);
    }
}

#[test]
fn the_deepest_walk() {
    // 512 times: sense all fluents but one, then make them unknown again: 65,024 forks on one path.
    let draft = forget_and_sense(FLUENT_LIMIT as u8 - 1, 512);
    let request = encode_request(&draft).bytes;
    for budget in [0, 1, 1_024, 1_025, 100_000] {
        expect(&request, budget, 3, 0, 0, budget);
    }
    let read = open(&request).expect("a readable request");
    let second = paths::answer(&read, 5, 1_000).expect("few paths").answer;
    assert_eq!(second, answer(3, 0, 0, 5));
    // A goal that is missed in each end state doesn't change it; one more item that can't be
    // run is met on the first path.
    let mut stuck = draft.clone();
    stuck.actions = 3;
    stuck.plan.truncate(1_023);
    stuck.plan.push(oracle::model::Item::act(2));
    let request = encode_request(&stuck).bytes;
    let mut lent = [LENT; STATE_LENGTH];
    let found = judge(&request, &mut lent, 1_023);
    assert_eq!((found.number, found.count), (2, 1_023));
    assert_eq!(lent, state(&format!("{}?", "+".repeat(FLUENT_LIMIT - 1))));
    expect(&request, 1_022, 3, 0, 0, 1_022);
}

#[test]
fn forks_within_eight_branchings() {
    // Each branching looks again at a fluent that the one before made unknown.
    let mut plan = bytes("0 2 0 1");
    for _ in 0..8 {
        let mut outer = bytes("0 4 0 255 2 1 0");
        outer.extend(&plan);
        outer.extend(bytes("1 1 0 0 1 0"));
        plan = outer;
    }
    let mut request = bytes("2 2 0 | 2 1 0 1 2 1 1 1 3 | 2 0 0 1 0 | 1 0 0");
    request.extend(plan);
    request.extend([0, 0]);
    let (found, _) = run(&request, 100_000);
    assert_eq!(found.number, 0);
    let read = open(&request).expect("a readable request");
    let second = paths::answer(&read, 100_000, 100_000)
        .expect("few paths")
        .answer;
    assert_eq!(second, found);
    assert_eq!(worlds::carry_out(&read), Ok(4));
}

#[test]
fn a_count_of_exactly_the_largest_power() {
    // k sensing actions on k fluents count 2^(k+1) - 1.
    for sensing in 1..=12u8 {
        let (request, _) = oracle::prove::many_readings(sensing);
        let request = encode_request(&request).bytes;
        let count = (1 << (sensing + 1)) - 1;
        expect(&request, count, 0, 0, 0, count);
        expect(&request, count - 1, 3, 0, 0, count - 1);
    }
}
