//! The showing call, the worlds, and the command line.

mod common;

use std::process::Command;

use common::*;
use oracle::worlds::{carry_out, Failure};
use oracle::{open, show, shown};

const REQUEST: &[u8] = &[10, 11, 12];
const DERIVATION: &[u8] = &[20, 21];

#[test]
fn an_answer_shows_the_rest_of_its_input() {
    for (place, rest) in [(0, 3), (1, 2), (2, 1), (3, 0), (4, 0), (u32::MAX, 0)] {
        let given = answer(11, 1, place, 0);
        assert_eq!(show(given, REQUEST, DERIVATION), (1, 3 - rest));
        assert_eq!(shown(given, REQUEST, DERIVATION), &REQUEST[3 - rest..]);
    }
    assert_eq!(show(answer(34, 2, 1, 0), REQUEST, DERIVATION), (2, 1));
    assert_eq!(shown(answer(34, 2, 1, 0), REQUEST, DERIVATION), &[21]);
    assert_eq!(show(answer(34, 2, 2, 0), REQUEST, DERIVATION), (2, 2));
    assert_eq!(show(answer(34, 2, 3, 0), REQUEST, DERIVATION), (2, 2));
}

#[test]
fn an_answer_that_names_neither_shows_nothing() {
    for input in [0, 3, 4, 255] {
        for place in [0, 1, 9] {
            let given = answer(0, input, place, 5);
            assert_eq!(show(given, REQUEST, DERIVATION), (0, 0));
            assert!(shown(given, REQUEST, DERIVATION).is_empty());
        }
    }
}

fn carried_out(request: &[u8]) -> Result<u64, Failure> {
    carry_out(&open(request).expect("a readable request"))
}

#[test]
fn file_a_in_its_worlds() {
    assert_eq!(carried_out(&file_a()), Ok(2));
    assert_eq!(carried_out(&table_a("0 1 1 1 7 1 2")), Err(Failure::Goal));
    assert_eq!(
        carried_out(&table_a("0 1 255 1 1 0 0 0 0 0")),
        Err(Failure::NoBranch)
    );
    assert_eq!(
        carried_out(&table_a("0 1 2 0 0")),
        Err(Failure::NotRunnable)
    );
    assert_eq!(carried_out(&table_a("0 0 1 7 1 0")), Err(Failure::Whether));
    assert_eq!(carried_out(&table_a("0 1 0 1 7 1 0")), Ok(2));
}

#[test]
fn a_branch_must_hold_in_all_possible_worlds() {
    // The bit isn't looked at: in each true world one condition holds, but not in all worlds.
    let mut request = table_a("0 1");
    request.extend(&file_a()[32..48]);
    assert_eq!(carried_out(&request), Err(Failure::NoBranch));
}

#[test]
fn sensing_sees_the_world_as_it_has_become() {
    // Fluent 0 is turned, then sensed, then branched on: made true where it is false now.
    let request = bytes(
        "1 3 0 | 3  0 0 1 1  0 1 1 0  2 0 0 | 3 0 0 1 0 2 0 | 1 1 0 | \
         0 3  0 1  255 2  1 0 0 0  1 1 0 1 2 | 1 0 | 0",
    );
    verified(&request, 5);
    assert_eq!(carried_out(&request), Ok(2));
}

#[test]
fn every_world_reaches_the_goal_though_the_walk_misses_it() {
    let request = bytes("2 1 0 2 0 0 1 2 0 0 1 3 1 0 0 0 0 1 0 1 0 0");
    assert_eq!(carried_out(&request), Ok(4));
}

fn oracle(words: &[&str]) -> (String, bool) {
    let output = Command::new(env!("CARGO_BIN_EXE_oracle"))
        .args(words)
        .output();
    let output = output.expect("the program runs");
    (
        String::from_utf8(output.stdout).expect("text"),
        output.status.success(),
    )
}

#[test]
fn the_command_line() {
    let folder = std::env::temp_dir().join(format!("oracle-test-{}", std::process::id()));
    std::fs::create_dir_all(&folder).expect("a folder");
    let write = |name: &str, bytes: &[u8]| {
        let path = folder.join(name);
        std::fs::write(&path, bytes).expect("a file");
        path.to_str().expect("a name").to_string()
    };
    let file = write("a", &file_a());
    assert_eq!(oracle(&["judge", &file]), ("0 0 0 5\n".to_string(), true));
    let over = oracle(&["judge", &file, "--budget", "4"]);
    assert_eq!(over, ("3 0 0 4\n".to_string(), true));
    let missed = write("b", &table_a("0 1 1 1 7 1 2"));
    assert_eq!(
        oracle(&["judge", &missed]),
        ("1 1 33 2\n?+-?\n".to_string(), true)
    );
    let empty = write("c", &[]);
    assert_eq!(oracle(&["judge", &empty]), ("11 1 0 0\n".to_string(), true));
    assert_eq!(
        oracle(&["check", &file, &empty]),
        ("30 1 46 0\n".to_string(), true)
    );
    let text = write("d", b"4 1 | # nothing more");
    assert_eq!(
        oracle(&["judge", &text, "--text"]),
        ("11 1 2 0\n".to_string(), true)
    );
    let (told, right) = oracle(&["examples"]);
    assert!(right && told.ends_with("oracle: ok\n"));
    assert!(!oracle(&["no-such-command"]).1);
    std::fs::remove_dir_all(&folder).expect("the folder goes");
}
