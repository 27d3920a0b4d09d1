//! The numbered cases that come with the format.

mod common;

use common::*;
use oracle::{check, judge};

#[test]
fn case_01_file_a() {
    assert_eq!(file_a().len(), 48);
    verified(&file_a(), 5);
}

#[test]
fn case_02_open_unseen() {
    failed(&table_a("0 1 1 1 7 1 2"), 1, 33, 2, "?+-?");
}

#[test]
fn case_03_branching_without_look() {
    let mut request = table_a("0 1");
    request.extend(&file_a()[32..48]);
    failed(&request, 2, 31, 0, "?---");
}

#[test]
fn case_04_budgets() {
    expect(&file_a(), 4, 3, 0, 0, 4);
    expect(&file_a(), 5, 0, 0, 0, 5);
}

#[test]
fn case_05_empty_plan_without_goals() {
    verified(&table_a("0 0 0 0"), 1);
}

#[test]
fn case_06_empty_plan_misses_whether() {
    failed(&table_a("0 0 1 7 1 0"), 1, 34, 1, "?---");
}

#[test]
fn case_07_convert_unopened() {
    failed(&table_a("0 1 2 0 0"), 2, 31, 0, "?---");
}

#[test]
fn case_08_look_finds_whether() {
    verified(&table_a("0 1 0 0 1 0"), 3);
}

#[test]
fn case_09_look_twice() {
    verified(&table_a("0 2 0 0 0 0"), 5);
}

#[test]
fn case_10_every_world_reaches_the_goal() {
    let request = bytes("2 1 0 2 0 0 1 2 0 0 1 3 1 0 0 0 0 1 0 1 0 0");
    failed(&request, 1, 20, 2, "??");
}

#[test]
fn case_11_ends() {
    refused(&[], 11, 0);
    refused(&file_a()[..47], 11, 47);
    for extra in [0, 1, 255] {
        let mut longer = file_a();
        longer.push(extra);
        refused(&longer, 20, 48);
    }
}

#[test]
fn case_12_one_byte_changed() {
    refused(&changed(0, 0), 12, 0);
    refused(&changed(0, 129), 12, 0);
    refused(&changed(5, 8), 13, 5);
    refused(&changed(5, 5), 14, 5);
    refused(&changed(3, 4), 15, 4);
    refused(&changed(11, 3), 16, 10);
    refused(&changed(27, 1), 17, 27);
    refused(&changed(41, 1), 18, 32);
}

#[test]
fn case_13_lengths() {
    for length in [0, 63, 64, 65, 127, 129] {
        let mut lent = vec![LENT; length];
        assert_eq!(judge(&file_a(), &mut lent, 100_000), answer(9, 0, 0, 0));
        assert_eq!(lent, vec![LENT; length]);
        // 9 goes before everything else.
        assert_eq!(judge(&[0; 16_385], &mut lent, 0), answer(9, 0, 0, 0));
        assert_eq!(judge(&[], &mut lent, 0), answer(9, 0, 0, 0));
    }
    refused(&[0; 16_385], 10, 0);
    let mut long = file_a();
    long.resize(16_384, 0);
    refused(&long, 20, 48);
    long.push(0);
    refused(&long, 10, 0);
}

/// The derivation of nine lines for File A with an empty whether list, with the citations of
/// its last line as given.
fn nine_lines(last_citations: &str) -> Vec<u8> {
    let branching = "255 2  1 1 0 2 1 2  1 0 0 0";
    let set = "4 0 3 5 7";
    let clear = "4 1 3 5 7";
    let lines = [
        // 0: bit set, empty plan, rule 1; 1: weakened to the goal; 2: the branching.
        format!("{set} 0 0 {set} 1 0"),
        format!("{set} 0 0 1 7 6 1 0 0"),
        format!("{set} 0 1 {branching} 1 7 4 1 0 1"),
        // 3 and 4: bit clear, open, then convert; 5: joined; 6: weakened; 7: the branching.
        format!("{clear} 0 1 1 4 1 2 5 7 2 0"),
        "4 1 2 5 7 0 1 2 4 1 2 4 7 2 0".to_string(),
        format!("{clear} 0 2 1 2 4 1 2 4 7 5 2 0 3 0 4"),
        format!("{clear} 0 2 1 2 1 7 6 1 0 5"),
        format!("{clear} 0 1 {branching} 1 7 4 1 0 6"),
        // 8: look, rule 3 over both.
        format!("3 3 5 7 0 2 0 {branching} 1 7 3 {last_citations}"),
    ];
    let mut derivation = bytes("0 9");
    for line in lines {
        derivation.extend(bytes(&line));
    }
    derivation
}

#[test]
fn case_14_derivation_of_nine_lines() {
    let request = file_a_without_whether();
    verified(&request, 5);
    let accepted = nine_lines("2 0 2 0 7");
    assert_eq!(check(&request, &accepted), answer(0, 0, 0, 0));

    let last = last_line(&accepted, 4);
    assert_eq!(
        check(&request, &nine_lines("2 0 7 0 2")),
        answer(34, 2, last, 0)
    );
    assert_eq!(
        check(&request, &nine_lines("3 0 2 0 7 0 7")),
        answer(33, 2, last, 0)
    );
    assert_eq!(check(&file_a(), &accepted), answer(30, 1, 46, 0));
}

/// Where the last line starts: its lists, its sequence, its rule and its citations go off the
/// end.
fn last_line(derivation: &[u8], citation_bytes: usize) -> u32 {
    let length = 4 + (2 + 1 + 12) + 2 + 1 + 1 + citation_bytes;
    (derivation.len() - length) as u32
}

#[test]
fn further_rows_over_file_a() {
    failed(&table_a("0 1 0 1 2 0"), 1, 33, 3, "+---");
    failed(&table_a("0 2 0 255 1 1 0 0 0 1 2 0"), 2, 32, 2, "----");
}
