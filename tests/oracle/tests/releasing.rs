//! The release call and the plans call: the cases that come with the format, and what the rules
//! say of files that they don't show.

mod common;

use common::*;
use oracle::answer::{NEITHER, REQUEST};
use oracle::{judge, plans, release, Answer, STATE_LENGTH};

/// What the row is filled with before each call.
const LENT_NUMBER: u32 = 9;
const BUDGET: u32 = 100_000;

/// File A's own plan with its goals and whether list.
fn a() -> Vec<u8> {
    file_a()[29..].to_vec()
}

/// A with its byte 12 changed to 1, so that two conditions overlap.
fn o() -> Vec<u8> {
    let mut plan = a();
    plan[12] = 1;
    plan
}

/// A plan without items and goals; one that misses a goal; one that is stuck; one that fails in
/// reading.
const E: &str = "0 0 0 0";
const M: &str = "0 1 1 1 7 1 2";
const S: &str = "0 1 2 0 0";
const F: &str = "0 1 3 0 0";

/// Plans by their letters, after the table of File A and a count. Other words are bytes.
fn file(text: &str) -> Vec<u8> {
    let mut file = file_a()[..29].to_vec();
    for word in text.split(' ').filter(|word| !word.is_empty()) {
        match word {
            "A" => file.extend(a()),
            "O" => file.extend(o()),
            "E" => file.extend(bytes(E)),
            "M" => file.extend(bytes(M)),
            "S" => file.extend(bytes(S)),
            "F" => file.extend(bytes(F)),
            other => file.extend(bytes(other)),
        }
    }
    file
}

/// The same with a byte of the table changed.
fn file_with(place: usize, byte: u8, text: &str) -> Vec<u8> {
    let mut file = file(text);
    file[place] = byte;
    file
}

/// Expects own answer 0, and these numbers of the plans.
fn answered(file: &[u8], budget: u32, rows: &[[u32; 4]]) {
    let mut row = vec![LENT_NUMBER; 4 * rows.len()];
    assert_eq!(release(file, &mut row, budget), Answer::neither(0, 0));
    assert_eq!(row, rows.concat());
    assert_eq!(plans(file) as usize, rows.len());
}

/// Expects another own answer, with a row of so many numbers, which stays as lent.
fn refused(file: &[u8], numbers: usize, number: u8, place: u32) {
    let mut row = vec![LENT_NUMBER; numbers];
    let input = if number == 9 { NEITHER } else { REQUEST };
    assert_eq!(
        release(file, &mut row, BUDGET),
        answer(number, input, place, 0)
    );
    assert_eq!(row, vec![LENT_NUMBER; numbers]);
}

#[test]
fn row_31_one_plan() {
    answered(&file("1 A"), BUDGET, &[[0, 0, 5, 0]]);
}

#[test]
fn row_32_two() {
    answered(&file("2 A E"), BUDGET, &[[0, 0, 5, 0], [0, 0, 1, 0]]);
}

#[test]
fn row_33_places_counted_in_the_file() {
    answered(
        &file("3 M S A"),
        BUDGET,
        &[[1, 34, 2, 1], [2, 39, 0, 1], [0, 0, 5, 0]],
    );
}

#[test]
fn row_34_another_order() {
    answered(
        &file("3 A M S"),
        BUDGET,
        &[[0, 0, 5, 0], [1, 53, 2, 1], [2, 58, 0, 1]],
    );
}

#[test]
fn rows_35_and_36_each_plan_has_the_whole_budget() {
    answered(
        &file("3 E A E"),
        4,
        &[[0, 0, 1, 0], [3, 0, 4, 0], [0, 0, 1, 0]],
    );
    answered(&file("2 A A"), 5, &[[0, 0, 5, 0], [0, 0, 5, 0]]);
}

#[test]
fn row_37_18_stops_nobody() {
    answered(
        &file("3 A O E"),
        BUDGET,
        &[[0, 0, 5, 0], [18, 52, 0, 1], [0, 0, 1, 0]],
    );
}

#[test]
fn rows_38_to_40_a_plan_fails() {
    answered(
        &file("3 F A E"),
        BUDGET,
        &[[13, 32, 0, 1], [22, 0, 0, 0], [22, 0, 0, 0]],
    );
    answered(
        &file("3 A F E"),
        BUDGET,
        &[[0, 0, 5, 0], [13, 51, 0, 1], [22, 0, 0, 0]],
    );
    answered(
        &file("3 O M F"),
        BUDGET,
        &[[18, 33, 0, 1], [1, 53, 2, 1], [13, 58, 0, 1]],
    );
}

#[test]
fn row_41_no_20_behind_a_plan_that_failed() {
    answered(&file("2 E F 9 9"), BUDGET, &[[0, 0, 1, 0], [13, 36, 0, 1]]);
}

#[test]
fn rows_42_to_45_the_file_ends() {
    let mut short = file("2 E A");
    short.pop();
    answered(&short, BUDGET, &[[0, 0, 1, 0], [11, 52, 0, 1]]);
    answered(
        &file("3 E E"),
        BUDGET,
        &[[0, 0, 1, 0], [0, 0, 1, 0], [11, 38, 0, 1]],
    );
    answered(
        &file("3 E"),
        BUDGET,
        &[[0, 0, 1, 0], [11, 34, 0, 1], [22, 0, 0, 0]],
    );
    answered(&file("1"), BUDGET, &[[11, 30, 0, 1]]);
}

#[test]
fn row_46_too_long() {
    refused(&[0; 16_385], 4, 10, 0);
    assert_eq!(plans(&[0; 16_385]), 0);
}

#[test]
fn rows_47_to_49_the_plan_count() {
    refused(&file(""), 4, 11, 29);
    refused(&file("0"), 0, 12, 29);
    refused(&file(&format!("65{}", " E".repeat(65))), 260, 12, 29);
    assert_eq!(plans(&file("")), 0);
    assert_eq!(plans(&file("0")), 0);
    assert_eq!(plans(&file("65")), 0);
}

#[test]
fn rows_50_and_51_the_length_of_the_row() {
    refused(&file("2 A E"), 7, 9, 0);
    refused(&file("1 A 0"), 8, 9, 0);
}

#[test]
fn rows_52_and_53_the_table_is_refused() {
    refused(&file_with(11, 3, "2 A E"), 8, 16, 10);
    refused(&file_with(27, 1, "1 F"), 4, 17, 27);
}

#[test]
fn rows_54_and_55_bytes_after_the_last_plan() {
    refused(&file("1 A 0"), 4, 20, 49);
    refused(&file("2 O S A"), 8, 20, 54);
}

#[test]
fn as_many_plans_as_there_can_be() {
    let full = file(&format!("64{}", " E".repeat(64)));
    answered(&full, BUDGET, &[[0, 0, 1, 0]; 64]);
    answered(&full, 0, &[[3, 0, 0, 0]; 64]);
}

#[test]
fn a_refusal_before_the_plans_goes_before_9() {
    refused(&[0; 16_385], 0, 10, 0);
    refused(&file("0"), 5, 12, 29);
    refused(&file_with(5, 8, "1 A"), 0, 13, 5);
    refused(&file_with(5, 5, "1 A"), 0, 14, 5);
    refused(&file_with(3, 4, "1 A"), 0, 15, 4);
}

#[test]
fn nine_goes_before_16_and_17() {
    refused(&file_with(11, 3, "2 A E"), 7, 9, 0);
    refused(&file_with(27, 1, "1 F"), 5, 9, 0);
}

#[test]
fn the_table_goes_before_20() {
    refused(&file_with(11, 3, "1 A 0"), 4, 16, 10);
    refused(&file_with(27, 1, "1 A 0"), 4, 17, 27);
}

#[test]
fn every_prefix_of_a_file() {
    let whole = file("3 M S A");
    for length in 0..whole.len() {
        let part = &whole[..length];
        let mut row = [LENT_NUMBER; 12];
        let own = release(part, &mut row, BUDGET);
        if length < 30 {
            assert_eq!(own, answer(11, REQUEST, length as u32, 0));
            assert_eq!((row, plans(part)), ([LENT_NUMBER; 12], 0));
            continue;
        }
        let ended = [11, length as u32, 0, 1];
        let expected = match length {
            30..=36 => [ended, [22, 0, 0, 0], [22, 0, 0, 0]],
            37..=41 => [[1, 34, 2, 1], ended, [22, 0, 0, 0]],
            _ => [[1, 34, 2, 1], [2, 39, 0, 1], ended],
        };
        assert_eq!((own, plans(part)), (Answer::neither(0, 0), 3));
        assert_eq!(row[..], expected.concat());
    }
}

#[test]
fn every_byte_of_a_file_changed() {
    let whole = file("3 A O M");
    for place in 0..whole.len() {
        for byte in 0..=255 {
            let mut other = whole.clone();
            other[place] = byte;
            let count = plans(&other) as usize;
            let mut row = vec![LENT_NUMBER; 4 * count];
            let own = release(&other, &mut row, BUDGET);
            if place > 29 {
                assert!(matches!(own.number, 0 | 20));
            }
            if own.number == 0 {
                assert!(count > 0 && row[0] != 22);
            }
        }
    }
}

#[test]
fn one_plan_gets_what_its_request_gets() {
    for plan in ["A", "O", "E", "M", "S", "F"] {
        let whole = file(&format!("1 {plan}"));
        let request = [&whole[..29], &whole[30..]].concat();
        let mut answer = judge(&request, &mut [9; STATE_LENGTH], BUDGET);
        answer.place += u32::from(answer.input == REQUEST);
        let four = [
            answer.number.into(),
            answer.place,
            answer.count,
            answer.input.into(),
        ];
        answered(&whole, BUDGET, &[four]);
    }
}
