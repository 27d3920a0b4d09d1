//! The derive call: the cases that come with the format, and what the rules say of requests that they don't
//! show.

mod common;

use common::{answer, bytes, file_a, file_a_without_whether, table_a, LENT};
use oracle::derives::again::{expect_scheme, sizes};
use oracle::derives::calls::{looking_at, of_bytes, of_lines, of_readings};
use oracle::derives::run::closing;
use oracle::encode::encode_request;
use oracle::model::{Allowance, Branch, Item, Request};
use oracle::reader::read_derivation;
use oracle::rng::Rng;
use oracle::{check, check_whether, derive, open, Answer};

const BUDGET: u32 = 100_000;
/// The derivation of File A with an empty whether list (24.29).
const D: &str = "0 11 4 0 3 5 7 0 0 4 0 3 5 7 1 0 4 0 3 5 7 0 0 1 7 6 1 0 0 \
    4 0 3 5 7 0 1 255 2 1 1 0 2 1 2 1 0 0 0 1 7 4 1 0 1 4 1 3 5 7 0 1 1 4 1 2 5 7 2 0 \
    4 1 2 5 7 0 1 2 4 1 2 4 7 2 0 4 1 2 4 7 0 0 4 1 2 4 7 1 0 4 1 2 4 7 0 0 1 7 6 1 0 5 \
    4 1 2 5 7 0 1 2 1 7 5 2 0 4 0 6 4 1 3 5 7 0 2 1 2 1 7 5 2 0 3 0 7 \
    4 1 3 5 7 0 1 255 2 1 1 0 2 1 2 1 0 0 0 1 7 4 1 0 8 \
    3 3 5 7 0 2 0 255 2 1 1 0 2 1 2 1 0 0 0 1 7 3 2 0 2 0 9";
/// Seven fluents that are unknown, and goals to follow (24.45 to 24.47).
const SEVEN: &str = "7 1 0 0 1 0 0 7 0 0 0 1 0 2 0 3 0 4 0 5 0 6 0 1 0";

/// Expects a derivation that just fits, that it fits a longer room, and no shorter one, and that both
/// derivation calls accept it.
fn derives(request: &[u8], expected: &[u8]) {
    let length = expected.len();
    for more in [0, 1, 2, 70_000] {
        let mut room = vec![LENT; length + more];
        let answer = derive(request, &mut room, BUDGET);
        assert_eq!(answer, Answer::neither(0, length as u32));
        assert_eq!(room, [expected, &vec![LENT; more]].concat());
    }
    for shorter in [0, 1, length - 1] {
        stays(request, shorter, BUDGET, answer(39, 0, 0, 0));
    }
    accepted(request, expected);
}

/// Both derivation calls accept it, the second one in the closing layout; and it is the scheme's.
fn accepted(request: &[u8], derivation: &[u8]) {
    assert_eq!(check(request, derivation), Answer::neither(0, 0));
    let read = open(request).expect("a request that is not refused");
    assert_eq!(expect_scheme(&read, request, derivation), Ok(()));
    let lines = read_derivation(derivation, &read).expect("lines");
    let sizes = sizes(&read, request);
    assert_eq!(sizes.lines(), lines.len() as u64);
    assert_eq!(sizes.bytes, derivation.len() as u64);
    let closing = closing(&read, derivation).expect("lines");
    if closing.len() <= 32_768 {
        assert_eq!(check_whether(request, &closing), Answer::neither(0, 0));
    }
}

/// Expects an answer to a room of this length, and that the room stays as it is.
fn stays(request: &[u8], length: usize, budget: u32, expected: Answer) {
    let mut room = vec![LENT; length];
    assert_eq!(derive(request, &mut room, budget), expected);
    assert_eq!(room, vec![LENT; length]);
}

/// The same to a room of any length.
fn answers(request: &[u8], budget: u32, expected: Answer) {
    for length in [0, 1, 196, 70_000] {
        stays(request, length, budget, expected);
    }
}

/// Expects a derivation of so many lines and bytes.
fn comes_to(request: &Request, lines: usize, length: usize) {
    let request = encode_request(request).bytes;
    let mut room = vec![LENT; length];
    let answer = derive(&request, &mut room, BUDGET);
    assert_eq!(answer, Answer::neither(0, length as u32));
    assert_eq!(room[..2], (lines as u16).to_be_bytes());
    accepted(&request, &room);
}

/// 24.30 to 24.33, 24.39 to 24.41.
#[test]
fn rows_of_file_a() {
    derives(&file_a_without_whether(), &bytes(D));
    let empty = "0 2 3 3 5 7 0 0 3 3 5 7 1 0 3 3 5 7 0 0 0 6 1 0 0";
    derives(&table_a("0 0 0 0"), &bytes(empty));
    let all_are_goals = "0 2 3 3 5 7 0 0 3 3 5 7 1 0 3 3 5 7 0 0 3 3 5 7 6 1 0 0";
    derives(&table_a("0 0 3 3 5 7 0"), &bytes(all_are_goals));
    let known_is_sensed = "0 7 4 0 3 5 7 0 0 4 0 3 5 7 1 0 4 0 3 5 7 0 0 0 6 1 0 0 \
        4 0 3 5 7 0 1 0 0 3 1 0 1 4 1 3 5 7 0 0 4 1 3 5 7 1 0 4 1 3 5 7 0 0 0 6 1 0 3 \
        4 1 3 5 7 0 1 0 0 3 1 0 4 3 3 5 7 0 2 0 0 0 3 2 0 2 0 5";
    derives(&table_a("0 2 0 0 0 0"), &bytes(known_is_sensed));
}

/// 24.34 and 24.35.
#[test]
fn rows_of_budgets() {
    let request = file_a_without_whether();
    for budget in [5, 6, BUDGET, u32::MAX] {
        let mut room = [LENT; 196];
        assert_eq!(derive(&request, &mut room, budget), answer(0, 0, 0, 196));
        assert_eq!(room[..], bytes(D));
    }
    for budget in 0..=4 {
        answers(&request, budget, answer(3, 0, 0, budget));
    }
}

/// 24.36 to 24.38, 24.49 and 24.50.
#[test]
fn rows_of_other_answers() {
    for budget in [0, BUDGET] {
        answers(&file_a(), budget, answer(30, 1, 46, 0));
    }
    answers(&table_a("0 1 1 1 7 0"), BUDGET, answer(1, 1, 33, 2));
    answers(&table_a("0 1 2 0 0"), BUDGET, answer(2, 1, 31, 0));
    let mut contradictory = file_a_without_whether();
    contradictory[11] = 3;
    answers(&contradictory, BUDGET, answer(16, 1, 10, 0));
    let cut = &file_a_without_whether()[..46];
    answers(cut, BUDGET, answer(11, 1, 46, 0));
    answers(&[0; 16_385], BUDGET, answer(10, 1, 0, 0));
    let more = [&file_a_without_whether()[..], &[0]].concat();
    answers(&more, BUDGET, answer(20, 1, 47, 0));
    // 16 to 18 go before 30, and 30 before what the walk would give.
    let mut overlapping = file_a();
    overlapping[41] = 1;
    answers(&overlapping, BUDGET, answer(18, 1, 32, 0));
    for tail in ["0 1 1 1 7 1 2", "0 1 2 0 1 2"] {
        let place = table_a(tail).len() as u32 - 2;
        answers(&table_a(tail), BUDGET, answer(30, 1, place, 0));
    }
}

/// 24.42 to 24.44.
#[test]
fn rows_of_other_requests() {
    let two_sensed = "2 1 0 0 1 0 0 2 0 1 0 0 0 1 0 0 0";
    let expected =
        "0 9 2 0 2 0 0 2 0 2 1 0 2 0 2 0 0 0 6 1 0 0 2 0 3 0 0 2 0 3 1 0 2 0 3 0 0 0 6 1 0 2 \
        2 1 2 0 0 2 1 2 1 0 2 1 2 0 0 0 6 1 0 4 2 1 3 0 0 2 1 3 1 0 2 1 3 0 0 0 6 1 0 6 \
        0 0 1 0 0 3 4 0 1 0 3 0 5 0 7";
    derives(&bytes(two_sensed), &bytes(expected));
    let joined = "1 1 1 0 0 1 0 0 0 0 2 255 1 1 0 0 1 255 1 0 0 1 0 0 0 0";
    let expected = "0 8 1 0 0 1 0 1 0 2 0 1 0 0 1 0 1 0 2 0 1 0 0 0 1 0 1 0 1 0 0 0 0 6 1 0 2 \
        1 0 0 1 0 0 5 2 0 1 0 3 1 0 0 2 0 0 0 5 2 0 0 0 4 1 0 0 2 255 1 0 0 1 0 0 0 4 1 0 5 \
        1 0 0 2 255 1 1 0 0 1 255 1 0 0 1 0 0 0 4 1 0 6";
    derives(&bytes(joined), &bytes(expected));
    let example = "3 3 2 3 5 4 1 2 1 0 1 4 1 1 2 1 1 0 2 0 1 1 3 0 1 5 1 1 5 2 1 5 1 0 0 \
        0 3 0 255 2 1 1 0 1 2 1 0 0 0 1 3 0 2 5 0";
    let expected = "0 13 3 0 3 5 0 1 1 3 0 2 5 2 0 3 0 2 5 0 0 3 0 2 5 1 0 3 0 2 5 0 0 3 0 2 5 6 1 0 1 \
        3 0 3 5 0 1 1 3 0 2 5 5 2 0 0 0 2 3 0 3 5 0 2 255 2 1 1 0 1 2 1 0 0 0 1 3 0 2 5 4 1 0 3 \
        3 1 3 5 0 1 2 3 0 3 5 2 0 3 0 3 5 0 1 1 3 0 2 5 2 0 3 0 2 5 0 0 3 0 2 5 1 0 \
        3 0 2 5 0 0 3 0 2 5 6 1 0 7 3 0 3 5 0 1 1 3 0 2 5 5 2 0 6 0 8 3 1 3 5 0 2 2 1 3 0 2 5 5 2 0 5 0 9 \
        3 1 3 5 0 2 255 2 1 1 0 1 2 1 0 0 0 1 3 0 2 5 4 1 0 10 \
        2 3 5 0 3 0 255 2 1 1 0 1 2 1 0 0 0 1 3 0 2 5 3 2 0 4 0 11";
    derives(&bytes(example), &bytes(expected));
}

/// 24.45 to 24.48.
#[test]
fn rows_of_readings() {
    let seven = |goals: &str| bytes(&format!("{SEVEN} {goals} 0"));
    answers(&seven("0"), BUDGET, answer(37, 1, 24, 0));
    answers(&seven("0"), 129, answer(37, 1, 24, 0));
    answers(&seven("0"), 128, answer(3, 0, 0, 128));
    answers(&seven("1 0"), BUDGET, answer(1, 1, 26, 129));
    let passed_by = "8 1 1 0 0 1 0 0 7 0 1 0 2 0 3 0 4 0 5 0 6 0 7 0 2 \
        255 2 1 1 0 1 0 1 0 0 0 0 0 0";
    answers(&bytes(passed_by), BUDGET, answer(37, 1, 36, 0));
}

/// Six fluents may be unknown, whatever else is sensed.
#[test]
fn six_unknown_fluents() {
    // 64 end states of six literals each, and the look.
    comes_to(&of_readings(&[6]), 129, 2 + 64 * (18 + 14) + 7 + 128);
    for unknown in 0..=9 {
        let mut rng = Rng::new(1, 0, unknown.into());
        let mut request = looking_at(&mut rng, unknown);
        request.plan = vec![Item::act(0)];
        request.goals = Vec::new();
        let request = encode_request(&request).bytes;
        let place = request.len() as u32 - 3;
        let mut room = vec![LENT; 32_768];
        let given = derive(&request, &mut room, BUDGET);
        match unknown {
            0..=6 => assert_eq!(given.number, 0),
            _ => assert_eq!(given, answer(37, 1, place, 0)),
        }
    }
}

/// 37 goes before 38, also where there are too many lines before the item that is too wide.
#[test]
fn readings_before_lines() {
    // A glance at one fluent; where it is true there are 600 actions, and where it is false a look at seven.
    let branch = |literal, sequence| Branch {
        condition: vec![literal],
        sequence,
    };
    let mut request = of_readings(&[1, 7]);
    request.actions = 3;
    request.allowances.push(Allowance {
        action: 2,
        body: Vec::new(),
    });
    let many = vec![Item::act(2); 600];
    let of = |first: Vec<Item>, second: Vec<Item>| {
        let mut request = request.clone();
        let branches = vec![branch(0, first), branch(1, second)];
        request.plan = vec![Item::act(0), Item::case(branches)];
        encode_request(&request).bytes
    };
    let wide = of(many.clone(), vec![Item::act(1)]);
    answers(&wide, BUDGET, answer(37, 1, wide.len() as u32 - 3, 0));
    let narrow = of(many, Vec::new());
    answers(&narrow, BUDGET, Answer::neither(38, 0));
}

/// 1,024 lines and no more; 38 goes before 39.
#[test]
fn lines_at_their_limit() {
    for index in 0..40 {
        let mut rng = Rng::new(1, 1, index);
        for lines in [1_023, 1_024, 1_025, 1_026] {
            let request = encode_request(&of_lines(&mut rng, lines)).bytes;
            let read = open(&request).expect("a request that is not refused");
            let sizes = sizes(&read, &request);
            assert_eq!(sizes.lines(), lines as u64);
            let mut room = vec![LENT; 32_768];
            let given = derive(&request, &mut room, BUDGET);
            match lines {
                0..=1_024 if sizes.bytes <= 32_768 => {
                    assert_eq!(given, Answer::neither(0, sizes.bytes as u32));
                    accepted(&request, &room[..given.count as usize]);
                }
                0..=1_024 => answers(&request, BUDGET, Answer::neither(39, 0)),
                _ => answers(&request, BUDGET, Answer::neither(38, 0)),
            }
        }
    }
}

/// 32,768 bytes and no more, whatever room there is.
#[test]
fn bytes_at_their_limit() {
    for index in 0..20 {
        let mut rng = Rng::new(1, 2, index);
        for length in [32_765, 32_766, 32_767, 32_768] {
            let request = of_bytes(&mut rng, length);
            let bytes = encode_request(&request).bytes;
            let read = open(&bytes).expect("a request that is not refused");
            let lines = sizes(&read, &bytes).lines() as usize;
            comes_to(&request, lines, length);
            stays(&bytes, length - 1, BUDGET, Answer::neither(39, 0));
        }
        let request = encode_request(&of_bytes(&mut rng, 32_769)).bytes;
        for room in [32_768, 32_769, 70_000] {
            stays(&request, room, BUDGET, Answer::neither(39, 0));
        }
    }
}

/// As deep as a plan can be: 1,022 branchings one behind the other come to 1,024 lines, and eight one inside
/// another are joined with what is behind each.
#[test]
fn the_deepest_plans() {
    let followed = |sequence| {
        Item::case(vec![Branch {
            condition: Vec::new(),
            sequence,
        }])
    };
    let mut request = of_readings(&[]);
    (request.fluents, request.actions) = (1, 1);
    let in_a_row = |items| Request {
        plan: vec![followed(Vec::new()); items],
        ..request.clone()
    };
    let bytes = |request: &Request| encode_request(request).bytes;
    answers(&bytes(&in_a_row(1_022)), BUDGET, Answer::neither(39, 0));
    answers(&bytes(&in_a_row(1_023)), BUDGET, Answer::neither(38, 0));
    answers(&bytes(&in_a_row(1_024)), BUDGET, Answer::neither(38, 0));
    // Each of 103 lines by rule 4 has one branching more than the one before it.
    let length = 2 + 6 + 8 + (1..=103).map(|items| 8 + 5 * items).sum::<usize>();
    comes_to(&in_a_row(103), 105, length);
    let nested = (0..8).fold(Vec::new(), |inside, _| {
        vec![followed(inside), followed(Vec::new())]
    });
    let nested = Request {
        plan: nested,
        ..request.clone()
    };
    let read = bytes(&nested);
    let read = sizes(&open(&read).expect("a request"), &read);
    assert_eq!((read.lines(), read.joined_twice), (18, true));
    comes_to(&nested, 18, read.bytes as usize);
}

/// What is told from the last line to the first: each byte of a derivation counts, and so does its end.
#[test]
fn every_byte_of_a_derivation_counts() {
    let request = file_a_without_whether();
    let read = open(&request).expect("a request that is not refused");
    let right = bytes(D);
    for place in 0..right.len() {
        for byte in (0..=255).filter(|byte| *byte != right[place]) {
            let mut other = right.clone();
            other[place] = byte;
            assert!(expect_scheme(&read, &request, &other).is_err(), "{place}");
        }
        assert!(expect_scheme(&read, &request, &right[..place]).is_err());
    }
    let more = [&right[..], &[0]].concat();
    assert!(expect_scheme(&read, &request, &more).is_err());
    // Case 14's derivation is accepted, and another one.
    let nine = "0 9 4 0 3 5 7 0 0 4 0 3 5 7 1 0 4 0 3 5 7 0 0 1 7 6 1 0 0 \
        4 0 3 5 7 0 1 255 2 1 1 0 2 1 2 1 0 0 0 1 7 4 1 0 1 4 1 3 5 7 0 1 1 4 1 2 5 7 2 0 \
        4 1 2 5 7 0 1 2 4 1 2 4 7 2 0 4 1 3 5 7 0 2 1 2 4 1 2 4 7 5 2 0 3 0 4 \
        4 1 3 5 7 0 2 1 2 1 7 6 1 0 5 4 1 3 5 7 0 1 255 2 1 1 0 2 1 2 1 0 0 0 1 7 4 1 0 6 \
        3 3 5 7 0 2 0 255 2 1 1 0 2 1 2 1 0 0 0 1 7 3 2 0 2 0 7";
    assert_eq!(check(&request, &bytes(nine)), Answer::neither(0, 0));
    assert!(expect_scheme(&read, &request, &bytes(nine)).is_err());
}
