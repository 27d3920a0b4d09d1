//! The index call and the indexed call: the cases that come with the format, and what the rules say of
//! requests that they don't show.

mod common;

use common::{answer, bytes, changed, file_a, state, table_a, LENT};
use oracle::indexes::way::walk_by_index;
use oracle::walk::Verdict;
use oracle::{index, judge_indexed, judge_indexed_line, judge_line, open, Answer, STATE_LENGTH};

const BUDGET: u32 = 100_000;
/// The index of File A.
const I: &str = "0 1 0 18 2 0 7 0 10 1 0 20 1 0 14 1 0 23";
/// A request in which an effect is said twice, and its index.
const T: &str = "1 1 0 2 0 0 0 0 0 0 1 0 0 0 0 0 0 0";
const OF_T: &str = "2 0 4 0 7 1 0 11";

/// Expects an index that just fits, and that it fits a longer room, and no shorter one.
fn builds(request: &[u8], expected: &str) {
    let expected = bytes(expected);
    let length = expected.len();
    for more in [0, 1, 2, 70_000] {
        let mut room = vec![LENT; length + more];
        let built = index(request, &mut room);
        assert_eq!(built, Answer::neither(0, length as u32));
        assert_eq!(room, [&expected[..], &vec![LENT; more]].concat());
    }
    for shorter in [0, 1, length - 1] {
        refuses_to_build(request, shorter, answer(39, 0, 0, 0));
    }
}

/// Expects an answer to a room of this length, and that the room stays as it is.
fn refuses_to_build(request: &[u8], length: usize, expected: Answer) {
    let mut room = vec![LENT; length];
    assert_eq!(index(request, &mut room), expected);
    assert_eq!(room, vec![LENT; length]);
}

/// File A's index with some bytes changed.
fn with(changes: &[(usize, u8)]) -> Vec<u8> {
    let mut index = bytes(I);
    for &(place, byte) in changes {
        index[place] = byte;
    }
    index
}

/// The indexed call with a lent state of the right length; the state and the line come along.
fn run(request: &[u8], index: &[u8], budget: u32) -> (Answer, [u8; STATE_LENGTH], u32) {
    let mut lent = [LENT; STATE_LENGTH];
    let (answer, line) = judge_indexed_line(request, index, &mut lent, budget);
    (answer, lent, line)
}

/// Expects an answer that leaves the lent state alone.
fn stays(request: &[u8], index: &[u8], budget: u32, expected: Answer) {
    let left = (expected, [LENT; STATE_LENGTH], 0);
    assert_eq!(run(request, index, budget), left);
}

/// Expects 45 at this place.
fn differs(request: &[u8], index: &[u8], place: u32) {
    for budget in [0, BUDGET] {
        stays(request, index, budget, answer(45, 3, place, 0));
    }
}

/// 23.28 to 23.34.
#[test]
fn rows_of_building() {
    builds(&file_a(), I);
    builds(&bytes(T), OF_T);
    let in_turn = "1 3 0 3 2 0 0 0 0 0 2 0 0 2 2 0 0 0 0 0 0 0 0";
    builds(&bytes(in_turn), "1 0 7 1 0 16 0 0 2 0 4 0 10 1 0 14");
    let evens: Vec<u8> = (0..=254).step_by(2).collect();
    let line = [&[0, 0, 16], &evens[..16]].concat();
    let tail = bytes("1 0 0 0 0 0 0 0");
    let far = [&[128, 1, 128], &evens[..], &[9], &line.repeat(9), &tail].concat();
    let offsets = "9 0 132 0 151 0 170 0 189 0 208 0 227 0 246 1 9 1 28 1 1 48";
    builds(&far, offsets);
}

/// 23.35 and 23.36.
#[test]
fn rows_of_refusals_in_building() {
    refuses_to_build(&changed(11, 3), 0, answer(16, 1, 10, 0));
    refuses_to_build(&file_a()[..47], 18, answer(11, 1, 47, 0));
    refuses_to_build(&[0; 16_385], 18, answer(10, 1, 0, 0));
    refuses_to_build(&changed(27, 1), 17, answer(17, 1, 27, 0));
    refuses_to_build(&changed(41, 1), 18, answer(18, 1, 32, 0));
    refuses_to_build(&[&file_a()[..], &[0]].concat(), 0, answer(20, 1, 48, 0));
}

/// 23.37, 23.38, 23.46, 23.52 and 23.53.
#[test]
fn rows_of_the_right_index() {
    stays(&file_a(), &bytes(I), BUDGET, Answer::neither(0, 5));
    stays(&file_a(), &bytes(I), 4, Answer::neither(3, 4));
    stays(&bytes(T), &bytes(OF_T), BUDGET, Answer::neither(0, 1));
    let missed = table_a("0 1 1 1 7 1 2");
    let left = (answer(1, 1, 33, 2), state("?+-?"), 0);
    assert_eq!(run(&missed, &bytes(I), BUDGET), left);
    let stuck = table_a("0 1 2 0 0");
    let left = (answer(2, 1, 31, 0), state("?---"), 23);
    assert_eq!(run(&stuck, &bytes(I), BUDGET), left);
}

/// 23.39 to 23.45 and 23.47 to 23.49.
#[test]
fn rows_of_other_indexes() {
    differs(&file_a(), &[], 0);
    differs(&file_a(), &bytes(I)[..17], 17);
    differs(&file_a(), &[&bytes(I)[..], &[0]].concat(), 18);
    differs(&file_a(), &with(&[(3, 19)]), 3);
    let runs_first = "1 0 18 0 1 0 20 2 0 7 0 10 1 0 23 1 0 14";
    differs(&file_a(), &bytes(runs_first), 0);
    differs(&file_a(), &with(&[(6, 10), (8, 7)]), 6);
    differs(&file_a(), &bytes(OF_T), 0);
    differs(&bytes(T), &bytes("1 0 4 1 0 11"), 0);
    differs(&bytes(T), &bytes("2 0 4 0 4 1 0 11"), 4);
}

/// 23.50 and 23.51.
#[test]
fn rows_of_refusals_before_the_index() {
    for length in [0, 127, 129] {
        let mut lent = vec![LENT; length];
        let answer = judge_indexed(&file_a(), &[], &mut lent, BUDGET);
        assert_eq!((answer, lent), (Answer::neither(9, 0), vec![LENT; length]));
    }
    for index in [&[][..], &bytes(I)] {
        stays(&changed(11, 3), index, BUDGET, answer(16, 1, 10, 0));
        stays(&[0; 16_385], index, BUDGET, answer(10, 1, 0, 0));
        stays(&file_a()[..47], index, BUDGET, answer(11, 1, 47, 0));
    }
}

/// Any length will do for an index, and each byte of it counts.
#[test]
fn every_byte_of_an_index_counts() {
    let right = bytes(I);
    for place in 0..right.len() {
        for byte in (0..=255).filter(|byte| *byte != right[place]) {
            differs(&file_a(), &with(&[(place, byte)]), place as u32);
        }
        differs(&file_a(), &right[..place], place as u32);
    }
    for length in [19, 20, 16_385, 70_000] {
        let mut long = right.clone();
        long.resize(length, 0);
        differs(&file_a(), &long, 18);
        differs(&file_a(), &vec![0; length], 1);
        differs(&file_a(), &vec![255; length], 0);
    }
}

/// The longest index: 128 actions, and 255 lines of each kind, of which all but a few are of the last action.
#[test]
fn the_longest_index() {
    let effects = [vec![0, 0, 0], [127, 2, 0].repeat(254)].concat();
    let runs = [vec![1, 0], [127, 0].repeat(254)].concat();
    let request = [
        &[2, 128, 0, 255],
        &effects[..],
        &[255],
        &runs,
        &[0, 0, 1, 127, 0, 0],
    ]
    .concat();
    let mut room = [LENT; 1_277];
    assert_eq!(index(&request, &mut room), Answer::neither(0, 1_276));
    assert_eq!(room[1_276], LENT);
    assert_eq!(room[..6], [1, 0, 4, 0, 0, 1]);
    let last = 1_276 - 2 * (1 + 2 * 254);
    assert_eq!(room[last..last + 3], [254, 0, 7]);
    refuses_to_build(&request, 1_275, answer(39, 0, 0, 0));
    stays(&request, &room[..1_276], BUDGET, Answer::neither(0, 2));
    differs(&request, &room, 1_276);
    // The last line of all, by its high byte, which is above 0.
    room[1_274] ^= 1;
    differs(&request, &room[..1_276], 1_274);
}

/// The lines that are asked stand at the offsets, wherever these lead. No call walks by an index that is wrong, so the walk
/// is given one by itself.
#[test]
fn the_walk_goes_by_the_offsets() {
    let count = |request: &[u8], index: &[u8]| {
        let read = open(request).expect("a request that is not refused");
        match walk_by_index(&read, request, index, BUDGET) {
            Verdict::Stuck { line, .. } => Err(line),
            other => Ok(other),
        }
    };
    // Convert has the line of look, which can always be run, or that of open.
    let convert = table_a("0 1 2 0 0");
    assert_eq!(count(&convert, &bytes(I)), Err(23));
    let verified = Ok(Verdict::Verified { count: 2 });
    assert_eq!(count(&convert, &with(&[(17, 18)])), verified);
    assert_eq!(count(&convert, &with(&[(17, 20)])), verified);
    // Open has the effect of convert in place of one of its own, and does not open any more.
    let open_only = table_a("0 1 1 1 2 0");
    assert_eq!(count(&open_only, &bytes(I)), verified);
    let missed = count(&open_only, &with(&[(6, 14)]));
    assert!(matches!(missed, Ok(Verdict::Missed { place: 33, .. })));
}

/// Knowledge lines have no offsets, and an action that senses is walked by its executability lines.
#[test]
fn knowledge_lines() {
    let request = bytes("1 2 0 | 0 | 2 1 0 0 0 | 2 0 0 0 0 | 0 2 0 1 | 0 | 1 0");
    builds(&request, "0 1 0 7 0 1 0 5");
    let by_index = run(&request, &bytes("0 1 0 7 0 1 0 5"), BUDGET);
    let mut lent = [LENT; STATE_LENGTH];
    let (plain, line) = judge_line(&request, &mut lent, BUDGET);
    assert_eq!(by_index, (plain, lent, line));
    assert_eq!(plain, Answer::neither(0, 5));
}
