//! Each call at the ends of its lengths: inputs of no byte, of one, of as many as they may have and of one more, and lent states of every
//! length from 0 to 258. Lent rooms of every length are in `indexes.rs` and `derivations.rs`.

use glintstring::{check_packed, check_whether_packed, derive_packed, index, judge_by_cases_packed, judge_guarded_packed, judge_indexed_packed, judge_packed};
use glintstring::{judge_values_packed, show, show_start, Packed, DERIVATION_LIMIT, INDEX_MOST, REQUEST_LIMIT, STATE_LENGTH};

/// Number, input, place and count.
fn numbers(packed: Packed) -> (u8, u8, usize, u32) {
    (packed.number(), packed.input(), packed.place(), packed.count())
}

/// A list of the literals 0, 2, 4 and so on.
fn list(count: u8) -> Vec<u8> {
    [count].into_iter().chain((0..count).map(|fluent| 2 * fluent)).collect()
}

/// As many bytes as there may be: 255 effects and 255 executability lines with 16 literals each, branchings of eight branches, nine actions.
/// The branching that comes first can't be run; its place is given too.
fn largest_request() -> (Vec<u8>, usize) {
    let effects = [&[0, 254], &list(16)[..]].concat().repeat(255);
    let lines = [&[0], &list(16)[..]].concat().repeat(255);
    let before = [&[128, 1, 0, 255], &effects[..], &[255], &lines, &[0, 0, 45 + 9]].concat();
    let branch = |bits: u8| [list(13), vec![26 + (bits & 1), 28 + (bits >> 1 & 1), 30 + (bits >> 2)], vec![0, 0]].concat();
    let branches: Vec<u8> = (0..8).map(branch).flat_map(|branch| [&[16], &branch[1..]].concat()).collect();
    let branchings = [&[255, 8], &branches[..]].concat().repeat(45);
    let place = before.len();
    ([before, branchings, vec![0; 9 + 2]].concat(), place)
}

/// A list of literals by values: fluent 0 is 0, fluent 1 is 0, fluent 2 is 0 and so on.
fn value_list(count: u8) -> Vec<u8> {
    [count].into_iter().chain((0..count).flat_map(|fluent| [fluent, 0])).collect()
}

/// The same by values, of which each fluent has 16: 255 effects and 100 executability lines with 16 literals each, and branchings of eight branches. Where the
/// literal of the last effect stands is given too.
fn largest_values_request() -> (Vec<u8>, usize, usize) {
    let effects = [&[0, 127, 0], &value_list(16)[..]].concat().repeat(255);
    let lines = [&[0], &value_list(16)[..]].concat().repeat(100);
    let before_lines = [&[128], &[16; 128][..], &[1, 0, 255], &effects].concat();
    let before = [&before_lines[..], &[100], &lines, &[0, 0, 13]].concat();
    let branch = |bits: u8| [value_list(13), vec![13, 2 * (bits & 1), 14, 2 * (bits >> 1 & 1), 15, 2 * (bits >> 2)], vec![0, 0]].concat();
    let branches: Vec<u8> = (0..8).map(branch).flat_map(|branch| [&[16], &branch[1..]].concat()).collect();
    let branchings = [&[255, 8], &branches[..]].concat().repeat(13);
    let (place, last) = (before.len(), before_lines.len() - 35);
    ([before, branchings, vec![0; 2]].concat(), place, last)
}

/// 1,024 lines that have as many bytes as there may be, and the request whose question the last one is.
fn largest_derivation() -> (Vec<u8>, Vec<u8>) {
    let request = [vec![14, 1], list(13), vec![0; 5], list(9), vec![0]].concat();
    let same = [list(13), vec![0, 0], list(13), vec![1, 0]].concat();
    let last = [list(13), vec![0, 0], list(9), vec![6, 1, 3, 254]].concat();
    (request, [vec![4, 0], same.repeat(1_023), last].concat())
}

/// The same in the closing layout, with fewer goals, and a closing list that names the last line.
fn largest_closing() -> (Vec<u8>, Vec<u8>) {
    let request = [vec![14, 1], list(13), vec![0; 5], list(6), vec![0]].concat();
    let same = [list(13), vec![0, 0, 1], list(13), vec![0]].concat();
    let last = [list(13), vec![0, 0, 6], list(6), vec![1, 3, 254]].concat();
    (request, [vec![4, 0], same.repeat(1_023), last, vec![1, 3, 255]].concat())
}

/// Lent states up to this length, and bytes on either side of them.
const LONGEST: usize = 2 * STATE_LENGTH + 2;
const FENCE: usize = 64;

/// A call that walks, with a request that has as many bytes as there may be and stops the walk by this answer, before anything is known.
fn requests_and_lent_states(call: impl Fn(&[u8], &mut [u8], u32) -> Packed, largest: &[u8], stop: (u8, u8, usize, u32)) {
    assert_eq!(largest.len(), REQUEST_LIMIT);
    let longer = [largest, &[0]].concat();
    let rows: [(&[u8], (u8, u8, usize, u32)); 5] =
        [(&[], (11, 1, 0, 0)), (&[0], (12, 1, 0, 0)), (&[1], (11, 1, 1, 0)), (largest, stop), (&longer, (10, 1, 0, 0))];
    for (request, answer) in rows {
        for length in 0..=LONGEST {
            let mut around = [9; FENCE + LONGEST + FENCE];
            let packed = call(request, &mut around[FENCE..FENCE + length], 7);
            assert_eq!(numbers(packed), if length == STATE_LENGTH { answer } else { (9, 0, 0, 0) }, "{} bytes, {length} lent", request.len());
            if length == STATE_LENGTH && answer == stop && matches!(answer.0, 2 | 43) {
                let state = &mut around[FENCE..FENCE + STATE_LENGTH];
                assert_eq!(state, [0; STATE_LENGTH]);
                state.fill(9);
            }
            assert_eq!(around, [9; FENCE + LONGEST + FENCE], "{} bytes, {length} lent", request.len());
        }
    }
}

#[test]
fn requests_that_are_walked() {
    let (largest, place) = largest_request();
    requests_and_lent_states(judge_packed, &largest, (2, 1, place, 0));
}

/// The last two actions are left out, for a guard that the first state lacks.
#[test]
fn guarded_requests_that_are_walked() {
    let (mut largest, place) = largest_request();
    largest[place - 1] -= 2;
    largest[REQUEST_LIMIT - 2..].copy_from_slice(&[1, 255]);
    requests_and_lent_states(judge_guarded_packed, &largest, (43, 1, REQUEST_LIMIT - 1, 0));
}

/// The same request; and with its last action put first, which has 16 open fluents where it is met.
#[test]
fn requests_that_are_walked_by_cases() {
    let (mut largest, place) = largest_request();
    requests_and_lent_states(judge_by_cases_packed, &largest, (2, 1, place, 0));
    largest.copy_within(place..REQUEST_LIMIT - 1, place + 1);
    largest[place] = 0;
    requests_and_lent_states(judge_by_cases_packed, &largest, (44, 1, place, 0));
}

/// The largest values request; and with an effect that says "is not".
#[test]
fn values_requests_that_are_walked() {
    let (mut largest, place, effect) = largest_values_request();
    requests_and_lent_states(judge_values_packed, &largest, (2, 1, place, 0));
    assert_eq!(largest[effect..effect + 3], [127, 0, 16]);
    largest[effect + 1] = 31;
    requests_and_lent_states(judge_values_packed, &largest, (46, 1, effect, 0));
}

/// The largest request with as many actions as there may be, by its index, which is as long as any; and by an index of another length.
#[test]
fn requests_that_are_walked_by_an_index() {
    let (mut largest, place) = largest_request();
    largest[1] = 128;
    let whole = [index(&largest).expect("an index"), vec![0; 65_536]].concat();
    let by = |length: usize| {
        let index = &whole[..length];
        move |request: &[u8], state: &mut [u8], budget| judge_indexed_packed(request, index, state, budget)
    };
    requests_and_lent_states(by(INDEX_MOST), &largest, (2, 1, place, 0));
    for length in [0, 1, INDEX_MOST - 1, INDEX_MOST + 1, INDEX_MOST + 65_536] {
        requests_and_lent_states(by(length), &largest, (45, 3, length.min(INDEX_MOST), 0));
    }
}

/// The largest request, and one that has the longest list of facts, for which there is a derivation: `0 2` and two lines. In rooms of no byte, of as many as there
/// are, and of as many as a derivation may have.
#[test]
fn requests_that_are_derived() {
    let (largest, place) = largest_request();
    let longer = [&largest[..], &[0]].concat();
    let known = [&[128, 1], &list(128)[..], &[0; 7]].concat();
    let derived = [vec![0, 2], list(128), vec![0, 0], list(128), vec![1, 0], list(128), vec![0, 0, 0, 6, 1, 0, 0]].concat();
    let rows: [(&[u8], (u8, u8, usize, u32)); 6] = [
        (&[], (11, 1, 0, 0)),
        (&[0], (12, 1, 0, 0)),
        (&[1], (11, 1, 1, 0)),
        (&largest, (2, 1, place, 0)),
        (&longer, (10, 1, 0, 0)),
        (&known, (0, 0, 0, derived.len() as u32)),
    ];
    for (request, answer) in rows {
        for length in [0, 1, derived.len() - 1, derived.len(), derived.len() + 1, DERIVATION_LIMIT, DERIVATION_LIMIT + 1] {
            let mut around = vec![9; FENCE + length + FENCE];
            let packed = derive_packed(request, &mut around[FENCE..FENCE + length], 7);
            let short = answer.0 == 0 && length < derived.len();
            assert_eq!(numbers(packed), if short { (39, 0, 0, 0) } else { answer }, "{} bytes, a room of {length}", request.len());
            if packed.number() == 0 {
                let room = &mut around[FENCE..FENCE + derived.len()];
                assert_eq!(room, derived);
                room.fill(9);
            }
            assert!(around == vec![9; FENCE + length + FENCE], "{} bytes, a room of {length}", request.len());
        }
    }
}

fn requests_and_derivations(call: fn(&[u8], &[u8]) -> Packed, (request, largest): (Vec<u8>, Vec<u8>)) {
    assert_eq!(largest.len(), DERIVATION_LIMIT);
    let longer = [&largest[..], &[0]].concat();
    let rows: [(&[u8], (u8, u8, usize, u32)); 4] = [(&[], (11, 2, 0, 0)), (&[0], (11, 2, 1, 0)), (&largest, (0, 0, 0, 0)), (&longer, (10, 2, 0, 0))];
    for (derivation, answer) in rows {
        assert_eq!(numbers(call(&request, derivation)), answer, "{} bytes", derivation.len());
    }
    let (largest, _) = largest_request();
    let longer = [&largest[..], &[0]].concat();
    let rows: [(&[u8], (u8, u8, usize, u32)); 4] = [(&[], (11, 1, 0, 0)), (&[0], (12, 1, 0, 0)), (&largest, (11, 2, 0, 0)), (&longer, (10, 1, 0, 0))];
    for (request, answer) in rows {
        assert_eq!(numbers(call(request, &[])), answer, "{} bytes", request.len());
    }
}

#[test]
fn requests_and_plain_derivations() {
    requests_and_derivations(check_packed, largest_derivation());
}

#[test]
fn requests_and_closing_derivations() {
    requests_and_derivations(check_whether_packed, largest_closing());
}

#[test]
fn shown_parts() {
    let bytes = vec![7; DERIVATION_LIMIT + 1];
    let lengths = [0, 1, REQUEST_LIMIT, REQUEST_LIMIT + 1, DERIVATION_LIMIT, DERIVATION_LIMIT + 1];
    for request in lengths.map(|length| &bytes[..length]) {
        for derivation in lengths.map(|length| &bytes[..length]) {
            for (input, length) in [(0, 0), (1, request.len()), (2, derivation.len()), (3, 0)] {
                for place in [0, 1, REQUEST_LIMIT, REQUEST_LIMIT + 1, DERIVATION_LIMIT, DERIVATION_LIMIT + 1, 65_535] {
                    let answer = Packed((input << 8) + ((place as u64) << 16));
                    let start = place.min(length);
                    assert_eq!(show_start(answer, request, derivation), start as u64);
                    assert_eq!(show(answer, request, derivation).len(), length - start);
                }
            }
        }
    }
}
