//! Indexes: the rows of the format, rooms of every length, walks by an index beside the walk call, and what is no answer of the index call.

mod common;

use std::error::Error;

use common::{deep, FILE_A};
use glintstring::{index, index_packed, judge, judge_indexed, judge_indexed_here, judge_indexed_packed, judge_packed, show};
use glintstring::{Answer, Input, Judge, NotIndexed, Packed, INDEX_MOST, STATE_LENGTH};

/// The index of File A, and a request in which an effect is said twice with its index (FORMAT 23.27).
const I: [u8; 18] = [0, 1, 0, 18, 2, 0, 7, 0, 10, 1, 0, 20, 1, 0, 14, 1, 0, 23];
const T: [u8; 18] = [1, 1, 0, 2, 0, 0, 0, 0, 0, 0, 1, 0, 0, 0, 0, 0, 0, 0];
const OF_T: [u8; 8] = [2, 0, 4, 0, 7, 1, 0, 11];

/// The bytes with one of them changed.
fn changed(bytes: &[u8], place: usize, byte: u8) -> Vec<u8> {
    let mut bytes = bytes.to_vec();
    bytes[place] = byte;
    bytes
}

/// Number, place and count of the index call in a room of so many bytes 9, and the room afterwards.
fn built(request: &[u8], length: usize) -> ((u8, usize, u32), Vec<u8>) {
    let mut room = vec![9; length];
    let packed = index_packed(request, &mut room);
    ((packed.number(), packed.place(), packed.count()), room)
}

#[test]
fn the_rows_of_the_index_call() {
    let in_turn = [1, 3, 0, 3, 2, 0, 0, 0, 0, 0, 2, 0, 0, 2, 2, 0, 0, 0, 0, 0, 0, 0, 0];
    let even = |count: u8| (0..count).map(|fluent| 2 * fluent);
    let line: Vec<u8> = [0, 0, 16].into_iter().chain(even(16)).collect();
    let far: Vec<u8> = [128, 1, 128].into_iter().chain(even(128)).chain([9]).chain(line.repeat(9)).chain([1, 0, 0, 0, 0, 0, 0, 0]).collect();
    let of_far = [9, 0, 132, 0, 151, 0, 170, 0, 189, 0, 208, 0, 227, 0, 246, 1, 9, 1, 28, 1, 1, 48];
    let clash = changed(&FILE_A, 11, 3);
    assert_eq!(built(&FILE_A, 18), ((0, 0, 18), I.to_vec()));
    assert_eq!(built(&FILE_A, 20), ((0, 0, 18), [&I[..], &[9, 9]].concat()));
    assert_eq!(built(&FILE_A, 17), ((39, 0, 0), vec![9; 17]));
    assert_eq!(built(&FILE_A, 0), ((39, 0, 0), vec![]));
    assert_eq!(built(&T, 8), ((0, 0, 8), OF_T.to_vec()));
    assert_eq!(built(&in_turn, 16), ((0, 0, 16), vec![1, 0, 7, 1, 0, 16, 0, 0, 2, 0, 4, 0, 10, 1, 0, 14]));
    assert_eq!(built(&far, 22), ((0, 0, 22), of_far.to_vec()));
    assert_eq!(built(&clash, 0), ((16, 10, 0), vec![]));
    assert_eq!(built(&FILE_A[..47], 18), ((11, 47, 0), vec![9; 18]));
    // The same by name, each of its exact length.
    for (request, expected) in [(&FILE_A[..], &I[..]), (&T, &OF_T), (&far, &of_far)] {
        assert_eq!(index(request).expect("an index"), expected);
    }
    assert_eq!(index(&clash).unwrap_err().answer(), Answer::Contradictory { place: 10 });
    assert_eq!(index(&FILE_A[..47]).unwrap_err().answer(), Answer::InputEnds { input: Input::Request, place: 47 });
}

#[test]
fn the_rows_of_the_indexed_call() {
    let run = |rest: &[u8]| [&FILE_A[..29], rest].concat();
    let rows: [(&str, Vec<u8>, Vec<u8>, u32, [u32; 4], &str); 17] = [
        ("23.37", FILE_A.to_vec(), I.to_vec(), 100_000, [0, 0, 0, 5], ""),
        ("23.38", FILE_A.to_vec(), I.to_vec(), 4, [3, 0, 0, 4], ""),
        ("23.39", FILE_A.to_vec(), vec![], 100_000, [45, 3, 0, 0], ""),
        ("23.40", FILE_A.to_vec(), I[..17].to_vec(), 100_000, [45, 3, 17, 0], ""),
        ("23.41", FILE_A.to_vec(), [&I[..], &[0]].concat(), 100_000, [45, 3, 18, 0], ""),
        ("23.42", FILE_A.to_vec(), changed(&I, 3, 19), 100_000, [45, 3, 3, 0], ""),
        ("23.43", FILE_A.to_vec(), vec![1, 0, 18, 0, 1, 0, 20, 2, 0, 7, 0, 10, 1, 0, 23, 1, 0, 14], 100_000, [45, 3, 0, 0], ""),
        ("23.44", FILE_A.to_vec(), changed(&changed(&I, 6, 10), 8, 7), 100_000, [45, 3, 6, 0], ""),
        ("23.45", FILE_A.to_vec(), OF_T.to_vec(), 100_000, [45, 3, 0, 0], ""),
        ("23.46", T.to_vec(), OF_T.to_vec(), 100_000, [0, 0, 0, 1], ""),
        ("23.47", T.to_vec(), vec![1, 0, 4, 1, 0, 11], 100_000, [45, 3, 0, 0], ""),
        ("23.48", T.to_vec(), vec![2, 0, 4, 0, 4, 1, 0, 11], 100_000, [45, 3, 4, 0], ""),
        ("23.49", FILE_A.to_vec(), vec![], 0, [45, 3, 0, 0], ""),
        ("23.51", changed(&FILE_A, 11, 3), vec![], 100_000, [16, 1, 10, 0], ""),
        ("23.52", run(&[0, 1, 1, 1, 7, 1, 2]), I.to_vec(), 100_000, [1, 1, 33, 2], "?+-?"),
        ("23.53", run(&[0, 1, 2, 0, 0]), I.to_vec(), 100_000, [2, 1, 31, 0], "?---"),
        ("a long one", FILE_A.to_vec(), [&I[..], &[7; 70_000]].concat(), 100_000, [45, 3, 18, 0], ""),
    ];
    let mut kept = Judge::new().expect("a thread");
    for (name, request, by, budget, [number, input, place, count], state) in rows {
        let answer = judge_indexed_here(&request, &by, budget);
        let given = [answer.number().into(), answer.input().into(), answer.place() as u32, answer.count()];
        assert_eq!(given, [number, input, place, count], "{name}");
        assert_eq!(answer.state().map(|state| state.line(4)).unwrap_or_default(), state, "{name}");
        assert_eq!(judge_indexed(&request, &by, budget).expect("a thread"), answer, "{name}");
        assert_eq!(kept.judge_indexed(&request, &by, budget), answer, "{name}");
        let mut lent = [9; STATE_LENGTH];
        assert_eq!(judge_indexed_packed(&request, &by, &mut lent, budget), answer.packed(), "{name}");
        assert_eq!(lent, answer.state().map_or([9; STATE_LENGTH], |state| state.bytes()), "{name}");
    }
    // 23.50: 9 goes before 45.
    let mut lent = [9; STATE_LENGTH - 1];
    assert_eq!(judge_indexed_packed(&FILE_A, &[], &mut lent, 100_000), Packed(9));
    assert_eq!(lent, [9; STATE_LENGTH - 1]);
}

/// Every byte of the index turned, and every length up to one too many.
#[test]
fn the_place_is_that_of_the_first_difference() {
    for place in 0..I.len() {
        let answer = judge_indexed_here(&FILE_A, &changed(&I, place, I[place] ^ 1), 5);
        assert_eq!(answer, Answer::IndexDiffers { place });
        assert_eq!(judge_indexed_here(&FILE_A, &I[..place], 5), answer);
        assert_eq!((answer.named(), answer.input(), answer.count(), answer.state()), (Some(Input::Index), 3, 0, None));
        // The showing call knows two inputs.
        assert_eq!(show(answer, &FILE_A, &I), []);
    }
    let answer = judge_indexed_here(&FILE_A, &I[..3], 5);
    assert_eq!(answer.to_string(), "index differs (45, place 3 of the index, count 0)");
    assert_eq!(answer.verified().unwrap_err().to_string(), "not verified: index differs (answer 45, place 3 of the index)");
}

/// File A cut short, and with one byte after another changed to every other: by its index each is answered as by the walk call, and one that is refused is refused
/// alike. One index serves all plans and goals.
#[test]
fn by_its_index_a_request_is_answered_alike() {
    let turned = (0..FILE_A.len()).flat_map(|place| (0..=255).map(move |byte| (place, changed(&FILE_A, place, byte))));
    let cut = (0..FILE_A.len()).map(|length| (length, FILE_A[..length].to_vec()));
    let mut indexed = 0;
    for (place, request) in turned.chain(cut) {
        let by = index(&request);
        for budget in [4, 5] {
            let (mut state, mut walked) = ([9; STATE_LENGTH], [9; STATE_LENGTH]);
            let expected = judge_packed(&request, &mut walked, budget);
            let packed = judge_indexed_packed(&request, by.as_deref().unwrap_or_default(), &mut state, budget);
            assert_eq!((packed, state), (expected, walked), "{request:?}, budget {budget}");
            assert_eq!(by.is_ok(), expected.number() < 10, "{request:?}");
        }
        assert!(place < 29 || by.as_deref().map_or(true, |by| by == I), "{request:?}");
        indexed += usize::from(by.is_ok());
    }
    assert!(indexed > 300, "{indexed} requests have an index");
}

/// 128 actions, of which the last has 255 effects and 255 executability lines: the longest index there is.
fn longest() -> Vec<u8> {
    let (effects, lines) = ([127, 0, 0].repeat(255), [127, 0].repeat(255));
    [&[1, 128, 0, 255], &effects[..], &[255], &lines, &[0, 0, 1, 127, 1, 0, 0]].concat()
}

#[test]
fn rooms_of_every_length() {
    let request = longest();
    let by = index(&request).expect("an index");
    assert_eq!(by.len(), INDEX_MOST);
    assert_eq!(by[..254], [0; 254]);
    assert_eq!((&by[254..257], &by[765..768]), (&[255, 0, 4][..], &[255, 3, 2][..]));
    assert_eq!(judge_indexed_here(&request, &by, 2), Answer::Verified { count: 2 });
    assert_eq!(judge_indexed_here(&request, &[&by[..], &[0]].concat(), 2), Answer::IndexDiffers { place: INDEX_MOST });
    for length in 0..=INDEX_MOST + 2 {
        let mut around = vec![9; 8 + length + 8];
        let packed = index_packed(&request, &mut around[8..8 + length]);
        let taken = Answer::unpack_index(packed, &around[8..8 + length]);
        if length < INDEX_MOST {
            assert_eq!((packed, taken.unwrap_err().answer()), (Packed(39), Answer::RoomShort));
        } else {
            assert_eq!((packed, taken), (Packed((INDEX_MOST as u64) << 32), Ok(&by[..])));
            around[8..8 + INDEX_MOST].fill(9);
        }
        assert_eq!(around, vec![9; 8 + length + 8]);
    }
}

/// The thread of a test has 2 MiB, which this walk does not fit in; its index is built there.
#[test]
fn the_short_name_and_a_judge_see_to_the_stack() {
    let by = index(&deep()).expect("an index");
    let expected = Answer::BudgetSpent { budget: 5_000 };
    assert_eq!(judge_indexed(&deep(), &by, 5_000).expect("a thread"), expected);
    let mut judge = Judge::new().expect("a thread");
    assert_eq!(judge.judge_indexed(&deep(), &by, 5_000), expected);
    assert_eq!(judge.judge_indexed(&vec![1; 1 << 20], &by, 5_000), Answer::TooLong { input: Input::Request });
    assert_eq!(judge.judge(&FILE_A, 5), Answer::Verified { count: 5 });
}

/// As a caller in haste writes it.
fn let_pass(request: &[u8], budget: u32) -> Result<(), Box<dyn Error + Send + Sync>> {
    let by = index(request)?;
    judge_indexed(request, &by, budget)?.verified()?;
    Ok(())
}

#[test]
fn an_index_passes_nothing_by_itself() {
    assert!(let_pass(&FILE_A, 5).is_ok());
    assert_eq!(let_pass(&FILE_A, 4).unwrap_err().to_string(), "not verified: budget spent (answer 3, no place)");
    let error = let_pass(&changed(&FILE_A, 11, 3), 5).unwrap_err();
    assert_eq!(error.to_string(), "not indexed: two effects are contradictory (answer 16, place 10 of the request)");
    assert_eq!(error.downcast::<NotIndexed>().expect("an answer").answer(), judge(&changed(&FILE_A, 11, 3), 5).expect("a thread"));
    let error = Answer::unpack_index(Packed(39), &[]).unwrap_err();
    assert_eq!(error.to_string(), "not indexed: room too short (answer 39, no place)");
    assert_eq!((error.answer().named(), error.answer().is_verified()), (None, false));
}

/// What no library may give: a number of another call, an input, a place or a count that does not go with its number, an index that is longer than its room or
/// that no request has, and a room of [`INDEX_MOST`] bytes that is too short.
#[test]
fn what_is_no_answer_of_the_index_call_is_refused() {
    let refused = |packed: u64, room: usize| std::panic::catch_unwind(|| Answer::unpack_index(Packed(packed), &vec![9; room]).is_ok()).is_err();
    for number in 0..=255 {
        let own = matches!(number, 10..=21);
        assert_eq!(refused(number + (1 << 8), 100), !own, "number {number}");
        assert_eq!(refused(number, 100), number != 39, "number {number}");
        assert!(refused(number + (2 << 8), 100) && refused(number + (3 << 8), 100), "number {number} in another input");
        assert!(refused(number + (1 << 8) + (18 << 32), 100), "number {number} with a count");
    }
    assert!(refused(39 + (1 << 16), 100) && refused(39 + (1 << 32), 100) && refused(39, INDEX_MOST));
    assert!(!refused(39, INDEX_MOST - 1));
    for length in 0..=2 * INDEX_MOST {
        let packed = (length as u64) << 32;
        assert_eq!(refused(packed, 2 * INDEX_MOST), !(2..=INDEX_MOST).contains(&length) || length % 2 == 1, "{length} bytes");
        assert!(length == 0 || refused(packed, length - 1), "{length} bytes in a shorter room");
        assert!(refused(packed + (1 << 16), 2 * INDEX_MOST) && refused(packed + (1 << 8), 2 * INDEX_MOST));
    }
}
