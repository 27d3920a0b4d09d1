//! Derivations that are written: the rows of the format, rooms of every length, the limits, the walk call and the derivation call beside it, and what is no
//! answer of the derive call.

mod common;

use std::error::Error;

use common::{deep, FILE_A};
use glintstring::{check, derive, derive_here, derive_packed, judge_packed, show, show_start};
use glintstring::{Answer, Input, Judge, NotDerived, Packed, DERIVATION_LIMIT, MOST_FORKED, STATE_LENGTH};

/// File A with an empty whether list, and what is written for it (FORMAT 24.29).
fn b() -> Vec<u8> {
    [&FILE_A[..46], &[0]].concat()
}
const D: [u8; 196] = [
    0, 11, // eleven lines
    4, 0, 3, 5, 7, 0, 0, 4, 0, 3, 5, 7, 1, 0, //
    4, 0, 3, 5, 7, 0, 0, 1, 7, 6, 1, 0, 0, //
    4, 0, 3, 5, 7, 0, 1, 255, 2, 1, 1, 0, 2, 1, 2, 1, 0, 0, 0, 1, 7, 4, 1, 0, 1, //
    4, 1, 3, 5, 7, 0, 1, 1, 4, 1, 2, 5, 7, 2, 0, //
    4, 1, 2, 5, 7, 0, 1, 2, 4, 1, 2, 4, 7, 2, 0, //
    4, 1, 2, 4, 7, 0, 0, 4, 1, 2, 4, 7, 1, 0, //
    4, 1, 2, 4, 7, 0, 0, 1, 7, 6, 1, 0, 5, //
    4, 1, 2, 5, 7, 0, 1, 2, 1, 7, 5, 2, 0, 4, 0, 6, //
    4, 1, 3, 5, 7, 0, 2, 1, 2, 1, 7, 5, 2, 0, 3, 0, 7, //
    4, 1, 3, 5, 7, 0, 1, 255, 2, 1, 1, 0, 2, 1, 2, 1, 0, 0, 0, 1, 7, 4, 1, 0, 8, //
    3, 3, 5, 7, 0, 2, 0, 255, 2, 1, 1, 0, 2, 1, 2, 1, 0, 0, 0, 1, 7, 3, 2, 0, 2, 0, 9,
];

/// Seven fluents that one look would show (FORMAT 24.45).
const WIDE: [u8; 27] = [7, 1, 0, 0, 1, 0, 0, 7, 0, 0, 0, 1, 0, 2, 0, 3, 0, 4, 0, 5, 0, 6, 0, 1, 0, 0, 0];

/// Number, place and count of the derive call in a room of so many bytes 9, and the room afterwards.
fn derived(request: &[u8], budget: u32, length: usize) -> ((u8, usize, u32), Vec<u8>) {
    let mut room = vec![9; length];
    let packed = derive_packed(request, &mut room, budget);
    ((packed.number(), packed.place(), packed.count()), room)
}

#[test]
fn the_rows_that_are_written() {
    let run = |rest: &[u8]| [&FILE_A[..29], rest].concat();
    let rows: [(&str, Vec<u8>, Vec<u8>); 7] = [
        ("24.30", b(), D.to_vec()),
        ("24.39", run(&[0; 4]), vec![0, 2, 3, 3, 5, 7, 0, 0, 3, 3, 5, 7, 1, 0, 3, 3, 5, 7, 0, 0, 0, 6, 1, 0, 0]),
        ("24.40", run(&[0, 0, 3, 3, 5, 7, 0]), vec![0, 2, 3, 3, 5, 7, 0, 0, 3, 3, 5, 7, 1, 0, 3, 3, 5, 7, 0, 0, 3, 3, 5, 7, 6, 1, 0, 0]),
        (
            "24.41",
            run(&[0, 2, 0, 0, 0, 0]),
            vec![
                0, 7, 4, 0, 3, 5, 7, 0, 0, 4, 0, 3, 5, 7, 1, 0, 4, 0, 3, 5, 7, 0, 0, 0, 6, 1, 0, 0, 4, 0, 3, 5, 7, 0, 1, 0, 0, 3, 1, 0, 1, 4, 1, 3, 5, 7, 0, 0,
                4, 1, 3, 5, 7, 1, 0, 4, 1, 3, 5, 7, 0, 0, 0, 6, 1, 0, 3, 4, 1, 3, 5, 7, 0, 1, 0, 0, 3, 1, 0, 4, 3, 3, 5, 7, 0, 2, 0, 0, 0, 3, 2, 0, 2, 0, 5,
            ],
        ),
        (
            "24.42",
            vec![2, 1, 0, 0, 1, 0, 0, 2, 0, 1, 0, 0, 0, 1, 0, 0, 0],
            vec![
                0, 9, 2, 0, 2, 0, 0, 2, 0, 2, 1, 0, 2, 0, 2, 0, 0, 0, 6, 1, 0, 0, 2, 0, 3, 0, 0, 2, 0, 3, 1, 0, 2, 0, 3, 0, 0, 0, 6, 1, 0, 2, 2, 1, 2, 0, 0, 2, 1,
                2, 1, 0, 2, 1, 2, 0, 0, 0, 6, 1, 0, 4, 2, 1, 3, 0, 0, 2, 1, 3, 1, 0, 2, 1, 3, 0, 0, 0, 6, 1, 0, 6, 0, 0, 1, 0, 0, 3, 4, 0, 1, 0, 3, 0, 5, 0, 7,
            ],
        ),
        (
            "24.43",
            vec![1, 1, 1, 0, 0, 1, 0, 0, 0, 0, 2, 255, 1, 1, 0, 0, 1, 255, 1, 0, 0, 1, 0, 0, 0, 0],
            vec![
                0, 8, 1, 0, 0, 1, 0, 1, 0, 2, 0, 1, 0, 0, 1, 0, 1, 0, 2, 0, 1, 0, 0, 0, 1, 0, 1, 0, 1, 0, 0, 0, 0, 6, 1, 0, 2, 1, 0, 0, 1, 0, 0, 5, 2, 0, 1, 0, 3,
                1, 0, 0, 2, 0, 0, 0, 5, 2, 0, 0, 0, 4, 1, 0, 0, 2, 255, 1, 0, 0, 1, 0, 0, 0, 4, 1, 0, 5, 1, 0, 0, 2, 255, 1, 1, 0, 0, 1, 255, 1, 0, 0, 1, 0, 0, 0,
                4, 1, 0, 6,
            ],
        ),
        (
            "24.44",
            vec![
                3, 3, 2, 3, 5, 4, 1, 2, 1, 0, 1, 4, 1, 1, 2, 1, 1, 0, 2, 0, 1, 1, 3, 0, 1, 5, 1, 1, 5, 2, 1, 5, 1, 0, 0, 0, 3, 0, 255, 2, 1, 1, 0, 1, 2, 1, 0, 0, 0,
                1, 3, 0, 2, 5, 0,
            ],
            vec![
                0, 13, 3, 0, 3, 5, 0, 1, 1, 3, 0, 2, 5, 2, 0, 3, 0, 2, 5, 0, 0, 3, 0, 2, 5, 1, 0, 3, 0, 2, 5, 0, 0, 3, 0, 2, 5, 6, 1, 0, 1, 3, 0, 3, 5, 0, 1, 1, 3,
                0, 2, 5, 5, 2, 0, 0, 0, 2, 3, 0, 3, 5, 0, 2, 255, 2, 1, 1, 0, 1, 2, 1, 0, 0, 0, 1, 3, 0, 2, 5, 4, 1, 0, 3, 3, 1, 3, 5, 0, 1, 2, 3, 0, 3, 5, 2, 0, 3,
                0, 3, 5, 0, 1, 1, 3, 0, 2, 5, 2, 0, 3, 0, 2, 5, 0, 0, 3, 0, 2, 5, 1, 0, 3, 0, 2, 5, 0, 0, 3, 0, 2, 5, 6, 1, 0, 7, 3, 0, 3, 5, 0, 1, 1, 3, 0, 2, 5, 5,
                2, 0, 6, 0, 8, 3, 1, 3, 5, 0, 2, 2, 1, 3, 0, 2, 5, 5, 2, 0, 5, 0, 9, 3, 1, 3, 5, 0, 2, 255, 2, 1, 1, 0, 1, 2, 1, 0, 0, 0, 1, 3, 0, 2, 5, 4, 1, 0, 10,
                2, 3, 5, 0, 3, 0, 255, 2, 1, 1, 0, 1, 2, 1, 0, 0, 0, 1, 3, 0, 2, 5, 3, 2, 0, 4, 0, 11,
            ],
        ),
    ];
    let mut kept = Judge::new().expect("a thread");
    for (name, request, expected) in rows {
        let length = expected.len();
        let answer = (0, 0, length as u32);
        assert_eq!(derived(&request, 100_000, length), (answer, expected.clone()), "{name}");
        assert_eq!(derived(&request, 100_000, length + 2), (answer, [&expected[..], &[9, 9]].concat()), "{name}");
        assert_eq!(derived(&request, 100_000, length - 1), ((39, 0, 0), vec![9; length - 1]), "{name}");
        // The same by name, each of its exact length.
        assert_eq!(derive(&request, 100_000).expect("a thread").as_ref(), Ok(&expected), "{name}");
        assert_eq!(derive_here(&request, 100_000).as_ref(), Ok(&expected), "{name}");
        assert_eq!(kept.derive(&request, 100_000).as_ref(), Ok(&expected), "{name}");
        assert_eq!(check(&request, &expected), Answer::Accepted, "{name}");
    }
    // 24.34: just enough budget.
    assert_eq!(derived(&b(), 5, 196), ((0, 0, 196), D.to_vec()));
}

#[test]
fn the_rows_that_are_not_written() {
    let run = |rest: &[u8]| [&FILE_A[..29], rest].concat();
    let with_goal = [&WIDE[..25], &[1, 0, 0]].concat();
    let not_chosen = vec![
        8, 1, 1, 0, 0, 1, 0, 0, 7, 0, 1, 0, 2, 0, 3, 0, 4, 0, 5, 0, 6, 0, 7, 0, 2, 255, 2, 1, 1, 0, 1, 0, 1, 0, 0, 0, 0, 0, 0,
    ];
    let mut clash = b();
    clash[11] = 3;
    let refused = NotDerived::Refused;
    let rows: [(&str, Vec<u8>, u32, NotDerived, &str); 11] = [
        ("24.35", b(), 4, NotDerived::BudgetSpent { budget: 4 }, "budget spent (answer 3, no place)"),
        (
            "24.36",
            FILE_A.to_vec(),
            0,
            refused(Answer::WhetherAsked { place: 46 }),
            "a derivation for a request with whether entries (answer 30, place 46 of the request)",
        ),
        ("24.37", run(&[0, 1, 1, 1, 7, 0]), 100_000, NotDerived::GoalMissed { place: 33, count: 2 }, "goal missed (answer 1, place 33 of the request)"),
        ("24.38", run(&[0, 1, 2, 0, 0]), 100_000, NotDerived::NotExecutable { place: 31, count: 0 }, "not executable (answer 2, place 31 of the request)"),
        ("24.45", WIDE.to_vec(), 100_000, refused(Answer::SensingTooWide { place: 24 }), "too many readings (answer 37, place 24 of the request)"),
        ("24.46", WIDE.to_vec(), 128, NotDerived::BudgetSpent { budget: 128 }, "budget spent (answer 3, no place)"),
        ("24.47", with_goal, 100_000, NotDerived::GoalMissed { place: 26, count: 129 }, "goal missed (answer 1, place 26 of the request)"),
        ("24.48", not_chosen, 100_000, refused(Answer::SensingTooWide { place: 36 }), "too many readings (answer 37, place 36 of the request)"),
        ("24.49", clash, 100_000, refused(Answer::Contradictory { place: 10 }), "two effects are contradictory (answer 16, place 10 of the request)"),
        (
            "24.50",
            b()[..46].to_vec(),
            100_000,
            refused(Answer::InputEnds { input: Input::Request, place: 46 }),
            "the input ends where a byte is due (answer 11, place 46 of the request)",
        ),
        ("10", vec![1; 16_385], 100_000, refused(Answer::TooLong { input: Input::Request }), "too long (answer 10, place 0 of the request)"),
    ];
    let mut kept = Judge::new().expect("a thread");
    for (name, request, budget, expected, said) in rows {
        for length in [0, 1, 196, DERIVATION_LIMIT, DERIVATION_LIMIT + 1] {
            let mut room = vec![9; length];
            let packed = derive_packed(&request, &mut room, budget);
            assert_eq!((packed, room == vec![9; length]), (expected.packed(), true), "{name}, a room of {length}");
            assert_eq!(Answer::unpack_derive(packed, &room), Err(expected), "{name}");
        }
        assert_eq!(derive(&request, budget).expect("a thread"), Err(expected), "{name}");
        assert_eq!(derive_here(&request, budget), Err(expected), "{name}");
        assert_eq!(kept.derive(&request, budget), Err(expected), "{name}");
        assert_eq!(expected.to_string(), format!("not derived: {said}"), "{name}");
        assert_eq!(show_start(expected.into(), &request, &[]), expected.place() as u64, "{name}");
    }
    assert_eq!(show(refused(Answer::SensingTooWide { place: 24 }), &WIDE, &[]), [0, 0, 0]);
    // One fluent fewer: 64 readings of two lines each, and a line that cites them.
    let most = [&[MOST_FORKED as u8, 1, 0, 0, 1, 0, 0, 6], &WIDE[8..20], &WIDE[22..]].concat();
    assert_eq!(derive_here(&most, 65).expect("a derivation")[..2], [0, 129]);
}

/// File A, with its whether entry and without, cut short, and with one byte after another changed to every other. Where the walk call has another answer than 0,
/// the derive call has it too, but for the state, unless there are whether entries; and else the derivation call accepts what is written.
#[test]
fn beside_the_walk_call_and_the_derivation_call() {
    let turned = |whole: Vec<u8>| {
        (0..whole.len()).flat_map(move |place| {
            let whole = whole.clone();
            (0..=255).map(move |byte| [&whole[..place], &[byte], &whole[place + 1..]].concat())
        })
    };
    let cut = (0..b().len()).map(|length| b()[..length].to_vec());
    let (mut written, mut asked) = (0, 0);
    for request in turned(b()).chain(turned(FILE_A.to_vec())).chain(cut) {
        for budget in [4, 5, 100] {
            let walked = judge_packed(&request, &mut [0; STATE_LENGTH], budget);
            match derive_here(&request, budget) {
                Ok(derivation) => {
                    assert_eq!((walked.number(), check(&request, &derivation)), (0, Answer::Accepted), "{request:?}, budget {budget}");
                    written += 1;
                }
                Err(NotDerived::Refused(Answer::WhetherAsked { place })) => {
                    assert!(walked.number() < 10 && request[place] > 0, "{request:?}, budget {budget}");
                    asked += 1;
                }
                Err(other) => assert_eq!(other.packed(), walked, "{request:?}, budget {budget}"),
            }
        }
    }
    assert!(written > 500 && asked > 500, "{written} are written, and {asked} have whether entries");
}

#[test]
fn rooms_of_every_length() {
    for length in 0..=D.len() + 2 {
        let mut around = vec![9; 8 + length + 8];
        let packed = derive_packed(&b(), &mut around[8..8 + length], 5);
        let taken = Answer::unpack_derive(packed, &around[8..8 + length]);
        if length < D.len() {
            assert_eq!((packed, taken), (Packed(39), Err(NotDerived::Refused(Answer::RoomShort))));
        } else {
            assert_eq!((packed, taken), (Packed((D.len() as u64) << 32), Ok(&D[..])));
            around[8..8 + D.len()].fill(9);
        }
        assert_eq!(around, vec![9; 8 + length + 8]);
    }
}

/// Of so many fluents each is looked at by an action of its own, and before and after that one is looked at that is known, so often; so many facts are known, and
/// the first of them are the goals.
fn looks(before: usize, unknown: u8, after: usize, facts: u8, goals: u8) -> Vec<u8> {
    let actions = unknown + 1;
    let literals = |count: u8| [count].into_iter().chain((unknown..unknown + count).map(|fluent| 2 * fluent));
    let always = (0..actions).flat_map(|action| [action, 0]);
    let knowledge = (0..actions).flat_map(|action| [action, action]);
    let plan: Vec<u8> = [vec![unknown; before], (0..unknown).collect(), vec![unknown; after]].concat();
    let table = [unknown + facts, actions].into_iter().chain(literals(facts)).chain([0, actions]).chain(always).chain([actions]).chain(knowledge);
    table.chain((plan.len() as u16).to_be_bytes()).chain(plan).chain(literals(goals)).chain([0]).collect()
}

/// As many lines as there may be and one more, and as many bytes and one more.
#[test]
fn the_limits_of_lines_and_bytes() {
    let most_lines = derive_here(&looks(1, 8, 1, 1, 0), 100_000).expect("a derivation");
    assert_eq!((&most_lines[..2], most_lines.len()), (&[4, 0][..], 20_225));
    assert_eq!(check(&looks(1, 8, 1, 1, 0), &most_lines), Answer::Accepted);
    assert_eq!(derived(&looks(2, 8, 1, 1, 0), 100_000, 0), ((38, 0, 0), vec![]));
    assert_eq!(derive_here(&looks(2, 8, 1, 1, 0), 100_000), Err(NotDerived::Refused(Answer::TooManyLines)));

    let longest = looks(0, 6, 5, 30, 15);
    let most_bytes = derive_here(&longest, 100_000).expect("a derivation");
    assert_eq!((&most_bytes[..2], most_bytes.len()), (&[1, 255][..], DERIVATION_LIMIT));
    assert_eq!(check(&longest, &most_bytes), Answer::Accepted);
    let longer = looks(0, 6, 1, 57, 55);
    for length in [0, DERIVATION_LIMIT - 1, DERIVATION_LIMIT, DERIVATION_LIMIT + 1, 2 * DERIVATION_LIMIT] {
        let (answer, room) = derived(&longest, 100_000, length);
        if length < DERIVATION_LIMIT {
            assert_eq!((answer, room), ((39, 0, 0), vec![9; length]));
        } else {
            assert_eq!(answer, (0, 0, DERIVATION_LIMIT as u32));
            assert_eq!((&room[..DERIVATION_LIMIT], &room[DERIVATION_LIMIT..]), (&most_bytes[..], &vec![9; length - DERIVATION_LIMIT][..]));
        }
        // 32,769 bytes, for which no room is enough.
        assert_eq!(derived(&longer, 100_000, length), ((39, 0, 0), vec![9; length]));
    }
    let error = derive_here(&longer, 100_000).unwrap_err();
    assert_eq!(error, NotDerived::Refused(Answer::RoomShort));
    assert_eq!(error.to_string(), "not derived: room too short (answer 39, no place)");
}

/// The thread of a test has 2 MiB, which this walk does not fit in.
#[test]
fn the_short_name_and_a_judge_see_to_the_stack() {
    let expected = Err(NotDerived::BudgetSpent { budget: 5_000 });
    assert_eq!(derive(&deep(), 5_000).expect("a thread"), expected);
    let mut judge = Judge::new().expect("a thread");
    assert_eq!(judge.derive(&deep(), 5_000), expected);
    assert_eq!(judge.derive(&vec![1; 1 << 20], 5_000), Err(NotDerived::Refused(Answer::TooLong { input: Input::Request })));
    assert_eq!(judge.derive(&b(), 5), Ok(D.to_vec()));
    assert_eq!(judge.judge(&FILE_A, 5), Answer::Verified { count: 5 });
}

/// As a caller in haste writes it.
fn hand_on(request: &[u8], budget: u32) -> Result<Vec<u8>, Box<dyn Error + Send + Sync>> {
    let derivation = derive(request, budget)??;
    check(request, &derivation).verified()?;
    Ok(derivation)
}

#[test]
fn only_zero_passes_the_question_marks() {
    assert_eq!(hand_on(&b(), 5).expect("a derivation"), D);
    let error = hand_on(&b(), 4).unwrap_err();
    assert_eq!(error.to_string(), "not derived: budget spent (answer 3, no place)");
    let told = *error.downcast::<NotDerived>().expect("an answer");
    assert_eq!((told.number(), told.input(), told.place(), told.count(), told.words()), (3, 0, 0, 4, "budget spent"));
    assert_eq!(hand_on(&WIDE, 1_000).unwrap_err().to_string(), "not derived: too many readings (answer 37, place 24 of the request)");
    let answer = Answer::SensingTooWide { place: 24 };
    assert_eq!((answer.number(), answer.named(), answer.count(), answer.state(), answer.is_verified()), (37, Some(Input::Request), 0, None, false));
    assert_eq!(answer.to_string(), "too many readings (37, place 24, count 0)");
    assert_eq!((Answer::TooManyLines.packed(), Answer::TooManyLines.named(), Answer::TooManyLines.is_verified()), (Packed(38), None, false));
    assert_eq!(Answer::TooManyLines.to_string(), "too many lines (38, place 0, count 0)");
}

/// What no library may give: a number of another call, an input, a place or a count that does not go with its number, and a derivation that is longer than its room
/// or than a derivation may be, or shorter than any that is written.
#[test]
fn what_is_no_answer_of_the_derive_call_is_refused() {
    let refused = |packed: u64, room: usize| std::panic::catch_unwind(|| Answer::unpack_derive(Packed(packed), &vec![9; room]).is_ok()).is_err();
    for number in 0..=255 {
        let in_request = matches!(number, 1 | 2 | 10..=21 | 30 | 37);
        assert_eq!(refused(number + (1 << 8), 100), !in_request, "number {number} in the request");
        assert_eq!(refused(number, 100), !matches!(number, 3 | 38 | 39), "number {number} in neither");
        assert!(refused(number + (2 << 8), 100) && refused(number + (3 << 8), 100), "number {number} in another input");
        let placed = in_request && number != 10;
        assert_eq!(refused(number + (1 << 8) + (16_383 << 16), 100), !placed, "number {number} at a place");
        assert!(refused(number + (16_383 << 16), 100), "number {number} at a place of neither");
        assert_eq!(refused(number + (1 << 8) + (1 << 32), 100), !matches!(number, 1 | 2), "number {number} in the request, with a count");
        assert_eq!(refused(number + (50 << 32), 100), !matches!(number, 0 | 3), "number {number} in neither, with a count");
    }
    // The derive call has no state, so that what the room holds does not matter to answers 1 and 2.
    assert_eq!(Answer::unpack_derive(Packed(2 + (1 << 8) + (31 << 16) + (7 << 32)), &[]), Err(NotDerived::NotExecutable { place: 31, count: 7 }));
    for length in [0, 1, 15, 16, 17, 196, DERIVATION_LIMIT - 1, DERIVATION_LIMIT, DERIVATION_LIMIT + 1, 1 << 20, u32::MAX as usize] {
        let packed = (length as u64) << 32;
        assert_eq!(refused(packed, 2 * DERIVATION_LIMIT), !(16..=DERIVATION_LIMIT).contains(&length), "{length} bytes");
        assert!(length == 0 || refused(packed, (length - 1).min(DERIVATION_LIMIT)), "{length} bytes in a shorter room");
        assert!(refused(packed + (1 << 16), 2 * DERIVATION_LIMIT) && refused(packed + (1 << 8), 2 * DERIVATION_LIMIT));
    }
    // Each other one is packed as it came.
    for packed in [1 + (1 << 8) + (7 << 16) + (9 << 32), 3 + (u64::from(u32::MAX) << 32), 11 + (1 << 8) + (16_383 << 16), 30 + (1 << 8) + (46 << 16), 38, 39] {
        assert_eq!(Answer::unpack_derive(Packed(packed), &[]).unwrap_err().packed(), Packed(packed));
    }
}
