//! Release files: the cases of the format, what the walk call answers to each plan by itself, a judge that answers files and requests in turn, and
//! what is no row.

mod common;

use std::error::Error;

use common::{deep, FILE_A};
use glintstring::{judge_packed, plans, release, release_here, release_packed};
use glintstring::{Answer, Input, Judge, NotReleased, Packed, PlanAnswer, Released, MOST_PLANS, REQUEST_LIMIT, ROW_NUMBERS, STATE_LENGTH};

/// Bytes 0 to 28 of File A, the table, and plans over it (FORMAT 19.29).
const TABLE: usize = 29;
const E: &[u8] = &[0, 0, 0, 0];
const M: &[u8] = &[0, 1, 1, 1, 7, 1, 2];
const S: &[u8] = &[0, 1, 2, 0, 0];
const F: &[u8] = &[0, 1, 3, 0, 0];
fn a() -> &'static [u8] {
    const { &FILE_A }.split_at(TABLE).1
}
fn o() -> Vec<u8> {
    [&a()[..12], &[1], &a()[13..]].concat()
}

/// The table, a count and what follows it.
fn file(count: u8, plans: &[&[u8]]) -> Vec<u8> {
    [&FILE_A[..TABLE], &[count], &plans.concat()].concat()
}

/// The answers of the release call, in numbers, where its own is 0.
fn rows(file: &[u8], budget: u32) -> Vec<[u32; ROW_NUMBERS]> {
    let released = release_here(file, budget);
    assert!(matches!(released, Released::Plans(_)), "{released:?}");
    released.plans().iter().map(PlanAnswer::numbers).collect()
}

#[test]
fn the_cases_of_the_format() {
    let many = 100_000;
    assert_eq!(rows(&file(2, &[a(), E]), many), [[0, 0, 5, 0], [0, 0, 1, 0]]);
    assert_eq!(rows(&file(3, &[a(), M, S]), many), [[0, 0, 5, 0], [1, 53, 2, 1], [2, 58, 0, 1]]);
    assert_eq!(rows(&file(3, &[E, a(), E]), 4), [[0, 0, 1, 0], [3, 0, 4, 0], [0, 0, 1, 0]]);
    assert_eq!(rows(&file(3, &[a(), &o(), E]), many), [[0, 0, 5, 0], [18, 52, 0, 1], [0, 0, 1, 0]]);
    assert_eq!(rows(&file(3, &[a(), F, E]), many), [[0, 0, 5, 0], [13, 51, 0, 1], [22, 0, 0, 0]]);
    assert_eq!(rows(&file(2, &[E, F, &[9, 9]]), many), [[0, 0, 1, 0], [13, 36, 0, 1]]);
    assert_eq!(rows(&file(1, &[]), many), [[11, 30, 0, 1]]);
    let own = |file: &[u8]| match release_here(file, many) {
        Released::Refused(answer) => answer,
        Released::Plans(plans) => panic!("{plans:?}"),
    };
    assert_eq!(own(&vec![0; REQUEST_LIMIT + 1]), Answer::TooLong { input: Input::Request });
    assert_eq!(own(&FILE_A[..TABLE]), Answer::InputEnds { input: Input::Request, place: TABLE });
    assert_eq!(own(&file(0, &[])), Answer::CountNotWithinLimits { input: Input::Request, place: TABLE });
    assert_eq!(own(&file(65, &[E; 65])), Answer::CountNotWithinLimits { input: Input::Request, place: TABLE });
    assert_eq!(own(&file(1, &[a(), &[0]])), Answer::BytesLeftOver { input: Input::Request, place: 49 });
    let mut contradictory = file(2, &[a(), E]);
    contradictory[11] = 3;
    assert_eq!(own(&contradictory), Answer::Contradictory { place: 10 });
    let mut both = file(1, &[F]);
    both[27] = 1;
    assert_eq!(own(&both), Answer::EffectsAndKnowledge { place: 27 });
}

/// Plans of all kinds before others, and one that is cut short at the end, with each budget up to one that is enough.
#[test]
fn each_row_is_the_walk_call_s_answer() {
    let o = o();
    let kinds = [a(), E, M, S, &o, F];
    for budget in 0..=6 {
        for first in kinds {
            for second in kinds.into_iter().chain([&a()[..18], &[]]) {
                let mut start = TABLE + 1;
                let mut reached = true;
                for (plan, numbers) in [first, second].into_iter().zip(rows(&file(2, &[first, second]), budget)) {
                    let answer = judge_packed(&[&FILE_A[..TABLE], plan].concat(), &mut [0; STATE_LENGTH], budget);
                    let moved = if answer.input() == 1 { start - TABLE } else { 0 };
                    let expected = [answer.number().into(), (answer.place() + moved) as u32, answer.count(), answer.input().into()];
                    assert_eq!(numbers, if reached { expected } else { [22, 0, 0, 0] });
                    reached = reached && !matches!(numbers[0], 11..=15 | 19 | 21);
                    start += plan.len();
                }
            }
        }
    }
}

#[test]
fn rows_of_every_length() {
    let file = file(2, &[a(), E]);
    assert_eq!(plans(&file), 2);
    for length in 0..=ROW_NUMBERS * MOST_PLANS + 4 {
        let mut around = vec![9; 8 + length + 8];
        let packed = release_packed(&file, &mut around[8..8 + length], 100_000);
        if length == 8 {
            assert_eq!(packed, Packed(0));
            assert_eq!(around[8..16], [0, 0, 5, 0, 0, 0, 1, 0]);
            around[8..16].fill(9);
        } else {
            assert_eq!(packed, Packed(9));
            assert_eq!(Released::unpack(packed, &around[8..8 + length]), Released::Refused(Answer::StateLength));
        }
        assert_eq!(around, vec![9; 8 + length + 8]);
    }
    // Another own answer leaves the row as lent, and a fault before the count does not ask for its length.
    let mut row = [9; 8];
    assert_eq!(release_packed(&[&file[..], &[0]].concat(), &mut row, 5).number(), 20);
    assert_eq!(release_packed(&file[..TABLE], &mut row, 5).number(), 11);
    assert_eq!(release_packed(&[], &mut [], 5).number(), 11);
    assert_eq!(row, [9; 8]);
}

#[test]
fn as_many_plans_as_there_may_be() {
    let whole = file(64, &[E; 64]);
    assert_eq!(plans(&whole), MOST_PLANS);
    assert_eq!(release_here(&whole, 1), Released::Plans(vec![PlanAnswer::Verified { count: 1 }; MOST_PLANS]));
    assert!(release_here(&whole, 1).verified().is_ok());
    let faulty = release_here(&file(64, &[F]), 1);
    assert_eq!(faulty.plans()[0], PlanAnswer::Refused(Answer::TooLarge { input: Input::Request, place: 32 }));
    assert!(faulty.plans()[1..].iter().all(|&plan| plan == PlanAnswer::NotReached) && faulty.plans().len() == MOST_PLANS);
    for (file, count) in [(vec![], 0), (file(65, &[]), 0), (file(0, &[]), 0), (vec![0; REQUEST_LIMIT + 1], 0), (file(9, &[]), 9)] {
        assert_eq!(plans(&file), count);
    }
}

/// The thread of a test has 2 MiB, which these walks do not fit in. A judge takes files and requests in turn.
#[test]
fn the_short_name_and_a_judge_see_to_the_stack() {
    let request = deep();
    let table = request.len() - (2 + 1024 + 2);
    let deep = [&request[..table], &[3], &request[table..], &request[table..], E].concat();
    let expected = [[3, 0, 5_000, 0], [3, 0, 5_000, 0], [0, 0, 1, 0]];
    let numbers = |released: Released| released.plans().iter().map(PlanAnswer::numbers).collect::<Vec<_>>();
    assert_eq!(numbers(release(&deep, 5_000).expect("a thread")), expected);
    let mut judge = Judge::new().expect("a thread");
    for _ in 0..3 {
        assert_eq!(numbers(judge.release(&deep, 5_000)), expected);
        assert_eq!(judge.judge(&FILE_A, 5), Answer::Verified { count: 5 });
        assert_eq!(judge.release(&vec![1; 1 << 20], 5), Released::Refused(Answer::TooLong { input: Input::Request }));
        assert_eq!(judge.judge_line(&FILE_A, 4).answer, Answer::BudgetSpent { budget: 4 });
        assert_eq!(judge.release(&file(1, &[a()]), 5).plans(), [PlanAnswer::Verified { count: 5 }]);
    }
}

/// As a caller in haste writes it.
fn let_pass(file: &[u8]) -> Result<(), Box<dyn Error + Send + Sync>> {
    release(file, 100_000)?.verified()?;
    Ok(())
}

#[test]
fn only_zeros_pass_the_question_mark() {
    assert!(let_pass(&file(2, &[a(), E])).is_ok());
    let error = let_pass(&file(3, &[a(), M, S])).unwrap_err();
    assert_eq!(error.to_string(), "not released: plan 1: goal missed (answer 1, place 53 of the release file)");
    assert_eq!(*error.downcast::<NotReleased>().expect("an answer"), NotReleased::Plan(1, PlanAnswer::GoalMissed { place: 53, count: 2 }));
    let error = let_pass(&file(1, &[a(), &[0]])).unwrap_err();
    assert_eq!(error.to_string(), "not released: bytes are left over (answer 20, place 49 of the release file)");
    let error = release_here(&file(1, &[a()]), 4).verified().unwrap_err();
    assert_eq!(error.to_string(), "not released: plan 0: budget spent (answer 3, no place)");
    assert_eq!(PlanAnswer::NotReached.to_string(), "not reached (22, place 0, count 0)");
}

/// Each number of a plan is taken apart and put together again, with the place, the count and the input that go with it and with no others.
#[test]
fn what_is_no_answer_to_a_plan_is_refused() {
    let mut taken = Vec::new();
    for number in 0..=300 {
        for (place, count, input) in [(0, 0, 0), (0, 7, 0), (7, 0, 0), (7, 0, 1), (7, 7, 1), (7, 0, 2), (0, 0, 256)] {
            let numbers = [number, place, count, input];
            let answer = PlanAnswer::unpack(numbers);
            let fits = match number {
                0 | 3 => (place, input) == (0, 0),
                1 | 2 => input == 1,
                11..=15 | 18 | 19 | 21 => (count, input) == (0, 1),
                22 => (place, count, input) == (0, 0, 0),
                _ => false,
            };
            assert_eq!(answer.map(|answer| answer.numbers()), fits.then_some(numbers), "{numbers:?}");
            taken.extend(answer.map(|answer| answer.is_verified()));
        }
    }
    assert_eq!(taken.iter().filter(|&&verified| verified).count(), 2);
}

/// What no library may give: an own number of another call, an own 0 with a place, a row of no plan, of half a one, of too many, or with 22 elsewhere
/// than behind a plan that fails in reading.
#[test]
fn what_is_no_release_is_refused() {
    let refused = |packed: u64, row: &[u32]| std::panic::catch_unwind(|| Released::unpack(Packed(packed), row)).is_err();
    let good = [[0, 0, 5, 0], [18, 52, 0, 1], [11, 60, 0, 1], [22, 0, 0, 0]].concat();
    assert!(!refused(0, &good));
    for number in 0..=255 {
        let input = if number == 9 { 0 } else { 1 << 8 };
        assert_eq!(refused(number + input, &good), !matches!(number, 9..=17 | 20), "number {number}");
    }
    assert!(refused(1 << 16, &good) && refused(1 << 32, &good) && refused(20 + (1 << 8) + (1 << 32), &good));
    assert!(refused(0, &[]) && refused(0, &good[..15]) && refused(0, &[0, 0, 1, 0].repeat(65)));
    assert!(!refused(0, &[0, 0, 1, 0].repeat(64)));
    assert!(refused(0, &[[0, 0, 1, 0], [22, 0, 0, 0]].concat()) && refused(0, &[[11, 60, 0, 1], [0, 0, 1, 0]].concat()));
    assert!(refused(0, &[9; 8]));
}
