//! Answers taken apart, and the call where it needs much stack.

mod common;

use std::error::Error;

use common::{deep, FILE_A};
use glintstring::{check, check_packed, check_whether, check_whether_packed, judge, judge_here, judge_packed, show, show_start};
use glintstring::{judge_by_cases, judge_by_cases_here, judge_by_cases_packed};
use glintstring::{judge_guarded, judge_guarded_here, judge_guarded_packed, judge_line, judge_line_here, judge_line_packed};
use glintstring::{Answer, Input, Judge, Judged, Mark, NotVerified, Packed, State, MOST_OPEN, STATE_LENGTH};

/// Bytes 0 to 28 of File A, followed by these.
fn from_29(rest: &[u8]) -> Vec<u8> {
    [&FILE_A[..29], rest].concat()
}

#[test]
fn a_missed_goal_has_its_state() {
    let request = from_29(&[0, 1, 1, 1, 7, 1, 2]);
    let answer = judge(&request, 100_000).expect("a thread");
    let Answer::GoalMissed { place, count, state } = answer else { panic!("{answer}") };
    assert_eq!((place, count), (33, 2));
    assert_eq!(state.line(4), "?+-?");
    assert_eq!(state.marks()[..4], [Mark::Unknown, Mark::True, Mark::False, Mark::Unknown]);
    let mut lent = [9; STATE_LENGTH];
    assert_eq!(judge_packed(&request, &mut lent, 100_000), answer.packed());
    assert_eq!(state.bytes(), lent);
    assert_eq!(answer.state(), State::from_bytes(&lent).as_ref());
    assert_eq!(answer.to_string(), "goal missed (1, place 33, count 2)");
}

#[test]
fn the_line_that_was_missing() {
    // Convert at once: its one line, at 23, asks that the volume be open for writing.
    let request = from_29(&[0, 1, 2, 0, 0]);
    let judged = judge_line(&request, 100_000).expect("a thread");
    assert_eq!(judged.answer, judge(&request, 100_000).expect("a thread"));
    assert_eq!((judged.answer.number(), judged.line), (2, Some(23)));
    assert_eq!(request[23..26], [2, 1, 2]);
    // A branching, and every other answer, carry none.
    let branching = from_29(&[0, 1, 255, 1, 1, 0, 0, 0, 0, 0]);
    assert_eq!(judge_line_here(&branching, 100_000), Judged { answer: judge_here(&branching, 100_000), line: None });
    assert_eq!(judge_line_here(&FILE_A, 100_000), Judged { answer: Answer::Verified { count: 5 }, line: None });
    let mut line = 7;
    assert_eq!(judge_line_packed(&FILE_A[..47], &mut [0; STATE_LENGTH], 0, &mut line).number(), 11);
    assert_eq!(line, 0);
}

/// What no library may give: a line in an answer that carries none, and one that does not come before the item.
#[test]
fn lines_that_are_none() {
    let packed = |number: u64, place: u64| Packed(number + (1 << 8) + (place << 16));
    let unpack = |number, place, line| std::panic::catch_unwind(move || Judged::unpack(packed(number, place), &[0; STATE_LENGTH], line));
    assert!(unpack(2, 31, 23).is_ok() && unpack(2, 31, 0).is_ok() && unpack(1, 31, 0).is_ok());
    assert!(unpack(1, 31, 23).is_err() && unpack(11, 31, 23).is_err());
    assert!(unpack(2, 31, 31).is_err() && unpack(2, 31, u32::MAX).is_err());
}

#[test]
fn other_answers_leave_the_lent_bytes() {
    let lending = |request: &[u8], lent: &mut [u8], budget| Answer::unpack(judge_packed(request, lent, budget), lent);
    for length in [0, 1, STATE_LENGTH - 1, STATE_LENGTH + 1, 200] {
        let mut lent = vec![9; length];
        assert_eq!(lending(&FILE_A, &mut lent, 100_000), Answer::StateLength);
        assert_eq!(lent, vec![9; length]);
    }
    let mut lent = [9; STATE_LENGTH];
    assert_eq!(lending(&vec![1; 16_385], &mut lent, 0), Answer::TooLong { input: Input::Request });
    assert_eq!(lending(&from_29(&[0, 0, 0, 0]), &mut lent, 0), Answer::BudgetSpent { budget: 0 });
    assert_eq!(lent, [9; STATE_LENGTH]);
}

/// File A and these guards behind it.
fn guarded_by(guards: &[u8]) -> Vec<u8> {
    [&FILE_A[..], &[guards.len() as u8], guards].concat()
}

#[test]
fn a_broken_guard_has_its_state() {
    // Not hurt, all the way; then, no new map: the conversion makes one, by the fourth that is counted.
    assert_eq!(judge_guarded(&guarded_by(&[7]), 5).expect("a thread"), Answer::Verified { count: 5 });
    let request = guarded_by(&[5, 7]);
    let answer = judge_guarded(&request, 4).expect("a thread");
    let Answer::GuardBroken { place, count, state } = answer else { panic!("{answer}") };
    assert_eq!((place, count), (49, 4));
    assert_eq!(state.line(4), "-++-");
    let mut lent = [9; STATE_LENGTH];
    assert_eq!(judge_guarded_packed(&request, &mut lent, 4), answer.packed());
    assert_eq!((state.bytes(), answer.state()), (lent, Some(&state)));
    assert_eq!((answer.input(), answer.named()), (1, Some(Input::Request)));
    assert_eq!(show(answer, &request, &[]), [5, 7]);
    assert_eq!(answer.to_string(), "guard broken (43, place 49, count 4)");
    let error = answer.verified().unwrap_err();
    assert_eq!(error.to_string(), "not verified: guard broken (answer 43, place 49 of the request)");
    // The action that breaks it is counted, and a first state that lacks one counts nothing.
    assert_eq!(judge_guarded_here(&request, 3), Answer::BudgetSpent { budget: 3 });
    let first = judge_guarded_here(&guarded_by(&[1, 7]), 0);
    assert_eq!((first.number(), first.place(), first.count()), (43, 49, 0));
    assert_eq!(first.state().expect("a state").line(4), "?---");
}

/// With no guards the answer is the walk call's; and each call takes the other's request for what it is not.
#[test]
fn no_guards_and_no_ninth_section() {
    let requests = [FILE_A.to_vec(), from_29(&[0, 1, 1, 1, 7, 1, 2]), from_29(&[0, 1, 2, 0, 0]), from_29(&[0, 0, 0, 0]), from_29(&[0, 1, 3, 0, 0])];
    for request in &requests {
        for budget in 0..=6 {
            let expected = judge_here(request, budget);
            assert_eq!(judge_guarded_here(&[&request[..], &[0]].concat(), budget), expected);
        }
    }
    assert_eq!(judge_guarded_here(&FILE_A, 5), Answer::InputEnds { input: Input::Request, place: 48 });
    assert_eq!(judge_here(&guarded_by(&[7]), 5), Answer::BytesLeftOver { input: Input::Request, place: 48 });
    assert_eq!(judge_guarded_here(&guarded_by(&[7, 8]), 5), Answer::TooLarge { input: Input::Request, place: 50 });
    assert_eq!(judge_guarded_here(&[&FILE_A[..], &[65]].concat(), 5), Answer::CountNotWithinLimits { input: Input::Request, place: 48 });
    assert_eq!(judge_guarded_here(&[guarded_by(&[7]), vec![0]].concat(), 5), Answer::BytesLeftOver { input: Input::Request, place: 50 });
}

/// One action, which makes fluent 0 true where so many fluents are true, of which nothing is known; then this plan of it.
fn open(fluents: u8, plan: &[u8]) -> Vec<u8> {
    let body: Vec<u8> = (0..fluents).map(|fluent| 2 * fluent).collect();
    [&[fluents, 1, 0, 1, 0, 0, fluents], &body[..], &[1, 0, 0, 0, 0, plan.len() as u8], plan, &[0, 0]].concat()
}

#[test]
fn by_cases_more_is_known() {
    // Case 10 of the format, and what the walk call says of it.
    let request = [2, 1, 0, 2, 0, 0, 1, 2, 0, 0, 1, 3, 1, 0, 0, 0, 0, 1, 0, 1, 0, 0];
    assert_eq!(judge_by_cases(&request, 2).expect("a thread"), Answer::Verified { count: 2 });
    assert_eq!(judge_by_cases_here(&request, 1), Answer::BudgetSpent { budget: 1 });
    assert_eq!((judge_here(&request, 2).number(), judge_here(&request, 2).place()), (1, 20));
    // Two lines, of which one allows the action where the fluent is true and the other where it is false; and one line alone.
    let lines = [1, 1, 0, 0, 2, 0, 1, 0, 0, 1, 1, 0, 0, 1, 0, 0, 0];
    assert_eq!(judge_by_cases_here(&lines, 100), Answer::Verified { count: 2 });
    assert_eq!((judge_here(&lines, 100).number(), judge_here(&lines, 100).place()), (2, 14));
    let answer = judge_by_cases_here(&[1, 1, 0, 0, 1, 0, 1, 0, 0, 0, 1, 0, 0, 0], 100);
    let Answer::NotExecutable { place, count, state } = answer else { panic!("{answer}") };
    assert_eq!((place, count, state.line(1).as_str()), (11, 0, "?"));
}

#[test]
fn too_many_cases_have_a_place_alone() {
    let most = MOST_OPEN as u8;
    assert_eq!(judge_by_cases_here(&open(most, &[0, 0]), 3), Answer::Verified { count: 3 });
    let request = open(most + 1, &[0, 0]);
    assert_eq!(judge_here(&request, 3), Answer::Verified { count: 3 });
    for budget in [0, 3, u32::MAX] {
        let mut lent = [9; STATE_LENGTH];
        let answer = Answer::unpack_by_cases(judge_by_cases_packed(&request, &mut lent, budget), &lent);
        assert_eq!((answer, lent), (Answer::TooManyCases { place: 26 }, [9; STATE_LENGTH]));
        assert_eq!((answer.number(), answer.input(), answer.count(), answer.state()), (44, 1, 0, None));
        assert_eq!(answer.named(), Some(Input::Request));
        assert_eq!(show(answer, &request, &[]), [0, 0, 0, 0]);
        assert_eq!(answer.to_string(), "too many cases (44, place 26, count 0)");
        let error = answer.verified().unwrap_err();
        assert_eq!(error.to_string(), "not verified: too many cases (answer 44, place 26 of the request)");
    }
}

/// Where the walk call refuses, so does the call by cases, and on File A, where every action goes by what is known, they answer alike.
#[test]
fn by_cases_refused_alike() {
    for end in 0..=FILE_A.len() {
        for budget in 0..=5 {
            assert_eq!(judge_by_cases_here(&FILE_A[..end], budget), judge_here(&FILE_A[..end], budget));
        }
    }
    for length in [0, 1, STATE_LENGTH - 1, STATE_LENGTH + 1, 200] {
        let mut lent = vec![9; length];
        assert_eq!(judge_by_cases_packed(&open(13, &[0]), &mut lent, 7).0, 9);
        assert_eq!(lent, vec![9; length]);
    }
    assert_eq!(judge_by_cases_here(&vec![1; 16_385], 7), Answer::TooLong { input: Input::Request });
}

/// The thread of a test has 2 MiB, which these walks do not fit in.
#[test]
fn the_short_names_see_to_their_stack() {
    assert_eq!(judge(&deep(), 100_000).expect("a thread"), Answer::BudgetSpent { budget: 100_000 });
    assert_eq!(judge_guarded(&[deep(), vec![0]].concat(), 100_000).expect("a thread"), Answer::BudgetSpent { budget: 100_000 });
    assert_eq!(judge_by_cases(&deep(), 5_000).expect("a thread"), judge(&deep(), 5_000).expect("a thread"));
    let mut judge = Judge::new().expect("a thread");
    assert_eq!(judge.judge_by_cases(&deep(), 5_000), Answer::BudgetSpent { budget: 5_000 });
    assert_eq!(judge.judge_by_cases(&open(13, &[0]), 5), Answer::TooManyCases { place: 26 });
    assert_eq!(judge.judge_guarded(&[deep(), vec![0]].concat(), 5_000), Answer::BudgetSpent { budget: 5_000 });
    assert_eq!(judge.judge_guarded(&guarded_by(&[5]), 5), judge_guarded_here(&guarded_by(&[5]), 5));
    assert_eq!(judge.judge(&FILE_A, 5), Answer::Verified { count: 5 });
    assert_eq!(judge.judge_guarded(&vec![1; 1 << 20], 5), Answer::TooLong { input: Input::Request });
}

/// As a caller in haste writes it.
fn let_pass(request: &[u8], budget: u32) -> Result<(), Box<dyn Error + Send + Sync>> {
    judge(request, budget)?.verified()?;
    Ok(())
}

#[test]
fn only_zero_passes_the_question_mark() {
    assert!(let_pass(&FILE_A, 5).is_ok());
    let error = let_pass(&FILE_A, 4).unwrap_err();
    assert_eq!(error.to_string(), "not verified: budget spent (answer 3, no place)");
    let error = let_pass(&from_29(&[0, 1, 1, 1, 7, 1, 2]), 100_000).unwrap_err();
    assert_eq!(error.to_string(), "not verified: goal missed (answer 1, place 33 of the request)");
    let told = error.downcast::<NotVerified>().expect("an answer");
    assert_eq!(told.answer().state().expect("a state").line(4), "?+-?");
    let error = check(&[1, 1, 0, 0, 0, 0, 0, 0, 0, 0], &[]).verified().unwrap_err();
    assert_eq!(error.to_string(), "not verified: the input ends where a byte is due (answer 11, place 0 of the derivation)");
}

#[test]
fn zero_alone_is_verified() {
    for number in (0..=3).chain(9..=21) {
        let input = u64::from(!matches!(number, 0 | 3 | 9));
        let answer = Answer::unpack(Packed(number + (input << 8)), &[0; STATE_LENGTH]);
        assert_eq!((answer.is_verified(), answer.verified().is_ok()), (number == 0, number == 0), "{answer}");
    }
    for number in (30..=35).chain([0]) {
        let answer = Answer::unpack_checked(Packed(number + (u64::from(number != 0) << if number == 30 { 8 } else { 9 })));
        assert_eq!((answer.is_verified(), answer.verified().is_ok()), (number == 0, number == 0), "{answer}");
    }
    assert!(!Answer::ClosingNotRight { place: 0 }.is_verified());
    assert!(!Answer::unpack_guarded(Packed(43 + (1 << 8)), &[0; STATE_LENGTH]).is_verified());
    assert!(!Answer::unpack_by_cases(Packed(44 + (1 << 8)), &[0; STATE_LENGTH]).is_verified());
    assert!(!Answer::unpack_indexed(Packed(45 + (3 << 8)), &[0; STATE_LENGTH]).is_verified());
    assert!(!Answer::unpack_values(Packed(46 + (1 << 8)), &[0; STATE_LENGTH]).is_verified());
}

#[test]
fn each_number_is_packed_as_it_came() {
    for number in (0..=3).chain(9..=21) {
        let input = u64::from(!matches!(number, 0 | 3 | 9));
        let place = if input == 1 && number != 10 { 16_383 } else { 0 };
        let count = if number <= 3 { u64::from(u32::MAX) } else { 0 };
        let packed = Packed(number + (input << 8) + (place << 16) + (count << 32));
        let answer = Answer::unpack(packed, &[0; STATE_LENGTH]);
        assert_eq!(answer.packed(), packed);
        assert_eq!(u64::from(answer.number()), number);
        assert_eq!(answer.state().is_some(), matches!(number, 1 | 2));
        for unpack in [Answer::unpack_guarded, Answer::unpack_by_cases, Answer::unpack_indexed] {
            assert_eq!(unpack(packed, &[0; STATE_LENGTH]), answer);
        }
    }
    let packed = Packed(43 + (1 << 8) + (16_383 << 16) + (u64::from(u32::MAX) << 32));
    let answer = Answer::unpack_guarded(packed, &[2; STATE_LENGTH]);
    assert_eq!((answer.packed(), answer.number(), answer.count()), (packed, 43, u32::MAX));
    assert_eq!(answer.state().expect("a state").marks(), &[Mark::False; STATE_LENGTH]);
    // What the lent bytes are does not matter to 44 and 45.
    let without_state: [(Unpack, u8, u64); 2] = [(Answer::unpack_by_cases, 44, 1), (Answer::unpack_indexed, 45, 3)];
    for (unpack, number, input) in without_state {
        let packed = Packed(u64::from(number) + (input << 8) + (16_383 << 16));
        let answer = unpack(packed, &[9; STATE_LENGTH]);
        assert_eq!((answer.packed(), answer.number(), answer.place(), answer.state()), (packed, number, 16_383, None));
    }
}

/// How the answer of a call that walks is taken apart.
type Unpack = fn(Packed, &[u8]) -> Answer;

/// What no library may give: numbers that the call does not have, an input, a place or a count that does not go with its number, and a state that is none. Beside
/// the walk call's numbers the call has this one, if any, in this input, with a state and a count or without.
fn refuses_what_is_no_answer(unpack: Unpack, own: Option<(u64, u64, bool)>) {
    let refused = |packed: u64, lent: &[u8]| std::panic::catch_unwind(|| unpack(Packed(packed), lent)).is_err();
    let state = [0; STATE_LENGTH];
    for number in (4..=8).chain(22..=255) {
        for input in 0..=4 {
            let is_own = own.is_some_and(|(own, named, _)| (own, named) == (number, input));
            assert_eq!(refused(number + (input << 8), &state), !is_own, "number {number}, input {input}");
        }
    }
    assert!(refused(1 << 8, &state), "verified, in the request");
    assert!(refused(1 << 16, &state), "verified, at a place");
    assert!(refused(11 + (1 << 8) + (1 << 32), &state), "a refusal with a count");
    assert!(refused(11, &state), "a refusal of neither input");
    let (own, named, has_state) = own.unwrap_or((1, 1, true));
    let packed = own + (named << 8);
    assert_eq!(refused(packed + (1 << 32), &state), !has_state, "number {own} with a count");
    assert_eq!(refused(packed, &[3; STATE_LENGTH]), has_state, "number {own} and a mark 3");
    assert_eq!(refused(packed, &[0; STATE_LENGTH - 1]), has_state, "number {own} and a state that is a byte short");
}

#[test]
fn what_is_no_answer_is_refused() {
    refuses_what_is_no_answer(Answer::unpack, None);
    refuses_what_is_no_answer(Answer::unpack_guarded, Some((43, 1, true)));
    refuses_what_is_no_answer(Answer::unpack_by_cases, Some((44, 1, false)));
    refuses_what_is_no_answer(Answer::unpack_indexed, Some((45, 3, false)));
    refuses_what_is_no_answer(Answer::unpack_values, Some((46, 1, false)));
}

#[test]
fn packed_and_named_are_the_same_call() {
    for end in 0..=FILE_A.len() {
        let request = &FILE_A[..end];
        let packed = judge_packed(request, &mut [9; STATE_LENGTH], 7);
        assert_eq!(judge_here(request, 7).packed(), packed);
        assert_eq!(judge(request, 7).expect("a thread").packed(), packed);
    }
}

/// How many of the numbers, each with each input, are taken apart and packed again; the others are refused.
fn packed_as_it_came(unpack: fn(Packed) -> Answer, numbers: impl Iterator<Item = u64>) -> usize {
    let mut tried = 0;
    for number in numbers {
        for input in 0..=2 {
            let fits = match number {
                0 => input == 0,
                16 | 17 | 30 => input == 1,
                10..=21 => input != 0,
                _ => input == 2,
            };
            let place = if matches!(number, 0 | 10) { 0 } else { 32_767 };
            let packed = Packed(number + (input << 8) + (place << 16));
            let answer = std::panic::catch_unwind(|| unpack(packed));
            assert_eq!(answer.is_ok(), fits, "number {number}, input {input}");
            if let Ok(answer) = answer {
                assert_eq!((answer.packed(), u64::from(answer.number()), u64::from(answer.input())), (packed, number, input));
                tried += 1;
            }
        }
    }
    tried
}

#[test]
fn each_number_of_the_derivation_call_is_packed_as_it_came() {
    let numbers = [0].into_iter().chain(10..=21).chain(30..=35);
    assert_eq!(packed_as_it_came(Answer::unpack_checked, numbers), 1 + 3 + 20 + 5);
}

#[test]
fn each_number_of_the_whether_call_is_packed_as_it_came() {
    let numbers = [0].into_iter().chain(10..=21).chain(31..=34).chain([36]);
    assert_eq!(packed_as_it_came(Answer::unpack_whether, numbers), 1 + 2 + 20 + 5);
}

/// What no library may give: a number of another call, or an input, a place or a count that does not go with its number.
fn refuses(unpack: fn(Packed) -> Answer, numbers: impl Iterator<Item = u64>) {
    let refused = |packed: u64| std::panic::catch_unwind(|| unpack(Packed(packed))).is_err();
    for number in numbers {
        for input in 0..=3 {
            assert!(refused(number + (input << 8)), "number {number}, input {input}");
        }
    }
    assert!(refused(1 << 16), "accepted, at a place");
    assert!(refused(1 << 32), "accepted, with a count");
    assert!(refused(34 + (2 << 8) + (1 << 32)), "a refusal with a count");
    assert!(refused(10 + (2 << 8) + (1 << 16)), "too long, at a place");
}

#[test]
fn what_is_no_answer_of_the_derivation_call_is_refused() {
    refuses(Answer::unpack_checked, (1..=9).chain(22..=29).chain(36..=255));
}

#[test]
fn what_is_no_answer_of_the_whether_call_is_refused() {
    refuses(Answer::unpack_whether, (1..=9).chain(22..=30).chain([35]).chain(37..=255));
}

/// File A asks whether; without that entry its derivation is looked at.
#[test]
fn derivations_are_refused_in_their_input() {
    assert_eq!(check(&FILE_A, &[]), Answer::WhetherAsked { place: 46 });
    let request = [&FILE_A[..46], &[0]].concat();
    assert_eq!(check(&request, &[]), Answer::InputEnds { input: Input::Derivation, place: 0 });
    assert_eq!(check(&request, &[5]), Answer::InputEnds { input: Input::Derivation, place: 1 });
    assert_eq!(check(&request, &[0, 0]), Answer::CountNotWithinLimits { input: Input::Derivation, place: 0 });
    assert_eq!(check(&request, &[0; 32_769]), Answer::TooLong { input: Input::Derivation });
    assert_eq!(check(&[0; 16_385], &[0; 32_769]), Answer::TooLong { input: Input::Request });
    assert_eq!(check(&request[..46], &[]), Answer::InputEnds { input: Input::Request, place: 46 });
    // One line: the empty plan, with nothing known, by rules 0, 1, 6 and 6 of itself.
    assert_eq!(check(&request, &[0, 1, 0, 0, 0, 0, 0, 0]), Answer::NoRule { place: 2 });
    assert_eq!(check(&request, &[0, 1, 0, 0, 0, 0, 1, 0]), Answer::NotTheQuestion { place: 2 });
    assert_eq!(check(&request, &[0, 1, 0, 0, 0, 0, 6, 0]), Answer::CitationsWrong { place: 2 });
    assert_eq!(check(&request, &[0, 1, 0, 0, 0, 0, 6, 1, 0, 0]), Answer::CitesNoEarlierLine { place: 2 });
    let answer = check(&request, &[0, 1, 0, 0, 0, 0, 2, 0]);
    assert_eq!(answer, Answer::DoesNotFollow { place: 2 });
    assert_eq!(answer.to_string(), "a line does not follow by its rule (34, place 2 of the derivation, count 0)");
    assert_eq!(answer.packed(), check_packed(&request, &[0, 1, 0, 0, 0, 0, 2, 0]));
}

/// The whether call takes File A as it is.
#[test]
fn derivations_in_the_closing_layout_are_refused_in_their_input() {
    assert_eq!(check_whether(&FILE_A, &[]), Answer::InputEnds { input: Input::Derivation, place: 0 });
    assert_eq!(check_whether(&FILE_A, &[0, 0]), Answer::CountNotWithinLimits { input: Input::Derivation, place: 0 });
    assert_eq!(check_whether(&FILE_A, &[0; 32_769]), Answer::TooLong { input: Input::Derivation });
    assert_eq!(check_whether(&[0; 16_385], &[0; 32_769]), Answer::TooLong { input: Input::Request });
    assert_eq!(check_whether(&FILE_A[..46], &[]), Answer::InputEnds { input: Input::Request, place: 46 });
    // One line: the empty plan, with nothing known, by rule 9, by rule 1, and by rules 7 and 8 for fluents.
    assert_eq!(check_whether(&FILE_A, &[0, 1, 0, 0, 0, 9, 0, 0, 0]), Answer::NoRule { place: 2 });
    assert_eq!(check_whether(&FILE_A, &[0, 1, 0, 0, 0, 1, 0, 0, 0, 7]), Answer::BytesLeftOver { input: Input::Derivation, place: 9 });
    assert_eq!(check_whether(&FILE_A, &[0, 1, 0, 0, 0, 7, 4, 0, 0]), Answer::TooLarge { input: Input::Derivation, place: 6 });
    assert_eq!(check_whether(&FILE_A, &[0, 1, 0, 0, 0, 7, 3, 0, 0]), Answer::DoesNotFollow { place: 2 });
    assert_eq!(check_whether(&FILE_A, &[0, 1, 0, 0, 0, 8, 3, 0, 0]), Answer::CitationsWrong { place: 2 });
    assert_eq!(check_whether(&FILE_A, &[0, 1, 0, 0, 0, 8, 3, 1, 0, 0, 0]), Answer::CitesNoEarlierLine { place: 2 });
    // The closing list: of no entry, of one too few, and of two that name no line, and another line.
    assert_eq!(check_whether(&FILE_A, &[0, 1, 0, 0, 0, 1, 0, 0, 0]), Answer::ClosingNotRight { place: 8 });
    assert_eq!(check_whether(&FILE_A, &[0, 1, 0, 0, 0, 1, 0, 0, 1, 0, 0]), Answer::ClosingNotRight { place: 8 });
    assert_eq!(check_whether(&FILE_A, &[0, 1, 0, 0, 0, 1, 0, 0, 2, 0, 1, 0, 0]), Answer::ClosingNotRight { place: 9 });
    let derivation = [0, 1, 0, 0, 0, 1, 0, 0, 2, 0, 0, 0, 0];
    let answer = check_whether(&FILE_A, &derivation);
    assert_eq!(answer, Answer::ClosingNotRight { place: 9 });
    assert_eq!(answer.to_string(), "the closing list is not what the request asks (36, place 9 of the derivation, count 0)");
    assert_eq!(answer.packed(), check_whether_packed(&FILE_A, &derivation));
    assert_eq!(show(answer, &FILE_A, &derivation), [0, 0, 0, 0]);
}

#[test]
fn any_answer_can_be_shown() {
    let (request, derivation) = ([1, 2, 3], [4, 5, 6, 7]);
    for input in 0..=255 {
        for place in [0, 1, 2, 3, 4, 5, 65_535] {
            let answer = Packed(255 + (input << 8) + (place << 16) + (u64::from(u32::MAX) << 32));
            let shown = show(answer, &request, &derivation);
            let (whole, start): (&[u8], usize) = match input {
                1 => (&request, 3.min(place as usize)),
                2 => (&derivation, 4.min(place as usize)),
                _ => (&request[..0], 0),
            };
            assert_eq!(shown, &whole[start..], "input {input}, place {place}");
            assert_eq!(show_start(answer, &request, &derivation), start as u64);
            if input != 2 && place == 0 {
                assert_eq!(shown.as_ptr(), request.as_ptr());
            }
        }
    }
    assert_eq!(show(Answer::BudgetSpent { budget: 1 }, &request, &derivation), []);
    assert_eq!(show(Answer::WhetherAsked { place: 1 }, &request, &derivation), [2, 3]);
    assert_eq!(show(Answer::NoRule { place: 1 }, &request, &derivation), [5, 6, 7]);
    assert_eq!(show(Answer::ClosingNotRight { place: 3 }, &request, &derivation), [7]);
}
