//! The values call: states that have values, what is refused, and answers taken apart.

mod common;

use common::{deep, FILE_A};
use glintstring::{judge, judge_here, judge_packed, judge_values, judge_values_here, judge_values_packed, show};
use glintstring::{Answer, Input, Judge, Packed, Values, MOST_VALUES, STATE_LENGTH};

/// File A with two values for each fluent, as the last row of section 26 of the format has it.
const FILE_A_BY_VALUES: [u8; 64] = [
    4, 2, 2, 2, 2, 3, 3, 1, 1, 2, 2, 3, 1, 3, 1, 1, 0, 0, 1, 3, 0, 1, 0, 0, 2, 2, 0, 0, 3, 0, 0, 1, 1, 1, 2, 2, 1, 1, 0, 1, 0, 0, 0, 2, 0, 255, 2, 1, 0,
    1, 0, 2, 1, 2, 1, 0, 0, 0, 0, 1, 3, 2, 1, 2,
];

/// A traffic light with three colours, an action that looks at it, and these bytes behind that.
fn light(rest: &[u8]) -> Vec<u8> {
    [&[1, 3, 1, 0, 0, 1, 0, 0, 1, 0, 0], rest].concat()
}

/// Two fluents with three values, of which the first is known to be 2, and the goals "the first is 2" and "the second is not 2".
const SECOND_MISSED: [u8; 18] = [2, 3, 3, 1, 1, 0, 4, 0, 0, 0, 0, 0, 2, 0, 4, 1, 5, 0];

#[test]
fn a_missed_goal_has_its_values() {
    let answer = judge_values(&SECOND_MISSED, 1).expect("a thread");
    let Answer::GoalMissedWithValues { place, count, values } = answer else { panic!("{answer}") };
    assert_eq!((place, count), (15, 1));
    assert_eq!(values.line(2), "2 ?");
    assert_eq!((values.value(0), values.value(1), values.value(STATE_LENGTH - 1)), (Some(2), None, None));
    let mut lent = [9; STATE_LENGTH];
    assert_eq!(judge_values_packed(&SECOND_MISSED, &mut lent, 1), answer.packed());
    assert_eq!((values.bytes(), answer.values(), answer.state()), (lent, Some(&values), None));
    assert_eq!((answer.input(), answer.named()), (1, Some(Input::Request)));
    assert_eq!(show(answer, &SECOND_MISSED, &[]), [1, 5, 0]);
    assert_eq!(answer.to_string(), "goal missed (1, place 15, count 1)");
    let error = answer.verified().unwrap_err();
    assert_eq!(error.to_string(), "not verified: goal missed (answer 1, place 15 of the request)");
    assert_eq!(error.answer().values().expect("values").line(2), "2 ?");
}

#[test]
fn each_value_is_looked_at() {
    let looked = light(&[0, 1, 0, 0, 1, 0]);
    assert_eq!(judge_values(&looked, 4).expect("a thread"), Answer::Verified { count: 4 });
    assert_eq!(judge_values_here(&looked, 3), Answer::BudgetSpent { budget: 3 });
    // The goal is the first colour; and the look is left out, so that a branching on the colour can't be run.
    let answer = judge_values_here(&light(&[0, 1, 0, 1, 0, 0, 0]), 100);
    let Answer::GoalMissedWithValues { place, count, values } = answer else { panic!("{answer}") };
    assert_eq!((place, count, values.line(1).as_str()), (15, 4, "1"));
    let answer = judge_values_here(&light(&[0, 1, 255, 2, 1, 0, 0, 0, 0, 1, 0, 1, 0, 0, 0, 0]), 100);
    let Answer::NotExecutableWithValues { place, count, values } = answer else { panic!("{answer}") };
    assert_eq!((place, count, values), (13, 0, Values::from_bytes(&[0; STATE_LENGTH]).expect("values")));
    // Sixteen values, and a value that a fluent of sixteen does not have.
    let sixteen = [1, 16, 1, 0, 0, 1, 0, 0, 1, 0, 0, 0, 1, 0, 0, 1, 0];
    assert_eq!(judge_values_here(&sixteen, 17), Answer::Verified { count: 17 });
    assert_eq!(judge_values_here(&[1, 16, 1, 1, 0, 32], 17), Answer::TooLarge { input: Input::Request, place: 5 });
    assert_eq!(judge_values_here(&[1, 17], 17), Answer::CountNotWithinLimits { input: Input::Request, place: 1 });
}

#[test]
fn an_effect_that_says_is_not_has_a_place_alone() {
    let request = [1, 3, 1, 0, 1, 0, 0, 3, 0, 0, 0, 0, 0, 0, 0];
    for budget in [0, 3, u32::MAX] {
        let mut lent = [9; STATE_LENGTH];
        let answer = Answer::unpack_values(judge_values_packed(&request, &mut lent, budget), &lent);
        assert_eq!((answer, lent), (Answer::SaysIsNot { place: 6 }, [9; STATE_LENGTH]));
        assert_eq!((answer.number(), answer.input(), answer.count(), answer.state(), answer.values()), (46, 1, 0, None, None));
        assert_eq!(answer.named(), Some(Input::Request));
        assert_eq!(show(answer, &request, &[])[..2], [0, 3]);
        assert_eq!(answer.to_string(), "effect that says is not (46, place 6, count 0)");
        let error = answer.verified().unwrap_err();
        assert_eq!(error.to_string(), "not verified: effect that says is not (answer 46, place 6 of the request)");
    }
}

/// With two values for each fluent File A gets the numbers and the counts that it has as a request, and every beginning of it ends too soon.
#[test]
fn file_a_by_values() {
    for budget in 0..=6 {
        assert_eq!(judge_values_here(&FILE_A_BY_VALUES, budget), judge_here(&FILE_A, budget));
    }
    for end in 0..FILE_A_BY_VALUES.len() {
        assert_eq!(judge_values_here(&FILE_A_BY_VALUES[..end], 5), Answer::InputEnds { input: Input::Request, place: end });
    }
    // The plan opens without a look: the same state in both, where 0 stands for true and 1 for false.
    let (opened, by_values) = ([&FILE_A[..29], &[0, 1, 1, 1, 7, 1, 2]].concat(), [&FILE_A_BY_VALUES[..42], &[0, 1, 1, 1, 3, 2, 1, 2]].concat());
    let mut lent = [[9; STATE_LENGTH]; 2];
    let packed = [judge_packed(&opened, &mut lent[0], 5), judge_values_packed(&by_values, &mut lent[1], 5)];
    assert_eq!(packed.map(|packed| (packed.number(), packed.count())), [(1, 2), (1, 2)]);
    assert_eq!(lent[0], lent[1]);
    assert_eq!(Values::from_bytes(&lent[1]).expect("values").line(4), "? 0 1 ?");
}

#[test]
fn other_answers_leave_the_lent_bytes() {
    for length in [0, 1, STATE_LENGTH - 1, STATE_LENGTH + 1, 200] {
        let mut lent = vec![9; length];
        assert_eq!(judge_values_packed(&SECOND_MISSED, &mut lent, 7).0, 9);
        assert_eq!(lent, vec![9; length]);
    }
    let mut lent = [9; STATE_LENGTH];
    assert_eq!(judge_values_packed(&vec![1; 16_385], &mut lent, 7), Answer::TooLong { input: Input::Request }.packed());
    assert_eq!(judge_values_packed(&SECOND_MISSED, &mut lent, 0), Answer::BudgetSpent { budget: 0 }.packed());
    assert_eq!(lent, [9; STATE_LENGTH]);
}

/// A request that goes deep, said by values: each fluent has two, the literals 2f and 2f+1 are "f is 0" and "f is 1".
fn deep_by_values() -> Vec<u8> {
    let literal = |literal: u8| [literal / 2, 2 * (literal % 2)];
    let effects = (0..254).flat_map(|set: u8| [&[1], &literal(set)[..], &[1], &literal(255 - set % 2)].concat());
    let knowledge = (0..127).flat_map(|fluent| [0, fluent]);
    let counts = [128].into_iter().chain([2; 128]).chain([2, 0, 254]);
    let table = counts.chain(effects).chain([2, 0, 0, 1, 0, 127]).chain(knowledge);
    table.chain([4, 0]).chain([0, 1].repeat(512)).chain([0, 0]).collect()
}

/// The thread of a test has 2 MiB, which these walks do not fit in.
#[test]
fn the_short_names_see_to_their_stack() {
    assert_eq!(judge_values(&deep_by_values(), 5_000).expect("a thread"), Answer::BudgetSpent { budget: 5_000 });
    assert_eq!(judge(&deep(), 5_000).expect("a thread"), Answer::BudgetSpent { budget: 5_000 });
    let mut judge = Judge::new().expect("a thread");
    assert_eq!(judge.judge_values(&deep_by_values(), 5_000), Answer::BudgetSpent { budget: 5_000 });
    assert_eq!(judge.judge_values(&SECOND_MISSED, 5), judge_values_here(&SECOND_MISSED, 5));
    assert_eq!(judge.judge(&FILE_A, 5), Answer::Verified { count: 5 });
    assert_eq!(judge.judge_values(&vec![1; 1 << 20], 5), Answer::TooLong { input: Input::Request });
}

#[test]
fn each_number_is_packed_as_it_came() {
    for number in (0..=3).chain(9..=21).chain([46]) {
        let input = u64::from(!matches!(number, 0 | 3 | 9));
        let place = if input == 1 && number != 10 { 16_383 } else { 0 };
        let count = if number <= 3 { u64::from(u32::MAX) } else { 0 };
        let packed = Packed(number + (input << 8) + (place << 16) + (count << 32));
        // What the lent bytes are matters to 1 and 2 alone.
        let lent = if number <= 3 { [MOST_VALUES as u8; STATE_LENGTH] } else { [99; STATE_LENGTH] };
        let answer = Answer::unpack_values(packed, &lent);
        assert_eq!((answer.packed(), u64::from(answer.number()), answer.state()), (packed, number, None));
        assert_eq!(answer.values().map(Values::bytes), matches!(number, 1 | 2).then_some(lent));
        assert_eq!((answer.is_verified(), answer.verified().is_ok()), (number == 0, number == 0), "{answer}");
    }
}

/// Bytes that are no values: too few, too many, and one that says a seventeenth value.
#[test]
fn bytes_that_are_no_values() {
    let mut bytes = [0; STATE_LENGTH + 1];
    assert!(Values::from_bytes(&bytes).is_none() && Values::from_bytes(&bytes[2..]).is_none());
    for (byte, value) in (0..=u8::MAX).zip([None].into_iter().chain((0..).map(Some))) {
        bytes[0] = byte;
        let values = Values::from_bytes(&bytes[..STATE_LENGTH]);
        assert_eq!(values.map(|values| values.value(0)), (byte <= 16).then_some(value), "byte {byte}");
    }
    bytes[..3].copy_from_slice(&[16, 0, 1]);
    let values = Values::from_bytes(&bytes[..STATE_LENGTH]).expect("values");
    assert_eq!((values.line(0), values.line(1), values.line(3)), (String::new(), "15".to_string(), "15 ? 0".to_string()));
    assert_eq!(values.line(usize::MAX), values.line(STATE_LENGTH));
}
