//! The call by cases: the cases that come with the format, and what the rules say of requests that they
//! don't show.

mod common;

use common::{answer, bytes, changed, file_a, state, LENT};
use oracle::cases::calls::{cases_call, split};
use oracle::cases::way::{walk_by_cases, walk_filling, Filled};
use oracle::generate::{any_request, request, SMALL, TINY};
use oracle::model::Request;
use oracle::rng::Rng;
use oracle::walk::Verdict;
use oracle::{judge_by_cases, judge_by_cases_line, judge_line, open, Answer, STATE_LENGTH};

const BUDGET: u32 = 100_000;
/// The literals of the first 13 fluents.
const W: &str = "0 2 4 6 8 10 12 14 16 18 20 22 24";
/// Case 10.
const CASE_10: &str = "2 1 0 2 0 0 1 2 0 0 1 3 1 0 0 0 0 1 0 1 0 0";
/// 22.27: one line allows the action where a fluent is true, another where it is false.
const TWO_LINES: &str = "1 1 0 0 2 0 1 0 0 1 1 0 0 1 0 0 0";

/// The call by cases with a lent state of the right length; the state and the line come along.
fn run(request: &[u8], budget: u32) -> (Answer, [u8; STATE_LENGTH], u32) {
    let mut lent = [LENT; STATE_LENGTH];
    let (answer, line) = judge_by_cases_line(request, &mut lent, budget);
    (answer, lent, line)
}

/// Bytes of a row, in which `W` stands for 13 literals.
fn row(text: &str) -> Vec<u8> {
    bytes(&text.replace('W', W))
}

/// Expects an answer that leaves the lent state alone.
fn stays(request: &[u8], budget: u32, number: u8, place: u32, count: u32) {
    let input = u8::from(!matches!(number, 0 | 3 | 9));
    let expected = answer(number, input, place, count);
    assert_eq!(run(request, budget), (expected, [LENT; STATE_LENGTH], 0));
}

/// Expects 1 or 2, with the state and the line.
fn writes(request: &[u8], number: u8, place: u32, count: u32, marks: &str, line: u32) {
    let expected = answer(number, 1, place, count);
    assert_eq!(run(request, BUDGET), (expected, state(marks), line));
}

#[test]
fn rows_of_what_actions_do() {
    stays(&row(CASE_10), BUDGET, 0, 0, 2);
    stays(&row(CASE_10), 1, 3, 0, 1);
    let latch = "1 1 0 1 0 0 1 1 1 0 0 0 0 1 0 1 0 0";
    stays(&row(latch), BUDGET, 0, 0, 2);
    stays(&row(TWO_LINES), BUDGET, 0, 0, 2);
    let sensing = "1 1 0 0 2 0 1 0 0 1 1 1 0 0 0 1 0 0 1 0";
    stays(&row(sensing), BUDGET, 0, 0, 3);
    let example_9 = "4 2 0 4 0 0 1 4 0 2 1 5 1 6 1 0 1 6 1 2 2 0 0 1 0 0 0 2 0 1 1 6 0";
    writes(&row(example_9), 1, 31, 3, "????", 0);
    let example_11 = "2 3 1 0 2 0 1 1 2 2 0 1 2 3 0 0 1 0 2 0 1 1 1 0 3 0 1 2 1 0 0";
    writes(&row(example_11), 1, 29, 6, "?-", 0);
    let swap = "2 2 0 4 0 2 1 0 0 3 1 1 0 0 1 1 0 1 1 0 2 0 0 1 0 1 1 1 0 2 0 1 0 1 0";
    writes(&row(swap), 1, 34, 4, "?+", 0);
    writes(&row("1 1 0 0 1 0 1 0 0 0 1 0 0 0"), 2, 11, 0, "?", 5);
    let second = "2 1 0 0 2 0 2 0 2 0 1 1 0 0 1 0 0 0";
    writes(&row(second), 2, 15, 0, "??", 9);
    let branching = "1 1 0 0 0 0 0 1 255 2 1 0 0 0 1 1 0 0 0 0";
    writes(&row(branching), 2, 8, 0, "?", 0);
}

/// 22.28.
#[test]
fn the_walk_call_beside_it() {
    let mut lent = [LENT; STATE_LENGTH];
    let walked = judge_line(&row(TWO_LINES), &mut lent, BUDGET);
    assert_eq!((walked, lent), ((answer(2, 1, 14, 0), 5), state("?")));
}

#[test]
fn rows_of_too_many_cases() {
    let twelve = "13 1 0 1 0 0 12 2 4 6 8 10 12 14 16 18 20 22 24 1 0 0 0 0 1 0 0 0";
    stays(&row(twelve), BUDGET, 0, 0, 2);
    let thirteen = "13 1 0 1 0 0 13 W 1 0 0 0 0 1 0 0 0";
    stays(&row(thirteen), BUDGET, 44, 26, 0);
    stays(&row(thirteen), 0, 44, 26, 0);
    let one_known = "13 1 1 0 1 0 0 13 W 1 0 0 0 0 1 0 0 0";
    stays(&row(one_known), BUDGET, 0, 0, 2);
    let known_false = "14 1 1 1 2 0 0 13 W 0 0 1 26 1 0 0 0 0 1 0 0 0";
    stays(&row(known_false), BUDGET, 44, 31, 0);
    let known_true = "13 1 0 0 2 0 0 0 13 W 0 0 1 0 0 0";
    stays(&row(known_true), BUDGET, 44, 25, 0);
    let without_lines = "13 1 0 1 0 0 13 W 0 0 0 1 0 0 0";
    stays(&row(without_lines), BUDGET, 44, 24, 0);
    let senses = "13 1 0 0 1 0 13 W 1 0 0 0 1 0 0 0";
    stays(&row(senses), BUDGET, 44, 25, 0);
    let sets: String = (2..=26).step_by(2).map(|l| format!("0 {l} 1 0 ")).collect();
    let sets = format!("14 1 0 13 {sets} 1 0 0 0 0 1 0 0 0");
    stays(&row(&sets), BUDGET, 0, 0, 2);
    let counted = "13 2 0 1 0 0 13 W 2 0 0 1 0 0 0 2 1 0 0 0";
    stays(&row(counted), 1, 44, 29, 0);
    stays(&row(counted), 0, 3, 0, 0);
    let missed = "14 2 0 1 0 0 13 W 2 0 0 1 0 1 1 13 0 2 1 255 2 1 26 0 0 1 27 0 1 0 1 0 0";
    stays(&row(missed), BUDGET, 44, 41, 0);
}

#[test]
fn rows_of_refusals() {
    stays(&file_a(), BUDGET, 0, 0, 5);
    stays(&changed(11, 3), BUDGET, 16, 10, 0);
    for length in [0, 64, 127, 129] {
        let mut lent = vec![LENT; length];
        let answer = judge_by_cases(&file_a(), &mut lent, BUDGET);
        assert_eq!((answer, lent), (Answer::neither(9, 0), vec![LENT; length]));
    }
}

/// The same fluent in several bodies is one open fluent, whatever its sign; 14 of them are too many too.
#[test]
fn open_fluents_are_counted_once() {
    let twelve = "2 4 6 8 10 12 14 16 18 20 22 24";
    let against = "3 5 7 9 11 13 15 17 19 21 23 25";
    let both = format!("13 1 0 2 0 0 12 {twelve} 0 0 12 {against} 1 0 12 {twelve} 0 0 0 0 0");
    stays(&row(&both), BUDGET, 0, 0, 1);
    let run = both.replace("0 0 0 0 0", "0 0 1 0 0 0");
    let request = row(&run);
    let place = request.len() as u32 - 3;
    writes(&request, 2, place, 0, &"?".repeat(13), place - 17);
    let with_its_own = format!("13 1 0 1 0 0 13 1 {twelve} 1 0 0 0 0 1 0 0 0");
    stays(&row(&with_its_own), BUDGET, 44, 26, 0);
}

/// What the results share: a fluent made true in one filling and true before in all others, and one made
/// true in one and false in another.
#[test]
fn what_results_share() {
    // Fluent 0 becomes true where 1 is true and where it is false; 1 is turned; 2 is set where 1 is true.
    let table = "3 1 0 | 5 0 0 1 2 0 0 1 3 0 2 1 3 0 3 1 2 0 4 1 2 | 1 0 0 | 0";
    writes(
        &bytes(&format!("{table} | 0 1 0 | 1 4 | 0")),
        1,
        32,
        2,
        "+??",
        0,
    );
    writes(
        &bytes(&format!("{table} | 0 1 0 | 0 | 1 1")),
        1,
        33,
        2,
        "+??",
        0,
    );
}

type Ended = (Result<(u8, Option<u64>), usize>, Option<Verdict>);

/// How a walk by cases ends, with these fluents filled.
fn ended(request: &Request, filled: Filled) -> Ended {
    match walk_filling(request, 2_000, filled).0 {
        Ok(verdict) => (Ok((0, verdict.count())), Some(verdict)),
        Err(too_many) => (Err(too_many.place), None),
    }
}

/// It is enough to fill the open fluents.
#[test]
fn open_fluents_are_enough() {
    let mut compared = 0;
    for index in 0..6_000 {
        let mut rng = Rng::new(1, 30, index);
        let call = cases_call(&mut rng);
        let Ok(request) = open(&call.request) else {
            continue;
        };
        if request.fluents > 14 {
            continue;
        }
        compared += 1;
        let all = ended(&request, Filled::All);
        assert_eq!(all, ended(&request, Filled::Open), "call {index}");
        assert_eq!(all, ended(&request, Filled::AllIfFew), "call {index}");
    }
    assert!(compared > 3_000, "{compared}");
}

/// Splitting lines into cases changes nothing for the call by cases but places, and the walk call then
/// verifies less.
#[test]
fn lines_that_are_split() {
    let (mut walked, mut walked_split) = (0, 0);
    for index in 0..4_000 {
        let mut rng = Rng::new(1, 31, index);
        let shape = *rng.pick(&[TINY, SMALL]);
        let one = match rng.chance(10) {
            true => any_request(&mut rng),
            false => request(&mut rng, &shape),
        };
        let other = split(&mut rng, &one);
        let told = |request: &Request| match walk_by_cases(request, 300) {
            Ok(Verdict::Verified { count }) => Some((0, count, None)),
            Ok(Verdict::Missed { count, state, .. }) => Some((1, count, Some(state))),
            Ok(Verdict::Stuck { count, state, .. }) => Some((2, count, Some(state))),
            Ok(Verdict::Over) => Some((3, 0, None)),
            Err(_) => None,
        };
        if let (Some(one), Some(other)) = (told(&one), told(&other)) {
            assert_eq!(one, other, "draft {index}");
        }
        let verified = |request: &Request| {
            let verdict = oracle::walk::walk(request, 300);
            u32::from(matches!(verdict, Verdict::Verified { .. }))
        };
        walked += verified(&one);
        walked_split += verified(&other);
    }
    assert!(walked_split + 500 < walked, "{walked_split} of {walked}");
}
