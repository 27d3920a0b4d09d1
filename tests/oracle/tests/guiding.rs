//! The operator's guide: the cases that come with the format, and what the rules say of it, one by one, on requests
//! written out.

mod common;

use common::{bytes, file_a, table_a};
use oracle::encode::encode_request;
use oracle::guides::call::{start, Guide, Told};
use oracle::guides::cases;
use oracle::guides::trials::{trials, Trial};
use oracle::model::{Allowance, Item, Request};
use oracle::{judge, Answer, STATE_LENGTH};

const BUDGET: u32 = 100_000;

/// Expects what is printed of a start and its calls, a line for each.
fn prints(request: &[u8], budget: u32, calls: &[&[u8]], expected: &[&str]) {
    let trial = Trial {
        request: request.to_vec(),
        budget,
        calls: calls.iter().map(|readings| readings.to_vec()).collect(),
    };
    let printed = trial.answers().printed();
    assert_eq!(printed.lines().collect::<Vec<_>>(), expected);
}

/// The same with a start that answers 0 with this count, and the usual budget.
fn leads(request: &[u8], count: u32, calls: &[&[u8]], expected: &[&str]) {
    let first = format!("start 0 0 0 {count}");
    prints(request, BUDGET, calls, &[&[&first[..]], expected].concat());
}

/// Look twice, and then as File A has it.
fn looking_twice() -> Vec<u8> {
    table_a("0 3 0 0 255 2 1 1 0 2 1 2 1 0 0 0 1 7 1 2")
}

#[test]
fn cases_of_the_format() {
    for (trial, (_, _, first, row)) in cases::trials().iter().zip(cases::cases()) {
        let answers = trial.answers();
        assert_eq!(answers.start.to_string(), first, "{row}");
        let calls = cases::calls(row);
        assert_eq!(calls.len(), answers.calls.len());
        for ((_, expected), (told, _)) in calls.iter().zip(answers.calls) {
            let own = expected == "41" || expected == "42";
            let (number, same) = match told {
                Told::Do(action) => (format!("do {action}"), true),
                Told::Done => ("done".to_string(), true),
                Told::Refused(answer) if own => (
                    answer.number.to_string(),
                    answer == Answer::neither(answer.number, 0),
                ),
                Told::Refused(answer) => (answer.number.to_string(), answer == answers.start),
            };
            assert!(&number == expected && same, "{told:?} in {row}");
        }
    }
    assert_eq!(cases::cases().len(), 23);
}

#[test]
fn a_reading_says_no_by_0_and_yes_by_every_other_byte() {
    let no: [&[u8]; 4] = [&[], &[0], &[], &[]];
    leads(&file_a(), 5, &no, &["do 0 0", "do 1", "do 2", "done"]);
    for yes in [1, 2, 127, 128, 254, 255] {
        leads(&file_a(), 5, &[&[], &[yes]], &["do 0 0", "done"]);
    }
}

#[test]
fn the_start_answers_as_the_walk_call_does() {
    for budget in [5, 6, BUDGET, u32::MAX] {
        let first = start(&file_a(), budget).1;
        assert_eq!(first, Answer::neither(0, 5));
        assert_eq!(first, judge(&file_a(), &mut [0; STATE_LENGTH], budget));
    }
    // Answers 1, 2 and 3 of the walk call.
    for (request, budget) in [
        (table_a("0 1 1 1 7 1 2"), BUDGET),
        (table_a("0 1 2 0 0"), BUDGET),
        (file_a(), 4),
        (file_a(), 0),
    ] {
        let expected = ["start 40 0 0 0", "refused 40 0 0 0", "refused 40 0 0 0"];
        prints(&request, budget, &[&[], &[1, 0, 1]], &expected);
    }
}

#[test]
fn a_refused_start_is_answered_again_at_every_call() {
    let mut later = file_a();
    later.push(0);
    for (request, answer) in [
        (vec![0; 16_385], "10 1 0 0"),
        (vec![255; 65_535], "10 1 0 0"),
        (file_a()[..47].to_vec(), "11 1 47 0"),
        (bytes("2 1 129"), "12 1 2 0"),
        (later, "20 1 48 0"),
    ] {
        let (first, again) = (format!("start {answer}"), format!("refused {answer}"));
        let again = &again[..];
        let calls: [&[u8]; 3] = [&[], &[1], &[0; 255]];
        prints(&request, 0, &calls, &[&first, again, again, again]);
    }
}

#[test]
fn the_first_call_brings_no_readings() {
    let calls: [&[u8]; 4] = [&[0], &[0; 255], &[], &[1]];
    let wrong = "refused 41 0 0 0";
    leads(&file_a(), 5, &calls, &[wrong, wrong, "do 0 0", "done"]);
}

#[test]
fn a_wrong_number_of_readings_leaves_the_guide_where_it_was() {
    let calls: [&[u8]; 9] = [&[], &[], &[1, 1], &[0], &[0], &[1], &[], &[0, 0], &[]];
    let wrong = "refused 41 0 0 0";
    leads(
        &file_a(),
        5,
        &calls,
        &[
            "do 0 0", wrong, wrong, "do 1", wrong, wrong, "do 2", wrong, "done",
        ],
    );
}

#[test]
fn a_reading_against_a_known_fluent_leaves_the_guide_where_it_was() {
    let calls: [&[u8]; 7] = [&[], &[0], &[1], &[255], &[1, 1], &[0], &[]];
    let against = "refused 42 0 0 0";
    leads(
        &looking_twice(),
        7,
        &calls,
        &[
            "do 0 0",
            "do 0 0",
            against,
            against,
            "refused 41 0 0 0",
            "do 1",
            "do 2",
        ],
    );
}

/// Of two fluents that action 0 senses, 1 is known to be true. Then action 1 where 0 is true, and else 2.
const ONE_KNOWN: &str = "2 3 1 2 0 3 0 0 1 0 2 0 2 0 1 0 0 0 2 0 255 2 1 0 0 1 1 1 1 0 1 2 0 0";

#[test]
fn no_reading_of_a_refused_call_is_taken_over() {
    let calls: [&[u8]; 5] = [&[], &[1, 0], &[1], &[0, 1], &[]];
    let [against, wrong] = ["refused 42 0 0 0", "refused 41 0 0 0"];
    let expected = ["do 0 0 1", against, wrong, "do 2", "done"];
    leads(&bytes(ONE_KNOWN), 5, &calls, &expected);
    let calls: [&[u8]; 4] = [&[], &[0, 0], &[9, 9], &[]];
    let expected = ["do 0 0 1", against, "do 1", "done"];
    leads(&bytes(ONE_KNOWN), 5, &calls, &expected);
}

#[test]
fn the_wrong_number_goes_before_a_reading_against_what_is_known() {
    let calls: [&[u8]; 2] = [&[], &[0, 0, 0]];
    leads(
        &bytes(ONE_KNOWN),
        5,
        &calls,
        &["do 0 0 1", "refused 41 0 0 0"],
    );
}

#[test]
fn fluents_are_asked_for_in_ascending_order_and_once() {
    let request = bytes("3 1 0 0 1 0 0 5 0 2 0 0 0 2 0 1 0 0 0 1 0 0 0");
    leads(&request, 9, &[&[], &[1, 0, 1]], &["do 0 0 1 2", "done"]);
}

#[test]
fn readings_after_the_last_action_may_be_refused() {
    let request = table_a("0 2 0 0 0 0");
    let calls: [&[u8]; 6] = [&[], &[1], &[], &[0], &[1], &[0]];
    leads(
        &request,
        5,
        &calls,
        &[
            "do 0 0",
            "do 0 0",
            "refused 41 0 0 0",
            "refused 42 0 0 0",
            "done",
            "done",
        ],
    );
}

#[test]
fn after_done_readings_are_left_unread() {
    let request = table_a("0 0 0 0");
    let calls: [&[u8]; 5] = [&[0], &[], &[], &[1], &[0; 255]];
    let expected = ["refused 41 0 0 0", "done", "done", "done", "done"];
    leads(&request, 1, &calls, &expected);
}

#[test]
fn what_an_action_may_have_changed_is_read_again_and_believed() {
    // Fluent 1 is true, until action 0 makes it false where fluent 0 is true; action 1 senses it.
    let request = bytes("2 2 1 2 1 0 3 1 0 2 0 0 1 0 1 1 1 0 3 1 0 1 0 0");
    let against = "refused 42 0 0 0";
    for reading in [0, 1] {
        let calls: [&[u8]; 5] = [&[], &[0], &[1], &[], &[reading]];
        let expected = ["do 1 1", against, "do 0", "do 1 1", "done"];
        leads(&request, 5, &calls, &expected);
    }
}

#[test]
fn what_an_action_changes_is_known_at_the_call_after_it() {
    // Action 0 makes fluent 0 true, and action 1 senses it.
    let request = bytes("1 2 0 1 0 0 0 2 0 0 1 0 1 1 0 0 2 0 1 1 0 0");
    let calls: [&[u8]; 4] = [&[], &[], &[0], &[1]];
    let expected = ["do 0", "do 1 0", "refused 42 0 0 0", "done"];
    leads(&request, 3, &calls, &expected);
}

#[test]
fn branchings_are_passed_without_an_answer() {
    // Inside one another, with items behind each, an empty branch and one that is not followed.
    let request = bytes(
        "1 3 1 0 0 3 0 0 1 0 2 0 0 \
         0 3 255 2 1 1 0 1 2 1 0 0 2 255 1 1 0 0 1 0 1 255 1 0 0 0 2 0 0",
    );
    let calls: [&[u8]; 4] = [&[]; 4];
    leads(&request, 4, &calls, &["do 0", "do 1", "do 2", "done"]);
    let only = bytes("1 1 1 0 0 0 0 0 1 255 1 1 0 0 0 0 0");
    leads(&only, 1, &calls[..2], &["done", "done"]);
}

#[test]
fn a_plan_of_1024_actions_is_done_after_them() {
    let request = Request {
        fluents: 1,
        actions: 1,
        allowances: vec![Allowance {
            action: 0,
            body: Vec::new(),
        }],
        plan: vec![Item::act(0); 1_024],
        ..Request::default()
    };
    let (mut guide, answer) = start(&encode_request(&request).bytes, 1_025);
    assert_eq!(answer, Answer::neither(0, 1_025));
    for number in 0..=1_024 {
        let told;
        (guide, told) = guide.next(&[]);
        assert_eq!(told == Told::Done, number == 1_024);
    }
    assert_eq!(guide, Guide::Ended);
}

#[test]
fn a_trial_is_written_as_bytes() {
    let trial = Trial {
        request: vec![7; 300],
        budget: 66_051,
        calls: vec![vec![], vec![255, 0]],
    };
    let start = [&[0, 1, 2, 3, 1, 44][..], &[7; 300]].concat();
    assert_eq!(trial.bytes(), [&start[..], &[0, 2, 0, 2, 255, 0]].concat());
}

#[test]
fn trials_come_from_the_seed_alone() {
    let all = |seed| trials(seed, 30).map(|trial| trial.bytes());
    assert!(all(3).eq(all(3)));
    assert!(!all(3).eq(all(4)));
}
