//! What the generators promise: small runs without differences, and rows of every answer.

use std::collections::{BTreeMap, BTreeSet};

use oracle::answer::writes_state;
use oracle::cases;
use oracle::cases::rows::cases_rows;
use oracle::derives;
use oracle::derives::rows::derived_rows;
use oracle::edges::{self, Met};
use oracle::encode::encode_request;
use oracle::generate::{request, spread, MIDDLE, SMALL, TINY};
use oracle::guards;
use oracle::guards::rows::guarded_rows;
use oracle::guides;
use oracle::guides::rows::guided_rows;
use oracle::guides::trials::Trial;
use oracle::indexes;
use oracle::indexes::rows::indexed_rows;
use oracle::releases;
use oracle::releases::rows::release_rows;
use oracle::releases::run::{OF_PLANS, OWN};
use oracle::rng::Rng;
use oracle::rows::rows;
use oracle::run::run;
use oracle::tally::Checked;
use oracle::text::parse_bytes;
use oracle::values;
use oracle::values::rows::values_rows;
use oracle::whether;
use oracle::whether::rows::whether_rows;
use oracle::{
    check, check_whether, derive, index, judge, judge_by_cases_line, judge_guarded_line,
    judge_indexed_line, judge_line, judge_values, plans, release, Answer, STATE_LENGTH,
};

/// Small runs of some seeds show no difference, and all that has to occur in them.
fn shows_no_difference<T: Checked>(calls: u64, run: fn(u64, u64) -> T) {
    for seed in 1..=3 {
        let tally = run(seed, calls);
        assert_eq!(tally.differences(), &[] as &[String]);
        assert_eq!(tally.verdict(), Ok(()));
    }
}

#[test]
fn small_runs_show_no_difference() {
    for seed in 1..=3 {
        let tally = run(seed, 2_000, 400);
        assert_eq!(tally.differences(), &[] as &[String]);
    }
}

#[test]
fn small_runs_of_the_second_layout_show_no_difference() {
    shows_no_difference(600, whether::run::run);
}

#[test]
fn small_runs_of_release_files_show_no_difference() {
    shows_no_difference(4_000, releases::run::run);
}

#[test]
fn small_runs_of_guarded_requests_show_no_difference() {
    shows_no_difference(4_000, guards::run::run);
}

#[test]
fn small_runs_by_cases_show_no_difference() {
    shows_no_difference(4_000, cases::run::run);
}

#[test]
fn small_runs_by_an_index_show_no_difference() {
    shows_no_difference(6_000, indexes::run::run);
}

#[test]
fn small_runs_of_deriving_show_no_difference() {
    shows_no_difference(6_000, derives::run::run);
}

#[test]
fn small_runs_of_guides_show_no_difference() {
    shows_no_difference(3_000, guides::run::run);
}

#[test]
fn small_runs_with_values_show_no_difference() {
    shows_no_difference(6_000, values::run::run);
}

#[test]
fn runs_too_small_fail() {
    let runs: [Box<dyn Checked>; 8] = [
        Box::new(run(1, 10, 10)),
        Box::new(releases::run::run(1, 10)),
        Box::new(guards::run::run(1, 10)),
        Box::new(cases::run::run(1, 10)),
        Box::new(indexes::run::run(1, 10)),
        Box::new(derives::run::run(1, 10)),
        Box::new(guides::run::run(1, 10)),
        Box::new(values::run::run(1, 10)),
    ];
    for tally in runs {
        let verdict = tally.verdict();
        assert!(verdict.is_err_and(|reason| reason.starts_with("never met")));
    }
}

#[test]
fn a_request_that_is_spread_gets_the_same_answer() {
    for index in 0..2_000 {
        let mut rng = Rng::new(1, 20, index);
        let shape = *rng.pick(&[TINY, SMALL, MIDDLE]);
        let draft = request(&mut rng, &shape);
        let other = spread(&mut rng, &draft);
        assert!(draft.fluents < 64 && other.fluents > 64 && other.actions > 64);
        let [one, other] = [draft, other].map(|draft| encode_request(&draft).bytes);
        assert_eq!(one.len(), other.len());
        let lent = || [9; STATE_LENGTH];
        let budget = *rng.pick(&[3, 20, 1_000]);
        assert_eq!(
            judge(&one, &mut lent(), budget),
            judge(&other, &mut lent(), budget)
        );
    }
}

/// Takes the bytes of one field, which is one word or three, from the words of a row.
fn take<'a>(words: &mut impl Iterator<Item = &'a str>) -> Vec<u8> {
    match words.next().expect("a field") {
        "-" => Vec::new(),
        "REP" => {
            let byte = words.next().expect("a byte").parse().expect("a byte");
            let times = words.next().expect("a number").parse().expect("a number");
            vec![byte; times]
        }
        word => parse_bytes(word).expect("bytes"),
    }
}

fn number<'a>(words: &mut impl Iterator<Item = &'a str>) -> u32 {
    words.next().expect("a field").parse().expect("a number")
}

/// The next four numbers of a row are this answer's.
fn expect_answer<'a>(row: &str, words: &mut impl Iterator<Item = &'a str>, answer: Answer) {
    let told: Vec<u32> = (0..4).map(|_| number(words)).collect();
    let found = [
        answer.number.into(),
        answer.input.into(),
        answer.place,
        answer.count,
    ];
    assert_eq!(told, found, "{row}");
}

/// What follows the inputs in a row of a call with a lent state: the call, made again, leaves just
/// that. Budget and answer, and how long the state is.
fn left_again<'a>(
    row: &str,
    words: &mut impl Iterator<Item = &'a str>,
    judge: impl FnOnce(&mut [u8], u32) -> (Answer, u32),
) -> (u32, Answer, usize) {
    let mut line = 0;
    let left = state_again(row, words, |lent, budget| {
        let told = judge(lent, budget);
        line = told.1;
        told.0
    });
    assert_eq!(number(words), line, "{row}");
    left
}

/// The same of a call whose answer carries no line.
fn state_again<'a>(
    row: &str,
    words: &mut impl Iterator<Item = &'a str>,
    judge: impl FnOnce(&mut [u8], u32) -> Answer,
) -> (u32, Answer, usize) {
    let length = number(words) as usize;
    let mut lent = vec![77; length];
    let budget = number(words);
    let answer = judge(&mut lent, budget);
    expect_answer(row, words, answer);
    let written = writes_state(answer.number).then_some(lent);
    assert_eq!(take(words), written.unwrap_or_default(), "{row}");
    (budget, answer, length)
}

/// Rows come from the seed alone.
fn come_from_the_seed<Rows: Iterator<Item = String>>(rows: impl Fn(u64) -> Rows) {
    let once: Vec<String> = rows(9).collect();
    assert_eq!(once, rows(9).collect::<Vec<_>>());
    assert_ne!(once, rows(10).collect::<Vec<_>>());
}

#[test]
fn rows_can_be_computed_again() {
    let mut met = BTreeSet::new();
    let mut edges: BTreeMap<String, Met> = BTreeMap::new();
    let mut long = 0;
    for row in rows(5, 300, 300).chain(whether_rows(5, 300)) {
        let mut words = row.split(' ');
        let kind = words.next().expect("a kind");
        let request = take(&mut words);
        let (answer, shown) = match kind {
            "J" => {
                let judge = |lent: &mut [u8], budget| judge_line(&request, lent, budget);
                let (_, answer, length) = left_again(&row, &mut words, judge);
                (answer, edges::of_judging(&request, length, answer))
            }
            "D" => {
                let derivation = take(&mut words);
                let answer = check(&request, &derivation);
                expect_answer(&row, &mut words, answer);
                let shown = edges::of_derivation(&request, &derivation, answer);
                (answer, shown)
            }
            "W" => {
                let derivation = take(&mut words);
                let answer = check_whether(&request, &derivation);
                expect_answer(&row, &mut words, answer);
                let shown = edges::of_proof(&request, &derivation, answer);
                (answer, shown)
            }
            _ => panic!("no such kind: {kind}"),
        };
        edges.entry(kind.to_string()).or_default().note(shown);
        assert_eq!(words.next(), None);
        met.insert((kind.to_string(), answer.number));
        long += u32::from(request.len() > 300);
    }
    let judging = (0..=3)
        .chain(9..=21)
        .map(|number| ("J".to_string(), number));
    let checking = [0].into_iter().chain(10..=21).chain(30..=35);
    let whether = [0].into_iter().chain(10..=21).chain(31..=34).chain([36]);
    let all: BTreeSet<_> = judging
        .chain(checking.map(|number| ("D".to_string(), number)))
        .chain(whether.map(|number| ("W".to_string(), number)))
        .collect();
    assert_eq!(met, all);
    assert!(long <= 3 + 1 + 1 + 1);
    for (kind, wanted) in [
        ("J", &edges::OF_JUDGING[..]),
        ("D", edges::OF_DERIVATIONS),
        ("W", &edges::OF_CHECKING),
    ] {
        assert_eq!(edges[kind].never(wanted), [] as [&str; 0], "{kind}");
    }
}

/// The numbers of one field of a row.
fn numbers<'a>(words: &mut impl Iterator<Item = &'a str>) -> Vec<u32> {
    match words.next().expect("a field") {
        "-" => Vec::new(),
        word => (word.split(','))
            .map(|number| number.parse().expect("a number"))
            .collect(),
    }
}

#[test]
fn rows_of_release_files_can_be_computed_again() {
    let (mut own_met, mut met) = (BTreeSet::new(), BTreeSet::new());
    for text in release_rows(5, 300) {
        let mut words = text.split(' ');
        assert_eq!(words.next(), Some("R"));
        let file = take(&mut words);
        let mut row = vec![77; number(&mut words) as usize];
        let own = release(&file, &mut row, number(&mut words));
        expect_answer(&text, &mut words, own);
        assert_eq!(number(&mut words), plans(&file), "{text}");
        let told = numbers(&mut words);
        match own.number {
            0 => assert_eq!(told, row, "{text}"),
            _ => assert!(told.is_empty() && row.iter().all(|&number| number == 77)),
        }
        assert_eq!(words.next(), None);
        met.extend(told.iter().step_by(4).map(|&number| number as u8));
        own_met.insert(own.number);
    }
    assert_eq!(own_met, BTreeSet::from(OWN));
    assert_eq!(met, BTreeSet::from(OF_PLANS));
    come_from_the_seed(|seed| release_rows(seed, 40));
}

/// A round of rows that begin with this letter, of a call on a request: each can be computed again. The
/// numbers and events that they show.
fn computed_again<Event: Ord, Rows: Iterator<Item = String>>(
    letter: &str,
    rows: impl Fn(u64, u64) -> Rows,
    judge: fn(&[u8], &mut [u8], u32) -> (Answer, u32),
    events: fn(&[u8], u32, Answer) -> Vec<Event>,
) -> (BTreeSet<u8>, BTreeSet<Event>) {
    let (mut met, mut shown) = (BTreeSet::new(), BTreeSet::new());
    for row in rows(5, 150) {
        let mut words = row.split(' ');
        assert_eq!(words.next(), Some(letter));
        let request = take(&mut words);
        let judge = |lent: &mut [u8], budget| judge(&request, lent, budget);
        let (budget, answer, _) = left_again(&row, &mut words, judge);
        assert_eq!(words.next(), None);
        met.insert(answer.number);
        shown.extend(events(&request, budget, answer));
    }
    come_from_the_seed(|seed| rows(seed, 40));
    (met, shown)
}

#[test]
fn rows_of_guarded_requests_can_be_computed_again() {
    use oracle::guards::run::{events, Event, NUMBERS};
    let (met, shown) = computed_again("G", guarded_rows, judge_guarded_line, events);
    assert_eq!(met, BTreeSet::from(NUMBERS));
    assert_eq!(shown, BTreeSet::from(Event::ALL));
}

#[test]
fn rows_by_cases_can_be_computed_again() {
    use oracle::cases::run::{events, Event, NUMBERS};
    let (met, mut shown) = computed_again("C", cases_rows, judge_by_cases_line, events);
    shown.insert(Event::TwelveOpen);
    assert_eq!(met, BTreeSet::from(NUMBERS));
    assert_eq!(shown, BTreeSet::from(Event::ALL));
}

#[test]
fn rows_by_an_index_can_be_computed_again() {
    use oracle::indexes::run::{built_events, events, Built, Event, OF_BUILDING, OF_JUDGING};
    let (mut of_building, mut of_judging) = (BTreeSet::new(), BTreeSet::new());
    let mut built = BTreeSet::from([Built::RoomFarTooLong]);
    let mut judged = BTreeSet::new();
    for row in indexed_rows(5, 150) {
        let mut words = row.split(' ');
        let kind = words.next().expect("a kind");
        let request = take(&mut words);
        if kind == "B" {
            let mut room = vec![9; number(&mut words) as usize];
            let answer = index(&request, &mut room);
            expect_answer(&row, &mut words, answer);
            let written = (answer.number == 0).then_some(&room);
            assert_eq!(take(&mut words), written.cloned().unwrap_or_default());
            of_building.insert(answer.number);
            built.extend(built_events(&request, room.len(), answer));
        } else {
            assert_eq!(kind, "I");
            let given = take(&mut words);
            let mut line = 0;
            let judge = |lent: &mut [u8], budget| {
                let told = judge_indexed_line(&request, &given, lent, budget);
                line = told.1;
                told
            };
            let (budget, answer, _) = left_again(&row, &mut words, judge);
            of_judging.insert(answer.number);
            judged.extend(events(&request, &given, budget, (answer, line)));
        }
        assert_eq!(words.next(), None);
    }
    assert_eq!(of_building, BTreeSet::from(OF_BUILDING));
    assert_eq!(of_judging, BTreeSet::from(OF_JUDGING));
    assert_eq!(built, BTreeSet::from(Built::ALL));
    assert_eq!(judged, BTreeSet::from(Event::ALL));
    come_from_the_seed(|seed| indexed_rows(seed, 40));
}

#[test]
fn rows_of_deriving_can_be_computed_again() {
    use oracle::derives::rows::NOT_SHOWN;
    use oracle::derives::run::{events, Event, NUMBERS};
    let (mut met, mut shown) = (BTreeSet::new(), BTreeSet::from(NOT_SHOWN));
    for row in derived_rows(5, 150) {
        let mut words = row.split(' ');
        assert_eq!(words.next(), Some("P"));
        let request = take(&mut words);
        let mut room = vec![9; number(&mut words) as usize];
        let budget = number(&mut words);
        let answer = derive(&request, &mut room, budget);
        expect_answer(&row, &mut words, answer);
        let written = (answer.number == 0).then_some(&room);
        assert_eq!(take(&mut words), written.cloned().unwrap_or_default());
        assert_eq!(words.next(), None);
        met.insert(answer.number);
        shown.extend(events(&request, room.len(), budget, answer));
    }
    assert_eq!(met, BTreeSet::from(NUMBERS));
    assert_eq!(shown, BTreeSet::from(Event::ALL));
    come_from_the_seed(|seed| derived_rows(seed, 40));
}

#[test]
fn rows_of_guides_can_be_computed_again() {
    use oracle::guides::follower::Event;
    use oracle::guides::rows::NOT_SHOWN;
    use oracle::guides::run::{CALLS, STARTS};
    let (mut starts, mut met) = (BTreeSet::new(), BTreeSet::new());
    let mut shown = BTreeSet::from(NOT_SHOWN);
    for row in guided_rows(5, 150) {
        let mut words = row.split(' ');
        assert_eq!(words.next(), Some("O"));
        let request = take(&mut words);
        let budget = number(&mut words);
        let told: Vec<&str> = words.collect();
        let calls = told[4].split(';');
        let calls = calls.map(|readings| take(&mut [readings].into_iter()));
        let trial = Trial {
            request,
            budget,
            calls: calls.collect(),
        };
        let answers = trial.answers();
        expect_answer(&row, &mut told.iter().copied(), answers.start);
        assert_eq!(told[5].split(';').count(), answers.calls.len(), "{row}");
        starts.insert(answers.start.number);
        met.extend(answers.calls.iter().map(|(told, _)| told.number()));
        shown.extend(trial.events());
    }
    assert_eq!(starts, BTreeSet::from(STARTS));
    assert_eq!(met, BTreeSet::from(CALLS));
    assert_eq!(shown, BTreeSet::from(Event::ALL));
    come_from_the_seed(|seed| guided_rows(seed, 40));
}

#[test]
fn rows_with_values_can_be_computed_again() {
    use oracle::values::run::{events, Event, NUMBERS};
    let (mut met, mut shown) = (BTreeSet::new(), BTreeSet::new());
    for row in values_rows(5, 150) {
        let mut words = row.split(' ');
        assert_eq!(words.next(), Some("V"));
        let request = take(&mut words);
        let judge = |lent: &mut [u8], budget| judge_values(&request, lent, budget);
        let (budget, answer, _) = state_again(&row, &mut words, judge);
        assert_eq!(words.next(), None);
        met.insert(answer.number);
        shown.extend(events(&request, budget, answer));
    }
    assert_eq!(met, BTreeSet::from(NUMBERS));
    assert_eq!(shown, BTreeSet::from(Event::ALL));
    come_from_the_seed(|seed| values_rows(seed, 40));
}

#[test]
fn rows_come_from_the_seed_alone() {
    come_from_the_seed(|seed| rows(seed, 40, 20));
    come_from_the_seed(|seed| whether_rows(seed, 20));
}
