//! The example files, judged and carried out in worlds.

use std::path::Path;

use oracle::examples::{read_folder, Example};
use oracle::{open, paths, worlds};

fn all() -> Vec<Example> {
    let folder = Path::new(env!("CARGO_MANIFEST_DIR")).join("examples");
    read_folder(&folder).expect("the example files can be read")
}

#[test]
fn every_query_gives_the_expected_answer() {
    let examples = all();
    assert!(examples.len() >= 10);
    for example in &examples {
        assert!(!example.queries.is_empty(), "{}", example.name);
        for query in &example.queries {
            if let Err(difference) = query.run() {
                panic!("{}: {}: {difference}", example.name, query.title);
            }
        }
    }
}

#[test]
fn the_second_walk_agrees() {
    for query in all().iter().flat_map(|example| &example.queries) {
        if query.derivation.is_some() {
            continue;
        }
        let request = open(&query.request).expect("a readable request");
        let answer = match query.by_cases {
            true => paths::answer_by_cases(&request, query.budget, 1_000),
            false => paths::answer(&request, query.budget, 1_000),
        };
        let answer = answer.expect("few paths").answer;
        let found = (answer.number, answer.place, answer.count);
        assert_eq!(Some(found), query.expected, "{}", query.title);
    }
}

/// Every example whose plan works in all worlds although the walk says 1 or 2, by what is known and by cases.
#[test]
fn worlds_say_more_than_the_walk() {
    let known = [
        "by-cases",
        "copied",
        "remembering",
        "short-sight",
        "two-steps-by-cases",
    ];
    assert_eq!(beyond(false), known);
    assert_eq!(
        beyond(true),
        ["copied", "remembering", "short-sight", "two-steps-by-cases"]
    );
}

fn beyond(by_cases: bool) -> Vec<String> {
    let mut beyond = Vec::new();
    for example in all() {
        let queries = example.queries.iter();
        for query in queries.filter(|query| query.by_cases == by_cases) {
            let request = open(&query.request).expect("a readable request");
            let reached = worlds::carry_out(&request).is_ok();
            match query.expected.expect("an answer").0 {
                0 => assert!(reached, "{}: {}", example.name, query.title),
                1 | 2 if reached => beyond.push(example.name.clone()),
                _ => {}
            }
        }
    }
    beyond.dedup();
    beyond
}
