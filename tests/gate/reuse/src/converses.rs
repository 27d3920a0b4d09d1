//! What doesn't hold, by fixed requests: answers that are not 0 may change with one more fact, and so may a 0 with one fact less; plans that are
//! each verified may not be so when joined, where the second starts from more than the first reaches; and the budget that is enough for a
//! joined plan can't be smaller.

use oracle::rng::Rng;
use oracle::STATE_LENGTH;

use crate::asking::{Asker, Told};
use crate::calls::Judge;
use crate::parts::Parts;

/// The stream of random numbers of what is lent.
const LENT: u64 = 80;

/// What is asked, within which budget, and the answer: number, input, place and count, and the marks of the fluents where it writes them.
struct Row {
    request: Parts,
    budget: u32,
    answer: [u64; 4],
    marks: Option<Vec<u8>>,
}

fn verified(request: &Parts, count: u64) -> Row {
    Row { request: request.clone(), budget: 100, answer: [0, 0, 0, count], marks: None }
}

/// Answer 1 or 2.
fn failed(request: &Parts, number: u64, place: u64, count: u64, marks: [u8; 2]) -> Row {
    Row { request: request.clone(), budget: 100, answer: [number, 1, place, count], marks: Some(marks.to_vec()) }
}

/// Over two fluents, from these facts by one action to these goals.
fn one_action(facts: &[u8], actions: u8, lines: &[u8], action: u8, goals: &[u8]) -> Parts {
    Parts {
        sizes: [2, actions],
        facts: facts.to_vec(),
        lines: lines.to_vec(),
        plan: vec![0, 1, action],
        goals: goals.to_vec(),
        whether: Vec::new(),
    }
}

/// What is shown of each habit that is not safe.
fn shown() -> Vec<(&'static str, Vec<Row>)> {
    // The action makes fluent 1 true if fluent 0 is, and it can always be run.
    let gives_if = |facts: &[u8]| one_action(facts, 1, &[1, 0, 2, 1, 0, 1, 0, 0, 0], 0, &[2]);
    // The action changes nothing, and it can be run if fluent 0 is true.
    let runs_if = |facts: &[u8], goals: &[u8]| one_action(facts, 1, &[0, 1, 0, 1, 0, 0], 0, goals);
    // Action 0 makes fluent 0 true, and it can always be run. Action 1 can be run if fluent 1 is true.
    let one_of_two = |facts: &[u8], action: u8| one_action(facts, 2, &[1, 0, 0, 0, 2, 0, 0, 1, 1, 2, 0], action, &[0]);
    let (first, second) = (one_of_two(&[], 0), one_of_two(&[0, 2], 1));
    // Action 0 senses fluent 0, and action 1 makes fluent 1 true. Both can always be run.
    let look_or_act = |action: u8, goals: &[u8]| one_action(&[], 2, &[1, 1, 2, 0, 2, 0, 0, 1, 0, 1, 0, 0], action, goals);
    let (looks, acts) = (look_or_act(0, &[]), look_or_act(1, &[2]));
    let both = looks.joined(&acts);
    vec![
        ("an answer 1 becomes 0 with one more fact", vec![failed(&gives_if(&[]), 1, 16, 2, [0, 0]), verified(&gives_if(&[0]), 2)]),
        (
            "an answer 2 becomes 1 with one more fact",
            vec![failed(&runs_if(&[], &[2]), 2, 11, 0, [0, 0]), failed(&runs_if(&[0], &[2]), 1, 14, 2, [1, 0])],
        ),
        ("an answer 0 becomes 1 with one fact less", vec![verified(&gives_if(&[0]), 2), failed(&gives_if(&[]), 1, 16, 2, [0, 0])]),
        ("an answer 0 becomes 2 with one fact less", vec![verified(&runs_if(&[0], &[]), 2), failed(&runs_if(&[], &[]), 2, 11, 0, [0, 0])]),
        (
            "two plans are verified and their joining is not, as the second starts from more than the first reaches",
            vec![
                verified(&first, 2),
                verified(&second, 2),
                failed(&one_of_two(&[0], 1), 2, 17, 0, [1, 0]),
                failed(&first.joined(&second), 2, 17, 1, [1, 0]),
            ],
        ),
        (
            "a joined plan needs all of (c - e) + e * d",
            vec![
                verified(&looks, 3),
                verified(&acts, 2),
                Row { budget: 5, ..verified(&both, 5) },
                Row { budget: 4, answer: [3, 0, 0, 4], ..verified(&both, 5) },
            ],
        ),
    ]
}

/// Each row has its answer; in words the first that hasn't.
pub fn hold(judge: &Judge) -> Result<Vec<&'static str>, String> {
    let mut asker = Asker::new(judge, Rng::new(1, LENT, 0));
    let mut names = Vec::new();
    for (name, rows) in shown() {
        for row in rows {
            let state = row.marks.map(|mut marks| {
                marks.resize(STATE_LENGTH, 0);
                marks
            });
            let expected = Told { answer: row.answer, state };
            let told = asker.ask(&row.request.bytes(), row.budget)?;
            if told != expected {
                return Err(format!("{name}: {told}, and not {expected}; asked: {}", asker.made()));
            }
        }
        names.push(name);
    }
    Ok(names)
}

/// The same through the exported call.
pub fn tell() -> Result<String, String> {
    let names = hold(&glintstring::judge_packed)?;
    for name in &names {
        println!("  converses: {name}");
    }
    Ok(format!("converses: {} of the habits that are not safe are shown not to be", names.len()))
}
