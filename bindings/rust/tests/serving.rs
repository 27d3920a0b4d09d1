//! A judge that keeps its thread: many calls, several owners, and its end. All in one test, since it looks at the threads of the process.

mod common;

use std::sync::Mutex;
use std::time::{Duration, Instant};
use std::{fs, thread};

use common::{deep, FILE_A};
use glintstring::{judge, Answer, Input, Judge, REQUEST_LIMIT};

/// Judges' threads in this process, by their name.
fn serving() -> usize {
    let tasks = fs::read_dir("/proc/self/task").expect("the threads of this process");
    let names = tasks.map(|task| fs::read_to_string(task.expect("a thread").path().join("comm")).unwrap_or_default());
    names.filter(|name| name.trim() == "glintstring").count()
}

/// There are so many of them, soon at least: the system may still name a thread that has just been joined.
fn assert_serving(expected: usize) {
    let began = Instant::now();
    while serving() != expected && began.elapsed() < Duration::from_secs(10) {
        thread::yield_now();
    }
    assert_eq!(serving(), expected);
}

fn is_send<Value: Send>(_: &Value) {}

#[test]
fn one_thread_serves_many_calls() {
    let mut judge_kept = Judge::new().expect("a thread");
    is_send(&judge_kept);
    assert_serving(1);

    // Each beginning of File A, with one byte after another turned, as the short name judges it.
    for length in 0..=FILE_A.len() {
        for place in 0..length {
            let mut request = FILE_A[..length].to_vec();
            request[place] ^= 1;
            assert_eq!(judge_kept.judge(&request, 9), judge(&request, 9).expect("a thread"), "{length} bytes, byte {place} turned");
        }
    }
    // More stack than this test's own thread has, and then little, and a request without end.
    for _ in 0..3 {
        assert_eq!(judge_kept.judge(&deep(), 5_000), Answer::BudgetSpent { budget: 5_000 });
        assert_eq!(judge_kept.judge(&FILE_A, 5), Answer::Verified { count: 5 });
        assert_eq!(judge_kept.judge(&vec![1; 1 << 20], 5), Answer::TooLong { input: Input::Request });
        assert_eq!(judge_kept.judge(&vec![0; REQUEST_LIMIT], 5), Answer::CountNotWithinLimits { input: Input::Request, place: 0 });
    }
    assert_serving(1);

    // Owners in turn, each on a thread of its own, and then several that take turns at it.
    for budget in 0..20 {
        let expected = if budget < 5 { Answer::BudgetSpent { budget } } else { Answer::Verified { count: 5 } };
        let owner = thread::spawn(move || {
            let answer = judge_kept.judge(&FILE_A, budget);
            (judge_kept, answer)
        });
        let (back, answer) = owner.join().expect("an owner");
        assert_eq!(answer, expected);
        judge_kept = back;
    }
    let shared = Mutex::new(judge_kept);
    thread::scope(|scope| {
        for budget in 0..8 {
            let shared = &shared;
            scope.spawn(move || {
                for _ in 0..200 {
                    let answer = shared.lock().expect("a judge").judge(&FILE_A, budget);
                    assert_eq!(answer.count(), budget.min(5));
                }
            });
        }
    });

    // Several judges, and the end of each.
    let more: Vec<Judge> = (0..3).map(|_| Judge::new().expect("a thread")).collect();
    assert_serving(4);
    drop(more);
    assert_serving(1);
    drop(shared);
    assert_serving(0);
}
