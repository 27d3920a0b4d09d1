//! What the test programs share: each does what its words say, on a thread with enough stack.

use std::process::ExitCode;
use std::str::FromStr;
use std::{env, thread};

/// Why nothing good came of it.
pub enum Failure {
    /// What was looked for was found.
    Found(String),
    /// The words are not understood.
    Usage(String),
}

/// The words after the program's name go to `work`. Prints what it says, or on standard error why it failed: status 1 for what was found, and 2
/// for words that are not understood.
pub fn obey(name: &str, stack: usize, work: fn(&[&str]) -> Result<String, Failure>) -> ExitCode {
    let thread = thread::Builder::new().stack_size(stack).spawn(move || {
        let words: Vec<String> = env::args().skip(1).collect();
        let words: Vec<&str> = words.iter().map(String::as_str).collect();
        work(&words)
    });
    match thread.expect("a thread").join().expect("work done") {
        Ok(said) => {
            println!("{said}");
            ExitCode::SUCCESS
        }
        Err(Failure::Found(what)) => {
            eprintln!("{name}: {what}");
            ExitCode::from(1)
        }
        Err(Failure::Usage(why)) => {
            eprintln!("{name}: {why}");
            ExitCode::from(2)
        }
    }
}

pub fn number<Number: FromStr>(word: &str) -> Result<Number, Failure> {
    word.parse().map_err(|_| Failure::Usage(format!("not a number: {word}")))
}
