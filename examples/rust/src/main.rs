//! Judges requests, or checks derivations, and says in words what the answer is, with the bytes at its place.
//!
//!     review judge [--line] [--budget N] REQUEST...           (100,000 unless told otherwise)
//!     review judge-guarded [--budget N] REQUEST...
//!     review judge-by-cases [--budget N] REQUEST...
//!     review judge-values [--budget N] REQUEST...
//!     review index REQUEST...
//!     review judge-indexed [--budget N] REQUEST INDEX [REQUEST INDEX]...
//!     review derive [--budget N] REQUEST...
//!     review check REQUEST DERIVATION [REQUEST DERIVATION]...
//!     review check-whether REQUEST DERIVATION [REQUEST DERIVATION]...
//!     review release [--budget N] FILE...
//!
//! `check` and `check-whether` do not walk the plan: a derivation may be accepted where every budget is spent. The second takes requests
//! with whether entries too, and derivations in the closing layout. With `--line` a walk that an action stops also says which executability line
//! of it was missing. `judge-guarded` takes guarded requests, whose guards are to be known true all the way. `judge-by-cases` tries each action in every
//! filling of what is unknown. `judge-values` takes values requests, whose fluents have 2 to 16 values each. `index` says how the index of each request begins, and
//! `judge-indexed` walks by an index, which the program `index` has written to a file. `derive` walks too, and says how the derivation of each request begins, which
//! the program `derive` writes to a file. `release` takes release files, each with many plans over one table, and has a line for each plan. The exit status is 0 where
//! each plan is verified, each derivation accepted or written or each request indexed, 1 where some answer is another, and 2 where something can't be read or written.

use std::env;
use std::fs::File;
use std::io::{self, Read, Write};
use std::process::ExitCode;

use glintstring::{check, check_whether, index, show, Answer, Input, Judge, NotDerived, PlanAnswer, Released, DERIVATION_LIMIT, INDEX_MOST, REQUEST_LIMIT};

const USAGE: &str = "usage: review judge [--line] [--budget N] REQUEST... | review judge-guarded [--budget N] REQUEST... | \
                     review judge-by-cases [--budget N] REQUEST... | review judge-values [--budget N] REQUEST... | review index REQUEST... | \
                     review judge-indexed [--budget N] REQUEST INDEX [REQUEST INDEX]... | review derive [--budget N] REQUEST... | \
                     review check REQUEST DERIVATION [REQUEST DERIVATION]... | \
                     review check-whether REQUEST DERIVATION [REQUEST DERIVATION]... | review release [--budget N] FILE...";
const BUDGET: u32 = 100_000;

/// How many bytes are printed of the part that an answer is about.
const SHOWN: usize = 16;

/// The exit status, of one answer and of all: the largest.
const GOOD: u8 = 0;
const OTHER: u8 = 1;
const FAILED: u8 = 2;

/// Reads a file, and one byte beyond the limit at the most: longer inputs are all answered alike.
fn read(name: &str, limit: usize) -> Result<Vec<u8>, String> {
    let mut bytes = Vec::new();
    let read = File::open(name).and_then(|file| file.take(limit as u64 + 1).read_to_end(&mut bytes));
    read.map_err(|error| format!("{name}: {error}"))?;
    Ok(bytes)
}

/// What an answer is about: a request, with a derivation or an index beside it where there is one.
struct About<'a> {
    name: &'a str,
    request: &'a [u8],
    second: &'a [u8],
}

/// Prints the bytes of this part, which begins at this place, and of what they are.
fn print_part(out: &mut impl Write, what: &str, place: usize, part: &[u8]) -> io::Result<()> {
    let bytes: String = part.iter().take(SHOWN).map(|byte| format!(" {byte}")).collect();
    let end = match part.len() {
        0 => " it ends there",
        1..=SHOWN => "",
        _ => " ...",
    };
    writeln!(out, "  {what} from {place}:{bytes}{end}")
}

/// Prints the words, the numbers, the state of answers 1, 2 and 43, and the bytes at the place.
fn print(answer: Answer, about: &About) -> io::Result<()> {
    let mut out = io::stdout().lock();
    writeln!(out, "{}: {}", about.name, answer.words())?;
    writeln!(out, "  number {}, place {}, count {}", answer.number(), answer.place(), answer.count())?;
    // A request that was walked starts with its number of fluents.
    let fluents = || about.request[0].into();
    if let Some(state) = answer.state() {
        writeln!(out, "  state {}", state.line(fluents()))?;
    }
    if let Some(values) = answer.values() {
        writeln!(out, "  state {}", values.line(fluents()))?;
    }
    let Some(input) = answer.named() else { return Ok(()) };
    let (whole, part) = match input {
        Input::Request => (about.request, show(answer, about.request, about.second)),
        Input::Derivation => (about.second, show(answer, about.request, about.second)),
        // Which the showing call does not know.
        Input::Index => (about.second, &about.second[answer.place()..]),
    };
    print_part(&mut out, &input.to_string(), whole.len() - part.len(), part)
}

/// The same, and what it is for the exit status.
fn tell(answer: Answer, about: &About) -> Result<u8, String> {
    print(answer, about).map_err(|error| format!("standard output: {error}"))?;
    Ok(if answer.is_verified() { GOOD } else { OTHER })
}

/// Prints where the line starts that an answer carries, and its bytes: an action, a count, and as many literals.
fn print_line(request: &[u8], line: Option<usize>) -> io::Result<()> {
    let mut out = io::stdout().lock();
    let Some(place) = line else { return writeln!(out, "  no line") };
    let length = 2 + usize::from(request[place + 1]);
    let bytes: String = request[place..].iter().take(length).map(|byte| format!(" {byte}")).collect();
    writeln!(out, "  line from {place}:{bytes}")
}

/// What the commands take beside the files: a judge for all of them, and what the options say.
struct Asked {
    judge: Judge,
    budget: u32,
    lined: bool,
}

fn judge_file(asked: &mut Asked, names: &[&str]) -> Result<u8, String> {
    let request = read(names[0], REQUEST_LIMIT)?;
    let judged = asked.judge.judge_line(&request, asked.budget);
    let told = tell(judged.answer, &About { name: names[0], request: &request, second: &[] })?;
    if asked.lined {
        print_line(&request, judged.line).map_err(|error| format!("standard output: {error}"))?;
    }
    Ok(told)
}

/// The same by the guarded call, by the call by cases or by the values call.
fn judge_file_by(walk: fn(&mut Judge, &[u8], u32) -> Answer, asked: &mut Asked, names: &[&str]) -> Result<u8, String> {
    let request = read(names[0], REQUEST_LIMIT)?;
    tell(walk(&mut asked.judge, &request, asked.budget), &About { name: names[0], request: &request, second: &[] })
}

/// Prints how what a call has written begins.
fn print_written(name: &str, zero: &str, what: &str, written: &[u8]) -> io::Result<()> {
    let mut out = io::stdout().lock();
    writeln!(out, "{name}: {zero}\n  number 0, place 0, count {}", written.len())?;
    print_part(&mut out, what, 0, written)
}

fn index_file(_: &mut Asked, names: &[&str]) -> Result<u8, String> {
    let request = read(names[0], REQUEST_LIMIT)?;
    let index = match index(&request) {
        Ok(index) => index,
        Err(refused) => return tell(refused.answer(), &About { name: names[0], request: &request, second: &[] }),
    };
    print_written(names[0], "indexed", "index", &index).map_err(|error| format!("standard output: {error}"))?;
    Ok(GOOD)
}

/// Prints why there is no derivation: the words, the numbers, and the bytes at the place. There is no state.
fn print_not_derived(name: &str, other: NotDerived, request: &[u8]) -> io::Result<()> {
    let mut out = io::stdout().lock();
    writeln!(out, "{name}: {}\n  number {}, place {}, count {}", other.words(), other.number(), other.place(), other.count())?;
    match other.input() {
        0 => Ok(()),
        _ => print_part(&mut out, "request", other.place(), show(other, request, &[])),
    }
}

fn derive_file(asked: &mut Asked, names: &[&str]) -> Result<u8, String> {
    let request = read(names[0], REQUEST_LIMIT)?;
    let (printed, status) = match asked.judge.derive(&request, asked.budget) {
        Ok(derivation) => (print_written(names[0], "derived", "derivation", &derivation), GOOD),
        Err(other) => (print_not_derived(names[0], other, &request), OTHER),
    };
    printed.map_err(|error| format!("standard output: {error}"))?;
    Ok(status)
}

/// An answer about two files.
fn tell_both(names: &[&str], limit: usize, answer: impl FnOnce(&[u8], &[u8]) -> Answer) -> Result<u8, String> {
    let (request, second) = (read(names[0], REQUEST_LIMIT)?, read(names[1], limit)?);
    let name = format!("{} with {}", names[0], names[1]);
    tell(answer(&request, &second), &About { name: &name, request: &request, second: &second })
}

fn judge_indexed_files(asked: &mut Asked, names: &[&str]) -> Result<u8, String> {
    tell_both(names, INDEX_MOST, |request, index| asked.judge.judge_indexed(request, index, asked.budget))
}

fn print_plans(name: &str, plans: &[PlanAnswer]) -> io::Result<()> {
    let mut out = io::stdout().lock();
    writeln!(out, "{name}: answered")?;
    for (plan, answer) in plans.iter().enumerate() {
        let (number, place, count) = (answer.number(), answer.place(), answer.count());
        writeln!(out, "  plan {plan}: {}, number {number}, place {place}, count {count}", answer.words())?;
    }
    Ok(())
}

/// Answers the plans of a release file.
fn release_file(asked: &mut Asked, names: &[&str]) -> Result<u8, String> {
    let file = read(names[0], REQUEST_LIMIT)?;
    let released = asked.judge.release(&file, asked.budget);
    match &released {
        Released::Refused(answer) => return tell(*answer, &About { name: names[0], request: &file, second: &[] }),
        Released::Plans(plans) => print_plans(names[0], plans).map_err(|error| format!("standard output: {error}"))?,
    }
    Ok(if released.is_verified() { GOOD } else { OTHER })
}

/// What a command does for the files of one answer.
type Command = fn(&mut Asked, &[&str]) -> Result<u8, String>;

/// The commands, each with the number of files that an answer takes, and whether there is a budget.
const COMMANDS: [(&str, usize, bool, Command); 10] = [
    ("judge", 1, true, judge_file),
    ("judge-guarded", 1, true, |asked, names| judge_file_by(Judge::judge_guarded, asked, names)),
    ("judge-by-cases", 1, true, |asked, names| judge_file_by(Judge::judge_by_cases, asked, names)),
    ("judge-values", 1, true, |asked, names| judge_file_by(Judge::judge_values, asked, names)),
    ("index", 1, false, index_file),
    ("judge-indexed", 2, true, judge_indexed_files),
    ("derive", 1, true, derive_file),
    ("check", 2, false, |_, names| tell_both(names, DERIVATION_LIMIT, check)),
    ("check-whether", 2, false, |_, names| tell_both(names, DERIVATION_LIMIT, check_whether)),
    ("release", 1, true, release_file),
];

/// The answer's part of the exit status, or what failed, said on standard error.
fn status(outcome: Result<u8, String>) -> u8 {
    outcome.unwrap_or_else(|why| {
        eprintln!("review: {why}");
        FAILED
    })
}

/// The largest status of all answers; none where the words are no command.
fn review(words: &[&str]) -> Option<u8> {
    let (name, mut names) = words.split_first()?;
    let (_, files, budgeted, command) = COMMANDS.iter().find(|command| command.0 == *name)?;
    let (mut budget, mut lined) = (BUDGET, false);
    if let (&"judge", ["--line", rest @ ..]) = (name, names) {
        (lined, names) = (true, rest);
    }
    if let (true, ["--budget", rest @ ..]) = (budgeted, names) {
        let (number, rest) = rest.split_first()?;
        (budget, names) = (number.parse().ok()?, rest);
    }
    if names.is_empty() || names.len() % files != 0 {
        return None;
    }
    // One thread that has enough stack walks the plans of all files.
    let judge = match Judge::new() {
        Ok(judge) => judge,
        Err(error) => return Some(status(Err(format!("no thread: {error}")))),
    };
    let mut asked = Asked { judge, budget, lined };
    names.chunks_exact(*files).map(|names| status(command(&mut asked, names))).max()
}

fn main() -> ExitCode {
    let words: Vec<String> = env::args_os().skip(1).map(|word| word.to_string_lossy().into_owned()).collect();
    let words: Vec<&str> = words.iter().map(String::as_str).collect();
    ExitCode::from(review(&words).unwrap_or_else(|| {
        eprintln!("{USAGE}");
        FAILED
    }))
}
