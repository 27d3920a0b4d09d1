//! The command line of the reference program.

use std::io::{self, Read, Write};
use std::path::{Path, PathBuf};
use std::process::ExitCode;
use std::{env, fs};

use oracle::answer::writes_state;
use oracle::cases;
use oracle::derives;
use oracle::examples::{self, DEFAULT_BUDGET};
use oracle::guards;
use oracle::guides::{self, trials::Trial};
use oracle::indexes;
use oracle::releases::{self, call::ROW_NUMBERS};
use oracle::tally::Checked;
use oracle::text::{comma_separated, parse_bytes, state_line, values_line};
use oracle::{
    check, check_whether, derive, index, judge_by_cases_line, judge_guarded_line,
    judge_indexed_line, judge_line, judge_values, plans, release, rows, run, values, whether,
    Answer, STATE_LENGTH,
};

const HELP: &str = "\
oracle: an independent reference program for Glintstring's verifier of conditional plans

usage:
  oracle judge FILE [--budget N] [--guarded | --by-cases | --indexed INDEX] [--line] [--text]
  oracle judge FILE [--budget N] --values [--text]
      Judges a request and prints number, input, place and count; for answers 1, 2 and 43 a
      second line has one of ?+- for each fluent. The budget is 100,000 unless told otherwise.
      With --guarded the request has guards. With --by-cases actions are tried in every filling
      of what is unknown. With --indexed the lines of an action are those at the offsets of the
      file INDEX. With --line a last line has the place of the executability line that answer 2
      carries, or 0. With --values the fluents have values, and the second line has for each the
      value that is known, or ?, with blanks between.
  oracle index FILE [--room N] [--to INDEX] [--text]
      Makes the index call with a room of N bytes, or with room enough, and prints number, input,
      place and count; for answer 0 the index is written to the file INDEX, or else a second line
      has its bytes in decimal.
  oracle derive FILE [--budget N] [--room N] [--to DERIVATION] [--text]
      Makes the derive call in the same way, and writes the derivation to the file DERIVATION.
  oracle check REQUEST DERIVATION [--text]
      Checks a derivation and prints number, input, place and count.
  oracle check-whether REQUEST DERIVATION [--text]
      Does so with a derivation in the second layout.
  oracle release FILE [--budget N] [--text]
      Makes the release call and prints number, input, place and count of its own answer, and
      where the number is 0 a line for each plan with its number, place, count and input.
  oracle plans FILE [--text]
      Prints how many plans a release file has, or 0.
  oracle guide REQUEST READINGS [--budget N] [--text]
      Starts a guide and makes a call with each line of the file READINGS, which has decimal
      bytes. Prints `start` with number, input, place and count, and for each call `do` with the
      action and the fluents that are asked for, `done`, or `refused` with four numbers.
  oracle trials --to TRIALS [--seed S] [--count N]
      Writes the format's rows of guides and trials to the file TRIALS (seed 1 and 20,000 unless
      told otherwise), and prints what a program that has a guide is to print of them, in the
      same lines.
  oracle run [--seed S] [--requests N] [--derivations M] [--whether K] [--releases L]
             [--guarded G] [--by-cases C] [--indexed I] [--derived P] [--guided O] [--values V]
      Makes random calls (seed 1, 100,000 requests, 20,000 derivations in each layout, 20,000
      release files, 20,000 guarded requests, 20,000 requests by cases, 20,000 with an index,
      20,000 to be derived, 20,000 to be guided and 20,000 with values unless told otherwise),
      checks every answer, and prints how often each occurred. The last line is `oracle: ok`, or `oracle: FAILED` and why, with exit status 1.
  oracle run-whether [--seed S] [--whether K]
      Makes the random calls with derivations in the second layout only.
  oracle run-releases [--seed S] [--releases L]
      Makes the random release calls only.
  oracle run-guarded [--seed S] [--guarded G]
      Makes the random guarded calls only.
  oracle run-by-cases [--seed S] [--by-cases C]
      Makes the random calls by cases only.
  oracle run-indexed [--seed S] [--indexed I]
      Makes the random index calls and indexed calls only.
  oracle run-derived [--seed S] [--derived P]
      Makes the random derive calls only.
  oracle run-guided [--seed S] [--guided O]
      Starts random guides only, and follows them.
  oracle run-values [--seed S] [--values V]
      Makes the random values calls only.
  oracle rows [--seed S] [--count N] [--derivations M] [--whether K] [--releases L]
              [--guarded G] [--by-cases C] [--indexed I] [--derived P] [--guided O] [--values V]
      Prints N judging calls, M derivation calls, K in the second layout, L release calls, G
      guarded calls, C calls by cases, I index calls or indexed calls, P derive calls, O guides
      and V values calls with their answers, one per line:
        J REQUEST LENT BUDGET NUMBER INPUT PLACE COUNT STATE LINE
        D REQUEST DERIVATION NUMBER INPUT PLACE COUNT
        W REQUEST DERIVATION NUMBER INPUT PLACE COUNT
        R FILE LENT BUDGET NUMBER INPUT PLACE COUNT PLANS ROW
        G REQUEST LENT BUDGET NUMBER INPUT PLACE COUNT STATE LINE
        C REQUEST LENT BUDGET NUMBER INPUT PLACE COUNT STATE LINE
        B REQUEST ROOM NUMBER INPUT PLACE COUNT AFTERWARDS
        I REQUEST INDEX LENT BUDGET NUMBER INPUT PLACE COUNT STATE LINE
        P REQUEST ROOM BUDGET NUMBER INPUT PLACE COUNT AFTERWARDS
        O REQUEST BUDGET NUMBER INPUT PLACE COUNT CALLS TOLD
        V REQUEST LENT BUDGET NUMBER INPUT PLACE COUNT STATE
      Bytes are decimal with commas between; `-` is no byte; the three words REP BYTE N are N
      times one byte. LENT is the length of the lent state; STATE is all its bytes after answers
      1, 2 and 43, and `-` where it stays as lent; LINE is what --line prints. In rows R, LENT is
      the length of the lent row, PLANS what the plans call gives, and ROW the row's numbers after
      own answer 0, and `-` otherwise. In rows B and P, ROOM is the length of the lent room, whose
      bytes are 9, and AFTERWARDS has its bytes after answer 0, and is `-` otherwise. In rows O,
      CALLS are the readings of each call, and TOLD what each answers with the fluents that are
      asked for then, with `;` between calls. (Seed 1, 300, and none of the others unless told
      otherwise.)
  oracle examples [FOLDER]
      Runs the example files and prints a tally.
  oracle --help

A FILE of - is standard input. With --text, files hold decimal bytes with blanks, `,` or `|`
between them and `#` comments.
";

fn main() -> ExitCode {
    let words: Vec<String> = env::args().skip(1).collect();
    match command(&words) {
        Ok(status) => status,
        Err(error) => {
            eprintln!("oracle: {error}");
            ExitCode::from(2)
        }
    }
}

/// Calls of a kind: the option that says how many a run or rows have of them, the command that runs
/// these alone, that run, and the rows.
struct Kind {
    option: &'static str,
    command: &'static str,
    run: fn(u64, u64) -> Box<dyn Checked>,
    rows: fn(u64, u64) -> Box<dyn Iterator<Item = String>>,
}

const KINDS: [Kind; 8] = [
    Kind {
        option: "--whether",
        command: "run-whether",
        run: |seed, count| Box::new(whether::run::run(seed, count)),
        rows: |seed, count| Box::new(whether::rows::whether_rows(seed, count)),
    },
    Kind {
        option: "--releases",
        command: "run-releases",
        run: |seed, count| Box::new(releases::run::run(seed, count)),
        rows: |seed, count| Box::new(releases::rows::release_rows(seed, count)),
    },
    Kind {
        option: "--guarded",
        command: "run-guarded",
        run: |seed, count| Box::new(guards::run::run(seed, count)),
        rows: |seed, count| Box::new(guards::rows::guarded_rows(seed, count)),
    },
    Kind {
        option: "--by-cases",
        command: "run-by-cases",
        run: |seed, count| Box::new(cases::run::run(seed, count)),
        rows: |seed, count| Box::new(cases::rows::cases_rows(seed, count)),
    },
    Kind {
        option: "--indexed",
        command: "run-indexed",
        run: |seed, count| Box::new(indexes::run::run(seed, count)),
        rows: |seed, count| Box::new(indexes::rows::indexed_rows(seed, count)),
    },
    Kind {
        option: "--derived",
        command: "run-derived",
        run: |seed, count| Box::new(derives::run::run(seed, count)),
        rows: |seed, count| Box::new(derives::rows::derived_rows(seed, count)),
    },
    Kind {
        option: "--guided",
        command: "run-guided",
        run: |seed, count| Box::new(guides::run::run(seed, count)),
        rows: |seed, count| Box::new(guides::rows::guided_rows(seed, count)),
    },
    Kind {
        option: "--values",
        command: "run-values",
        run: |seed, count| Box::new(values::run::run(seed, count)),
        rows: |seed, count| Box::new(values::rows::values_rows(seed, count)),
    },
];

/// So many calls of a kind in a run unless told otherwise.
const CALLS: u64 = 20_000;

fn command(words: &[String]) -> Result<ExitCode, String> {
    let Some((name, rest)) = words.split_first() else {
        print!("{HELP}");
        return Ok(ExitCode::from(2));
    };
    let kind = KINDS.iter().find(|kind| kind.command == name);
    let of_kinds = |others: &[&'static str]| {
        let kinds = KINDS.iter().map(|kind| kind.option);
        others.iter().copied().chain(kinds).collect::<Vec<_>>()
    };
    let calls = ["--guarded", "--by-cases", "--line", "--text"];
    match name.as_str() {
        "judge" if rest.iter().any(|word| word == "--values") => {
            let flags = ["--values", "--text"];
            judge_values_file(&Options::parse(rest, &["--budget"], &flags, 1)?)
        }
        "judge" => {
            let (rest, index) = named_file("--indexed", rest)?;
            judge_file(&Options::parse(&rest, &["--budget"], &calls, 1)?, index)
        }
        "index" => {
            let (rest, to) = named_file("--to", rest)?;
            let options = Options::parse(&rest, &["--room"], &["--text"], 1)?;
            write_file(&options, to, index)
        }
        "derive" => {
            let (rest, to) = named_file("--to", rest)?;
            let options = Options::parse(&rest, &["--budget", "--room"], &["--text"], 1)?;
            let budget = budget_of(&options)?;
            write_file(&options, to, |request, room| derive(request, room, budget))
        }
        "check" => check_files(&Options::parse(rest, &[], &["--text"], 2)?, check),
        "check-whether" => check_files(&Options::parse(rest, &[], &["--text"], 2)?, check_whether),
        "release" => release_file(&Options::parse(rest, &["--budget"], &["--text"], 1)?),
        "plans" => count_plans(&Options::parse(rest, &[], &["--text"], 1)?),
        "run" => {
            let numbers = of_kinds(&["--seed", "--requests", "--derivations"]);
            run_calls(&Options::parse(rest, &numbers, &[], 0)?)
        }
        "rows" => {
            let numbers = of_kinds(&["--seed", "--count", "--derivations"]);
            print_rows(&Options::parse(rest, &numbers, &[], 0)?)
        }
        "trials" => {
            let (rest, to) = named_file("--to", rest)?;
            let options = Options::parse(&rest, &["--seed", "--count"], &[], 0)?;
            write_trials(&options, to)
        }
        "guide" => guide_file(&Options::parse(rest, &["--budget"], &["--text"], 2)?),
        "examples" => run_examples(rest.first()),
        "--help" | "-h" | "help" => {
            print!("{HELP}");
            Ok(ExitCode::SUCCESS)
        }
        other => match kind {
            Some(kind) => run_kind(
                kind,
                &Options::parse(rest, &["--seed", kind.option], &[], 0)?,
            ),
            None => Err(format!("no such command: {other} (see --help)")),
        },
    }
}

/// The words without an option that names a file, and that file.
fn named_file(option: &str, words: &[String]) -> Result<(Vec<String>, Option<String>), String> {
    let mut words = words.to_vec();
    let Some(place) = words.iter().position(|word| word == option) else {
        return Ok((words, None));
    };
    if place + 1 == words.len() {
        return Err(format!("{option} needs a file"));
    }
    let file = words.remove(place + 1);
    words.remove(place);
    Ok((words, Some(file)))
}

/// The words after a command: files, options with numbers, and options without.
struct Options {
    files: Vec<String>,
    numbers: Vec<(String, u64)>,
    flags: Vec<String>,
}

impl Options {
    fn parse(
        words: &[String],
        numbers: &[&str],
        flags: &[&str],
        files: usize,
    ) -> Result<Options, String> {
        let mut options = Options {
            files: Vec::new(),
            numbers: Vec::new(),
            flags: Vec::new(),
        };
        let mut words = words.iter();
        while let Some(word) = words.next() {
            if flags.contains(&word.as_str()) {
                options.flags.push(word.clone());
            } else if numbers.contains(&word.as_str()) {
                let value = words.next().ok_or(format!("{word} needs a number"))?;
                let value = value
                    .parse()
                    .map_err(|_| format!("not a number: {value}"))?;
                options.numbers.push((word.clone(), value));
            } else if word.starts_with("--") {
                return Err(format!("no such option here: {word}"));
            } else {
                options.files.push(word.clone());
            }
        }
        match options.files.len() == files {
            true => Ok(options),
            false => Err("a wrong number of files (see --help)".to_string()),
        }
    }

    fn has(&self, flag: &str) -> bool {
        self.flags.iter().any(|word| word == flag)
    }

    fn number(&self, name: &str, otherwise: u64) -> u64 {
        let given = self.numbers.iter().rev().find(|(word, _)| word == name);
        given.map_or(otherwise, |(_, value)| *value)
    }

    fn bytes(&self, index: usize) -> Result<Vec<u8>, String> {
        self.bytes_of(&self.files[index])
    }

    fn bytes_of(&self, name: &str) -> Result<Vec<u8>, String> {
        let bytes = match name {
            "-" => {
                let mut bytes = Vec::new();
                io::stdin().read_to_end(&mut bytes).map(|_| bytes)
            }
            _ => fs::read(name),
        };
        let bytes = bytes.map_err(|error| format!("{name}: {error}"))?;
        match self.has("--text") {
            true => parse_bytes(&String::from_utf8_lossy(&bytes)),
            false => Ok(bytes),
        }
    }
}

/// The budget given, or the usual one.
fn budget_of(options: &Options) -> Result<u32, String> {
    let budget = options.number("--budget", u64::from(DEFAULT_BUDGET));
    u32::try_from(budget).map_err(|_| "the budget is above 32 bits".to_string())
}

fn release_file(options: &Options) -> Result<ExitCode, String> {
    let file = options.bytes(0)?;
    let mut row = vec![0; ROW_NUMBERS * plans(&file) as usize];
    let own = release(&file, &mut row, budget_of(options)?);
    println!("{own}");
    if own.number == 0 {
        for four in row.chunks(ROW_NUMBERS) {
            println!("{} {} {} {}", four[0], four[1], four[2], four[3]);
        }
    }
    Ok(ExitCode::SUCCESS)
}

fn count_plans(options: &Options) -> Result<ExitCode, String> {
    println!("{}", plans(&options.bytes(0)?));
    Ok(ExitCode::SUCCESS)
}

fn judge_file(options: &Options, index: Option<String>) -> Result<ExitCode, String> {
    let request = options.bytes(0)?;
    let budget = budget_of(options)?;
    let mut lent = [0; STATE_LENGTH];
    let (answer, line) = match (options.has("--guarded"), options.has("--by-cases"), index) {
        (true, false, None) => judge_guarded_line(&request, &mut lent, budget),
        (false, true, None) => judge_by_cases_line(&request, &mut lent, budget),
        (false, false, None) => judge_line(&request, &mut lent, budget),
        (false, false, Some(index)) => {
            let index = options.bytes_of(&index)?;
            judge_indexed_line(&request, &index, &mut lent, budget)
        }
        _ => return Err("--guarded, --by-cases and --indexed do not go together".to_string()),
    };
    println!("{answer}");
    if writes_state(answer.number) {
        println!("{}", state_line(&lent, request[0]));
    }
    if options.has("--line") {
        println!("{line}");
    }
    Ok(ExitCode::SUCCESS)
}

fn judge_values_file(options: &Options) -> Result<ExitCode, String> {
    let request = options.bytes(0)?;
    let mut lent = [0; STATE_LENGTH];
    let answer = judge_values(&request, &mut lent, budget_of(options)?);
    println!("{answer}");
    if writes_state(answer.number) {
        println!("{}", values_line(&lent, request[0]));
    }
    Ok(ExitCode::SUCCESS)
}

/// Makes a call that writes into a room.
fn write_file(
    options: &Options,
    to: Option<String>,
    call: impl Fn(&[u8], &mut [u8]) -> Answer,
) -> Result<ExitCode, String> {
    let length = options.number("--room", 1 << 16);
    let mut room = vec![0; usize::try_from(length).map_err(|_| "too much room".to_string())?];
    let answer = call(&options.bytes(0)?, &mut room);
    println!("{answer}");
    if answer.number == 0 {
        let written = &room[..answer.count as usize];
        match to {
            Some(to) => fs::write(&to, written).map_err(|error| format!("{to}: {error}"))?,
            None => println!("{}", comma_separated(written)),
        }
    }
    Ok(ExitCode::SUCCESS)
}

fn check_files(options: &Options, call: fn(&[u8], &[u8]) -> Answer) -> Result<ExitCode, String> {
    println!("{}", call(&options.bytes(0)?, &options.bytes(1)?));
    Ok(ExitCode::SUCCESS)
}

fn run_calls(options: &Options) -> Result<ExitCode, String> {
    let seed = options.number("--seed", 1);
    let requests = options.number("--requests", 100_000);
    let derivations = options.number("--derivations", CALLS);
    println!("seed: {seed}");
    let tally = run::run(seed, requests, derivations);
    print!("{}", tally.report());
    let mut verdict = tally.verdict();
    for kind in &KINDS {
        let tally = (kind.run)(seed, options.number(kind.option, CALLS));
        print!("{}", tally.report());
        verdict = verdict.and(tally.verdict());
    }
    Ok(conclude(verdict))
}

fn run_kind(kind: &Kind, options: &Options) -> Result<ExitCode, String> {
    let seed = options.number("--seed", 1);
    println!("seed: {seed}");
    let tally = (kind.run)(seed, options.number(kind.option, CALLS));
    print!("{}", tally.report());
    Ok(conclude(tally.verdict()))
}

/// Prints the last line and gives the exit status.
fn conclude(verdict: Result<(), String>) -> ExitCode {
    match verdict {
        Ok(()) => {
            println!("oracle: ok");
            ExitCode::SUCCESS
        }
        Err(reason) => {
            println!("oracle: FAILED {reason}");
            ExitCode::FAILURE
        }
    }
}

fn print_rows(options: &Options) -> Result<ExitCode, String> {
    let seed = options.number("--seed", 1);
    let judging = options.number("--count", 300);
    let checking = options.number("--derivations", 0);
    let mut out = io::BufWriter::new(io::stdout().lock());
    let of_kinds = KINDS
        .iter()
        .flat_map(|kind| (kind.rows)(seed, options.number(kind.option, 0)));
    for row in rows::rows(seed, judging, checking).chain(of_kinds) {
        writeln!(out, "{row}").map_err(|error| error.to_string())?;
    }
    out.flush().map_err(|error| error.to_string())?;
    Ok(ExitCode::SUCCESS)
}

/// Leads through the plan of a request, each call with the bytes of a line of readings.
fn guide_file(options: &Options) -> Result<ExitCode, String> {
    let lines = fs::read_to_string(&options.files[1]).map_err(|error| error.to_string())?;
    let trial = Trial {
        request: options.bytes(0)?,
        budget: budget_of(options)?,
        calls: lines.lines().map(parse_bytes).collect::<Result<_, _>>()?,
    };
    print!("{}", trial.answers().printed());
    Ok(ExitCode::SUCCESS)
}

/// Writes trials of guides to a file, and what is to be printed of them to standard output.
fn write_trials(options: &Options, to: Option<String>) -> Result<ExitCode, String> {
    let to = to.ok_or("trials are written --to a file")?;
    let seed = options.number("--seed", 1);
    let mut out = io::BufWriter::new(io::stdout().lock());
    let mut bytes = Vec::new();
    for trial in guides::trials::trials(seed, options.number("--count", CALLS)) {
        bytes.extend(trial.bytes());
        let printed = trial.answers().printed();
        write!(out, "{printed}").map_err(|error| error.to_string())?;
    }
    out.flush().map_err(|error| error.to_string())?;
    fs::write(&to, bytes).map_err(|error| format!("{to}: {error}"))?;
    Ok(ExitCode::SUCCESS)
}

fn run_examples(folder: Option<&String>) -> Result<ExitCode, String> {
    let folder = match folder {
        Some(folder) => PathBuf::from(folder),
        None => Path::new(env!("CARGO_MANIFEST_DIR")).join("examples"),
    };
    let mut failed = 0;
    for example in examples::read_folder(&folder)? {
        for query in &example.queries {
            if let Err(difference) = query.run() {
                failed += 1;
                println!("{}: {}: {difference}", example.name, query.title);
            }
        }
        println!("{}: {} queries", example.name, example.queries.len());
    }
    Ok(conclude(match failed {
        0 => Ok(()),
        _ => Err(format!("{failed} queries")),
    }))
}
