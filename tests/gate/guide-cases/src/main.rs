//! A scripted operator on simulated volumes, led by the program `guide` through pipes both ways.
//!
//!     operator PROGRAM EXAMPLES FOLDER REQUEST...
//!
//! Takes every request that is verified, of the files named and of the example files in the folder EXAMPLES, and every volume that has its initial
//! facts. Each action answered may be run, the actions are those of the plan, the readings are those of the volume, and the goals hold in the end.
//! Volumes with the same readings have the same value of each whether fluent. Scratch files lie in FOLDER.

mod operator;
mod volume;

use std::collections::HashMap;
use std::path::{Path, PathBuf};
use std::process::ExitCode;
use std::{env, fs};

use operator::{work, Hand, Way};
use oracle::examples::{read_folder, DEFAULT_BUDGET};
use oracle::{judge, open, STATE_LENGTH};
use volume::{Volume, MOST_FLUENTS};

/// A request that is verified, with what it is.
struct Job {
    name: String,
    request: Vec<u8>,
}

fn main() -> ExitCode {
    let words: Vec<PathBuf> = env::args_os().skip(1).map(PathBuf::from).collect();
    let [program, examples, folder, files @ ..] = &words[..] else {
        eprintln!("usage: operator PROGRAM EXAMPLES FOLDER REQUEST...");
        return ExitCode::from(2);
    };
    match run(program, examples, folder, files) {
        Ok(told) => {
            println!("{told}");
            ExitCode::SUCCESS
        }
        Err(reason) => {
            println!("operator: {reason}");
            ExitCode::FAILURE
        }
    }
}

fn run(program: &Path, examples: &Path, folder: &Path, files: &[PathBuf]) -> Result<String, String> {
    let jobs = jobs(examples, files)?;
    let mut worlds = 0;
    for job in &jobs {
        for hand in [Hand::Steady, Hand::Clumsy] {
            worlds += through(program, folder, job, hand).map_err(|reason| format!("{}: {reason}", job.name))?;
        }
    }
    Ok(format!("operator: {} plans, {worlds} volumes, each led to its goals", jobs.len()))
}

/// Every request that the walk call verifies.
fn jobs(examples: &Path, files: &[PathBuf]) -> Result<Vec<Job>, String> {
    let mut all = Vec::new();
    for file in files {
        let request = fs::read(file).map_err(|error| format!("{}: {error}", file.display()))?;
        let name = file.display().to_string();
        all.push(Job { name, request });
    }
    for example in read_folder(examples)? {
        for query in example.queries {
            let name = format!("{}, {}", example.name, query.title);
            all.push(Job { name, request: query.request });
        }
    }
    all.retain(|job| judge(&job.request, &mut [0; STATE_LENGTH], DEFAULT_BUDGET).number == 0);
    match all.iter().find(|job| job.request[0] > MOST_FLUENTS) {
        Some(job) => Err(format!("{}: too many fluents", job.name)),
        None => Ok(all),
    }
}

/// One plan in every world; how many these are.
fn through(program: &Path, folder: &Path, job: &Job, hand: Hand) -> Result<usize, String> {
    let request = open(&job.request).map_err(|fault| format!("refused: {fault:?}"))?;
    let (file, said) = (folder.join("request"), folder.join("said"));
    fs::write(&file, &job.request).map_err(|error| error.to_string())?;
    let mut ways: HashMap<Way, Vec<bool>> = HashMap::new();
    let mut worlds = 0;
    for mut volume in Volume::all(&request) {
        let from = volume.shown();
        let way = work(program, &file, &request, &mut volume, hand, &said).map_err(|reason| format!("from {from}: {reason}"))?;
        let told: Vec<bool> = request.whether.iter().map(|&fluent| volume.reads(fluent)).collect();
        if ways.entry(way).or_insert_with(|| told.clone()) != &told {
            return Err(format!("from {from}: a whether fluent is not known in the end"));
        }
        worlds += 1;
    }
    Ok(worlds)
}
