//! What the fuzzer starts with, what it found written down as cases, and these judged again by both programs.

#[path = "../../../gate/compare/src/words.rs"]
mod words;

use std::fmt::Write;
use std::fs;
use std::process::ExitCode;

use fuzz::agreed;
use fuzz::input::seeds;
use words::{number, obey, Failure};

/// As for the comparison: what a walk may need, and room for this program itself.
const STACK: usize = glintstring::STACK_NEEDED + (2 << 20);
/// Bytes of the inputs that are kept, together.
const KEPT: usize = 190_000;

const HELP: &str = "usage: cases seeds FOLDER SEED COUNT FILE | cases keep FOLDER FILE | cases replay FILE";

/// Four numbers of the answer and the input in hexadecimal, one case to a line.
fn line(answer: [u64; 4], input: &[u8]) -> String {
    let [number, named, place, count] = answer;
    let mut line = format!("{number} {named} {place} {count} ");
    for byte in input {
        let _ = write!(line, "{byte:02x}");
    }
    line
}

fn bytes(text: &str) -> Option<Vec<u8>> {
    (0..text.len()).step_by(2).map(|at| u8::from_str_radix(text.get(at..at + 2)?, 16).ok()).collect()
}

/// The inputs of the cases in a file, each with its line.
fn kept(file: &str) -> Result<Vec<(String, Vec<u8>)>, String> {
    let text = fs::read_to_string(file).map_err(|error| format!("{file}: {error}"))?;
    let case = |(index, line): (usize, &str)| {
        let input = line.rsplit(' ').next().and_then(bytes).ok_or(format!("line {}: no bytes", index + 1))?;
        Ok((line.to_string(), input))
    };
    text.lines().enumerate().map(case).collect()
}

/// What was kept, and generated inputs.
fn write_seeds(folder: &str, seed: u64, count: u64, file: &str) -> Result<String, String> {
    let mut all = seeds(seed, count);
    all.extend(kept(file)?.into_iter().map(|(_, input)| input));
    for (index, input) in all.iter().enumerate() {
        fs::write(format!("{folder}/seed-{index}"), input).map_err(|error| format!("{folder}: {error}"))?;
    }
    Ok(format!("{} inputs to start with", all.len()))
}

/// The inputs of a folder as cases, the shortest first, as long as there is room.
fn keep(folder: &str, file: &str) -> Result<String, String> {
    let failed = |error: std::io::Error| format!("{folder}: {error}");
    let mut inputs: Vec<Vec<u8>> = Vec::new();
    for entry in fs::read_dir(folder).map_err(failed)? {
        inputs.push(fs::read(entry.map_err(failed)?.path()).map_err(failed)?);
    }
    let all = inputs.len();
    inputs.sort_by(|one, other| (one.len(), one).cmp(&(other.len(), other)));
    let mut room = KEPT;
    inputs.retain(|input| {
        let fits = input.len() <= room;
        room -= if fits { input.len() } else { 0 };
        fits
    });
    let mut text = String::new();
    for input in &inputs {
        text += &line(agreed(input)?, input);
        text.push('\n');
    }
    fs::write(file, text).map_err(|error| format!("{file}: {error}"))?;
    Ok(format!("{} of {all} inputs kept, {} bytes", inputs.len(), KEPT - room))
}

/// Every case through both programs, with the answer that is written down.
fn replay(file: &str) -> Result<String, String> {
    let cases = kept(file)?;
    for (index, (case, input)) in cases.iter().enumerate() {
        let answer = agreed(input).map_err(|why| format!("line {}: DIFFERENCE: {why}", index + 1))?;
        if line(answer, input) != *case {
            return Err(format!("line {}: number, input, place, count are {answer:?}", index + 1));
        }
    }
    Ok(format!("{} cases answered alike by both programs, as written down", cases.len()))
}

fn main() -> ExitCode {
    obey("fuzz", STACK, |words| {
        let told = match *words {
            ["seeds", folder, seed, count, file] => write_seeds(folder, number(seed)?, number(count)?, file),
            ["keep", folder, file] => keep(folder, file),
            ["replay", file] => replay(file),
            _ => return Err(Failure::Usage(HELP.to_string())),
        };
        told.map(|said| format!("fuzz: {said}")).map_err(Failure::Found)
    })
}
