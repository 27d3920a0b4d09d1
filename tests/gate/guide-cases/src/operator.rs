//! An operator who does on a volume what the program says, and answers with what the volume shows.

use std::fs::{self, File};
use std::io::{BufRead, BufReader, Write};
use std::path::Path;
use std::process::{Child, ChildStdin, Command, Stdio};

use oracle::model::Request;

use crate::volume::Volume;

/// More actions than a plan has.
const TOO_MANY: usize = 1_025;

/// How an operator types.
#[derive(Clone, Copy, PartialEq)]
pub enum Hand {
    /// Each line of readings is right.
    Steady,
    /// Before each right line come five that are refused.
    Clumsy,
}

/// What happened on the way: the actions, and the readings of each.
pub type Way = Vec<(u8, Vec<bool>)>;

/// Is led through the plan of the request in a file, on this volume, and returns the way. Standard error goes to the file `said`.
pub fn work(program: &Path, file: &Path, request: &Request, volume: &mut Volume, hand: Hand, said: &Path) -> Result<Way, String> {
    let expected = volume.actions(&request.plan);
    let mut guide = start(program, file, said)?;
    let way = lead(&mut guide, volume, hand)?;
    let status = guide.wait().map_err(|error| error.to_string())?;
    if status.code() != Some(0) {
        return Err(format!("it ended with {status}"));
    }
    let actions: Vec<u8> = way.iter().map(|(action, _)| *action).collect();
    if actions != expected {
        return Err(format!("it said {actions:?}, and the plan is {expected:?}"));
    }
    if !volume.has(&request.goals) {
        return Err(format!("a goal does not hold in the end, in {}", volume.shown()));
    }
    let lines = fs::read_to_string(said).map_err(|error| error.to_string())?;
    match lines == refusals(&way, hand) {
        true => Ok(way),
        false => Err(format!("it said on standard error: {lines}")),
    }
}

fn start(program: &Path, file: &Path, said: &Path) -> Result<Child, String> {
    let said = File::create(said).map_err(|error| error.to_string())?;
    Command::new(program)
        .arg(file)
        .stdin(Stdio::piped())
        .stdout(Stdio::piped())
        .stderr(said)
        .spawn()
        .map_err(|error| error.to_string())
}

/// Reads line after line, until `done`, behind which there is nothing.
fn lead(guide: &mut Child, volume: &mut Volume, hand: Hand) -> Result<Way, String> {
    let mut input = guide.stdin.take().ok_or("no standard input")?;
    let mut lines = BufReader::new(guide.stdout.take().ok_or("no standard output")?).lines();
    let mut way = Way::new();
    while way.len() < TOO_MANY {
        let line = lines.next().ok_or("it ended before it was done")?.map_err(|error| error.to_string())?;
        if line == "done" {
            return match lines.next() {
                None => Ok(way),
                Some(more) => Err(format!("behind done there is {more:?}")),
            };
        }
        way.push(obey(&line, volume, hand, &mut input)?);
    }
    Err("it never ends".to_string())
}

/// Does what a line says, and answers where the action senses.
fn obey(line: &str, volume: &mut Volume, hand: Hand, input: &mut ChildStdin) -> Result<(u8, Vec<bool>), String> {
    let (action, asked) = parse(line).ok_or_else(|| format!("it said {line:?}"))?;
    if asked != volume.sensed(action) {
        return Err(format!("it asks for {asked:?} after action {action}"));
    }
    if !volume.allows(action) {
        return Err(format!("action {action} may not be run in {}", volume.shown()));
    }
    volume.act(action);
    let readings: Vec<bool> = asked.iter().map(|&fluent| volume.reads(fluent)).collect();
    if !asked.is_empty() {
        let text = typed(&readings, hand);
        input.write_all(text.as_bytes()).map_err(|error| error.to_string())?;
    }
    Ok((action, readings))
}

/// `do`, an action, and fluents, with one space between them.
fn parse(line: &str) -> Option<(u8, Vec<u8>)> {
    let mut words = line.strip_prefix("do ")?.split(' ').map(|word| word.parse().ok());
    let action = words.next()??;
    Some((action, words.collect::<Option<_>>()?))
}

/// The lines that an operator types for these readings.
fn typed(readings: &[bool], hand: Hand) -> String {
    let signs: Vec<&str> = readings.iter().map(|&yes| if yes { "1" } else { "0" }).collect();
    let right = signs.join(" ");
    match hand {
        Hand::Steady => format!("{right}\n"),
        Hand::Clumsy => format!("\n{right} 1\n{right}?\n11\n{right}{}\n  {right} \n", " ".repeat(1_024)),
    }
}

/// What is said of the lines that are not right.
fn refusals(way: &Way, hand: Hand) -> String {
    let looks = way.iter().filter(|(_, readings)| !readings.is_empty()).count();
    match hand {
        Hand::Steady => String::new(),
        Hand::Clumsy => "guide: wrong number of readings (41)\n\
            guide: wrong number of readings (41)\n\
            guide: a line of readings has 0 and 1 and spaces between them\n\
            guide: a line of readings has 0 and 1 and spaces between them\n\
            guide: a line of readings has no more than 1024 bytes\n"
            .repeat(looks),
    }
}
