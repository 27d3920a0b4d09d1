//! Example files: requests and derivations of the literature with the answers expected.
//!
//! A file is made of lines, each a word and its value; `#` starts a comment, empty lines mean
//! nothing, bytes are decimal with `|` allowed between them:
//!
//! - `prefix BYTES`: bytes that every query of the file starts with; several lines add up
//! - `query TITLE`: starts a query
//! - `bytes BYTES`: the rest of the query's request; several lines add up
//! - `derivation BYTES`: makes the query one of the derivation call; several lines add up
//! - `by-cases`: makes the query one of the call by cases
//! - `budget N`: another budget than 100,000
//! - `answer NUMBER PLACE COUNT`: the answer expected
//! - `state MARKS`: the state expected with answers 1 and 2, one of `?+-` for each fluent

use std::fs;
use std::path::Path;

use crate::answer::{Answer, DERIVATION, NEITHER, REQUEST};
use crate::text::{parse_bytes, state_line, without_comment};
use crate::{check, judge, judge_by_cases, STATE_LENGTH};

/// The budget of a query that names none.
pub const DEFAULT_BUDGET: u32 = 100_000;

/// One query of an example file.
#[derive(Clone, Debug)]
pub struct Query {
    pub title: String,
    pub request: Vec<u8>,
    pub derivation: Option<Vec<u8>>,
    pub by_cases: bool,
    pub budget: u32,
    pub expected: Option<(u8, u32, u32)>,
    pub state: Option<String>,
}

/// An example file with its queries.
#[derive(Clone, Debug)]
pub struct Example {
    pub name: String,
    pub queries: Vec<Query>,
}

/// Reads all files of a folder that end in `.txt`, by name.
pub fn read_folder(folder: &Path) -> Result<Vec<Example>, String> {
    let entries = fs::read_dir(folder).map_err(|error| format!("{}: {error}", folder.display()))?;
    let mut paths: Vec<_> = entries
        .filter_map(|entry| entry.ok().map(|entry| entry.path()))
        .filter(|path| path.extension().is_some_and(|extension| extension == "txt"))
        .collect();
    paths.sort();
    paths.iter().map(|path| read_file(path)).collect()
}

fn read_file(path: &Path) -> Result<Example, String> {
    let text = fs::read_to_string(path).map_err(|error| format!("{}: {error}", path.display()))?;
    let name = path
        .file_stem()
        .unwrap_or_default()
        .to_string_lossy()
        .into_owned();
    let queries = parse(&text).map_err(|error| format!("{name}: {error}"))?;
    Ok(Example { name, queries })
}

/// Parses the text of an example file.
pub fn parse(text: &str) -> Result<Vec<Query>, String> {
    let mut prefix = Vec::new();
    let mut queries: Vec<Query> = Vec::new();
    for line in text
        .lines()
        .map(without_comment)
        .map(str::trim)
        .filter(|line| !line.is_empty())
    {
        let (word, value) = line.split_once(char::is_whitespace).unwrap_or((line, ""));
        let value = value.trim();
        match (word, queries.last_mut()) {
            ("prefix", None) => prefix.extend(parse_bytes(value)?),
            ("query", _) => queries.push(Query::new(value, &prefix)),
            (_, Some(query)) => query.take(word, value)?,
            _ => return Err(format!("unexpected before the first query: {line}")),
        }
    }
    Ok(queries)
}

impl Query {
    fn new(title: &str, prefix: &[u8]) -> Query {
        Query {
            title: title.to_string(),
            request: prefix.to_vec(),
            derivation: None,
            by_cases: false,
            budget: DEFAULT_BUDGET,
            expected: None,
            state: None,
        }
    }

    fn take(&mut self, word: &str, value: &str) -> Result<(), String> {
        match word {
            "bytes" => self.request.extend(parse_bytes(value)?),
            "derivation" => self
                .derivation
                .get_or_insert_with(Vec::new)
                .extend(parse_bytes(value)?),
            "by-cases" if value.is_empty() => self.by_cases = true,
            "budget" => self.budget = number(value)?,
            "answer" => self.expected = Some(three_numbers(value)?),
            "state" => self.state = Some(value.to_string()),
            _ => return Err(format!("unknown word: {word}")),
        }
        Ok(())
    }

    /// Makes the call and says what differs from what is expected.
    pub fn run(&self) -> Result<(), String> {
        let expected = self.expected.ok_or("no answer is expected")?;
        let (answer, state) = self.call();
        let named = match expected.0 {
            0 | 3 | 9 => NEITHER,
            _ if self.derivation.is_some() && expected.0 != 30 => DERIVATION,
            _ => REQUEST,
        };
        let (number, place, count) = expected;
        let wanted = Answer {
            number,
            input: named,
            place,
            count,
        };
        if answer != wanted {
            return Err(format!("answer {answer}, expected {wanted}"));
        }
        if state != self.state {
            return Err(format!("state {state:?}, expected {:?}", self.state));
        }
        Ok(())
    }

    fn call(&self) -> (Answer, Option<String>) {
        if let Some(derivation) = &self.derivation {
            return (check(&self.request, derivation), None);
        }
        let mut lent = [0; STATE_LENGTH];
        let answer = match self.by_cases {
            true => judge_by_cases(&self.request, &mut lent, self.budget),
            false => judge(&self.request, &mut lent, self.budget),
        };
        let written = matches!(answer.number, 1 | 2);
        (answer, written.then(|| state_line(&lent, self.request[0])))
    }
}

fn number(word: &str) -> Result<u32, String> {
    word.parse().map_err(|_| format!("not a number: {word}"))
}

fn three_numbers(value: &str) -> Result<(u8, u32, u32), String> {
    let words: Vec<&str> = value.split_whitespace().collect();
    let [first, place, count] = words[..] else {
        return Err(format!("not three numbers: {value}"));
    };
    let first = first
        .parse()
        .map_err(|_| format!("not an answer: {first}"))?;
    Ok((first, number(place)?, number(count)?))
}
