//! Times of the derivation call and of the whether call beside the independent program: by lines, and on the derivations that cost most.

use std::hint::black_box;

use oracle::calls::derivable;
use oracle::encode::{encode_derivation, encode_request};
use oracle::generate::{SMALL, TINY};
use oracle::model::{Allowance, Item, Knowledge, Line, Request};
use oracle::reader::{CITATION_LIMIT, DERIVATION_LIMIT, FLUENT_LIMIT, LINE_LIMIT};
use oracle::rng::Rng;

use crate::walks::quartiles;
use crate::{clock, whether};

/// The stream of random numbers, and how many derivations are timed for each number of lines.
const STREAM: u64 = 200;
pub const EACH: u64 = 200;
/// Numbers of lines.
pub const LINES: [usize; 3] = [10, 100, LINE_LIMIT];
/// Bytes of a line, on average, so that 1,024 lines have room.
pub const ROOM: usize = 31;
/// Fluents sensed at once by lines of 64 citations.
pub const SENSED: u8 = 6;
/// Lines of a section, and literals of a body.
const SECTION: usize = 255;
const BODY: u8 = 16;

/// What is timed: the inputs of a derivation call or of a whether call.
pub struct Timed {
    pub closing: bool,
    pub request: Vec<u8>,
    pub derivation: Vec<u8>,
}

/// What it is, and the calls.
pub type Row = (String, Vec<Timed>);

impl Timed {
    #[inline(always)]
    fn proved(&self) -> u64 {
        let (request, derivation) = (black_box(&self.request), black_box(&self.derivation));
        match self.closing {
            false => glintstring::check_packed(request, derivation).0,
            true => glintstring::check_whether_packed(request, derivation).0,
        }
    }

    fn independent(&self) -> oracle::Answer {
        let (request, derivation) = (black_box(&self.request), black_box(&self.derivation));
        match self.closing {
            false => oracle::check(request, derivation),
            true => oracle::check_whether(request, derivation),
        }
    }
}

fn timed(request: &Request, lines: &[Line]) -> Timed {
    Timed { closing: false, request: encode_request(request).bytes, derivation: encode_derivation(lines).bytes }
}

/// A generated derivation of ten lines at the most, small enough to be said a hundred times.
fn drawn(seed: u64, index: u64) -> (Request, Vec<Line>) {
    let mut rng = Rng::new(seed, STREAM, index);
    loop {
        let shape = *rng.pick(&[TINY, SMALL]);
        let (request, lines) = derivable(&mut rng, &shape);
        let bytes = encode_derivation(&lines).bytes.len();
        if (3..=LINES[0]).contains(&lines.len()) && bytes <= ROOM * lines.len() {
            return (request, lines);
        }
    }
}

/// The lines again and again, each time with citations of its own; what is missing then are lines by rule 1 before the others.
fn said_again(lines: &[Line], count: usize) -> Vec<Line> {
    let empty = || Line { place: 0, before: Vec::new(), sequence: Vec::new(), after: Vec::new(), rule: 1, cites: Vec::new() };
    let mut all: Vec<Line> = (0..count % lines.len()).map(|_| empty()).collect();
    while all.len() < count {
        let first = all.len() as u16;
        let shifted = |line: &Line| Line { cites: line.cites.iter().map(|cite| cite + first).collect(), ..line.clone() };
        all.extend(lines.iter().map(shifted));
    }
    all
}

/// Six fluents sensed at once before a plan of so many items, none or a power of two, by as many lines of 64 citations as there is room for
/// in so many bytes. All of them cite the same 64 lines, so that each has the whole rest of its plan compared 64 times; so many fluents more
/// are known in every line.
fn cited_most(known: u8, items: usize, bytes: usize) -> (Request, Vec<Line>) {
    let facts: Vec<u8> = (SENSED..SENSED + known).map(|fluent| 2 * fluent).collect();
    let plan: Vec<Item> = std::iter::once(Item::act(0)).chain((0..items).map(|_| Item::act(1))).collect();
    let request = Request {
        fluents: SENSED + known,
        actions: 2,
        facts: facts.clone(),
        goals: facts.clone(),
        allowances: (0..2).map(|action| Allowance { action, body: Vec::new() }).collect(),
        knowledge: (0..SENSED).map(|fluent| Knowledge { place: 0, action: 0, fluent }).collect(),
        plan: plan.clone(),
        ..Request::default()
    };
    let line = |read: &[u8], sequence: &[Item], rule: u8, cites: &[u16]| Line {
        place: 0,
        before: [read, &facts].concat(),
        sequence: sequence.to_vec(),
        after: facts.clone(),
        rule,
        cites: cites.to_vec(),
    };
    // Without a reading, the plan by doubling; then weakened to each reading; then the citing lines.
    let mut lines = vec![line(&[], &[], 1, &[])];
    if items > 0 {
        lines.push(line(&[], &plan[1..2], 2, &[]));
    }
    let mut done = 1;
    while done < items {
        let last = lines.len() as u16 - 1;
        done *= 2;
        lines.push(line(&[], &plan[1..=done], 5, &[last, last]));
    }
    let last = lines.len() as u16 - 1;
    let first = lines.len() as u16;
    for reading in 0..CITATION_LIMIT as u8 {
        let read: Vec<u8> = (0..SENSED).map(|fluent| 2 * fluent + (reading >> (SENSED - 1 - fluent) & 1)).collect();
        lines.push(line(&read, &plan[1..], 6, &[last]));
    }
    let cites: Vec<u16> = (first..first + CITATION_LIMIT as u16).collect();
    let citing = line(&[], &plan, 3, &cites);
    let length = encode_derivation(&[citing.clone()]).bytes.len() - 2;
    let left = bytes.saturating_sub(encode_derivation(&lines).bytes.len());
    lines.extend(vec![citing; (left / length).min(LINE_LIMIT - lines.len())]);
    (request, lines)
}

/// 1,024 lines by rule 6, each citing the one before, with as long lists as there is room for.
fn weakened() -> (Request, Vec<Line>) {
    let facts: Vec<u8> = (0..12).map(|fluent| 2 * fluent).collect();
    let request = Request { fluents: FLUENT_LIMIT as u8, actions: 1, facts: facts.clone(), goals: facts.clone(), ..Request::default() };
    let line = |rule: u8, cites: Vec<u16>| Line { place: 0, before: facts.clone(), sequence: Vec::new(), after: facts.clone(), rule, cites };
    let lines = (0..LINE_LIMIT as u16).map(|index| if index == 0 { line(1, Vec::new()) } else { line(6, vec![index - 1]) });
    (request, lines.collect())
}

/// An action that 255 executability lines are gone through for: the last can always be met, and each other one except for its last literal.
pub fn barred() -> Request {
    let facts: Vec<u8> = (0..BODY).map(|fluent| 2 * fluent).collect();
    let mut body = facts.clone();
    body[usize::from(BODY) - 1] += 1;
    let mut allowances = vec![Allowance { action: 0, body }; SECTION - 1];
    allowances.push(Allowance { action: 0, body: Vec::new() });
    Request { fluents: FLUENT_LIMIT as u8, actions: 1, facts: facts.clone(), goals: facts, allowances, plan: vec![Item::act(0)], ..Request::default() }
}

/// As many lines by rule 2 for such an action as there is room for.
fn run_often() -> (Request, Vec<Line>) {
    let request = barred();
    let facts = request.facts.clone();
    let line = Line { place: 0, before: facts.clone(), sequence: request.plan.clone(), after: facts, rule: 2, cites: Vec::new() };
    let length = encode_derivation(&[line.clone()]).bytes.len() - 2;
    (request, vec![line; (DERIVATION_LIMIT - 2) / length])
}

fn accepted(name: &str, calls: &[Timed]) -> Result<(), String> {
    for call in calls {
        let one = call.proved();
        let other = call.independent();
        if one != 0 || other.number != 0 {
            return Err(format!("{name}: the answers are {one} and {other}, and both should be 0"));
        }
    }
    Ok(())
}

/// Medians and quartiles for one call of each: the exported call, the independent program, and the ratio.
fn times(calls: &[Timed], rounds: u64) -> [[f64; 3]; 3] {
    let pass = |program: usize| {
        let start = clock::now();
        for call in calls {
            match program {
                0 => _ = black_box(call.proved()),
                _ => _ = black_box(call.independent()),
            }
        }
        (clock::now() - start) / calls.len() as f64
    };
    let mut taken = [Vec::new(), Vec::new(), Vec::new()];
    for _ in 0..rounds {
        let (proved, independent) = (pass(0), pass(1));
        taken[0].push(proved);
        taken[1].push(independent);
        taken[2].push(proved / independent);
    }
    taken.map(quartiles)
}

/// The rows of the derivation call.
fn rows(seed: u64) -> Vec<Row> {
    let nine = Timed {
        closing: false,
        request: include_bytes!("../../../../samples/nine-lines.request").to_vec(),
        derivation: include_bytes!("../../../../samples/nine-lines.derivation").to_vec(),
    };
    let mut rows = vec![("case 14".to_string(), vec![nine])];
    let bases: Vec<(Request, Vec<Line>)> = (0..EACH).map(|index| drawn(seed, index)).collect();
    for count in LINES {
        let calls = bases.iter().map(|(request, lines)| timed(request, &said_again(lines, count))).collect();
        rows.push((format!("{EACH} generated"), calls));
    }
    let (request, lines) = weakened();
    rows.push(("1,024 lines by rule 6, lists of 12".to_string(), vec![timed(&request, &lines)]));
    let all = DERIVATION_LIMIT;
    for (known, items, bytes) in [(0, 0, all), (0, 64, all), (0, 128, all / 2), (0, 128, all), (FLUENT_LIMIT as u8 - SENSED, 0, all)] {
        let (request, lines) = cited_most(known, items, bytes);
        rows.push((format!("64 citations a line, lists of {known}, {items} items"), vec![timed(&request, &lines)]));
    }
    let (request, lines) = run_often();
    rows.push(("rule 2 over 255 executability lines".to_string(), vec![timed(&request, &lines)]));
    rows
}

fn table(rows: &[Row], rounds: u64) -> Result<String, String> {
    let mut out = String::from("| derivations | lines | bytes, mean | proved, ns | for a byte | lines a second | ");
    out += "independent, ns | ratio | quartiles |\n|---|---|---|---|---|---|---|---|---|\n";
    for (name, calls) in rows {
        accepted(name, calls)?;
        let first = &calls[0].derivation;
        let lines = u16::from_be_bytes([first[0], first[1]]);
        let bytes = calls.iter().map(|call| call.derivation.len()).sum::<usize>() / calls.len();
        let [[_, proved, _], [_, independent, _], [low, ratio, high]] = times(calls, rounds);
        let (by_byte, second) = (proved / bytes as f64, f64::from(lines) * 1e9 / proved);
        out += &format!(
            "| {name} | {lines} | {bytes} | {proved:.0} | {by_byte:.1} | {:.1} million | {independent:.0} | {ratio:.2} | {low:.2} to {high:.2} |\n",
            second / 1e6
        );
    }
    Ok(out)
}

/// The tables, after a comparison of all answers: of the derivation call, and of the whether call.
pub fn time(seed: u64, rounds: u64) -> Result<String, String> {
    let plain = table(&rows(seed), rounds)?;
    let closing = table(&whether::rows(seed), rounds)?;
    Ok(format!("{plain}\n{closing}"))
}
