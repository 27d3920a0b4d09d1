//! A run of derivation calls of the second layout, each answer checked in every way there is.
//!
//! An accepted derivation's plan is verified by the walk, budget aside, and works in all worlds,
//! whether entries included; and so does every single line of it, used or not, as a request of
//! its own. Derivations of the first layout are translated, and the two calls must agree.

use std::collections::BTreeMap;
use std::fmt::Write;

use crate::answer::{Answer, DERIVATION, NEITHER, REQUEST};
use crate::calls::{check_call, CheckCall};
use crate::edges::{self, Met};
use crate::encode::{encode_derivation, encode_proof};
use crate::model::{Conclusion, Proof, ProofLine, Request};
use crate::reader::{read_derivation, read_proof};
use crate::rng::Rng;
use crate::run::{expect_bytes, expect_form, expect_outlook, told, WALK_BUDGET};
use crate::tally::{each, titled, Checked, Differences};
use crate::walk::{walk, Verdict};
use crate::whether::calls::whether_call;
use crate::whether::translate::{as_lines, as_proof};
use crate::{check, check_whether, open, worlds};

/// Streams of random numbers: of the calls, and of the derivations that are translated.
const CALLS: u64 = 10;
const TRANSLATED: u64 = 11;
/// The budget of the walk that a single line is compared with.
const LINE_BUDGET: u32 = 2_000;
/// From so many calls on, each thing that can occur has to.
pub const ENOUGH: u64 = 20_000;
/// Least share of accepted derivations, in per cent.
const LEAST_SHARE: u64 = 15;

/// The rules there are.
const RULES: [u8; 11] = [1, 2, 3, 4, 5, 6, 7, 8, 10, 11, 12];
/// Bytes that are no rule, of which it is noted how often 31 met them.
const NO_RULES: [u8; 4] = [0, 9, 13, 255];
/// What each input can be refused by; 0 is given for neither.
const OF_REQUEST: [u8; 12] = [10, 11, 12, 13, 14, 15, 16, 17, 18, 19, 20, 21];
const OF_DERIVATION: [u8; 15] = [10, 11, 12, 13, 14, 15, 18, 19, 20, 21, 31, 32, 33, 34, 36];

/// The ways in which 36 is given.
#[derive(Clone, Copy, Debug, PartialEq, Eq, PartialOrd, Ord)]
enum Way {
    TooShort,
    TooLong,
    NoGoalsLine,
    NotTheGoals,
    NoWhetherLine,
    NotTheWhether,
}

const WAYS: [(Way, &str); 6] = [
    (Way::TooShort, "closing list too short"),
    (Way::TooLong, "closing list too long"),
    (Way::NoGoalsLine, "entry 0 names no line"),
    (
        Way::NotTheGoals,
        "entry 0 names another line than the goals'",
    ),
    (Way::NoWhetherLine, "a later entry names no line"),
    (
        Way::NotTheWhether,
        "a later entry names another line than its own",
    ),
];

/// How often each thing happened.
#[derive(Clone, Debug, Default)]
pub struct WhetherTally {
    derivations: u64,
    answers: BTreeMap<(u8, u8), u64>,
    edges: Met,
    ways: BTreeMap<Way, u64>,
    accepted_rules: BTreeMap<u8, u64>,
    refused_rules: BTreeMap<(u8, u8), u64>,
    asked: BTreeMap<usize, u64>,
    walked: u64,
    beyond_walk: u64,
    carried_out: u64,
    true_worlds: u64,
    lines_walked: u64,
    lines_beyond_walk: u64,
    translated: u64,
    translated_back: u64,
    differences: Differences,
}

/// The call with this number from a seed.
pub fn numbered_call(seed: u64, index: u64) -> CheckCall {
    whether_call(&mut Rng::new(seed, CALLS, index))
}

/// Makes so many calls from a seed, and translates as many derivations of the first layout.
pub fn run(seed: u64, derivations: u64) -> WhetherTally {
    let mut tally = WhetherTally::default();
    for index in 0..derivations {
        let call = numbered_call(seed, index);
        let checked = tally.check(&call);
        tally.note(checked, "whether derivation", index, &call);
        let call = check_call(&mut Rng::new(seed, TRANSLATED, index));
        let translated = tally.translate(&call);
        tally.note(translated, "translated derivation", index, &call);
    }
    tally
}

impl WhetherTally {
    fn note(&mut self, found: Result<(), String>, what: &str, index: u64, call: &CheckCall) {
        let Err(difference) = found else { return };
        self.differences.add(format!(
            "{what} {index}: {difference}: {} {}",
            told(&call.request),
            told(&call.derivation)
        ));
    }

    /// Makes a call and checks its answer.
    fn check(&mut self, call: &CheckCall) -> Result<(), String> {
        self.derivations += 1;
        let answer = check_whether(&call.request, &call.derivation);
        let kind = (answer.number, answer.input);
        *self.answers.entry(kind).or_default() += 1;
        let edges = edges::of_proof(&call.request, &call.derivation, answer);
        self.edges.note(edges);
        expect_form(answer, &call.request, &call.derivation)?;
        expect_outlook(answer, call.outlook)?;
        if !matches!(answer.number, 0 | 31..=36) {
            return Ok(());
        }
        let request = open(&call.request).map_err(|_| "checked unread".to_string())?;
        let proof =
            read_proof(&call.derivation, &request).map_err(|_| "checked unread".to_string())?;
        expect_bytes(&encode_proof(&proof).bytes, &call.derivation)?;
        match answer.number {
            0 => self.compare_accepted(&request, &proof),
            36 => self.note_way(&request, &proof, answer),
            number => self.note_line(&proof, number, answer.place as usize),
        }
    }

    /// Notes the rule of a line that was refused.
    fn note_line(&mut self, proof: &Proof, number: u8, place: usize) -> Result<(), String> {
        let found = proof.lines.iter().find(|line| line.place == place);
        let line = found.ok_or(format!("no line stands at {place}"))?;
        if RULES.contains(&line.rule) || NO_RULES.contains(&line.rule) {
            *self.refused_rules.entry((number, line.rule)).or_default() += 1;
        }
        Ok(())
    }

    /// Notes in which way the closing list was refused.
    fn note_way(&mut self, request: &Request, proof: &Proof, answer: Answer) -> Result<(), String> {
        let after = answer.place as usize - proof.closing_place;
        let way = match after.checked_sub(1) {
            None if proof.closing.len() <= request.whether.len() => Way::TooShort,
            None => Way::TooLong,
            Some(bytes) => {
                let entry = usize::from(proof.closing[bytes / 2]);
                match (entry < proof.lines.len(), bytes) {
                    (false, 0) => Way::NoGoalsLine,
                    (true, 0) => Way::NotTheGoals,
                    (false, _) => Way::NoWhetherLine,
                    (true, _) => Way::NotTheWhether,
                }
            }
        };
        *self.ways.entry(way).or_default() += 1;
        Ok(())
    }

    /// What a derivation says is so by the walk, budget aside, and in all worlds.
    fn compare_accepted(&mut self, request: &Request, proof: &Proof) -> Result<(), String> {
        *self.asked.entry(request.whether.len()).or_default() += 1;
        for (number, line) in proof.lines.iter().enumerate() {
            *self.accepted_rules.entry(line.rule).or_default() += 1;
            self.compare_line(request, line)
                .map_err(|verdict| format!("accepted, but of line {number} {verdict}"))?;
        }
        match walk(request, WALK_BUDGET) {
            Verdict::Verified { .. } => self.walked += 1,
            Verdict::Over => self.beyond_walk += 1,
            other => return Err(format!("accepted, but the walk says {other:?}")),
        }
        if request.fluents > worlds::WORLD_FLUENTS {
            return Ok(());
        }
        let worlds = worlds::carry_out(request)
            .map_err(|failure| format!("accepted, but in worlds {failure:?}"))?;
        self.carried_out += 1;
        self.true_worlds += worlds;
        Ok(())
    }

    /// A line that follows is a question of its own that the walk answers, budget aside.
    fn compare_line(&mut self, request: &Request, line: &ProofLine) -> Result<(), String> {
        let (goals, whether) = match &line.gives {
            Conclusion::List(after) => (after.clone(), Vec::new()),
            Conclusion::Fluent(fluent) => (Vec::new(), vec![*fluent]),
        };
        let question = Request {
            facts: line.before.clone(),
            plan: line.sequence.clone(),
            goals,
            whether,
            ..request.clone()
        };
        match walk(&question, LINE_BUDGET) {
            Verdict::Verified { .. } => self.lines_walked += 1,
            Verdict::Over => self.lines_beyond_walk += 1,
            other => return Err(format!("the walk says {other:?}")),
        }
        Ok(())
    }

    /// A derivation of the first layout and its translation get the same answer, with 36 for 35,
    /// and the way back gives the same bytes.
    fn translate(&mut self, call: &CheckCall) -> Result<(), String> {
        let Ok(request) = open(&call.request) else {
            return Ok(());
        };
        let Ok(lines) = read_derivation(&call.derivation, &request) else {
            return Ok(());
        };
        let Some(proof) = as_proof(&lines).filter(|_| request.whether.is_empty()) else {
            return Ok(());
        };
        let bytes = encode_proof(&proof).bytes;
        let proof = read_proof(&bytes, &request).map_err(|_| "translated unread".to_string())?;
        if bytes.len() != call.derivation.len() + 3 {
            return Err("the translation isn't three bytes longer".to_string());
        }
        let former = check(&call.request, &call.derivation);
        let answer = check_whether(&call.request, &bytes);
        let index = lines
            .iter()
            .position(|line| line.place == former.place as usize);
        let place = |index: usize| proof.lines[index].place;
        let expected = match (former.number, index) {
            (0, _) => Some((0, 0)),
            (35, _) => Some((36, proof.closing_place + 1)),
            (31..=34, Some(index)) => Some((former.number, place(index))),
            _ => None,
        };
        if expected.is_some_and(|told| told != (answer.number, answer.place as usize)) {
            return Err(format!("answer {former}, translated {answer}"));
        }
        self.translated += 1;
        let by_six = lines.iter().all(|line| (1..=6).contains(&line.rule));
        match as_lines(&proof) {
            Some(back) => {
                self.translated_back += 1;
                expect_bytes(&encode_derivation(&back).bytes, &call.derivation)
            }
            None if by_six => Err("there is no way back".to_string()),
            None => Ok(()),
        }
    }

    fn titled(&self) -> [(&'static str, u64); 8] {
        [
            ("accepted whose plan the walk verifies", self.walked),
            ("accepted beyond the walk's budget", self.beyond_walk),
            ("accepted carried out in all worlds", self.carried_out),
            ("true worlds of these", self.true_worlds),
            ("accepted lines that the walk verifies", self.lines_walked),
            (
                "accepted lines beyond the walk's budget",
                self.lines_beyond_walk,
            ),
            ("translated from the first layout", self.translated),
            ("translated back", self.translated_back),
        ]
    }
}

impl Checked for WhetherTally {
    fn found(&self) -> &Differences {
        &self.differences
    }

    /// Where there are enough of them: answers by input, ways of 36, and rules: accepted, and refused by
    /// 31, 33 and 34.
    fn never_met(&self) -> Vec<String> {
        let mut never = Vec::new();
        if self.derivations < ENOUGH {
            return never;
        }
        let of_request = OF_REQUEST.map(|number| (number, REQUEST));
        let of_derivation = OF_DERIVATION.map(|number| (number, DERIVATION));
        for pair in [(0, NEITHER)]
            .into_iter()
            .chain(of_request)
            .chain(of_derivation)
        {
            if !self.answers.contains_key(&pair) {
                never.push(format!("{} of input {}", pair.0, pair.1));
            }
        }
        for (way, words) in WAYS {
            if !self.ways.contains_key(&way) {
                never.push(format!("36 with {words}"));
            }
        }
        never.extend(self.edges.never(&edges::OF_CHECKING));
        for rule in NO_RULES {
            if !self.refused_rules.contains_key(&(31, rule)) {
                never.push(format!("31 of byte {rule}"));
            }
        }
        for rule in RULES {
            if !self.accepted_rules.contains_key(&rule) {
                never.push(format!("an accepted line by rule {rule}"));
            }
            for number in [33, 34] {
                if !self.refused_rules.contains_key(&(number, rule)) {
                    never.push(format!("{number} of rule {rule}"));
                }
            }
        }
        never
    }

    fn none_rare(&self) -> Result<(), String> {
        if self.derivations < ENOUGH {
            return Ok(());
        }
        let accepted = self.answers.get(&(0, NEITHER)).copied().unwrap_or(0);
        if accepted * 100 < self.derivations * LEAST_SHARE {
            return Err(format!("accepted below {LEAST_SHARE} per cent"));
        }
        Ok(())
    }

    fn report(&self) -> String {
        let mut out = self.differences.report();
        let _ = writeln!(out, "whether derivations checked: {}", self.derivations);
        for ((number, input), times) in &self.answers {
            let share = *times as f64 * 100.0 / self.derivations as f64;
            let _ = writeln!(
                out,
                "  answer {number}, input {input}: {times} ({share:.2} per cent)"
            );
        }
        out += &self.edges.told(&edges::OF_CHECKING);
        for (way, words) in WAYS {
            let times = self.ways.get(&way).copied().unwrap_or(0);
            let _ = writeln!(out, "  36 with {words}: {times}");
        }
        out += &each(&self.refused_rules, |(number, rule)| {
            format!("  {number} of rule {rule}")
        });
        out += &each(&self.accepted_rules, |rule| {
            format!("accepted lines by rule {rule}")
        });
        out += &each(&self.asked, |entries| {
            format!("accepted with {entries} whether entries")
        });
        out + &titled(&self.titled())
    }
}
