//! A run: random calls, each answer checked in every way there is, and the tallies.

use std::collections::BTreeMap;
use std::fmt::Write;

use crate::answer::{writes_state, Answer, DERIVATION, NEITHER, REQUEST};
use crate::calls::{check_call, judge_call, CheckCall, JudgeCall, Left, Outlook};
use crate::edges::{self, Met};
use crate::encode::{encode_derivation, encode_request};
use crate::form::Form;
use crate::model::{Effect, Line, Request};
use crate::reader::{read_derivation, read_request};
use crate::rng::Rng;
use crate::settle::clashing;
use crate::tally::{each, never, titled, CarriedOut, Checked, Differences, SecondWalks};
use crate::text::comma_separated;
use crate::walk::{walk, Verdict};
use crate::{check, judge_line, open, paths, shown, worlds};

/// Most paths that the second walk follows.
pub(crate) const MOST_PATHS: usize = 3_000;
/// The budget of the walk that an accepted derivation is compared with.
pub(crate) const WALK_BUDGET: u32 = 50_000;
/// Least share of each of the answers 0 to 3, in per cent of all requests judged, damaged ones
/// included.
pub(crate) const LEAST_SHARE: u64 = 5;

/// The answers that a run must meet at least once, by call and input named.
const OF_JUDGING: [u8; 17] = [
    0, 1, 2, 3, 9, 10, 11, 12, 13, 14, 15, 16, 17, 18, 19, 20, 21,
];
const OF_CHECKING: [(u8, u8); 17] = [
    (0, NEITHER),
    (30, REQUEST),
    (10, DERIVATION),
    (11, DERIVATION),
    (12, DERIVATION),
    (13, DERIVATION),
    (14, DERIVATION),
    (15, DERIVATION),
    (18, DERIVATION),
    (19, DERIVATION),
    (20, DERIVATION),
    (21, DERIVATION),
    (31, DERIVATION),
    (32, DERIVATION),
    (33, DERIVATION),
    (34, DERIVATION),
    (35, DERIVATION),
];

/// Where answer 2 stops a walk, by the executability lines of the action there.
#[derive(Clone, Copy, Debug, PartialEq, Eq, PartialOrd, Ord)]
pub enum Stop {
    Branching,
    NoLine,
    OneLine,
    /// Of several lines the first is named, or a later one.
    FirstOfSeveral,
    LaterOfSeveral,
}

impl Stop {
    pub const ALL: [Stop; 5] = [
        Stop::Branching,
        Stop::NoLine,
        Stop::OneLine,
        Stop::FirstOfSeveral,
        Stop::LaterOfSeveral,
    ];

    /// By the byte at the answer's place and the line that it carries.
    pub fn of(request: &Request, byte: u8, line: u32) -> Stop {
        let lines = request.placed_allowances();
        let places: Vec<usize> = lines
            .filter(|(_, line)| line.action == byte)
            .map(|(place, _)| place)
            .collect();
        match places[..] {
            _ if byte == 255 => Stop::Branching,
            [] => Stop::NoLine,
            [_] => Stop::OneLine,
            [first, ..] if first == line as usize => Stop::FirstOfSeveral,
            _ => Stop::LaterOfSeveral,
        }
    }
}

/// How often each thing happened.
#[derive(Clone, Debug, Default)]
pub struct Tally {
    requests: u64,
    derivations: u64,
    judged: BTreeMap<u8, u64>,
    stops: BTreeMap<Stop, u64>,
    checked: BTreeMap<(u8, u8), u64>,
    judged_edges: Met,
    checked_edges: Met,
    second_walks: SecondWalks,
    carried_out: CarriedOut,
    clashing_apart: u64,
    missed_though_reached: u64,
    stuck_though_reached: u64,
    accepted_carried_out: u64,
    accepted_true_worlds: u64,
    accepted_walked: u64,
    accepted_beyond_walk: u64,
    rules: BTreeMap<u8, u64>,
    readings: BTreeMap<usize, u64>,
    differences: Differences,
}

/// Makes so many calls of each kind from a seed.
pub fn run(seed: u64, requests: u64, derivations: u64) -> Tally {
    let mut tally = Tally::default();
    for index in 0..requests {
        let call = judge_call(&mut Rng::new(seed, 1, index));
        if let Err(difference) = tally.judge(&call) {
            tally.differences.add(format!(
                "request {index}: {difference}: {}",
                told(&call.request)
            ));
        }
    }
    for index in 0..derivations {
        let call = check_call(&mut Rng::new(seed, 2, index));
        if let Err(difference) = tally.check(&call) {
            tally.differences.add(format!(
                "derivation {index}: {difference}: {} {}",
                told(&call.request),
                told(&call.derivation)
            ));
        }
    }
    tally
}

pub(crate) fn told(bytes: &[u8]) -> String {
    match bytes.len() {
        0..=2_000 => comma_separated(bytes),
        length => format!("({length} bytes)"),
    }
}

impl Tally {
    /// Makes a judging call and checks its answer.
    fn judge(&mut self, call: &JudgeCall) -> Result<(), String> {
        self.requests += 1;
        let left = call.made(judge_line);
        let answer = left.answer;
        *self.judged.entry(answer.number).or_default() += 1;
        let edges = edges::of_judging(&call.request, call.lent.len(), answer);
        self.judged_edges.note(edges);
        expect_made(call, &left, None)?;
        self.compare_meeting(&call.request, answer)?;
        if answer.number > 3 {
            return Ok(());
        }
        let request = open(&call.request).map_err(|_| format!("answer {answer} unread"))?;
        expect_bytes(&encode_request(&request).bytes, &call.request)?;
        if answer.number == 2 {
            let stop = Stop::of(&request, call.request[answer.place as usize], left.line);
            *self.stops.entry(stop).or_default() += 1;
        }
        let second = paths::answer(&request, call.budget, MOST_PATHS);
        self.second_walks.compare(second, &left)?;
        self.compare_worlds(&request, answer)
    }

    /// 16 is given where an action may be run in some world in which its effects would set a
    /// fluent both ways, and nowhere else.
    fn compare_meeting(&mut self, request: &[u8], answer: Answer) -> Result<(), String> {
        let refused = answer.number == 16;
        if !refused && !matches!(answer.number, 0..=3 | 17 | 18) {
            return Ok(());
        }
        let request = read_request(request).map_err(|_| format!("answer {answer} unread"))?;
        let apart = !refused && some_clash(&request.effects);
        self.clashing_apart += u64::from(apart);
        if request.fluents > worlds::WORLD_FLUENTS {
            return Ok(());
        }
        match worlds::effects_meet(&request) == refused {
            true => Ok(()),
            false => Err(format!("answer {answer}, but in worlds it is otherwise")),
        }
    }

    /// A verified plan works in every true world; where 1 or 2 is given it may all the same.
    fn compare_worlds(&mut self, request: &Request, answer: Answer) -> Result<(), String> {
        let reached = self
            .carried_out
            .note(request, answer, || worlds::carry_out(request))?;
        match answer.number {
            1 => self.missed_though_reached += u64::from(reached),
            _ => self.stuck_though_reached += u64::from(reached),
        }
        Ok(())
    }

    /// Makes a derivation call and checks its answer.
    fn check(&mut self, call: &CheckCall) -> Result<(), String> {
        self.derivations += 1;
        let answer = check(&call.request, &call.derivation);
        *self
            .checked
            .entry((answer.number, answer.input))
            .or_default() += 1;
        let edges = edges::of_derivation(&call.request, &call.derivation, answer);
        self.checked_edges.note(edges);
        expect_form(answer, &call.request, &call.derivation)?;
        expect_outlook(answer, call.outlook)?;
        if answer.number != 0 {
            return Ok(());
        }
        let request = open(&call.request).map_err(|_| "accepted unread".to_string())?;
        let lines = read_derivation(&call.derivation, &request)
            .map_err(|_| "accepted unread".to_string())?;
        expect_bytes(&encode_derivation(&lines).bytes, &call.derivation)?;
        self.note_rules(&lines);
        self.compare_accepted(&request)
    }

    /// Notes the rules of accepted lines, and how many readings rule 3 took.
    fn note_rules(&mut self, lines: &[Line]) {
        for line in lines {
            *self.rules.entry(line.rule).or_default() += 1;
            if line.rule == 3 {
                *self.readings.entry(line.cites.len()).or_default() += 1;
            }
        }
    }

    /// What a derivation says is so by the walk, budget aside, and in all worlds.
    fn compare_accepted(&mut self, request: &Request) -> Result<(), String> {
        match walk(request, WALK_BUDGET) {
            Verdict::Verified { .. } => self.accepted_walked += 1,
            Verdict::Over => self.accepted_beyond_walk += 1,
            other => return Err(format!("accepted, but the walk says {other:?}")),
        }
        if request.fluents > worlds::WORLD_FLUENTS {
            return Ok(());
        }
        let worlds = worlds::carry_out(request)
            .map_err(|failure| format!("accepted, but in worlds {failure:?}"))?;
        self.accepted_carried_out += 1;
        self.accepted_true_worlds += worlds;
        Ok(())
    }

    fn rare(&self) -> Vec<String> {
        (0..=3)
            .filter(|number| {
                let times = self.judged.get(number).copied().unwrap_or(0);
                times * 100 < self.requests * LEAST_SHARE
            })
            .map(|number| format!("answer {number}"))
            .chain(self.rare_stops())
            .collect()
    }

    /// Each kind of stop has its share of answers 2.
    fn rare_stops(&self) -> impl Iterator<Item = String> + '_ {
        let stuck = self.judged.get(&2).copied().unwrap_or(0);
        let share = move |stop| self.stops.get(stop).copied().unwrap_or(0) * 100;
        let rare = Stop::ALL
            .iter()
            .filter(move |stop| share(stop) < stuck * LEAST_SHARE);
        rare.map(|stop| format!("answers 2 at {stop:?}"))
    }

    fn titled(&self) -> [(&'static str, u64); 12] {
        [
            (
                "walks compared with the second walk",
                self.second_walks.compared(),
            ),
            (
                "walks too large for the second walk",
                self.second_walks.left(),
            ),
            (
                "verified requests carried out in all worlds",
                self.carried_out.plans(),
            ),
            ("true worlds of these", self.carried_out.worlds()),
            (
                "verified requests with more than ten fluents",
                self.carried_out.not_enumerated(),
            ),
            (
                "requests with effects that clash only where their action can't be run",
                self.clashing_apart,
            ),
            (
                "answer 1 though every world reaches the goal",
                self.missed_though_reached,
            ),
            (
                "answer 2 though every world reaches the goal",
                self.stuck_though_reached,
            ),
            (
                "accepted derivations whose plan the walk verifies",
                self.accepted_walked,
            ),
            (
                "accepted derivations beyond the walk's budget",
                self.accepted_beyond_walk,
            ),
            (
                "accepted derivations carried out in all worlds",
                self.accepted_carried_out,
            ),
            (
                "true worlds of these derivations",
                self.accepted_true_worlds,
            ),
        ]
    }
}

impl Checked for Tally {
    fn found(&self) -> &Differences {
        &self.differences
    }

    fn never_met(&self) -> Vec<String> {
        let judging = never(&OF_JUDGING, &self.judged, |number| {
            format!("{number} in judging")
        });
        let stops = never(&Stop::ALL, &self.stops, |stop| {
            format!("answer 2 at {stop:?}")
        });
        let checking = never(&OF_CHECKING, &self.checked, |(number, input)| {
            format!("{number} of input {input} in checking")
        });
        let of_judging = self.judged_edges.never(&edges::OF_JUDGING);
        let of_checking = self.checked_edges.never(edges::OF_DERIVATIONS);
        judging
            .chain(stops)
            .chain(checking)
            .chain(of_judging.iter().map(|edge| format!("{edge} in judging")))
            .chain(of_checking.iter().map(|edge| format!("{edge} in checking")))
            .collect()
    }

    fn none_rare(&self) -> Result<(), String> {
        if self.clashing_apart * 100 < self.requests * LEAST_SHARE {
            return Err("effects rarely clash where their action can't be run".to_string());
        }
        let rare = self.rare();
        if !rare.is_empty() {
            return Err(format!("below {LEAST_SHARE} per cent: {}", rare.join(", ")));
        }
        Ok(())
    }

    fn report(&self) -> String {
        let mut out = self.differences.report();
        let _ = writeln!(out, "requests judged: {}", self.requests);
        for (number, times) in &self.judged {
            let share = *times as f64 * 100.0 / self.requests as f64;
            let _ = writeln!(out, "  answer {number}: {times} ({share:.2} per cent)");
        }
        out += &each(&self.stops, |stop| format!("  answer 2 at {stop:?}"));
        out += &self.judged_edges.told(&edges::OF_JUDGING);
        let _ = writeln!(out, "derivations checked: {}", self.derivations);
        out += &each(&self.checked, |(number, input)| {
            format!("  answer {number}, input {input}")
        });
        out += &self.checked_edges.told(edges::OF_DERIVATIONS);
        out += &each(&self.rules, |rule| format!("accepted lines by rule {rule}"));
        out += &each(&self.readings, |readings| {
            format!("  rule 3 over {readings} readings")
        });
        out + &titled(&self.titled())
    }
}

/// Two of the effects clash, wherever their action can be run.
pub(crate) fn some_clash<L: Form>(effects: &[Effect<L>]) -> bool {
    effects
        .iter()
        .enumerate()
        .any(|(index, one)| effects[..index].iter().any(|other| clashing(one, other)))
}

/// What is so of every answer of a call on a request: its form, what is certain of it, and that it
/// leaves the lent state as it was where it does not write it. Where the walk is reached, a call may
/// give a number of its own.
pub(crate) fn expect_made(call: &JudgeCall, left: &Left, own: Option<u8>) -> Result<(), String> {
    expect_form(left.answer, &call.request, &[])?;
    match call.outlook {
        Outlook::Walked if Some(left.answer.number) == own => {}
        outlook => expect_outlook(left.answer, outlook)?,
    }
    expect_left(call, left)
}

/// The lent state is as it was, unless the answer writes it, and only answer 2 carries a line.
pub(crate) fn expect_left(call: &JudgeCall, left: &Left) -> Result<(), String> {
    let Left { answer, line, lent } = left;
    if !writes_state(answer.number) && *lent != call.lent {
        return Err(format!("answer {answer} changed the lent state"));
    }
    if answer.number != 2 && *line != 0 {
        return Err(format!("answer {answer} carries the line {line}"));
    }
    Ok(())
}

/// What every answer keeps to: its input, place and count, and what the showing call shows.
pub(crate) fn expect_form(answer: Answer, request: &[u8], derivation: &[u8]) -> Result<(), String> {
    let length = match answer.input {
        NEITHER => 0,
        REQUEST => request.len(),
        DERIVATION => derivation.len(),
        _ => return Err(format!("answer {answer} names no input")),
    };
    let place = answer.place as usize;
    let neither = matches!(answer.number, 0 | 3 | 9 | 38..=42);
    let placed = match answer.number {
        11 => place == length,
        10 => place == 0,
        _ if neither => place == 0,
        _ => place < length,
    };
    let counted = matches!(answer.number, 0..=3 | 43) || answer.count == 0;
    let rest = shown(answer, request, derivation).len();
    let right = if neither {
        rest == 0
    } else {
        rest == length - place
    };
    match neither == (answer.input == NEITHER) && placed && counted && right {
        true => Ok(()),
        false => Err(format!("answer {answer} is out of form")),
    }
}

pub(crate) fn expect_outlook(answer: Answer, outlook: Outlook) -> Result<(), String> {
    let right = match outlook {
        Outlook::Open => true,
        Outlook::Walked => answer.number <= 3,
        Outlook::Accepted => answer == Answer::neither(0, 0),
        Outlook::Refused(input, fault) => answer == Answer::refusal(input, fault),
    };
    match right {
        true => Ok(()),
        false => Err(format!("answer {answer}, expected {outlook:?}")),
    }
}

/// There is one way to write what was read.
pub(crate) fn expect_bytes(written: &[u8], read: &[u8]) -> Result<(), String> {
    match written == read {
        true => Ok(()),
        false => Err("written again, the input differs".to_string()),
    }
}
