//! What the tallies of all runs share: the differences found, what never occurred, and the lines of a
//! report.

use std::collections::BTreeMap;
use std::fmt::Debug;

use crate::answer::Answer;
use crate::calls::Left;
use crate::cases::call::TOO_MANY;
use crate::model::Request;
use crate::paths::Told;
use crate::worlds::{Failure, WORLD_FLUENTS};
use crate::STATE_LENGTH;

/// What a run leaves.
pub trait Checked {
    /// The differences found.
    fn found(&self) -> &Differences;

    /// What has to occur and didn't, in words.
    fn never_met(&self) -> Vec<String>;

    /// What occurred too seldom, in words.
    fn none_rare(&self) -> Result<(), String> {
        Ok(())
    }

    /// The tallies as text, one to a line.
    fn report(&self) -> String;

    /// The differences found, as far as they are told.
    fn differences(&self) -> &[String] {
        &self.found().told
    }

    /// What keeps the run from being right, in short.
    fn verdict(&self) -> Result<(), String> {
        match self.found().found {
            0 => {}
            found => return Err(format!("{found} differences")),
        }
        match self.never_met() {
            all if all.is_empty() => self.none_rare(),
            never => Err(format!("never met: {}", never.join(", "))),
        }
    }
}

/// Differences told in full.
const TOLD: usize = 10;

/// The differences of a run: how many, and the first ones in full.
#[derive(Clone, Debug, Default)]
pub struct Differences {
    found: u64,
    told: Vec<String>,
}

impl Differences {
    pub(crate) fn add(&mut self, difference: String) {
        self.found += 1;
        if self.told.len() < TOLD {
            self.told.push(difference);
        }
    }

    /// Those told in full, one to a line.
    pub(crate) fn report(&self) -> String {
        let lines = self.told.iter();
        lines.map(|told| format!("difference: {told}\n")).collect()
    }
}

/// Walks compared with the second walk, and those that were too large for it.
#[derive(Clone, Debug, Default)]
pub(crate) struct SecondWalks {
    compared: u64,
    left: u64,
}

impl SecondWalks {
    /// Compares what a call leaves with what the second walk tells, if it does.
    pub(crate) fn compare(&mut self, other: Option<Told>, left: &Left) -> Result<(), String> {
        let other = other.map(|told| (told.answer, told.line, told.marks.map(state_of)));
        self.compare_left(other, left)
    }

    /// The same by the answer, the line and the lent state that the second walk comes to.
    pub(crate) fn compare_left(
        &mut self,
        other: Option<(Answer, usize, Option<[u8; STATE_LENGTH]>)>,
        left: &Left,
    ) -> Result<(), String> {
        let Some((by, its, state)) = other else {
            self.left += 1;
            return Ok(());
        };
        self.compared += 1;
        let (answer, line) = (left.answer, left.line);
        if (by, its) != (answer, line as usize) {
            return Err(format!(
                "answer {answer}, line {line}, by the second walk {by}, line {its}"
            ));
        }
        match state {
            Some(state) if left.lent != state => Err(format!(
                "answer {answer}: the second walk's state is another"
            )),
            _ => Ok(()),
        }
    }

    pub(crate) fn compared(&self) -> u64 {
        self.compared
    }

    pub(crate) fn left(&self) -> u64 {
        self.left
    }
}

/// The lent state that the second walk's marks stand for.
fn state_of(marks: Vec<u8>) -> [u8; STATE_LENGTH] {
    let mut state = [0; STATE_LENGTH];
    for (byte, mark) in state.iter_mut().zip(marks) {
        *byte = match mark {
            b'+' => 1,
            b'-' => 2,
            _ => 0,
        };
    }
    state
}

/// Verified plans that were carried out in all worlds, the true worlds of these, and those that have too
/// many fluents for it.
#[derive(Clone, Debug, Default)]
pub(crate) struct CarriedOut {
    plans: u64,
    worlds: u64,
    not_enumerated: u64,
}

impl CarriedOut {
    /// Notes what the worlds say beside an answer of a walk: a verified plan works in every true world.
    /// Tells whether every world reaches the goal though the answer is another. Of a walk that did not
    /// end they say nothing.
    pub(crate) fn note(
        &mut self,
        request: &Request,
        answer: Answer,
        carry_out: impl FnOnce() -> Result<u64, Failure>,
    ) -> Result<bool, String> {
        self.note_where(request.fluents <= WORLD_FLUENTS, answer, carry_out)
    }

    /// The same by whether the worlds can be enumerated.
    pub(crate) fn note_where(
        &mut self,
        enumerated: bool,
        answer: Answer,
        carry_out: impl FnOnce() -> Result<u64, Failure>,
    ) -> Result<bool, String> {
        if !enumerated {
            self.not_enumerated += u64::from(answer.number == 0);
            return Ok(false);
        }
        if matches!(answer.number, 3 | TOO_MANY) {
            return Ok(false);
        }
        match (answer.number, carry_out()) {
            (0, Ok(worlds)) => {
                self.plans += 1;
                self.worlds += worlds;
                Ok(false)
            }
            (0, Err(failure)) => Err(format!("verified, but in worlds {failure:?}")),
            (_, carried) => Ok(carried.is_ok()),
        }
    }

    pub(crate) fn plans(&self) -> u64 {
        self.plans
    }

    pub(crate) fn worlds(&self) -> u64 {
        self.worlds
    }

    pub(crate) fn not_enumerated(&self) -> u64 {
        self.not_enumerated
    }
}

/// How often each number and each event occurred in so many calls.
#[derive(Clone, Debug)]
pub(crate) struct Occurred<Event> {
    calls: u64,
    numbers: BTreeMap<u8, u64>,
    events: BTreeMap<Event, u64>,
}

impl<Event> Default for Occurred<Event> {
    fn default() -> Self {
        Occurred {
            calls: 0,
            numbers: BTreeMap::new(),
            events: BTreeMap::new(),
        }
    }
}

impl<Event: Ord + Debug> Occurred<Event> {
    /// Notes a call with this number and these events.
    pub(crate) fn note(&mut self, number: u8, events: Vec<Event>) {
        self.calls += 1;
        *self.numbers.entry(number).or_default() += 1;
        for event in events {
            *self.events.entry(event).or_default() += 1;
        }
    }

    pub(crate) fn calls(&self) -> u64 {
        self.calls
    }

    /// Each of these numbers, which all occurred, has at least this share, in per cent of all calls.
    pub(crate) fn none_rare(&self, numbers: &[u8], least: u64) -> Result<(), String> {
        let rare = |number: &u8| self.numbers[number] * 100 < self.calls * least;
        match numbers.iter().find(|number| rare(number)) {
            Some(number) => Err(format!("below {least} per cent: answer {number}")),
            None => Ok(()),
        }
    }

    /// Those numbers, of calls told in words, and those events that never occurred.
    pub(crate) fn never<'a>(
        &'a self,
        numbers: &'a [u8],
        told: &'a str,
        events: &'a [Event],
    ) -> impl Iterator<Item = String> + 'a {
        let numbers = never(numbers, &self.numbers, move |number| {
            format!("answer {number} {told}")
        });
        numbers.chain(never(events, &self.events, |event| format!("{event:?}")))
    }

    /// The tallies, under a title with the number of calls, and other numbers with their titles but
    /// for those that are 0.
    pub(crate) fn report(&self, title: &str, others: &[(&str, u64)]) -> String {
        let mut others = others.to_vec();
        others.retain(|(_, number)| *number > 0);
        titled(&[(title, self.calls)])
            + &each(&self.numbers, |number| format!("  answer {number}"))
            + &each(&self.events, |event| format!("  {event:?}"))
            + &titled(&others)
    }
}

/// Those of which it is so.
pub(crate) fn so<Event>(told: impl IntoIterator<Item = (bool, Event)>) -> Vec<Event> {
    let so = told.into_iter().filter(|(so, _)| *so);
    so.map(|(_, event)| event).collect()
}

/// Those of a list that never occurred, in words.
pub(crate) fn never<'a, Key: Ord>(
    wanted: &'a [Key],
    times: &'a BTreeMap<Key, u64>,
    words: impl Fn(&Key) -> String + 'a,
) -> impl Iterator<Item = String> + 'a {
    let missing = wanted.iter().filter(|key| !times.contains_key(key));
    missing.map(words)
}

/// How often each occurred, a line for each.
pub(crate) fn each<Key>(times: &BTreeMap<Key, u64>, words: impl Fn(&Key) -> String) -> String {
    let lines = times.iter();
    lines
        .map(|(key, times)| format!("{}: {times}\n", words(key)))
        .collect()
}

/// Numbers with their titles, one to a line.
pub(crate) fn titled(numbers: &[(&str, u64)]) -> String {
    let lines = numbers.iter();
    lines
        .map(|(title, number)| format!("{title}: {number}\n"))
        .collect()
}
