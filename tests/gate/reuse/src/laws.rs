//! A law tried on many generated requests, and how often what is interesting occurred.

use std::collections::BTreeMap;
use std::fmt;

use oracle::rng::Rng;

use crate::asking::Asker;
use crate::calls::Judge;

/// From so many on, all that has to occur is looked for.
pub const ENOUGH: u64 = 20_000;
/// Drafts for each request that a law is tried on, at most.
const DRAFTS: u64 = 100;
/// The stream of random numbers of what is lent.
const LENT: u64 = 60;

/// How often each event occurred.
#[derive(Default)]
pub struct Met(BTreeMap<&'static str, u64>);

impl Met {
    pub fn note(&mut self, event: &'static str, occurred: bool) {
        *self.0.entry(event).or_default() += u64::from(occurred);
    }

    fn times(&self, event: &str) -> u64 {
        self.0.get(event).copied().unwrap_or(0)
    }
}

/// Whether a draft led to a trial of the law.
#[derive(Clone, Copy, Debug, PartialEq, Eq)]
pub enum Tried {
    Yes,
    /// There was nothing to try, or the new request is refused as it has to be.
    No,
}

/// A law: what it is tried on, its stream of random numbers, a trial of it, and the events that have to occur. A trial gives in words how the law
/// is broken.
pub struct Law {
    pub what: &'static str,
    pub stream: u64,
    pub trial: fn(&mut Rng, &mut Asker, &mut Met) -> Result<Tried, String>,
    pub events: &'static [&'static str],
}

/// What many trials gave: the events, and the drafts that were needed.
pub struct Held {
    pub met: Met,
    pub drafts: u64,
}

/// The trial that found a law broken, counted from 1, how, and what had been asked.
pub struct Broken {
    pub trial: u64,
    pub why: String,
    pub asked: String,
}

/// What stops the trials: a law that is broken, or too few drafts that it can be tried on.
pub enum Stopped {
    Broken(Broken),
    TooFew(String),
}

impl fmt::Display for Stopped {
    fn fmt(&self, out: &mut fmt::Formatter<'_>) -> fmt::Result {
        match self {
            Stopped::Broken(Broken { trial, why, asked }) => write!(out, "trial {trial}: {why}; asked: {asked}"),
            Stopped::TooFew(told) => write!(out, "{told}"),
        }
    }
}

impl Law {
    /// So many trials from a seed.
    pub fn hold(&self, judge: &Judge, seed: u64, count: u64) -> Result<Held, Stopped> {
        let mut met = Met::default();
        let mut drafts = 0;
        let mut tried = 0;
        while tried < count {
            if drafts >= DRAFTS * count {
                return Err(Stopped::TooFew(format!("only {tried} of {drafts} drafts could be tried")));
            }
            let mut asker = Asker::new(judge, Rng::new(seed, LENT + self.stream, drafts));
            let trial = (self.trial)(&mut Rng::new(seed, self.stream, drafts), &mut asker, &mut met);
            match trial {
                Ok(Tried::Yes) => tried += 1,
                Ok(Tried::No) => {}
                Err(why) => return Err(Stopped::Broken(Broken { trial: tried + 1, why, asked: asker.made() })),
            }
            drafts += 1;
        }
        Ok(Held { met, drafts })
    }

    /// The same through the exported call, with how often each event occurred. Each has to, where there are enough trials.
    pub fn tell(&self, seed: u64, count: u64) -> Result<String, String> {
        let held = self.hold(&glintstring::judge_packed, seed, count).map_err(|stopped| format!("{}: seed {seed}: {stopped}", self.what))?;
        for event in self.events {
            println!("  {}: {event}: {}", self.what, held.met.times(event));
        }
        let never: Vec<&str> = self.events.iter().copied().filter(|event| held.met.times(event) == 0).collect();
        if count >= ENOUGH && !never.is_empty() {
            return Err(format!("{}: seed {seed}: never in {count} trials: {}", self.what, never.join(", ")));
        }
        Ok(format!("{}: {count} trials of seed {seed} hold, from {} drafts", self.what, held.drafts))
    }
}
