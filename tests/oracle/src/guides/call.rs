//! A guide, its start and its calls.
//!
//! The guide's place in the plan is a path down the tree of items, and what the last action answered has brought is
//! taken over at the call after it.

use std::rc::Rc;

use crate::answer::{narrow_count, Answer, REQUEST};
use crate::model::{Item, Request};
use crate::open;
use crate::paths::sensed;
use crate::table::{bit, Known, Table};
use crate::walk::{walk, Verdict};

/// The answer to a plan that the walk doesn't verify.
pub const NOT_VERIFIED: u8 = 40;
/// The answer to more readings than are due, or fewer.
pub const WRONG_NUMBER: u8 = 41;
/// The answer to a reading against a known fluent.
pub const AGAINST_KNOWN: u8 = 42;

/// What a call answers.
#[derive(Clone, Copy, Debug, PartialEq, Eq)]
pub enum Told {
    Do(u8),
    Done,
    Refused(Answer),
}

impl Told {
    /// The number of the answer.
    pub fn number(self) -> u8 {
        match self {
            Told::Do(_) | Told::Done => 0,
            Told::Refused(answer) => answer.number,
        }
    }
}

/// A guide: one that was refused, one on its way, or one that has come to the plan's end.
#[derive(Clone, Debug, PartialEq)]
pub enum Guide {
    Refusing(Answer),
    Going(Going),
    Ended,
}

/// A guide on its way.
#[derive(Clone, Debug)]
pub struct Going {
    plan: Rc<Planned>,
    /// The number of an item in the plan; or that of a branching, that of a branch of it, and so on down to the
    /// number of an item in the inmost branch. There may be no such item any more.
    place: Vec<usize>,
    /// What was known before the last action that was answered.
    known: Known,
    last: Option<u8>,
}

#[derive(Debug)]
struct Planned {
    request: Request,
    table: Table,
}

/// They are the same guide where they go on alike; the copy of the request is shared.
impl PartialEq for Going {
    fn eq(&self, other: &Going) -> bool {
        Rc::ptr_eq(&self.plan, &other.plan)
            && self.place == other.place
            && self.known == other.known
            && self.last == other.last
    }
}

/// The start: the request's reading and settling, and the walk.
pub fn start(request: &[u8], budget: u32) -> (Guide, Answer) {
    let refused = |answer| (Guide::Refusing(answer), answer);
    let request = match open(request) {
        Ok(request) => request,
        Err(fault) => return refused(Answer::refusal(REQUEST, fault)),
    };
    let Verdict::Verified { count } = walk(&request, budget) else {
        return refused(Answer::neither(NOT_VERIFIED, 0));
    };
    let going = Going {
        place: vec![0],
        known: Known::of(&request.facts),
        last: None,
        plan: Rc::new(Planned {
            table: Table::new(&request),
            request,
        }),
    };
    let answer = Answer::neither(0, narrow_count(count));
    (Guide::Going(going), answer)
}

impl Guide {
    /// A call with these readings.
    pub fn next(self, readings: &[u8]) -> (Guide, Told) {
        match self {
            Guide::Refusing(answer) => (self, Told::Refused(answer)),
            Guide::Ended => (Guide::Ended, Told::Done),
            Guide::Going(mut going) => match going.refusal(readings) {
                Some(number) => {
                    let refused = Told::Refused(Answer::neither(number, 0));
                    (Guide::Going(going), refused)
                }
                None => {
                    going.take_over(readings);
                    match going.advance() {
                        Some(action) => (Guide::Going(going), Told::Do(action)),
                        None => (Guide::Ended, Told::Done),
                    }
                }
            },
        }
    }

    /// The fluents of which the next call brings readings.
    pub fn asks(&self) -> Vec<u8> {
        match self {
            Guide::Going(going) => going.asks(),
            Guide::Refusing(_) | Guide::Ended => Vec::new(),
        }
    }
}

impl Going {
    fn asks(&self) -> Vec<u8> {
        let last = self.last.iter();
        last.flat_map(|&action| sensed(&self.plan.request, action))
            .collect()
    }

    /// 41, or else 42, or neither.
    fn refusal(&self, readings: &[u8]) -> Option<u8> {
        let asked = self.asks();
        if asked.len() != readings.len() {
            return Some(WRONG_NUMBER);
        }
        let against = asked.iter().zip(readings).any(|(&fluent, &reading)| {
            let other = Known::of(&[literal(fluent, reading) ^ 1]);
            self.known.holds(other)
        });
        against.then_some(AGAINST_KNOWN)
    }

    /// What the last action changed, or what was read after it.
    fn take_over(&mut self, readings: &[u8]) {
        let asked = self.asks();
        if let (Some(action), true) = (self.last, asked.is_empty()) {
            self.known = self.plan.table.step(action, self.known);
        }
        for (&fluent, &reading) in asked.iter().zip(readings) {
            if self.known.marked() & bit(fluent) == 0 {
                self.known.learn(literal(fluent, reading));
            }
        }
    }

    /// Goes on to the next action and passes it; none where the plan ends.
    fn advance(&mut self) -> Option<u8> {
        loop {
            let (&index, around) = self.place.split_last()?;
            match inside(&self.plan.request.plan, around).get(index) {
                Some(Item::Action { action, .. }) => {
                    let action = *action;
                    *self.place.last_mut()? += 1;
                    assert!(self.plan.table.runnable(action, self.known));
                    self.last = Some(action);
                    return Some(action);
                }
                Some(Item::Branching { branches, .. }) => {
                    let known = |condition: &[u8]| self.known.holds(Known::of(condition));
                    let chosen = branches.iter().position(|branch| known(&branch.condition));
                    let chosen = chosen.expect("a branch that the walk has followed");
                    self.place.extend([chosen, 0]);
                }
                None => {
                    // The branch that ends here is left, and the branching that it is in is passed.
                    self.place.truncate(around.len().saturating_sub(1));
                    *self.place.last_mut()? += 1;
                }
            }
        }
    }
}

/// The sequence that a path down the tree leads to: items and branches in turn.
fn inside<'a>(plan: &'a [Item], path: &[usize]) -> &'a [Item] {
    path.chunks(2)
        .fold(plan, |sequence, step| match &sequence[step[0]] {
            Item::Branching { branches, .. } => &branches[step[1]].sequence,
            Item::Action { .. } => unreachable!("a path goes through branchings"),
        })
}

/// What a reading of a fluent says: 0 says no, and every other byte yes.
fn literal(fluent: u8, reading: u8) -> u8 {
    2 * fluent + u8::from(reading == 0)
}
