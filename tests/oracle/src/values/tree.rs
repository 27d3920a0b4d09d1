//! A second walk of another shape, as an inner check of the first.
//!
//! What comes of a list of items in a state is put together of what comes of the items behind the first in
//! the states after it. Nothing is asked of the budget before the whole count is there. What a state knows is
//! a value or none for each fluent, and what a literal says is taken from its second byte.

use super::literal::Literal;
use super::Valued;
use crate::answer::{narrow_count, Answer};
use crate::calls::COUNT_CAP;
use crate::model::{Effect, Item, Request};

/// The value that is known of each fluent.
pub type Values = Vec<Option<u8>>;

type Items<'a> = Vec<&'a Item<Literal>>;

/// What is so of a walk beside its answer.
#[derive(Clone, Debug, Default)]
pub struct Seen {
    /// Most values of an unknown fluent that was read, and most unknown fluents read at once.
    pub values_read: u8,
    pub fluents_read: usize,
    /// A value was read that the facts exclude.
    pub excluded_read: bool,
    /// A branch was followed by a condition that says what a fluent is not.
    pub followed_by_is_not: bool,
    /// A fluent kept its value though an effect that is merely possible sets it, since that sets the
    /// same one; and one lost its value to such an effect.
    pub kept_by_same: bool,
    pub lost: bool,
    /// An effect with a body of several literals of one fluent came about.
    pub set_by_several: bool,
}

/// The answer, and for answers 1 and 2 the state.
pub struct Told {
    pub answer: Answer,
    pub state: Option<Values>,
}

/// What a walk counts, and where it ends or the first miss.
struct Outcome {
    count: u64,
    stuck: Option<(usize, Values)>,
    missed: Option<(usize, Values)>,
}

/// The answer of the values call for a settled values request, or nothing where the count is too large
/// to tell it.
pub fn answer(valued: &Valued, budget: u32) -> (Option<Told>, Seen) {
    let mut walk = Walk {
        valued,
        counted: 0,
        seen: Seen::default(),
    };
    let items = valued.request.plan.iter().collect();
    let outcome = walk.outcome(items, first(valued));
    (conclude(outcome, walk.counted, budget), walk.seen)
}

fn conclude(outcome: Option<Outcome>, counted: u64, budget: u32) -> Option<Told> {
    if counted > u64::from(budget) {
        return Some(Told {
            answer: Answer::neither(3, budget),
            state: None,
        });
    }
    let Outcome {
        count,
        stuck,
        missed,
    } = outcome?;
    assert_eq!(count, counted, "what was counted is the count");
    let (number, ended) = match stuck {
        Some(_) => (2, stuck),
        None => (1, missed),
    };
    Some(match ended {
        None => Told {
            answer: Answer::neither(0, narrow_count(count)),
            state: None,
        },
        Some((place, state)) => Told {
            answer: Answer::of_walk(number, place, count),
            state: Some(state),
        },
    })
}

/// A fluent is known where one of its values satisfies all that the facts say of it, and no other.
fn first(valued: &Valued) -> Values {
    let facts = &valued.request.facts;
    let fluents = (0..).zip(&valued.values);
    let known = fluents.map(|(fluent, &values)| {
        let mut left = (0..values).filter(|&value| !excludes(facts, fluent, value));
        match (left.next(), left.next()) {
            (Some(value), None) => Some(value),
            _ => None,
        }
    });
    known.collect()
}

/// A list says of a fluent what this value does not satisfy.
pub fn excludes(list: &[Literal], fluent: u8, value: u8) -> bool {
    let mut said = list.iter().filter(|literal| literal.fluent == fluent);
    said.any(|literal| !satisfies(value, literal.says))
}

fn satisfies(value: u8, says: u8) -> bool {
    match says % 2 {
        0 => value == says / 2,
        _ => value != says / 2,
    }
}

fn known_true(state: &Values, literal: &Literal) -> bool {
    let known = state[usize::from(literal.fluent)];
    known.is_some_and(|value| satisfies(value, literal.says))
}

fn possible(state: &Values, literal: &Literal) -> bool {
    let known = state[usize::from(literal.fluent)];
    known.is_none_or(|value| satisfies(value, literal.says))
}

fn all_known(state: &Values, list: &[Literal]) -> bool {
    list.iter().all(|literal| known_true(state, literal))
}

/// The place of the first entry that an end state misses.
fn first_missed(request: &Request<Literal>, state: &Values) -> Option<usize> {
    for (index, goal) in request.goals.iter().enumerate() {
        if !known_true(state, goal) {
            return Some(request.goals_place + 1 + 2 * index);
        }
    }
    for (index, &fluent) in request.whether.iter().enumerate() {
        if state[usize::from(fluent)].is_none() {
            return Some(request.whether_place + 1 + index);
        }
    }
    None
}

struct Walk<'a> {
    valued: &'a Valued,
    counted: u64,
    seen: Seen,
}

impl<'a> Walk<'a> {
    /// Counts one, and gives up where that is too much.
    fn count(&mut self) -> Option<()> {
        self.counted += 1;
        (self.counted <= u64::from(COUNT_CAP)).then_some(())
    }

    fn outcome(&mut self, items: Items<'a>, state: Values) -> Option<Outcome> {
        let request = &self.valued.request;
        let Some((&item, rest)) = items.split_first() else {
            self.count()?;
            let missed = first_missed(request, &state).map(|place| (place, state));
            return Some(Outcome {
                count: 1,
                stuck: None,
                missed,
            });
        };
        let stuck = |place, state| {
            Some(Outcome {
                count: 0,
                stuck: Some((place, state)),
                missed: None,
            })
        };
        match item {
            Item::Branching { place, branches } => {
                let mut known = branches
                    .iter()
                    .filter(|branch| all_known(&state, &branch.condition));
                let Some(branch) = known.next() else {
                    return stuck(*place, state);
                };
                assert!(known.next().is_none(), "conditions are exclusive");
                let is_not = branch.condition.iter().any(|entry| entry.says % 2 == 1);
                self.seen.followed_by_is_not |= is_not;
                let joined = branch.sequence.iter().chain(rest.iter().copied());
                self.outcome(joined.collect(), state)
            }
            Item::Action { place, action } => {
                let lines = request.allowances.iter();
                let mut lines = lines.filter(|line| line.action == *action);
                if !lines.any(|line| all_known(&state, &line.body)) {
                    return stuck(*place, state);
                }
                self.count()?;
                let lines = request.knowledge.iter();
                let lines = lines.filter(|line| line.action == *action);
                let mut sensed: Vec<u8> = lines.map(|line| line.fluent).collect();
                let after = match sensed.is_empty() {
                    true => {
                        let state = self.changed(*action, &state);
                        self.outcome(rest.to_vec(), state)?
                    }
                    false => {
                        sensed.retain(|&fluent| state[usize::from(fluent)].is_none());
                        sensed.sort_unstable();
                        sensed.dedup();
                        self.in_turn(rest, &sensed, &state)?
                    }
                };
                Some(Outcome {
                    count: 1 + after.count,
                    ..after
                })
            }
        }
    }

    /// What comes of items in one reading of unknown fluents after another: the counts together, up to the
    /// first reading from which an item can't be run, and the first miss.
    fn in_turn(
        &mut self,
        items: &[&'a Item<Literal>],
        unread: &[u8],
        state: &Values,
    ) -> Option<Outcome> {
        self.seen.fluents_read = self.seen.fluents_read.max(unread.len());
        let mut all = Outcome {
            count: 0,
            stuck: None,
            missed: None,
        };
        let mut reading = Some(vec![0; unread.len()]);
        while let Some(values) = reading {
            let read = self.with_reading(unread, &values, state);
            let one = self.outcome(items.to_vec(), read)?;
            all.count += one.count;
            all.missed = all.missed.or(one.missed);
            if one.stuck.is_some() {
                all.stuck = one.stuck;
                break;
            }
            reading = self.next_reading(unread, values);
        }
        Some(all)
    }

    /// A state with the values that are read of unknown fluents.
    fn with_reading(&mut self, unread: &[u8], values: &[u8], state: &Values) -> Values {
        let mut read = state.clone();
        for (&fluent, &value) in unread.iter().zip(values) {
            let number = self.valued.values[usize::from(fluent)];
            self.seen.values_read = self.seen.values_read.max(number);
            self.seen.excluded_read |= excludes(&self.valued.request.facts, fluent, value);
            read[usize::from(fluent)] = Some(value);
        }
        read
    }

    /// The reading after another one: the last fluent that has a larger value gets its next one, and those
    /// behind it start again.
    fn next_reading(&self, unread: &[u8], mut values: Vec<u8>) -> Option<Vec<u8>> {
        for (value, &fluent) in values.iter_mut().zip(unread).rev() {
            *value += 1;
            if *value < self.valued.values[usize::from(fluent)] {
                return Some(values);
            }
            *value = 0;
        }
        None
    }

    /// The state after an action that does not sense, fluent by fluent.
    fn changed(&mut self, action: u8, state: &Values) -> Values {
        let lines = self.valued.request.effects.iter();
        let lines: Vec<&Effect<Literal>> = lines.filter(|line| line.action == action).collect();
        let several = |line: &&&Effect<Literal>| super::translate::names_twice(&line.body);
        let mut several = lines.iter().filter(several);
        self.seen.set_by_several |= several.any(|line| all_known(state, &line.body));
        let fluents = (0..).zip(state);
        fluents
            .map(|(fluent, before)| self.value_after(&lines, fluent, *before, state))
            .collect()
    }

    fn value_after(
        &mut self,
        lines: &[&Effect<Literal>],
        fluent: u8,
        before: Option<u8>,
        state: &Values,
    ) -> Option<u8> {
        let setting = lines.iter().filter(|line| line.literal.fluent == fluent);
        let may: Vec<&&Effect<Literal>> = setting
            .filter(|line| line.body.iter().all(|entry| possible(state, entry)))
            .collect();
        let is_sure = |line: &&&&Effect<Literal>| all_known(state, &line.body);
        let sure = may.iter().filter(is_sure).map(|line| line.literal.value());
        let mut kept = before
            .into_iter()
            .chain(sure)
            .filter(|value| may.iter().all(|line| line.literal.value() == *value));
        let after = kept.next();
        assert!(kept.all(|value| Some(value) == after), "one value is known");
        let merely_possible = may.iter().any(|line| !all_known(state, &line.body));
        self.seen.kept_by_same |= merely_possible && before.is_some() && after == before;
        self.seen.lost |= before.is_some() && after.is_none();
        after
    }
}
