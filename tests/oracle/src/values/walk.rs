//! The walk over partial states that know one value of a fluent or none.
//!
//! It is depth first. A turn is a way still to be gone: the sequences that are left, the innermost last,
//! and a state. What a body asks of a fluent is the set of values that satisfy all its literals.

use super::literal::{left, members, Literal, Set};
use super::Valued;
use crate::model::{Branch, Item};
use crate::walk::Verdict;
use crate::{Marked, STATE_LENGTH};

/// Byte f is v + 1 where fluent f is known to be v, and 0 where it is unknown.
#[derive(Clone, Copy, Debug, PartialEq, Eq, PartialOrd, Ord)]
pub struct State(pub [u8; STATE_LENGTH]);

impl Marked for State {
    fn mark(&self, fluent: u8) -> u8 {
        self.0[usize::from(fluent)]
    }
}

impl State {
    /// The first state: a fluent is known where the facts leave it one value.
    pub fn first(facts: &[Literal]) -> State {
        let mut state = State([0; STATE_LENGTH]);
        for (fluent, set) in demands(facts) {
            if set.count_ones() == 1 {
                state.know(fluent, set.trailing_zeros() as u8);
            }
        }
        state
    }

    pub fn know(&mut self, fluent: u8, value: u8) {
        self.0[usize::from(fluent)] = value + 1;
    }

    /// The value that is known of a fluent.
    pub fn value(&self, fluent: u8) -> Option<u8> {
        self.mark(fluent).checked_sub(1)
    }

    /// All that a body asks is known.
    pub fn holds(&self, body: &Demands) -> bool {
        body.iter().all(|&(fluent, set)| {
            self.value(fluent)
                .is_some_and(|value| set >> value & 1 == 1)
        })
    }

    /// Nothing that a body asks is known to be otherwise.
    fn allows(&self, body: &Demands) -> bool {
        body.iter()
            .all(|&(fluent, set)| self.value(fluent).is_none_or(|value| set >> value & 1 == 1))
    }
}

/// What a list of literals asks: of each fluent that it names, a set of values.
pub type Demands = Vec<(u8, Set)>;

pub fn demands(list: &[Literal]) -> Demands {
    let mut fluents: Vec<u8> = list.iter().map(|literal| literal.fluent).collect();
    fluents.dedup();
    let asked = |fluent| Some((fluent, left(list, fluent)?));
    fluents.into_iter().filter_map(asked).collect()
}

/// The lines of an action: the bodies that allow it, fluent, value and body of its effects, and the fluents
/// that it senses, ascending.
#[derive(Clone, Debug, Default)]
struct Lines {
    allowances: Vec<Demands>,
    effects: Vec<(u8, u8, Demands)>,
    senses: Vec<u8>,
}

/// The lines of all actions.
#[derive(Clone, Debug)]
pub struct Table(Vec<Lines>);

impl Table {
    pub fn new(valued: &Valued) -> Table {
        let request = &valued.request;
        let mut lines = vec![Lines::default(); usize::from(request.actions)];
        for line in &request.allowances {
            let allowances = &mut lines[usize::from(line.action)].allowances;
            allowances.push(demands(&line.body));
        }
        for line in &request.effects {
            let effect = (
                line.literal.fluent,
                line.literal.value(),
                demands(&line.body),
            );
            lines[usize::from(line.action)].effects.push(effect);
        }
        for line in &request.knowledge {
            lines[usize::from(line.action)].senses.push(line.fluent);
        }
        for of_action in &mut lines {
            of_action.senses.sort_unstable();
            of_action.senses.dedup();
        }
        Table(lines)
    }

    fn lines(&self, action: u8) -> &Lines {
        &self.0[usize::from(action)]
    }

    pub fn runnable(&self, action: u8, state: &State) -> bool {
        let mut bodies = self.lines(action).allowances.iter();
        bodies.any(|body| state.holds(body))
    }

    /// The fluents that a sensing action senses; none for any other action.
    pub fn senses(&self, action: u8) -> &[u8] {
        &self.lines(action).senses
    }

    /// The state after an action without knowledge lines: of each fluent that it may set, the values that
    /// were known or are surely set, but for those that another value may take the place of.
    pub fn step(&self, action: u8, state: &State) -> State {
        let mut sure: [Set; STATE_LENGTH] = [0; STATE_LENGTH];
        let mut may: [Set; STATE_LENGTH] = [0; STATE_LENGTH];
        for (fluent, value, body) in &self.lines(action).effects {
            let fluent = usize::from(*fluent);
            if state.holds(body) {
                sure[fluent] |= 1 << value;
            }
            if state.allows(body) {
                may[fluent] |= 1 << value;
            }
        }
        let mut after = *state;
        for (fluent, byte) in after.0.iter_mut().enumerate() {
            let before = byte.checked_sub(1).map_or(0, |value| 1 << value);
            let mut kept =
                members(sure[fluent] | before).filter(|value| may[fluent] & !(1 << value) == 0);
            *byte = kept.next().map_or(0, |value| value + 1);
        }
        after
    }
}

/// A way still to be gone, with the fluents that have to be read before.
#[derive(Clone)]
struct Turn<'a> {
    left: Vec<&'a [Item<Literal>]>,
    state: State,
    unread: Vec<u8>,
}

/// Walks the plan of a settled values request and stops once the count is above the budget.
pub fn walk(valued: &Valued, budget: u32) -> Verdict<State> {
    walk_to(valued, budget, |_| {})
}

/// The same, with each end state handed over.
pub fn walk_to(valued: &Valued, budget: u32, at_end: impl FnMut(State)) -> Verdict<State> {
    let mut walker = Walker {
        valued,
        table: Table::new(valued),
        budget: u64::from(budget),
        count: 0,
        missed: None,
        turns: vec![Turn {
            left: vec![&valued.request.plan],
            state: State::first(&valued.request.facts),
            unread: Vec::new(),
        }],
        at_end,
    };
    while let Some(turn) = walker.turns.pop() {
        if let Err(verdict) = walker.follow(turn) {
            return verdict;
        }
    }
    let count = walker.count;
    match walker.missed {
        None => Verdict::Verified { count },
        Some((place, state)) => Verdict::Missed {
            place,
            count,
            state,
        },
    }
}

struct Walker<'a, AtEnd> {
    valued: &'a Valued,
    table: Table,
    budget: u64,
    count: u64,
    missed: Option<(usize, State)>,
    turns: Vec<Turn<'a>>,
    at_end: AtEnd,
}

impl<'a, AtEnd: FnMut(State)> Walker<'a, AtEnd> {
    /// Goes on until the plan ends or a fluent has to be read.
    fn follow(&mut self, mut turn: Turn<'a>) -> Result<(), Verdict<State>> {
        loop {
            if self.read(&turn) {
                return Ok(());
            }
            turn.unread.clear();
            let Some(item) = next(&mut turn.left) else {
                self.tick()?;
                self.judge(turn.state);
                return Ok(());
            };
            match item {
                Item::Branching { place, branches } => {
                    let known = |branch: &&Branch<Literal>| {
                        let condition = demands(&branch.condition);
                        turn.state.holds(&condition)
                    };
                    let followed = branches.iter().find(known);
                    let followed = followed.ok_or_else(|| self.stuck(*place, turn.state))?;
                    turn.left.push(&followed.sequence);
                }
                Item::Action { place, action } => {
                    if !self.table.runnable(*action, &turn.state) {
                        return Err(self.stuck(*place, turn.state));
                    }
                    self.tick()?;
                    match self.table.senses(*action) {
                        [] => turn.state = self.table.step(*action, &turn.state),
                        sensed => turn.unread = sensed.to_vec(),
                    }
                }
            }
        }
    }

    /// Leaves a turn for each value of the first unread fluent that is unknown, if there is one; that of
    /// the smallest value is taken up first.
    fn read(&mut self, turn: &Turn<'a>) -> bool {
        let unknown = |fluent: &&u8| turn.state.value(**fluent).is_none();
        let Some(&fluent) = turn.unread.iter().find(unknown) else {
            return false;
        };
        for value in (0..self.valued.values[usize::from(fluent)]).rev() {
            let mut read = turn.clone();
            read.state.know(fluent, value);
            self.turns.push(read);
        }
        true
    }

    /// Counts an action run or an end state judged.
    fn tick(&mut self) -> Result<(), Verdict<State>> {
        self.count += 1;
        match self.count > self.budget {
            true => Err(Verdict::Over),
            false => Ok(()),
        }
    }

    fn stuck(&self, place: usize, state: State) -> Verdict<State> {
        Verdict::Stuck {
            place,
            count: self.count,
            state,
            line: 0,
        }
    }

    /// Keeps the first entry that the first end state with a miss misses.
    fn judge(&mut self, state: State) {
        (self.at_end)(state);
        if self.missed.is_some() {
            return;
        }
        let request = &self.valued.request;
        let goals = (request.goals_place + 1..).step_by(2).zip(&request.goals);
        let mut goals = goals.filter(|(_, &goal)| !state.holds(&demands(&[goal])));
        let whether = (request.whether_place + 1..).zip(&request.whether);
        let mut whether = whether.filter(|(_, &fluent)| state.value(fluent).is_none());
        let goal = goals.next().map(|(place, _)| place);
        let missed = goal.or_else(|| whether.next().map(|(place, _)| place));
        self.missed = missed.map(|place| (place, state));
    }
}

/// Takes the next item of the sequences that are left.
fn next<'a>(left: &mut Vec<&'a [Item<Literal>]>) -> Option<&'a Item<Literal>> {
    while let Some(sequence) = left.pop() {
        if let Some((item, rest)) = sequence.split_first() {
            left.push(rest);
            return Some(item);
        }
    }
    None
}
