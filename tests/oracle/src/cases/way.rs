//! The way through an action by cases: it is tried in every filling of what is unknown.

use crate::generate::common;
use crate::model::Request;
use crate::table::{bit, readings, Known, Mask, Table};
use crate::walk::{walk_along, TooMany, Verdict, Way};

/// Most open fluents that an action may have in the state in which it is met.
pub const CASE_LIMIT: u32 = 12;

/// Which unknown fluents are filled.
#[derive(Clone, Copy, Debug, PartialEq, Eq)]
pub enum Filled {
    /// All of those below the number of fluents.
    All,
    /// The open ones of the action.
    Open,
    /// All where they are no more than the case limit, and else the open ones.
    AllIfFew,
}

/// Walks the plan of a settled request by cases, and stops once the count is above the budget.
pub fn walk_by_cases(request: &Request, budget: u32) -> Result<Verdict, TooMany> {
    walk_filling(request, budget, Filled::AllIfFew).0
}

/// The same with these fluents filled, and what the walk met.
pub fn walk_filling(
    request: &Request,
    budget: u32,
    filled: Filled,
) -> (Result<Verdict, TooMany>, Met) {
    let table = Table::new(request);
    let mut way = ByCases {
        table: &table,
        fluents: (0..request.fluents).fold(0, |all, fluent| all | bit(fluent)),
        filled,
        met: Met::default(),
    };
    let ended = walk_along((request, &table), &mut way, budget);
    (ended, way.met)
}

/// The unknown fluents that stand in a body of the action's effects or of its executability lines.
pub fn open_fluents(table: &Table, action: u8, state: Known) -> Mask {
    let bodies = table.allowing(action).chain(table.bringing(action));
    bodies.fold(0, |all, body| all | body.marked()) & !state.marked()
}

/// What a walk by cases met. None of it is answered; it is told so that what occurs can be counted.
#[derive(Clone, Copy, Debug, Default, PartialEq, Eq)]
pub struct Met {
    /// The most open fluents of an action that was run.
    pub most_open: u32,
    /// An action was run of which no executability line is known true; one that senses.
    pub run_by_lines: bool,
    pub sensed_by_lines: bool,
    /// An action that can't be run can be in some of the fillings.
    pub stuck_in_some: bool,
    /// How many complete fillings there were, of all actions met together.
    pub fillings: u128,
}

struct ByCases<'a> {
    table: &'a Table,
    /// Those below the number of fluents.
    fluents: Mask,
    filled: Filled,
    met: Met,
}

impl ByCases<'_> {
    fn fillings(&self, action: u8, state: Known) -> Vec<Known> {
        let unknown = self.fluents & !state.marked();
        let all = match self.filled {
            Filled::All => true,
            Filled::Open => false,
            Filled::AllIfFew => unknown.count_ones() <= CASE_LIMIT,
        };
        match all {
            true => readings(state, unknown),
            false => readings(state, open_fluents(self.table, action, state)),
        }
    }

    fn note(&mut self, action: u8, state: Known, allowed: usize, fillings: usize) {
        let unknown = self.fluents & !state.marked();
        let these = 1u128.checked_shl(unknown.count_ones()).unwrap_or(u128::MAX);
        self.met.fillings = self.met.fillings.saturating_add(these);
        if allowed < fillings {
            self.met.stuck_in_some = allowed > 0;
            return;
        }
        let open = open_fluents(self.table, action, state).count_ones();
        self.met.most_open = self.met.most_open.max(open);
        if !self.table.runnable(action, state) {
            self.met.run_by_lines = true;
            self.met.sensed_by_lines |= self.table.senses(action) != 0;
        }
    }
}

impl Way for ByCases<'_> {
    /// It has too many open fluents.
    fn ends(&mut self, action: u8, state: Known) -> bool {
        open_fluents(self.table, action, state).count_ones() > CASE_LIMIT
    }

    /// It can be run in each filling, by any of its lines.
    fn runnable(&mut self, action: u8, state: Known) -> bool {
        let fillings = self.fillings(action, state);
        let runs = |filling: &&Known| self.table.runnable(action, **filling);
        let allowed = fillings.iter().filter(runs).count();
        self.note(action, state, allowed, fillings.len());
        allowed == fillings.len()
    }

    /// It comes nearest in the state itself.
    fn nearest(&mut self, action: u8, state: Known) -> usize {
        self.table.lines(action).nearest(state)
    }

    /// What the results in all fillings share.
    fn step(&mut self, action: u8, state: Known) -> Known {
        let fillings = self.fillings(action, state);
        let moved = |&filling: &Known| self.table.step(action, filling);
        let results: Vec<Known> = fillings.iter().map(moved).collect();
        common(&results)
    }
}
