//! The walk: depth first over partial states, with a stack of its own.
//!
//! The plan is laid out as nodes that each know what follows them, so that a place in the plan
//! is one number whatever the nesting, and a reading that still has to be tried is that number
//! with a copy of the state.

use crate::model::{Guarded, Item, Request};
use crate::table::{bit, Known, Mask, Table};

/// How a whole walk ends.
#[derive(Clone, Copy, Debug, PartialEq, Eq)]
pub enum Verdict<State = Known> {
    /// Answer 0.
    Verified { count: u64 },
    /// Answer 1: the first entry missed in the first end state that misses one.
    Missed {
        place: usize,
        count: u64,
        state: State,
    },
    /// Answer 2: the item that can't be run, the state in which it was met, and of an action
    /// the place of the executability line that came nearest; 0 where there is none.
    Stuck {
        place: usize,
        count: u64,
        state: State,
        line: usize,
    },
    /// Answer 3.
    Over,
}

impl<State> Verdict<State> {
    /// The count, but for a walk that is over its budget.
    pub fn count(self) -> Option<u64> {
        match self {
            Verdict::Verified { count } => Some(count),
            Verdict::Missed { count, .. } | Verdict::Stuck { count, .. } => Some(count),
            Verdict::Over => None,
        }
    }
}

/// Answer 43, how a guarded walk ends where it meets a state that lacks a guard: the first guard
/// lacking, the state, and what was so when it was met.
#[derive(Clone, Copy, Debug, PartialEq, Eq)]
pub struct Broken {
    pub place: usize,
    pub count: u64,
    pub state: Known,
    pub met: Met,
}

/// What is so of a state that lacks a guard when it is met. None of it is answered; it is told so
/// that what occurs can be counted.
#[derive(Clone, Copy, Debug, PartialEq, Eq)]
pub struct Met {
    /// Some reading before it was not the first one tried.
    pub later_reading: bool,
    /// No item is left, so it would be judged.
    pub at_end: bool,
    /// The next item can't be run in it.
    pub before_stop: bool,
    /// An end state judged before it misses an entry.
    pub after_miss: bool,
}

/// Answer 44, how a walk by cases ends where an action has too many of them: the action, the state in
/// which it is met, and what was so then. Of these only the place is answered.
#[derive(Clone, Copy, Debug, PartialEq, Eq)]
pub struct TooMany {
    pub place: usize,
    pub count: u64,
    pub action: u8,
    pub state: Known,
    /// An end state judged before it misses an entry.
    pub after_miss: bool,
}

/// How a walk goes through an action: by what is known, by cases, or by an index.
pub trait Way {
    /// An action that is met in this state ends the walk, whether it can be run or not.
    fn ends(&mut self, _: u8, _: Known) -> bool {
        false
    }

    /// The action can be run in this state.
    fn runnable(&mut self, action: u8, state: Known) -> bool;

    /// Where it can't be run, the place of the executability line that comes nearest, or 0.
    fn nearest(&mut self, action: u8, state: Known) -> usize;

    /// The state after an action without knowledge lines, which can be run.
    fn step(&mut self, action: u8, state: Known) -> Known;
}

/// By what is known.
pub(crate) struct ByKnowledge<'a>(pub(crate) &'a Table);

impl Way for ByKnowledge<'_> {
    fn runnable(&mut self, action: u8, state: Known) -> bool {
        self.0.runnable(action, state)
    }

    fn nearest(&mut self, action: u8, state: Known) -> usize {
        self.0.lines(action).nearest(state)
    }

    fn step(&mut self, action: u8, state: Known) -> Known {
        self.0.step(action, state)
    }
}

/// Walks the plan of a settled request and stops once the count is above the budget.
pub fn walk(request: &Request, budget: u32) -> Verdict {
    unguarded::<false>(request, budget, |_| {}, |_| {})
}

/// Walks the plan of a settled guarded request in the same way, and stops also where a state is
/// met that lacks a guard.
pub fn walk_guarded(guarded: &Guarded, budget: u32) -> Result<Verdict, Broken> {
    let guards = (guarded.guards_place, &guarded.guards[..]);
    let table = Table::new(&guarded.request);
    let way = &mut ByKnowledge(&table);
    let ended = walk_past::<true>(
        (&guarded.request, &table),
        way,
        guards,
        budget,
        |_| {},
        |_| {},
    );
    match ended {
        Ok(verdict) | Err(Halt::Ended(verdict)) => Ok(verdict),
        Err(Halt::Broken(broken)) => Err(broken),
        Err(Halt::TooMany(_)) => unreachable!("what is known has no cases"),
    }
}

/// Walks the plan of a settled request, whose table comes along, in this way through its actions.
pub fn walk_along(
    (request, table): (&Request, &Table),
    way: &mut impl Way,
    budget: u32,
) -> Result<Verdict, TooMany> {
    let none = (0, &[][..]);
    match walk_past::<false>((request, table), way, none, budget, |_| {}, |_| {}) {
        Ok(verdict) | Err(Halt::Ended(verdict)) => Ok(verdict),
        Err(Halt::TooMany(too_many)) => Err(too_many),
        Err(Halt::Broken(_)) => unreachable!("there is no guard to lack"),
    }
}

/// The states that a walk without guards meets, in their order, as far as the budget lets it.
pub fn met(request: &Request, budget: u32) -> Vec<Known> {
    let mut met = Vec::new();
    unguarded::<true>(request, budget, |_| {}, |state| met.push(state));
    met
}

/// The end states of such a walk in the order in which it meets them, or nothing where it stops
/// before it has met them all.
pub fn ends(request: &Request, budget: u32) -> Option<Vec<Known>> {
    let mut ends = Vec::new();
    match unguarded::<false>(request, budget, |state| ends.push(state), |_| {}) {
        Verdict::Verified { .. } | Verdict::Missed { .. } => Some(ends),
        Verdict::Stuck { .. } | Verdict::Over => None,
    }
}

/// The walk by what is known and without guards, of which no state lacks one.
fn unguarded<const LOOKS: bool>(
    request: &Request,
    budget: u32,
    at_end: impl FnMut(Known),
    when_met: impl FnMut(Known),
) -> Verdict {
    let table = Table::new(request);
    let way = &mut ByKnowledge(&table);
    let none = (0, &[][..]);
    match walk_past::<LOOKS>((request, &table), way, none, budget, at_end, when_met) {
        Ok(verdict) | Err(Halt::Ended(verdict)) => verdict,
        Err(_) => unreachable!("there is no guard to lack, and no case"),
    }
}

/// The walk, in a way through the actions of the table, with the guards and where their count stands. It
/// hands over each end state that it judges and, where it looks at these, each state that it meets.
fn walk_past<const LOOKS: bool>(
    (request, table): (&Request, &Table),
    way: &mut impl Way,
    (guards_place, guards): (usize, &[u8]),
    budget: u32,
    at_end: impl FnMut(Known),
    when_met: impl FnMut(Known),
) -> Result<Verdict, Halt> {
    let code = Code::new(&request.plan);
    let mut walker = Walker::<_, _, _, LOOKS> {
        request,
        guards_place,
        guards,
        guarded: Known::of(guards),
        table,
        way,
        code: &code,
        budget: u64::from(budget),
        count: 0,
        missed: None,
        turns: Vec::new(),
        at_end,
        when_met,
    };
    walker.walk()
}

enum Node {
    /// The end of the plan.
    End,
    Run {
        place: usize,
        action: u8,
        next: usize,
    },
    Choose {
        place: usize,
        branches: Vec<(Known, usize)>,
    },
}

struct Code {
    nodes: Vec<Node>,
    start: usize,
}

impl Code {
    fn new(plan: &[Item]) -> Code {
        let mut code = Code {
            nodes: vec![Node::End],
            start: 0,
        };
        code.start = code.lay(plan, 0);
        code
    }

    /// Lays a sequence out before the node that follows it, and returns its first node.
    fn lay(&mut self, sequence: &[Item], after: usize) -> usize {
        sequence.iter().rev().fold(after, |next, item| {
            let node = match item {
                Item::Action { place, action } => Node::Run {
                    place: *place,
                    action: *action,
                    next,
                },
                Item::Branching { place, branches } => Node::Choose {
                    place: *place,
                    branches: branches
                        .iter()
                        .map(|branch| {
                            (
                                Known::of(&branch.condition),
                                self.lay(&branch.sequence, next),
                            )
                        })
                        .collect(),
                },
            };
            self.nodes.push(node);
            self.nodes.len() - 1
        })
    }
}

/// Where to go on, with which state, and which fluents have still to be forked before that; and
/// whether a reading that led here was not the first one tried.
#[derive(Clone, Copy)]
struct Turn {
    node: usize,
    state: Known,
    unread: Mask,
    later: bool,
}

/// Why a walk goes no further.
enum Halt {
    Ended(Verdict),
    Broken(Broken),
    TooMany(TooMany),
}

/// One that looks at the states that it meets, for their guards, or one that doesn't.
struct Walker<'a, W, AtEnd, WhenMet, const LOOKS: bool> {
    request: &'a Request,
    guards_place: usize,
    guards: &'a [u8],
    /// All guards as one body.
    guarded: Known,
    table: &'a Table,
    way: &'a mut W,
    code: &'a Code,
    budget: u64,
    count: u64,
    missed: Option<(usize, Known)>,
    turns: Vec<Turn>,
    at_end: AtEnd,
    when_met: WhenMet,
}

impl<W: Way, AtEnd: FnMut(Known), WhenMet: FnMut(Known), const LOOKS: bool>
    Walker<'_, W, AtEnd, WhenMet, LOOKS>
{
    fn walk(&mut self) -> Result<Verdict, Halt> {
        let state = Known::of(&self.request.facts);
        self.turns.push(Turn {
            node: self.code.start,
            state,
            unread: 0,
            later: false,
        });
        while let Some(turn) = self.turns.pop() {
            // The first state, or one that a reading leads to.
            let turn = self.fork(turn);
            self.meet(&turn)?;
            self.follow(turn)?;
        }
        Ok(match self.missed {
            None => Verdict::Verified { count: self.count },
            Some((place, state)) => Verdict::Missed {
                place,
                count: self.count,
                state,
            },
        })
    }

    /// Looks at a state that is met, before the next item is taken or the state is judged.
    #[inline(always)]
    fn meet(&mut self, turn: &Turn) -> Result<(), Halt> {
        if !LOOKS {
            return Ok(());
        }
        (self.when_met)(turn.state);
        match turn.state.holds(self.guarded) {
            true => Ok(()),
            false => Err(Halt::Broken(self.broken(turn))),
        }
    }

    /// The first guard that a state lacks, which lacks some.
    #[cold]
    fn broken(&self, turn: &Turn) -> Broken {
        let lacks = |&guard: &u8| !turn.state.holds(Known::of(&[guard]));
        let index = self.guards.iter().position(lacks).expect("a guard");
        Broken {
            place: self.guards_place + 1 + index,
            count: self.count,
            state: turn.state,
            met: self.met(turn),
        }
    }

    fn met(&self, turn: &Turn) -> Met {
        let (at_end, before_stop) = match &self.code.nodes[turn.node] {
            Node::End => (true, false),
            Node::Run { action, .. } => (false, !self.table.runnable(*action, turn.state)),
            Node::Choose { branches, .. } => {
                let followed = branches
                    .iter()
                    .any(|(condition, _)| turn.state.holds(*condition));
                (false, !followed)
            }
        };
        Met {
            later_reading: turn.later,
            at_end,
            before_stop,
            after_miss: self.missed.is_some(),
        }
    }

    /// Takes the first reading of each unread fluent, ascending, true before false. The false
    /// readings wait with copies of the state as it was.
    fn fork(&mut self, mut turn: Turn) -> Turn {
        while turn.unread != 0 {
            let bit = turn.unread & turn.unread.wrapping_neg();
            turn.unread &= !bit;
            let mut other = turn;
            other.state.no |= bit;
            other.later = LOOKS;
            self.turns.push(other);
            turn.state.yes |= bit;
        }
        turn
    }

    /// Follows one reading until the plan ends or the next fork.
    fn follow(&mut self, mut turn: Turn) -> Result<(), Halt> {
        loop {
            match &self.code.nodes[turn.node] {
                Node::End => {
                    self.tick()?;
                    self.judge(turn.state);
                    return Ok(());
                }
                Node::Choose { place, branches } => {
                    turn.node = branches
                        .iter()
                        .find(|(condition, _)| turn.state.holds(*condition))
                        .map(|&(_, start)| start)
                        .ok_or_else(|| self.stuck(*place, turn.state, 0))?;
                }
                Node::Run {
                    place,
                    action,
                    next,
                } => {
                    if self.way.ends(*action, turn.state) {
                        return Err(self.too_many(*place, *action, turn.state));
                    }
                    if !self.way.runnable(*action, turn.state) {
                        let line = self.way.nearest(*action, turn.state);
                        return Err(self.stuck(*place, turn.state, line));
                    }
                    self.tick()?;
                    turn.node = *next;
                    let senses = self.table.senses(*action);
                    if senses == 0 {
                        turn.state = self.way.step(*action, turn.state);
                        self.meet(&turn)?;
                        continue;
                    }
                    turn.unread = senses & !turn.state.marked();
                    self.turns.push(turn);
                    return Ok(());
                }
            }
        }
    }

    /// Counts an action run or an end state judged.
    fn tick(&mut self) -> Result<(), Halt> {
        self.count += 1;
        if self.count > self.budget {
            return Err(Halt::Ended(Verdict::Over));
        }
        Ok(())
    }

    fn stuck(&self, place: usize, state: Known, line: usize) -> Halt {
        Halt::Ended(Verdict::Stuck {
            place,
            count: self.count,
            state,
            line,
        })
    }

    #[cold]
    fn too_many(&self, place: usize, action: u8, state: Known) -> Halt {
        Halt::TooMany(TooMany {
            place,
            count: self.count,
            action,
            state,
            after_miss: self.missed.is_some(),
        })
    }

    /// Keeps the first end state that misses an entry. A missed goal doesn't end the walk.
    fn judge(&mut self, state: Known) {
        (self.at_end)(state);
        if self.missed.is_none() {
            self.missed = self.first_miss(state).map(|place| (place, state));
        }
    }

    /// The place of the first entry missed: goals in order, then whether entries in order.
    fn first_miss(&self, state: Known) -> Option<usize> {
        let goals = &self.request.goals;
        let whether = &self.request.whether;
        let goal = goals
            .iter()
            .position(|&goal| !state.holds(Known::of(&[goal])));
        let fluent = whether
            .iter()
            .position(|&fluent| state.marked() & bit(fluent) == 0);
        goal.map(|index| self.request.goals_place + 1 + index)
            .or(fluent.map(|index| self.request.whether_place + 1 + index))
    }
}
