//! Plans carried out beside a guide and without one: in the worlds that are possible, where the branch is followed
//! whose condition holds in all of them, and over marks, where it is the one whose condition is known.

use crate::model::{Branch, Item, Request};
use crate::paths::{after, first_marks, is_known, Marks, FALSE, TRUE, UNKNOWN};
use crate::worlds::{Carrier, Failure, World};

/// What is left of a plan, the next item last.
type Left<'a> = Vec<&'a Item>;

/// The items of a sequence, the first one last.
fn turned(sequence: &[Item]) -> impl Iterator<Item = &Item> {
    sequence.iter().rev()
}

/// The next action, in what is left, by the branches that are chosen on the way; none at the plan's end.
fn next_action<'a>(
    left: &mut Left<'a>,
    mut choose: impl FnMut(&'a [Branch]) -> Option<&'a Branch>,
) -> Result<Option<u8>, Failure> {
    while let Some(item) = left.pop() {
        match item {
            Item::Action { action, .. } => return Ok(Some(*action)),
            Item::Branching { branches, .. } => {
                let branch = choose(branches).ok_or(Failure::NoBranch)?;
                left.extend(turned(&branch.sequence));
            }
        }
    }
    Ok(None)
}

/// A plan that is carried out in true worlds that have given the same readings so far. Where they are now are the
/// worlds that are possible for each of them.
#[derive(Clone)]
pub(crate) struct InWorlds<'a> {
    carrier: &'a Carrier,
    worlds: Vec<World>,
    left: Left<'a>,
}

impl<'a> InWorlds<'a> {
    /// Every world that has the initial facts.
    pub(crate) fn new(request: &'a Request, carrier: &'a Carrier) -> InWorlds<'a> {
        InWorlds {
            carrier,
            worlds: carrier.start(request),
            left: turned(&request.plan).collect(),
        }
    }

    pub(crate) fn count(&self) -> u64 {
        self.worlds.len() as u64
    }

    /// What these worlds say of a fluent, which is the same in all of them.
    pub(crate) fn value(&self, fluent: u8) -> bool {
        let first = self.worlds[0] >> fluent & 1 == 1;
        assert!(self.has(fluent, first), "a fluent that was read");
        first
    }

    /// The fluent has this value in every world that is possible.
    pub(crate) fn has(&self, fluent: u8, value: bool) -> bool {
        let mut worlds = self.worlds.iter();
        worlds.all(|world| (world >> fluent & 1 == 1) == value)
    }

    pub(crate) fn next_action(&mut self) -> Result<Option<u8>, Failure> {
        let worlds = &self.worlds;
        next_action(&mut self.left, |branches| Carrier::branch(branches, worlds))
    }

    /// After an action, which may be run in each possible world: one for each reading that some true world gives.
    pub(crate) fn run(self, action: u8) -> Result<Vec<InWorlds<'a>>, Failure> {
        let after = self.carrier.act(usize::from(action), self.worlds)?;
        let with = |worlds| InWorlds {
            carrier: self.carrier,
            worlds,
            left: self.left.clone(),
        };
        Ok(after.into_iter().map(with).collect())
    }

    /// The goals hold, and each whether fluent has one value.
    pub(crate) fn ended(&self, request: &Request) -> Result<(), Failure> {
        crate::worlds::judge(request, &self.worlds)
    }
}

/// A plan that is carried out over marks, by whatever readings are given.
#[derive(Clone)]
pub(crate) struct OverMarks<'a> {
    marks: Marks,
    left: Left<'a>,
    /// How many branchings were passed.
    pub(crate) branched: usize,
}

impl<'a> OverMarks<'a> {
    pub(crate) fn new(request: &'a Request) -> OverMarks<'a> {
        OverMarks {
            marks: first_marks(request),
            left: turned(&request.plan).collect(),
            branched: 0,
        }
    }

    /// How many items are left, those in branches not counted.
    pub(crate) fn left_items(&self) -> usize {
        self.left.len()
    }

    pub(crate) fn next_action(&mut self) -> Result<Option<u8>, Failure> {
        let (marks, branched) = (&self.marks, &mut self.branched);
        next_action(&mut self.left, |branches| {
            *branched += 1;
            let known = |branch: &&Branch| branch.condition.iter().all(|&l| is_known(marks, l));
            branches.iter().find(known)
        })
    }

    /// After an action without knowledge lines.
    pub(crate) fn run(&mut self, request: &Request, action: u8) {
        self.marks = after(request, action, &self.marks);
    }

    /// After a reading of a fluent.
    pub(crate) fn read(&mut self, fluent: u8, value: bool) {
        self.marks[usize::from(fluent)] = if value { TRUE } else { FALSE };
    }

    pub(crate) fn knows(&self, fluent: u8) -> bool {
        self.marks[usize::from(fluent)] != UNKNOWN
    }

    /// The fluents that are known, with their values.
    pub(crate) fn known(&self) -> impl Iterator<Item = (u8, bool)> + '_ {
        let marks = (0..).zip(&self.marks);
        let known = marks.filter(|(_, &mark)| mark != UNKNOWN);
        known.map(|(fluent, &mark)| (fluent, mark == TRUE))
    }

    /// The fluent is known to have the other value.
    pub(crate) fn is_against(&self, fluent: u8, value: bool) -> bool {
        self.knows(fluent) && (self.marks[usize::from(fluent)] == TRUE) != value
    }
}
