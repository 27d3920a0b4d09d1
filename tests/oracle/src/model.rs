//! Requests, release files and derivations after reading, with the places answers may need.
//!
//! The generators build the same structures by hand; there the places are 0 and mean nothing.

use crate::answer::Fault;

/// Literal byte 2f says that fluent f is true, 2f + 1 that it is false.
pub fn is_positive(literal: u8) -> bool {
    literal & 1 == 0
}

/// Whether two bodies are exclusive: one holds a complement of a literal of the other.
pub fn exclusive(one: &[u8], other: &[u8]) -> bool {
    one.iter().any(|literal| other.contains(&(literal ^ 1)))
}

/// An effect line of section 3. Here and below a literal is a byte, or in a values request a
/// [`Literal`](crate::values::literal::Literal).
#[derive(Clone, Debug)]
pub struct Effect<L = u8> {
    pub place: usize,
    pub action: u8,
    pub literal: L,
    pub body: Vec<L>,
}

/// An executability line of section 4.
#[derive(Clone, Debug)]
pub struct Allowance<L = u8> {
    pub action: u8,
    pub body: Vec<L>,
}

/// A knowledge line of section 5.
#[derive(Clone, Debug)]
pub struct Knowledge {
    pub place: usize,
    pub action: u8,
    pub fluent: u8,
}

/// An item of a sequence.
#[derive(Clone, Debug)]
pub enum Item<L = u8> {
    Action {
        place: usize,
        action: u8,
    },
    Branching {
        place: usize,
        branches: Vec<Branch<L>>,
    },
}

/// A branch: its condition and the sequence that it guards.
#[derive(Clone, Debug, PartialEq)]
pub struct Branch<L = u8> {
    pub condition: Vec<L>,
    pub sequence: Vec<Item<L>>,
}

/// Two items are equal when their bytes are; where they stand doesn't matter.
impl<L: PartialEq> PartialEq for Item<L> {
    fn eq(&self, other: &Item<L>) -> bool {
        match (self, other) {
            (Item::Action { action: one, .. }, Item::Action { action: two, .. }) => one == two,
            (Item::Branching { branches: one, .. }, Item::Branching { branches: two, .. }) => {
                one == two
            }
            _ => false,
        }
    }
}

impl<L> Item<L> {
    /// An action item that stands nowhere yet.
    pub fn act(action: u8) -> Item<L> {
        Item::Action { place: 0, action }
    }

    /// A branching that stands nowhere yet.
    pub fn case(branches: Vec<Branch<L>>) -> Item<L> {
        Item::Branching { place: 0, branches }
    }
}

/// The number of items of a sequence, nested ones counted.
pub fn item_count<L>(sequence: &[Item<L>]) -> usize {
    sequence.iter().map(items_of).sum()
}

fn items_of<L>(item: &Item<L>) -> usize {
    match item {
        Item::Action { .. } => 1,
        Item::Branching { branches, .. } => {
            1 + branches
                .iter()
                .map(|branch| item_count(&branch.sequence))
                .sum::<usize>()
        }
    }
}

/// How many branchings of a sequence stand one inside another at most.
pub fn nesting<L>(sequence: &[Item<L>]) -> usize {
    sequence
        .iter()
        .map(|item| match item {
            Item::Action { .. } => 0,
            Item::Branching { branches, .. } => {
                1 + branches
                    .iter()
                    .map(|branch| nesting(&branch.sequence))
                    .max()
                    .unwrap_or(0)
            }
        })
        .max()
        .unwrap_or(0)
}

/// A request, section by section.
#[derive(Clone, Debug, Default)]
pub struct Request<L = u8> {
    pub fluents: u8,
    pub actions: u8,
    pub facts: Vec<L>,
    pub effects: Vec<Effect<L>>,
    /// Where section 4's count stands; its lines follow one after another.
    pub allowances_place: usize,
    pub allowances: Vec<Allowance<L>>,
    pub knowledge: Vec<Knowledge>,
    pub plan: Vec<Item<L>>,
    /// Where the goals' count stands; goal `i` stands `i + 1` bytes later, or `2 * i + 1` where a
    /// literal has two bytes.
    pub goals_place: usize,
    pub goals: Vec<L>,
    /// Where the whether list's count stands.
    pub whether_place: usize,
    pub whether: Vec<u8>,
}

impl Request {
    /// The executability lines in file order, each with its place: a line takes two bytes and
    /// one for each literal of its body.
    pub fn placed_allowances(&self) -> impl Iterator<Item = (usize, &Allowance)> {
        let mut next = self.allowances_place + 1;
        self.allowances.iter().map(move |line| {
            let place = next;
            next += 2 + line.body.len();
            (place, line)
        })
    }
}

/// A guarded request: the eight sections of a request, and the guards.
#[derive(Clone, Debug, Default)]
pub struct Guarded {
    pub request: Request,
    /// Where the guards' count stands; guard `i` stands `i + 1` bytes later.
    pub guards_place: usize,
    pub guards: Vec<u8>,
}

/// A release file past its plan count, as far as it can be read.
#[derive(Clone, Debug)]
pub struct Release {
    /// Sections 1 to 5, with neither plan nor goals nor whether entries.
    pub table: Request,
    /// Where section 5 ends and the plan count stands.
    pub table_end: usize,
    /// The plan count.
    pub count: usize,
    /// The plans in order. Where one fails in reading it is the last of these, whatever the count.
    pub plans: Vec<Plan>,
    /// 20: bytes are left after the last plan.
    pub left_over: Option<Fault>,
}

/// A plan of a release file: where it starts, and what a request of its own would hold, with the
/// places of its items and entries in the file.
#[derive(Clone, Debug)]
pub struct Plan {
    pub start: usize,
    pub read: Result<Request, Fault>,
}

/// A line of a derivation: the list X, the sequence c, the list Y, its rule and citations.
#[derive(Clone, Debug)]
pub struct Line {
    pub place: usize,
    pub before: Vec<u8>,
    pub sequence: Vec<Item>,
    pub after: Vec<u8>,
    pub rule: u8,
    pub cites: Vec<u16>,
}

/// What a line of the second layout concludes.
#[derive(Clone, Debug, PartialEq, Eq)]
pub enum Conclusion {
    /// Every literal of the list Y is known.
    List(Vec<u8>),
    /// It is known whether: the fluent is known true or known false.
    Fluent(u8),
}

/// A line of a derivation in the second layout: the list X, the sequence c, its rule, what it
/// concludes, and its citations.
#[derive(Clone, Debug)]
pub struct ProofLine {
    pub place: usize,
    pub before: Vec<u8>,
    pub sequence: Vec<Item>,
    pub rule: u8,
    pub gives: Conclusion,
    pub cites: Vec<u16>,
}

/// A derivation in the second layout: its lines, and the closing list that names the goals'
/// line and then a line for each whether entry.
#[derive(Clone, Debug)]
pub struct Proof {
    pub lines: Vec<ProofLine>,
    /// Where the closing list's count stands; entry `i` stands `1 + 2 * i` bytes later.
    pub closing_place: usize,
    pub closing: Vec<u16>,
}
