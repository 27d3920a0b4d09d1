//! The scheme a second time, on the bytes of a request and with lines of marks for states, as an inner check
//! of the first: how many lines and bytes it comes to, counted without a line being written, and whether a
//! derivation is the scheme's, told from its last line to its first.

use std::collections::BTreeSet;

use crate::model::Request;
use crate::paths::{after, first_marks, is_known, sensed, Marks, FALSE, TRUE, UNKNOWN};
use crate::reader::BRANCHING;

/// Most unknown fluents of a sensing action.
const UNKNOWN_LIMIT: usize = 6;

/// A part of a sequence: so many items, from a place of the request up to another.
#[derive(Clone, Copy, Debug)]
struct Stretch {
    items: usize,
    start: usize,
    end: usize,
}

/// A state, and what is left there: of the sequence that the walk is in, and then behind each branching
/// around it. Stretches without items may be among these.
#[derive(Clone, Debug)]
struct Left {
    marks: Marks,
    stretches: Vec<Stretch>,
}

/// What comes next for a state and what is left there.
enum Next {
    Nothing,
    /// An action without knowledge lines, and what follows it.
    Run(u8, Left),
    /// A sensing action at a place, its fluents that are unknown, and what follows it, with no reading yet.
    Look(usize, Vec<u8>, Left),
    /// A branching, and what follows it with the chosen branch's sequence in front.
    Choose(Left),
}

/// What the scheme comes to for a plan that the walk verifies, up to the first item that is too wide.
#[derive(Clone, Debug, Default)]
pub struct Sizes {
    pub ends: u64,
    /// Actions without knowledge lines that are run, sensing actions, and branchings met.
    pub runs: u64,
    pub looks: u64,
    pub branchings: u64,
    /// Of all lines, with the line count in front.
    pub bytes: u64,
    /// Where an action looked, and how many of its fluents were unknown then.
    pub looked: BTreeSet<(usize, usize)>,
    /// Where the first item that is too wide stands.
    pub too_wide: Option<usize>,
    /// Most literals that are known in a state.
    pub most_known: u64,
    /// In some end state nothing is known but the goals.
    pub all_are_goals: bool,
    /// Some branching was met with items behind it, inside another with items behind that.
    pub joined_twice: bool,
}

impl Sizes {
    /// Two lines for each end state and for each action that does not sense, and one for each that does and
    /// for each branching.
    pub fn lines(&self) -> u64 {
        2 * (self.ends + self.runs) + self.looks + self.branchings
    }

    /// The count of the walk.
    pub fn count(&self) -> u64 {
        self.ends + self.runs + self.looks
    }
}

/// What the scheme comes to, by the request and its bytes.
pub fn sizes(request: &Request, bytes: &[u8]) -> Sizes {
    let scheme = Scheme { request, bytes };
    let mut sizes = Sizes {
        bytes: 2,
        ..Sizes::default()
    };
    let mut waiting = vec![scheme.whole()];
    while let Some(left) = waiting.pop() {
        let known = known(&left.marks).count() as u64;
        let goals = request.goals.len() as u64;
        // X, c and Y, each with its count, the rule byte and the citation count.
        let line = |known: u64, plan: u64, after: u64| 1 + known + 2 + plan + 1 + after + 1 + 1;
        let plan: usize = left.stretches.iter().map(|s| s.end - s.start).sum();
        sizes.bytes += line(known, plan as u64, goals);
        sizes.most_known = sizes.most_known.max(known);
        match scheme.next(&left) {
            Next::Nothing => {
                sizes.ends += 1;
                sizes.all_are_goals |= known == goals;
                sizes.bytes += 2 + line(known, 0, known);
            }
            Next::Run(_, after) => {
                sizes.runs += 1;
                let then = self::known(&after.marks).count() as u64;
                sizes.bytes += 4 + line(known, 1, then);
                waiting.push(after);
            }
            Next::Look(place, fluents, after) => {
                sizes.looks += 1;
                sizes.looked.insert((place, fluents.len()));
                if fluents.len() > UNKNOWN_LIMIT {
                    sizes.too_wide = Some(place);
                    return sizes;
                }
                let readings = readings(&after, &fluents);
                sizes.bytes += 2 * readings.len() as u64;
                waiting.extend(readings.into_iter().rev());
            }
            Next::Choose(after) => {
                sizes.branchings += 1;
                sizes.bytes += 2;
                let behind = after.stretches.iter().skip(1).filter(|s| s.items > 0);
                sizes.joined_twice |= behind.count() > 1;
                waiting.push(after);
            }
        }
    }
    sizes
}

/// A line that a derivation has to have: one of the scheme for what is left, or one that cites nothing.
enum Awaited {
    Of(Left),
    /// X, c, Y and the rule.
    Alone(Vec<u8>, Vec<u8>, Vec<u8>, u8),
}

/// The derivation is the scheme's: from its last line to its first each is what has to stand there, by the
/// line that cites it, and none is left over.
pub fn expect_scheme(request: &Request, bytes: &[u8], derivation: &[u8]) -> Result<(), String> {
    let scheme = Scheme { request, bytes };
    let (count, mut lines) = match derivation {
        [high, low, lines @ ..] => (u16::from_be_bytes([*high, *low]), lines),
        _ => return Err("a derivation without a line count".to_string()),
    };
    let last = count.checked_sub(1).ok_or("a derivation without lines")?;
    let mut awaited = vec![(last, Awaited::Of(scheme.whole()))];
    for number in (0..count).rev() {
        let wrong = |what: &str| format!("line {number} is not the scheme's: {what}");
        let (cited, line) = awaited.pop().ok_or_else(|| wrong("nothing cites it"))?;
        if cited != number {
            return Err(wrong(&format!("line {cited} is cited in its place")));
        }
        let (before, plan, after, rule, citing) = match &line {
            Awaited::Alone(before, plan, after, rule) => {
                (before.clone(), plan.clone(), after.clone(), *rule, 0)
            }
            Awaited::Of(left) => {
                let (rule, citing) = match scheme.next(left) {
                    Next::Nothing => (6, 1),
                    Next::Run(..) => (5, 2),
                    Next::Look(_, fluents, _) => (3, 1 << fluents.len()),
                    Next::Choose(_) => (4, 1),
                };
                let before = known(&left.marks).collect();
                (
                    before,
                    scheme.plan(left),
                    request.goals.clone(),
                    rule,
                    citing,
                )
            }
        };
        let start = (lines.len().checked_sub(2 * citing)).ok_or_else(|| wrong("no citations"))?;
        let (rest, citations) = lines.split_at(start);
        let claim = [
            listed(&before),
            plan,
            listed(&after),
            vec![rule, citing as u8],
        ];
        lines = (rest.strip_suffix(&claim.concat()[..])).ok_or_else(|| wrong("its bytes"))?;
        let citations = citations.chunks(2);
        let cites: Vec<u16> = citations
            .map(|pair| u16::from_be_bytes([pair[0], pair[1]]))
            .collect();
        if let Awaited::Of(left) = &line {
            awaited.extend(cites.into_iter().zip(scheme.cited(left)));
        }
    }
    match (awaited.is_empty(), lines.is_empty()) {
        (true, true) => Ok(()),
        (false, _) => Err("a line that is cited is not there".to_string()),
        _ => Err("the derivation has more lines than it says".to_string()),
    }
}

/// A request that was read and its bytes.
struct Scheme<'a> {
    request: &'a Request,
    bytes: &'a [u8],
}

impl Scheme<'_> {
    fn byte(&self, place: usize) -> usize {
        usize::from(self.bytes[place])
    }

    /// The first state and the whole plan, which stands behind five sections.
    fn whole(&self) -> Left {
        let mut place = self.behind_list(2);
        for before_body in [Some(2), Some(1), None] {
            let lines = self.byte(place);
            place += 1;
            for _ in 0..lines {
                place = match before_body {
                    Some(bytes) => self.behind_list(place + bytes),
                    None => place + 2,
                };
            }
        }
        Left {
            marks: first_marks(self.request),
            stretches: vec![self.sequence(place)],
        }
    }

    /// Where a list ends whose count stands at a place.
    fn behind_list(&self, place: usize) -> usize {
        place + 1 + self.byte(place)
    }

    /// The sequence whose item count stands at a place.
    fn sequence(&self, place: usize) -> Stretch {
        let items = 256 * self.byte(place) + self.byte(place + 1);
        let start = place + 2;
        let end = (0..items).fold(start, |place, _| self.behind_item(place));
        Stretch { items, start, end }
    }

    fn behind_item(&self, place: usize) -> usize {
        match self.bytes[place] {
            BRANCHING => self.branches(place).last().map_or(place, |(_, s)| s.end),
            _ => place + 1,
        }
    }

    /// The branches of the branching at a place: the condition and the sequence of each.
    fn branches(&self, place: usize) -> Vec<(&[u8], Stretch)> {
        let mut next = place + 2;
        let branch = |_| {
            let end = self.behind_list(next);
            let condition = &self.bytes[next + 1..end];
            let sequence = self.sequence(end);
            next = sequence.end;
            (condition, sequence)
        };
        (0..self.byte(place + 1)).map(branch).collect()
    }

    /// What comes next, of a plan that can be run.
    fn next(&self, left: &Left) -> Next {
        let mut stretches = left.stretches.clone();
        stretches.retain(|stretch| stretch.items > 0);
        let Some(first) = stretches.first_mut() else {
            return Next::Nothing;
        };
        let place = first.start;
        first.start = self.behind_item(place);
        first.items -= 1;
        let marks = left.marks.clone();
        if self.bytes[place] == BRANCHING {
            let holds = |condition: &[u8]| condition.iter().all(|&entry| is_known(&marks, entry));
            let branches = self.branches(place);
            let mut followed = branches.iter().filter(|(condition, _)| holds(condition));
            let (_, sequence) = followed.next().expect("a branch that is followed");
            stretches.insert(0, *sequence);
            return Next::Choose(Left { marks, stretches });
        }
        let action = self.bytes[place];
        let mut fluents = sensed(self.request, action);
        if fluents.is_empty() {
            let marks = after(self.request, action, &marks);
            return Next::Run(action, Left { marks, stretches });
        }
        fluents.retain(|&fluent| marks[usize::from(fluent)] == UNKNOWN);
        Next::Look(place, fluents, Left { marks, stretches })
    }

    /// What the line for what is left cites, in the order of its citations.
    fn cited(&self, left: &Left) -> Vec<Awaited> {
        let before: Vec<u8> = known(&left.marks).collect();
        match self.next(left) {
            Next::Nothing => vec![Awaited::Alone(before.clone(), vec![0, 0], before, 1)],
            Next::Run(action, after) => {
                let then = known(&after.marks).collect();
                let alone = Awaited::Alone(before, vec![0, 1, action], then, 2);
                vec![alone, Awaited::Of(after)]
            }
            Next::Look(_, fluents, after) => {
                let readings = readings(&after, &fluents);
                readings.into_iter().map(Awaited::Of).collect()
            }
            Next::Choose(after) => vec![Awaited::Of(after)],
        }
    }

    /// The plan that is left, as bytes.
    fn plan(&self, left: &Left) -> Vec<u8> {
        let items: usize = left.stretches.iter().map(|stretch| stretch.items).sum();
        let mut plan = (items as u16).to_be_bytes().to_vec();
        for stretch in &left.stretches {
            plan.extend(&self.bytes[stretch.start..stretch.end]);
        }
        plan
    }
}

/// The known literals of a state, ascending.
fn known(marks: &Marks) -> impl Iterator<Item = u8> + '_ {
    let literal = |(fluent, mark): (usize, &u8)| match *mark {
        TRUE => Some(2 * fluent as u8),
        FALSE => Some(2 * fluent as u8 + 1),
        _ => None,
    };
    marks.iter().enumerate().filter_map(literal)
}

/// A list with its count.
fn listed(entries: &[u8]) -> Vec<u8> {
    [&[entries.len() as u8], entries].concat()
}

/// The same left in each reading of some fluents, of which the first turns slowest.
fn readings(left: &Left, fluents: &[u8]) -> Vec<Left> {
    let of = |choice: usize| {
        let mut read = left.clone();
        for (index, &fluent) in fluents.iter().rev().enumerate() {
            read.marks[usize::from(fluent)] = match choice >> index & 1 {
                0 => TRUE,
                _ => FALSE,
            };
        }
        read
    };
    (0..1 << fluents.len()).map(of).collect()
}
