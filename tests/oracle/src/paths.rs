//! A second walk of another shape, as an inner check of the first.
//!
//! A list of paths is carried through the plan item by item, each path with the events on it
//! and its state as a line of marks. An item turns each path into its successors, in their
//! order, so that the list stays in the order of a depth-first walk. Answer, place, count, state
//! and line are then read off the finished list.

use crate::answer::narrow_count;
use crate::model::{is_positive, Branch, Guarded, Item, Request};
use crate::Answer;

pub(crate) const UNKNOWN: u8 = b'?';
pub(crate) const TRUE: u8 = b'+';
pub(crate) const FALSE: u8 = b'-';

/// One mark for each fluent.
pub(crate) type Marks = Vec<u8>;

/// Most events that are noted before the second walk gives up.
const EVENTS: usize = 1_000_000;

/// Most fillings that are tried before it gives up.
const FILLINGS: usize = 100_000;
/// Most open fluents of an action.
const OPEN: usize = 12;

/// The last event of a path: an action run or a reading, and the event before it. Paths share
/// the events of their common start.
#[derive(Clone, Copy, Debug)]
struct Event {
    ran: bool,
    before: usize,
    depth: usize,
}

#[derive(Clone, Debug)]
struct Path {
    event: usize,
    marks: Marks,
    /// What stops it, if anything does.
    stop: Option<Stop>,
}

#[derive(Clone, Copy, Debug)]
enum Stop {
    /// The item that can't be run, and the line that it lacks least of.
    Stuck(usize, usize),
    /// The place of the first guard that the path's state lacks.
    Broken(usize),
    /// The action that has too many open fluents.
    TooMany(usize),
}

/// What the list of paths tells: the answer of the judging call, the marks of answers 1, 2 and 43,
/// and the line.
#[derive(Clone, Debug)]
pub struct Told {
    pub answer: Answer,
    pub marks: Option<Marks>,
    pub line: usize,
}

impl Told {
    fn plain(answer: Answer) -> Told {
        Told {
            answer,
            marks: None,
            line: 0,
        }
    }
}

/// The answer of the judging call for a settled request, or nothing where it can't be told from
/// the first `most` paths.
///
/// Every path but one that is stopped counts at least one, so no more paths than the budget and
/// one are ever needed.
pub fn answer(request: &Request, budget: u32, most: usize) -> Option<Told> {
    answer_with(request, &[], false, budget, most)
}

/// The same of the call by cases. It fills the open fluents of each action and no others.
pub fn answer_by_cases(request: &Request, budget: u32, most: usize) -> Option<Told> {
    answer_with(request, &[], true, budget, most)
}

/// The same of the guarded call, for a settled guarded request.
pub fn answer_guarded(guarded: &Guarded, budget: u32, most: usize) -> Option<Told> {
    let guards = (guarded.guards_place + 1..).zip(guarded.guards.iter().copied());
    let guards: Vec<(usize, u8)> = guards.collect();
    answer_with(&guarded.request, &guards, false, budget, most)
}

fn answer_with(
    request: &Request,
    guards: &[(usize, u8)],
    by_cases: bool,
    budget: u32,
    most: usize,
) -> Option<Told> {
    let most = most.min(usize::try_from(budget).unwrap_or(most).saturating_add(1));
    let root = Event {
        ran: false,
        before: 0,
        depth: 0,
    };
    let mut list = List {
        request,
        guards,
        by_cases,
        more_fillings: 0,
        most,
        events: vec![root],
        cut: false,
    };
    let first = list.guarded(Path {
        event: 0,
        marks: first_marks(request),
        stop: None,
    });
    let paths = list.through(&request.plan, vec![first]);
    if list.is_long() {
        return None;
    }
    let end = paths.iter().position(|path| path.stop.is_some());
    let walked = match end {
        Some(index) => &paths[..=index],
        None => &paths[..],
    };
    let count = list.count(walked);
    if count > u64::from(budget) {
        return Some(Told::plain(Answer::neither(3, budget)));
    }
    if end.is_none() && list.cut {
        return None;
    }
    Some(conclude(request, walked, count))
}

/// The first state holds the initial facts and nothing else.
pub(crate) fn first_marks(request: &Request) -> Marks {
    let mut marks = vec![UNKNOWN; usize::from(request.fluents)];
    for &fact in &request.facts {
        marks[usize::from(fact / 2)] = wanted(fact);
    }
    marks
}

/// Answers 0, 1, 2, 43 and 44 from the paths walked.
fn conclude(request: &Request, walked: &[Path], count: u64) -> Told {
    if let Some(Path {
        stop: Some(stop),
        marks,
        ..
    }) = walked.last()
    {
        let (number, place, line) = match *stop {
            Stop::Stuck(place, line) => (2, place, line),
            Stop::Broken(place) => (43, place, 0),
            Stop::TooMany(place) => return Told::plain(Answer::of_walk(44, place, 0)),
        };
        return Told {
            answer: Answer::of_walk(number, place, count),
            marks: Some(marks.clone()),
            line,
        };
    }
    let missed = walked.iter().find_map(|path| {
        misses(request, &path.marks)
            .first()
            .map(|&place| (place, path))
    });
    match missed {
        Some((place, path)) => Told {
            answer: Answer::of_walk(1, place, count),
            marks: Some(path.marks.clone()),
            line: 0,
        },
        None => Told::plain(Answer::neither(0, narrow_count(count))),
    }
}

/// The places of all entries missed in an end state.
fn misses(request: &Request, marks: &Marks) -> Vec<usize> {
    let goals = (request.goals_place + 1..).zip(&request.goals);
    let whether = (request.whether_place + 1..).zip(&request.whether);
    goals
        .filter(|(_, &goal)| !is_known(marks, goal))
        .map(|(place, _)| place)
        .chain(
            whether
                .filter(|(_, &fluent)| marks[usize::from(fluent)] == UNKNOWN)
                .map(|(place, _)| place),
        )
        .collect()
}

struct List<'a> {
    request: &'a Request,
    /// The guards with their places.
    guards: &'a [(usize, u8)],
    by_cases: bool,
    /// How many fillings were tried beyond the first of each action met.
    more_fillings: usize,
    most: usize,
    events: Vec<Event>,
    /// Whether paths were left out.
    cut: bool,
}

impl List<'_> {
    /// One for each action run and one for each end state judged: on each path the actions
    /// that it doesn't share with the path before it, and its end.
    fn count(&self, walked: &[Path]) -> u64 {
        let mut count = 0;
        let mut before = 0;
        for path in walked {
            count += self.own_runs(path.event, before);
            count += u64::from(path.stop.is_none());
            before = path.event;
        }
        count
    }

    /// The actions run up to one event and not up to another.
    fn own_runs(&self, mut event: usize, mut other: usize) -> u64 {
        let mut runs = 0;
        while event != other {
            if self.events[event].depth >= self.events[other].depth {
                runs += u64::from(self.events[event].ran);
                event = self.events[event].before;
            } else {
                other = self.events[other].before;
            }
        }
        runs
    }

    /// So much was noted or tried that it gives up.
    fn is_long(&self) -> bool {
        self.events.len() > EVENTS || self.more_fillings > FILLINGS
    }

    /// Notes an event after another one.
    fn note(&mut self, ran: bool, before: usize) -> usize {
        let depth = self.events[before].depth + 1;
        self.events.push(Event { ran, before, depth });
        self.events.len() - 1
    }

    /// Carries the paths through a sequence. Since each path has a successor, the first `most`
    /// paths of the end come from the first `most` of each step, and no others are kept.
    fn through(&mut self, sequence: &[Item], paths: Vec<Path>) -> Vec<Path> {
        sequence.iter().fold(paths, |paths, item| {
            let mut after = Vec::with_capacity(paths.len());
            for path in paths {
                if after.len() > self.most || self.is_long() {
                    break;
                }
                after.extend(self.successors(item, path));
            }
            if after.len() > self.most {
                after.truncate(self.most);
                self.cut = true;
            }
            after
        })
    }

    fn successors(&mut self, item: &Item, path: Path) -> Vec<Path> {
        if path.stop.is_some() {
            return vec![path];
        }
        match item {
            Item::Action { place, action } => {
                let after = self.run(*place, *action, path);
                after.into_iter().map(|path| self.guarded(path)).collect()
            }
            Item::Branching { place, branches } => self.choose(*place, branches, path),
        }
    }

    /// A path that goes on is stopped where its state lacks a guard.
    fn guarded(&self, mut path: Path) -> Path {
        let mut lacking = self
            .guards
            .iter()
            .filter(|(_, guard)| !is_known(&path.marks, *guard));
        if path.stop.is_none() {
            path.stop = lacking.next().map(|&(place, _)| Stop::Broken(place));
        }
        path
    }

    fn run(&mut self, place: usize, action: u8, mut path: Path) -> Vec<Path> {
        // By what is known the marks themselves are the one filling.
        let open = match self.by_cases {
            true => self.open(action, &path.marks),
            false => Vec::new(),
        };
        if open.len() > OPEN {
            path.stop = Some(Stop::TooMany(place));
            return vec![path];
        }
        let fillings = fillings(&path.marks, &open);
        self.more_fillings += fillings.len() - 1;
        let allowed = |marks: &Marks| matches!(self.ask(action, marks), Some((0, _)));
        if !fillings.iter().all(allowed) {
            let line = self.ask(action, &path.marks).map_or(0, |(_, line)| line);
            return stop(place, line, path);
        }
        path.event = self.note(true, path.event);
        let sensed = sensed(self.request, action);
        if sensed.is_empty() {
            path.marks = match self.by_cases {
                true => self.shared(action, &fillings),
                false => after(self.request, action, &path.marks),
            };
            return vec![path];
        }
        self.sense(&sensed, path)
    }

    /// The fluents of an action's bodies that are unknown, ascending, each once.
    fn open(&self, action: u8, marks: &Marks) -> Vec<u8> {
        let effects = self.request.effects.iter();
        let effects = effects.filter(|line| line.action == action);
        let allowances = self.request.allowances.iter();
        let allowances = allowances.filter(|line| line.action == action);
        let bodies = effects.map(|line| &line.body);
        let literals = bodies.chain(allowances.map(|line| &line.body)).flatten();
        let fluents = literals.map(|literal| literal / 2);
        let unknown = fluents.filter(|&fluent| marks[usize::from(fluent)] == UNKNOWN);
        let mut open: Vec<u8> = unknown.collect();
        open.sort_unstable();
        open.dedup();
        open
    }

    /// The marks that the results of an action in all fillings share. In each filling every body is
    /// known true or known false.
    fn shared(&self, action: u8, fillings: &[Marks]) -> Marks {
        let lines = self.request.effects.iter();
        let lines: Vec<_> = lines.filter(|line| line.action == action).collect();
        let result = |filling: &Marks| {
            let mut marks = filling.clone();
            for line in &lines {
                if line.body.iter().all(|&entry| is_known(filling, entry)) {
                    marks[usize::from(line.literal / 2)] = wanted(line.literal);
                }
            }
            marks
        };
        let mut shared = result(&fillings[0]);
        for filling in &fillings[1..] {
            for (mark, other) in shared.iter_mut().zip(result(filling)) {
                if *mark != other {
                    *mark = UNKNOWN;
                }
            }
        }
        shared
    }

    /// The best of an action's executability lines, if it has any: how many literals of its body
    /// aren't known true, none where it allows the action, and its place. Where two lack as many,
    /// the one with the smaller place is better.
    fn ask(&self, action: u8, marks: &Marks) -> Option<(usize, usize)> {
        let mut best = None;
        for (place, line) in self.request.placed_allowances() {
            let unknown = line.body.iter().filter(|&&entry| !is_known(marks, entry));
            let this = (unknown.count(), place);
            if line.action == action && best.is_none_or(|best| this < best) {
                best = Some(this);
            }
        }
        best
    }

    /// Forks each unknown fluent, true before false; known ones stay.
    fn sense(&mut self, fluents: &[u8], path: Path) -> Vec<Path> {
        let mut paths = vec![path];
        for &fluent in fluents {
            let known = paths[0].marks[usize::from(fluent)] != UNKNOWN;
            if known {
                continue;
            }
            paths = paths
                .iter()
                .flat_map(|path| [(path, TRUE), (path, FALSE)])
                .take(self.most.saturating_add(1))
                .map(|(path, mark)| self.see(path, fluent, mark))
                .collect();
        }
        paths
    }

    fn see(&mut self, path: &Path, fluent: u8, mark: u8) -> Path {
        let mut seen = path.clone();
        seen.event = self.note(false, path.event);
        seen.marks[usize::from(fluent)] = mark;
        seen
    }

    /// Follows the branch whose condition is known true, and stops the path where none is.
    fn choose(&mut self, place: usize, branches: &[Branch], path: Path) -> Vec<Path> {
        let chosen = branches.iter().find(|branch| {
            branch
                .condition
                .iter()
                .all(|&entry| is_known(&path.marks, entry))
        });
        match chosen {
            Some(branch) => self.through(&branch.sequence, vec![path]),
            None => stop(place, 0, path),
        }
    }
}

/// The fluents of an action's knowledge lines, ascending, each once.
pub(crate) fn sensed(request: &Request, action: u8) -> Vec<u8> {
    let lines = request
        .knowledge
        .iter()
        .filter(|line| line.action == action);
    let mut fluents: Vec<u8> = lines.map(|line| line.fluent).collect();
    fluents.sort_unstable();
    fluents.dedup();
    fluents
}

/// The marks after an action without knowledge lines, fluent by fluent.
pub(crate) fn after(request: &Request, action: u8, marks: &Marks) -> Marks {
    let lines: Vec<_> = request
        .effects
        .iter()
        .filter(|line| line.action == action)
        .collect();
    let made = |literal: u8, test: fn(&Marks, u8) -> bool| {
        lines.iter().any(|line| {
            line.literal == literal && line.body.iter().all(|&entry| test(marks, entry))
        })
    };
    (0..request.fluents)
        .map(|fluent| {
            let mark = marks[usize::from(fluent)];
            let (positive, negative) = (2 * fluent, 2 * fluent + 1);
            if (mark == TRUE || made(positive, is_known)) && !made(negative, is_possible) {
                TRUE
            } else if (mark == FALSE || made(negative, is_known)) && !made(positive, is_possible) {
                FALSE
            } else {
                UNKNOWN
            }
        })
        .collect()
}

fn stop(place: usize, line: usize, mut path: Path) -> Vec<Path> {
    path.stop = Some(Stop::Stuck(place, line));
    vec![path]
}

/// The marks with each choice of values for these fluents.
fn fillings(marks: &Marks, fluents: &[u8]) -> Vec<Marks> {
    let choices = 0..1u32 << fluents.len();
    let filling = |choice: u32| {
        let mut filling = marks.clone();
        for (index, &fluent) in fluents.iter().enumerate() {
            let mark = if choice >> index & 1 == 1 {
                TRUE
            } else {
                FALSE
            };
            filling[usize::from(fluent)] = mark;
        }
        filling
    };
    choices.map(filling).collect()
}

/// The mark that makes a literal true.
fn wanted(literal: u8) -> u8 {
    if is_positive(literal) {
        TRUE
    } else {
        FALSE
    }
}

pub(crate) fn is_known(marks: &Marks, literal: u8) -> bool {
    marks[usize::from(literal / 2)] == wanted(literal)
}

/// A literal is possible unless it is known false.
fn is_possible(marks: &Marks, literal: u8) -> bool {
    marks[usize::from(literal / 2)] != wanted(literal ^ 1)
}
