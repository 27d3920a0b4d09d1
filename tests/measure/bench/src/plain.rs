//! A plain walk: what one writes first. The reader goes over the bytes and keeps where the sections are; a state is a mark for each fluent that there can be, copied for each
//! reading; each step scans the request's lines as they stand, all of them, for those of its action; the plan is walked where it stands, by
//! recursion, and branches not followed are skipped byte by byte. It takes nothing from the heap.

use crate::answers::{packed, refusal, Fault};

const UNKNOWN: u8 = 0;
const TRUE: u8 = 1;
const FALSE: u8 = 2;
const BRANCHING: u8 = 255;

/// The format's limits of fluents, of actions and of entries in a list; the lent state has a byte for each fluent.
const FLUENTS: usize = 128;
const ACTIONS: u8 = 128;
const ENTRIES: u8 = 128;

type State = [u8; FLUENTS];
type Read<T> = Result<T, Fault>;

/// The walk call.
pub fn judge(s: &[u8], lent: &mut [u8], budget: u32) -> u64 {
    if lent.len() != FLUENTS {
        return packed(9, 0, 0, 0);
    }
    let request = match read(s).and_then(|request| request.settled()) {
        Ok(request) => request,
        Err(fault) => return refusal(fault),
    };
    let mut walk = Walk { request: &request, s, budget, count: 0, missed: None };
    let first = request.first_state();
    match walk.sequence(request.plan + 2, two(s, request.plan), first, None) {
        Err(Stop::Spent) => packed(3, 0, 0, budget),
        Err(Stop::Stuck(place, state)) => {
            lent.copy_from_slice(&state);
            packed(2, 1, place, walk.count)
        }
        Ok(()) => match walk.missed {
            None => packed(0, 0, 0, walk.count),
            Some((place, state)) => {
                lent.copy_from_slice(&state);
                packed(1, 1, place, walk.count)
            }
        },
    }
}

/// Where the sections stand in a request that was read.
struct Request<'a> {
    s: &'a [u8],
    facts: usize,
    effects: usize,
    executability: usize,
    knowledge: usize,
    plan: usize,
    goals: usize,
    whether: usize,
}

struct Reader<'a> {
    s: &'a [u8],
    at: usize,
    fluents: u8,
    actions: u8,
    items: usize,
}

fn read(s: &[u8]) -> Read<Request<'_>> {
    if s.len() > 16_384 {
        return Err((10, 0));
    }
    let mut reader = Reader { s, at: 0, fluents: 0, actions: 0, items: 0 };
    reader.fluents = reader.count(1, FLUENTS as u8)?;
    reader.actions = reader.count(1, ACTIONS)?;
    let facts = reader.literals(ENTRIES)?;
    let effects = reader.effects()?;
    let executability = reader.executability()?;
    let knowledge = reader.knowledge()?;
    let plan = reader.sequence(0)?;
    let goals = reader.literals(ENTRIES)?;
    let whether = reader.whether()?;
    if reader.at < s.len() {
        return Err((20, reader.at));
    }
    Ok(Request { s, facts, effects, executability, knowledge, plan, goals, whether })
}

impl Reader<'_> {
    fn byte(&mut self) -> Read<u8> {
        let byte = *self.s.get(self.at).ok_or((11, self.s.len()))?;
        self.at += 1;
        Ok(byte)
    }

    fn below(&mut self, bound: u16) -> Read<u8> {
        let place = self.at;
        match self.byte()? {
            byte if u16::from(byte) < bound => Ok(byte),
            _ => Err((13, place)),
        }
    }

    fn count(&mut self, least: u8, most: u8) -> Read<u8> {
        let place = self.at;
        match self.byte()? {
            count if least <= count && count <= most => Ok(count),
            _ => Err((12, place)),
        }
    }

    /// A list of literals; its place.
    fn literals(&mut self, most: u8) -> Read<usize> {
        let start = self.at;
        let mut before = None;
        for _ in 0..self.count(0, most)? {
            let place = self.at;
            let literal = self.below(2 * u16::from(self.fluents))?;
            if let Some(before) = before {
                if literal <= before {
                    return Err((14, place));
                }
                if literal == before ^ 1 {
                    return Err((15, place));
                }
            }
            before = Some(literal);
        }
        Ok(start)
    }

    fn effects(&mut self) -> Read<usize> {
        let start = self.at;
        for _ in 0..self.byte()? {
            self.below(self.actions.into())?;
            self.below(2 * u16::from(self.fluents))?;
            self.literals(16)?;
        }
        Ok(start)
    }

    fn executability(&mut self) -> Read<usize> {
        let start = self.at;
        for _ in 0..self.byte()? {
            self.below(self.actions.into())?;
            self.literals(16)?;
        }
        Ok(start)
    }

    fn knowledge(&mut self) -> Read<usize> {
        let start = self.at;
        for _ in 0..self.byte()? {
            self.below(self.actions.into())?;
            self.below(self.fluents.into())?;
        }
        Ok(start)
    }

    fn whether(&mut self) -> Read<usize> {
        let start = self.at;
        let mut before = None;
        for _ in 0..self.count(0, ENTRIES)? {
            let place = self.at;
            let fluent = self.below(self.fluents.into())?;
            if before.is_some_and(|before| fluent <= before) {
                return Err((14, place));
            }
            before = Some(fluent);
        }
        Ok(start)
    }

    /// A sequence inside so many branchings; its place.
    fn sequence(&mut self, nesting: usize) -> Read<usize> {
        let start = self.at;
        let count = u16::from_be_bytes([self.byte()?, self.byte()?]);
        for _ in 0..count {
            self.item(nesting)?;
        }
        Ok(start)
    }

    fn item(&mut self, nesting: usize) -> Read<()> {
        let place = self.at;
        let first = self.byte()?;
        if self.items == 1_024 {
            return Err((21, place));
        }
        self.items += 1;
        if first != BRANCHING {
            return match first < self.actions {
                true => Ok(()),
                false => Err((13, place)),
            };
        }
        if nesting == 8 {
            return Err((19, place));
        }
        for _ in 0..self.count(1, 8)? {
            self.literals(16)?;
            self.sequence(nesting + 1)?;
        }
        Ok(())
    }
}

/// A two-byte number.
fn two(s: &[u8], at: usize) -> usize {
    usize::from(u16::from_be_bytes([s[at], s[at + 1]]))
}

/// The entries of the list at a place.
fn entries(s: &[u8], at: usize) -> &[u8] {
    &s[at + 1..=at + usize::from(s[at])]
}

/// What stands behind the list at a place.
fn past(s: &[u8], at: usize) -> usize {
    at + 1 + usize::from(s[at])
}

/// What stands behind the sequence at a place.
fn past_sequence(s: &[u8], at: usize) -> usize {
    let mut p = at + 2;
    for _ in 0..two(s, at) {
        p = past_item(s, p);
    }
    p
}

fn past_item(s: &[u8], at: usize) -> usize {
    if s[at] != BRANCHING {
        return at + 1;
    }
    let mut p = at + 2;
    for _ in 0..s[at + 1] {
        p = past_sequence(s, past(s, p));
    }
    p
}

fn exclusive(one: &[u8], other: &[u8]) -> bool {
    one.iter().any(|literal| other.contains(&(literal ^ 1)))
}

/// A line of section 3 where it stands.
struct Effect<'a> {
    place: usize,
    action: u8,
    literal: u8,
    body: &'a [u8],
}

impl<'a> Request<'a> {
    /// 16, then 17, then 18.
    fn settled(self) -> Read<Self> {
        for (index, effect) in self.effect_lines().enumerate() {
            let runs_with = |earlier: &Effect| {
                let agrees = |body: &[u8]| !exclusive(body, earlier.body) && !exclusive(body, effect.body);
                self.executability_lines().any(|(action, body)| action == effect.action && agrees(body))
            };
            let contradicts = |earlier: Effect| {
                earlier.action == effect.action
                    && earlier.literal == effect.literal ^ 1
                    && !exclusive(earlier.body, effect.body)
                    && runs_with(&earlier)
            };
            if self.effect_lines().take(index).any(contradicts) {
                return Err((16, effect.place));
            }
        }
        for (place, action, _) in self.knowledge_lines() {
            if self.effect_lines().any(|effect| effect.action == action) {
                return Err((17, place));
            }
        }
        match self.overlap(self.plan).0 {
            Some(place) => Err((18, place)),
            None => Ok(self),
        }
    }

    fn effect_lines(&self) -> impl Iterator<Item = Effect<'a>> {
        let s = self.s;
        let mut p = self.effects + 1;
        (0..s[self.effects]).map(move |_| {
            let effect = Effect { place: p, action: s[p], literal: s[p + 1], body: entries(s, p + 2) };
            p = past(s, p + 2);
            effect
        })
    }

    /// The action and the body of each executability line.
    fn executability_lines(&self) -> impl Iterator<Item = (u8, &'a [u8])> {
        let s = self.s;
        let mut p = self.executability + 1;
        (0..s[self.executability]).map(move |_| {
            let line = (s[p], entries(s, p + 1));
            p = past(s, p + 1);
            line
        })
    }

    /// The place, the action and the fluent of each knowledge line.
    fn knowledge_lines(&self) -> impl Iterator<Item = (usize, u8, u8)> + 'a {
        let s = self.s;
        let first = self.knowledge + 1;
        (0..usize::from(s[self.knowledge])).map(move |line| (first + 2 * line, s[first + 2 * line], s[first + 2 * line + 1]))
    }

    /// The first branching of the sequence at a place that has two conditions which are not exclusive, and what stands behind the sequence.
    fn overlap(&self, at: usize) -> (Option<usize>, usize) {
        let s = self.s;
        let mut first = None;
        let mut p = at + 2;
        for _ in 0..two(s, at) {
            if s[p] != BRANCHING {
                p += 1;
                continue;
            }
            let place = p;
            let mut conditions: [&[u8]; 8] = [&[]; 8];
            let mut inside = None;
            let count = usize::from(s[place + 1]);
            p += 2;
            for condition in &mut conditions[..count] {
                *condition = entries(s, p);
                let (found, end) = self.overlap(past(s, p));
                inside = inside.or(found);
                p = end;
            }
            let conditions = &conditions[..count];
            let overlaps = (1..count).any(|later| conditions[..later].iter().any(|earlier| !exclusive(earlier, conditions[later])));
            first = first.or(if overlaps { Some(place) } else { inside });
        }
        (first, p)
    }

    fn first_state(&self) -> State {
        let mut state = [UNKNOWN; FLUENTS];
        for &literal in entries(self.s, self.facts) {
            state[usize::from(literal / 2)] = mark(literal);
        }
        state
    }
}

fn mark(literal: u8) -> u8 {
    match literal % 2 {
        0 => TRUE,
        _ => FALSE,
    }
}

fn known(state: &State, literal: u8) -> bool {
    state[usize::from(literal / 2)] == mark(literal)
}

fn possible(state: &State, literal: u8) -> bool {
    !known(state, literal ^ 1)
}

fn all_known(state: &State, body: &[u8]) -> bool {
    body.iter().all(|&literal| known(state, literal))
}

/// What ends the whole walk.
enum Stop {
    Spent,
    Stuck(usize, State),
}

/// What stands behind the branchings around a sequence: a place, the items left there, and what stands behind those.
struct Rest<'a> {
    at: usize,
    left: usize,
    then: Option<&'a Rest<'a>>,
}

struct Walk<'a> {
    request: &'a Request<'a>,
    s: &'a [u8],
    budget: u32,
    count: u32,
    missed: Option<(usize, State)>,
}

impl Walk<'_> {
    fn sequence(&mut self, at: usize, left: usize, state: State, rest: Option<&Rest>) -> Result<(), Stop> {
        let s = self.s;
        let (mut at, mut left, mut rest, mut state) = (at, left, rest, state);
        loop {
            if left == 0 {
                let Some(more) = rest else { return self.end(&state) };
                (at, left, rest) = (more.at, more.left, more.then);
                continue;
            }
            left -= 1;
            let action = s[at];
            if action == BRANCHING {
                let (chosen, behind) = self.branch(at, &state);
                let branch = chosen.ok_or(Stop::Stuck(at, state))?;
                let rest = Rest { at: behind, left, then: rest };
                return self.sequence(branch + 2, two(s, branch), state, Some(&rest));
            }
            if !self.request.executability_lines().any(|(line, body)| line == action && all_known(&state, body)) {
                return Err(Stop::Stuck(at, state));
            }
            self.count_one()?;
            at += 1;
            let (senses, sensed) = self.sensed(action);
            if senses {
                return self.fork(&sensed, 0, at, left, state, rest);
            }
            state = self.after(action, &state);
        }
    }

    fn count_one(&mut self) -> Result<(), Stop> {
        if self.count == self.budget {
            return Err(Stop::Spent);
        }
        self.count += 1;
        Ok(())
    }

    /// The sequence of the branch whose condition is known true, and what stands behind the branching.
    fn branch(&self, at: usize, state: &State) -> (Option<usize>, usize) {
        let s = self.s;
        let mut chosen = None;
        let mut p = at + 2;
        for _ in 0..s[at + 1] {
            let sequence = past(s, p);
            if chosen.is_none() && all_known(state, entries(s, p)) {
                chosen = Some(sequence);
            }
            p = past_sequence(s, sequence);
        }
        (chosen, p)
    }

    /// Whether an action senses, and what.
    fn sensed(&self, action: u8) -> (bool, [bool; FLUENTS]) {
        let mut sensed = [false; FLUENTS];
        let mut senses = false;
        for (_, line, fluent) in self.request.knowledge_lines() {
            if line == action {
                senses = true;
                sensed[usize::from(fluent)] = true;
            }
        }
        (senses, sensed)
    }

    /// The readings of the sensed fluents from one on, and what comes after each.
    fn fork(&mut self, sensed: &[bool; FLUENTS], from: usize, at: usize, left: usize, state: State, rest: Option<&Rest>) -> Result<(), Stop> {
        let Some(fluent) = (from..FLUENTS).find(|&fluent| sensed[fluent] && state[fluent] == UNKNOWN) else {
            return self.sequence(at, left, state, rest);
        };
        for value in [TRUE, FALSE] {
            let mut reading = state;
            reading[fluent] = value;
            self.fork(sensed, fluent + 1, at, left, reading, rest)?;
        }
        Ok(())
    }

    /// The state after an action that does not sense.
    fn after(&self, action: u8, state: &State) -> State {
        let mut next = *state;
        let mut may_be = [[false; FLUENTS]; 3];
        for effect in self.request.effect_lines() {
            if effect.action != action || !effect.body.iter().all(|&literal| possible(state, literal)) {
                continue;
            }
            let (fluent, mark) = (usize::from(effect.literal / 2), mark(effect.literal));
            may_be[usize::from(mark)][fluent] = true;
            if all_known(state, effect.body) {
                next[fluent] = mark;
            }
        }
        for (fluent, mark) in next.iter_mut().enumerate() {
            let undone = match *mark {
                TRUE => may_be[usize::from(FALSE)][fluent],
                FALSE => may_be[usize::from(TRUE)][fluent],
                _ => false,
            };
            if undone {
                *mark = UNKNOWN;
            }
        }
        next
    }

    /// An end state is judged.
    fn end(&mut self, state: &State) -> Result<(), Stop> {
        self.count_one()?;
        if self.missed.is_some() {
            return Ok(());
        }
        let s = self.s;
        let goal = entries(s, self.request.goals).iter().position(|&goal| !known(state, goal));
        let whether = || entries(s, self.request.whether).iter().position(|&fluent| state[usize::from(fluent)] == UNKNOWN);
        let missed = match goal {
            Some(index) => Some(self.request.goals + 1 + index),
            None => whether().map(|index| self.request.whether + 1 + index),
        };
        self.missed = missed.map(|place| (place, *state));
        Ok(())
    }
}
