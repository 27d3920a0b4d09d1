//! The fastest verifier that we could write in Rust: a state is two masks, a bit for each fluent, of 64 bits where these are enough and of 128
//! bits otherwise; one pass over the bytes reads the request, finds 16 to 18 and compiles each line into masks, those of one action side by
//! side, and the plan into a flat row of items that each know what follows; the walk has a stack of its own. All of it lies in a workspace of
//! fixed arrays, one for each width of the masks, that is made before the first call and used again.

use std::ops::{BitAnd, BitOr, BitOrAssign, BitXor, Not};

use crate::answers::{packed, refusal, Fault};

const BRANCHING: u8 = 255;
/// The format's limits of fluents, of actions and of entries in a list, the first two powers of two; the lent state has a byte for each fluent.
const FLUENTS: usize = 128;
const ACTIONS: usize = 128;
const ENTRIES: u8 = 128;
const LINES: usize = 256;
const ITEMS: usize = 1_024;
const BRANCHES: usize = 8 * ITEMS;
/// A reading that waits is one fluent of one sensing action, and between two looks at a fluent stands an action that makes it unknown.
const WAITING: usize = FLUENTS * ITEMS;
/// The position at the plan's end, and from this on: what follows that branching.
const END: u16 = 1_024;
const AROUND: u16 = 1_025;

/// There are 255 effects at the most, so none has this number.
const NONE: u8 = 255;

type Read<T> = Result<T, Fault>;

/// A set of fluents. More bits than there are fluents would cost time in every step.
pub trait Mask:
    Copy + Default + PartialEq + BitAnd<Output = Self> + BitOr<Output = Self> + BitXor<Output = Self> + Not<Output = Self> + BitOrAssign
{
    /// So many fluents.
    const FLUENTS: usize;
    /// One fluent, below their number.
    fn bit(fluent: u8) -> Self;
    /// All fluents, or none.
    fn every(set: bool) -> Self;
    /// The smallest fluent alone, of some.
    fn smallest(self) -> Self;
    /// How many fluents of another set are below the smallest of this.
    fn before(self, other: Self) -> usize;
    fn has(self, fluent: usize) -> bool;
    #[inline(always)]
    fn none(self) -> bool {
        self == Self::default()
    }
}

macro_rules! mask {
    ($word:ty) => {
        impl Mask for $word {
            const FLUENTS: usize = <$word>::BITS as usize;
            #[inline(always)]
            fn bit(fluent: u8) -> $word {
                1 << (usize::from(fluent) % Self::FLUENTS)
            }
            #[inline(always)]
            fn every(set: bool) -> $word {
                <$word>::from(set).wrapping_neg()
            }
            #[inline(always)]
            fn smallest(self) -> $word {
                self & self.wrapping_neg()
            }
            #[inline(always)]
            fn before(self, other: $word) -> usize {
                (other & (self.smallest() - 1)).count_ones() as usize
            }
            #[inline(always)]
            fn has(self, fluent: usize) -> bool {
                self >> fluent & 1 == 1
            }
        }
    };
}
mask!(u64);
mask!(u128);

/// The fluents known true and those known false; or a body's, or a literal's.
#[derive(Clone, Copy, Default)]
struct Masks<M> {
    yes: M,
    no: M,
}

impl<M: Mask> Masks<M> {
    #[inline(always)]
    fn known(self, body: Masks<M>) -> bool {
        ((body.yes & !self.yes) | (body.no & !self.no)).none()
    }

    #[inline(always)]
    fn possible(self, body: Masks<M>) -> bool {
        ((body.yes & self.no) | (body.no & self.yes)).none()
    }

    #[inline(always)]
    fn of(literal: u8) -> Masks<M> {
        let bit = M::bit(literal / 2);
        let no = M::every(literal % 2 == 1);
        Masks { yes: bit & !no, no: bit & no }
    }
}

#[derive(Clone, Copy, Default)]
struct Effect<M> {
    body: Masks<M>,
    literal: Masks<M>,
}

/// What is said of an action: where its lines start and end, the literals that its effects give, what it senses.
#[derive(Clone, Copy, Default)]
struct Action<M> {
    effects: (u16, u16),
    runs: (u16, u16),
    gives: Masks<M>,
    senses: M,
}

#[derive(Clone, Copy, Default)]
struct Item {
    place: u16,
    next: u16,
    /// The first branch of a branching, and how many there are; an action has none.
    first: u16,
    branches: u8,
    action: u8,
}

#[derive(Clone, Copy, Default)]
struct Branch<M> {
    condition: Masks<M>,
    start: u16,
}

/// Where to go on, with which state, and which fluents have to be read before that.
#[derive(Clone, Copy, Default)]
struct Waiting<M> {
    state: Masks<M>,
    unread: M,
    at: u16,
}

/// A workspace for each width of the masks.
pub struct Workspace {
    narrow: Box<Space<u64>>,
    wide: Box<Space<u128>>,
}

impl Workspace {
    pub fn new() -> Workspace {
        Workspace { narrow: Space::new(), wide: Space::new() }
    }
}

struct Space<M> {
    actions: [Action<M>; ACTIONS],
    /// Lines in the order of the file, with their actions, and then by action.
    effects: [Effect<M>; LINES],
    effects_by: [Effect<M>; LINES],
    runs: [Masks<M>; LINES],
    runs_by: [Masks<M>; LINES],
    of: [u8; LINES],
    /// The last effect on each fluent so far, and for each effect the one before it on that fluent; 255 is none.
    last: [u8; FLUENTS],
    before: [u8; LINES],
    items: [Item; ITEMS],
    branches: [Branch<M>; BRANCHES],
    waiting: [Waiting<M>; WAITING],
}

impl<M: Mask> Space<M> {
    fn new() -> Box<Space<M>> {
        Box::new(Space {
            actions: [Action::default(); ACTIONS],
            effects: [Effect::default(); LINES],
            effects_by: [Effect::default(); LINES],
            runs: [Masks::default(); LINES],
            runs_by: [Masks::default(); LINES],
            of: [0; LINES],
            last: [0; FLUENTS],
            before: [0; LINES],
            items: [Item::default(); ITEMS],
            branches: [Branch::default(); BRANCHES],
            waiting: [Waiting::default(); WAITING],
        })
    }
}

/// What a request has besides its compiled lines and items.
struct Request<M> {
    facts: Masks<M>,
    items: usize,
    goals: Masks<M>,
    goals_at: usize,
    whether: M,
    whether_at: usize,
}

/// The walk call.
pub fn judge(space: &mut Workspace, s: &[u8], lent: &mut [u8], budget: u32) -> u64 {
    let Ok(lent) = <&mut [u8; FLUENTS]>::try_from(lent) else { return packed(9, 0, 0, 0) };
    if s.len() > 16_384 {
        return refusal((10, 0));
    }
    // The first byte is the number of fluents.
    match s.first() {
        Some(&fluents) if usize::from(fluents) <= u64::FLUENTS => judge_by(&mut *space.narrow, s, lent, budget),
        _ => judge_by(&mut *space.wide, s, lent, budget),
    }
}

fn judge_by<M: Mask>(space: &mut Space<M>, s: &[u8], lent: &mut [u8; FLUENTS], budget: u32) -> u64 {
    let mut reader = Reader { s, at: 0, fluents: 0, actions: 0, items: 0, branches: 0, overlap: usize::MAX };
    match reader.request(space) {
        Err(fault) => refusal(fault),
        Ok(request) => walk(space, &request, lent, budget),
    }
}

struct Reader<'a> {
    s: &'a [u8],
    at: usize,
    fluents: u8,
    actions: u8,
    items: usize,
    branches: usize,
    overlap: usize,
}

impl Reader<'_> {
    #[inline(always)]
    fn byte(&mut self) -> Read<u8> {
        match self.s.get(self.at) {
            Some(&byte) => {
                self.at += 1;
                Ok(byte)
            }
            None => Err((11, self.s.len())),
        }
    }

    #[inline(always)]
    fn count(&mut self, least: u8, most: u8) -> Read<u8> {
        let count = self.byte()?;
        if count < least || count > most {
            return Err((12, self.at - 1));
        }
        Ok(count)
    }

    #[inline(always)]
    fn below(&mut self, bound: u16) -> Read<u8> {
        let byte = self.byte()?;
        if u16::from(byte) >= bound {
            return Err((13, self.at - 1));
        }
        Ok(byte)
    }

    /// A list of literals, as masks.
    #[inline(always)]
    fn literals<M: Mask>(&mut self, most: u8) -> Read<Masks<M>> {
        let count = usize::from(self.count(0, most)?);
        let start = self.at;
        let there = &self.s[start..self.s.len().min(start + count)];
        let bound = 2 * u16::from(self.fluents);
        let mut masks = [M::default(); 2];
        // An entry must be above this: the entry before, or its complement where that is the larger.
        let mut least = 0;
        for (index, &literal) in there.iter().enumerate() {
            if u16::from(literal) < least || u16::from(literal) >= bound {
                return Err(self.bad(start, index, literal));
            }
            masks[usize::from(literal % 2)] |= M::bit(literal / 2);
            least = u16::from(literal | 1) + 1;
        }
        self.at = start + there.len();
        if there.len() < count {
            return Err((11, self.s.len()));
        }
        Ok(Masks { yes: masks[0], no: masks[1] })
    }

    /// Which of 13 to 15 it is; the entry has one before it unless it is too large.
    #[cold]
    fn bad(&self, start: usize, index: usize, literal: u8) -> Fault {
        let place = start + index;
        let number = match literal {
            _ if u16::from(literal) >= 2 * u16::from(self.fluents) => 13,
            _ if literal <= self.s[place - 1] => 14,
            _ => 15,
        };
        (number, place)
    }

    fn request<M: Mask>(&mut self, space: &mut Space<M>) -> Read<Request<M>> {
        self.fluents = self.count(1, FLUENTS as u8)?;
        self.actions = self.count(1, ACTIONS as u8)?;
        space.actions[..usize::from(self.actions)].fill(Action::default());
        let facts = self.literals(ENTRIES)?;
        let effects_at = self.at;
        let clash = self.effects(space)?;
        self.executability(space)?;
        let mixed = self.knowledge(space)?;
        let end = self.sequence(space, 8, END)?;
        let goals_at = self.at;
        let goals = self.literals(ENTRIES)?;
        let whether_at = self.at;
        let whether = self.whether()?;
        if self.at < self.s.len() {
            return Err((20, self.at));
        }
        if clash != usize::MAX {
            if let Some(place) = self.contradiction(effects_at, clash, space) {
                return Err((16, place));
            }
        }
        if mixed != usize::MAX {
            return Err((17, mixed));
        }
        if self.overlap != usize::MAX {
            return Err((18, self.overlap));
        }
        Ok(Request { facts, items: end, goals, goals_at, whether, whether_at })
    }

    /// The first effect that contradicts one before it, from the first on that clashes with one. Few tables have such an effect, so the
    /// actions and places of the lines are found again.
    #[cold]
    fn contradiction<M: Mask>(&self, section: usize, clash: usize, space: &Space<M>) -> Option<usize> {
        let count = usize::from(self.s[section]);
        let mut lines = [(0, 0); LINES];
        let mut place = section + 1;
        for line in &mut lines[..count] {
            *line = (place, self.s[place]);
            place += 3 + usize::from(self.s[place + 2]);
        }
        let contradicted = |later: &usize| {
            let action = lines[*later].1;
            let effect = &space.effects[*later];
            let (start, end) = space.actions[usize::from(action)].runs;
            let runs = &space.runs_by[usize::from(start)..usize::from(end)];
            let mut earlier = space.before[*later];
            while earlier != NONE {
                let other = &space.effects[usize::from(earlier)];
                if lines[usize::from(earlier)].1 == action
                    && !other.literal.possible(effect.literal)
                    && other.body.possible(effect.body)
                    && runs.iter().any(|run| run.possible(effect.body) && run.possible(other.body))
                {
                    return true;
                }
                earlier = space.before[usize::from(earlier)];
            }
            false
        };
        (clash..count).find(contradicted).map(|later| lines[later].0)
    }

    /// Section 3; the first effect that clashes with one before it, wherever its action can be run.
    fn effects<M: Mask>(&mut self, space: &mut Space<M>) -> Read<usize> {
        let count = usize::from(self.byte()?);
        let mut clash = usize::MAX;
        space.last.fill(NONE);
        for line in 0..count {
            let action = self.below(self.actions.into())?;
            let byte = self.below(2 * u16::from(self.fluents))?;
            let literal = Masks::of(byte);
            let body = self.literals(16)?;
            let said = &mut space.actions[usize::from(action) % ACTIONS];
            said.effects.1 += 1;
            let last = &mut space.last[usize::from(byte / 2) % FLUENTS];
            // Only where the action gives the complement too, pairs are looked at.
            if !said.gives.possible(literal) && clash == usize::MAX {
                let mut earlier = *last;
                while earlier != NONE {
                    let other = &space.effects[usize::from(earlier)];
                    if space.of[usize::from(earlier)] == action && !other.literal.possible(literal) && other.body.possible(body) {
                        clash = line;
                        break;
                    }
                    earlier = space.before[usize::from(earlier)];
                }
            }
            space.before[line % LINES] = *last;
            *last = line as u8;
            said.gives.yes |= literal.yes;
            said.gives.no |= literal.no;
            space.effects[line % LINES] = Effect { body, literal };
            space.of[line % LINES] = action;
        }
        let mut start = 0;
        for said in &mut space.actions[..usize::from(self.actions)] {
            let lines = said.effects.1;
            said.effects = (start, start);
            start += lines;
        }
        for line in 0..count {
            let slot = &mut space.actions[usize::from(space.of[line % LINES]) % ACTIONS].effects.1;
            space.effects_by[usize::from(*slot) % LINES] = space.effects[line % LINES];
            *slot += 1;
        }
        Ok(clash)
    }

    /// Section 4.
    fn executability<M: Mask>(&mut self, space: &mut Space<M>) -> Read<()> {
        let count = usize::from(self.byte()?);
        for line in 0..count {
            let action = self.below(self.actions.into())?;
            space.runs[line % LINES] = self.literals(16)?;
            space.of[line % LINES] = action;
            space.actions[usize::from(action) % ACTIONS].runs.1 += 1;
        }
        let mut start = 0;
        for said in &mut space.actions[..usize::from(self.actions)] {
            let lines = said.runs.1;
            said.runs = (start, start);
            start += lines;
        }
        for line in 0..count {
            let slot = &mut space.actions[usize::from(space.of[line % LINES]) % ACTIONS].runs.1;
            space.runs_by[usize::from(*slot) % LINES] = space.runs[line % LINES];
            *slot += 1;
        }
        Ok(())
    }

    /// Section 5; the first line whose action has effects.
    fn knowledge<M: Mask>(&mut self, space: &mut Space<M>) -> Read<usize> {
        let mut mixed = usize::MAX;
        for _ in 0..self.byte()? {
            let place = self.at;
            let action = self.below(self.actions.into())?;
            let fluent = self.below(self.fluents.into())?;
            let said = &mut space.actions[usize::from(action) % ACTIONS];
            if !(said.gives.yes | said.gives.no).none() && mixed == usize::MAX {
                mixed = place;
            }
            said.senses |= M::bit(fluent);
        }
        Ok(mixed)
    }

    /// Section 8.
    fn whether<M: Mask>(&mut self) -> Read<M> {
        let mut mask = M::default();
        let mut least = 0;
        for _ in 0..self.count(0, ENTRIES)? {
            let fluent = self.below(self.fluents.into())?;
            if fluent < least {
                return Err((14, self.at - 1));
            }
            mask |= M::bit(fluent);
            least = fluent + 1;
        }
        Ok(mask)
    }

    /// A sequence in which so many branchings may stand one inside another, and what follows its last item; the items met up to its end.
    fn sequence<M: Mask>(&mut self, space: &mut Space<M>, deep: usize, up: u16) -> Read<usize> {
        let mut left = u16::from_be_bytes([self.byte()?, self.byte()?]);
        while left > 0 {
            left -= 1;
            let place = self.at;
            let byte = self.byte()?;
            let item = self.items;
            if item == ITEMS {
                return Err((21, place));
            }
            self.items += 1;
            if byte == BRANCHING {
                if deep == 0 {
                    return Err((19, place));
                }
                self.branching(space, deep - 1, item, place)?;
            } else {
                if byte >= self.actions {
                    return Err((13, place));
                }
                space.items[item] = Item { place: place as u16, action: byte, branches: 0, first: 0, next: 0 };
            }
            space.items[item].next = if left > 0 { self.items as u16 } else { up };
        }
        Ok(self.items)
    }

    fn branching<M: Mask>(&mut self, space: &mut Space<M>, deep: usize, item: usize, place: usize) -> Read<()> {
        let count = usize::from(self.count(1, 8)?);
        let first = self.branches;
        self.branches += count;
        let around = AROUND + item as u16;
        space.items[item] = Item { place: place as u16, action: BRANCHING, branches: count as u8, first: first as u16, next: 0 };
        for branch in first..first + count {
            let condition = self.literals(16)?;
            let before = self.items;
            // Some branch before has a condition that does not exclude this one.
            if space.branches[first..branch].iter().any(|other| other.condition.possible(condition)) {
                self.overlap = self.overlap.min(place);
            }
            // The slots of the branches stay free while what is inside is read.
            space.branches[branch].condition = condition;
            let end = self.sequence(space, deep, around)?;
            space.branches[branch].start = if end == before { around } else { before as u16 };
        }
        Ok(())
    }
}

/// The item at which the walk goes on.
#[inline(always)]
fn settled(items: &[Item; ITEMS], at: u16) -> u16 {
    let mut at = at;
    while at > END {
        at = items[usize::from(at - AROUND) % ITEMS].next;
    }
    at
}

fn walk<M: Mask>(space: &mut Space<M>, request: &Request<M>, lent: &mut [u8; FLUENTS], budget: u32) -> u64 {
    let Space { actions, effects_by, runs_by, items, branches, waiting, .. } = space;
    let mut left = budget;
    let mut missed: Option<(usize, Masks<M>)> = None;
    let mut state = request.facts;
    let mut at = if request.items == 0 { END } else { 0 };
    let mut waits = 0;
    loop {
        while at < END {
            let item = &items[usize::from(at) % ITEMS];
            if item.branches > 0 {
                let first = usize::from(item.first);
                let known = |branch: &&Branch<M>| state.known(branch.condition);
                match branches[first..first + usize::from(item.branches)].iter().find(known) {
                    Some(branch) => at = settled(items, branch.start),
                    None => return stuck(lent, item, state, budget - left),
                }
                continue;
            }
            let action = &actions[usize::from(item.action) % ACTIONS];
            let runs = &runs_by[usize::from(action.runs.0)..usize::from(action.runs.1)];
            if !runs.iter().any(|&body| state.known(body)) {
                return stuck(lent, item, state, budget - left);
            }
            if left == 0 {
                return packed(3, 0, 0, budget);
            }
            left -= 1;
            at = settled(items, item.next);
            if action.senses.none() {
                state = after(&effects_by[usize::from(action.effects.0)..usize::from(action.effects.1)], state);
                continue;
            }
            state = fork(waiting, &mut waits, action.senses & !(state.yes | state.no), state, at);
        }
        if left == 0 {
            return packed(3, 0, 0, budget);
        }
        left -= 1;
        if missed.is_none() {
            missed = first_missed(request, state).map(|place| (place, state));
        }
        if waits == 0 {
            break;
        }
        waits -= 1;
        let turn = waiting[waits];
        at = turn.at;
        state = fork(waiting, &mut waits, turn.unread, turn.state, at);
    }
    match missed {
        None => packed(0, 0, 0, budget - left),
        Some((place, state)) => {
            write(lent, state);
            packed(1, 1, place, budget - left)
        }
    }
}

/// The first reading of the fluents, ascending; the others wait.
#[inline(always)]
fn fork<M: Mask>(waiting: &mut [Waiting<M>; WAITING], waits: &mut usize, unread: M, state: Masks<M>, at: u16) -> Masks<M> {
    let mut state = state;
    let mut unread = unread;
    while !unread.none() {
        let bit = unread.smallest();
        unread = unread ^ bit;
        waiting[*waits] = Waiting { state: Masks { yes: state.yes, no: state.no | bit }, unread, at };
        *waits += 1;
        state.yes |= bit;
    }
    state
}

#[inline(always)]
fn after<M: Mask>(effects: &[Effect<M>], state: Masks<M>) -> Masks<M> {
    let mut told = state;
    let mut may: Masks<M> = Masks::default();
    for effect in effects {
        // All bits where the body is possible, or known true; none otherwise.
        let possible = M::every(state.possible(effect.body));
        let known = M::every(state.known(effect.body));
        may.yes |= effect.literal.yes & possible;
        may.no |= effect.literal.no & possible;
        told.yes |= effect.literal.yes & known;
        told.no |= effect.literal.no & known;
    }
    Masks { yes: told.yes & !may.no, no: told.no & !may.yes }
}

/// The first goal or whether entry that is missed; entries ascend, so those below it are all before it.
#[inline(always)]
fn first_missed<M: Mask>(request: &Request<M>, state: Masks<M>) -> Option<usize> {
    let missed = (request.goals.yes & !state.yes) | (request.goals.no & !state.no);
    if !missed.none() {
        return Some(request.goals_at + 1 + missed.before(request.goals.yes | request.goals.no));
    }
    let unknown = request.whether & !(state.yes | state.no);
    match unknown.none() {
        true => None,
        false => Some(request.whether_at + 1 + unknown.before(request.whether)),
    }
}

#[cold]
fn stuck<M: Mask>(lent: &mut [u8; FLUENTS], item: &Item, state: Masks<M>, count: u32) -> u64 {
    write(lent, state);
    packed(2, 1, usize::from(item.place), count)
}

fn write<M: Mask>(lent: &mut [u8; FLUENTS], state: Masks<M>) {
    let (told, rest) = lent.split_at_mut(M::FLUENTS);
    for (fluent, byte) in told.iter_mut().enumerate() {
        *byte = u8::from(state.yes.has(fluent)) + 2 * u8::from(state.no.has(fluent));
    }
    rest.fill(0);
}
