//! Random requests that can be read and settled.
//!
//! A plan grows along the partial states that it may lead to, so that many plans can be run to
//! their ends and many goals are reached; now and then a choice is made carelessly.

use std::collections::BTreeMap;

use crate::model::{exclusive, Allowance, Branch, Effect, Item, Knowledge, Request};
use crate::reader::{ACTION_LIMIT, BRANCH_LIMIT, FLUENT_LIMIT, ITEM_LIMIT, NESTING_LIMIT};
use crate::rng::Rng;
use crate::settle::{clashing, contradictory};
use crate::table::{bit, readings, Known, Mask, Table};
use crate::translation::{translated, Translation};

/// Most states that a plan is grown along.
const STATES: usize = 12;

/// Bounds, both included, for the parts of a request.
#[derive(Clone, Copy, Debug)]
pub struct Shape {
    pub fluents: (u8, u8),
    pub actions: (u8, u8),
    /// So many fluents of a hundred are known at the start: one of these numbers.
    pub known: [u64; 3],
    /// Items of the plan itself, not counting nested ones.
    pub steps: (usize, usize),
    /// Items in all.
    pub items: usize,
    /// Most effect lines of an action.
    pub effects: usize,
    /// So many choices of a hundred are made carelessly.
    pub careless: u64,
    pub whether: bool,
    /// So many drafts of a hundred are spread.
    pub spread: u64,
}

pub const TINY: Shape = Shape {
    fluents: (1, 4),
    actions: (1, 4),
    known: [20, 50, 80],
    steps: (0, 4),
    items: 16,
    effects: 3,
    careless: 11,
    whether: true,
    spread: 15,
};

pub const SMALL: Shape = Shape {
    fluents: (2, 7),
    actions: (2, 6),
    steps: (1, 7),
    items: 40,
    effects: 4,
    ..TINY
};

pub const MIDDLE: Shape = Shape {
    fluents: (5, 10),
    actions: (3, 10),
    steps: (3, 14),
    items: 120,
    careless: 5,
    ..SMALL
};

pub const LARGE: Shape = Shape {
    fluents: (11, 64),
    actions: (8, 64),
    steps: (10, 80),
    items: ITEM_LIMIT,
    effects: 6,
    careless: 1,
    spread: 0,
    ..TINY
};

/// More than half as many fluents and actions as there can be.
pub const WIDE: Shape = Shape {
    fluents: (FLUENT_LIMIT as u8 / 2 + 1, FLUENT_LIMIT as u8),
    actions: (ACTION_LIMIT as u8 / 2 + 1, ACTION_LIMIT as u8),
    ..LARGE
};

/// As many fluents and actions as there can be, or one less, all fluents known at the start, and a
/// short plan.
pub const FULL: Shape = Shape {
    fluents: (FLUENT_LIMIT as u8 - 1, FLUENT_LIMIT as u8),
    actions: (ACTION_LIMIT as u8 - 1, ACTION_LIMIT as u8),
    known: [100; 3],
    steps: (0, 8),
    items: 40,
    effects: 2,
    ..LARGE
};

/// A request of any size, small ones by far the most.
pub fn any_request(rng: &mut Rng) -> Request {
    match rng.below(1_000) {
        0..=399 => drawn(rng, &TINY),
        400..=839 => drawn(rng, &SMALL),
        840..=969 => drawn(rng, &MIDDLE),
        970..=973 => request(rng, &LARGE),
        974..=976 => request(rng, &WIDE),
        977..=979 => full(rng),
        980..=989 => nested(rng),
        990..=993 => forgetful(rng, 4, 4),
        994..=996 => forgetful(rng, FLUENT_LIMIT as u8 - 1, ITEM_LIMIT / 2),
        _ => long_plan(rng, ITEM_LIMIT),
    }
}

/// A request of a shape.
pub fn request(rng: &mut Rng, shape: &Shape) -> Request {
    let table = table(rng, shape);
    asked(rng, table, shape)
}

/// A plan of a shape with its goals and whether entries, over the table of a request.
pub fn asked(rng: &mut Rng, table: Request, shape: &Shape) -> Request {
    let mut request = Request {
        plan: Vec::new(),
        goals: Vec::new(),
        whether: Vec::new(),
        ..table
    };
    let steps = rng.range(shape.steps.0, shape.steps.1);
    let (plan, ends) = Grower::new(rng, &request, shape).plan(steps);
    request.plan = plan;
    request.goals = goals(rng, &request, &ends, shape.careless);
    if shape.whether && rng.chance(40) {
        request.whether = whether(rng, &request, &ends, shape.careless);
    }
    request
}

/// A request of a shape, spread now and then.
pub fn drawn(rng: &mut Rng, shape: &Shape) -> Request {
    let request = request(rng, shape);
    match rng.chance(shape.spread) {
        true => spread(rng, &request),
        false => request,
    }
}

/// A request with lists as long as there are fluents: what is known at all ends are its goals, and
/// whether entries.
fn full(rng: &mut Rng) -> Request {
    let mut request = table(rng, &FULL);
    let steps = rng.range(FULL.steps.0, FULL.steps.1);
    let (plan, ends) = Grower::new(rng, &request, &FULL).plan(steps);
    request.plan = plan;
    request.goals = common(&ends).literals();
    request.whether = known_at(&request, &ends);
    request
}

/// Sections 1 to 5.
fn table(rng: &mut Rng, shape: &Shape) -> Request {
    let mut request = Request {
        fluents: rng.byte(shape.fluents.0, shape.fluents.1),
        actions: rng.byte(shape.actions.0, shape.actions.1),
        ..Request::default()
    };
    let percent = *rng.pick(&shape.known);
    for fluent in 0..request.fluents {
        if rng.chance(percent) {
            request.facts.push(2 * fluent + rng.byte(0, 1));
        }
    }
    for action in 0..request.actions {
        lines_of(rng, &mut request, action, shape);
    }
    repeat_lines(rng, &mut request);
    rng.shuffle(&mut request.effects);
    rng.shuffle(&mut request.allowances);
    rng.shuffle(&mut request.knowledge);
    request.effects.truncate(255);
    request.allowances.truncate(255);
    request.knowledge.truncate(255);
    request
}

/// An action that senses, one with effects, one that does nothing, or one without any line. Now
/// and then one with effects has no executability line.
fn lines_of(rng: &mut Rng, request: &mut Request, action: u8, shape: &Shape) {
    let kind = rng.below(100);
    if kind > 93 {
        return;
    }
    if !(34..=37).contains(&kind) {
        for _ in 0..*rng.pick(&[1, 1, 1, 2, 3]) {
            let body = allowing_body(rng, request);
            request.allowances.push(Allowance { action, body });
        }
    }
    match kind {
        0..=33 => {
            let most = if rng.chance(8) { 6 } else { 2 };
            for _ in 0..rng.range(1, most) {
                let fluent = rng.byte(0, request.fluents - 1);
                request.knowledge.push(Knowledge {
                    place: 0,
                    action,
                    fluent,
                });
            }
        }
        34..=87 => {
            for _ in 0..rng.range(1, shape.effects) {
                add_effect(rng, request, action);
            }
            if rng.chance(40) {
                add_clash(rng, request, action);
            }
        }
        _ => {}
    }
}

/// Adds an effect that clashes with one that is there, but only where the action can't be run:
/// each executability line has the complement of a literal of one of the two bodies.
fn add_clash(rng: &mut Rng, request: &mut Request, action: u8) {
    let there: Vec<&Effect> = request
        .effects
        .iter()
        .filter(|effect| effect.action == action)
        .collect();
    if there.is_empty() {
        return;
    }
    let one = (*rng.pick(&there)).clone();
    let mut other = Effect {
        literal: one.literal ^ 1,
        body: Vec::new(),
        ..one.clone()
    };
    for line in &request.allowances {
        let apart = exclusive(&line.body, &one.body) || exclusive(&line.body, &other.body);
        if line.action == action && !apart && !line.body.is_empty() {
            let against = *rng.pick(&line.body) ^ 1;
            if !other.body.contains(&(against ^ 1)) {
                other.body.push(against);
                other.body.sort_unstable();
            }
        }
    }
    let harmless = request
        .effects
        .iter()
        .all(|effect| !contradictory(&request.allowances, effect, &other));
    if harmless && clashing(&one, &other) {
        request.effects.push(other);
    }
}

/// Gives an action of the plan other executability lines, two to five, whose bodies are long
/// enough that often none is known true and a later one lacks the fewest literals. A line under
/// which two effects would be contradictory is left out.
pub(crate) fn starve(rng: &mut Rng, request: &mut Request) {
    let actions = request.plan.iter().filter_map(|item| match item {
        Item::Action { action, .. } => Some(*action),
        Item::Branching { .. } => None,
    });
    let actions: Vec<u8> = actions.collect();
    if actions.is_empty() {
        return;
    }
    let action = *rng.pick(&actions);
    request.allowances.retain(|line| line.action != action);
    for _ in 0..rng.range(2, 5) {
        let length = rng.range(1, 5);
        let body = body(rng, request.fluents, length);
        request.allowances.push(Allowance { action, body });
        let effects = &request.effects;
        let meets = |one: &Effect, other: &Effect| contradictory(&request.allowances, one, other);
        if effects
            .iter()
            .any(|one| effects.iter().any(|other| meets(one, other)))
        {
            request.allowances.pop();
        }
    }
    rng.shuffle(&mut request.allowances);
    request.allowances.truncate(255);
}

/// Adds an effect unless it contradicts one that is there.
fn add_effect(rng: &mut Rng, request: &mut Request, action: u8) {
    let literal = rng.byte(0, 2 * (request.fluents - 1) + 1);
    let length = *rng.pick(&[0, 0, 1, 1, 1, 2, 3]);
    let effect = Effect {
        place: 0,
        action,
        literal,
        body: body(rng, request.fluents, length),
    };
    if request
        .effects
        .iter()
        .all(|other| !contradictory(&request.allowances, &effect, other))
    {
        request.effects.push(effect);
    }
}

/// A body that is often known true at the start.
fn allowing_body(rng: &mut Rng, request: &Request) -> Vec<u8> {
    match rng.below(100) {
        0..=49 => Vec::new(),
        50..=84 if !request.facts.is_empty() => vec![*rng.pick(&request.facts)],
        _ => {
            let length = rng.range(1, 2);
            body(rng, request.fluents, length)
        }
    }
}

/// A body of so many literals, or fewer where there are fewer fluents.
pub fn body(rng: &mut Rng, fluents: u8, length: usize) -> Vec<u8> {
    let mut chosen: Vec<u8> = (0..length).map(|_| rng.byte(0, fluents - 1)).collect();
    chosen.sort_unstable();
    chosen.dedup();
    chosen
        .into_iter()
        .map(|fluent| 2 * fluent + rng.byte(0, 1))
        .collect()
}

/// Repeated lines are allowed and change nothing.
fn repeat_lines(rng: &mut Rng, request: &mut Request) {
    if rng.chance(12) && !request.effects.is_empty() {
        request.effects.push(rng.pick(&request.effects).clone());
    }
    if rng.chance(12) && !request.allowances.is_empty() {
        request
            .allowances
            .push(rng.pick(&request.allowances).clone());
    }
    if rng.chance(12) && !request.knowledge.is_empty() {
        request.knowledge.push(rng.pick(&request.knowledge).clone());
    }
}

/// What is known in all of the states.
pub fn common(states: &[Known]) -> Known {
    let mut rest = states.iter();
    let first = rest.next().copied().unwrap_or_default();
    rest.fold(first, |known, &state| known.common(state))
}

/// Some of what is known in all end states, now and then with a literal that may be missed.
fn goals(rng: &mut Rng, request: &Request, ends: &[Known], careless: u64) -> Vec<u8> {
    let mut goals = common(ends).literals();
    let percent = *rng.pick(&[30, 60, 100]);
    goals.retain(|_| rng.chance(percent));
    if rng.chance(3 * careless) {
        let fluent = rng.byte(0, request.fluents - 1);
        goals.retain(|goal| goal / 2 != fluent);
        goals.push(2 * fluent + rng.byte(0, 1));
        goals.sort_unstable();
    }
    goals
}

/// The fluents that have a value in each end state.
fn known_at(request: &Request, ends: &[Known]) -> Vec<u8> {
    let known = ends
        .iter()
        .fold(Mask::MAX, |mask, state| mask & state.marked());
    (0..request.fluents)
        .filter(|&fluent| known & bit(fluent) != 0)
        .collect()
}

/// Some of the fluents that have a value in each end state, now and then with another one.
fn whether(rng: &mut Rng, request: &Request, ends: &[Known], careless: u64) -> Vec<u8> {
    let mut fluents = known_at(request, ends);
    fluents.retain(|_| rng.chance(60));
    if rng.chance(3 * careless) {
        fluents.push(rng.byte(0, request.fluents - 1));
        fluents.sort_unstable();
        fluents.dedup();
    }
    fluents
}

/// Grows a plan along the states that it may lead to.
struct Grower<'a> {
    rng: &'a mut Rng,
    table: Table,
    request: &'a Request,
    careless: u64,
    left: usize,
}

impl<'a> Grower<'a> {
    fn new(rng: &'a mut Rng, request: &'a Request, shape: &Shape) -> Grower<'a> {
        let careless = shape.careless;
        Grower {
            rng,
            table: Table::new(request),
            request,
            careless,
            left: shape.items,
        }
    }

    fn plan(&mut self, steps: usize) -> (Vec<Item>, Vec<Known>) {
        self.sequence(vec![Known::of(&self.request.facts)], steps, 0)
    }

    fn sequence(
        &mut self,
        mut states: Vec<Known>,
        steps: usize,
        nesting: usize,
    ) -> (Vec<Item>, Vec<Known>) {
        let mut items = Vec::new();
        for _ in 0..steps {
            if self.left == 0 {
                break;
            }
            self.left -= 1;
            let branching = nesting < NESTING_LIMIT && self.rng.chance(28);
            let item = if branching {
                self.branching(&mut states, nesting)
            } else {
                self.action(&mut states)
            };
            items.push(item);
            self.thin(&mut states);
        }
        (items, states)
    }

    /// Keeps the states few: they only guide the choices.
    fn thin(&mut self, states: &mut Vec<Known>) {
        states.sort_unstable();
        states.dedup();
        while states.len() > STATES {
            let index = self.rng.below(states.len());
            states.swap_remove(index);
        }
    }

    fn action(&mut self, states: &mut Vec<Known>) -> Item {
        let action = self.choose_action(states);
        let runnable = |state: &Known| self.table.runnable(action, *state);
        let senses = self.table.senses(action);
        let after: Vec<Known> = states
            .iter()
            .copied()
            .filter(runnable)
            .flat_map(|state| match senses {
                0 => vec![self.table.step(action, state)],
                _ => readings(state, senses & !state.marked()),
            })
            .collect();
        if !after.is_empty() {
            *states = after;
        }
        Item::act(action)
    }

    /// Mostly an action that can be run in all of the states, often one that tells something.
    fn choose_action(&mut self, states: &[Known]) -> u8 {
        let all = self.request.actions;
        let good: Vec<u8> = (0..all)
            .filter(|&action| {
                states
                    .iter()
                    .all(|&state| self.table.runnable(action, state))
            })
            .collect();
        if good.is_empty() || self.rng.chance(self.careless) {
            return self.rng.byte(0, all - 1);
        }
        let tells = |action: &&u8| {
            let senses = self.table.senses(**action);
            states.iter().any(|state| senses & !state.marked() != 0)
        };
        let telling: Vec<u8> = good.iter().filter(tells).copied().collect();
        match !telling.is_empty() && self.rng.chance(25) {
            true => *self.rng.pick(&telling),
            false => *self.rng.pick(&good),
        }
    }

    /// A branching on fluents that have a value in all of the states.
    fn branching(&mut self, states: &mut Vec<Known>, nesting: usize) -> Item {
        let fluents = self.branching_fluents(states);
        let classes = classes(states, fluents);
        let mut branches = Vec::new();
        let mut after = Vec::new();
        for (class, members) in classes {
            let condition = self.condition(class, common(&members));
            let steps = self.rng.below(4);
            let (sequence, ends) = self.sequence(members, steps, nesting + 1);
            after.extend(ends);
            branches.push(Branch {
                condition,
                sequence,
            });
        }
        self.vary(&mut branches, nesting);
        self.rng.shuffle(&mut branches);
        *states = after;
        Item::case(branches)
    }

    /// One to three fluents that are known in all of the states, rather those that differ; now
    /// and then any fluent.
    fn branching_fluents(&mut self, states: &[Known]) -> Mask {
        let all = Mask::MAX >> (Mask::BITS - u32::from(self.request.fluents));
        let known = states.iter().fold(all, |mask, state| mask & state.marked());
        if self.rng.chance(self.careless / 2) {
            return bit(self.rng.byte(0, self.request.fluents - 1));
        }
        let differing = known & !common(states).marked();
        let pool = if differing != 0 && self.rng.chance(90) {
            differing
        } else {
            known
        };
        let mut chosen = 0;
        for _ in 0..*self.rng.pick(&[1, 1, 1, 2, 2, 3]) {
            if pool & !chosen != 0 {
                chosen |= bit(self.rng.fluent(pool & !chosen));
            }
        }
        chosen
    }

    /// The literals of a class, now and then with another literal known in all its members.
    fn condition(&mut self, class: Vec<u8>, known: Known) -> Vec<u8> {
        let mut condition = class;
        if self.rng.chance(15) && known.marked() != 0 {
            condition.push(*self.rng.pick(&known.literals()));
            condition.sort_unstable();
            condition.dedup();
        }
        condition
    }

    /// Now and then drops a branch, or adds one that is never followed.
    fn vary(&mut self, branches: &mut Vec<Branch>, nesting: usize) {
        if branches.len() > 1 && self.rng.chance(self.careless / 2) {
            branches.pop();
        }
        let first = branches[0].condition.first().copied();
        let Some(literal) = first else { return };
        let condition = vec![literal ^ 1];
        let apart = |branch: &Branch| branch.condition.contains(&literal);
        if branches.len() < BRANCH_LIMIT && self.rng.chance(25) && branches.iter().all(apart) {
            let steps = self.rng.below(3);
            let (sequence, _) = self.sequence(Vec::new(), steps, nesting + 1);
            branches.push(Branch {
                condition,
                sequence,
            });
        }
    }
}

/// The states by what they say of the fluents; a fluent without a value is left out of no
/// class, and taken as true.
fn classes(states: &[Known], fluents: Mask) -> BTreeMap<Vec<u8>, Vec<Known>> {
    let mut classes: BTreeMap<Vec<u8>, Vec<Known>> = BTreeMap::new();
    for &state in states {
        let seen = Known {
            yes: fluents & !state.no,
            no: fluents & state.no,
        };
        classes.entry(seen.literals()).or_default().push(state);
    }
    if classes.is_empty() {
        classes.insert(
            Known {
                yes: fluents,
                no: 0,
            }
            .literals(),
            Vec::new(),
        );
    }
    classes
}

/// A small request whose plan has branchings nested up to the limit.
fn nested(rng: &mut Rng) -> Request {
    let mut request = request(rng, &TINY);
    let depth = rng.range(3, NESTING_LIMIT);
    request.plan = nest(rng, &request, depth);
    request
}

/// So many branchings one inside another, with conditions that mostly hold at the start.
pub fn nest(rng: &mut Rng, request: &Request, depth: usize) -> Vec<Item> {
    let mut sequence = vec![Item::act(rng.byte(0, request.actions - 1))];
    if rng.chance(30) {
        sequence.clear();
    }
    for _ in 0..depth {
        let condition = match request.facts.is_empty() || rng.chance(40) {
            true => Vec::new(),
            false => vec![*rng.pick(&request.facts)],
        };
        let mut branches = vec![Branch {
            condition: condition.clone(),
            sequence,
        }];
        if let [literal] = condition[..] {
            if rng.chance(30) {
                branches.push(Branch {
                    condition: vec![literal ^ 1],
                    sequence: Vec::new(),
                });
                rng.shuffle(&mut branches);
            }
        }
        sequence = vec![Item::case(branches)];
    }
    sequence
}

/// A request that senses up to so many fluents and forgets them, again and again: the walks
/// with the most forks, and with enough rounds the deepest ones.
pub fn forgetful(rng: &mut Rng, most_sensed: u8, most_rounds: usize) -> Request {
    let sensed = rng.byte(1, most_sensed);
    let rounds = rng.range(1, most_rounds);
    let mut request = forget_and_sense(sensed, rounds);
    if rng.chance(30) {
        request.whether = vec![rng.byte(0, sensed)];
    }
    if rng.chance(30) {
        request.plan.pop();
    }
    request
}

/// `rounds` times: sense so many fluents, then make them unknown again. One more fluent stays
/// unknown all the time.
pub fn forget_and_sense(sensed: u8, rounds: usize) -> Request {
    let effect = |fluent| Effect {
        place: 0,
        action: 1,
        literal: 2 * fluent,
        body: vec![2 * sensed],
    };
    let clear = |fluent| Effect {
        place: 0,
        action: 1,
        literal: 2 * fluent + 1,
        body: vec![2 * sensed + 1],
    };
    Request {
        fluents: sensed + 1,
        actions: 2,
        effects: (0..sensed)
            .flat_map(|fluent| [effect(fluent), clear(fluent)])
            .collect(),
        allowances: (0..2)
            .map(|action| Allowance {
                action,
                body: Vec::new(),
            })
            .collect(),
        knowledge: (0..sensed)
            .map(|fluent| Knowledge {
                place: 0,
                action: 0,
                fluent,
            })
            .collect(),
        plan: (0..rounds)
            .flat_map(|_| [Item::act(0), Item::act(1)])
            .collect(),
        ..Request::default()
    }
}

/// A request with a plan of so many items, some of them in branches.
pub fn long_plan(rng: &mut Rng, items: usize) -> Request {
    let mut request = request(rng, &TINY);
    let action = rng.byte(0, request.actions - 1);
    let nested = rng.below(items / 2);
    let inner = vec![Item::act(action); nested];
    request.plan = vec![Item::case(vec![Branch {
        condition: Vec::new(),
        sequence: inner,
    }])];
    request.plan.resize(items - nested, Item::act(action));
    request
}

/// The same request with larger numbers for its fluents and actions, in the same order, so that
/// nothing else changes: its answer has the same number, place and count.
pub fn spread(rng: &mut Rng, request: &Request) -> Request {
    let mut new = Numbers::draw(rng, request);
    new.given(request)
}

/// The same request with a fact for each fluent, and all of these as goals and as whether entries.
pub fn filled(rng: &mut Rng, request: &Request) -> Request {
    let facts: Vec<u8> = (0..request.fluents)
        .map(|fluent| 2 * fluent + rng.byte(0, 1))
        .collect();
    Request {
        goals: facts.clone(),
        facts,
        whether: (0..request.fluents).collect(),
        ..request.clone()
    }
}

/// More than half of a limit, mostly all of it or one less.
fn larger(rng: &mut Rng, limit: usize) -> u8 {
    let limit = limit as u8;
    match rng.below(10) {
        0..=3 => limit,
        4..=7 => limit - 1,
        _ => rng.byte(limit / 2 + 1, limit),
    }
}

/// So many numbers below a bound, ascending, mostly with the largest among them.
fn ascending(rng: &mut Rng, count: u8, bound: u8) -> Vec<u8> {
    let mut numbers: Vec<u8> = (0..bound - 1).collect();
    rng.shuffle(&mut numbers);
    match rng.chance(70) {
        true => numbers.insert(0, bound - 1),
        false => numbers.push(bound - 1),
    }
    numbers.truncate(count.into());
    numbers.sort_unstable();
    numbers
}

/// The numbers that fluents and actions get, and how many there are of both then.
pub(crate) struct Numbers {
    fluents: Vec<u8>,
    actions: Vec<u8>,
    counts: (u8, u8),
}

impl Numbers {
    /// Larger numbers for those of a request, in the same order.
    pub(crate) fn draw<L>(rng: &mut Rng, request: &Request<L>) -> Numbers {
        let counts = (larger(rng, FLUENT_LIMIT), larger(rng, ACTION_LIMIT));
        Numbers {
            fluents: ascending(rng, request.fluents, counts.0),
            actions: ascending(rng, request.actions, counts.1),
            counts,
        }
    }

    /// The request with these numbers.
    pub(crate) fn given<L: Copy>(&mut self, request: &Request<L>) -> Request<L>
    where
        Numbers: Translation<L, L>,
    {
        Request {
            fluents: self.counts.0,
            actions: self.counts.1,
            ..translated(request, self)
        }
    }

    pub(crate) fn of_fluent(&self, fluent: u8) -> u8 {
        self.fluents[usize::from(fluent)]
    }

    pub(crate) fn of_action(&self, action: u8) -> u8 {
        self.actions[usize::from(action)]
    }
}

impl Translation<u8, u8> for Numbers {
    fn literal(&mut self, literal: u8) -> u8 {
        2 * self.of_fluent(literal / 2) + literal % 2
    }

    fn fluent(&self, fluent: u8) -> u8 {
        self.of_fluent(fluent)
    }

    fn action(&self, action: u8) -> u8 {
        self.of_action(action)
    }
}
