//! Random values requests that can be read and settled.
//!
//! As in `generate.rs` of plain requests a plan grows along the partial states that it may lead to. What is
//! said of a fluent is a set of values that is left to it, spelled by "is" or by "is not".

use super::literal::{all_of, left, members, Literal, Set, VALUES};
use super::translate::spelled;
use super::walk::{walk_to, State, Table};
use super::Valued;
use crate::form::Form;
use crate::generate::{
    any_request, filled, request, spread as plain_spread, Numbers, Shape, MIDDLE, SMALL, TINY,
};
use crate::model::{Allowance, Branch, Effect, Item, Knowledge, Request};
use crate::reader::{BODY_LIMIT, BRANCH_LIMIT, LIST_LIMIT, NESTING_LIMIT};
use crate::rng::Rng;
use crate::settle::{clashing, contradictory};
use crate::translation::Translation;

/// Most states that a plan is grown along.
const STATES: usize = 12;
/// The budget of the walk whose end states goals are drawn from.
const ENDS: u32 = 2_000;

/// A values request of any size, small ones by far the most; one in seven has two values for each fluent and
/// is a plain request, which may be of any kind there is.
pub fn any_valued(rng: &mut Rng) -> Valued {
    match rng.below(100) {
        0..=44 => drawn(rng, &TINY),
        45..=79 => drawn(rng, &SMALL),
        80..=85 => drawn(rng, &MIDDLE),
        86 => full(rng),
        _ => {
            let request = any_request(rng);
            spelled(rng, &request)
        }
    }
}

/// A small plain request that is spread, with a fact for each fluent, said by values.
pub fn full(rng: &mut Rng) -> Valued {
    let request = request(rng, &TINY);
    let request = plain_spread(rng, &request);
    let request = filled(rng, &request);
    spelled(rng, &request)
}

/// A values request of a shape, spread now and then.
pub fn drawn(rng: &mut Rng, shape: &Shape) -> Valued {
    let valued = valued(rng, shape);
    match rng.chance(shape.spread) {
        true => spread(rng, &valued),
        false => valued,
    }
}

/// The same with larger numbers for its fluents and actions, in the same order. Between them there are
/// fluents with any numbers of values.
pub fn spread(rng: &mut Rng, valued: &Valued) -> Valued {
    let mut new = Numbers::draw(rng, &valued.request);
    let request = new.given(&valued.request);
    let mut values: Vec<u8> = (0..request.fluents)
        .map(|_| rng.byte(VALUES.0, VALUES.1))
        .collect();
    for (fluent, &number) in (0..).zip(&valued.values) {
        values[usize::from(new.of_fluent(fluent))] = number;
    }
    Valued { values, request }
}

impl Translation<Literal, Literal> for Numbers {
    fn literal(&mut self, literal: Literal) -> Literal {
        Literal {
            fluent: self.of_fluent(literal.fluent),
            ..literal
        }
    }

    fn fluent(&self, fluent: u8) -> u8 {
        self.of_fluent(fluent)
    }

    fn action(&self, action: u8) -> u8 {
        self.of_action(action)
    }
}

/// A values request of a shape.
fn valued(rng: &mut Rng, shape: &Shape) -> Valued {
    let mut valued = table(rng, shape);
    let steps = rng.range(shape.steps.0, shape.steps.1);
    valued.request.plan = Grower::new(rng, &valued, shape).plan(steps);
    let mut ends = Vec::new();
    walk_to(&valued, ENDS, |state| ends.push(state));
    valued.request.goals = goals(rng, &valued, &ends, shape.careless);
    if rng.chance(50) {
        valued.request.whether = whether(rng, &valued, &ends, shape.careless);
    }
    valued
}

/// Sections 1 to 5.
fn table(rng: &mut Rng, shape: &Shape) -> Valued {
    let fluents = rng.byte(shape.fluents.0, shape.fluents.1);
    let most = *rng.pick(&[2, 3, 3, 4, 5, 7, VALUES.1]);
    let mut values: Vec<u8> = (0..fluents).map(|_| rng.byte(VALUES.0, most)).collect();
    if rng.chance(8) {
        values[rng.below(usize::from(fluents))] = VALUES.1;
    }
    let mut valued = Valued {
        values,
        request: Request {
            fluents,
            actions: rng.byte(shape.actions.0, shape.actions.1),
            ..Request::default()
        },
    };
    let percent = *rng.pick(&shape.known);
    for fluent in 0..fluents {
        let set = match (rng.chance(percent), rng.chance(40)) {
            (true, _) => one_of(rng, valued.all(fluent)),
            (false, true) => some_of(rng, valued.all(fluent)),
            (false, false) => valued.all(fluent),
        };
        let said = spell(rng, fluent, set, valued.values[usize::from(fluent)]);
        if valued.request.facts.len() + said.len() <= LIST_LIMIT {
            valued.request.facts.extend(said);
        }
    }
    for action in 0..valued.request.actions {
        lines_of(rng, &mut valued, action, shape);
    }
    let request = &mut valued.request;
    rng.shuffle(&mut request.effects);
    rng.shuffle(&mut request.allowances);
    rng.shuffle(&mut request.knowledge);
    request.effects.truncate(255);
    request.allowances.truncate(255);
    request.knowledge.truncate(255);
    valued
}

impl Valued {
    /// All values of a fluent.
    pub fn all(&self, fluent: u8) -> Set {
        all_of(self.values[usize::from(fluent)])
    }
}

/// One value of a set that has some.
fn one_of(rng: &mut Rng, set: Set) -> Set {
    let values: Vec<u8> = members(set).collect();
    1 << rng.pick(&values)
}

/// Some of the values of a set that has some, and mostly not all.
fn some_of(rng: &mut Rng, set: Set) -> Set {
    let without = set & !one_of(rng, set);
    match (without, rng.below(3)) {
        (0, _) => set,
        (_, 0) => one_of(rng, set),
        (_, 1) => without,
        _ => {
            let one = one_of(rng, without);
            let more = members(without).filter(|_| rng.chance(50));
            more.fold(one, |some, value| some | 1 << value)
        }
    }
}

/// Literals that leave a fluent just this set of its values, ascending. A single value is said by "is", by
/// all that it is not, or by both.
pub fn spell(rng: &mut Rng, fluent: u8, set: Set, values: u8) -> Vec<Literal> {
    let others = members(all_of(values) & !set);
    let mut said: Vec<Literal> = others
        .map(|value| Literal::is_not(fluent, value, values))
        .collect();
    if set.count_ones() == 1 {
        let is = Literal::is(fluent, set.trailing_zeros() as u8, values);
        match rng.below(100) {
            0..=59 => said = vec![is],
            60..=74 => {
                said.retain(|_| rng.chance(40));
                said.push(is);
            }
            _ if said.len() > 4 && rng.chance(80) => said = vec![is],
            _ => {}
        }
    }
    said.sort_unstable_by_key(|literal| literal.says);
    said
}

/// What is said of some fluents, as one list of at most so many literals; a fluent for which there is no
/// room is left out.
fn listed(rng: &mut Rng, valued: &Valued, said: &[(u8, Set)], most: usize) -> Vec<Literal> {
    let mut list = Vec::new();
    for &(fluent, set) in said {
        let more = spell(rng, fluent, set, valued.values[usize::from(fluent)]);
        if list.len() + more.len() <= most {
            list.extend(more);
        }
    }
    list
}

/// A body that says something of so many fluents, or fewer where there are fewer.
pub fn body(rng: &mut Rng, valued: &Valued, length: usize) -> Vec<Literal> {
    let last = valued.request.fluents - 1;
    let mut fluents: Vec<u8> = (0..length).map(|_| rng.byte(0, last)).collect();
    fluents.sort_unstable();
    fluents.dedup();
    let said: Vec<(u8, Set)> = fluents
        .into_iter()
        .map(|fluent| match rng.chance(50) {
            true => (fluent, one_of(rng, valued.all(fluent))),
            false => (fluent, some_of(rng, valued.all(fluent))),
        })
        .collect();
    listed(rng, valued, &said, BODY_LIMIT)
}

/// An action that senses, one with effects, one that does nothing, or one without any line.
fn lines_of(rng: &mut Rng, valued: &mut Valued, action: u8, shape: &Shape) {
    let kind = rng.below(100);
    if kind > 94 {
        return;
    }
    if !(40..=42).contains(&kind) {
        for _ in 0..*rng.pick(&[1, 1, 1, 2, 3]) {
            let body = allowing_body(rng, valued);
            valued.request.allowances.push(Allowance { action, body });
        }
    }
    match kind {
        0..=39 => {
            for _ in 0..*rng.pick(&[1, 1, 1, 2, 2, 3]) {
                let fluent = rng.byte(0, valued.request.fluents - 1);
                valued.request.knowledge.push(Knowledge {
                    place: 0,
                    action,
                    fluent,
                });
            }
        }
        40..=88 => {
            for _ in 0..rng.range(1, shape.effects) {
                add_effect(rng, valued, action);
            }
            if rng.chance(30) {
                add_switch(rng, valued, action);
            }
            if rng.chance(30) {
                add_clash(rng, valued, action);
            }
        }
        _ => {}
    }
}

/// A body that is often known true at the start.
fn allowing_body(rng: &mut Rng, valued: &Valued) -> Vec<Literal> {
    let first = State::first(&valued.request.facts);
    let known: Vec<u8> = (0..valued.request.fluents)
        .filter(|&fluent| first.value(fluent).is_some())
        .collect();
    match rng.below(100) {
        0..=49 => Vec::new(),
        50..=84 if !known.is_empty() => {
            let fluent = *rng.pick(&known);
            let value = first.value(fluent).map_or(0, |value| 1 << value);
            let set = value | some_of(rng, valued.all(fluent));
            listed(rng, valued, &[(fluent, set)], BODY_LIMIT)
        }
        _ => {
            let length = rng.range(1, 2);
            body(rng, valued, length)
        }
    }
}

/// Adds an effect unless it contradicts one that is there.
fn add(request: &mut Request<Literal>, effect: Effect<Literal>) {
    let agrees = |other: &Effect<Literal>| !contradictory(&request.allowances, &effect, other);
    if request.effects.iter().all(agrees) {
        request.effects.push(effect);
    }
}

fn any_effect(rng: &mut Rng, valued: &Valued, action: u8, body: Vec<Literal>) -> Effect<Literal> {
    let fluent = rng.byte(0, valued.request.fluents - 1);
    let values = valued.values[usize::from(fluent)];
    let value = rng.byte(0, values - 1);
    Effect {
        place: 0,
        action,
        literal: Literal::is(fluent, value, values),
        body,
    }
}

fn add_effect(rng: &mut Rng, valued: &mut Valued, action: u8) {
    let length = *rng.pick(&[0, 0, 1, 1, 1, 2, 3]);
    let body = body(rng, valued, length);
    let effect = any_effect(rng, valued, action, body);
    add(&mut valued.request, effect);
}

/// Adds effects that give a fluent a value for each value of a fluent, of which some share a value.
fn add_switch(rng: &mut Rng, valued: &mut Valued, action: u8) {
    let by = rng.byte(0, valued.request.fluents - 1);
    let values = valued.values[usize::from(by)];
    let set = any_effect(rng, valued, action, Vec::new()).literal;
    let most = valued.values[usize::from(set.fluent)];
    for value in 0..values {
        let effect = Effect {
            place: 0,
            action,
            literal: Literal::is(set.fluent, rng.byte(0, most - 1), most),
            body: vec![Literal::is(by, value, values)],
        };
        add(&mut valued.request, effect);
    }
}

/// Adds an effect that clashes with one that is there, but only where the action can't be run: each
/// executability line disagrees with one of the two bodies.
fn add_clash(rng: &mut Rng, valued: &mut Valued, action: u8) {
    let effects = valued.request.effects.iter();
    let there: Vec<&Effect<Literal>> = effects.filter(|line| line.action == action).collect();
    if there.is_empty() {
        return;
    }
    let one = (*rng.pick(&there)).clone();
    let values = valued.values[usize::from(one.literal.fluent)];
    let value = (one.literal.value() + rng.byte(1, values - 1)) % values;
    let mut said: Vec<(u8, Set)> = Vec::new();
    let lines = valued.request.allowances.iter();
    for line in lines.filter(|line| line.action == action && !line.body.is_empty()) {
        let fluent = rng.pick(&line.body).fluent;
        let against = valued.all(fluent) & !left(&line.body, fluent).unwrap_or(0);
        if Literal::exclusive(&line.body, &one.body) || against == 0 {
            continue;
        }
        match said.iter_mut().find(|(named, _)| *named == fluent) {
            Some((_, set)) if *set & against != 0 => *set &= against,
            Some(_) => {}
            None => said.push((fluent, some_of(rng, against))),
        }
    }
    said.sort_unstable();
    let other = Effect {
        literal: Literal::is(one.literal.fluent, value, values),
        body: listed(rng, valued, &said, BODY_LIMIT),
        ..one.clone()
    };
    if clashing(&one, &other) {
        add(&mut valued.request, other);
    }
}

/// The values that a fluent has in these states, unless it is unknown in one of them.
fn seen(states: &[State], fluent: u8) -> Option<Set> {
    states.iter().try_fold(0, |set, state| {
        state.value(fluent).map(|value| set | 1 << value)
    })
}

/// Some of what is known in all end states, now and then with a fluent of which it may be otherwise.
fn goals(rng: &mut Rng, valued: &Valued, ends: &[State], careless: u64) -> Vec<Literal> {
    let percent = *rng.pick(&[30, 60, 100]);
    let missed = rng.chance(3 * careless);
    let missed = missed.then(|| rng.byte(0, valued.request.fluents - 1));
    let mut said = Vec::new();
    for fluent in 0..valued.request.fluents {
        if missed == Some(fluent) {
            let fact = left(&valued.request.facts, fluent);
            let any = some_of(rng, valued.all(fluent));
            said.push((fluent, fact.filter(|_| rng.chance(60)).unwrap_or(any)));
            continue;
        }
        let Some(set) = seen(ends, fluent).filter(|&set| set != 0) else {
            continue;
        };
        if rng.chance(percent) {
            let more = match rng.chance(70) {
                true => 0,
                false => some_of(rng, valued.all(fluent)),
            };
            said.push((fluent, set | more));
        }
    }
    listed(rng, valued, &said, LIST_LIMIT)
}

/// Some of the fluents that are known in each end state, now and then with another one.
fn whether(rng: &mut Rng, valued: &Valued, ends: &[State], careless: u64) -> Vec<u8> {
    let other = rng.chance(3 * careless);
    let other = other.then(|| rng.byte(0, valued.request.fluents - 1));
    (0..valued.request.fluents)
        .filter(|&fluent| other == Some(fluent) || seen(ends, fluent).is_some() && rng.chance(60))
        .collect()
}

/// Grows a plan along the states that it may lead to.
struct Grower<'a> {
    rng: &'a mut Rng,
    table: Table,
    valued: &'a Valued,
    careless: u64,
    left: usize,
}

impl<'a> Grower<'a> {
    fn new(rng: &'a mut Rng, valued: &'a Valued, shape: &Shape) -> Grower<'a> {
        Grower {
            rng,
            table: Table::new(valued),
            valued,
            careless: shape.careless,
            left: shape.items,
        }
    }

    fn plan(&mut self, steps: usize) -> Vec<Item<Literal>> {
        let mut states = vec![State::first(&self.valued.request.facts)];
        self.sequence(&mut states, steps, 0)
    }

    /// Grows a sequence, and leaves the states after it.
    fn sequence(
        &mut self,
        states: &mut Vec<State>,
        steps: usize,
        nesting: usize,
    ) -> Vec<Item<Literal>> {
        let mut items = Vec::new();
        for _ in 0..steps {
            if self.left == 0 {
                break;
            }
            self.left -= 1;
            let branching = nesting < NESTING_LIMIT && self.rng.chance(30);
            items.push(match branching {
                true => self.branching(states, nesting),
                false => self.action(states),
            });
            states.sort_unstable();
            states.dedup();
            while states.len() > STATES {
                states.swap_remove(self.rng.below(states.len()));
            }
        }
        items
    }

    fn action(&mut self, states: &mut Vec<State>) -> Item<Literal> {
        let action = self.choose_action(states);
        let mut after = Vec::new();
        for state in states.iter() {
            if self.table.runnable(action, state) {
                match self.table.senses(action) {
                    [] => after.push(self.table.step(action, state)),
                    sensed => self.readings(sensed, *state, &mut after),
                }
            }
        }
        if !after.is_empty() {
            *states = after;
        }
        Item::act(action)
    }

    /// Some readings of these fluents, with each value of one of them.
    fn readings(&self, fluents: &[u8], state: State, all: &mut Vec<State>) {
        let unknown = |fluent: &&u8| state.value(**fluent).is_none();
        let Some(&fluent) = fluents.iter().find(unknown) else {
            all.push(state);
            return;
        };
        for value in members(self.valued.all(fluent)) {
            let mut read = state;
            read.know(fluent, value);
            if all.len() < 4 * STATES {
                self.readings(fluents, read, all);
            }
        }
    }

    /// Mostly an action that can be run in all of the states, often one that tells something.
    fn choose_action(&mut self, states: &[State]) -> u8 {
        let all = self.valued.request.actions;
        let table = &self.table;
        let runs = |action: &u8| states.iter().all(|state| table.runnable(*action, state));
        let good: Vec<u8> = (0..all).filter(runs).collect();
        if good.is_empty() || self.rng.chance(self.careless) {
            return self.rng.byte(0, all - 1);
        }
        let tells = |action: &&u8| {
            let mut sensed = table.senses(**action).iter();
            sensed.any(|&fluent| states.iter().any(|state| state.value(fluent).is_none()))
        };
        let telling: Vec<u8> = good.iter().filter(tells).copied().collect();
        match !telling.is_empty() && self.rng.chance(45) {
            true => *self.rng.pick(&telling),
            false => *self.rng.pick(&good),
        }
    }

    /// A branching on one fluent or two that are known in all of the states, rather on such that differ.
    fn branching(&mut self, states: &mut Vec<State>, nesting: usize) -> Item<Literal> {
        let mut classes = self.classes(states);
        if classes.len() > 1 && self.rng.chance(self.careless / 2) {
            classes.pop();
        }
        let mut branches = Vec::new();
        let mut after = Vec::new();
        for (condition, mut members) in classes {
            let steps = self.rng.below(4);
            let sequence = self.sequence(&mut members, steps, nesting + 1);
            after.extend(members);
            branches.push(Branch {
                condition,
                sequence,
            });
        }
        self.rng.shuffle(&mut branches);
        *states = after;
        Item::case(branches)
    }

    /// Conditions that are exclusive, each with the states in which it is known true.
    fn classes(&mut self, states: &[State]) -> Vec<(Vec<Literal>, Vec<State>)> {
        let first = self.branching_fluent(states, None);
        let second = self
            .rng
            .chance(25)
            .then(|| self.branching_fluent(states, Some(first)));
        let mut classes = Vec::new();
        for one in self.parts(states, first) {
            classes.push((vec![(first, one)], within(states, first, one)));
        }
        if let Some(second) = second.filter(|&second| second != first) {
            let index = self.rng.below(classes.len());
            let (said, members) = classes.swap_remove(index);
            for other in self.parts(&members, second) {
                let mut said = said.clone();
                said.push((second, other));
                said.sort_unstable();
                classes.push((said, within(&members, second, other)));
            }
        }
        classes.truncate(BRANCH_LIMIT);
        let mut told: Vec<(Vec<Literal>, Vec<State>)> = Vec::new();
        for (said, members) in classes {
            let condition = self.condition(&said, &members);
            // A condition that had no room for all that it was to say may agree with another one.
            let apart = |(other, _): &(Vec<Literal>, _)| Literal::exclusive(other, &condition);
            if told.iter().all(apart) {
                told.push((condition, members));
            }
        }
        told
    }

    /// Mostly a fluent that is known in all of the states, rather one that differs.
    fn branching_fluent(&mut self, states: &[State], but: Option<u8>) -> u8 {
        let fluents = 0..self.valued.request.fluents;
        let known: Vec<(u8, Set)> = fluents
            .filter(|&fluent| but != Some(fluent))
            .filter_map(|fluent| Some((fluent, seen(states, fluent)?)))
            .collect();
        let differs = |(_, set): &&(u8, Set)| set.count_ones() > 1;
        let differing: Vec<(u8, Set)> = known.iter().filter(differs).copied().collect();
        let pool = match !differing.is_empty() && self.rng.chance(90) {
            true => differing,
            false => known,
        };
        match pool.is_empty() || self.rng.chance(self.careless / 2) {
            true => self.rng.byte(0, self.valued.request.fluents - 1),
            false => self.rng.pick(&pool).0,
        }
    }

    /// Sets of values of a fluent, no value in two of them, and each that it has in one of the states in one
    /// of them: each value by itself, one and all others, or any.
    fn parts(&mut self, states: &[State], fluent: u8) -> Vec<Set> {
        let all = self.valued.all(fluent);
        let seen = seen(states, fluent).filter(|&set| set != 0).unwrap_or(all);
        let mut parts: Vec<Set> = match self.rng.below(3) {
            0 => members(seen).map(|value| 1 << value).collect(),
            1 => {
                let one = one_of(self.rng, seen);
                vec![one, all & !one]
            }
            _ => {
                let mut parts = vec![0; self.rng.range(2, 4)];
                for value in members(all) {
                    let part = self.rng.below(parts.len());
                    parts[part] |= 1 << value;
                }
                parts
            }
        };
        parts.retain(|&part| part != 0);
        while parts.len() > BRANCH_LIMIT {
            let last = parts.pop().unwrap_or(0);
            parts[0] |= last;
        }
        parts
    }

    /// What is said of fluents as a condition, now and then with what else is known in all members.
    fn condition(&mut self, said: &[(u8, Set)], members: &[State]) -> Vec<Literal> {
        let mut said = said.to_vec();
        let other = self.rng.byte(0, self.valued.request.fluents - 1);
        let known = seen(members, other).filter(|&set| set != 0);
        if let Some(set) = known.filter(|_| self.rng.chance(15)) {
            if said.iter().all(|(fluent, _)| *fluent != other) {
                said.push((other, set));
                said.sort_unstable();
            }
        }
        listed(self.rng, self.valued, &said, BODY_LIMIT)
    }
}

/// The states in which a fluent has one of these values.
fn within(states: &[State], fluent: u8, set: Set) -> Vec<State> {
    let inside = |state: &&State| {
        let value = state.value(fluent);
        value.is_none_or(|value| set >> value & 1 == 1)
    };
    states.iter().filter(inside).copied().collect()
}
