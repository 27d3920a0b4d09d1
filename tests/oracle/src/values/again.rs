//! 16, 17 and 18 a second time, from the bytes that literals say and value by value.

use super::literal::Literal;
use super::tree::excludes;
use super::Valued;
use crate::answer::Fault;
use crate::model::{Branch, Effect, Item};

/// What a values request that was read is refused for, if anything.
pub fn refused(valued: &Valued) -> Option<Fault> {
    let contradicting = contradicting(valued).map(|place| Fault::new(16, place));
    let mixed = || mixed(valued).map(|place| Fault::new(17, place));
    let agreeing = || agreeing(valued).map(|place| Fault::new(18, place));
    contradicting.or_else(mixed).or_else(agreeing)
}

/// Of some fluent that both name, each value is excluded by one of the two.
fn exclusive(valued: &Valued, one: &[Literal], other: &[Literal]) -> bool {
    let names = |list: &[Literal], fluent| list.iter().any(|literal| literal.fluent == fluent);
    let fluents = (0..).zip(&valued.values);
    let mut both = fluents.filter(|&(fluent, _)| names(one, fluent) && names(other, fluent));
    both.any(|(fluent, &values)| {
        let excluded = |value| excludes(one, fluent, value) || excludes(other, fluent, value);
        (0..values).all(excluded)
    })
}

/// The smallest place of an effect that contradicts one before it.
fn contradicting(valued: &Valued) -> Option<usize> {
    let mut places = Vec::new();
    let effects = &valued.request.effects;
    for (index, later) in effects.iter().enumerate() {
        for earlier in &effects[..index] {
            if contradict(valued, earlier, later) {
                places.push(later.place);
            }
        }
    }
    places.into_iter().min()
}

fn contradict(valued: &Valued, one: &Effect<Literal>, other: &Effect<Literal>) -> bool {
    let set = |effect: &Effect<Literal>| (effect.literal.fluent, effect.literal.says);
    let apart = |one: &[Literal], other: &[Literal]| exclusive(valued, one, other);
    let mut lines = valued.request.allowances.iter();
    one.action == other.action
        && set(one).0 == set(other).0
        && set(one).1 != set(other).1
        && !apart(&one.body, &other.body)
        && lines.any(|line| {
            line.action == one.action
                && !apart(&line.body, &one.body)
                && !apart(&line.body, &other.body)
        })
}

/// The smallest place of a knowledge line whose action has effects.
fn mixed(valued: &Valued) -> Option<usize> {
    let effects = &valued.request.effects;
    let has_effects = |action| effects.iter().any(|effect| effect.action == action);
    let lines = valued.request.knowledge.iter();
    let mixed = lines.filter(|line| has_effects(line.action));
    mixed.map(|line| line.place).min()
}

/// The smallest place of a branching with two conditions that are not exclusive.
fn agreeing(valued: &Valued) -> Option<usize> {
    let mut places = Vec::new();
    let mut left: Vec<&Item<Literal>> = valued.request.plan.iter().collect();
    while let Some(item) = left.pop() {
        if let Item::Branching { place, branches } = item {
            let agrees = |one: &Branch<Literal>, other: &Branch<Literal>| {
                !exclusive(valued, &one.condition, &other.condition)
            };
            let mut pairs = (1..branches.len()).flat_map(|two| (0..two).map(move |one| (one, two)));
            if pairs.any(|(one, two)| agrees(&branches[one], &branches[two])) {
                places.push(*place);
            }
            left.extend(branches.iter().flat_map(|branch| &branch.sequence));
        }
    }
    places.into_iter().min()
}
