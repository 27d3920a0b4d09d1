//! What is looked at over the whole input once it is read: 16, 17, 18, in this order.

use crate::answer::Fault;
use crate::form::Form;
use crate::model::{Allowance, Branch, Effect, Item, Request};

/// 16, then 17, then 18, each a pass over the whole request.
pub fn settle<L: Form>(request: &Request<L>) -> Result<(), Fault> {
    settle_table(request)?;
    settle_plan(request)
}

/// 16 and then 17, which ask nothing of the plan.
pub fn settle_table<L: Form>(request: &Request<L>) -> Result<(), Fault> {
    refuse(16, contradiction(request))?;
    refuse(17, mixed_action(request))
}

/// 18.
pub fn settle_plan<L: Form>(request: &Request<L>) -> Result<(), Fault> {
    refuse(18, overlap(&request.plan))
}

fn refuse(number: u8, place: Option<usize>) -> Result<(), Fault> {
    match place {
        Some(place) => Err(Fault::new(number, place)),
        None => Ok(()),
    }
}

/// Two effects of one action clash when they give one fluent different values and their bodies are
/// not exclusive.
pub fn clashing<L: Form>(one: &Effect<L>, other: &Effect<L>) -> bool {
    one.action == other.action
        && one.literal.sets_otherwise(other.literal)
        && !L::exclusive(&one.body, &other.body)
}

/// They are contradictory when, besides, some one executability line of the action has a body
/// that is exclusive with neither body.
pub fn contradictory<L: Form>(
    allowances: &[Allowance<L>],
    one: &Effect<L>,
    other: &Effect<L>,
) -> bool {
    let agrees = |line: &Allowance<L>| {
        line.action == one.action
            && [one, other]
                .iter()
                .all(|effect| !L::exclusive(&line.body, &effect.body))
    };
    clashing(one, other) && allowances.iter().any(agrees)
}

/// 16: the earliest effect that contradicts one before it.
fn contradiction<L: Form>(request: &Request<L>) -> Option<usize> {
    let effects = &request.effects;
    (0..effects.len())
        .find(|&later| {
            effects[..later]
                .iter()
                .any(|one| contradictory(&request.allowances, one, &effects[later]))
        })
        .map(|later| effects[later].place)
}

/// 17: the first knowledge line of an action that has an effect line, too.
fn mixed_action<L>(request: &Request<L>) -> Option<usize> {
    request
        .knowledge
        .iter()
        .find(|line| {
            request
                .effects
                .iter()
                .any(|effect| effect.action == line.action)
        })
        .map(|line| line.place)
}

/// 18: the earliest branching with two conditions that are not exclusive. An outer branching
/// stands before those inside it, and these stand in the order of the branches.
pub fn overlap<L: Form>(sequence: &[Item<L>]) -> Option<usize> {
    sequence.iter().find_map(|item| match item {
        Item::Action { .. } => None,
        Item::Branching { place, branches } => {
            if some_overlap(branches) {
                return Some(*place);
            }
            branches.iter().find_map(|branch| overlap(&branch.sequence))
        }
    })
}

fn some_overlap<L: Form>(branches: &[Branch<L>]) -> bool {
    branches.iter().enumerate().any(|(index, branch)| {
        branches[..index]
            .iter()
            .any(|other| !L::exclusive(&branch.condition, &other.condition))
    })
}
