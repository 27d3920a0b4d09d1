//! Carrying a plan out in worlds whose fluents have values, without partial states.
//!
//! As in `worlds.rs` of plain requests, true worlds that have given the same readings so far go together as
//! a party, and the worlds where they now are make up the set of possible worlds of each of them.

use super::literal::{all_of, left, members, Literal, Set};
use super::Valued;
use crate::model::{Branch, Item, Request};
use crate::worlds::Failure;

/// Most worlds that are enumerated.
const WORLDS: usize = 4_096;

/// A value for each fluent.
type World = Vec<u8>;

/// Where the members, all with the same readings so far, are now.
type Party = Vec<World>;

/// All worlds that give each fluent a value of its set, unless these are too many.
fn within(sets: impl Iterator<Item = Set>) -> Option<Party> {
    let mut worlds = vec![World::new()];
    for set in sets {
        if worlds.len() * set.count_ones() as usize > WORLDS {
            return None;
        }
        let longer = worlds.iter().flat_map(|world| {
            members(set).map(|value| {
                let mut world = world.clone();
                world.push(value);
                world
            })
        });
        worlds = longer.collect();
    }
    Some(worlds)
}

/// Every world, unless these are too many.
pub fn all_worlds(valued: &Valued) -> Option<Party> {
    within(valued.values.iter().map(|&values| all_of(values)))
}

/// Every world with the initial facts, unless these are too many.
pub fn starting_worlds(valued: &Valued) -> Option<Party> {
    let facts = &valued.request.facts;
    let fluents = (0..).zip(&valued.values);
    within(fluents.map(|(fluent, &values)| left(facts, fluent).unwrap_or(all_of(values))))
}

/// All literals of a list hold in a world.
fn holds(list: &[Literal], world: &World) -> bool {
    list.iter().all(|literal| {
        let is = world[usize::from(literal.fluent)] == literal.value();
        is == literal.says_is()
    })
}

/// Carries the plan of a settled values request out in every true world; returns how many these are.
pub fn carry_out(valued: &Valued, start: Party) -> Result<u64, Failure> {
    let request = &valued.request;
    let worlds = start.len();
    let parties = through(request, &request.plan, vec![start])?;
    let after = parties.iter().map(Vec::len).sum::<usize>();
    assert_eq!(after, worlds, "a true world was lost");
    for party in &parties {
        judge(request, party)?;
    }
    Ok(worlds as u64)
}

/// At the end each goal holds in all possible worlds and each whether fluent has one value.
fn judge(request: &Request<Literal>, party: &Party) -> Result<(), Failure> {
    if !party.iter().all(|world| holds(&request.goals, world)) {
        return Err(Failure::Goal);
    }
    let same = |fluent: &u8| {
        let fluent = usize::from(*fluent);
        party.iter().all(|world| world[fluent] == party[0][fluent])
    };
    match request.whether.iter().all(same) {
        true => Ok(()),
        false => Err(Failure::Whether),
    }
}

fn through(
    request: &Request<Literal>,
    sequence: &[Item<Literal>],
    parties: Vec<Party>,
) -> Result<Vec<Party>, Failure> {
    sequence.iter().try_fold(parties, |parties, item| {
        let mut after = Vec::new();
        for party in parties {
            after.extend(match item {
                Item::Action { action, .. } => act(request, *action, party)?,
                Item::Branching { branches, .. } => {
                    let branch = followed(branches, &party)?;
                    through(request, &branch.sequence, vec![party])?
                }
            });
        }
        Ok(after)
    })
}

/// The one branch whose condition holds in each possible world.
fn followed<'a>(
    branches: &'a [Branch<Literal>],
    party: &Party,
) -> Result<&'a Branch<Literal>, Failure> {
    let known = |branch: &&Branch<Literal>| {
        let mut worlds = party.iter();
        worlds.all(|world| holds(&branch.condition, world))
    };
    let known: Vec<&Branch<Literal>> = branches.iter().filter(known).collect();
    match known[..] {
        [branch] => Ok(branch),
        _ => Err(Failure::NoBranch),
    }
}

/// In this world the action may be run.
fn allowed(request: &Request<Literal>, action: u8, world: &World) -> bool {
    let lines = request.allowances.iter();
    let mut lines = lines.filter(|line| line.action == action);
    lines.any(|line| holds(&line.body, world))
}

/// Each possible world is moved, or the party is split by what its worlds say of the fluents sensed.
fn act(request: &Request<Literal>, action: u8, mut party: Party) -> Result<Vec<Party>, Failure> {
    if !party.iter().all(|world| allowed(request, action, world)) {
        return Err(Failure::NotRunnable);
    }
    let lines = request.knowledge.iter();
    let sensed = lines.filter(|line| line.action == action);
    let sensed: Vec<usize> = sensed.map(|line| line.fluent.into()).collect();
    if sensed.is_empty() {
        let moved = party.iter().map(|world| moved(request, action, world));
        return Ok(vec![moved.collect::<Result<Party, Failure>>()?]);
    }
    let seen = |world: &World| sensed.iter().map(|&f| world[f]).collect::<Vec<u8>>();
    party.sort_by_key(seen);
    let parts = party.chunk_by(|one, other| seen(one) == seen(other));
    Ok(parts.map(<[World]>::to_vec).collect())
}

/// A world moved by the effects whose bodies hold there.
fn moved(request: &Request<Literal>, action: u8, world: &World) -> Result<World, Failure> {
    let mut moved = world.clone();
    let mut set = vec![None; world.len()];
    let lines = request.effects.iter();
    for line in lines.filter(|line| line.action == action && holds(&line.body, world)) {
        let (fluent, value) = (usize::from(line.literal.fluent), line.literal.value());
        if set[fluent].is_some_and(|other| other != value) {
            return Err(Failure::TwoValues);
        }
        set[fluent] = Some(value);
        moved[fluent] = value;
    }
    Ok(moved)
}

/// In one of these worlds an action may be run and its effects would give a fluent two values.
pub fn effects_meet(request: &Request<Literal>, worlds: &Party) -> bool {
    let mut actions: Vec<u8> = request.effects.iter().map(|line| line.action).collect();
    actions.sort_unstable();
    actions.dedup();
    actions.iter().any(|&action| {
        worlds
            .iter()
            .any(|world| allowed(request, action, world) && moved(request, action, world).is_err())
    })
}
