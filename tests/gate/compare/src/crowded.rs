//! Requests that come near their limits: bodies and conditions of up to 16 literals, branchings of up to eight branches, as many facts, goals
//! and whether entries as there are fluents, up to 255 lines in a section.

use oracle::model::{Allowance, Branch, Effect, Item, Knowledge, Request};
use oracle::reader::{ACTION_LIMIT, BODY_LIMIT, FLUENT_LIMIT};
use oracle::rng::Rng;
use oracle::settle::contradictory;

/// The fluents that nothing is known of at the start; action 0 senses them, and branchings are about them.
const OPEN: u8 = 3;
const LINES: usize = 255;

/// A request of this kind, without fault, of any size.
pub fn crowded(rng: &mut Rng) -> Request {
    crowded_of(rng, (17, FLUENT_LIMIT as u8), (2, ACTION_LIMIT as u8))
}

/// One with so many fluents and actions, from 17 and 2 on; both bounds are included.
pub fn crowded_of(rng: &mut Rng, fluents: (u8, u8), actions: (u8, u8)) -> Request {
    let fluents = rng.byte(fluents.0, fluents.1);
    let actions = rng.byte(actions.0, actions.1);
    let world: Vec<u8> = (0..fluents).map(|fluent| 2 * fluent + rng.byte(0, 1)).collect();
    let percent = *rng.pick(&[70, 95, 100]);
    let facts: Vec<u8> = world[usize::from(OPEN)..].iter().copied().filter(|_| rng.chance(percent)).collect();
    let sensing = rng.byte(1, actions - 1);
    let mut request = Request { fluents, actions, facts: facts.clone(), ..Request::default() };
    for fluent in 0..OPEN {
        request.knowledge.push(Knowledge { place: 0, action: 0, fluent });
    }
    for _ in 0..rng.below(LINES - usize::from(OPEN)) {
        request.knowledge.push(Knowledge { place: 0, action: rng.byte(0, sensing - 1), fluent: rng.byte(0, fluents - 1) });
    }
    for action in 0..actions {
        request.allowances.push(Allowance { action, body: body(rng, &facts, 0) });
    }
    for _ in 0..rng.below(LINES + 1 - usize::from(actions)) {
        request.allowances.push(Allowance { action: rng.byte(0, actions - 1), body: body(rng, &facts, 2) });
    }
    for _ in 0..rng.below(LINES + 1) {
        let likely = *rng.pick(&world);
        let literal = other_at_times(rng, likely, 8);
        let effect = Effect { place: 0, action: rng.byte(sensing, actions - 1), literal, body: body(rng, &world, 4) };
        if request.effects.iter().all(|earlier| !contradictory(&request.allowances, earlier, &effect)) {
            request.effects.push(effect);
        }
    }
    rng.shuffle(&mut request.knowledge);
    rng.shuffle(&mut request.allowances);
    crowded_plan(rng, &request)
}

/// Another plan over the table of such a request, with goals and whether entries of its own.
pub fn crowded_plan(rng: &mut Rng, table: &Request) -> Request {
    let mut request = table.clone();
    request.plan = vec![Item::act(0)];
    let steps = rng.below(12);
    request.plan.extend(sequence(rng, &table.facts, table.actions, steps, 2));
    let wanted = *rng.pick(&[0, 50, 100]);
    request.goals = table.facts.iter().copied().filter(|_| rng.chance(wanted)).collect();
    request.whether = (0..table.fluents).filter(|_| rng.chance(wanted)).collect();
    request
}

/// So many items: actions, and branchings about the open fluents.
fn sequence(rng: &mut Rng, facts: &[u8], actions: u8, steps: usize, nesting: usize) -> Vec<Item> {
    let item = |_| match nesting > 0 && rng.chance(30) {
        false => Item::act(rng.byte(0, actions - 1)),
        true => {
            let mut conditions: Vec<u8> = (0..1 << OPEN).collect();
            rng.shuffle(&mut conditions);
            if rng.chance(10) {
                conditions.pop();
            }
            let branch = |bits: u8| {
                let mut condition: Vec<u8> = (0..OPEN).map(|fluent| 2 * fluent + (bits >> fluent & 1)).collect();
                let more = body(rng, facts, 0);
                condition.extend(more.into_iter().take(BODY_LIMIT - usize::from(OPEN)));
                let steps = rng.below(3);
                Branch { condition, sequence: sequence(rng, facts, actions, steps, nesting - 1) }
            };
            Item::case(conditions.into_iter().map(branch).collect())
        }
    };
    (0..steps).map(item).collect()
}

/// Up to 16 of the literals, often just as many, and now and then one turned into its complement.
fn body(rng: &mut Rng, from: &[u8], turned: u64) -> Vec<u8> {
    let length = match rng.below(3) {
        0 => BODY_LIMIT,
        _ => rng.below(BODY_LIMIT + 1),
    };
    let mut chosen = from.to_vec();
    rng.shuffle(&mut chosen);
    chosen.truncate(length);
    chosen.sort_unstable();
    chosen.into_iter().map(|literal| other_at_times(rng, literal, turned)).collect()
}

fn other_at_times(rng: &mut Rng, literal: u8, percent: u64) -> u8 {
    literal ^ u8::from(rng.chance(percent))
}
