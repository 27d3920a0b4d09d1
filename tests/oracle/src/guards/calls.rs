//! Random guarded calls: guards that hold, that some state met lacks, or that are any; requests
//! right or damaged, in the ninth section or before it.

use crate::answer::Fault;
use crate::calls::{budget_near, lent_state, outlook, some_damaged, JudgeCall, Outlook, COUNT_CAP};
use crate::damage::{damage_bytes, damage_marked, damage_request, Bounds, Damaged};
use crate::encode::{encode_guarded, encode_request, Encoded};
use crate::generate::{any_request, body, common, starve};
use crate::model::{item_count, Allowance, Effect, Guarded, Item, Knowledge, Request};
use crate::reader::{
    ACTION_LIMIT, FLUENT_LIMIT, GUARD_LIMIT, ITEM_LIMIT, LIST_LIMIT, REQUEST_LIMIT,
};
use crate::rng::Rng;
use crate::table::Known;
use crate::walk::{met, walk_guarded};

/// The budget of the walk whose states guards are drawn from.
const STATES: u32 = 2_000;

/// A guarded call of any kind; about three of ten requests are damaged.
pub fn guarded_call(rng: &mut Rng) -> JudgeCall {
    let draft = loop {
        let request = any_request(rng);
        let draft = guarded(rng, request);
        if encode_guarded(&draft).bytes.len() <= REQUEST_LIMIT {
            break draft;
        }
    };
    any_guarded_call(rng, &draft)
}

/// A call of a draft, damaged or not. Now and then the lent state has another length.
pub fn any_guarded_call(rng: &mut Rng, draft: &Guarded) -> JudgeCall {
    some_damaged(
        rng,
        30,
        |rng| damaged_guarded_call(rng, draft),
        |rng| sound_guarded_call(rng, draft),
    )
}

/// Guards for a request. Of one in ten an action of the plan gets other executability lines first,
/// and of one in ten the plan is made to lose a guard after its second reading.
pub fn guarded(rng: &mut Rng, mut request: Request) -> Guarded {
    if rng.chance(10) && encode_request(&request).bytes.len() < REQUEST_LIMIT / 2 {
        starve(rng, &mut request);
    }
    let guards = match rng.chance(10) && has_room(&request) {
        true => turning(rng, &mut request),
        false => guards(rng, &request),
    };
    Guarded {
        request,
        guards,
        ..Guarded::default()
    }
}

/// There can be two fluents, two actions, two items and some lines more.
fn has_room(request: &Request) -> bool {
    usize::from(request.fluents) + 2 <= FLUENT_LIMIT
        && usize::from(request.actions) + 2 <= ACTION_LIMIT
        && item_count(&request.plan) + 2 <= ITEM_LIMIT
        && request.effects.len() < 255
        && request.allowances.len() < 254
        && request.knowledge.len() < 255
}

/// Before the plan a new action senses a new fluent, and somewhere in the plan another one makes a
/// second new fluent false where the first is false: so it is known true after the first reading and
/// not after the second. Its being true is among the guards. Half of these plans miss a goal after
/// the first reading.
fn turning(rng: &mut Rng, request: &mut Request) -> Vec<u8> {
    let (guarded, seen) = (request.fluents, request.fluents + 1);
    let (look, lose) = (request.actions, request.actions + 1);
    let mut guards = some_of(rng, common(&met(request, STATES)));
    request.fluents += 2;
    request.actions += 2;
    request.facts.push(2 * guarded);
    request.effects.push(Effect {
        place: 0,
        action: lose,
        literal: 2 * guarded + 1,
        body: vec![2 * seen + 1],
    });
    for action in [look, lose] {
        let body = Vec::new();
        request.allowances.push(Allowance { action, body });
    }
    request.knowledge.push(Knowledge {
        place: 0,
        action: look,
        fluent: seen,
    });
    let place = match rng.chance(50) {
        true => request.plan.len(),
        false => rng.below(request.plan.len() + 1),
    };
    request.plan.insert(place, Item::act(lose));
    request.plan.insert(0, Item::act(look));
    if rng.chance(50) && request.goals.len() < LIST_LIMIT {
        request.goals.push(2 * seen + 1);
    }
    guards.truncate(GUARD_LIMIT - 1);
    guards.push(2 * guarded);
    guards
}

/// None, some that hold wherever the walk gets, some that a state met is the first to lack, some of
/// the facts, or any.
fn guards(rng: &mut Rng, request: &Request) -> Vec<u8> {
    let states = met(request, STATES);
    match rng.below(100) {
        0..=6 => Vec::new(),
        7..=39 => some_of(rng, common(&states)),
        40..=84 => breaking(rng, &states),
        85..=93 => some_of(rng, states[0]),
        _ => any(rng, request),
    }
}

/// Any list of literals, mostly a short one.
fn any(rng: &mut Rng, request: &Request) -> Vec<u8> {
    let length = match rng.chance(10) {
        true => rng.range(1, GUARD_LIMIT),
        false => rng.range(1, 4),
    };
    body(rng, request.fluents, length)
}

/// Some of the literals known in a state, no more than a list of guards may have.
fn some_of(rng: &mut Rng, state: Known) -> Vec<u8> {
    let mut guards = state.literals();
    let percent = *rng.pick(&[30, 60, 100]);
    guards.retain(|_| rng.chance(percent));
    while guards.len() > GUARD_LIMIT {
        guards.remove(rng.below(guards.len()));
    }
    guards
}

/// Guards that one of the states lacks, and none before it; where each has what those before it
/// have, guards that hold.
fn breaking(rng: &mut Rng, states: &[Known]) -> Vec<u8> {
    let losses = losses(states);
    if losses.is_empty() {
        return some_of(rng, common(states));
    }
    let index = match rng.chance(40) {
        true => losses.len() - 1,
        false => rng.below(losses.len()),
    };
    let (kept, lost) = losses[index];
    let mut guards = some_of(rng, kept);
    let mut lost = lost.literals();
    rng.shuffle(&mut lost);
    guards.truncate(GUARD_LIMIT - 1);
    for guard in lost.into_iter().take(rng.range(1, 3)) {
        if guards.len() < GUARD_LIMIT && !guards.contains(&guard) {
            guards.push(guard);
        }
    }
    guards.sort_unstable();
    guards
}

/// Of each state that lacks a literal which all states before it have: what it has of these, and
/// what it lacks.
fn losses(states: &[Known]) -> Vec<(Known, Known)> {
    let mut losses = Vec::new();
    let mut had = states[0];
    for &state in states {
        let kept = had.common(state);
        let lost = Known {
            yes: had.yes & !kept.yes,
            no: had.no & !kept.no,
        };
        if lost != Known::default() {
            losses.push((kept, lost));
        }
        had = kept;
    }
    losses
}

/// A call with an undamaged request, and a budget about the count at which its walk ends.
pub fn sound_guarded_call(rng: &mut Rng, draft: &Guarded) -> JudgeCall {
    let count = match walk_guarded(draft, COUNT_CAP) {
        Ok(verdict) => verdict.count(),
        Err(broken) => Some(broken.count),
    };
    JudgeCall {
        request: encode_guarded(draft).bytes,
        lent: lent_state(rng),
        budget: budget_near(rng, count),
        outlook: Outlook::Walked,
    }
}

/// A call with a damaged request.
pub fn damaged_guarded_call(rng: &mut Rng, draft: &Guarded) -> JudgeCall {
    let damaged = damage_guarded(rng, draft);
    JudgeCall {
        lent: lent_state(rng),
        budget: *rng.pick(&[0, 3, 20, 1_000, COUNT_CAP]),
        outlook: outlook(1, &damaged),
        request: damaged.bytes,
    }
}

/// Damage to any byte, to the ninth section, or to the sections before it; or no ninth section.
fn damage_guarded(rng: &mut Rng, draft: &Guarded) -> Damaged {
    let whole = encode_guarded(draft);
    let bounds = Bounds::of_request(&draft.request);
    let eight = encode_request(&draft.request).bytes;
    match rng.below(100) {
        0..=24 => damage_bytes(rng, &whole, bounds),
        25..=54 => damage_ninth(rng, whole, eight.len(), bounds),
        55..=62 => {
            let length = eight.len();
            Damaged::sure(eight, 11, length)
        }
        _ => {
            // What is refused in reading before the ninth section is refused whatever follows.
            let mut damaged = damage_request(rng, &draft.request);
            let kept = |fault: &Fault| matches!(fault.number, 10 | 12..=15);
            damaged.expected = damaged.expected.filter(kept);
            damaged.bytes.extend(&whole.bytes[eight.len()..]);
            damaged
        }
    }
}

/// Damage to the ninth section, whose count stands at a place: at a mark, a count above the limit,
/// the bytes cut short, or a byte changed.
fn damage_ninth(rng: &mut Rng, mut whole: Encoded, place: usize, bounds: Bounds) -> Damaged {
    match rng.below(10) {
        0 => {
            whole.bytes[place] = rng.byte(GUARD_LIMIT as u8 + 1, 255);
            Damaged::sure(whole.bytes, 12, place)
        }
        1 => {
            whole.bytes[place] = GUARD_LIMIT as u8 + 1;
            Damaged::sure(whole.bytes, 12, place)
        }
        2 | 3 => {
            let kept = place + rng.below(whole.bytes.len() - place);
            whole.bytes.truncate(kept);
            Damaged::sure(whole.bytes, 11, kept)
        }
        4 => {
            let changed = place + rng.below(whole.bytes.len() - place);
            whole.bytes[changed] ^= 1 << rng.below(8);
            Damaged::unsure(whole.bytes)
        }
        _ => {
            whole.marks.retain(|mark| mark.place >= place);
            damage_marked(rng, &whole, bounds)
        }
    }
}
