//! Random calls by cases: requests whose lines are split into cases, of which the walk call verifies
//! few, requests with an action that has about as many open fluents as it may, and any requests;
//! right or damaged.

use super::way::walk_by_cases;
use crate::calls::{
    budget_near, damaged_judge_call, judge_call, lent_state, some_damaged, JudgeCall, Outlook,
    COUNT_CAP,
};
use crate::encode::encode_request;
use crate::generate::{body, drawn, starve, Shape, MIDDLE, SMALL, TINY};
use crate::model::{item_count, Allowance, Branch, Effect, Item, Knowledge, Request};
use crate::reader::{ACTION_LIMIT, BODY_LIMIT, FLUENT_LIMIT, ITEM_LIMIT};
use crate::rng::Rng;
use crate::walk::{walk, Verdict};

/// Drafts that are tried for one that only the call by cases verifies.
const TRIES: usize = 12;
/// The budget of the walks that are tried.
const TRIED: u32 = 2_000;
/// Most lines of a section.
const LINES: usize = 255;
/// Most fluents, actions and items that a request is made wider by.
const WIDER: usize = 40;

/// A call by cases of any kind. About one of five requests is damaged.
pub fn cases_call(rng: &mut Rng) -> JudgeCall {
    let draft = match rng.below(100) {
        0..=19 => return judge_call(rng),
        20..=74 => split_request(rng),
        _ => wide_request(rng),
    };
    any_cases_call(rng, &draft)
}

/// A call of a draft, damaged or not. Now and then the lent state has another length.
pub fn any_cases_call(rng: &mut Rng, draft: &Request) -> JudgeCall {
    some_damaged(
        rng,
        18,
        |rng| damaged_judge_call(rng, draft),
        |rng| sound_cases_call(rng, draft),
    )
}

/// A call with an undamaged request, and a budget about the count at which its walk by cases ends.
pub fn sound_cases_call(rng: &mut Rng, draft: &Request) -> JudgeCall {
    let count = match walk_by_cases(draft, COUNT_CAP) {
        Ok(verdict) => verdict.count(),
        Err(too_many) => Some(too_many.count),
    };
    JudgeCall {
        request: encode_request(draft).bytes,
        lent: lent_state(rng),
        budget: budget_near(rng, count),
        outlook: Outlook::Walked,
    }
}

/// A request with lines split into cases, mostly one that is verified by cases and not by what is
/// known. Of a few an action of the plan gets other executability lines, a few have any goals, and a few look at
/// what is known by cases.
fn split_request(rng: &mut Rng) -> Request {
    let shape = *rng.pick(&[TINY, TINY, SMALL, SMALL, SMALL, MIDDLE]);
    if rng.chance(5) {
        let draft = drawn(rng, &shape);
        return look_for_nothing(rng, draft);
    }
    let mut draft = split_drawn(rng, &shape);
    if rng.chance(10) {
        starve(rng, &mut draft);
        return draft;
    }
    if rng.chance(10) {
        draft.goals = body(rng, draft.fluents, 2);
        return draft;
    }
    if rng.chance(10) {
        return draft;
    }
    for _ in 1..TRIES {
        if only_by_cases(&draft) {
            break;
        }
        draft = split_drawn(rng, &shape);
    }
    draft
}

/// A request of a shape, with lines split into cases.
pub(crate) fn split_drawn(rng: &mut Rng, shape: &Shape) -> Request {
    let draft = drawn(rng, shape);
    split(rng, &draft)
}

/// The same request, if it has room, where somewhere in the plan a new fluent is made true if it is false, and
/// is sensed then. By cases it is known, so less is counted.
pub(crate) fn look_for_nothing(rng: &mut Rng, mut request: Request) -> Request {
    if !has_room(&request) {
        return request;
    }
    let fluent = request.fluents;
    let [set, look] = [request.actions, request.actions + 1];
    let literal = 2 * fluent + rng.byte(0, 1);
    request.fluents += 1;
    request.actions += 2;
    request.effects.push(Effect {
        place: 0,
        action: set,
        literal,
        body: vec![literal ^ 1],
    });
    for action in [set, look] {
        let body = Vec::new();
        request.allowances.push(Allowance { action, body });
    }
    request.knowledge.push(Knowledge {
        place: 0,
        action: look,
        fluent,
    });
    let place = rng.below(request.plan.len() + 1);
    request.plan.insert(place, Item::act(look));
    request.plan.insert(place, Item::act(set));
    request
}

/// It is verified by cases and not by what is known.
fn only_by_cases(request: &Request) -> bool {
    let verified = |verdict| matches!(verdict, Verdict::Verified { .. });
    walk_by_cases(request, TRIED).is_ok_and(verified) && !verified(walk(request, TRIED))
}

/// The same request with some of its lines split into cases, and often with one more fluent, of which
/// nothing is ever known.
///
/// A line is split by a fluent that isn't in its body: two lines take its place, one with the fluent true
/// in its body and one with it false. Of an effect those two may be about the effect's own fluent, and the
/// one is left out that makes it what it is. In no filling does an action do anything else then, so its answer by
/// cases has the same number and count, unless there are too many cases.
pub fn split(rng: &mut Rng, request: &Request) -> Request {
    let mut request = request.clone();
    if usize::from(request.fluents) < FLUENT_LIMIT && rng.chance(60) {
        request.fluents += 1;
    }
    let percent = *rng.pick(&[30, 100, 100]);
    let mut room = LINES - request.effects.len();
    for line in std::mem::take(&mut request.effects) {
        let bodies = match rng.chance(percent) {
            true => split_effect(rng, &request, &line, &mut room),
            false => vec![line.body.clone()],
        };
        let lines = bodies.into_iter().map(|body| Effect {
            body,
            ..line.clone()
        });
        request.effects.extend(lines);
    }
    let percent = *rng.pick(&[0, 0, 30, 60]);
    let mut room = LINES - request.allowances.len();
    for line in std::mem::take(&mut request.allowances) {
        let bodies = match rng.chance(percent) {
            true => split_body(rng, &request, &line.body, &mut room),
            false => vec![line.body.clone()],
        };
        let action = line.action;
        let lines = bodies.into_iter().map(|body| Allowance { action, body });
        request.allowances.extend(lines);
    }
    rng.shuffle(&mut request.effects);
    rng.shuffle(&mut request.allowances);
    request
}

/// The bodies that an effect has instead.
fn split_effect(rng: &mut Rng, request: &Request, line: &Effect, room: &mut usize) -> Vec<Vec<u8>> {
    match rng.chance(35) && !has(&line.body, line.literal / 2) && line.body.len() < BODY_LIMIT {
        true => vec![with(&line.body, line.literal ^ 1)],
        false => split_body(rng, request, &line.body, room),
    }
}

/// The two bodies that a body is split into; now and then one of them is split once more.
fn split_body(rng: &mut Rng, request: &Request, body: &[u8], room: &mut usize) -> Vec<Vec<u8>> {
    let fluent = match rng.chance(40) {
        true => request.fluents - 1,
        false => rng.byte(0, request.fluents - 1),
    };
    if *room == 0 || has(body, fluent) || body.len() == BODY_LIMIT {
        return vec![body.to_vec()];
    }
    *room -= 1;
    let mut bodies = vec![with(body, 2 * fluent)];
    let other = with(body, 2 * fluent + 1);
    match rng.chance(25) {
        true => bodies.extend(split_body(rng, request, &other, room)),
        false => bodies.push(other),
    }
    bodies
}

fn has(body: &[u8], fluent: u8) -> bool {
    body.iter().any(|literal| literal / 2 == fluent)
}

fn with(body: &[u8], literal: u8) -> Vec<u8> {
    let mut body = body.to_vec();
    body.push(literal);
    body.sort_unstable();
    body
}

/// A request with an action that has about as many open fluents as it may.
fn wide_request(rng: &mut Rng) -> Request {
    let draft = loop {
        let shape = match rng.chance(60) {
            true => TINY,
            false => SMALL,
        };
        let draft = Shape { spread: 0, ..shape };
        let draft = match rng.chance(30) {
            true => split_drawn(rng, &draft),
            false => drawn(rng, &draft),
        };
        if has_room(&draft) {
            break draft;
        }
    };
    widen(rng, draft)
}

fn has_room(request: &Request) -> bool {
    usize::from(request.fluents) + WIDER <= FLUENT_LIMIT
        && usize::from(request.actions) + WIDER <= ACTION_LIMIT
        && item_count(&request.plan) + WIDER <= ITEM_LIMIT
        && request.effects.len() + WIDER <= LINES
        && request.allowances.len() + WIDER <= LINES
}

/// What the wide action's lines are about.
struct Wide {
    action: u8,
    /// A literal for each of the fluents in its bodies.
    literals: Vec<u8>,
    /// The literal that its effects make true, of a fluent that is unknown.
    made: u8,
}

/// Adds an action with about 12 open fluents to a request that has room for it, with new fluents. It stands
/// somewhere in the plan. Some of its fluents may be known, or be sensed before, or all may be known until an
/// action makes them unknown. In some requests the plan gets to it in the second of two readings only, and may
/// miss a goal in the first.
pub(crate) fn widen(rng: &mut Rng, mut request: Request) -> Request {
    let first = request.fluents;
    let sensed = if rng.chance(20) { rng.range(1, 2) } else { 0 };
    let open = *rng.pick(&[10, 11, 12, 12, 12, 13, 13, 13, 13, 14, 15]);
    let mut known = *rng.pick(&[0, 0, 0, 1, 2, 4]);
    let count = (open + sensed + known).min(BODY_LIMIT);
    let fluents: Vec<u8> = (first..first + count as u8).collect();
    let literals: Vec<u8> = fluents.iter().map(|f| 2 * f + rng.byte(0, 1)).collect();
    request.fluents += count as u8 + 4;
    let [made, fact, seen, veil] = [4, 3, 2, 1].map(|back| request.fluents - back);
    let wide = Wide {
        action: request.actions,
        literals,
        made: 2 * made + rng.byte(0, 1),
    };
    let [look, lose] = [wide.action + 1, wide.action + 2];
    request.actions += 3;
    known = known.min(count - sensed);
    let lost = match rng.chance(20) {
        true => &fluents[..count - known],
        false => &[],
    };
    for &fluent in &fluents[if lost.is_empty() { count - known } else { 0 }..] {
        let fact = 2 * fluent + rng.byte(0, 1);
        request.facts.push(fact);
        if lost.contains(&fluent) {
            request.effects.push(Effect {
                place: 0,
                action: lose,
                literal: fact ^ 1,
                body: vec![2 * veil],
            });
        }
    }
    request.facts.push(2 * fact);
    let covers = add_wide_lines(rng, &mut request, &wide, fact);
    let mut looked_at = fluents[..sensed].to_vec();
    let item = match rng.chance(25) {
        true => {
            looked_at.push(seen);
            either(rng, seen, Item::act(wide.action))
        }
        false if rng.chance(15) => Item::case(vec![branch(&[], vec![Item::act(wide.action)])]),
        false => Item::act(wide.action),
    };
    let place = match rng.below(3) {
        0 => 0,
        1 => request.plan.len(),
        _ => rng.below(request.plan.len() + 1),
    };
    request.plan.insert(place, item);
    if !lost.is_empty() {
        request.plan.insert(place, Item::act(lose));
        request.allowances.push(Allowance {
            action: lose,
            body: Vec::new(),
        });
    }
    if !looked_at.is_empty() {
        request.plan.insert(rng.below(place + 1), Item::act(look));
        request.allowances.push(Allowance {
            action: look,
            body: Vec::new(),
        });
        let line = |fluent| Knowledge {
            place: 0,
            action: look,
            fluent,
        };
        request.knowledge.extend(looked_at.into_iter().map(line));
    }
    if covers || rng.chance(10) {
        request.goals.push(wide.made);
    }
    rng.shuffle(&mut request.effects);
    rng.shuffle(&mut request.allowances);
    request
}

/// Nothing where a fluent is true, and an item where it is false.
fn either(rng: &mut Rng, fluent: u8, item: Item) -> Item {
    let mut branches = vec![
        branch(&[2 * fluent], Vec::new()),
        branch(&[2 * fluent + 1], vec![item]),
    ];
    rng.shuffle(&mut branches);
    Item::case(branches)
}

fn branch(condition: &[u8], sequence: Vec<Item>) -> Branch {
    Branch {
        condition: condition.to_vec(),
        sequence,
    }
}

/// The lines of the wide action: its literals stand in one body, here and there in several, or in bodies
/// of which one holds whatever the fluents are; in effects, in executability lines or in both. Says
/// whether its effects make their literal true in every filling.
fn add_wide_lines(rng: &mut Rng, request: &mut Request, wide: &Wide, fact: u8) -> bool {
    let covering = rng.chance(45);
    let mut bodies = match covering {
        true => cover(&wide.literals),
        false => scattered(rng, &wide.literals),
    };
    // A body with this literal is known false, and one with its complement is not less known.
    if !covering && rng.chance(40) {
        let index = rng.below(bodies.len());
        if bodies[index].len() < BODY_LIMIT {
            bodies[index].push(2 * fact + rng.byte(0, 1));
        }
    }
    let in_effects = match rng.below(10) {
        0..=3 => vec![true; bodies.len()],
        4..=6 => vec![false; bodies.len()],
        _ => bodies.iter().map(|_| rng.chance(50)).collect(),
    };
    let senses = rng.chance(50) && !in_effects.contains(&true);
    if senses {
        request.knowledge.push(Knowledge {
            place: 0,
            action: wide.action,
            fluent: wide.made / 2,
        });
    }
    let allowed = match in_effects.contains(&false) {
        true => rng.chance(if covering { 20 } else { 60 }),
        false => rng.chance(85),
    };
    if allowed {
        let body = match rng.chance(70) {
            true => Vec::new(),
            false => vec![2 * fact],
        };
        request.allowances.push(Allowance {
            action: wide.action,
            body,
        });
    }
    let all_in_effects = !in_effects.contains(&false);
    let none_in_effects = !in_effects.contains(&true);
    if none_in_effects && !senses && rng.chance(70) {
        add_effect(request, wide, Vec::new());
    }
    for (body, in_effect) in bodies.into_iter().zip(in_effects) {
        match in_effect {
            true => add_effect(request, wide, body),
            false => request.allowances.push(Allowance {
                action: wide.action,
                body,
            }),
        }
    }
    covering && all_in_effects
}

fn add_effect(request: &mut Request, wide: &Wide, body: Vec<u8>) {
    request.effects.push(Effect {
        place: 0,
        action: wide.action,
        literal: wide.made,
        body,
    });
}

/// Bodies of which one holds whatever the values are: each has a literal and the complements of those
/// before it, and the last has all complements.
fn cover(literals: &[u8]) -> Vec<Vec<u8>> {
    let against = |upto: usize| literals[..upto].iter().map(|literal| literal ^ 1);
    let one = |index: usize| against(index).chain([literals[index]]).collect();
    let mut bodies: Vec<Vec<u8>> = (0..literals.len()).map(one).collect();
    bodies.push(against(literals.len()).collect());
    bodies
}

/// The literals in one body, or in several, some of them twice.
fn scattered(rng: &mut Rng, literals: &[u8]) -> Vec<Vec<u8>> {
    if rng.chance(40) {
        return vec![literals.to_vec()];
    }
    let mut bodies: Vec<Vec<u8>> = vec![Vec::new(); rng.range(2, 5)];
    let count = bodies.len();
    for &literal in literals {
        bodies[rng.below(count)].push(literal);
        let other = &mut bodies[rng.below(count)];
        if !has(other, literal / 2) && rng.chance(20) {
            other.push(literal ^ rng.byte(0, 1));
        }
    }
    bodies
}
