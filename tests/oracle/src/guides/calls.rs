//! Random requests with budgets for a guide to be started with: right or damaged, verified or not, some of them at the
//! limits of items, bytes and readings.
//!
//! A start takes what a judging call does, without a lent state.

use crate::calls::{damaged_judge_call, sound_judge_call, JudgeCall, Outlook};
use crate::derives::calls::{always, any_draft, call_of, effect, knowledge, looking, short};
use crate::encode::encode_request;
use crate::generate::{drawn, nest, Shape, FULL, MIDDLE, SMALL, TINY};
use crate::model::{item_count, Branch, Item, Request};
use crate::reader::{BODY_LIMIT, FLUENT_LIMIT, ITEM_LIMIT, NESTING_LIMIT, REQUEST_LIMIT};
use crate::rng::Rng;

/// Most lines of a section.
const SECTION_LIMIT: usize = 255;
/// Most bytes of a request that a trial can have.
pub(crate) const TRIAL_BYTES: usize = 65_535;

/// A call of any kind; about a fifth of the requests is damaged.
pub fn guide_call(rng: &mut Rng) -> JudgeCall {
    let draft = match rng.below(1_000) {
        0..=199 => {
            let draft = any_draft(rng);
            return without_state(damaged_judge_call(rng, &draft));
        }
        200..=399 => {
            let draft = any_draft(rng);
            return without_state(sound_judge_call(rng, &draft));
        }
        400..=404 => return too_long(rng),
        405..=419 => Request {
            plan: Vec::new(),
            ..careful(rng)
        },
        420..=439 => looking(rng),
        440..=449 => nested(rng),
        450..=453 => longest(rng),
        454..=457 => many_actions(rng),
        458..=467 => many_readings(rng),
        468..=699 => careful(rng),
        _ => {
            let draft = careful(rng);
            looking_again(rng, draft)
        }
    };
    call_of(rng, &draft)
}

fn without_state(mut call: JudgeCall) -> JudgeCall {
    call.lent.clear();
    call
}

/// A request that is one byte too long, far too long, or just not.
fn too_long(rng: &mut Rng) -> JudgeCall {
    let draft = longest(rng);
    let mut call = call_of(rng, &draft);
    let length = *rng.pick(&[
        REQUEST_LIMIT,
        REQUEST_LIMIT + 1,
        2 * REQUEST_LIMIT,
        TRIAL_BYTES,
    ]);
    call.request.resize(length, rng.byte(0, 255));
    call.outlook = Outlook::Open;
    call
}

/// A request that is mostly verified.
pub(crate) fn careful(rng: &mut Rng) -> Request {
    let shape = match rng.below(100) {
        0..=34 => TINY,
        35..=84 => SMALL,
        85..=97 => MIDDLE,
        _ => FULL,
    };
    short(rng, |rng| drawn(rng, &carefully(&shape)))
}

/// A shape without careless choices.
pub(crate) fn carefully(shape: &Shape) -> Shape {
    Shape {
        careless: 0,
        ..*shape
    }
}

/// The same with sensing actions that come twice in a row here and there, and that sense more fluents: what is known
/// is sensed too. What is verified stays so.
pub(crate) fn looking_again(rng: &mut Rng, mut draft: Request) -> Request {
    let mut more = Vec::new();
    for line in &draft.knowledge {
        if rng.chance(30) {
            more.push(knowledge(line.action, rng.byte(0, draft.fluents - 1)));
        }
    }
    for line in more {
        let place = rng.below(draft.knowledge.len() + 1);
        draft.knowledge.insert(place, line);
    }
    let senses = |action: u8| draft.knowledge.iter().any(|line| line.action == action);
    draft.plan = twice(rng, &draft.plan, &senses);
    let long = item_count(&draft.plan) > ITEM_LIMIT
        || draft.knowledge.len() > SECTION_LIMIT
        || encode_request(&draft).bytes.len() > REQUEST_LIMIT;
    match long {
        true => careful(rng),
        false => draft,
    }
}

fn twice(rng: &mut Rng, sequence: &[Item], senses: &impl Fn(u8) -> bool) -> Vec<Item> {
    let mut items = Vec::new();
    for item in sequence {
        match item {
            Item::Action { action, .. } => {
                let times = 1 + usize::from(senses(*action) && rng.chance(50));
                items.extend(vec![Item::act(*action); times]);
            }
            Item::Branching { branches, .. } => {
                let branch = |branch: &Branch| Branch {
                    condition: branch.condition.clone(),
                    sequence: twice(rng, &branch.sequence, senses),
                };
                items.push(Item::case(branches.iter().map(branch).collect()));
            }
        }
    }
    items
}

/// A request with branchings as deep as they may be, mostly verified.
fn nested(rng: &mut Rng) -> Request {
    let mut request = drawn(rng, &carefully(&TINY));
    let inner = request.plan.clone();
    request.plan = nest(rng, &request, NESTING_LIMIT);
    request.plan.extend(inner);
    request
}

/// A request that has as many bytes as there may be: bodies and conditions as long as they can be, of fluents that are
/// true.
pub(crate) fn longest(rng: &mut Rng) -> Request {
    let fluents = rng.byte(BODY_LIMIT as u8 + 1, 40);
    let some_true = |rng: &mut Rng| {
        let mut all: Vec<u8> = (0..fluents).map(|fluent| 2 * fluent).collect();
        while all.len() > BODY_LIMIT {
            all.remove(rng.below(all.len()));
        }
        all
    };
    let mut request = Request {
        fluents,
        actions: 3,
        facts: (0..fluents).map(|fluent| 2 * fluent).collect(),
        goals: vec![2 * rng.byte(0, fluents - 1)],
        ..Request::default()
    };
    for _ in 0..rng.range(100, SECTION_LIMIT) {
        let mut line = effect(0, 2 * rng.byte(0, fluents - 1));
        line.body = some_true(rng);
        request.effects.push(line);
    }
    for _ in 0..rng.range(100, SECTION_LIMIT) {
        let mut line = always(rng.byte(0, 2));
        line.body = some_true(rng);
        request.allowances.push(line);
    }
    request.allowances[0].action = 0;
    request.allowances[1].action = 1;
    request.knowledge = (0..fluents).map(|fluent| knowledge(1, fluent)).collect();
    let length = |request: &Request| encode_request(request).bytes.len();
    while length(&request) < REQUEST_LIMIT - 30 {
        let sequence = vec![Item::act(rng.byte(0, 1)); rng.below(2)];
        let condition = some_true(rng);
        request.plan.push(Item::case(vec![Branch {
            condition,
            sequence,
        }]));
    }
    while length(&request) < REQUEST_LIMIT {
        request.plan.push(Item::act(0));
    }
    request
}

/// A request whose plan has as many actions as there may be, or one less, and few look at what is known or isn't.
pub(crate) fn many_actions(rng: &mut Rng) -> Request {
    let action = |rng: &mut Rng| match rng.below(100) {
        0 => 2,
        1..=4 => 1,
        _ => 0,
    };
    let items = ITEM_LIMIT - rng.below(2);
    let mut plan: Vec<Item> = (0..items).map(|_| Item::act(action(rng))).collect();
    if rng.chance(30) {
        plan[items - 1] = Item::act(1);
    }
    Request {
        fluents: 3,
        actions: 3,
        facts: vec![0],
        effects: vec![effect(0, 2)],
        allowances: [0, 1, 2].map(always).to_vec(),
        knowledge: vec![knowledge(1, 0), knowledge(2, 0), knowledge(2, 2)],
        plan,
        ..Request::default()
    }
}

/// A request in which all of 128 fluents are sensed at once, and all but a few are known.
pub(crate) fn many_readings(rng: &mut Rng) -> Request {
    let fluents = FLUENT_LIMIT as u8;
    let unknown = rng.below(4);
    let mut facts: Vec<u8> = (0..fluents).map(|f| 2 * f + rng.byte(0, 1)).collect();
    for _ in 0..unknown {
        facts.remove(rng.below(facts.len()));
    }
    let mut lines: Vec<u8> = (0..fluents)
        .chain((0..40).map(|_| rng.byte(0, fluents - 1)))
        .collect();
    rng.shuffle(&mut lines);
    let changed = rng.byte(0, fluents - 1);
    let plan = match rng.below(4) {
        0 => vec![0],
        1 => vec![0, 0],
        2 => vec![1, 0, 1],
        _ => vec![0, 1, 0],
    };
    Request {
        fluents,
        actions: 2,
        facts,
        effects: vec![effect(1, 2 * changed)],
        allowances: [0, 1].map(always).to_vec(),
        knowledge: lines.iter().map(|&fluent| knowledge(0, fluent)).collect(),
        plan: plan.into_iter().map(Item::act).collect(),
        ..Request::default()
    }
}
