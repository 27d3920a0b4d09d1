//! Random derive calls: requests right or damaged, with plans that are verified or not, some of them at the
//! limits of readings, lines and bytes, and rooms of the right length and others.
//!
//! A derive call takes what a judging call does. Its lent bytes are the room.

use super::again::sizes;
use super::call::written;
use crate::calls::{
    budget_near, damaged_judge_call, sound_judge_call, JudgeCall, Outlook, COUNT_CAP,
};
use crate::encode::encode_request;
use crate::generate::{any_request, drawn, spread, Shape, FULL, LARGE, MIDDLE, SMALL, TINY};
use crate::indexes::calls::{bytes, FAR_TOO_LONG};
use crate::model::{Allowance, Branch, Effect, Item, Knowledge, Request};
use crate::open;
use crate::reader::{DERIVATION_LIMIT, LINE_LIMIT, REQUEST_LIMIT};
use crate::rng::Rng;
use crate::walk::{walk, Verdict};

/// A budget that is enough for most walks.
const ENOUGH: u32 = 100_000;
/// Most bytes of a room for a request that has no derivation.
const ANY_BYTES: usize = 40;
/// No room is made longer than this to hold a derivation that is too long for the format.
const LONGEST_ROOM: usize = 200_000;

/// Most lines of a path.
const ON_A_PATH: usize = 1_200;

/// A call of any kind; about a quarter of the requests is damaged.
pub fn derive_call(rng: &mut Rng) -> JudgeCall {
    let call = roomless_call(rng);
    with_room(rng, call)
}

/// A call of any kind without a room.
pub fn roomless_call(rng: &mut Rng) -> JudgeCall {
    match rng.below(100) {
        0..=23 => {
            let draft = any_draft(rng);
            damaged_judge_call(rng, &draft)
        }
        24..=49 => {
            let draft = any_draft(rng);
            sound_judge_call(rng, &draft)
        }
        50..=80 => {
            let draft = careful(rng);
            call_of(rng, &draft)
        }
        81..=91 => {
            let draft = looking(rng);
            call_of(rng, &draft)
        }
        92..=96 => {
            let lines = near_line_limit(rng);
            let draft = match rng.chance(10) {
                true => of_looks(rng, lines),
                false => of_lines(rng, lines),
            };
            call_of(rng, &draft)
        }
        _ => {
            let length = near_byte_limit(rng);
            let draft = of_bytes(rng, length);
            call_of(rng, &draft)
        }
    }
}

/// A call of an undamaged request, without a room, mostly with a budget that is enough.
pub(crate) fn call_of(rng: &mut Rng, draft: &Request) -> JudgeCall {
    let budget = match rng.chance(70) {
        true => ENOUGH,
        false => budget_near(rng, walk(draft, COUNT_CAP).count()),
    };
    JudgeCall {
        request: encode_request(draft).bytes,
        lent: Vec::new(),
        budget,
        outlook: Outlook::Walked,
    }
}

/// A request of any kind that is not too long.
pub(crate) fn any_draft(rng: &mut Rng) -> Request {
    short(rng, any_request)
}

pub(crate) fn short(rng: &mut Rng, draw: impl Fn(&mut Rng) -> Request) -> Request {
    loop {
        let draft = draw(rng);
        if encode_request(&draft).bytes.len() <= REQUEST_LIMIT {
            return draft;
        }
    }
}

/// A request without whether entries that is often verified, and if not mostly for a goal.
fn careful(rng: &mut Rng) -> Request {
    let shape = match rng.below(100) {
        0..=29 => TINY,
        30..=79 => SMALL,
        80..=95 => MIDDLE,
        96..=97 => LARGE,
        _ => FULL,
    };
    let mut draft = short(rng, |rng| drawn(rng, &without_whether(&shape)));
    if rng.chance(12) {
        // Any literal may be missed.
        let goal = 2 * rng.byte(0, draft.fluents - 1) + rng.byte(0, 1);
        draft.goals.retain(|other| other / 2 != goal / 2);
        draft.goals.push(goal);
        draft.goals.sort_unstable();
    }
    draft
}

/// A shape without whether entries, and without careless choices.
pub fn without_whether(shape: &Shape) -> Shape {
    Shape {
        careless: 0,
        whether: false,
        ..*shape
    }
}

/// The actions of the requests that look, in which `look` senses many fluents and `glance` one.
const LOOK: u8 = 0;
const GLANCE: u8 = 1;
const ACT: u8 = 2;
/// No executability line lets it be run.
const NEVER: u8 = 3;

/// A request with an action that senses fluents of which five to nine are unknown, and some are known.
pub fn looking(rng: &mut Rng) -> Request {
    let unknown = *rng.pick(&[5, 6, 6, 7, 7, 7, 8, 9]);
    let request = looking_at(rng, unknown);
    match rng.chance(15) {
        true => spread(rng, &request),
        false => request,
    }
}

/// The same with so many that are unknown at the start.
pub fn looking_at(rng: &mut Rng, unknown: u8) -> Request {
    let looked = unknown + *rng.pick(&[0, 0, 1, 3]);
    // One fluent more is true, and one is glanced at.
    let (sure, glanced) = (looked, looked + 1);
    let mut fluents: Vec<u8> = (0..looked).collect();
    rng.shuffle(&mut fluents);
    let known = fluents[usize::from(unknown)..].iter();
    let mut facts: Vec<u8> = known.map(|&fluent| 2 * fluent + rng.byte(0, 1)).collect();
    facts.push(2 * sure);
    facts.sort_unstable();
    let sensing = |action| move |&fluent: &u8| knowledge(action, fluent);
    let mut request = Request {
        fluents: looked + 2,
        actions: 4,
        facts,
        effects: vec![effect(ACT, 2 * sure)],
        allowances: [LOOK, GLANCE, ACT].map(always).to_vec(),
        knowledge: fluents.iter().map(sensing(LOOK)).collect(),
        plan: looking_plan(rng, sure, glanced),
        ..Request::default()
    };
    request.knowledge.push(knowledge(GLANCE, glanced));
    request.goals = match rng.below(10) {
        0..=2 => Vec::new(),
        3..=8 => vec![2 * sure],
        _ => vec![2 * fluents[0]],
    };
    if rng.chance(8) {
        request.plan.push(Item::act(NEVER));
    }
    request
}

/// A look at the start, later, twice, in each reading of a glance or in its second one, in a branch that is
/// not followed and behind it, or in the second reading with many lines in the first.
fn looking_plan(rng: &mut Rng, sure: u8, glanced: u8) -> Vec<Item> {
    let [look, glance, act] = [LOOK, GLANCE, ACT].map(Item::act);
    let if_glanced = |yes: Vec<Item>, no: Vec<Item>| either(glanced, yes, no);
    match rng.below(20) {
        0..=2 => vec![look],
        3..=4 => vec![act.clone(), look, act],
        5..=6 => vec![look.clone(), look],
        7..=9 => vec![glance, look],
        10..=13 => vec![glance, if_glanced(vec![act], vec![look])],
        14..=15 => vec![glance, if_glanced(vec![look], vec![act])],
        16..=18 => {
            let followed = rng
                .pick(&[Vec::new(), vec![look.clone()], vec![act]])
                .clone();
            vec![either(sure, followed, vec![look.clone()]), look]
        }
        _ => {
            let many = vec![act; LINE_LIMIT / 2 + rng.below(20)];
            vec![glance, if_glanced(many, vec![look])]
        }
    }
}

/// A branching on a fluent, of which the branch for false comes first.
fn either(fluent: u8, yes: Vec<Item>, no: Vec<Item>) -> Item {
    let branch = |literal, sequence| Branch {
        condition: vec![literal],
        sequence,
    };
    Item::case(vec![branch(2 * fluent + 1, no), branch(2 * fluent, yes)])
}

pub(crate) fn always(action: u8) -> Allowance {
    Allowance {
        action,
        body: Vec::new(),
    }
}

pub(crate) fn effect(action: u8, literal: u8) -> Effect {
    Effect {
        place: 0,
        action,
        literal,
        body: Vec::new(),
    }
}

pub(crate) fn knowledge(action: u8, fluent: u8) -> Knowledge {
    Knowledge {
        place: 0,
        action,
        fluent,
    }
}

/// A request of actions that look at so many fluents each, one after the other, and nothing else.
pub fn of_readings(looked: &[u8]) -> Request {
    let actions = looked.len() as u8;
    let sensed = (0..actions).zip(looked);
    let sensed = sensed.flat_map(|(action, &fluents)| (0..fluents).map(move |_| action));
    Request {
        fluents: looked.iter().sum(),
        actions,
        allowances: (0..actions).map(always).collect(),
        knowledge: (sensed.zip(0..))
            .map(|(action, fluent)| knowledge(action, fluent))
            .collect(),
        plan: (0..actions).map(Item::act).collect(),
        ..Request::default()
    }
}

/// A request whose derivation has so many lines, at least 577, with a short plan: a look at six fluents, one at
/// two more, and looks at one that is known before, between and behind these, of which each comes to one line,
/// to 64 or to 256.
pub fn of_looks(rng: &mut Rng, lines: usize) -> Request {
    let mut request = of_readings(&[6, 2, 1]);
    request.facts = vec![2 * 8];
    let more = lines - (1 + 64 + 2 * 256);
    let behind = rng.below(more / 256 + 1);
    let between = (more - 256 * behind) / 64;
    let before = more - 256 * behind - 64 * between;
    let known = |times| vec![Item::act(2); times];
    request.plan = [
        known(before),
        vec![Item::act(0)],
        known(between),
        vec![Item::act(1)],
        known(behind),
    ]
    .concat();
    request
}

/// As many lines as there may be, one less, one or two more, about as many, or far more.
fn near_line_limit(rng: &mut Rng) -> usize {
    match rng.below(10) {
        0..=5 => LINE_LIMIT + *rng.pick(&[0, 0, 0, 1, 1, 2]) - rng.below(2),
        6..=7 => rng.range(LINE_LIMIT - 100, LINE_LIMIT + 100),
        _ => rng.range(LINE_LIMIT, 4 * LINE_LIMIT),
    }
}

/// A request whose derivation has so many lines, or would have: up to 32 readings of one look, with actions
/// and branchings before and behind it, or no look. On each path there are few enough lines for the items that
/// a plan may have.
pub fn of_lines(rng: &mut Rng, lines: usize) -> Request {
    let least = lines.div_ceil(ON_A_PATH).next_power_of_two().ilog2() as u8;
    let looked = least.max(*rng.pick(&[0, 1, 2, 3, 4, 4, 5, 5]));
    let readings = 1 << looked;
    let mut plan = Vec::new();
    let mut behind = lines - 2;
    if looked > 0 || rng.chance(30) {
        // A line for the look itself, and two for each end state.
        let most = (lines - 1) / readings - 2;
        behind = most - rng.below(4).min(most);
        plan = so_many_lines(rng, lines - 1 - readings * (2 + behind));
        plan.push(Item::act(LOOK));
    }
    plan.extend(so_many_lines(rng, behind));
    // Where nothing is to be read, a fluent that is known is looked at.
    let fluents = 0..looked.max(1);
    Request {
        fluents: looked + 3,
        actions: 3,
        facts: [vec![0; usize::from(looked == 0)], vec![2 * (looked + 1)]].concat(),
        effects: vec![effect(ACT, 2 * (looked + 2))],
        allowances: [LOOK, ACT].map(always).to_vec(),
        knowledge: fluents.map(|fluent| knowledge(LOOK, fluent)).collect(),
        plan,
        goals: vec![2 * (looked + 1)],
        ..Request::default()
    }
}

/// Items that come to so many lines on a path: two for an action, and one for a branching.
fn so_many_lines(rng: &mut Rng, lines: usize) -> Vec<Item> {
    let mut items = Vec::new();
    let mut left = lines;
    while left > 0 {
        let followed = |sequence| {
            let condition = Vec::new();
            Item::case(vec![Branch {
                condition,
                sequence,
            }])
        };
        let (item, its) = match rng.below(20) {
            0 if left > 2 => (followed(vec![Item::act(ACT)]), 3),
            1..=18 if left > 1 => (Item::act(ACT), 2),
            _ => (followed(Vec::new()), 1),
        };
        items.push(item);
        left -= its;
    }
    items
}

/// As many bytes as a derivation may have, a few less or more, or about as many.
fn near_byte_limit(rng: &mut Rng) -> usize {
    match rng.below(10) {
        0..=3 => DERIVATION_LIMIT,
        4..=5 => DERIVATION_LIMIT + 1,
        6..=7 => DERIVATION_LIMIT - rng.below(6),
        _ => rng.range(DERIVATION_LIMIT - 10_000, DERIVATION_LIMIT + 30_000),
    }
}

/// A request whose derivation has so many bytes, by one path of actions; what is missing is in a branch that
/// is not followed, of a branching that only the last line has.
pub fn of_bytes(rng: &mut Rng, length: usize) -> Request {
    let known = rng.byte(1, 30);
    let facts: Vec<u8> = (0..known).map(|f| 2 * f + rng.byte(0, 1)).collect();
    let mut goals = facts.clone();
    goals.retain(|_| rng.chance(40));
    let first = facts[0];
    let request = Request {
        fluents: known + 1,
        actions: 3,
        effects: vec![effect(ACT, 2 * known)],
        allowances: vec![always(ACT)],
        facts,
        goals,
        ..Request::default()
    };
    let with = |runs: usize, more: usize| {
        let branch = |condition, sequence| Branch {
            condition: vec![condition],
            sequence,
        };
        let branches = vec![
            branch(first, Vec::new()),
            branch(first ^ 1, vec![Item::act(ACT); more]),
        ];
        let mut plan = vec![Item::case(branches)];
        plan.extend(vec![Item::act(ACT); runs]);
        Request {
            plan,
            ..request.clone()
        }
    };
    let length_of = |runs: usize| {
        let draft = with(runs, 0);
        sizes(&draft, &encode_request(&draft).bytes).bytes as usize
    };
    let (mut runs, mut too_many) = (0, LINE_LIMIT / 2);
    while runs + 1 < too_many {
        let middle = (runs + too_many) / 2;
        match length_of(middle) <= length {
            true => runs = middle,
            false => too_many = middle,
        }
    }
    with(runs, length - length_of(runs))
}

/// The call with a room for what it may write.
pub fn with_room(rng: &mut Rng, mut call: JudgeCall) -> JudgeCall {
    let length = room_length(rng, length_of(&call));
    call.lent = bytes(rng, length);
    call
}

/// The length of the derivation that a call would write in room enough.
pub fn length_of(call: &JudgeCall) -> Option<usize> {
    let read = open(&call.request).ok()?;
    match walk(&read, call.budget) {
        Verdict::Verified { .. } if read.whether.is_empty() => {
            Some(written(&read).ok()?.len().min(LONGEST_ROOM))
        }
        _ => None,
    }
}

/// As long as a derivation of this length, a byte or some bytes shorter or longer, as the longest one that
/// there can be, or about as long, empty, or far too long.
fn room_length(rng: &mut Rng, derivation: Option<usize>) -> usize {
    let right = derivation.unwrap_or_else(|| rng.range(1, ANY_BYTES));
    match rng.below(100) {
        0..=31 => right,
        32..=43 => right - 1,
        44..=51 => right + 1,
        52..=61 => right + rng.range(2, 20),
        62..=69 => 0,
        70..=79 => DERIVATION_LIMIT,
        80..=82 => DERIVATION_LIMIT - 1,
        83..=85 => DERIVATION_LIMIT + 1,
        86..=91 => rng.below(right),
        92..=98 => rng.below(2 * right),
        _ => FAR_TOO_LONG,
    }
}
