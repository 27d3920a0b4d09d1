//! Random release calls: files with 1 to 64 plans, right or damaged in the table, in the plan
//! count, in the first, a middle or the last plan or behind it, with rows and budgets.

use std::ops::Range;

use super::call::ROW_NUMBERS;
use crate::answer::{Answer, Fault, REQUEST};
use crate::calls::COUNT_CAP;
use crate::damage::{
    contradict, damage_marked, extended, flip, make_overlap, mix, too_long, Bounds, Damaged,
};
use crate::encode::{encode_release, EncodedRelease};
use crate::generate::{any_request, asked, drawn, nest, Shape, MIDDLE, SMALL, TINY};
use crate::model::{Item, Request};
use crate::plans;
use crate::reader::{ITEM_LIMIT, NESTING_LIMIT, PLAN_LIMIT, REQUEST_LIMIT};
use crate::rng::Rng;
use crate::walk::walk;

/// The largest budget for a file of many plans in which one counts more.
const MANY_CAP: u32 = 2_000;
/// More plans than this are many.
const FEW_PLANS: usize = 4;

/// Most knowledge lines of an action along which plans are grown.
const MOST_SENSED: usize = 8;

/// What is certain about a call before it is made.
#[derive(Clone, Debug, PartialEq, Eq)]
pub enum Outlook {
    /// Nothing.
    Open,
    /// Every plan can be read, so each is walked or refused by 18.
    Read,
    /// The call's own answer.
    Own(Answer),
    /// The plan with so many before it fails by this fault.
    Failed(usize, Fault),
}

/// A release call.
#[derive(Clone, Debug)]
pub struct ReleaseCall {
    pub file: Vec<u8>,
    pub lent: Vec<u32>,
    pub budget: u32,
    pub outlook: Outlook,
}

/// A file before it is written: a request for its table, and requests over this table for its
/// plans.
#[derive(Clone, Debug)]
pub struct Draft {
    pub table: Request,
    pub plans: Vec<Request>,
}

impl Draft {
    pub fn encode(&self) -> EncodedRelease {
        encode_release(&self.table, &self.plans)
    }
}

/// A release call of any kind; about half of the files are damaged.
pub fn release_call(rng: &mut Rng) -> ReleaseCall {
    let draft = loop {
        let table = any_request(rng);
        let count = plan_count(rng);
        if let Some(draft) = draft(rng, table, count) {
            break draft;
        }
    };
    any_release_call(rng, &draft)
}

/// A call of a small file with few plans.
pub fn small_release_call(rng: &mut Rng, most_plans: usize) -> ReleaseCall {
    loop {
        let shape = *rng.pick(&[TINY, TINY, SMALL]);
        let table = drawn(rng, &shape);
        let count = rng.range(1, most_plans);
        if let Some(draft) = draft(rng, table, count) {
            return any_release_call(rng, &draft);
        }
    }
}

/// A call of a small file with 64 plans, of an item at most.
pub fn full_release_call(rng: &mut Rng) -> ReleaseCall {
    let table = drawn(rng, &TINY);
    let mut plans = Vec::new();
    for _ in 0..PLAN_LIMIT {
        let mut plan = unasked(table.clone(), Vec::new());
        if rng.chance(30) {
            plan.plan = vec![Item::act(rng.byte(0, table.actions - 1))];
        }
        if rng.chance(20) {
            plan.whether = vec![rng.byte(0, table.fluents - 1)];
        }
        plans.push(plan);
    }
    sound_call(rng, &Draft { table, plans })
}

/// A call of a draft, damaged or not. Now and then the row has another length.
fn any_release_call(rng: &mut Rng, draft: &Draft) -> ReleaseCall {
    let mut call = match rng.chance(50) {
        true => damaged_call(rng, draft),
        false => sound_call(rng, draft),
    };
    if rng.chance(5) {
        lend_wrongly(rng, &mut call);
    }
    call
}

fn plan_count(rng: &mut Rng) -> usize {
    match rng.below(100) {
        0..=14 => 1,
        15..=64 => rng.range(2, 5),
        65..=92 => rng.range(6, 16),
        93..=96 => rng.range(17, PLAN_LIMIT - 1),
        _ => PLAN_LIMIT,
    }
}

/// So many plans over the table of a request, its own among them at times; fewer where the file
/// has no room, or none where not even one has.
fn draft(rng: &mut Rng, table: Request, count: usize) -> Option<Draft> {
    let mut draft = Draft {
        plans: Vec::new(),
        table,
    };
    for _ in 0..count {
        let plan = plan(rng, &draft);
        draft.plans.push(plan);
    }
    while draft.encode().whole.bytes.len() > REQUEST_LIMIT {
        draft.plans.pop()?;
    }
    (!draft.plans.is_empty()).then_some(draft)
}

/// A plan over the draft's table.
fn plan(rng: &mut Rng, draft: &Draft) -> Request {
    let own = draft.table.clone();
    match rng.below(1_000) {
        0..=119 => own,
        120..=199 => unasked(own, Vec::new()),
        200..=239 => {
            let depth = rng.range(1, NESTING_LIMIT);
            let nested = nest(rng, &own, depth);
            unasked(own, nested)
        }
        240..=242 => {
            let action = rng.byte(0, own.actions - 1);
            unasked(own, vec![Item::act(action); ITEM_LIMIT])
        }
        243..=309 if !draft.plans.is_empty() => {
            let earlier = rng.pick(&draft.plans).clone();
            turned(rng, earlier)
        }
        310..=369 => {
            let mut plan = grown(rng, own);
            make_overlap(rng, &mut plan.plan, plan.fluents);
            plan
        }
        _ => grown(rng, own),
    }
}

fn unasked(table: Request, plan: Vec<Item>) -> Request {
    Request {
        plan,
        goals: Vec::new(),
        whether: Vec::new(),
        ..table
    }
}

/// A plan grown along its states, or a short one where an action would make too many of these.
fn grown(rng: &mut Rng, table: Request) -> Request {
    let lines = |action: u8| {
        table
            .knowledge
            .iter()
            .filter(move |line| line.action == action)
    };
    if (0..table.actions).any(|action| lines(action).count() > MOST_SENSED) {
        let items = rng.below(4);
        let plan = (0..items).map(|_| Item::act(rng.byte(0, table.actions - 1)));
        let plan = plan.collect();
        return unasked(table, plan);
    }
    let shape: Shape = *rng.pick(&[TINY, TINY, SMALL, SMALL, MIDDLE]);
    asked(rng, table, &shape)
}

/// A plan without its last item, or with a goal turned into its complement.
fn turned(rng: &mut Rng, mut plan: Request) -> Request {
    match plan.goals.is_empty() || rng.chance(50) {
        true => _ = plan.plan.pop(),
        false => {
            let goal = rng.below(plan.goals.len());
            plan.goals[goal] ^= 1;
        }
    }
    plan
}

/// A call with an undamaged file.
pub fn sound_call(rng: &mut Rng, draft: &Draft) -> ReleaseCall {
    let file = draft.encode().whole.bytes;
    let budget = budget(rng, draft);
    ReleaseCall {
        lent: lent_row(rng, &file),
        file,
        budget,
        outlook: Outlook::Read,
    }
}

/// A row of the right length, full of anything; of any length where no length is right.
pub fn lent_row(rng: &mut Rng, file: &[u8]) -> Vec<u32> {
    let plans = match plans(file) as usize {
        0 => rng.below(PLAN_LIMIT + 1),
        plans => plans,
    };
    any_row(rng, ROW_NUMBERS * plans)
}

fn any_row(rng: &mut Rng, length: usize) -> Vec<u32> {
    (0..length).map(|_| rng.bits() as u32).collect()
}

/// Gives a call a row of a wrong length. Refusals before the plans go before 9.
pub fn lend_wrongly(rng: &mut Rng, call: &mut ReleaseCall) {
    let plans = plans(&call.file) as usize;
    let right = ROW_NUMBERS * plans;
    let length = match rng.below(6) {
        0 => 0,
        1 => right + 1,
        2 => right.saturating_sub(1),
        3 => right + ROW_NUMBERS,
        4 => right.saturating_sub(ROW_NUMBERS),
        _ => *rng.pick(&[1, plans, 2 * right, ROW_NUMBERS * PLAN_LIMIT]),
    };
    call.lent = any_row(rng, length);
    if plans > 0 && length != right {
        call.outlook = Outlook::Own(Answer::neither(9, 0));
    }
}

/// A budget below, at, just above or far above the count of one of the walks.
fn budget(rng: &mut Rng, draft: &Draft) -> u32 {
    let cap = most_counted(draft);
    let counted = |plan: &Request| walk(plan, cap).count().map(|count| count as u32);
    let counts: Option<Vec<u32>> = draft.plans.iter().map(counted).collect();
    let Some(counts) = counts else {
        return *rng.pick(&[0, 7, 1_000, cap]);
    };
    let count = *rng.pick(&counts);
    match rng.below(100) {
        0..=11 => count.saturating_sub(1),
        12..=19 => rng.below(count as usize + 1) as u32,
        20..=39 => count,
        40..=47 => count + 1,
        48..=50 => 0,
        51..=55 => u32::MAX,
        _ => 100_000,
    }
}

fn most_counted(draft: &Draft) -> u32 {
    match draft.plans.len() > FEW_PLANS {
        true => MANY_CAP,
        false => COUNT_CAP,
    }
}

/// A call with a damaged file.
pub fn damaged_call(rng: &mut Rng, draft: &Draft) -> ReleaseCall {
    let (file, outlook) = damaged(rng, draft);
    let budget = *rng.pick(&[0, 3, 20, 1_000, most_counted(draft)]);
    ReleaseCall {
        lent: lent_row(rng, &file),
        file,
        budget,
        outlook,
    }
}

/// Damage to the bytes of one part of the file, behind it, to its plan count, or to its structure.
fn damaged(rng: &mut Rng, draft: &Draft) -> (Vec<u8>, Outlook) {
    let bounds = Bounds::of_request(&draft.table);
    match rng.below(100) {
        0..=49 => {
            let file = draft.encode();
            let damaged = damage_part(rng, &file, bounds);
            let outlook = outlook(&file.places, &damaged);
            (damaged.bytes, outlook)
        }
        50..=56 => {
            let file = draft.encode();
            let once = damage_part(rng, &file, bounds).bytes;
            (flip(rng, once), Outlook::Open)
        }
        57..=66 => {
            let file = draft.encode();
            let damaged = extended(rng, file.whole.bytes, bounds);
            let outlook = outlook(&file.places, &damaged);
            (damaged.bytes, outlook)
        }
        67 => {
            let file = draft.encode();
            let damaged = too_long(rng, file.whole.bytes, bounds);
            let outlook = outlook(&file.places, &damaged);
            (damaged.bytes, outlook)
        }
        68..=79 => wrong_plan_count(rng, draft.encode()),
        _ => (misshapen(rng, draft).encode().whole.bytes, Outlook::Open),
    }
}

/// Damage within the table, the plan count, or one plan: the first, the last or any other.
fn damage_part(rng: &mut Rng, file: &EncodedRelease, bounds: Bounds) -> Damaged {
    let part = part(rng, &file.places);
    let bytes = file.whole.bytes.clone();
    match rng.below(10) {
        0 | 1 => {
            let mut bytes = bytes;
            let place = part.start + rng.below(part.len());
            bytes[place] ^= 1 << rng.below(8);
            Damaged::unsure(bytes)
        }
        2 | 3 => {
            let kept = part.start + rng.below(part.len());
            Damaged::sure(bytes[..kept].to_vec(), 11, kept)
        }
        _ => {
            let mut marked = file.whole.clone();
            marked.marks.retain(|mark| part.contains(&mark.place));
            damage_marked(rng, &marked, bounds)
        }
    }
}

/// The bytes of a part.
fn part(rng: &mut Rng, places: &[usize]) -> Range<usize> {
    let plans = places.len() - 2;
    let index = match rng.below(10) {
        0..=2 => return 0..places[0],
        3 => return places[0]..places[1],
        4 | 5 => 0,
        6 | 7 => plans - 1,
        _ => rng.below(plans),
    };
    places[index + 1]..places[index + 2]
}

/// Whose fault it is, where it is certain: the file's, or that of the plan in which it stands.
fn outlook(places: &[usize], damaged: &Damaged) -> Outlook {
    match damaged.expected {
        None => Outlook::Open,
        Some(fault) if matches!(fault.number, 10 | 20) || fault.place <= places[0] => {
            Outlook::Own(Answer::refusal(REQUEST, fault))
        }
        Some(fault) => {
            let begun = places.iter().filter(|&&start| start <= fault.place);
            Outlook::Failed(begun.count() - 2, fault)
        }
    }
}

/// Another plan count: 12, or 20 behind fewer plans, or 11 in one that is not there.
fn wrong_plan_count(rng: &mut Rng, file: EncodedRelease) -> (Vec<u8>, Outlook) {
    let EncodedRelease { whole, places } = file;
    let count = places.len() - 2;
    let mut bytes = whole.bytes;
    let wrong = match rng.below(6) {
        0 => 0,
        1 => PLAN_LIMIT + 1,
        2 => rng.range(PLAN_LIMIT + 1, 255),
        3 => count - 1,
        4 => count + 1,
        _ => rng.range(1, PLAN_LIMIT),
    };
    bytes[places[0]] = wrong as u8;
    let own = |number, place| Outlook::Own(Answer::refusal(REQUEST, Fault::new(number, place)));
    let outlook = match wrong {
        _ if wrong == 0 || wrong > PLAN_LIMIT => own(12, places[0]),
        _ if wrong < count => own(20, places[wrong + 1]),
        _ if wrong > count => Outlook::Failed(count, Fault::new(11, bytes.len())),
        _ => Outlook::Read,
    };
    (bytes, outlook)
}

/// Effects that contradict each other, an action with effects that senses, a plan that is too deep
/// or too long; now and then two things at once.
fn misshapen(rng: &mut Rng, draft: &Draft) -> Draft {
    let mut wrong = draft.clone();
    let index = rng.below(wrong.plans.len());
    match rng.below(20) {
        0..=6 => contradict(rng, &mut wrong.table),
        7..=11 => mix(rng, &mut wrong.table),
        12 => {
            contradict(rng, &mut wrong.table);
            mix(rng, &mut wrong.table);
            wrong.plans[index].plan = nest(rng, &draft.table, NESTING_LIMIT + 1);
        }
        13..=16 => {
            let depth = NESTING_LIMIT + rng.range(1, 2);
            wrong.plans[index].plan = nest(rng, &draft.table, depth);
        }
        17 | 18 => {
            let action = rng.byte(0, draft.table.actions - 1);
            let more = rng.range(1, 5);
            wrong.plans[index].plan = vec![Item::act(action); ITEM_LIMIT + more];
        }
        _ => {
            let plan = &mut wrong.plans[index];
            make_overlap(rng, &mut plan.plan, draft.table.fluents);
            mix(rng, &mut wrong.table);
        }
    }
    wrong
}
