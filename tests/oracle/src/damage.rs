//! Damage to either input: to its bytes, or to its structure before it is written.
//!
//! Where the damage is done to an input that was right before and its outcome is certain, the
//! expected fault comes along.

use crate::answer::Fault;
use crate::encode::{encode_derivation, encode_request, Encoded, Kind, Mark};
use crate::forge::forge;
use crate::generate::{body, long_plan, nest};
use crate::model::{is_positive, Allowance, Branch, Effect, Item, Knowledge, Line, Request};
use crate::reader::{
    ACTION_LIMIT, BODY_LIMIT, BRANCHING, BRANCH_LIMIT, CITATION_LIMIT, DERIVATION_LIMIT,
    FLUENT_LIMIT, ITEM_LIMIT, LINE_LIMIT, LIST_LIMIT, NESTING_LIMIT, REQUEST_LIMIT,
};
use crate::rng::Rng;

/// Bytes after damage, and the fault that must be found, where that is certain.
#[derive(Clone, Debug)]
pub struct Damaged {
    pub bytes: Vec<u8>,
    pub expected: Option<Fault>,
}

impl Damaged {
    pub(crate) fn unsure(bytes: Vec<u8>) -> Damaged {
        Damaged {
            bytes,
            expected: None,
        }
    }

    pub(crate) fn sure(bytes: Vec<u8>, number: u8, place: usize) -> Damaged {
        Damaged {
            bytes,
            expected: Some(Fault::new(number, place)),
        }
    }
}

/// The numbers of fluents and actions, and the longest input: what byte damage has to know.
#[derive(Clone, Copy)]
pub(crate) struct Bounds {
    fluents: u8,
    actions: u8,
    longest: usize,
}

impl Bounds {
    /// Those of a derivation for a request.
    pub fn of_derivation<L>(request: &Request<L>) -> Bounds {
        Bounds {
            fluents: request.fluents,
            actions: request.actions,
            longest: DERIVATION_LIMIT,
        }
    }

    /// Those of a request, or of a release file with this table.
    pub fn of_request<L>(request: &Request<L>) -> Bounds {
        Bounds {
            longest: REQUEST_LIMIT,
            ..Bounds::of_derivation(request)
        }
    }

    /// As many fluents or actions as there can be, or one less.
    fn near_limits(self) -> bool {
        usize::from(self.fluents) + 1 >= FLUENT_LIMIT
            || usize::from(self.actions) + 1 >= ACTION_LIMIT
    }
}

/// Damages a request that was right before.
pub fn damage_request(rng: &mut Rng, request: &Request) -> Damaged {
    let bounds = Bounds::of_request(request);
    if let Some(damaged) = at_limits(rng, || encode_request(request), bounds) {
        return damaged;
    }
    match rng.below(100) {
        0..=59 => damage_bytes(rng, &encode_request(request), bounds),
        60..=66 => {
            let twice = damage_bytes(rng, &encode_request(request), bounds).bytes;
            Damaged::unsure(flip(rng, twice))
        }
        67 => too_many_items(rng, request),
        68..=71 => too_deep(rng, request),
        _ => Damaged::unsure(encode_request(&misshape_request(rng, request)).bytes),
    }
}

/// Damages a derivation that was right before. Line numbers and rules go wrong most often.
pub fn damage_derivation(rng: &mut Rng, request: &Request, lines: &[Line]) -> Damaged {
    let bounds = Bounds::of_derivation(request);
    if let Some(damaged) = at_limits(rng, || encode_derivation(lines), bounds) {
        return damaged;
    }
    match rng.below(100) {
        0..=27 => damage_bytes(rng, &encode_derivation(lines), bounds),
        28..=30 => wrong_line_count(rng, encode_derivation(lines).bytes),
        31..=64 => {
            let mut wrong = lines.to_vec();
            match forge(rng, request, &mut wrong) {
                Some((number, index)) => {
                    let place = encode_derivation(&wrong[..index]).bytes.len();
                    Damaged::sure(encode_derivation(&wrong).bytes, number, place)
                }
                None => damage_bytes(rng, &encode_derivation(lines), bounds),
            }
        }
        _ => {
            let mut wrong = lines.to_vec();
            for _ in 0..*rng.pick(&[1, 1, 1, 2]) {
                misshape_lines(rng, request, &mut wrong);
            }
            Damaged::unsure(encode_derivation(&wrong).bytes)
        }
    }
}

/// Damage to bytes whose marks are known.
pub(crate) fn damage_bytes(rng: &mut Rng, whole: &Encoded, bounds: Bounds) -> Damaged {
    let bytes = whole.bytes.clone();
    let length = bytes.len();
    match rng.below(15) {
        0 | 1 => Damaged::unsure(flip(rng, bytes)),
        2 => {
            let kept = rng.below(length);
            Damaged::sure(bytes[..kept].to_vec(), 11, kept)
        }
        3 => extended(rng, bytes, bounds),
        13 => match rng.below(12) {
            0 => too_long(rng, bytes, bounds),
            _ => Damaged::unsure(flip(rng, bytes)),
        },
        way => strike(rng, whole, bounds, way),
    }
}

/// Damage at one of the marks, of any kind.
pub(crate) fn damage_marked(rng: &mut Rng, whole: &Encoded, bounds: Bounds) -> Damaged {
    let way = rng.range(4, 13);
    strike(rng, whole, bounds, way)
}

/// Damage at a mark, in one of the ways from 4 on.
fn strike(rng: &mut Rng, whole: &Encoded, bounds: Bounds, way: usize) -> Damaged {
    match way {
        4 | 5 => aimed(
            rng,
            whole,
            |mark| matches!(mark.kind, Kind::Count | Kind::LinesCount),
            wrong_count,
        ),
        6 => aimed(
            rng,
            whole,
            |mark| mark.kind == Kind::ItemCount,
            wrong_item_count,
        ),
        7 => aimed(rng, whole, |mark| mark.follows, swapped),
        8 => aimed(rng, whole, |mark| mark.follows, repeated),
        9 | 10 => aimed(
            rng,
            whole,
            |mark| mark.follows && mark.kind == Kind::Literal,
            turned,
        ),
        11 | 12 => too_large(rng, whole, bounds),
        _ => beyond_limits(rng, whole, bounds),
    }
}

/// One bit flipped.
pub(crate) fn flip(rng: &mut Rng, mut bytes: Vec<u8>) -> Vec<u8> {
    if !bytes.is_empty() {
        let place = rng.below(bytes.len());
        bytes[place] ^= 1 << rng.below(8);
    }
    bytes
}

pub(crate) fn extended(rng: &mut Rng, mut bytes: Vec<u8>, bounds: Bounds) -> Damaged {
    let length = bytes.len();
    bytes.extend((0..rng.range(1, 4)).map(|_| rng.byte(0, 255)));
    if bytes.len() > bounds.longest {
        return Damaged::sure(bytes, 10, 0);
    }
    Damaged::sure(bytes, 20, length)
}

pub(crate) fn too_long(rng: &mut Rng, mut bytes: Vec<u8>, bounds: Bounds) -> Damaged {
    let length = bounds.longest + rng.range(1, 40);
    bytes.resize(length, 0);
    Damaged::sure(bytes, 10, 0)
}

/// Damage at a mark of some kind; a flipped bit where there is none.
pub(crate) fn aimed(
    rng: &mut Rng,
    whole: &Encoded,
    wanted: fn(&Mark) -> bool,
    strike: fn(&mut Rng, Vec<u8>, usize) -> Damaged,
) -> Damaged {
    let targets: Vec<usize> = whole
        .marks
        .iter()
        .filter(|mark| wanted(mark))
        .map(|mark| mark.place)
        .collect();
    if targets.is_empty() {
        return Damaged::unsure(flip(rng, whole.bytes.clone()));
    }
    let target = *rng.pick(&targets);
    strike(rng, whole.bytes.clone(), target)
}

/// Counts one beyond the limits of branches, bodies, citations and lists; and others.
const WRONG_COUNTS: [usize; 6] = [
    0,
    BRANCH_LIMIT + 1,
    BODY_LIMIT + 1,
    CITATION_LIMIT + 1,
    LIST_LIMIT + 1,
    255,
];

/// A count off by one, or far out.
pub(crate) fn wrong_count(rng: &mut Rng, mut bytes: Vec<u8>, place: usize) -> Damaged {
    bytes[place] = match rng.below(4) {
        0 | 1 => bytes[place].wrapping_add(1),
        2 => bytes[place].wrapping_sub(1),
        _ => *rng.pick(&WRONG_COUNTS) as u8,
    };
    Damaged::unsure(bytes)
}

/// An item count off by one, or any other up to 65,535.
pub(crate) fn wrong_item_count(rng: &mut Rng, mut bytes: Vec<u8>, place: usize) -> Damaged {
    let count = u16::from_be_bytes([bytes[place], bytes[place + 1]]);
    let wrong = match rng.below(4) {
        0 => count.wrapping_add(1),
        1 => count.wrapping_sub(1),
        2 => u16::MAX,
        _ => rng.bits() as u16,
    };
    bytes[place..place + 2].copy_from_slice(&wrong.to_be_bytes());
    Damaged::unsure(bytes)
}

/// Two neighbouring entries swapped: the second isn't above the first any more.
fn swapped(_: &mut Rng, mut bytes: Vec<u8>, place: usize) -> Damaged {
    bytes.swap(place - 1, place);
    Damaged::sure(bytes, 14, place)
}

fn repeated(_: &mut Rng, mut bytes: Vec<u8>, place: usize) -> Damaged {
    bytes[place] = bytes[place - 1];
    Damaged::sure(bytes, 14, place)
}

/// A literal followed by its complement: 15 after a true one, 14 after a false one.
fn turned(_: &mut Rng, mut bytes: Vec<u8>, place: usize) -> Damaged {
    let before = bytes[place - 1];
    bytes[place] = before ^ 1;
    let number = if is_positive(before) { 15 } else { 14 };
    Damaged::sure(bytes, number, place)
}

/// A fluent, literal or action that is too large. With 128 fluents no literal is, and item 255 is
/// a branching.
pub(crate) fn too_large(rng: &mut Rng, whole: &Encoded, bounds: Bounds) -> Damaged {
    let wrong = |kind| match kind {
        Kind::Action => Some((usize::from(bounds.actions), 255)),
        Kind::Item => Some((usize::from(bounds.actions), BRANCHING - 1)),
        Kind::Literal => Some((2 * usize::from(bounds.fluents), 255)),
        Kind::Fluent | Kind::NamedFluent => Some((usize::from(bounds.fluents), 255)),
        _ => None,
    };
    let targets: Vec<(usize, u8, u8)> = whole
        .marks
        .iter()
        .filter_map(|mark| {
            let (bound, most) = wrong(mark.kind)?;
            Some((mark.place, u8::try_from(bound).ok()?, most))
        })
        .collect();
    let mut bytes = whole.bytes.clone();
    if targets.is_empty() {
        return Damaged::unsure(flip(rng, bytes));
    }
    let (place, bound, most) = *rng.pick(&targets);
    bytes[place] = if rng.chance(50) {
        bound
    } else {
        rng.byte(bound, most)
    };
    Damaged::sure(bytes, 13, place)
}

/// Where there are as many fluents or actions as there can be, or one less: damage beyond the
/// limits, in one of four cases.
pub(crate) fn at_limits(
    rng: &mut Rng,
    whole: impl FnOnce() -> Encoded,
    bounds: Bounds,
) -> Option<Damaged> {
    (bounds.near_limits() && rng.chance(25)).then(|| beyond_limits(rng, &whole(), bounds))
}

/// Beyond the limits of lists, fluents and actions: a count of 129, fluent 128, literal 255 where
/// there are fewer than 128 fluents, an item of 128 to 254.
fn beyond_limits(rng: &mut Rng, whole: &Encoded, bounds: Bounds) -> Damaged {
    match rng.below(4) {
        0 => aimed(
            rng,
            whole,
            |mark| mark.kind == Kind::Count,
            |_, bytes, place| with_byte(bytes, place, LIST_LIMIT as u8 + 1, 12),
        ),
        1 => aimed(
            rng,
            whole,
            |mark| mark.kind == Kind::Fluent,
            |_, bytes, place| with_byte(bytes, place, FLUENT_LIMIT as u8, 13),
        ),
        2 if usize::from(bounds.fluents) < FLUENT_LIMIT => aimed(
            rng,
            whole,
            |mark| mark.kind == Kind::Literal,
            |_, bytes, place| with_byte(bytes, place, 255, 13),
        ),
        _ => aimed(
            rng,
            whole,
            |mark| mark.kind == Kind::Item,
            |rng, bytes, place| {
                let (least, most) = (ACTION_LIMIT as u8, BRANCHING - 1);
                let any = rng.byte(least, most);
                let item = *rng.pick(&[least, least, most, most, any]);
                with_byte(bytes, place, item, 13)
            },
        ),
    }
}

/// One byte changed, which is then refused by this number.
pub(crate) fn with_byte(mut bytes: Vec<u8>, place: usize, byte: u8, number: u8) -> Damaged {
    bytes[place] = byte;
    Damaged::sure(bytes, number, place)
}

/// A ninth branching inside eight.
fn too_deep(rng: &mut Rng, request: &Request) -> Damaged {
    let mut request = request.clone();
    let depth = NESTING_LIMIT + rng.range(1, 2);
    let deep = nest(rng, &request, depth);
    if rng.chance(50) {
        request.plan.truncate(4);
        request.plan.extend(deep);
    } else {
        request.plan = deep;
    }
    Damaged::unsure(encode_request(&request).bytes)
}

/// Item 1,025 and some more.
fn too_many_items(rng: &mut Rng, request: &Request) -> Damaged {
    let mut request = request.clone();
    let more = rng.range(1, 5);
    let long = long_plan(rng, ITEM_LIMIT + more);
    request.actions = request.actions.max(long.actions);
    request.plan = long.plan;
    Damaged::unsure(encode_request(&request).bytes)
}

/// Structures that can be read but not settled, or that a list's order forbids.
fn misshape_request(rng: &mut Rng, request: &Request) -> Request {
    let mut wrong = request.clone();
    match rng.below(5) {
        0 => contradict(rng, &mut wrong),
        1 => mix(rng, &mut wrong),
        2 | 3 => {
            if !make_overlap(rng, &mut wrong.plan, wrong.fluents) {
                contradict(rng, &mut wrong);
            }
        }
        _ => {
            contradict(rng, &mut wrong);
            mix(rng, &mut wrong);
            make_overlap(rng, &mut wrong.plan, wrong.fluents);
        }
    }
    wrong
}

/// Adds an effect anywhere that may contradict another.
pub(crate) fn contradict(rng: &mut Rng, request: &mut Request) {
    if request.effects.len() > 250 {
        request.effects.truncate(250);
    }
    let mut effect = match request.effects.is_empty() {
        true => Effect {
            place: 0,
            action: 0,
            literal: rng.byte(0, 1),
            body: Vec::new(),
        },
        false => rng.pick(&request.effects).clone(),
    };
    if request.effects.is_empty() {
        request.effects.push(effect.clone());
    }
    effect.literal ^= 1;
    // Mostly with a line under which both can happen.
    if rng.chance(40) {
        request.allowances.truncate(250);
        request.allowances.push(Allowance {
            action: effect.action,
            body: Vec::new(),
        });
    }
    match rng.below(4) {
        0 => effect.body.clear(),
        1 => effect.body = body(rng, request.fluents, 2),
        _ => {}
    }
    let place = rng.below(request.effects.len() + 1);
    request.effects.insert(place, effect);
}

/// Gives an action with effects a knowledge line, and an action that senses an effect.
pub(crate) fn mix(rng: &mut Rng, request: &mut Request) {
    let fluent = rng.byte(0, request.fluents - 1);
    if request.effects.is_empty() {
        let action = request.knowledge.first().map_or(0, |line| line.action);
        let effect = Effect {
            place: 0,
            action,
            literal: 2 * fluent,
            body: Vec::new(),
        };
        request.effects.push(effect);
    }
    request.knowledge.truncate(254);
    let action = rng.pick(&request.effects).action;
    let place = rng.below(request.knowledge.len() + 1);
    request.knowledge.insert(
        place,
        Knowledge {
            place: 0,
            action,
            fluent,
        },
    );
}

/// Makes two conditions of some branching overlap; adds a branching where there is none.
pub(crate) fn make_overlap(rng: &mut Rng, sequence: &mut Vec<Item>, fluents: u8) -> bool {
    for item in sequence.iter_mut() {
        let Item::Branching { branches, .. } = item else {
            continue;
        };
        let deeper = rng.chance(50)
            && branches.iter_mut().any(|branch| {
                nests(&branch.sequence) && make_overlap(rng, &mut branch.sequence, fluents)
            });
        if deeper {
            return true;
        }
        if branches.len() < BRANCH_LIMIT {
            let condition = match rng.chance(50) {
                true => rng.pick(branches).condition.clone(),
                false => body(rng, fluents, 1),
            };
            branches.push(Branch {
                condition,
                sequence: Vec::new(),
            });
        } else {
            branches[0].condition.clear();
        }
        return true;
    }
    if sequence.len() >= 100 {
        return false;
    }
    let empty = |length| Branch {
        condition: body(rng, fluents, length),
        sequence: Vec::new(),
    };
    sequence.push(Item::case([1, 1, 2].map(empty).to_vec()));
    true
}

fn nests(sequence: &[Item]) -> bool {
    sequence
        .iter()
        .any(|item| matches!(item, Item::Branching { .. }))
}

/// No line, or line 1,025.
pub(crate) fn wrong_line_count(rng: &mut Rng, mut bytes: Vec<u8>) -> Damaged {
    let count = u16::from_be_bytes([bytes[0], bytes[1]]);
    let most = LINE_LIMIT as u16;
    let wrong = match rng.below(6) {
        0 => 0,
        1 => most + 1,
        2 => u16::MAX,
        3 => rng.bits() as u16,
        4 => count + 1,
        _ => count - 1,
    };
    bytes[..2].copy_from_slice(&wrong.to_be_bytes());
    match wrong == 0 || wrong > most {
        true => Damaged::sure(bytes, 12, 0),
        false => Damaged::unsure(bytes),
    }
}

/// Lines that can be read, or nearly, but don't follow.
fn misshape_lines(rng: &mut Rng, request: &Request, lines: &mut Vec<Line>) {
    let index = rng.below(lines.len());
    let fluents = request.fluents;
    match rng.below(16) {
        0 => lines[index].rule = *rng.pick(&[0, 7, 8, 255]),
        1 => lines[index].rule = rng.byte(1, 6),
        2 | 3 => wrong_citations(rng, &mut lines[index].cites),
        4 | 5 => wrong_citation(rng, lines.len(), index, &mut lines[index].cites),
        6 | 7 => turn_citations(rng, lines.iter_mut().map(|line| &mut line.cites)),
        8 => drop_entry(rng, &mut lines[index].before),
        9 => drop_entry(rng, &mut lines[index].after),
        10 => lines[index].before = body(rng, fluents, 2),
        11 => lines[index].after = body(rng, fluents, 2),
        12 => wrong_sequence(rng, request, &mut lines[index].sequence),
        13 if lines.len() > 1 => {
            lines.pop();
        }
        14 => lines.push(lines[index].clone()),
        _ => wrong_end(rng, request, lines),
    }
}

/// Another number of citations.
pub(crate) fn wrong_citations(rng: &mut Rng, cites: &mut Vec<u16>) {
    match rng.below(3) {
        0 => {
            cites.pop();
        }
        1 if cites.len() < CITATION_LIMIT => cites.push(cites.first().copied().unwrap_or(0)),
        _ => {
            let cited = cites.first().copied().unwrap_or(0);
            let most = CITATION_LIMIT;
            *cites = vec![cited; *rng.pick(&[0, 1, 2, 3, 4, 5, 6, 8, most - 1, most])];
        }
    }
}

/// A citation of the line itself, a later line, one that doesn't exist, or another earlier one.
pub(crate) fn wrong_citation(rng: &mut Rng, length: usize, index: usize, cites: &mut [u16]) {
    let cited = match rng.below(4) {
        0 => index,
        1 => rng.range(index, length - 1),
        2 => length + rng.below(60_000),
        _ => rng.below(index + 1),
    };
    if !cites.is_empty() {
        let place = rng.below(cites.len());
        cites[place] = cited as u16;
    }
}

/// Some line's citations in another order, or with one of them for another.
pub(crate) fn turn_citations<'a>(rng: &mut Rng, all: impl Iterator<Item = &'a mut Vec<u16>>) {
    let mut several: Vec<&mut Vec<u16>> = all.filter(|cites| cites.len() > 1).collect();
    if several.is_empty() {
        return;
    }
    let chosen = rng.below(several.len());
    let cites = &mut several[chosen];
    if rng.chance(70) {
        let place = rng.range(1, cites.len() - 1);
        cites.swap(place - 1, place);
    } else {
        let place = rng.below(cites.len());
        cites[place] = cites[0];
    }
}

pub(crate) fn drop_entry(rng: &mut Rng, list: &mut Vec<u8>) {
    if !list.is_empty() {
        list.remove(rng.below(list.len()));
    }
}

/// Another sequence: an item more, less or other, overlapping conditions, too deep, too long.
pub(crate) fn wrong_sequence(rng: &mut Rng, request: &Request, sequence: &mut Vec<Item>) {
    let action = rng.byte(0, request.actions - 1);
    match rng.below(8) {
        0 | 1 => {
            make_overlap(rng, sequence, request.fluents);
        }
        2 => *sequence = nest(rng, request, NESTING_LIMIT + 1),
        3 if rng.chance(20) => *sequence = vec![Item::act(action); ITEM_LIMIT + 1],
        4 => {
            sequence.pop();
        }
        5 => sequence.insert(0, Item::act(action)),
        _ => sequence.push(Item::act(action)),
    }
}

/// A last line that follows but isn't the question.
fn wrong_end(rng: &mut Rng, request: &Request, lines: &mut Vec<Line>) {
    let Some(last) = lines.last().cloned() else {
        return;
    };
    if lines.len() == LINE_LIMIT {
        return;
    }
    let mut other = Line {
        rule: 6,
        cites: vec![lines.len() as u16 - 1],
        ..last
    };
    match rng.below(3) {
        0 => drop_entry(rng, &mut other.after),
        1 => {
            let list = body(rng, request.fluents, 2);
            other = Line {
                before: list.clone(),
                after: list,
                sequence: Vec::new(),
                ..other
            };
            other.rule = 1;
            other.cites.clear();
        }
        _ => {
            let free = |f: &u8| !other.before.iter().any(|literal| literal / 2 == *f);
            let unknown: Vec<u8> = (0..request.fluents).filter(free).collect();
            if !unknown.is_empty() {
                other.before.push(2 * rng.pick(&unknown));
                other.before.sort_unstable();
            }
        }
    }
    lines.push(other);
}

/// Gives a request a whether list that isn't empty.
pub fn add_whether(rng: &mut Rng, request: &mut Request) {
    request.whether = vec![rng.byte(0, request.fluents - 1)];
}

/// Takes all executability lines of an action away, or adds one with any body.
pub fn change_allowances(rng: &mut Rng, request: &mut Request) {
    let action = rng.byte(0, request.actions - 1);
    if rng.chance(60) {
        request.allowances.retain(|line| line.action != action);
    } else if request.allowances.len() < 255 {
        let body = body(rng, request.fluents, 2);
        request.allowances.push(Allowance { action, body });
    }
}
