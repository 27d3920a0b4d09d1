//! Damage to values requests: to both bytes of a literal, to the numbers of values, to any other byte, or to
//! the structure before it is written.

use super::generate::{body, spell};
use super::literal::{Literal, Set, VALUES};
use super::Valued;
use crate::damage::{
    aimed, extended, flip, too_large, too_long, with_byte, wrong_count, wrong_item_count, Bounds,
    Damaged,
};
use crate::encode::{encode_valued, Encoded, Kind, Mark};
use crate::model::{Allowance, Branch, Effect, Item, Knowledge};
use crate::reader::{BRANCH_LIMIT, ITEM_LIMIT, LIST_LIMIT, NESTING_LIMIT, REQUEST_LIMIT};
use crate::rng::Rng;

/// Damages a values request that was right before.
pub fn damage_valued(rng: &mut Rng, valued: &Valued) -> Damaged {
    let whole = encode_valued(valued);
    let bounds = Bounds::of_request(&valued.request);
    match rng.below(100) {
        0..=64 => damage_bytes(rng, &whole, bounds),
        65..=70 => {
            let twice = damage_bytes(rng, &whole, bounds).bytes;
            Damaged::unsure(flip(rng, twice))
        }
        71 => too_many_items(rng, valued.clone()),
        72..=74 => too_deep(rng, valued.clone()),
        75..=77 => facts_leave_none(rng, valued.clone()),
        _ => Damaged::unsure(encode_valued(&misshaped(rng, valued.clone())).bytes),
    }
}

/// Damage to bytes whose marks are known.
fn damage_bytes(rng: &mut Rng, whole: &Encoded, bounds: Bounds) -> Damaged {
    let bytes = whole.bytes.clone();
    match rng.below(25) {
        0 | 1 => Damaged::unsure(flip(rng, bytes)),
        2 | 3 => {
            let kept = rng.below(bytes.len());
            Damaged::sure(bytes[..kept].to_vec(), 11, kept)
        }
        4 => extended(rng, bytes, bounds),
        5 if rng.chance(10) => too_long(rng, bytes, bounds),
        5 | 6 => aimed(rng, whole, is_count, wrong_count),
        7 => aimed(
            rng,
            whole,
            |mark| mark.kind == Kind::ItemCount,
            wrong_item_count,
        ),
        8..=10 => aimed(rng, whole, |mark| mark.kind == Kind::Values, wrong_values),
        11 | 12 => too_large(rng, whole, bounds),
        13 | 14 => aimed(rng, whole, is_says, value_too_large),
        15 => aimed(rng, whole, is_says, |_, bytes, place| {
            Damaged::sure(bytes[..place].to_vec(), 11, place)
        }),
        16 => aimed(rng, whole, is_named, last_and_too_large),
        17 => aimed(rng, whole, is_says, |_, mut bytes, place| {
            bytes[place] ^= 1;
            Damaged::unsure(bytes)
        }),
        18 => aimed(rng, whole, follows, swapped),
        19 => aimed(rng, whole, follows, repeated),
        20 | 21 => aimed(rng, whole, follows, turned),
        22 => aimed(rng, whole, follows, other_value),
        _ => says_is_not(rng, whole),
    }
}

fn is_count(mark: &Mark) -> bool {
    matches!(mark.kind, Kind::Count | Kind::LinesCount)
}

fn is_named(mark: &Mark) -> bool {
    mark.kind == Kind::NamedFluent
}

fn is_says(mark: &Mark) -> bool {
    mark.kind == Kind::Says
}

/// A literal with another one before it in its list.
fn follows(mark: &Mark) -> bool {
    is_named(mark) && mark.follows
}

/// Too few values or too many; or another number, which may be too small for what is said.
fn wrong_values(rng: &mut Rng, mut bytes: Vec<u8>, place: usize) -> Damaged {
    let (least, most) = VALUES;
    let any = rng.byte(most + 1, 255);
    match rng.below(3) {
        0 => {
            bytes[place] = rng.byte(least, most);
            Damaged::unsure(bytes)
        }
        1 => with_byte(bytes, place, rng.byte(0, least - 1), 12),
        _ => with_byte(bytes, place, *rng.pick(&[most + 1, any]), 12),
    }
}

/// How many values the fluent has that the literal at a place names: the numbers of values begin at place 1.
fn values_at(bytes: &[u8], place: usize) -> u8 {
    bytes[1 + usize::from(bytes[place])]
}

/// A second byte that names a value which the fluent does not have.
fn value_too_large(rng: &mut Rng, bytes: Vec<u8>, place: usize) -> Damaged {
    let least = 2 * values_at(&bytes, place - 1);
    let wrong = [least, least + 1, rng.byte(least, 255)];
    let wrong = *rng.pick(&wrong);
    with_byte(bytes, place, wrong, 13)
}

/// The input ends after the first byte of a literal, which is no fluent.
fn last_and_too_large(rng: &mut Rng, mut bytes: Vec<u8>, place: usize) -> Damaged {
    let fluents = bytes[0];
    bytes.truncate(place + 1);
    let wrong = rng.byte(fluents, 255);
    with_byte(bytes, place, wrong, 13)
}

/// A literal and the one before it swapped.
fn swapped(_: &mut Rng, mut bytes: Vec<u8>, place: usize) -> Damaged {
    bytes[place - 2..place + 2].rotate_left(2);
    Damaged::sure(bytes, 14, place)
}

fn repeated(_: &mut Rng, mut bytes: Vec<u8>, place: usize) -> Damaged {
    bytes.copy_within(place - 2..place, place);
    Damaged::sure(bytes, 14, place)
}

/// A literal followed by one that says the opposite: 15 after "is", 14 after "is not".
fn turned(_: &mut Rng, mut bytes: Vec<u8>, place: usize) -> Damaged {
    bytes.copy_within(place - 2..place, place);
    let number = if bytes[place + 1] % 2 == 0 { 15 } else { 14 };
    bytes[place + 1] ^= 1;
    Damaged::sure(bytes, number, place)
}

/// "is v" followed by "is w" with a larger value; another literal followed by any.
fn other_value(rng: &mut Rng, mut bytes: Vec<u8>, place: usize) -> Damaged {
    bytes.copy_within(place - 2..place, place);
    let (says, values) = (bytes[place + 1], values_at(&bytes, place));
    let value = says / 2;
    if says % 2 == 1 || value + 1 == values {
        bytes[place + 1] = rng.byte(0, 2 * values - 1);
        return Damaged::unsure(bytes);
    }
    bytes[place + 1] = 2 * rng.byte(value + 1, values - 1);
    Damaged::sure(bytes, 15, place)
}

/// An effect that says what its fluent is not; now and then its body is missing. The literal of an effect
/// is the one that stands behind an action.
fn says_is_not(rng: &mut Rng, whole: &Encoded) -> Damaged {
    let pairs = whole.marks.windows(2);
    let effects = pairs.filter(|pair| pair[0].kind == Kind::Action && is_named(&pair[1]));
    let places: Vec<usize> = effects.map(|pair| pair[1].place).collect();
    let mut bytes = whole.bytes.clone();
    if places.is_empty() {
        return Damaged::unsure(flip(rng, bytes));
    }
    let place = *rng.pick(&places);
    bytes[place + 1] |= 1;
    if rng.chance(25) {
        bytes.truncate(place + 2);
    }
    Damaged::sure(bytes, 46, place)
}

/// A ninth branching inside eight, and perhaps one more.
fn too_deep(rng: &mut Rng, mut valued: Valued) -> Damaged {
    let depth = NESTING_LIMIT + rng.range(1, 2);
    let deep = nest(rng, &valued, depth);
    valued.request.plan.truncate(rng.below(4));
    valued.request.plan.extend(deep);
    Damaged::unsure(encode_valued(&valued).bytes)
}

/// So many branchings one inside another, with conditions that hold at the start or not.
pub fn nest(rng: &mut Rng, valued: &Valued, depth: usize) -> Vec<Item<Literal>> {
    let mut sequence = vec![Item::act(rng.byte(0, valued.request.actions - 1))];
    for _ in 0..depth {
        let condition = match valued.request.facts.is_empty() || rng.chance(50) {
            true => Vec::new(),
            false => vec![*rng.pick(&valued.request.facts)],
        };
        sequence = vec![Item::case(vec![Branch {
            condition,
            sequence,
        }])];
    }
    sequence
}

/// Item 1,025 and some more.
fn too_many_items(rng: &mut Rng, mut valued: Valued) -> Damaged {
    let action = rng.byte(0, valued.request.actions - 1);
    valued.request.plan = nest(rng, &valued, 1);
    let more = rng.range(0, 4);
    valued
        .request
        .plan
        .resize(ITEM_LIMIT + more, Item::act(action));
    Damaged::unsure(encode_valued(&valued).bytes)
}

/// Structures that can be read but not settled, or that a list forbids.
fn misshaped(rng: &mut Rng, mut valued: Valued) -> Valued {
    match rng.below(10) {
        0 | 1 => contradict(rng, &mut valued),
        2 => contradict_in_no_world(rng, &mut valued),
        3 | 4 => mix(rng, &mut valued),
        5 | 6 => make_overlap(rng, &mut valued),
        7 if rng.chance(50) => part_together(rng, &mut valued),
        7 => {
            contradict(rng, &mut valued);
            mix(rng, &mut valued);
            make_overlap(rng, &mut valued);
        }
        _ => leave_none(rng, &mut valued),
    }
    valued
}

/// Any literal that says "is" of a fluent.
fn any_is(rng: &mut Rng, valued: &Valued) -> Literal {
    let fluent = rng.byte(0, valued.request.fluents - 1);
    let values = valued.values[usize::from(fluent)];
    Literal::is(fluent, rng.byte(0, values - 1), values)
}

/// Adds an effect anywhere that may contradict another.
fn contradict(rng: &mut Rng, valued: &mut Valued) {
    let effects = valued.request.effects.len().min(250);
    valued.request.effects.truncate(effects);
    let mut effect = match effects {
        0 => Effect {
            place: 0,
            action: 0,
            literal: any_is(rng, valued),
            body: Vec::new(),
        },
        _ => rng.pick(&valued.request.effects).clone(),
    };
    if effects == 0 {
        valued.request.effects.push(effect.clone());
    }
    let fluent = effect.literal.fluent;
    let values = valued.values[usize::from(fluent)];
    let value = (effect.literal.value() + rng.byte(1, values - 1)) % values;
    effect.literal = Literal::is(fluent, value, values);
    match rng.below(4) {
        0 => effect.body.clear(),
        1 => effect.body = body(rng, valued, 2),
        _ => {}
    }
    // Mostly with a line under which both can happen.
    if rng.chance(40) {
        allow(valued, effect.action, Vec::new());
    }
    let place = rng.below(valued.request.effects.len() + 1);
    valued.request.effects.insert(place, effect);
}

fn allow(valued: &mut Valued, action: u8, body: Vec<Literal>) {
    valued.request.allowances.truncate(250);
    valued.request.allowances.push(Allowance { action, body });
}

/// Gives an action two effects and a line of which each two agree, though no world has all three: of some
/// fluent one body says that it is not 0, the other that it is not 1, and the line that it is one of these.
fn contradict_in_no_world(rng: &mut Rng, valued: &mut Valued) {
    let fluents = 0..valued.request.fluents;
    let wide: Vec<u8> = fluents
        .filter(|&fluent| valued.values[usize::from(fluent)] > 2)
        .collect();
    if wide.is_empty() {
        return contradict(rng, valued);
    }
    let by = *rng.pick(&wide);
    let values = valued.values[usize::from(by)];
    let action = rng.byte(0, valued.request.actions - 1);
    let request = &mut valued.request;
    request.allowances.retain(|line| line.action != action);
    request.effects.retain(|line| line.action != action);
    request.knowledge.retain(|line| line.action != action);
    request.effects.truncate(250);
    let set = any_is(rng, valued);
    let most = valued.values[usize::from(set.fluent)];
    for value in 0..2 {
        valued.request.effects.push(Effect {
            place: 0,
            action,
            literal: Literal::is(set.fluent, value, most),
            body: vec![Literal::is_not(by, value, values)],
        });
    }
    let line = spell(rng, by, 0b11 as Set, values);
    allow(valued, action, line);
}

/// Gives an action with effects a knowledge line.
fn mix(rng: &mut Rng, valued: &mut Valued) {
    let literal = any_is(rng, valued);
    let request = &mut valued.request;
    if request.effects.is_empty() {
        let action = request.knowledge.first().map_or(0, |line| line.action);
        request.effects.push(Effect {
            place: 0,
            action,
            literal,
            body: Vec::new(),
        });
    }
    let action = rng.pick(&request.effects).action;
    request.knowledge.truncate(254);
    let place = rng.below(request.knowledge.len() + 1);
    let line = Knowledge {
        place: 0,
        action,
        fluent: literal.fluent,
    };
    request.knowledge.insert(place, line);
}

/// Makes two conditions of some branching agree; adds a branching where the plan has none.
fn make_overlap(rng: &mut Rng, valued: &mut Valued) {
    let others = [1, 1, 2].map(|length| body(rng, valued, length));
    let plan = &mut valued.request.plan;
    if rng.chance(70) && overlap_within(rng, plan, &others[0]) {
        return;
    }
    let branches = others.map(|condition| Branch {
        condition,
        sequence: Vec::new(),
    });
    plan.truncate(100);
    plan.push(Item::case(branches.to_vec()));
}

/// Adds a branch with a condition that is there, or with this one, to the first branching or to one inside it.
fn overlap_within(rng: &mut Rng, sequence: &mut [Item<Literal>], other: &[Literal]) -> bool {
    for item in sequence {
        let Item::Branching { branches, .. } = item else {
            continue;
        };
        let deeper = rng.chance(50)
            && branches
                .iter_mut()
                .any(|branch| overlap_within(rng, &mut branch.sequence, other));
        if deeper {
            return true;
        }
        let condition = match rng.chance(50) {
            true => rng.pick(branches).condition.clone(),
            false => other.to_vec(),
        };
        branches.truncate(BRANCH_LIMIT - 1);
        branches.push(Branch {
            condition,
            sequence: Vec::new(),
        });
        return true;
    }
    false
}

/// Adds two conditions, or two effects with bodies, that are exclusive only by all literals together: all that a
/// fluent is not but one value, and that value. What is so of the request otherwise stays.
fn part_together(rng: &mut Rng, valued: &mut Valued) {
    let (_, mut one) = leaving_none(rng, valued);
    let other: Vec<Literal> = one.pop().into_iter().collect();
    let action = rng.byte(0, valued.request.actions - 1);
    let set = any_is(rng, valued);
    let values = valued.values[usize::from(set.fluent)];
    let request = &mut valued.request;
    if rng.chance(50) {
        let branches = [one, other].map(|condition| Branch {
            condition,
            sequence: Vec::new(),
        });
        request.plan.truncate(100);
        request.plan.push(Item::case(branches.to_vec()));
        return;
    }
    request.knowledge.retain(|line| line.action != action);
    request.effects.retain(|line| line.action != action);
    request.effects.truncate(250);
    for (value, body) in [one, other].into_iter().enumerate() {
        request.effects.push(Effect {
            place: 0,
            action,
            literal: Literal::is(set.fluent, value as u8, values),
            body,
        });
    }
    allow(valued, action, Vec::new());
}

/// All that a fluent may not be, which leaves it no value.
fn leaving_none(rng: &mut Rng, valued: &Valued) -> (u8, Vec<Literal>) {
    let fluent = rng.byte(0, valued.request.fluents - 1);
    let values = valued.values[usize::from(fluent)];
    let is_not = |value| Literal::is_not(fluent, value, values);
    (fluent, (0..values).map(is_not).collect())
}

/// The facts leave a fluent no value; the last thing that they say of it is refused. The first fact stands
/// behind the numbers of values, the action count and the count of facts.
fn facts_leave_none(rng: &mut Rng, mut valued: Valued) -> Damaged {
    let (fluent, none) = leaving_none(rng, &valued);
    let facts = &mut valued.request.facts;
    facts.retain(|literal| literal.fluent != fluent);
    let before = facts.partition_point(|literal| literal.fluent < fluent);
    let last = before + none.len() - 1;
    facts.splice(before..before, none);
    let whole = encode_valued(&valued);
    match valued.request.facts.len() <= LIST_LIMIT && whole.bytes.len() <= REQUEST_LIMIT {
        true => Damaged::sure(whole.bytes, 15, valued.values.len() + 3 + 2 * last),
        false => Damaged::unsure(whole.bytes),
    }
}

/// Makes a list of literals leave a fluent no value, or lack one of those that it may not be.
fn leave_none(rng: &mut Rng, valued: &mut Valued) {
    let (fluent, mut none) = leaving_none(rng, valued);
    if rng.chance(20) {
        none.remove(rng.below(none.len()));
    }
    let request = &mut valued.request;
    let list = match rng.below(4) {
        0 if !request.effects.is_empty() => {
            let index = rng.below(request.effects.len());
            &mut request.effects[index].body
        }
        1 if !request.allowances.is_empty() => {
            let index = rng.below(request.allowances.len());
            &mut request.allowances[index].body
        }
        2 => &mut request.goals,
        _ => &mut request.facts,
    };
    list.retain(|literal| literal.fluent != fluent);
    list.extend(none);
    list.sort_unstable();
    list.truncate(LIST_LIMIT);
}
