//! Random index calls and indexed calls: requests right or damaged, indexes right or wrong in any of many
//! ways, and rooms of the right length and others.

use super::call::DIFFERS;
use super::index::{encode_index, index_of, places, Places};
use crate::answer::{Fault, INDEX, NEITHER};
use crate::calls::{judge_call, JudgeCall, Outlook};
use crate::damage::flip;
use crate::encode::encode_request;
use crate::generate::{any_request, drawn, request, LARGE, SMALL, TINY, WIDE};
use crate::model::Request;
use crate::open;
use crate::reader::REQUEST_LIMIT;
use crate::rng::Rng;

/// The length of an index, or of a room, that is far too long.
pub const FAR_TOO_LONG: usize = 70_000;
/// Most bytes of an index that nobody has built.
const ANY_BYTES: usize = 40;
/// So many indexes of a hundred are wrong.
pub const WRONG: u64 = 35;
/// The longest index that there can be.
pub const LONGEST: usize = 1_276;

/// What both calls take: a request, a room for its index, an index, a lent state and a budget.
#[derive(Clone, Debug)]
pub struct IndexedCall {
    /// With what is certain of the indexed call's answer.
    pub call: JudgeCall,
    pub index: Vec<u8>,
    pub room: Vec<u8>,
    /// What is certain of the request, and so of the index call's answer.
    pub read: Outlook,
}

/// A call of any kind; about three of ten requests are damaged, and somewhat more indexes of the others
/// are wrong.
pub fn indexed_call(rng: &mut Rng) -> IndexedCall {
    let call = unindexed_call(rng);
    with_index(rng, call, WRONG)
}

/// A call that an index is built for: of any request, or now and then of one with many lines.
pub fn unindexed_call(rng: &mut Rng) -> JudgeCall {
    match rng.chance(4) {
        false => judge_call(rng),
        true => long_call(rng),
    }
}

/// A call of a request with many lines, and a small budget.
fn long_call(rng: &mut Rng) -> JudgeCall {
    loop {
        let shape = *rng.pick(&[LARGE, WIDE]);
        let request = encode_request(&request(rng, &shape)).bytes;
        if request.len() <= REQUEST_LIMIT {
            return JudgeCall {
                request,
                lent: crate::calls::lent_state(rng),
                budget: *rng.pick(&[0, 20, 1_000]),
                outlook: Outlook::Walked,
            };
        }
    }
}

/// An index and a room for a call. Where its request can be read and settled, the index is wrong in so
/// many cases of a hundred.
pub fn with_index(rng: &mut Rng, mut call: JudgeCall, wrong: u64) -> IndexedCall {
    let read = match call.outlook {
        Outlook::Refused(NEITHER, _) => Outlook::Open,
        outlook => outlook,
    };
    let right = open(&call.request).ok();
    let index = match &right {
        None => any_index(rng),
        Some(read) if rng.chance(wrong) => {
            let (index, place) = wrong_index(rng, read);
            if let (Outlook::Walked, Some(place)) = (call.outlook, place) {
                call.outlook = Outlook::Refused(INDEX, Fault::new(DIFFERS, place));
            } else if call.outlook == Outlook::Walked {
                call.outlook = Outlook::Open;
            }
            index
        }
        Some(read) => index_of(read),
    };
    let room = room(rng, right.as_ref().map(|read| index_of(read).len()));
    IndexedCall {
        call,
        index,
        room,
        read,
    }
}

/// A room as long as an index of this length, one byte shorter, longer, empty, or of any length.
fn room(rng: &mut Rng, index: Option<usize>) -> Vec<u8> {
    let right = index.unwrap_or_else(|| rng.range(1, ANY_BYTES));
    let length = match rng.below(100) {
        0..=34 => right,
        35..=49 => right - 1,
        50..=64 => right + rng.range(1, 20),
        65..=74 => 0,
        75..=84 => rng.below(right),
        85..=89 => LONGEST,
        90..=98 => rng.below(2 * right),
        _ => FAR_TOO_LONG,
    };
    bytes(rng, length)
}

pub(crate) fn bytes(rng: &mut Rng, length: usize) -> Vec<u8> {
    (0..length).map(|_| rng.byte(0, 255)).collect()
}

/// An index for a request that is refused: none, any bytes, or that of a small request.
fn any_index(rng: &mut Rng) -> Vec<u8> {
    match rng.below(4) {
        0 => Vec::new(),
        1 => {
            let length = rng.below(ANY_BYTES);
            bytes(rng, length)
        }
        _ => {
            let other = drawn(rng, &TINY);
            index_of_written(&other).unwrap_or_default()
        }
    }
}

/// The index of a request that is written first, if it can be read and settled.
fn index_of_written(draft: &Request) -> Option<Vec<u8>> {
    let read = open(&encode_request(draft).bytes).ok()?;
    Some(index_of(&read))
}

/// An index that is another than the request's, and where they first differ, if that is certain.
pub fn wrong_index(rng: &mut Rng, request: &Request) -> (Vec<u8>, Option<usize>) {
    let right = index_of(request);
    loop {
        let (index, place) = match rng.below(100) {
            0..=44 => wrong_bytes(rng, &right),
            45..=84 => (wrong_places(rng, request), None),
            85..=94 => (index_of_another(rng, request), None),
            _ => {
                let most = *rng.pick(&[1, 9, 255]);
                let any = right.iter().map(|_| rng.byte(0, most));
                (any.collect(), None)
            }
        };
        if index != right {
            return (index, place);
        }
    }
}

/// Damage to the bytes of the right index: none is left, or it is cut short, goes on, or has another byte
/// somewhere.
fn wrong_bytes(rng: &mut Rng, right: &[u8]) -> (Vec<u8>, Option<usize>) {
    let mut index = right.to_vec();
    let length = right.len();
    match rng.below(20) {
        0..=2 => (Vec::new(), Some(0)),
        3..=6 => {
            index.truncate(rng.below(length));
            let kept = index.len();
            (index, Some(kept))
        }
        7..=10 => {
            let more = rng.range(1, 4);
            index.extend(bytes(rng, more));
            (index, Some(length))
        }
        11 => {
            index.resize(FAR_TOO_LONG, rng.byte(0, 3));
            (index, Some(length))
        }
        12 => (vec![rng.byte(0, 255); FAR_TOO_LONG], None),
        13..=15 => {
            let place = rng.below(length);
            index[place] = index[place].wrapping_add(*rng.pick(&[1, 255, 128]));
            (index, Some(place))
        }
        _ => (flip(rng, index), None),
    }
}

/// An index of other places than those of the lines, or of the same in another order. Where a request
/// has nothing to be changed so, its index is right.
fn wrong_places(rng: &mut Rng, request: &Request) -> Vec<u8> {
    let mut places = places(request);
    match rng.below(10) {
        0 => places.iter_mut().for_each(|[effects, runs]| {
            std::mem::swap(effects, runs);
        }),
        1..=2 => at_bodies(rng, &mut places),
        3..=4 => {
            let lists = places.iter_mut().flatten();
            let mut lists: Vec<_> = lists.filter(|list| list.len() > 1).collect();
            if !lists.is_empty() {
                let index = rng.below(lists.len());
                rng.shuffle(lists[index]);
            }
        }
        5..=7 => said_twice_wrongly(rng, request, &mut places),
        8 => drop_or_repeat(rng, &mut places),
        _ => {
            // An action's lists are another's.
            let one = rng.below(places.len());
            let other = rng.below(places.len());
            places.swap(one, other);
        }
    }
    encode_index(&places)
}

/// One of the offsets, or all of them, are those of the bodies.
fn at_bodies(rng: &mut Rng, places: &mut [Places]) {
    let all = places.iter_mut().flat_map(|[effects, runs]| {
        let effects = effects.iter_mut().map(|place| (place, 2));
        effects.chain(runs.iter_mut().map(|place| (place, 1)))
    });
    let mut all: Vec<(&mut usize, usize)> = all.collect();
    if !all.is_empty() && rng.chance(80) {
        let kept = rng.below(all.len());
        all.swap(0, kept);
        all.truncate(1);
    }
    for (place, further) in all {
        *place += further;
    }
}

/// Of a line that is said twice one offset is missing, or the first is there twice and the second is not.
fn said_twice_wrongly(rng: &mut Rng, request: &Request, places: &mut [Places]) {
    let pairs = said_twice(request);
    if pairs.is_empty() {
        return;
    }
    let (action, kind, [first, second]) = *rng.pick(&pairs);
    let list = &mut places[usize::from(action)][kind];
    match rng.below(3) {
        0 => _ = list.remove(first),
        1 => _ = list.remove(second),
        _ => list[second] = list[first],
    }
}

/// The lines that are said twice, effects (0) or executability lines (1): the action, which kind, and
/// where in the action's list of that kind the two stand.
pub fn said_twice(request: &Request) -> Vec<(u8, usize, [usize; 2])> {
    let effects = request.effects.iter();
    let effects = effects.map(|line| (0, line.action, [&[line.literal], &line.body[..]].concat()));
    let runs = request.allowances.iter();
    let runs = runs.map(|line| (1, line.action, line.body.clone()));
    let lines: Vec<(usize, u8, Vec<u8>)> = effects.chain(runs).collect();
    let mut pairs = Vec::new();
    for (later, line) in lines.iter().enumerate() {
        let (kind, action, _) = *line;
        let list_place = |end: usize| {
            let of_list = |other: &&(usize, u8, Vec<u8>)| (other.0, other.1) == (kind, action);
            lines[..end].iter().filter(of_list).count()
        };
        for earlier in (0..later).filter(|&earlier| lines[earlier] == *line) {
            pairs.push((action, kind, [list_place(earlier), list_place(later)]));
        }
    }
    pairs
}

/// One of the offsets is missing, or there twice.
fn drop_or_repeat(rng: &mut Rng, places: &mut [Places]) {
    let lists = places.iter_mut().flatten();
    let mut lists: Vec<_> = lists
        .filter(|list| (1..255).contains(&list.len()))
        .collect();
    if lists.is_empty() {
        return;
    }
    let index = rng.below(lists.len());
    let list = &mut lists[index];
    let place = rng.below(list.len());
    match rng.chance(50) {
        true => _ = list.remove(place),
        false => list.insert(place, list[place]),
    }
}

/// The index of a request that is another: any, or one that differs in a fact, in the order of its lines,
/// or in one line more.
fn index_of_another(rng: &mut Rng, request: &Request) -> Vec<u8> {
    let mut other = request.clone();
    match rng.below(5) {
        0 => other = any_request(rng),
        1 => other = drawn(rng, &SMALL),
        2 => match other.facts.is_empty() {
            true => other.facts.push(0),
            false => _ = other.facts.pop(),
        },
        3 => {
            rng.shuffle(&mut other.effects);
            rng.shuffle(&mut other.allowances);
        }
        _ => {
            if let (Some(line), true) = (other.allowances.first(), other.allowances.len() < 255) {
                other.allowances.push(line.clone());
            }
        }
    }
    index_of_written(&other).unwrap_or_default()
}
