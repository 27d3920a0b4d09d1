//! Generated, forged and damaged derivations with their requests.

use oracle::calls::{any_check_call, check_call, derivable, CheckCall};
use oracle::edges::{of_derivation, OF_DERIVATIONS};
use oracle::encode::{encode_derivation, encode_request};
use oracle::generate::{any_request, SMALL};
use oracle::model::{Item, Line, Request};
use oracle::prove::{free, many_readings, natural, pad};
use oracle::reader::{FLUENT_LIMIT, ITEM_LIMIT, LINE_LIMIT};
use oracle::rng::Rng;

use crate::answered::Series;
use crate::checks::Check;
use crate::crowded::crowded;
use crate::spoiled::spoil;

/// Streams of random numbers: of the calls, and of what stands around the inputs.
const CALLS: u64 = 7;
const FENCES: u64 = 8;

pub const SERIES: Series = Series {
    what: "derivations",
    call,
    fences: FENCES,
    of_request: &[10, 11, 12, 13, 14, 15, 16, 17, 18, 19, 20, 21, 30],
    of_derivation: &[10, 11, 12, 13, 14, 15, 18, 19, 20, 21, 31, 32, 33, 34, 35],
    edges: OF_DERIVATIONS,
    edges_of: of_derivation,
};

/// The call with this number from a seed.
pub fn call(seed: u64, index: u64) -> Check {
    any_check(&mut Rng::new(seed, CALLS, index))
}

/// A call of the independent program's own generators, about half of which are made wrong in some way; of some calls an input is made wrong
/// once more, belongs to another call, or is of another kind.
pub fn any_check(rng: &mut Rng) -> Check {
    let mut check = drawn(rng);
    let turn = rng.below(100);
    spoil(rng, turn, &mut check, drawn);
    match turn {
        12..=14 => of_any(rng, crowded),
        15..=17 => of_any(rng, any_request),
        18 => {
            let (draft, lines) = many_readings(rng.byte(30, FLUENT_LIMIT as u8 - 1));
            plain(any_check_call(rng, &draft, &lines))
        }
        21 if rng.chance(30) => {
            let (draft, mut lines) = derivable(rng, &SMALL);
            let index = rng.below(lines.len());
            lines[index].sequence = vec![Item::act(0); rng.range(ITEM_LIMIT - 2, ITEM_LIMIT + 2)];
            Check::plain(encode_request(&draft).bytes, encode_derivation(&lines).bytes)
        }
        22..=26 => {
            let (draft, mut lines) = derivable(rng, &SMALL);
            nearly(rng, draft.fluents, &mut lines);
            Check::plain(encode_request(&draft).bytes, encode_derivation(&lines).bytes)
        }
        _ => check,
    }
}

fn drawn(rng: &mut Rng) -> Check {
    plain(check_call(rng))
}

fn plain(call: CheckCall) -> Check {
    Check::plain(call.request, call.derivation)
}

/// A request of another source without whether entries, and its derivation, right or wrong; without goals where it has none with them.
fn of_any(rng: &mut Rng, source: fn(&mut Rng) -> Request) -> Check {
    loop {
        let mut draft = source(rng);
        draft.whether.clear();
        let mut lines = natural(&draft);
        if lines.is_none() {
            draft.goals.clear();
            lines = if rng.chance(50) { natural(&draft) } else { free(rng, &draft) };
        }
        if let Some(mut lines) = lines {
            if rng.chance(10) {
                pad(&mut lines, LINE_LIMIT);
            }
            return plain(any_check_call(rng, &draft, &lines));
        }
    }
}

/// Adds lines that follow, or nearly, and the question once more: a line joined with the empty plan at its start or its end, where the lists in
/// the middle are the same or one has an entry more than the other; or a line that cites each of its lines twice.
fn nearly(rng: &mut Rng, fluents: u8, lines: &mut Vec<Line>) {
    let index = rng.below(lines.len());
    let (cited, number) = (lines[index].clone(), lines.len() as u16);
    if number as usize + 3 > LINE_LIMIT {
        return;
    }
    let empty = |list: &[u8]| Line { before: list.to_vec(), after: list.to_vec(), sequence: Vec::new(), rule: 1, cites: Vec::new(), ..cited };
    let question = Line { rule: 6, cites: vec![number - 1], ..lines[number as usize - 1].clone() };
    let turns = rng.below(3);
    match rng.below(5) {
        0 | 1 => {
            let middle = other(rng, fluents, &cited.before, turns);
            lines.push(empty(&middle));
            lines.push(Line { before: middle, rule: 5, cites: vec![number, index as u16], ..cited });
        }
        2 | 3 => {
            let middle = other(rng, fluents, &cited.after, turns);
            lines.push(empty(&middle));
            lines.push(Line { after: middle, rule: 5, cites: vec![index as u16, number], ..cited });
        }
        _ => {
            if let Some(line) = lines.iter().find(|line| line.rule == 3 && line.cites.len() <= 32) {
                lines.push(Line { cites: line.cites.repeat(2), ..line.clone() });
            }
        }
    }
    lines.push(question);
}

/// The list itself, or one with an entry more, or one with an entry less.
fn other(rng: &mut Rng, fluents: u8, list: &[u8], turns: usize) -> Vec<u8> {
    let mut list = list.to_vec();
    let unsaid: Vec<u8> = (0..fluents).filter(|fluent| list.iter().all(|literal| literal / 2 != *fluent)).collect();
    match turns {
        1 if !unsaid.is_empty() => {
            list.push(2 * rng.pick(&unsaid) + rng.byte(0, 1));
            list.sort_unstable();
        }
        2 if !list.is_empty() => _ = list.remove(rng.below(list.len())),
        _ => {}
    }
    list
}
