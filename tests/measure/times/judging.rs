//! Times of whole judgements, the reading (with refusals 16 to 18) and the walking apart: walking is what the whole takes beyond reading.

use std::hint::black_box;

use crate::model::Request;
use crate::reader::FLUENT_LIMIT;
use crate::walk::Verdict;
use crate::{literals, reader, section, sequence, settle, times, walk, Notes, FILE_A, FLUENTS, SLOTS};

const BUDGET: u32 = 100_000;

extern "C" {
    fn proved_settle(s: *const u8, length: usize, t: &mut Notes) -> usize;
    fn proved_judge(request: *const u8, request_length: usize, lent: *mut u8, lent_length: usize, budget: u32) -> u64;
}

/// Number, place and count, and the lent state afterwards.
type Answer = (u64, u64, u64, [u8; FLUENT_LIMIT]);

fn proved_open(bytes: &[u8]) -> usize {
    unsafe { proved_settle(bytes.as_ptr(), bytes.len(), &mut [0; SLOTS]) }
}

fn proved(bytes: &[u8]) -> Answer {
    let mut lent = [9; FLUENT_LIMIT];
    let packed = unsafe { proved_judge(bytes.as_ptr(), bytes.len(), lent.as_mut_ptr(), lent.len(), BUDGET) };
    (packed % 256, packed >> 16 & 65535, packed >> 32, lent)
}

/// Panics at a fault: the requests of this file have none.
fn independent_open(bytes: &[u8]) -> Request {
    let request = reader::read_request(bytes).expect("a request that can be read");
    settle::settle(&request).expect("a request that is not refused");
    request
}

fn independent(bytes: &[u8]) -> Answer {
    match walk::walk(&independent_open(bytes), BUDGET) {
        Verdict::Verified { count } => (0, 0, count, [9; FLUENT_LIMIT]),
        Verdict::Missed { place, count, state } => (1, place as u64, count, std::array::from_fn(|f| state.mark(f as u8))),
        Verdict::Stuck { place, count, state, .. } => (2, place as u64, count, std::array::from_fn(|f| state.mark(f as u8))),
        Verdict::Over => (3, 0, BUDGET.into(), [9; FLUENT_LIMIT]),
    }
}

/// So many actions over a table of four fluents and two effects.
fn long_plan(items: usize) -> Vec<u8> {
    let table = vec![4, 1, 1, 1, 2, 0, 2, 1, 1, 0, 4, 1, 3, 1, 0, 0, 0];
    [table, sequence(&vec![vec![0]; items]), vec![1, 2, 1, 0]].concat()
}

/// The same over the most effects with the longest bodies, all of them possible and none known true.
fn crowded(items: usize) -> Vec<u8> {
    let effects = section(255, |i| [vec![0, 2 * (i as u8 % FLUENTS) + 1], literals(16, i)].concat());
    [vec![FLUENTS, 1, 0], effects, vec![1, 0, 0, 0], sequence(&vec![vec![0]; items]), vec![0, 0]].concat()
}

/// The same in a state that knows the complement of all that is given, with bodies known true but for their last literal, which is known
/// false: each has to be looked through.
fn barred(items: usize) -> Vec<u8> {
    let facts = section(FLUENT_LIMIT, |i| vec![2 * i as u8 + u8::from(i == 15)]);
    let body = section(16, |i| vec![2 * i as u8]);
    let effects = section(255, |i| [vec![0, 2 * (16 + i as u8 % (FLUENTS - 16)) + 1], body.clone()].concat());
    [vec![FLUENTS, 1], facts, effects, vec![1, 0, 0, 0], sequence(&vec![vec![0]; items]), vec![0, 0]].concat()
}

/// So many looks, each at a fluent of its own, so that each doubles the paths.
fn looks(count: u8) -> Vec<u8> {
    let each = |line: fn(u8) -> Vec<u8>| section(count.into(), |i| line(i as u8));
    let plan: Vec<Vec<u8>> = (0..count).map(|i| vec![i]).collect();
    [vec![count, count, 0, 0], each(|i| vec![i, 0]), each(|i| vec![i, i]), sequence(&plan), vec![0], each(|i| vec![i])].concat()
}

/// Looks at all fluents but one, each followed by an action that makes all of them unknown by way of the last one: the deepest walk.
fn deep() -> Vec<u8> {
    let sensed = FLUENT_LIMIT - 1;
    let effects = section(2 * sensed, |i| vec![1, i as u8, 1, (2 * sensed + 1 - i % 2) as u8]);
    let plan = vec![[vec![0], vec![1]]; 512].concat();
    [vec![FLUENTS, 2, 0], effects, vec![2, 0, 0, 1, 0], section(sensed, |i| vec![0, i as u8]), sequence(&plan), vec![0, 0]].concat()
}

/// Prints the table, and panics where the two differ in an answer or a state.
pub fn judgements() {
    println!("| judgement | number | count | proved: reading, ns | walking, ns | independent: reading, ns | walking, ns | ratio: walking | whole |");
    println!("|---|---|---|---|---|---|---|---|---|");
    for (name, bytes) in [
        ("File A", FILE_A.to_vec()),
        ("small table, 1,024 actions", long_plan(1024)),
        ("255 effects, 1,024 actions", crowded(1024)),
        ("255 barred at the last, 1,024 actions", barred(1024)),
        ("15 looks, all ends judged", looks(15)),
        ("20 looks, budget spent", looks(20)),
        ("512 looks at 127, budget spent", deep()),
    ] {
        let (number, _, count, _) = proved(&bytes);
        assert_eq!(proved(&bytes), independent(&bytes), "{name}");
        let bytes = &bytes[..];
        let [open, whole, other_open, other_whole] = times([
            &|| _ = black_box(proved_open(black_box(bytes))),
            &|| _ = black_box(proved(black_box(bytes))),
            &|| _ = black_box(independent_open(black_box(bytes))),
            &|| _ = black_box(independent(black_box(bytes))),
        ]);
        let (walk, other_walk) = (whole.saturating_sub(open), other_whole.saturating_sub(other_open));
        let ratio = |one: u128, other: u128| one as f64 / other.max(1) as f64;
        println!(
            "| {name} | {number} | {count} | {open} | {walk} | {other_open} | {other_walk} | {:.2} | {:.2} |",
            ratio(walk, other_walk),
            ratio(whole, other_whole)
        );
    }
}
