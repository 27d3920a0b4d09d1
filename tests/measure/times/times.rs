//! Times of the proved reader and of the independent one on the same bytes, within one run; then of whole judgements.
#![allow(dead_code)]

#[path = "../../oracle/src/answer.rs"]
mod answer;
mod judging;
#[path = "../../oracle/src/model.rs"]
mod model;
#[path = "../../oracle/src/reader.rs"]
mod reader;
#[path = "../../oracle/src/settle.rs"]
mod settle;
#[path = "../../oracle/src/table.rs"]
mod table;
#[path = "../../oracle/src/walk.rs"]
mod walk;

use std::hint::black_box;
use std::thread;
use std::time::Instant;

use reader::{ACTION_LIMIT, FLUENT_LIMIT, ITEM_LIMIT};

/// How often each call is timed, in turns, and for how many nanoseconds about: few, so that other work seldom falls within.
const ROUNDS: u128 = 1001;
const SPAN: u128 = 400_000;
/// Calls that take longer than that are timed less often: for about so many nanoseconds in all, and so often at least.
const LONGEST: u128 = 1_500_000_000;
const FEWEST: u128 = 21;

/// The stack for the walk: see docs/MEASURED.md.
const STACK: usize = 64 << 20;

/// As many fluents and actions as there can be.
const FLUENTS: u8 = FLUENT_LIMIT as u8;
const ACTIONS: u8 = ACTION_LIMIT as u8;

/// The notes that the proved reader leaves, and two of their slots, by the limits as in `crates/reading/specs/Noted.antt`.
const PLAN: usize = 4 * ITEM_LIMIT + 2 * (2 * 256 + ACTION_LIMIT) + 2 * ACTION_LIMIT;
const ITEMS: usize = PLAN + 1;
const EFFECTS: usize = PLAN + 2;
const SLOTS: usize = PLAN + 8 + ACTION_LIMIT * (FLUENT_LIMIT / 16);
type Notes = [u16; SLOTS];

// Compiled Rattle takes a slice as a pointer and then a length.
extern "C" {
    fn proved_read(s: *const u8, length: usize, t: &mut Notes) -> usize;
}

/// The place after the request, or 65,536 times the fault's number plus its place.
fn proved(bytes: &[u8], notes: &mut Notes) -> usize {
    unsafe { proved_read(bytes.as_ptr(), bytes.len(), notes) }
}

/// The same of the independent reader, which reads all bytes or finds a fault.
fn independent(bytes: &[u8]) -> usize {
    match reader::read_request(bytes) {
        Ok(_) => bytes.len(),
        Err(fault) => 65536 * usize::from(fault.number) + fault.place,
    }
}

/// A count byte and that many entries or lines.
fn section(count: usize, line: impl Fn(usize) -> Vec<u8>) -> Vec<u8> {
    std::iter::once(count as u8).chain((0..count).flat_map(line)).collect()
}

/// A list of so many literals, spread over all fluents; the signs are bits of a number.
fn literals(count: usize, signs: usize) -> Vec<u8> {
    section(count, |i| vec![(2 * i * (FLUENT_LIMIT / count) + (signs >> (i % 8) & 1)) as u8])
}

/// The literals in turn.
fn literal(number: usize) -> u8 {
    (number % (2 * FLUENT_LIMIT)) as u8
}

/// A two-byte item count and that many items.
fn sequence(items: &[Vec<u8>]) -> Vec<u8> {
    [&(items.len() as u16).to_be_bytes()[..], &items.concat()].concat()
}

/// A branching with so many branches, each a condition of so many literals and a sequence of one item.
fn branching(branches: usize, condition: usize, item: &[u8]) -> Vec<u8> {
    let branch = |i| [literals(condition, i), sequence(&[item.to_vec()])].concat();
    [vec![255], section(branches, branch)].concat()
}

/// As many bytes as a request may have: sections 2 to 5, 7 and 8 full, and a plan of branchings and actions in what is left.
fn largest() -> Vec<u8> {
    let effects = section(255, |i| [vec![i as u8 % ACTIONS, literal(i)], literals(16, i)].concat());
    let executability = section(255, |i| [vec![i as u8 % ACTIONS], literals(16, i)].concat());
    let knowledge = section(255, |i| vec![i as u8 % ACTIONS, (i / (256 / FLUENT_LIMIT)) as u8]);
    let before = [vec![FLUENTS, ACTIONS], literals(FLUENT_LIMIT, 85), effects, executability, knowledge].concat();
    let after = [literals(FLUENT_LIMIT, 170), section(FLUENT_LIMIT, |i| vec![i as u8])].concat();
    let left = reader::REQUEST_LIMIT - before.len() - after.len() - 2;
    let large = branching(8, 16, &[ACTIONS - 1]);
    let mut items = vec![large.clone(); left / large.len()];
    items.resize(items.len() + left % large.len(), vec![7]);
    [before, sequence(&items), after].concat()
}

/// As many effects as there may be, all of one action, with bodies as long as they may be.
fn effects() -> Vec<u8> {
    let lines = section(255, |i| [vec![0, literal(i)], literals(16, i)].concat());
    [vec![FLUENTS, 1, 0], lines, vec![0, 0, 0, 0, 0, 0]].concat()
}

/// As many items as there may be, in towers of eight branchings around an action, and a few actions more.
fn items() -> Vec<u8> {
    let tower = (0..8).fold(vec![0], |item, _| branching(1, 1, &item));
    let mut items = vec![tower; 1024 / 9];
    items.resize(items.len() + 1024 % 9, vec![0]);
    [vec![FLUENTS, 1, 0, 0, 0, 0], sequence(&items), vec![0, 0]].concat()
}

/// File A of FORMAT 13.3.
const FILE_A: [u8; 48] = [
    4, 3, 3, 3, 5, 7, 3, 1, 2, 0, 1, 6, 1, 0, 2, 4, 0, 3, 0, 0, 1, 1, 3, 2, 1, 2, 1, 0, 0, 0, 2, 0, 255, 2, 1, 1, 0, 2, 1, 2, 1, 0, 0, 0,
    1, 7, 1, 2,
];

/// How many effects and items both find in it, without fault; on each of its beginnings they agree too.
fn agreed(name: &str, bytes: &[u8]) -> (usize, usize) {
    let mut notes = [0; SLOTS];
    assert_eq!(proved(bytes, &mut notes), bytes.len(), "{name}: fault");
    let request = reader::read_request(bytes).expect(name);
    let found = (request.effects.len(), model::item_count(&request.plan));
    assert_eq!((notes[EFFECTS].into(), notes[ITEMS].into()), found, "{name}");
    for part in (0..bytes.len()).map(|end| &bytes[..end]) {
        assert_eq!(proved(part, &mut [0; SLOTS]), independent(part), "{name}: {} bytes", part.len());
    }
    found
}

/// The mean time of one call, in nanoseconds, over so many calls.
fn mean(calls: u128, call: impl Fn()) -> u128 {
    let start = Instant::now();
    (0..calls).for_each(|_| call());
    start.elapsed().as_nanos() / calls
}

fn median(mut times: Vec<u128>) -> u128 {
    times.sort();
    times[times.len() / 2]
}

/// The median times of some calls.
fn times<const N: usize>(calls: [&dyn Fn(); N]) -> [u128; N] {
    let in_span = |call: &dyn Fn()| match mean(1, call) {
        once if once < SPAN => SPAN / median((0..99).map(|_| mean(9, call)).collect()) + 1,
        _ => 1,
    };
    let repeats = calls.map(in_span);
    let turn = || std::array::from_fn(|i| mean(repeats[i], calls[i]));
    let rounds = (LONGEST / mean(1, || _ = black_box::<[u128; N]>(turn()))).clamp(FEWEST, ROUNDS);
    let turns: Vec<[u128; N]> = (0..rounds).map(|_| turn()).collect();
    std::array::from_fn(|i| median(turns.iter().map(|turn| turn[i]).collect()))
}

/// The times of both readers; each call of the proved one has new notes of zeros.
fn readers() {
    println!("| request | bytes | effects | items | proved reader, ns | independent reader, ns | ratio |\n|---|---|---|---|---|---|---|");
    let (a, b, c, d) = (largest(), effects(), items(), FILE_A.to_vec());
    for (name, bytes) in [("the largest", a), ("255 effects of one action", b), ("1,024 items, 8 deep", c), ("File A", d)] {
        let (effects, items) = agreed(name, &bytes);
        let one = || _ = black_box(proved(black_box(&bytes), black_box(&mut [0; SLOTS])));
        let other = || _ = black_box(reader::read_request(black_box(&bytes)));
        let [one, other] = times([&one, &other]);
        let ratio = one as f64 / other as f64;
        println!("| {name} | {} | {effects} | {items} | {one} | {other} | {ratio:.2} |", bytes.len());
    }
}

fn main() {
    readers();
    println!();
    let judgements = thread::Builder::new().stack_size(STACK).spawn(judging::judgements);
    judgements.expect("a thread").join().expect("judgements");
}
