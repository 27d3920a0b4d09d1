//! Derivations at their limits, and one beyond, each against the format's own answer too, on a thread with little stack.

use std::thread;

use oracle::encode::{encode_derivation, encode_request};
use oracle::model::{Allowance, Branch, Item, Knowledge, Line, Request};
use oracle::reader::{DERIVATION_LIMIT, ITEM_LIMIT, LINE_LIMIT, NESTING_LIMIT};
use oracle::rng::Rng;

use crate::checks::{agreed, Check};
use crate::hostile::FLUENTS;
use crate::whether_largest;

/// The stack of the thread: much less than walks may need.
const STACK: usize = 256 << 10;
/// The stream of random numbers of what stands around the inputs.
const FENCES: u64 = 9;

/// What it is, the call, and number, input and place.
pub type Row = (String, Check, [u64; 3]);

/// Every row through both calls.
pub fn compare() -> Result<String, String> {
    let (plain, closing) = (rows(), whether_largest::rows());
    for (index, (name, check, [number, input, place])) in plain.iter().chain(&closing).enumerate() {
        let on_thread = thread::scope(|scope| {
            let calling = || agreed(&mut Rng::new(1, FENCES, index as u64), check);
            thread::Builder::new().stack_size(STACK).spawn_scoped(scope, calling).expect("a thread").join().expect("a call")
        });
        let answer = on_thread.map_err(|why| format!("{name}: {why}; {check}"))?;
        if answer != [*number, *input, *place, 0] {
            return Err(format!("{name}: number, input, place, count are {answer:?}, by the format {number}, {input}, {place}, 0; {check}"));
        }
    }
    let (plain, closing) = (plain.len(), closing.len());
    Ok(format!("{plain} derivations at their limits and {closing} in the closing layout agree, on a thread of {STACK} bytes of stack"))
}

pub fn rows() -> Vec<Row> {
    let mut rows = most_lines_and_bytes();
    rows.extend(most_citations());
    rows.extend(most_items());
    rows.extend(deepest());
    rows
}

pub fn line(before: &[u8], sequence: &[Item], after: &[u8], rule: u8, cites: &[u16]) -> Line {
    Line { place: 0, before: before.to_vec(), sequence: sequence.to_vec(), after: after.to_vec(), rule, cites: cites.to_vec() }
}

fn row(name: &str, request: &Request, lines: &[Line], answer: [u64; 3]) -> Row {
    let check = Check::plain(encode_request(request).bytes, encode_derivation(lines).bytes);
    (name.to_string(), check, answer)
}

/// The same row with its derivation changed.
fn edited(name: &str, row: &Row, edit: impl FnOnce(&mut Vec<u8>), answer: [u64; 3]) -> Row {
    let mut check = row.1.clone();
    edit(&mut check.derivation);
    (name.to_string(), check, answer)
}

/// The place of the last line.
fn last(lines: &[Line]) -> u64 {
    encode_derivation(&lines[..lines.len() - 1]).bytes.len() as u64
}

/// 1,024 lines with 32,768 bytes together.
fn most_lines_and_bytes() -> Vec<Row> {
    let facts: Vec<u8> = (0..13).map(|fluent| 2 * fluent).collect();
    let goals: Vec<u8> = facts[..9].to_vec();
    let request = Request { fluents: FLUENTS, actions: 1, facts: facts.clone(), goals: goals.clone(), ..Request::default() };
    let mut lines = vec![line(&facts, &[], &facts, 1, &[]); LINE_LIMIT - 1];
    lines.push(line(&facts, &[], &goals, 6, &[1_022]));
    let place = last(&lines);
    let ending = |rule: u8, cites: &[u16], after: &[u8]| {
        let mut lines = lines.clone();
        *lines.last_mut().expect("a line") = line(&facts, &[], after, rule, cites);
        lines
    };
    let full = row("1,024 lines, 32,768 bytes", &request, &lines, [0, 0, 0]);
    assert_eq!(full.1.derivation.len(), DERIVATION_LIMIT, "the longest derivation");
    let more: Vec<u8> = [&facts[..8], &[2 * (FLUENTS - 1) + 1]].concat();
    vec![
        edited("one byte more", &full, |bytes| bytes.push(0), [10, 2, 0]),
        edited("one byte less", &full, |bytes| _ = bytes.pop(), [11, 2, 32_767]),
        edited("a line more is said", &full, |bytes| bytes[1] = 1, [12, 2, 0]),
        edited("a line less is said", &full, |bytes| bytes[..2].copy_from_slice(&[3, 255]), [20, 2, place]),
        edited("no line is said", &full, |bytes| bytes[..2].copy_from_slice(&[0, 0]), [12, 2, 0]),
        edited("65,535 lines are said", &full, |bytes| bytes[..2].copy_from_slice(&[255, 255]), [12, 2, 0]),
        edited("the first line has no rule", &full, |bytes| bytes[32] = 7, [31, 2, 2]),
        row("the last line cites itself", &request, &ending(6, &[1_023], &goals), [32, 2, place]),
        row("the last line cites line 1,024", &request, &ending(6, &[1_024], &goals), [32, 2, place]),
        row("the last line cites line 65,535", &request, &ending(6, &[65_535], &goals), [32, 2, place]),
        row("the last line cites nothing", &request, &ending(6, &[], &goals), [33, 2, place]),
        row("the last line says what is not known", &request, &ending(6, &[0], &more), [34, 2, place]),
        row("the last line is not the question", &request, &ending(6, &[0], &facts[1..10]), [35, 2, place]),
        row("the last line cites the first", &request, &ending(6, &[0], &goals), [0, 0, 0]),
        full,
    ]
}

/// A sensing action over so many fluents, and lines for each of 64 readings.
fn sensing(fluents: u8) -> (Request, Vec<Line>) {
    let request = Request {
        fluents: FLUENTS,
        actions: 1,
        allowances: vec![Allowance { action: 0, body: Vec::new() }],
        knowledge: (0..fluents).map(|fluent| Knowledge { place: 0, action: 0, fluent }).collect(),
        plan: vec![Item::act(0)],
        ..Request::default()
    };
    let read = fluents.min(6);
    let reading = |bits: u16| -> Vec<u8> { (0..fluents).map(|f| 2 * f + if f < read { (bits >> (read - 1 - f) & 1) as u8 } else { 0 }).collect() };
    let mut lines = Vec::new();
    for bits in 0..64 {
        let state = reading(bits);
        lines.push(line(&state, &[], &state, 1, &[]));
        lines.push(line(&state, &[], &[], 6, &[2 * bits]));
    }
    lines.push(line(&[], &[Item::act(0)], &[], 3, &(0..64).map(|bits| 2 * bits + 1).collect::<Vec<u16>>()));
    (request, lines)
}

/// Lines of 64 citations.
fn most_citations() -> Vec<Row> {
    let (request, lines) = sensing(6);
    let place = last(&lines);
    let one = row("64 citations", &request, &lines, [0, 0, 0]);
    let count = place as usize + 1 + 3 + 1 + 1;
    assert_eq!(one.1.derivation[count], 64, "the count of citations");
    let mut many = lines.clone();
    let citing = lines[lines.len() - 1].clone();
    let length = 1 + 3 + 1 + 1 + 1 + 2 * 64;
    many.extend(vec![citing.clone(); (DERIVATION_LIMIT - one.1.derivation.len()) / length]);
    let mut wrong = many.clone();
    wrong.last_mut().expect("a line").cites[63] = 125;
    let mut half = lines.clone();
    half.last_mut().expect("a line").cites.truncate(32);
    let mut fewer = lines.clone();
    fewer.last_mut().expect("a line").cites.truncate(63);
    let mut all = lines.clone();
    all.last_mut().expect("a line").rule = 6;
    let (seven, seven_lines) = sensing(7);
    let (wide, wide_lines) = sensing(FLUENTS);
    vec![
        edited("65 citations are said", &one, |bytes| bytes[count] = 65, [12, 2, count as u64]),
        row("64 citations under rule 6", &request, &all, [33, 2, place]),
        row("32 citations for 64 readings", &request, &half, [34, 2, place]),
        row("63 citations", &request, &fewer, [33, 2, place]),
        row("64 citations in each of many lines", &request, &many, [0, 0, 0]),
        row("many such lines, and the last citation is wrong", &request, &wrong, [34, 2, last(&wrong)]),
        row("seven fluents at once", &seven, &seven_lines, [34, 2, last(&seven_lines)]),
        row(&format!("{FLUENTS} fluents at once"), &wide, &wide_lines, [34, 2, last(&wide_lines)]),
        one,
    ]
}

/// Plans of 1,024 items, and of one more.
fn most_items() -> Vec<Row> {
    let plan = vec![Item::act(0); ITEM_LIMIT];
    let request = Request {
        fluents: 1,
        actions: 1,
        allowances: vec![Allowance { action: 0, body: Vec::new() }],
        plan: plan.clone(),
        ..Request::default()
    };
    let doubled = |times: u32| {
        let mut lines = vec![line(&[], &plan[..1], &[], 2, &[])];
        for power in 1..=times {
            lines.push(line(&[], &plan[..1 << power], &[], 5, &[power as u16 - 1, power as u16 - 1]));
        }
        lines
    };
    let lines = doubled(10);
    let mut short = lines.clone();
    short.last_mut().expect("a line").sequence.pop();
    let mut longer = lines.clone();
    longer.last_mut().expect("a line").sequence.push(Item::act(0));
    let ends = doubled(9);
    vec![
        row("plans of up to 1,024 items, doubled", &request, &lines, [0, 0, 0]),
        row("1,023 items of twice 512", &request, &short, [34, 2, last(&short)]),
        row("1,025 items", &request, &longer, [21, 2, last(&longer) + 3 + 1_024]),
        row("512 items are not the question", &request, &ends, [35, 2, last(&ends)]),
    ]
}

/// Eight branchings one inside another, and nine.
fn deepest() -> Vec<Row> {
    let nested = |depth: usize| (0..depth).fold(Vec::new(), |inner, _| vec![Item::case(vec![Branch { condition: Vec::new(), sequence: inner }])]);
    let request = Request { fluents: 1, actions: 1, plan: nested(NESTING_LIMIT), ..Request::default() };
    let mut lines = vec![line(&[], &[], &[], 1, &[])];
    for depth in 1..=NESTING_LIMIT {
        lines.push(line(&[], &nested(depth), &[], 4, &[depth as u16 - 1]));
    }
    let mut deeper = lines.clone();
    deeper.push(line(&[], &nested(NESTING_LIMIT + 1), &[], 4, &[8]));
    let ninth = last(&deeper) + 3 + 5 * NESTING_LIMIT as u64;
    vec![row("eight branchings", &request, &lines, [0, 0, 0]), row("nine branchings", &request, &deeper, [19, 2, ninth])]
}
