//! Rows of the format for the values call (docs/FORMAT.md, section 26).

use glintstring::STATE_LENGTH;
use oracle::rng::Rng;

use crate::calls::{Call, Left};
use crate::cases::{as_rows_say, bytes};
use crate::values::agreed;

use Request::*;

const BUDGET: u32 = 100_000;
const LENT: u8 = 9;

/// What stands before the plan in the examples of Son, Tu and Zhang (FORMAT 26.35): the traffic light, the illness and the UNIX commands.
const LIGHT: &str = "1 3 1 0 0 1 0 0 1 0 0";
const ILLNESS: &str = "6 6 3 2 2 2 2 9 4 0 11 3 2 4 2 5 2 22 0 3 0 0 0 1 0 1 0 0 0 1 0 1 0 2 0 1 2 1 0 4 0 1 2 1 0 6 0 1 4 1 0 8 2 5 0 0 2 2 0 1 0 0 2 2 2 1 0 2 2 2 0 1 0 4 2 2 2 1 0 6 2 2 0 1 0 8 4 0 10 1 0 0 4 4 0 1 0 1 5 0 10 1 0 2 5 4 0 1 0 3 6 0 10 1 0 4 6 4 0 1 0 5 7 0 10 1 0 6 7 4 0 1 0 7 8 0 10 1 0 8 8 4 0 1 0 9 9 0 0 1 1 3 0 2 0 3 1 5 0 4 0 5 0 6 0 7 0 8 0 2 1 1 3 2";
const UNIX: &str = "3 2 2 2 2 2 0 0 1 0 1 0 0 2 1 1 0 2 0 0 1 0 1 1 2";

/// How a row gives its request: all of its bytes, or those behind what an example has before its plan, or so many bytes that are all the same, or nine branchings
/// one inside another.
#[derive(Clone, Copy)]
enum Request {
    Bytes(&'static str),
    Light(&'static str),
    Illness(&'static str),
    Unix(&'static str),
    Run(usize, u8),
    Nested,
}

/// The request of the first row.
const LOOKED: Request = Light("0 1 0 0 1 0");

/// A sentence, the request, the budget; number, place and count; the state where it is written, a value for each fluent or `?`.
type Row = (&'static str, Request, u32, [u64; 3], Option<&'static str>);

const ROWS: [Row; 55] = [
    ("26.36", LOOKED, BUDGET, [0, 0, 4], None),
    ("26.37", Light("0 1 0 1 0 0 0"), BUDGET, [1, 15, 4], Some("1")),
    ("26.38", Illness("0 4 0 1 2 3 0 1 0"), BUDGET, [1, 182, 14], Some("? 0 0 0 1 0")),
    (
        "26.39",
        Illness("0 5 0 1 2 3 255 2 1 0 0 0 1 4 1 0 1 0 1 255 2 1 0 2 0 1 5 1 0 3 0 1 255 2 1 0 4 0 1 6 1 0 5 0 1 255 2 1 0 6 0 1 7 1 0 7 0 1 255 2 1 0 8 0 1 8 1 0 9 0 0 0 0"),
        BUDGET,
        [2, 180, 4],
        Some("? 0 0 0 1 0"),
    ),
    ("26.40", Unix("0 1 0 1 0 2 0"), BUDGET, [0, 0, 2], None),
    ("26.41", Unix("0 1 1 0 1 2"), BUDGET, [0, 0, 3], None),
    ("26.42", Bytes("1 16 1 0 0 1 0 0 1 0 0 0 1 0 0 1 0"), BUDGET, [0, 0, 17], None),
    ("26.43", Bytes("1 3 1 1 0 1 0 0 0 0 0 1 0 1 0"), BUDGET, [1, 12, 1], Some("?")),
    ("26.44", Bytes("1 3 1 1 0 1 0 1 0 0 1 0 0 0 1 0 1 0 1 0"), BUDGET, [1, 17, 4], Some("0")),
    ("26.45", Bytes("1 3 1 2 0 1 0 5 0 0 0 0 0 1 0 2 1 0"), BUDGET, [0, 0, 1], None),
    ("26.46", Bytes("1 3 1 2 0 0 0 3 0 0 0 0 0 2 0 0 0 3 0"), BUDGET, [0, 0, 1], None),
    ("26.47", Bytes("2 3 3 1 1 0 4 0 0 0 0 0 2 0 4 1 5 0"), BUDGET, [1, 15, 1], Some("2 ?")),
    ("26.48", Bytes("1 3 1 1 0 3 0 0 0 0 0 0 1 0"), BUDGET, [1, 13, 1], Some("?")),
    ("26.49", Bytes("2 3 2 1 2 0 4 1 1 0 0 0 0 0 0 2 0 1"), BUDGET, [0, 0, 1], None),
    ("26.50", Bytes("1 3 1 1 0 2 0 1 0 1 0 1 0 0 1 0 1 0 2 0"), BUDGET, [0, 0, 2], None),
    ("26.51", Bytes("1 3 1 1 0 1 0 1 0 1 0 1 0 0 1 0 0 0"), BUDGET, [2, 15, 0], Some("?")),
    ("26.52", Bytes("1 3 1 1 0 2 0 1 0 0 1 0 0 0 1 0 1 0 2 0"), BUDGET, [0, 0, 2], None),
    ("26.53", Bytes("2 2 3 1 0 0 1 0 0 2 0 1 0 0 0 1 0 1 1 0 0"), BUDGET, [1, 18, 7], Some("0 1")),
    ("26.54", Bytes("2 3 2 1 1 0 2 1 0 0 2 1 1 0 1 0 0 0 0 1 0 1 0 2 0"), BUDGET, [0, 0, 2], None),
    ("26.55", Bytes("2 3 2 1 1 0 2 1 0 0 4 1 1 0 1 0 0 0 0 1 0 1 0 1 0"), BUDGET, [1, 22, 2], Some("? ?")),
    ("26.56", Bytes("2 3 4 1 1 0 2 1 0 1 6 2 0 1 0 5 1 0 0 0 0 1 0 1 1 6 0"), BUDGET, [0, 0, 2], None),
    ("26.57", Light("0 2 0 255 2 1 0 0 0 0 1 0 1 0 1 255 2 1 0 2 0 0 1 0 3 0 1 0 0 1 0"), BUDGET, [0, 0, 5], None),
    ("26.58", Bytes("2 2 1 1"), BUDGET, [12, 2, 0], None),
    ("26.59", Bytes("1 17 1 0 0 0 0 0 0 0 0"), BUDGET, [12, 1, 0], None),
    ("26.60", Bytes("3 2 2"), BUDGET, [11, 3, 0], None),
    ("26.61", Bytes("1 3 1 1 1"), BUDGET, [13, 4, 0], None),
    ("26.62", Bytes("1 3 1 1 0 6 0 0 0 0 0 0 0"), BUDGET, [13, 5, 0], None),
    ("26.63", Bytes("1 3 1 1 0"), BUDGET, [11, 5, 0], None),
    ("26.64", Bytes("2 3 3 1 2 1 0 0 6"), BUDGET, [13, 8, 0], None),
    ("26.65", Bytes("2 3 3 1 2 1 0 0 5"), BUDGET, [14, 7, 0], None),
    ("26.66", Bytes("1 3 1 2 0 2 0 0 0 0 0 0 0 0 0"), BUDGET, [14, 6, 0], None),
    ("26.67", Bytes("1 3 1 2 0 2 0 2 0 0 0 0 0 0 0"), BUDGET, [14, 6, 0], None),
    ("26.68", Bytes("1 3 1 2 0 0 0 1 0 0 0 0 0 0 0"), BUDGET, [15, 6, 0], None),
    ("26.69", Bytes("1 3 1 2 0 0 0 2 0 0 0 0 0 0 0"), BUDGET, [15, 6, 0], None),
    ("26.70", Bytes("1 2 1 2 0 1 0 3 0 0 0 0 0 0 0"), BUDGET, [15, 6, 0], None),
    ("26.71", Bytes("1 3 1 3 0 1 0 3 0 5 0 0 0 0 0 0 0"), BUDGET, [15, 8, 0], None),
    ("26.72", Bytes("1 3 1 3 0 0 0 3 0 4 0 0 0 0 0 0 0"), BUDGET, [15, 8, 0], None),
    ("26.73", Bytes("1 3 1 0 1 0 0 3 0 0 0 0 0 0 0"), BUDGET, [46, 6, 0], None),
    ("26.74", Bytes("1 3 1 0 1 0 0 3 1 1 0"), BUDGET, [46, 6, 0], None),
    ("26.75", Bytes("1 3 1 0 1 0 0 7 0"), BUDGET, [13, 7, 0], None),
    ("26.76", Bytes("1 16 1 0 1 0 0 0 17"), BUDGET, [12, 8, 0], None),
    ("26.77", Bytes("1 3 1 0 2 0 0 2 0 0 0 4 0 1 0 0 0 0 0 0 0"), BUDGET, [16, 9, 0], None),
    ("26.78", Bytes("1 3 1 0 2 0 0 2 0 0 0 2 1 0 1 1 0 0 0 0 1 0 1 0 2 0"), BUDGET, [0, 0, 2], None),
    ("26.79", Bytes("2 3 3 1 0 2 0 1 2 2 0 1 0 3 0 1 4 1 0 5 1 0 0 0 0 0 0 0"), BUDGET, [0, 0, 1], None),
    ("26.80", Bytes("2 3 3 1 0 2 0 1 2 1 0 1 0 1 4 1 0 3 1 0 1 0 5 0 0 0 0 0"), BUDGET, [16, 12, 0], None),
    ("26.81", Bytes("1 3 1 0 1 0 0 2 0 1 0 0 1 0 0 0 0 0 0"), BUDGET, [17, 13, 0], None),
    ("26.82", Bytes("1 3 1 1 0 0 0 0 0 0 1 255 2 1 0 1 0 0 1 0 3 0 0 0 0"), BUDGET, [18, 11, 0], None),
    ("26.83", Bytes("1 3 1 1 0 4 0 0 0 0 1 255 2 2 0 1 0 3 0 0 1 0 5 0 0 0 0"), BUDGET, [0, 0, 1], None),
    ("26.84", Nested, BUDGET, [19, 49, 0], None),
    ("26.85", Bytes("1 3 1 0 2 0 0 2 0 0 0 4 0 1 0 0 0 0 0 0 0 0"), BUDGET, [20, 21, 0], None),
    ("26.86", LOOKED, 3, [3, 0, 3], None),
    ("26.87", LOOKED, 4, [0, 0, 4], None),
    ("26.88", LOOKED, BUDGET, [9, 0, 0], None),
    ("26.89", Run(16_385, 0), BUDGET, [10, 0, 0], None),
    (
        "26.90",
        Bytes("4 2 2 2 2 3 3 1 1 2 2 3 1 3 1 1 0 0 1 3 0 1 0 0 2 2 0 0 3 0 0 1 1 1 2 2 1 1 0 1 0 0 0 2 0 255 2 1 0 1 0 2 1 2 1 0 0 0 0 1 3 2 1 2"),
        BUDGET,
        [0, 0, 5],
        None,
    ),
];

fn request(given: Request) -> Vec<u8> {
    match given {
        Bytes(all) => bytes(all),
        Light(rest) => [LIGHT, rest].map(bytes).concat(),
        Illness(rest) => [ILLNESS, rest].map(bytes).concat(),
        Unix(rest) => [UNIX, rest].map(bytes).concat(),
        Run(length, byte) => vec![byte; length],
        Nested => [bytes("1 3 1 0 0 0 0"), [0, 1, 255, 1, 0].repeat(8), vec![0, 1, 255]].concat(),
    }
}

fn call((sentence, given, budget, ..): &Row) -> Call {
    let length = if *sentence == "26.88" { 127 } else { STATE_LENGTH };
    Call { request: request(*given), lent: vec![LENT; length], budget: *budget }
}

/// The calls of the rows.
#[allow(dead_code)]
pub fn calls() -> Vec<Call> {
    ROWS.iter().map(call).collect()
}

/// What a row says is left: one more than each value, with 0 for what is unknown and behind the fluents, or the bytes as lent.
fn expected([number, place, count]: [u64; 3], state: Option<&str>, lent: &[u8]) -> Left {
    let input = u64::from(!matches!(number, 0 | 3 | 9));
    let mark = |word: &str| if word == "?" { 0 } else { word.parse::<u8>().expect("a value of a row") + 1 };
    let lent = match state {
        None => lent.to_vec(),
        Some(line) => line.split(' ').map(mark).chain([0; STATE_LENGTH]).take(STATE_LENGTH).collect(),
    };
    Left { answer: [number, input, place, count], lent, line: None }
}

/// Every row through the exported call, with the independent program's opinion of it; how many there are.
pub fn compare(rng: &mut Rng) -> Result<usize, String> {
    let rows = ROWS.iter().map(|row| {
        let (sentence, _, _, answer, state) = *row;
        let call = call(row);
        let format = expected(answer, state, &call.lent);
        (sentence, call, format)
    });
    as_rows_say(rows, |call| agreed(rng, call))
}
