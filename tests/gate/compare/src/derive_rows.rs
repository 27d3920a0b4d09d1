//! Rows of the format for the derive call (docs/FORMAT.md, section 24).

use oracle::rng::Rng;

use crate::calls::Call;
use crate::cases::{as_rows_say, bytes, expected, request, Request};
use crate::derives::agreed;

use Request::*;

const BUDGET: u32 = 100_000;
const LENT: u8 = 9;

/// File A with an empty whether list, and its derivation.
const B: Request = From29("0 2 0 255 2 1 1 0 2 1 2 1 0 0 0 1 7 0");
const D: &str = "0 11 4 0 3 5 7 0 0 4 0 3 5 7 1 0 4 0 3 5 7 0 0 1 7 6 1 0 0 4 0 3 5 7 0 1 255 2 1 1 0 2 1 2 1 0 0 0 1 7 4 1 0 1 4 1 3 5 7 0 1 1 4 1 2 5 7 2 0 \
                 4 1 2 5 7 0 1 2 4 1 2 4 7 2 0 4 1 2 4 7 0 0 4 1 2 4 7 1 0 4 1 2 4 7 0 0 1 7 6 1 0 5 4 1 2 5 7 0 1 2 1 7 5 2 0 4 0 6 4 1 3 5 7 0 2 1 2 1 7 5 2 0 3 0 7 \
                 4 1 3 5 7 0 1 255 2 1 1 0 2 1 2 1 0 0 0 1 7 4 1 0 8 3 3 5 7 0 2 0 255 2 1 1 0 2 1 2 1 0 0 0 1 7 3 2 0 2 0 9";
/// B with byte 11 changed to 3.
const CONTRADICTORY: Request = Bytes("4 3 3 3 5 7 3 1 2 0 1 3 1 0 2 4 0 3 0 0 1 1 3 2 1 2 1 0 0 0 2 0 255 2 1 1 0 2 1 2 1 0 0 0 1 7 0");
const TWO_SENSED: Request = Bytes("2 1 0 0 1 0 0 2 0 1 0 0 0 1 0 0 0");
const JOINED: Request = Bytes("1 1 1 0 0 1 0 0 0 0 2 255 1 1 0 0 1 255 1 0 0 1 0 0 0 0");
/// Example 3.1 of Zhao and Shen.
const EXAMPLE: Request = Bytes("3 3 2 3 5 4 1 2 1 0 1 4 1 1 2 1 1 0 2 0 1 1 3 0 1 5 1 1 5 2 1 5 1 0 0 0 3 0 255 2 1 1 0 1 2 1 0 0 0 1 3 0 2 5 0");
const SEVEN: Request = Bytes("7 1 0 0 1 0 0 7 0 0 0 1 0 2 0 3 0 4 0 5 0 6 0 1 0 0 0");
const SEVEN_MISSED: Request = Bytes("7 1 0 0 1 0 0 7 0 0 0 1 0 2 0 3 0 4 0 5 0 6 0 1 0 1 0 0");
const PASSED_BY: Request = Bytes("8 1 1 0 0 1 0 0 7 0 1 0 2 0 3 0 4 0 5 0 6 0 7 0 2 255 2 1 1 0 1 0 1 0 0 0 0 0 0");

const OF_EMPTY: &str = "0 2 3 3 5 7 0 0 3 3 5 7 1 0 3 3 5 7 0 0 0 6 1 0 0";
const OF_ALL: &str = "0 2 3 3 5 7 0 0 3 3 5 7 1 0 3 3 5 7 0 0 3 3 5 7 6 1 0 0";
const OF_KNOWN: &str = "0 7 4 0 3 5 7 0 0 4 0 3 5 7 1 0 4 0 3 5 7 0 0 0 6 1 0 0 4 0 3 5 7 0 1 0 0 3 1 0 1 4 1 3 5 7 0 0 4 1 3 5 7 1 0 4 1 3 5 7 0 0 0 6 1 0 3 \
                        4 1 3 5 7 0 1 0 0 3 1 0 4 3 3 5 7 0 2 0 0 0 3 2 0 2 0 5";
const OF_TWO_SENSED: &str = "0 9 2 0 2 0 0 2 0 2 1 0 2 0 2 0 0 0 6 1 0 0 2 0 3 0 0 2 0 3 1 0 2 0 3 0 0 0 6 1 0 2 2 1 2 0 0 2 1 2 1 0 2 1 2 0 0 0 6 1 0 4 \
                             2 1 3 0 0 2 1 3 1 0 2 1 3 0 0 0 6 1 0 6 0 0 1 0 0 3 4 0 1 0 3 0 5 0 7";
const OF_JOINED: &str = "0 8 1 0 0 1 0 1 0 2 0 1 0 0 1 0 1 0 2 0 1 0 0 0 1 0 1 0 1 0 0 0 0 6 1 0 2 1 0 0 1 0 0 5 2 0 1 0 3 1 0 0 2 0 0 0 5 2 0 0 0 4 \
                         1 0 0 2 255 1 0 0 1 0 0 0 4 1 0 5 1 0 0 2 255 1 1 0 0 1 255 1 0 0 1 0 0 0 4 1 0 6";
const OF_EXAMPLE: &str = "0 13 3 0 3 5 0 1 1 3 0 2 5 2 0 3 0 2 5 0 0 3 0 2 5 1 0 3 0 2 5 0 0 3 0 2 5 6 1 0 1 3 0 3 5 0 1 1 3 0 2 5 5 2 0 0 0 2 \
                          3 0 3 5 0 2 255 2 1 1 0 1 2 1 0 0 0 1 3 0 2 5 4 1 0 3 3 1 3 5 0 1 2 3 0 3 5 2 0 3 0 3 5 0 1 1 3 0 2 5 2 0 3 0 2 5 0 0 3 0 2 5 1 0 \
                          3 0 2 5 0 0 3 0 2 5 6 1 0 7 3 0 3 5 0 1 1 3 0 2 5 5 2 0 6 0 8 3 1 3 5 0 2 2 1 3 0 2 5 5 2 0 5 0 9 \
                          3 1 3 5 0 2 255 2 1 1 0 1 2 1 0 0 0 1 3 0 2 5 4 1 0 10 2 3 5 0 3 0 255 2 1 1 0 1 2 1 0 0 0 1 3 0 2 5 3 2 0 4 0 11";

/// A sentence, the request, the length of the room, the budget; number, place and count; what the room starts with afterwards where it is written.
type Row = (&'static str, Request, usize, u32, [u64; 3], Option<&'static str>);

const ROWS: [Row; 21] = [
    ("24.30", B, 196, BUDGET, [0, 0, 196], Some(D)),
    ("24.31", B, 198, BUDGET, [0, 0, 196], Some(D)),
    ("24.32", B, 195, BUDGET, [39, 0, 0], None),
    ("24.33", B, 0, BUDGET, [39, 0, 0], None),
    ("24.34", B, 196, 5, [0, 0, 196], Some(D)),
    ("24.35", B, 0, 4, [3, 0, 4], None),
    ("24.36", FileA, 0, 0, [30, 46, 0], None),
    ("24.37", From29("0 1 1 1 7 0"), 196, BUDGET, [1, 33, 2], None),
    ("24.38", From29("0 1 2 0 0"), 196, BUDGET, [2, 31, 0], None),
    ("24.39", From29("0 0 0 0"), 25, BUDGET, [0, 0, 25], Some(OF_EMPTY)),
    ("24.40", From29("0 0 3 3 5 7 0"), 28, BUDGET, [0, 0, 28], Some(OF_ALL)),
    ("24.41", From29("0 2 0 0 0 0"), 95, BUDGET, [0, 0, 95], Some(OF_KNOWN)),
    ("24.42", TWO_SENSED, 97, BUDGET, [0, 0, 97], Some(OF_TWO_SENSED)),
    ("24.43", JOINED, 100, BUDGET, [0, 0, 100], Some(OF_JOINED)),
    ("24.44", EXAMPLE, 225, BUDGET, [0, 0, 225], Some(OF_EXAMPLE)),
    ("24.45", SEVEN, 0, BUDGET, [37, 24, 0], None),
    ("24.46", SEVEN, 0, 128, [3, 0, 128], None),
    ("24.47", SEVEN_MISSED, 0, BUDGET, [1, 26, 129], None),
    ("24.48", PASSED_BY, 0, BUDGET, [37, 36, 0], None),
    ("24.49", CONTRADICTORY, 0, BUDGET, [16, 10, 0], None),
    ("24.50", Start(46), 0, BUDGET, [11, 46, 0], None),
];

fn call((_, given, length, budget, ..): &Row) -> Call {
    Call { request: request(*given), lent: vec![LENT; *length], budget: *budget }
}

/// The calls of the rows.
#[allow(dead_code)]
pub fn calls() -> Vec<Call> {
    ROWS.iter().map(call).collect()
}

/// Every row through the exported call, with the independent program's opinion of it; how many there are.
pub fn compare(rng: &mut Rng) -> Result<usize, String> {
    let rows = ROWS.iter().map(|row| {
        let (sentence, _, length, _, answer, start) = *row;
        let mut room = start.map_or(Vec::new(), bytes);
        room.resize(length, LENT);
        (sentence, call(row), expected(answer, None, &room))
    });
    as_rows_say(rows, |call| agreed(rng, call))
}
