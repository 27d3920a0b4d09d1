//! Rows of the format for the guarded call (docs/FORMAT.md, section 21).

use glintstring::STATE_LENGTH;
use oracle::rng::Rng;

use crate::calls::{self, Call};
use crate::cases::{self, as_rows_say, expected, request, Request};
use crate::guarded::agreed;

use Request::*;

const BUDGET: u32 = 100_000;
const LENT: u8 = 9;

/// The 64 even literals as a list, and a request that has them as facts, and nothing else.
const SIXTY_FOUR: &str = "64 0 2 4 6 8 10 12 14 16 18 20 22 24 26 28 30 32 34 36 38 40 42 44 46 48 50 52 54 56 58 60 62 64 66 68 70 72 74 76 78 80 82 84 86 88 90 92 94 96 98 100 102 104 106 108 110 112 114 116 118 120 122 124 126";
const SIXTY_FOUR_FACTS: &str = "128 1 64 0 2 4 6 8 10 12 14 16 18 20 22 24 26 28 30 32 34 36 38 40 42 44 46 48 50 52 54 56 58 60 62 64 66 68 70 72 74 76 78 80 82 84 86 88 90 92 94 96 98 100 102 104 106 108 110 112 114 116 118 120 122 124 126 0 0 0 0 0 0 0";

/// A sentence, the request without its ninth section, that section, the budget; number, place and count; the state where it is written.
type Row = (&'static str, Request, &'static str, u32, [u64; 3], Option<&'static str>);

const ROWS: [Row; 31] = [
    ("21.28", FileA, "0", BUDGET, [0, 0, 5], None),
    ("21.29", FileA, "1 7", BUDGET, [0, 0, 5], None),
    ("21.30", FileA, "1 3", BUDGET, [43, 49, 3], Some("-+--")),
    ("21.31", FileA, "1 3", 3, [43, 49, 3], Some("-+--")),
    ("21.32", FileA, "1 3", 2, [3, 0, 2], None),
    ("21.33", FileA, "1 0", 0, [43, 49, 0], Some("?---")),
    ("21.34", FileA, "2 5 7", BUDGET, [43, 49, 4], Some("-++-")),
    ("21.35", FileA, "2 3 6", BUDGET, [43, 50, 0], Some("?---")),
    ("21.36", From29("0 1 1 0 0"), "2 5 7", BUDGET, [43, 36, 1], Some("?+-?")),
    ("21.37", From29("0 1 1 1 7 0"), "1 7", BUDGET, [43, 36, 1], Some("?+-?")),
    ("21.38", From29("0 2 0 255 2 1 1 0 2 1 2 1 0 0 0 1 1 0"), "1 3", BUDGET, [43, 48, 3], Some("-+--")),
    ("21.39", From29("0 2 1 1 0 0"), "1 3", BUDGET, [43, 36, 1], Some("?+-?")),
    ("21.40", From29("0 1 2 0 0"), "1 0", BUDGET, [43, 35, 0], Some("?---")),
    ("21.41", From29("0 2 1 1 0 0"), "1 5", BUDGET, [2, 32, 1], Some("?+-?")),
    ("21.42", From29("0 0 1 7 1 0"), "1 7", BUDGET, [1, 34, 1], Some("?---")),
    ("21.43", FileA, "1 7", 4, [3, 0, 4], None),
    ("21.44", FileA, "1 1", BUDGET, [43, 49, 0], Some("?---")),
    ("21.45", Bytes(SIXTY_FOUR_FACTS), SIXTY_FOUR, BUDGET, [0, 0, 1], None),
    ("21.46", FileA, "65", BUDGET, [12, 48, 0], None),
    ("21.47", FileA, "1 8", BUDGET, [13, 49, 0], None),
    ("21.48", FileA, "2 7 5", BUDGET, [14, 50, 0], None),
    ("21.49", FileA, "2 2 3", BUDGET, [15, 50, 0], None),
    ("21.50", FileA, "0 0", BUDGET, [20, 49, 0], None),
    ("21.51", FileA, "", BUDGET, [11, 48, 0], None),
    ("21.52", FileA, "1", BUDGET, [11, 49, 0], None),
    ("21.53", Changed(11, 3), "1 0", BUDGET, [16, 10, 0], None),
    ("21.54", Changed(27, 1), "1 0", BUDGET, [17, 27, 0], None),
    ("21.55", Changed(41, 1), "1 0", BUDGET, [18, 32, 0], None),
    ("21.56", Changed(11, 3), "0 0", BUDGET, [20, 49, 0], None),
    ("21.57", FileA, "0", BUDGET, [9, 0, 0], None),
    ("21.58", Run(16_385, 0), "", BUDGET, [10, 0, 0], None),
];

fn call((sentence, given, ninth, budget, ..): &Row) -> Call {
    let length = if *sentence == "21.57" { 127 } else { STATE_LENGTH };
    Call { request: [request(*given), cases::bytes(ninth)].concat(), lent: vec![LENT; length], budget: *budget }
}

/// The calls of the rows.
#[allow(dead_code)]
pub fn calls() -> Vec<Call> {
    ROWS.iter().map(call).collect()
}

/// Every row through the exported call, with the independent program's opinion of it, and the row of the walk call; how many there are.
pub fn compare(rng: &mut Rng) -> Result<usize, String> {
    let rows = ROWS.iter().map(|row| {
        let (sentence, _, _, _, answer, state) = *row;
        let call = call(row);
        let format = expected(answer, state, &call.lent);
        (sentence, call, format)
    });
    let guarded = as_rows_say(rows, |call| agreed(rng, call))?;
    let plain = call(&ROWS[0]);
    let format = expected([20, 48, 0], None, &plain.lent);
    let walked = as_rows_say([("21.59", plain, format)], |call| calls::agreed(rng, call))?;
    Ok(guarded + walked)
}
