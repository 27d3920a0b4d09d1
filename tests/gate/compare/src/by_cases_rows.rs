//! Rows of the format for the call by cases (docs/FORMAT.md, section 22).

use glintstring::STATE_LENGTH;
use oracle::rng::Rng;

use crate::by_cases::agreed;
use crate::calls::{self, Call, Left};
use crate::cases::{as_rows_say, expected, request, Request};

use Request::*;

const BUDGET: u32 = 100_000;
const LENT: u8 = 9;

const CASE_10: Request = Bytes("2 1 0 2 0 0 1 2 0 0 1 3 1 0 0 0 0 1 0 1 0 0");
const TWO_LINES: Request = Bytes("1 1 0 0 2 0 1 0 0 1 1 0 0 1 0 0 0");
const TOO_MANY: Request = Bytes("13 1 0 1 0 0 13 0 2 4 6 8 10 12 14 16 18 20 22 24 1 0 0 0 0 1 0 0 0");
const COUNTED_BEFORE: Request = Bytes("13 2 0 1 0 0 13 0 2 4 6 8 10 12 14 16 18 20 22 24 2 0 0 1 0 0 0 2 1 0 0 0");

/// A sentence, the request, the budget; number, place and count; the state where it is written; the line.
type Row = (&'static str, Request, u32, [u64; 3], Option<&'static str>, u32);

const ROWS: [Row; 26] = [
    ("22.24", CASE_10, BUDGET, [0, 0, 2], None, 0),
    ("22.25", CASE_10, 1, [3, 0, 1], None, 0),
    ("22.26", Bytes("1 1 0 1 0 0 1 1 1 0 0 0 0 1 0 1 0 0"), BUDGET, [0, 0, 2], None, 0),
    ("22.27", TWO_LINES, BUDGET, [0, 0, 2], None, 0),
    ("22.29", Bytes("1 1 0 0 2 0 1 0 0 1 1 1 0 0 0 1 0 0 1 0"), BUDGET, [0, 0, 3], None, 0),
    ("22.30", Bytes("4 2 0 4 0 0 1 4 0 2 1 5 1 6 1 0 1 6 1 2 2 0 0 1 0 0 0 2 0 1 1 6 0"), BUDGET, [1, 31, 3], Some("????"), 0),
    ("22.31", Bytes("2 3 1 0 2 0 1 1 2 2 0 1 2 3 0 0 1 0 2 0 1 1 1 0 3 0 1 2 1 0 0"), BUDGET, [1, 29, 6], Some("?-"), 0),
    ("22.32", Bytes("2 2 0 4 0 2 1 0 0 3 1 1 0 0 1 1 0 1 1 0 2 0 0 1 0 1 1 1 0 2 0 1 0 1 0"), BUDGET, [1, 34, 4], Some("?+"), 0),
    ("22.33", Bytes("1 1 0 0 1 0 1 0 0 0 1 0 0 0"), BUDGET, [2, 11, 0], Some("?"), 5),
    ("22.34", Bytes("2 1 0 0 2 0 2 0 2 0 1 1 0 0 1 0 0 0"), BUDGET, [2, 15, 0], Some("??"), 9),
    ("22.35", Bytes("1 1 0 0 0 0 0 1 255 2 1 0 0 0 1 1 0 0 0 0"), BUDGET, [2, 8, 0], Some("?"), 0),
    ("22.36", Bytes("13 1 0 1 0 0 12 2 4 6 8 10 12 14 16 18 20 22 24 1 0 0 0 0 1 0 0 0"), BUDGET, [0, 0, 2], None, 0),
    ("22.37", TOO_MANY, BUDGET, [44, 26, 0], None, 0),
    ("22.38", TOO_MANY, 0, [44, 26, 0], None, 0),
    ("22.39", Bytes("13 1 1 0 1 0 0 13 0 2 4 6 8 10 12 14 16 18 20 22 24 1 0 0 0 0 1 0 0 0"), BUDGET, [0, 0, 2], None, 0),
    ("22.40", Bytes("14 1 1 1 2 0 0 13 0 2 4 6 8 10 12 14 16 18 20 22 24 0 0 1 26 1 0 0 0 0 1 0 0 0"), BUDGET, [44, 31, 0], None, 0),
    ("22.41", Bytes("13 1 0 0 2 0 0 0 13 0 2 4 6 8 10 12 14 16 18 20 22 24 0 0 1 0 0 0"), BUDGET, [44, 25, 0], None, 0),
    ("22.42", Bytes("13 1 0 1 0 0 13 0 2 4 6 8 10 12 14 16 18 20 22 24 0 0 0 1 0 0 0"), BUDGET, [44, 24, 0], None, 0),
    ("22.43", Bytes("13 1 0 0 1 0 13 0 2 4 6 8 10 12 14 16 18 20 22 24 1 0 0 0 1 0 0 0"), BUDGET, [44, 25, 0], None, 0),
    (
        "22.44",
        Bytes("14 1 0 13 0 2 1 0 0 4 1 0 0 6 1 0 0 8 1 0 0 10 1 0 0 12 1 0 0 14 1 0 0 16 1 0 0 18 1 0 0 20 1 0 0 22 1 0 0 24 1 0 0 26 1 0 1 0 0 0 0 1 0 0 0"),
        BUDGET,
        [0, 0, 2],
        None,
        0,
    ),
    ("22.45", COUNTED_BEFORE, 1, [44, 29, 0], None, 0),
    ("22.46", COUNTED_BEFORE, 0, [3, 0, 0], None, 0),
    (
        "22.47",
        Bytes("14 2 0 1 0 0 13 0 2 4 6 8 10 12 14 16 18 20 22 24 2 0 0 1 0 1 1 13 0 2 1 255 2 1 26 0 0 1 27 0 1 0 1 0 0"),
        BUDGET,
        [44, 41, 0],
        None,
        0,
    ),
    ("22.48", FileA, BUDGET, [0, 0, 5], None, 0),
    ("22.49", Changed(11, 3), BUDGET, [16, 10, 0], None, 0),
    ("22.50", FileA, BUDGET, [9, 0, 0], None, 0),
];

fn call((sentence, given, budget, ..): &Row) -> Call {
    let length = if *sentence == "22.50" { 127 } else { STATE_LENGTH };
    Call { request: request(*given), lent: vec![LENT; length], budget: *budget }
}

/// The calls of the rows.
#[allow(dead_code)]
pub fn calls() -> Vec<Call> {
    ROWS.iter().map(call).collect()
}

/// Every row through the exported call, with the independent program's opinion of it, line included, and the row of the walk call; how many there are.
pub fn compare(rng: &mut Rng) -> Result<usize, String> {
    let rows = ROWS.iter().map(|row| {
        let (sentence, _, _, answer, state, line) = *row;
        let call = call(row);
        let format = expected(answer, state, &call.lent);
        (sentence, call, Left { line: Some(line), ..format })
    });
    let by_cases = as_rows_say(rows, |call| {
        let left = agreed(rng, call)?;
        let (_, line) = oracle::judge_by_cases_line(&call.request, &mut call.lent.clone(), call.budget);
        Ok(Left { line: Some(line), ..left })
    })?;
    let walk = Call { request: request(TWO_LINES), lent: vec![LENT; STATE_LENGTH], budget: BUDGET };
    let format = expected([2, 14, 0], Some("?"), &walk.lent);
    let walked = as_rows_say([("22.28", walk, Left { line: Some(5), ..format })], |call| calls::agreed(rng, call))?;
    Ok(by_cases + walked)
}
