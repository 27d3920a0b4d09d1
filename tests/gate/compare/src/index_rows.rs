//! Rows of the format for the index call and the indexed call (docs/FORMAT.md, section 23).

use glintstring::STATE_LENGTH;
use oracle::rng::Rng;

use crate::calls::{Call, Left};
use crate::cases::{as_rows_say, bytes, expected, request, Request};
use crate::indexes::{built_agreed, indexed_agreed, Both, Indexed};

use Request::*;

const BUDGET: u32 = 100_000;
const LENT: u8 = 9;

/// The index of File A, a request in which an effect is said twice, and its index.
const I: &str = "0 1 0 18 2 0 7 0 10 1 0 20 1 0 14 1 0 23";
const T: Request = Bytes("1 1 0 2 0 0 0 0 0 0 1 0 0 0 0 0 0 0");
const OF_T: &str = "2 0 4 0 7 1 0 11";
/// A request with offsets above 255: 128 facts, and nine effects that have 16 literals each.
const FAR: Request = Bytes(
    "128 1 128 0 2 4 6 8 10 12 14 16 18 20 22 24 26 28 30 32 34 36 38 40 42 44 46 48 50 52 54 56 58 60 62 64 66 68 70 72 74 76 78 80 82 84 86 88 90 92 94 96 98 100 \
     102 104 106 108 110 112 114 116 118 120 122 124 126 128 130 132 134 136 138 140 142 144 146 148 150 152 154 156 158 160 162 164 166 168 170 172 174 176 178 \
     180 182 184 186 188 190 192 194 196 198 200 202 204 206 208 210 212 214 216 218 220 222 224 226 228 230 232 234 236 238 240 242 244 246 248 250 252 254 9 \
     0 0 16 0 2 4 6 8 10 12 14 16 18 20 22 24 26 28 30 0 0 16 0 2 4 6 8 10 12 14 16 18 20 22 24 26 28 30 0 0 16 0 2 4 6 8 10 12 14 16 18 20 22 24 26 28 30 \
     0 0 16 0 2 4 6 8 10 12 14 16 18 20 22 24 26 28 30 0 0 16 0 2 4 6 8 10 12 14 16 18 20 22 24 26 28 30 0 0 16 0 2 4 6 8 10 12 14 16 18 20 22 24 26 28 30 \
     0 0 16 0 2 4 6 8 10 12 14 16 18 20 22 24 26 28 30 0 0 16 0 2 4 6 8 10 12 14 16 18 20 22 24 26 28 30 0 0 16 0 2 4 6 8 10 12 14 16 18 20 22 24 26 28 30 \
     1 0 0 0 0 0 0 0",
);

/// A sentence, the request, the length of the room; number, place and count; the room afterwards where it is written.
type BuildRow = (&'static str, Request, usize, [u64; 3], Option<&'static str>);

const BUILD_ROWS: [BuildRow; 9] = [
    ("23.28", FileA, 18, [0, 0, 18], Some(I)),
    ("23.29", FileA, 20, [0, 0, 18], Some("0 1 0 18 2 0 7 0 10 1 0 20 1 0 14 1 0 23 9 9")),
    ("23.30", FileA, 17, [39, 0, 0], None),
    ("23.31", FileA, 0, [39, 0, 0], None),
    ("23.32", T, 8, [0, 0, 8], Some(OF_T)),
    ("23.33", Bytes("1 3 0 3 2 0 0 0 0 0 2 0 0 2 2 0 0 0 0 0 0 0 0"), 16, [0, 0, 16], Some("1 0 7 1 0 16 0 0 2 0 4 0 10 1 0 14")),
    ("23.34", FAR, 22, [0, 0, 22], Some("9 0 132 0 151 0 170 0 189 0 208 0 227 0 246 1 9 1 28 1 1 48")),
    ("23.35", Changed(11, 3), 0, [16, 10, 0], None),
    ("23.36", Start(47), 18, [11, 47, 0], None),
];

/// A sentence, the request, the index, the budget; number, place and count; the state where it is written; the line.
type Row = (&'static str, Request, &'static str, u32, [u64; 3], Option<&'static str>, u32);

const ROWS: [Row; 17] = [
    ("23.37", FileA, I, BUDGET, [0, 0, 5], None, 0),
    ("23.38", FileA, I, 4, [3, 0, 4], None, 0),
    ("23.39", FileA, "", BUDGET, [45, 0, 0], None, 0),
    ("23.40", FileA, "0 1 0 18 2 0 7 0 10 1 0 20 1 0 14 1 0", BUDGET, [45, 17, 0], None, 0),
    ("23.41", FileA, "0 1 0 18 2 0 7 0 10 1 0 20 1 0 14 1 0 23 0", BUDGET, [45, 18, 0], None, 0),
    ("23.42", FileA, "0 1 0 19 2 0 7 0 10 1 0 20 1 0 14 1 0 23", BUDGET, [45, 3, 0], None, 0),
    ("23.43", FileA, "1 0 18 0 1 0 20 2 0 7 0 10 1 0 23 1 0 14", BUDGET, [45, 0, 0], None, 0),
    ("23.44", FileA, "0 1 0 18 2 0 10 0 7 1 0 20 1 0 14 1 0 23", BUDGET, [45, 6, 0], None, 0),
    ("23.45", FileA, OF_T, BUDGET, [45, 0, 0], None, 0),
    ("23.46", T, OF_T, BUDGET, [0, 0, 1], None, 0),
    ("23.47", T, "1 0 4 1 0 11", BUDGET, [45, 0, 0], None, 0),
    ("23.48", T, "2 0 4 0 4 1 0 11", BUDGET, [45, 4, 0], None, 0),
    ("23.49", FileA, "", 0, [45, 0, 0], None, 0),
    ("23.50", FileA, "", BUDGET, [9, 0, 0], None, 0),
    ("23.51", Changed(11, 3), "", BUDGET, [16, 10, 0], None, 0),
    ("23.52", From29("0 1 1 1 7 1 2"), I, BUDGET, [1, 33, 2], Some("?+-?"), 0),
    ("23.53", From29("0 1 2 0 0"), I, BUDGET, [2, 31, 0], Some("?---"), 23),
];

fn building((_, given, length, ..): &BuildRow) -> Call {
    Call { request: request(*given), lent: vec![LENT; *length], budget: 0 }
}

fn call((sentence, given, index, budget, ..): &Row) -> Indexed {
    let length = if *sentence == "23.50" { 127 } else { STATE_LENGTH };
    Indexed { call: Call { request: request(*given), lent: vec![LENT; length], budget: *budget }, index: bytes(index) }
}

/// The calls of the rows: those that build have no index, and the others have no room.
#[allow(dead_code)]
pub fn calls() -> Vec<Both> {
    let built = BUILD_ROWS.iter().map(|row| {
        let Call { request, lent: room, .. } = building(row);
        Both { indexed: Indexed { call: Call { request, lent: vec![LENT; STATE_LENGTH], budget: BUDGET }, index: Vec::new() }, room }
    });
    built.chain(ROWS.iter().map(|row| Both { indexed: call(row), room: Vec::new() })).collect()
}

/// Every row through its exported call, with the independent program's opinion of it, line included; how many there are.
pub fn compare(rng: &mut Rng) -> Result<usize, String> {
    let rows = BUILD_ROWS.iter().map(|row| {
        let (sentence, _, _, answer, room) = *row;
        let call = building(row);
        let format = expected(answer, None, &room.map_or(call.lent.clone(), bytes));
        (sentence, call, format)
    });
    let built = as_rows_say(rows, |call| built_agreed(rng, call))?;
    let rows = ROWS.iter().map(|row| {
        let (sentence, _, _, _, answer, state, line) = *row;
        let call = call(row);
        let format = expected(answer, state, &call.call.lent);
        (sentence, call, Left { line: Some(line), ..format })
    });
    let judged = as_rows_say(rows, |call| indexed_agreed(rng, call))?;
    Ok(built + judged)
}
