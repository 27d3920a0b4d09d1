//! Rows of the format for the release call and the plans call (docs/FORMAT.md, section 19).

use oracle::rng::Rng;
use oracle::text::parse_bytes;

use crate::cases::FILE_A;
use crate::releases::{agreed, Release};

const BUDGET: u32 = 100_000;
const LENT: u32 = 9;

/// The bytes before the plans, a byte of them changed, or so many zeros in place of the whole file.
#[derive(Clone, Copy)]
enum Table {
    OfFileA,
    Changed(usize, u8),
    Zeros(usize),
}

use Table::*;

/// A sentence, the table, what follows it, by the letters of 19.29 and bytes, the numbers lent where they are not four for each plan, the budget;
/// number and place of the own answer, and the row.
type Row = (&'static str, Table, &'static str, Option<usize>, u32, [u64; 2], &'static [[u32; 4]]);

const NONE: [u32; 4] = [22, 0, 0, 0];

const ROWS: [Row; 25] = [
    ("19.31", OfFileA, "1 A", None, BUDGET, [0, 0], &[[0, 0, 5, 0]]),
    ("19.32", OfFileA, "2 A E", None, BUDGET, [0, 0], &[[0, 0, 5, 0], [0, 0, 1, 0]]),
    ("19.33", OfFileA, "3 M S A", None, BUDGET, [0, 0], &[[1, 34, 2, 1], [2, 39, 0, 1], [0, 0, 5, 0]]),
    ("19.34", OfFileA, "3 A M S", None, BUDGET, [0, 0], &[[0, 0, 5, 0], [1, 53, 2, 1], [2, 58, 0, 1]]),
    ("19.35", OfFileA, "3 E A E", None, 4, [0, 0], &[[0, 0, 1, 0], [3, 0, 4, 0], [0, 0, 1, 0]]),
    ("19.36", OfFileA, "2 A A", None, 5, [0, 0], &[[0, 0, 5, 0], [0, 0, 5, 0]]),
    ("19.37", OfFileA, "3 A O E", None, BUDGET, [0, 0], &[[0, 0, 5, 0], [18, 52, 0, 1], [0, 0, 1, 0]]),
    ("19.38", OfFileA, "3 F A E", None, BUDGET, [0, 0], &[[13, 32, 0, 1], NONE, NONE]),
    ("19.39", OfFileA, "3 A F E", None, BUDGET, [0, 0], &[[0, 0, 5, 0], [13, 51, 0, 1], NONE]),
    ("19.40", OfFileA, "3 O M F", None, BUDGET, [0, 0], &[[18, 33, 0, 1], [1, 53, 2, 1], [13, 58, 0, 1]]),
    ("19.41", OfFileA, "2 E F 9 9", None, BUDGET, [0, 0], &[[0, 0, 1, 0], [13, 36, 0, 1]]),
    ("19.42", OfFileA, "2 E a", None, BUDGET, [0, 0], &[[0, 0, 1, 0], [11, 52, 0, 1]]),
    ("19.43", OfFileA, "3 E E", None, BUDGET, [0, 0], &[[0, 0, 1, 0], [0, 0, 1, 0], [11, 38, 0, 1]]),
    ("19.44", OfFileA, "3 E", None, BUDGET, [0, 0], &[[0, 0, 1, 0], [11, 34, 0, 1], NONE]),
    ("19.45", OfFileA, "1", None, BUDGET, [0, 0], &[[11, 30, 0, 1]]),
    ("19.46", Zeros(16_385), "", Some(4), BUDGET, [10, 0], &[]),
    ("19.47", OfFileA, "", Some(4), BUDGET, [11, 29], &[]),
    ("19.48", OfFileA, "0", Some(0), BUDGET, [12, 29], &[]),
    ("19.49", OfFileA, "65 E*65", Some(260), BUDGET, [12, 29], &[]),
    ("19.50", OfFileA, "2 A E", Some(7), BUDGET, [9, 0], &[]),
    ("19.51", OfFileA, "1 A 0", Some(8), BUDGET, [9, 0], &[]),
    ("19.52", Changed(11, 3), "2 A E", Some(8), BUDGET, [16, 10], &[]),
    ("19.53", Changed(27, 1), "1 F", Some(4), BUDGET, [17, 27], &[]),
    ("19.54", OfFileA, "1 A 0", Some(4), BUDGET, [20, 49], &[]),
    ("19.55", OfFileA, "2 O S A", Some(8), BUDGET, [20, 54], &[]),
];

fn bytes(text: &str) -> Vec<u8> {
    parse_bytes(text).expect("bytes of a row")
}

/// A plan by its letter (`a` is A without its last byte), or a byte.
fn part(word: &str) -> Vec<u8> {
    let a = || bytes(FILE_A)[29..].to_vec();
    match word {
        "A" => a(),
        "a" => a()[..18].to_vec(),
        "O" => [&a()[..12], &[1], &a()[13..]].concat(),
        "E" => bytes("0 0 0 0"),
        "E*65" => bytes("0 0 0 0").repeat(65),
        "M" => bytes("0 1 1 1 7 1 2"),
        "S" => bytes("0 1 2 0 0"),
        "F" => bytes("0 1 3 0 0"),
        byte => bytes(byte),
    }
}

fn call(row: &Row) -> Release {
    let (_, table, plans, lent, budget, _, answers) = *row;
    let mut file = bytes(FILE_A)[..29].to_vec();
    match table {
        OfFileA => {}
        Changed(place, byte) => file[place] = byte,
        Zeros(length) => file = vec![0; length],
    }
    file.extend(plans.split_whitespace().flat_map(part));
    Release { file, lent: vec![LENT; lent.unwrap_or(4 * answers.len())], budget }
}

/// The calls of the rows.
#[allow(dead_code)]
pub fn calls() -> Vec<Release> {
    ROWS.iter().map(call).collect()
}

/// Every row through the exported calls, and the independent program's opinion of it; how many there are.
pub fn compare(rng: &mut Rng) -> Result<usize, String> {
    for row in &ROWS {
        let (sentence, _, _, _, _, [number, place], answers) = *row;
        let call = call(row);
        let left = agreed(rng, &call).map_err(|why| format!("FORMAT {sentence}: {why}; {call}"))?;
        let input = u64::from(!matches!(number, 0 | 9));
        let expected = if number == 0 { answers.concat() } else { call.lent.clone() };
        if left.own != [number, input, place, 0] || left.row != expected {
            return Err(format!("FORMAT {sentence}: {left:?}; {call}"));
        }
    }
    Ok(ROWS.len())
}
