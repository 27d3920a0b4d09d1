//! The cases of docs/FORMAT.md and its further rows, through the exported calls.

use std::fmt::Display;

use glintstring::{Packed, STATE_LENGTH};
use oracle::rng::Rng;
use oracle::text::{parse_bytes, state_line};

use crate::calls::{agreed, expect, Call, Left};
use crate::checks::{self, Check};
use crate::{by_cases_rows, derive_rows, guarded_cases, index_rows, release_cases, values_rows, whether_cases};

pub const FILE_A: &str = "4 3 3 3 5 7 3 1 2 0 1 6 1 0 2 4 0 3 0 0 1 1 3 2 1 2 1 0 0 0 2 0 255 2 1 1 0 2 1 2 1 0 0 0 1 7 1 2";
const BUDGET: u32 = 100_000;
const LENT: u8 = 9;
/// The state that knows of the last fluent, and of no other, that it is false.
const LAST_FALSE: &str = "???????????????????????????????????????????????????????????????????????????????????????????????????????????????????????????????-";

extern "C" {
    fn glintstring_judge(request: *const u8, request_length: usize, state: *mut u8, state_length: usize, budget: u32) -> u64;
    fn glintstring_judge_guarded(request: *const u8, request_length: usize, state: *mut u8, state_length: usize, budget: u32) -> u64;
    fn glintstring_judge_by_cases(request: *const u8, request_length: usize, state: *mut u8, state_length: usize, budget: u32) -> u64;
    fn glintstring_judge_indexed(request: *const u8, request_length: usize, index: *const u8, index_length: usize, state: *mut u8, state_length: usize, budget: u32) -> u64;
    fn glintstring_judge_values(request: *const u8, request_length: usize, state: *mut u8, state_length: usize, budget: u32) -> u64;
    fn glintstring_index(request: *const u8, request_length: usize, room: *mut u8, room_length: usize) -> u64;
    fn glintstring_derive(request: *const u8, request_length: usize, out: *mut u8, out_length: usize, budget: u32) -> u64;
    fn glintstring_judge_line(request: *const u8, request_length: usize, state: *mut u8, state_length: usize, budget: u32, line: *mut u32) -> u64;
    fn glintstring_check(request: *const u8, request_length: usize, derivation: *const u8, derivation_length: usize) -> u64;
    fn glintstring_check_whether(request: *const u8, request_length: usize, derivation: *const u8, derivation_length: usize) -> u64;
    fn glintstring_show(answer: u64, request: *const u8, request_length: usize, derivation: *const u8, derivation_length: usize) -> u64;
    fn glintstring_release(file: *const u8, file_length: usize, row: *mut u32, row_length: usize, budget: u32) -> u64;
    fn glintstring_plans(file: *const u8, file_length: usize) -> u32;
}

/// The call by cases.
pub fn judge_by_cases(request: &[u8], state: &mut [u8], budget: u32) -> Packed {
    Packed(unsafe { glintstring_judge_by_cases(request.as_ptr(), request.len(), state.as_mut_ptr(), state.len(), budget) })
}

/// The indexed call.
pub fn judge_indexed(request: &[u8], index: &[u8], state: &mut [u8], budget: u32) -> Packed {
    Packed(unsafe { glintstring_judge_indexed(request.as_ptr(), request.len(), index.as_ptr(), index.len(), state.as_mut_ptr(), state.len(), budget) })
}

/// The index call.
pub fn index(request: &[u8], room: &mut [u8]) -> Packed {
    Packed(unsafe { glintstring_index(request.as_ptr(), request.len(), room.as_mut_ptr(), room.len()) })
}

/// The derive call.
pub fn derive(request: &[u8], room: &mut [u8], budget: u32) -> Packed {
    Packed(unsafe { glintstring_derive(request.as_ptr(), request.len(), room.as_mut_ptr(), room.len(), budget) })
}

/// The release call.
pub fn release(file: &[u8], row: &mut [u32], budget: u32) -> u64 {
    unsafe { glintstring_release(file.as_ptr(), file.len(), row.as_mut_ptr(), row.len(), budget) }
}

/// The plans call.
pub fn plans(file: &[u8]) -> u32 {
    unsafe { glintstring_plans(file.as_ptr(), file.len()) }
}

/// How a row gives its request.
#[derive(Clone, Copy)]
pub enum Request {
    FileA,
    /// Bytes 0 to 28 of File A, followed by these.
    From29(&'static str),
    /// The same, and then bytes of File A from this place on.
    From29Then(&'static str, usize),
    Bytes(&'static str),
    /// So many bytes of File A.
    Start(usize),
    /// File A and one more byte.
    Longer(u8),
    /// File A with the byte at a place changed.
    Changed(usize, u8),
    /// File A with so many fluents and actions.
    Sized(u8, u8),
    /// So many bytes, all the same.
    Run(usize, u8),
    /// FRONT, this section 4, and what follows it.
    Section4(&'static str, &'static str),
    /// Eight branchings one inside another, in the last of them so many actions and a ninth branching's byte.
    Nested(usize),
}

use Request::*;

/// A sentence, the case, the request, the budget, the length of the lent state; number, place and count; the state where it is written.
type Row = (&'static str, &'static str, Request, u32, usize, [u64; 3], Option<&'static str>);

const ROWS: [Row; 61] = [
    ("13.17", "1", FileA, BUDGET, STATE_LENGTH, [0, 0, 5], None),
    ("13.18", "2, open unseen", From29("0 1 1 1 7 1 2"), BUDGET, STATE_LENGTH, [1, 33, 2], Some("?+-?")),
    ("13.19", "3, branch unseen", From29Then("0 1", 32), BUDGET, STATE_LENGTH, [2, 31, 0], Some("?---")),
    ("13.20", "4, budget 4", FileA, 4, STATE_LENGTH, [3, 0, 4], None),
    ("13.21", "4, budget 5", FileA, 5, STATE_LENGTH, [0, 0, 5], None),
    ("13.22", "5", From29("0 0 0 0"), BUDGET, STATE_LENGTH, [0, 0, 1], None),
    ("13.23", "6", From29("0 0 1 7 1 0"), BUDGET, STATE_LENGTH, [1, 34, 1], Some("?---")),
    ("13.24", "7", From29("0 1 2 0 0"), BUDGET, STATE_LENGTH, [2, 31, 0], Some("?---")),
    ("13.25", "8", From29("0 1 0 0 1 0"), BUDGET, STATE_LENGTH, [0, 0, 3], None),
    ("13.26", "9, look twice", From29("0 2 0 0 0 0"), BUDGET, STATE_LENGTH, [0, 0, 5], None),
    ("13.27", "10", Bytes("2 1 0 2 0 0 1 2 0 0 1 3 1 0 0 0 0 1 0 1 0 0"), BUDGET, STATE_LENGTH, [1, 20, 2], Some("??")),
    ("13.28", "11", Bytes(""), BUDGET, STATE_LENGTH, [11, 0, 0], None),
    ("13.29", "11", Start(47), BUDGET, STATE_LENGTH, [11, 47, 0], None),
    ("13.30", "11", Longer(0), BUDGET, STATE_LENGTH, [20, 48, 0], None),
    ("13.30", "11", Longer(255), BUDGET, STATE_LENGTH, [20, 48, 0], None),
    ("13.31", "12", Changed(0, 0), BUDGET, STATE_LENGTH, [12, 0, 0], None),
    ("13.31", "12", Changed(0, 129), BUDGET, STATE_LENGTH, [12, 0, 0], None),
    ("13.32", "12", Changed(5, 8), BUDGET, STATE_LENGTH, [13, 5, 0], None),
    ("13.33", "12", Changed(5, 5), BUDGET, STATE_LENGTH, [14, 5, 0], None),
    ("13.34", "12", Changed(3, 4), BUDGET, STATE_LENGTH, [15, 4, 0], None),
    ("13.35", "12", Changed(11, 3), BUDGET, STATE_LENGTH, [16, 10, 0], None),
    ("13.36", "12", Changed(27, 1), BUDGET, STATE_LENGTH, [17, 27, 0], None),
    ("13.37", "12", Changed(41, 1), BUDGET, STATE_LENGTH, [18, 32, 0], None),
    ("13.38", "13, 64 lent bytes", FileA, BUDGET, 64, [9, 0, 0], None),
    ("13.38", "13, 127 lent bytes", FileA, BUDGET, 127, [9, 0, 0], None),
    ("13.38", "13, 129 lent bytes", FileA, BUDGET, 129, [9, 0, 0], None),
    ("13.38", "13, no lent byte", FileA, BUDGET, 0, [9, 0, 0], None),
    ("13.38", "13, no byte, 64 lent", Bytes(""), 0, 64, [9, 0, 0], None),
    ("13.38", "13, no byte, 127 lent", Bytes(""), 0, 127, [9, 0, 0], None),
    ("13.38", "13, too long, 129 lent", Run(16_385, 0), 0, 129, [9, 0, 0], None),
    ("13.39", "13, 16,385 zeros", Run(16_385, 0), BUDGET, STATE_LENGTH, [10, 0, 0], None),
    ("13.39", "13, 16,385 bytes 255", Run(16_385, 255), BUDGET, STATE_LENGTH, [10, 0, 0], None),
    ("3.10", "16,384 zeros, which are read", Run(16_384, 0), BUDGET, STATE_LENGTH, [12, 0, 0], None),
    ("13.56", "both end states miss", From29("0 1 0 1 2 0"), BUDGET, STATE_LENGTH, [1, 33, 3], Some("+---")),
    ("13.57", "a miss, then one that cannot be run", From29("0 2 0 255 1 1 0 0 0 1 2 0"), BUDGET, STATE_LENGTH, [2, 32, 2], Some("----")),
    ("13.58", "size before order", Changed(3, 8), BUDGET, STATE_LENGTH, [13, 3, 0], None),
    ("13.59", "18, a branching inside another", Bytes("2 1 0 0 0 0 0 1 255 1 0 0 1 255 2 1 0 0 0 1 2 0 0 0 0"), BUDGET, STATE_LENGTH, [18, 13, 0], None),
    ("13.60", "21 and 19 at one byte", Nested(1_016), BUDGET, STATE_LENGTH, [21, 1064, 0], None),
    ("13.61", "19, an item earlier", Nested(1_015), BUDGET, STATE_LENGTH, [19, 1063, 0], None),
    ("13.62", "goals before whether entries", From29("0 0 1 2 1 0"), BUDGET, STATE_LENGTH, [1, 32, 1], Some("?---")),
    ("13.63", "65 fluents", Changed(0, 65), BUDGET, STATE_LENGTH, [0, 0, 5], None),
    ("13.64", "128 fluents and actions", Sized(128, 128), BUDGET, STATE_LENGTH, [0, 0, 5], None),
    ("13.65", "literal 255", Bytes("128 1 1 255 0 0 0 0 0 1 255 1 127"), BUDGET, STATE_LENGTH, [0, 0, 1], None),
    ("13.66", "literal 255 with 127 fluents", Bytes("127 1 1 255 0 0 0 0 0 1 255 1 127"), BUDGET, STATE_LENGTH, [13, 3, 0], None),
    ("13.67", "a look at fluent 127", Bytes("128 1 0 0 1 0 0 1 0 127 0 1 0 1 254 0"), BUDGET, STATE_LENGTH, [1, 14, 3], Some(LAST_FALSE)),
    ("13.68", "action 127", Bytes("1 128 0 0 1 127 0 0 0 1 127 0 0"), BUDGET, STATE_LENGTH, [0, 0, 2], None),
    ("13.69", "item 128", Bytes("1 128 0 0 0 0 0 1 128"), BUDGET, STATE_LENGTH, [13, 8, 0], None),
    ("13.70", "clash where it can't be run", Bytes("2 1 1 1 2 0 2 0 0 3 1 0 1 0 1 1 0 0 1 0 1 2 0"), BUDGET, STATE_LENGTH, [0, 0, 2], None),
    ("13.71", "16 by another line", Bytes("2 1 1 1 2 0 2 0 0 3 1 0 2 0 1 1 0 0 0 0 1 0 1 2 0"), BUDGET, STATE_LENGTH, [16, 8, 0], None),
    ("13.72", "a line for each body", Bytes("3 1 2 1 2 2 0 4 1 0 0 5 1 2 2 0 1 1 0 1 3 0 0 1 0 1 5 0"), BUDGET, STATE_LENGTH, [0, 0, 2], None),
    ("13.73", "16 by a line for both", Bytes("3 1 2 1 2 2 0 4 1 0 0 5 1 2 3 0 1 1 0 1 3 0 1 4 0 0 1 0 1 5 0"), BUDGET, STATE_LENGTH, [16, 10, 0], None),
    ("13.74", "no line", Bytes("2 1 0 2 0 2 0 0 3 0 0 0 0 1 0 0 0"), BUDGET, STATE_LENGTH, [2, 14, 0], Some("??")),
    ("13.75", "a line of another action", Bytes("2 2 0 2 0 2 0 0 3 0 1 1 0 0 0 0 0 0"), BUDGET, STATE_LENGTH, [0, 0, 1], None),
    ("13.76", "16 at the third effect", Bytes("3 1 0 3 0 2 0 0 3 1 0 0 3 1 4 1 0 1 1 0 0 0 0 0"), BUDGET, STATE_LENGTH, [16, 11, 0], None),
    ("2.27", "item 254", Bytes("1 128 0 0 0 0 0 1 254"), BUDGET, STATE_LENGTH, [13, 8, 0], None),
    ("8.17", "cannot be run at the budget's end", From29("0 2 0 255 1 1 0 0 0 1 2 0"), 2, STATE_LENGTH, [2, 32, 2], Some("----")),
    ("8.17", "with a budget of one less", From29("0 2 0 255 1 1 0 0 0 1 2 0"), 1, STATE_LENGTH, [3, 0, 1], None),
    ("8.18", "budget 0, cannot be run", From29("0 1 2 0 0"), 0, STATE_LENGTH, [2, 31, 0], Some("?---")),
    ("8.18", "budget 0, empty plan", From29("0 0 0 0"), 0, STATE_LENGTH, [3, 0, 0], None),
    ("5.3", "12 before 11", Bytes("2 1 129"), BUDGET, STATE_LENGTH, [12, 2, 0], None),
    ("3.13", "the largest budget", FileA, u32::MAX, STATE_LENGTH, [0, 0, 5], None),
];

/// The bytes before section 4 in the rows of the line, and those behind it where a row has no others (FORMAT 18.22).
const FRONT: &str = "4 2 2 0 3 0";
const ONE_ACTION: &str = "0 0 1 0 0 0";

/// A sentence, the request, the budget, the length of the lent state; number, place and line.
type LineRow = (&'static str, Request, u32, usize, [u64; 3]);

const LINE_ROWS: [LineRow; 21] = [
    ("18.24", Section4("1 1 0", ONE_ACTION), BUDGET, STATE_LENGTH, [2, 12, 0]),
    ("18.25", Section4("1 0 2 0 4", ONE_ACTION), BUDGET, STATE_LENGTH, [2, 14, 7]),
    ("18.26", Section4("3 1 0 0 1 4 0 1 6", ONE_ACTION), BUDGET, STATE_LENGTH, [2, 18, 9]),
    ("18.27", Section4("2 0 1 4 0 1 4", ONE_ACTION), BUDGET, STATE_LENGTH, [2, 16, 7]),
    ("18.28", Section4("2 0 2 4 6 0 1 6", ONE_ACTION), BUDGET, STATE_LENGTH, [2, 17, 11]),
    ("18.29", Section4("3 0 2 4 6 0 1 6 0 2 0 4", ONE_ACTION), BUDGET, STATE_LENGTH, [2, 21, 11]),
    ("18.30", Section4("2 0 1 2 0 1 4", ONE_ACTION), BUDGET, STATE_LENGTH, [2, 16, 7]),
    ("18.31", Section4("2 0 1 4 0 1 2", ONE_ACTION), BUDGET, STATE_LENGTH, [2, 16, 7]),
    ("18.32", Section4("2 0 2 4 6 0 2 0 2", ONE_ACTION), BUDGET, STATE_LENGTH, [2, 18, 11]),
    ("18.33", Section4("1 0 1 4", "1 0 2 0 1 0 0 0"), BUDGET, STATE_LENGTH, [2, 15, 7]),
    ("18.34", Section4("1 0 1 4", "0 0 1 255 1 1 4 0 0 0 0"), BUDGET, STATE_LENGTH, [2, 13, 0]),
    ("18.35", Section4("2 0 1 4 0 0", ONE_ACTION), BUDGET, STATE_LENGTH, [0, 0, 0]),
    ("18.36", From29("0 1 2 0 0"), BUDGET, STATE_LENGTH, [2, 31, 23]),
    ("18.36", From29("0 1 2 0 0"), 0, STATE_LENGTH, [2, 31, 23]),
    ("18.37", From29("0 2 1 1 0 0"), BUDGET, STATE_LENGTH, [2, 32, 20]),
    ("18.38", From29Then("0 1", 32), BUDGET, STATE_LENGTH, [2, 31, 0]),
    ("18.39", FileA, BUDGET, STATE_LENGTH, [0, 0, 0]),
    ("18.40", From29("0 0 1 7 1 0"), BUDGET, STATE_LENGTH, [1, 34, 0]),
    ("18.41", FileA, 4, STATE_LENGTH, [3, 0, 0]),
    ("18.42", From29("0 1 2 0 0"), BUDGET, 0, [9, 0, 0]),
    ("18.43", Start(47), BUDGET, STATE_LENGTH, [11, 47, 0]),
];

/// The derivation of case 14 but for the citations of its last line (FORMAT 13.42 to 13.51).
const NINE_LINES: [&str; 10] = [
    "0 9",
    "4 0 3 5 7 0 0 4 0 3 5 7 1 0",
    "4 0 3 5 7 0 0 1 7 6 1 0 0",
    "4 0 3 5 7 0 1 255 2 1 1 0 2 1 2 1 0 0 0 1 7 4 1 0 1",
    "4 1 3 5 7 0 1 1 4 1 2 5 7 2 0",
    "4 1 2 5 7 0 1 2 4 1 2 4 7 2 0",
    "4 1 3 5 7 0 2 1 2 4 1 2 4 7 5 2 0 3 0 4",
    "4 1 3 5 7 0 2 1 2 1 7 6 1 0 5",
    "4 1 3 5 7 0 1 255 2 1 1 0 2 1 2 1 0 0 0 1 7 4 1 0 6",
    "3 3 5 7 0 2 0 255 2 1 1 0 2 1 2 1 0 0 0 1 7 3",
];

/// How a row gives its derivation.
#[derive(Clone, Copy)]
enum Derivation {
    /// Nine lines, the last with these citations.
    Nine(&'static str),
    /// So many bytes of the nine lines of case 14.
    StartOf(usize),
    These(&'static str),
    Zeros(usize),
}

use Derivation::*;

/// A sentence, what it is, whether the request is File A with its whether entry, the derivation; number, input and place.
type DerivationRow = (&'static str, &'static str, bool, Derivation, [u64; 3]);

const DERIVATION_ROWS: [DerivationRow; 20] = [
    ("13.52", "14", false, Nine("2 0 2 0 7"), [0, 0, 0]),
    ("13.53", "14, the two in the other order", false, Nine("2 0 7 0 2"), [34, 2, 144]),
    ("13.54", "14, three lines", false, Nine("3 0 2 0 7 0 7"), [33, 2, 144]),
    ("10.23", "14, one line", false, Nine("1 0 2"), [34, 2, 144]),
    ("10.28", "14, the line itself", false, Nine("2 0 2 0 8"), [32, 2, 144]),
    ("10.28", "14, no line at all", false, Nine("2 0 2 255 255"), [32, 2, 144]),
    ("4.20", "14, with the whether entry", true, Nine("2 0 2 0 7"), [30, 1, 46]),
    ("5.21", "30 before the derivation's length", true, Zeros(32_769), [30, 1, 46]),
    ("5.22", "too long", false, Zeros(32_769), [10, 2, 0]),
    ("3.11", "32,768 zeros, which are read", false, Zeros(32_768), [12, 2, 0]),
    ("4.9", "no byte", false, These(""), [11, 2, 0]),
    ("5.13", "one byte of the line count", false, These("5"), [11, 2, 1]),
    ("4.35", "no line", false, These("0 0"), [12, 2, 0]),
    ("4.9", "ends within the last citation", false, StartOf(170), [11, 2, 170]),
    ("4.18", "a byte more", false, Nine("2 0 2 0 7 0"), [20, 2, 171]),
    ("4.21", "rule 0", false, These("0 1 0 0 0 0 0 0"), [31, 2, 2]),
    ("5.24", "65 citations under no rule", false, These("0 1 0 0 0 0 0 65"), [12, 2, 7]),
    ("5.26", "33 before 32", false, These("0 1 0 0 0 0 6 2 0 0 0 0"), [33, 2, 2]),
    ("5.27", "34 of line 0 before 31 of line 1", false, These("0 2 0 0 0 0 2 0 0 0 0 0 9 0"), [34, 2, 2]),
    ("4.25", "another question", false, These("0 1 0 0 0 0 1 0"), [35, 2, 2]),
];

/// The nine lines, the last with these citations.
fn nine(citations: &str) -> Vec<u8> {
    NINE_LINES.into_iter().chain([citations]).flat_map(bytes).collect()
}

/// The derivation of case 14.
pub fn nine_lines() -> Vec<u8> {
    nine("2 0 2 0 7")
}

fn derivation(row: Derivation) -> Vec<u8> {
    match row {
        Nine(citations) => nine(citations),
        StartOf(length) => nine_lines()[..length].to_vec(),
        These(all) => bytes(all),
        Zeros(length) => vec![0; length],
    }
}

/// File A without its whether entry.
pub fn without_whether() -> Vec<u8> {
    [&bytes(FILE_A)[..46], &[0]].concat()
}

/// The derivation calls of the rows.
pub fn checks() -> Vec<Check> {
    let check = |&(_, _, whether, given, _): &DerivationRow| {
        let request = if whether { bytes(FILE_A) } else { without_whether() };
        Check::plain(request, derivation(given))
    };
    DERIVATION_ROWS.iter().map(check).collect()
}

/// The rows of the derivation call.
fn compare_derivations(rng: &mut Rng) -> Result<(), String> {
    for ((sentence, name, _, _, [number, input, place]), check) in DERIVATION_ROWS.into_iter().zip(checks()) {
        let answer = checks::agreed(rng, &check).map_err(|why| format!("FORMAT {sentence}, {name}: {why}; {check}"))?;
        if answer != [number, input, place, 0] {
            return Err(format!("FORMAT {sentence}, {name}: number, input, place, count are {answer:?}; {check}"));
        }
    }
    Ok(())
}

pub fn bytes(text: &str) -> Vec<u8> {
    parse_bytes(text).expect("bytes of a row")
}

pub fn request(row: Request) -> Vec<u8> {
    let file_a = bytes(FILE_A);
    match row {
        FileA => file_a,
        From29(after) => [&file_a[..29], &bytes(after)].concat(),
        From29Then(after, from) => [&file_a[..29], &bytes(after), &file_a[from..]].concat(),
        Bytes(all) => bytes(all),
        Start(length) => file_a[..length].to_vec(),
        Longer(byte) => [file_a, vec![byte]].concat(),
        Changed(place, byte) => file_a.iter().enumerate().map(|(i, &b)| if i == place { byte } else { b }).collect(),
        Sized(fluents, actions) => [&[fluents, actions], &file_a[2..]].concat(),
        Run(length, byte) => vec![byte; length],
        Section4(lines, rest) => [FRONT, lines, rest].map(bytes).concat(),
        Nested(actions) => {
            let count = (actions as u16 + 1).to_be_bytes();
            [bytes("1 1 0 0 0 0"), [0, 1, 255, 1, 0].repeat(8), count.to_vec(), vec![0; actions], vec![255]].concat()
        }
    }
}

/// What a row says is left: the state's marks with zeros behind them, or the bytes as lent.
pub fn expected([number, place, count]: [u64; 3], state: Option<&str>, lent: &[u8]) -> Left {
    let input = match number {
        0 | 3 | 9 | 38 | 39 => 0,
        45 => 3,
        _ => 1,
    };
    let marks = |line: &str| -> Vec<u8> { line.bytes().map(|mark| b"?+-".iter().position(|&m| m == mark).expect("a mark") as u8).collect() };
    let lent = match state {
        None => lent.to_vec(),
        Some(line) => [marks(line), vec![0; STATE_LENGTH - line.len()]].concat(),
    };
    assert!(state.is_none_or(|line| state_line(&lent, line.len() as u8) == line), "a state of a row");
    Left { answer: [number, input, place, count], lent, line: None }
}

/// Pointers that lead nowhere, with length 0.
fn without_bytes() -> Result<(), String> {
    use std::ptr::{null, null_mut};
    let mut state = [LENT; STATE_LENGTH];
    let no_request = unsafe { glintstring_judge(null(), 0, state.as_mut_ptr(), state.len(), 0) };
    let no_state = unsafe { glintstring_judge(null(), 0, null_mut(), 0, 0) };
    let mut lines = [7; 2];
    let no_request_line = unsafe { glintstring_judge_line(null(), 0, state.as_mut_ptr(), state.len(), 0, &mut lines[0]) };
    let no_state_line = unsafe { glintstring_judge_line(null(), 0, null_mut(), 0, 0, &mut lines[1]) };
    let no_guarded = unsafe { [glintstring_judge_guarded(null(), 0, state.as_mut_ptr(), state.len(), 0), glintstring_judge_guarded(null(), 0, null_mut(), 0, 0)] };
    if no_guarded != [no_request, no_state] {
        return Err(format!("null and length 0: {no_guarded:?} with guards"));
    }
    let by_cases = unsafe { [glintstring_judge_by_cases(null(), 0, state.as_mut_ptr(), state.len(), 0), glintstring_judge_by_cases(null(), 0, null_mut(), 0, 0)] };
    if by_cases != [no_request, no_state] {
        return Err(format!("null and length 0: {by_cases:?} by cases"));
    }
    let by_values = unsafe { [glintstring_judge_values(null(), 0, state.as_mut_ptr(), state.len(), 0), glintstring_judge_values(null(), 0, null_mut(), 0, 0)] };
    if by_values != [no_request, no_state] {
        return Err(format!("null and length 0: {by_values:?} by values"));
    }
    without_index()?;
    without_derivation()?;
    if ([no_request_line, no_state_line], lines) != ([no_request, no_state], [0, 0]) {
        return Err(format!("null and length 0: {no_request_line} and {no_state_line} with the lines {lines:?}"));
    }
    let mut row = [7; 4];
    let one_plan = [&bytes(FILE_A)[..29], &[1], &bytes(FILE_A)[29..]].concat();
    let no_file = unsafe { [glintstring_release(null(), 0, row.as_mut_ptr(), row.len(), 0), glintstring_release(null(), 0, null_mut(), 0, 0)] };
    let no_row = unsafe { glintstring_release(one_plan.as_ptr(), one_plan.len(), null_mut(), 0, 0) };
    let no_plans = unsafe { glintstring_plans(null(), 0) };
    if (no_file, no_row, row, no_plans) != ([267, 267], 9, [7; 4], 0) {
        return Err(format!("null and length 0: {no_file:?} without a release file, {no_row} without a row, {row:?} left, {no_plans} plans"));
    }
    let file_a = without_whether();
    let no_input = unsafe { glintstring_check(null(), 0, null(), 0) };
    let no_derivation = unsafe { glintstring_check(file_a.as_ptr(), file_a.len(), null(), 0) };
    let asked = bytes(FILE_A);
    let nothing = unsafe { glintstring_check_whether(null(), 0, null(), 0) };
    let no_lines = unsafe { glintstring_check_whether(asked.as_ptr(), asked.len(), null(), 0) };
    let shown = unsafe { glintstring_show(u64::MAX - (253 << 8), null(), 0, null(), 0) };
    match ([no_request, no_state], state, [no_input, no_derivation], [nothing, no_lines], shown) {
        ([267, 9], [LENT, ..], [267, 523], [267, 523], 0) => Ok(()),
        _ => Err(format!(
            "null and length 0: {no_request} for the request, {no_state} for the state, {no_input} for a derivation call's request, \
             {no_derivation} for its derivation, {nothing} and {no_lines} for those of a whether call, {shown} shown"
        )),
    }
}

/// The same of the index call and the indexed call.
fn without_index() -> Result<(), String> {
    use std::ptr::{null, null_mut};
    let file_a = bytes(FILE_A);
    let (mut state, mut room) = ([LENT; STATE_LENGTH], [LENT; 18]);
    let built = unsafe {
        [
            glintstring_index(null(), 0, room.as_mut_ptr(), room.len()),
            glintstring_index(null(), 0, null_mut(), 0),
            glintstring_index(file_a.as_ptr(), file_a.len(), null_mut(), 0),
        ]
    };
    let judged = unsafe {
        [
            glintstring_judge_indexed(null(), 0, null(), 0, state.as_mut_ptr(), state.len(), 0),
            glintstring_judge_indexed(null(), 0, null(), 0, null_mut(), 0, 0),
            glintstring_judge_indexed(file_a.as_ptr(), file_a.len(), null(), 0, state.as_mut_ptr(), state.len(), 0),
        ]
    };
    match (built, judged, state, room) {
        ([267, 267, 39], [267, 9, 813], [LENT, ..], [LENT, ..]) => Ok(()),
        _ => Err(format!("null and length 0: {built:?} by index calls, {judged:?} by indexed calls, {state:?} and {room:?} left")),
    }
}

/// The same of the derive call.
fn without_derivation() -> Result<(), String> {
    use std::ptr::{null, null_mut};
    let file_a = without_whether();
    let mut room = [LENT; 196];
    let derived = unsafe {
        [
            glintstring_derive(null(), 0, room.as_mut_ptr(), room.len(), BUDGET),
            glintstring_derive(null(), 0, null_mut(), 0, BUDGET),
            glintstring_derive(file_a.as_ptr(), file_a.len(), null_mut(), 0, BUDGET),
            glintstring_derive(file_a.as_ptr(), file_a.len(), null_mut(), 0, 0),
        ]
    };
    match (derived, room) {
        ([267, 267, 39, 3], [LENT, ..]) => Ok(()),
        _ => Err(format!("null and length 0: {derived:?} by derive calls, {room:?} left")),
    }
}

/// The call of each row, with its sentence: both agree on what it leaves, and that is what the row says; how many there are.
pub fn as_rows_say<S: Display, C: Display>(
    rows: impl IntoIterator<Item = (S, C, Left)>,
    mut agreed: impl FnMut(&C) -> Result<Left, String>,
) -> Result<usize, String> {
    let mut count = 0;
    for (sentence, call, format) in rows {
        let same = agreed(&call).and_then(|left| expect(&left, &format, "the format"));
        same.map_err(|why| format!("FORMAT {sentence}: {why}; {call}"))?;
        count += 1;
    }
    Ok(count)
}

/// The walk calls of the rows.
pub fn calls() -> Vec<Call> {
    let call = |&(_, _, given, budget, length, _, _): &Row| Call { request: request(given), lent: vec![LENT; length], budget };
    ROWS.iter().map(call).collect()
}

/// Every row through its exported call, and the independent program's opinion of it.
pub fn compare() -> Result<String, String> {
    let mut rng = Rng::new(1, 5, 0);
    let rows = ROWS.iter().zip(calls()).map(|(&(sentence, name, _, _, _, answer, state), call)| {
        let format = expected(answer, state, &call.lent);
        (format!("{sentence}, {name}"), call, format)
    });
    let walks = as_rows_say(rows, |call| agreed(&mut rng, call))?;
    for (sentence, given, budget, length, [number, place, line]) in LINE_ROWS {
        let call = Call { request: request(given), lent: vec![LENT; length], budget };
        let left = agreed(&mut rng, &call).map_err(|why| format!("FORMAT {sentence}: {why}; {call}"))?;
        if (left.answer[0], left.answer[2], left.line) != (number, place, u32::try_from(line).ok()) {
            return Err(format!("FORMAT {sentence}: {left:?}; {call}"));
        }
    }
    compare_derivations(&mut rng)?;
    let whether = whether_cases::compare(&mut rng)?;
    let releases = release_cases::compare(&mut rng)?;
    let guarded = guarded_cases::compare(&mut rng)?;
    let by_cases = by_cases_rows::compare(&mut rng)?;
    let values = values_rows::compare(&mut rng)?;
    let indexed = index_rows::compare(&mut rng)?;
    let derived = derive_rows::compare(&mut rng)?;
    without_bytes()?;
    let (lines, checks) = (LINE_ROWS.len(), DERIVATION_ROWS.len());
    Ok(format!(
        "{walks} rows of the format, {lines} for the line, {checks} for derivations, {whether} for those in the closing layout, {releases} for release \
         files, {guarded} for guarded requests, {by_cases} by cases, {values} for values, {indexed} for indexes and {derived} for writing derivations answered as it says, and null pointers \
         with length 0"
    ))
}
