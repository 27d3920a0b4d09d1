//! Rows of the format for the whether call (docs/FORMAT.md, section 17).

use oracle::rng::Rng;
use oracle::text::parse_bytes;

use crate::cases::{nine_lines, without_whether, FILE_A};
use crate::checks::{agreed, Check};

const FILE_L: &str = "3 3 2 1 3 4 2 2 1 5 2 0 1 4 1 5 1 4 1 4 1 5 3 0 1 3 1 1 3 2 1 3 1 0 2 0 1 0 0 1 2";
const FILE_G: &str = "2 2 1 0 1 0 1 0 2 0 0 1 0 1 1 1 0 2 0 1 0 1 1";
/// The request of 17.92, and that of 17.136 but for its whether list.
const ALONE: &str = "2 2 1 0 1 0 1 0 2 0 0 1 0 1 1 1 0 1 0 0 1 1";
const TWO_KNOWN: &str = "2 1 2 0 2 0 0 0 0 0 0";

/// Lines of FORMAT 17.51 to 17.68, for File A, and the closing list.
const LINES_A: [&str; 18] = [
    "4 0 3 5 7 0 0 1 4 0 3 5 7 0",
    "4 0 3 5 7 0 0 6 1 7 1 0 0",
    "4 0 3 5 7 0 1 255 2 1 1 0 2 1 2 1 0 0 0 4 1 7 1 0 1",
    "4 1 3 5 7 0 1 1 2 4 1 2 5 7 0",
    "4 1 2 5 7 0 1 2 2 4 1 2 4 7 0",
    "4 1 3 5 7 0 2 1 2 5 4 1 2 4 7 2 0 3 0 4",
    "4 1 3 5 7 0 2 1 2 6 1 7 1 0 5",
    "4 1 3 5 7 0 1 255 2 1 1 0 2 1 2 1 0 0 0 4 1 7 1 0 6",
    "3 3 5 7 0 2 0 255 2 1 1 0 2 1 2 1 0 0 0 3 1 7 2 0 2 0 7",
    "3 3 5 7 0 1 0 7 0 0",
    "4 0 3 5 7 0 0 6 1 5 1 0 0",
    "4 0 3 5 7 0 0 8 2 1 0 10",
    "4 0 3 5 7 0 1 255 2 1 1 0 2 1 2 1 0 0 0 12 2 1 0 11",
    "4 1 2 5 7 0 1 2 6 1 4 1 0 4",
    "4 1 2 5 7 0 1 2 8 2 1 0 13",
    "4 1 3 5 7 0 2 1 2 11 2 2 0 3 0 14",
    "4 1 3 5 7 0 1 255 2 1 1 0 2 1 2 1 0 0 0 12 2 1 0 15",
    "3 3 5 7 0 2 0 255 2 1 1 0 2 1 2 1 0 0 0 10 2 2 0 12 0 16",
];
const CLOSING_A: &str = "2 0 8 0 17";

/// Lines of FORMAT 17.72 to 17.76, for File L.
const LINES_L: [&str; 5] = [
    "0 0 0 1 0 0",
    "3 1 3 4 0 0 6 0 1 0 0",
    "3 1 3 5 0 0 6 0 1 0 0",
    "2 1 3 0 1 0 3 0 2 0 1 0 2",
    "2 1 3 0 1 0 7 2 0",
];

/// Lines of FORMAT 17.80 to 17.87, for File G, and the closing list.
const LINES_G: [&str; 8] = [
    "1 0 0 1 0 2 1 1 0",
    "1 1 0 1 1 7 1 0",
    "1 0 0 2 0 1 11 1 2 0 0 0 1",
    "0 0 0 1 0 0",
    "2 1 2 0 0 6 0 1 0 3",
    "2 1 3 0 0 6 0 1 0 3",
    "1 1 0 1 1 3 0 2 0 4 0 5",
    "1 0 0 2 0 1 5 0 2 0 0 0 6",
];
const CLOSING_G: &str = "2 0 7 0 2";

/// Lines of FORMAT 17.105 to 17.108, after which a row gives one more.
const LINES_FOUR: [&str; 4] = [
    "1 2 0 0 1 1 2 0",
    "1 2 0 0 8 1 1 0 0",
    "1 3 0 0 1 1 3 0",
    "1 3 0 0 8 1 1 0 2",
];

/// Lines of FORMAT 17.138 to 17.147, after which a row gives the closing list.
const LINES_TEN: [&str; 10] = [
    "2 0 2 0 0 1 2 0 2 0",
    "2 0 2 0 0 6 0 1 0 0",
    "2 0 2 0 0 6 1 2 1 0 0",
    "2 0 2 0 0 8 1 1 0 2",
    "2 0 2 0 0 6 1 0 1 0 0",
    "2 0 2 0 0 8 0 1 0 4",
    "1 2 0 0 1 1 2 0",
    "1 2 0 0 8 1 1 0 6",
    "2 0 2 0 0 11 1 2 0 2 0 7",
    "2 0 2 0 1 255 1 0 0 0 12 1 1 0 3",
];

/// How a row gives its inputs.
#[derive(Clone, Copy)]
enum Given {
    /// File A, and its lines with this closing list.
    ClosedA(&'static str),
    /// File A, and its derivation with bytes changed at places.
    ChangedA(&'static [(usize, u8)]),
    /// File A, and so many bytes 0.
    Zeros(usize),
    /// So many bytes of File A, and its derivation.
    StartOfA(usize),
    /// File L, and its lines with this closing list.
    ClosedL(&'static str),
    /// File G, and its lines with this closing list, or so many bytes of its derivation.
    ClosedG(&'static str),
    StartG(usize),
    /// File A without its whether entry, and the first nine lines with this closing list; or the derivation of case 14 as it is.
    Nine(&'static str),
    Plain,
    /// File G, and the four lines with this one more and an empty closing list.
    Fifth(&'static str),
    /// Two fluents known, this whether list, and the ten lines with this closing list.
    Ten(&'static str, &'static str),
    /// These bytes.
    Both(&'static str, &'static str),
}

use Given::*;

/// A sentence, what it shows, the inputs; number, input and place.
type Row = (&'static str, &'static str, Given, [u64; 3]);

/// The rows of the format, and some more.
const ROWS: [Row; 79] = [
    ("17.89", "rules 1 to 8 and 10 to 12", ClosedA(CLOSING_A), [0, 0, 0]),
    ("17.90", "whether the bomb is locked", ClosedL("2 0 3 0 4"), [0, 0, 0]),
    ("17.91", "whether g after both actions", ClosedG(CLOSING_G), [0, 0, 0]),
    (
        "17.92",
        "whether g after action 0 alone, said by rule 7",
        Both(ALONE, "0 3 1 0 0 1 0 2 1 1 0 1 0 0 1 0 6 0 1 0 0 1 0 0 1 0 7 1 0 2 0 1 0 2"),
        [34, 2, 21],
    ),
    ("17.93", "the same, with the goals' line named for it", Both(ALONE, "0 2 1 0 0 1 0 2 1 1 0 1 0 0 1 0 6 0 1 0 0 2 0 1 0 1"), [36, 2, 24]),
    ("17.94", "case 14 in the closing layout", Nine("1 0 8"), [0, 0, 0]),
    ("17.95", "case 14 as it is in the plain layout", Plain, [14, 2, 21]),
    ("17.96", "the request is settled first", StartOfA(10), [11, 1, 10]),
    ("17.97", "30 is not tested, and the length is", Zeros(32_769), [10, 2, 0]),
    ("17.98", "a fluent that is too large", Both(FILE_G, "0 1 0 0 0 7 2"), [13, 2, 6]),
    ("17.99", "a list after byte 9, which is no rule", Both(FILE_G, "0 1 0 0 0 9 129"), [12, 2, 6]),
    ("17.100", "no closing list", StartG(83), [11, 2, 83]),
    ("17.101", "a closing count of 255 is read on", ClosedG("255 0 7 0 2"), [11, 2, 88]),
    ("17.102", "a byte after the closing list", ClosedG("2 0 7 0 2 0"), [20, 2, 88]),
    ("17.109", "there is no rule 9", Fifth("1 2 0 0 9 1 2 0"), [31, 2, 36]),
    ("17.110", "nor a rule 13", Fifth("1 2 0 0 13 1 2 0"), [31, 2, 36]),
    ("17.111", "31 before 33 and 32", Fifth("1 2 0 0 9 1 2 1 0 4"), [31, 2, 36]),
    ("17.112", "rule 7 takes no citation", Fifth("0 0 1 1 7 1 1 0 0"), [33, 2, 36]),
    ("17.113", "rule 10 does not take three", Fifth("0 0 1 1 10 1 3 0 1 0 3 0 3"), [33, 2, 36]),
    ("17.114", "rule 12 takes one", Fifth("1 2 0 1 255 1 1 2 0 0 12 1 2 0 1 0 1"), [33, 2, 36]),
    ("17.115", "33 before 32", Fifth("1 2 0 0 8 1 2 0 4 0 5"), [33, 2, 36]),
    ("17.116", "a line that cites itself", Fifth("1 2 0 0 8 1 1 0 4"), [32, 2, 36]),
    ("17.117", "a number that no line has", Fifth("0 0 1 1 10 1 2 0 1 4 1"), [32, 2, 36]),
    ("17.118", "rule 7 for a fluent that the action does not sense", Fifth("0 0 1 1 7 0 0"), [34, 2, 36]),
    ("17.119", "rule 7 with two items", Fifth("0 0 2 1 1 7 1 0"), [34, 2, 36]),
    ("17.120", "rule 7 where the fluent is known already (17.27)", Fifth("1 2 0 1 1 7 1 0"), [36, 2, 44]),
    ("17.121", "rule 8 for another fluent", Fifth("1 2 0 0 8 0 1 0 0"), [34, 2, 36]),
    ("17.122", "rule 8 with a fluent cited", Fifth("1 2 0 0 8 1 1 0 1"), [34, 2, 36]),
    ("17.123", "rule 8 with another X", Fifth("2 0 2 0 0 8 1 1 0 0"), [34, 2, 36]),
    ("17.124", "rule 10 with the readings in the other order", Fifth("0 0 1 1 10 1 2 0 3 0 1"), [34, 2, 36]),
    ("17.125", "rule 10 with one reading of two", Fifth("0 0 1 1 10 1 1 0 1"), [34, 2, 36]),
    ("17.126", "rule 10 with lists cited", Fifth("0 0 1 1 10 1 2 0 0 0 2"), [34, 2, 36]),
    ("17.127", "rule 10 as it should be", Fifth("0 0 1 1 10 1 2 0 1 0 3"), [36, 2, 47]),
    ("17.128", "rule 11 with a fluent first", Fifth("1 2 0 0 11 1 2 0 1 0 1"), [34, 2, 36]),
    ("17.129", "rule 11 with a list second", Fifth("1 2 0 0 11 1 2 0 0 0 0"), [34, 2, 36]),
    ("17.130", "rule 11 as it should be", Fifth("1 2 0 0 11 1 2 0 0 0 1"), [36, 2, 47]),
    ("17.131", "rule 12 with a condition that is possible and not in X", Fifth("1 2 0 1 255 1 1 1 0 0 12 1 1 0 1"), [34, 2, 36]),
    ("17.132", "rule 12 with a list cited", Fifth("1 2 0 1 255 1 1 2 0 0 12 1 1 0 0"), [34, 2, 36]),
    ("17.133", "rule 12 as it should be", Fifth("1 2 0 1 255 1 1 2 0 0 12 1 1 0 1"), [36, 2, 51]),
    ("17.134", "rule 3 with fluents cited", Fifth("0 0 1 1 3 0 2 0 1 0 3"), [34, 2, 36]),
    ("17.135", "rule 6 with a fluent cited", Fifth("1 2 0 0 6 0 1 0 1"), [34, 2, 36]),
    ("17.148", "fluent 1 by rule 8", Ten("1 1", "2 0 1 0 3"), [0, 0, 0]),
    ("17.149", "fluent 1 by rule 11, with nothing to do first (17.30)", Ten("1 1", "2 0 1 0 8"), [0, 0, 0]),
    ("17.150", "both fluents, in their order", Ten("2 0 1", "3 0 1 0 5 0 3"), [0, 0, 0]),
    ("17.151", "both, in the other order", Ten("2 0 1", "3 0 1 0 3 0 5"), [36, 2, 111]),
    ("17.152", "no entry", Ten("1 1", "0"), [36, 2, 108]),
    ("17.153", "one entry too few", Ten("1 1", "1 0 1"), [36, 2, 108]),
    ("17.154", "one entry too many", Ten("1 1", "3 0 1 0 3 0 3"), [36, 2, 108]),
    ("17.155", "the first entry names no line", Ten("1 1", "2 0 10 0 3"), [36, 2, 109]),
    ("17.156", "the second entry names no line", Ten("1 1", "2 0 1 0 10"), [36, 2, 111]),
    ("17.157", "for the goals, a line that concludes a fluent", Ten("1 1", "2 0 3 0 3"), [36, 2, 109]),
    ("17.158", "for the goals, a line whose Y has more than the goals", Ten("1 1", "2 0 0 0 3"), [36, 2, 109]),
    ("17.159", "for the fluent, the goals' line", Ten("1 1", "2 0 1 0 1"), [36, 2, 111]),
    ("17.160", "for the fluent, the line of another fluent", Ten("1 1", "2 0 1 0 5"), [36, 2, 111]),
    ("17.161", "for the fluent, a line with another X", Ten("1 1", "2 0 1 0 7"), [36, 2, 111]),
    ("17.162", "for the fluent, a line with another plan", Ten("1 1", "2 0 1 0 9"), [36, 2, 111]),
    ("17.163", "for the fluent, a line with its literal", Ten("1 1", "2 0 1 0 2"), [36, 2, 111]),
    ("17.165", "rule 8 with a list that merely holds the literal", Both(FILE_G, "0 2 2 0 2 0 0 1 2 0 2 0 2 0 2 0 0 8 1 1 0 0 0"), [34, 2, 12]),
    (
        "17.166",
        "rule 11 with a middle that is merely included",
        Both(FILE_G, "0 4 2 0 2 0 0 1 2 0 2 0 1 2 0 0 1 1 2 0 1 2 0 0 8 1 1 0 1 2 0 2 0 0 11 1 2 0 0 0 2 0"),
        [34, 2, 29],
    ),
    ("17.167", "34 before 36", Both("2 1 2 0 2 0 0 0 0 0 0 1 1", "0 1 0 0 0 1 1 0 0 0"), [34, 2, 2]),
    ("17.168", "31 before 36", Both("2 1 2 0 2 0 0 0 0 0 0 1 1", "0 1 0 0 0 9 0 0 1 0 9"), [31, 2, 2]),
    ("17.3", "no line", Both(FILE_A, "0 0"), [12, 2, 0]),
    ("17.3", "1,025 lines", Both(FILE_A, "4 1"), [12, 2, 0]),
    ("17.9", "no byte", Both(FILE_A, ""), [11, 2, 0]),
    ("17.10", "32,768 zeros, which are read", Zeros(32_768), [12, 2, 0]),
    ("17.10", "65 citations under no rule", Both(FILE_A, "0 1 0 0 0 9 0 65"), [12, 2, 7]),
    ("17.11", "a fluent that is too large under rule 12", ChangedA(&[(226, 255)]), [13, 2, 226]),
    ("17.13", "18 before 31", Both(FILE_A, "0 1 0 0 1 255 2 0 0 0 0 0 0 9 0 0 0"), [18, 2, 5]),
    ("17.13", "34 of line 9 before 31 of line 10", ChangedA(&[(179, 1), (188, 0)]), [34, 2, 171]),
    ("17.14", "34 of a line before 36", ChangedA(&[(179, 1), (325, 9)]), [34, 2, 171]),
    ("17.18", "rule 0", ChangedA(&[(178, 0)]), [31, 2, 171]),
    ("17.18", "rule 255", ChangedA(&[(178, 255)]), [31, 2, 171]),
    ("17.21", "rule 7 with an action that changes", ChangedA(&[(177, 1)]), [34, 2, 171]),
    ("17.24", "rule 11 with a first line that says less", ChangedA(&[(270, 13)]), [34, 2, 257]),
    ("17.25", "rule 12 with another X", ChangedA(&[(274, 0)]), [34, 2, 273]),
    ("17.30", "rule 6 for a fluent", ChangedA(&[(178, 6)]), [33, 2, 171]),
    ("17.32", "another line of the same plan first", ClosedA("2 0 17 0 17"), [36, 2, 324]),
    ("17.33", "another plan second", ClosedA("2 0 8 0 16"), [36, 2, 326]),
    ("17.36", "line 65,535 first", ClosedA("2 255 255 255 255"), [36, 2, 324]),
];

fn bytes(text: &str) -> Vec<u8> {
    parse_bytes(text).expect("bytes of a row")
}

/// Lines with what follows them.
fn closed(lines: &[&str], after: &str) -> Vec<u8> {
    let count = (lines.len() as u16).to_be_bytes();
    count.into_iter().chain(lines.iter().flat_map(|line| bytes(line))).chain(bytes(after)).collect()
}

fn check((_, _, given, _): &Row) -> Check {
    let file_a = bytes(FILE_A);
    let (request, derivation) = match *given {
        ClosedA(list) => (file_a, closed(&LINES_A, list)),
        ChangedA(edits) => {
            let mut changed = closed(&LINES_A, CLOSING_A);
            edits.iter().for_each(|&(place, byte)| changed[place] = byte);
            (file_a, changed)
        }
        Zeros(length) => (file_a, vec![0; length]),
        StartOfA(length) => (file_a[..length].to_vec(), closed(&LINES_A, CLOSING_A)),
        ClosedL(list) => (bytes(FILE_L), closed(&LINES_L, list)),
        ClosedG(list) => (bytes(FILE_G), closed(&LINES_G, list)),
        StartG(length) => (bytes(FILE_G), closed(&LINES_G, CLOSING_G)[..length].to_vec()),
        Nine(list) => (without_whether(), closed(&LINES_A[..9], list)),
        Plain => (without_whether(), nine_lines()),
        Fifth(line) => (bytes(FILE_G), closed(&[&LINES_FOUR[..], &[line]].concat(), "0")),
        Ten(whether, list) => ([bytes(TWO_KNOWN), bytes(whether)].concat(), closed(&LINES_TEN, list)),
        Both(request, derivation) => (bytes(request), bytes(derivation)),
    };
    Check::closing(request, derivation)
}

/// The whether calls of the rows.
pub fn checks() -> Vec<Check> {
    ROWS.iter().map(check).collect()
}

/// Every row through both programs, and what the format says of it; how many there are.
pub fn compare(rng: &mut Rng) -> Result<usize, String> {
    for ((sentence, name, _, [number, input, place]), check) in ROWS.into_iter().zip(checks()) {
        let answer = agreed(rng, &check).map_err(|why| format!("FORMAT {sentence}, {name}: {why}; {check}"))?;
        if answer != [number, input, place, 0] {
            return Err(format!("FORMAT {sentence}, {name}: number, input, place, count are {answer:?}; {check}"));
        }
    }
    Ok(ROWS.len())
}
