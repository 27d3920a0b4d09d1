//! The format's rows of guides (25.28 to 25.50): request, budget, the answer of the start, and the calls as the format writes them,
//! each with its readings in brackets and what it answers.

use super::trials::Trial;

/// A row: the request as decimal bytes, the budget, the four numbers of the start, and the calls.
pub type Case = (String, u32, &'static str, &'static str);

const BUDGET: u32 = 100_000;
/// The first 29 bytes of File A, and the other ones.
const T: &str = "4 3 3 3 5 7 3 1 2 0 1 6 1 0 2 4 0 3 0 0 1 1 3 2 1 2 1 0 0";
const REST: &str = "0 2 0 255 2 1 1 0 2 1 2 1 0 0 0 1 7 1 2";
/// The flight of the paper on IndiGolog.
const FLIGHT: &str = "6 5 5 0 3 5 7 11 13 0 2 0 0 1 0 0 5 0 0 7 0 1 4 0 1 1 0 1 3 0 1 7 0 2 6 0 2 1 0 2 3 0 2 5 0 \
    4 10 0 6 0 0 1 1 2 2 1 2 3 1 2 4 2 4 8 4 2 6 9 1 3 4 0 3 0 3 255 2 1 8 0 2 1 4 1 9 0 2 2 4 1 10 0";
/// What stands behind a branching follows the branch.
const BEHIND: &str = "0 3 0 255 2 1 1 0 1 1 1 0 0 0 0 0 0";

/// The rows in their order.
pub fn cases() -> Vec<Case> {
    let from_29 = |rest: &str| format!("{T} {rest}");
    let file_a = || from_29(REST);
    let plain = |request: String, start, calls| (request, BUDGET, start, calls);
    let refused = |request: String, budget| (request, budget, "40 0 0 0", "[] 40, [0 1] 40");
    vec![
        plain(file_a(), "0 0 0 5", "[] do 0, [1] done, [] done, [5] done"),
        plain(
            file_a(),
            "0 0 0 5",
            "[] do 0, [0] do 1, [] do 2, [] done, [3 3] done",
        ),
        plain(file_a(), "0 0 0 5", "[] do 0, [7] done"),
        plain(from_29("0 0 0 0"), "0 0 0 1", "[] done"),
        plain(from_29("0 0 0 0"), "0 0 0 1", "[5] 41, [] done"),
        plain(
            file_a(),
            "0 0 0 5",
            "[1] 41, [] do 0, [] 41, [0 0] 41, [0] do 1, [0] 41, [] do 2, [] done",
        ),
        plain(
            from_29("0 2 0 0 0 0"),
            "0 0 0 5",
            "[] do 0, [1] do 0, [0] 42, [0 0] 41, [1] done",
        ),
        plain(
            "2 1 1 0 0 1 0 0 2 0 1 0 0 0 2 0 0 0 1 1".to_string(),
            "0 0 0 5",
            "[] do 0, [0] 41, [0 1] 42, [1 0] do 0, [1 1] 42, [1 0] done",
        ),
        plain(
            "1 1 0 0 1 0 0 2 0 0 0 0 0 1 0 0 1 0".to_string(),
            "0 0 0 3",
            "[] do 0, [0 0] 41, [0] done",
        ),
        plain(
            FLIGHT.to_string(),
            "0 0 0 8",
            "[] do 0, [] do 3, [1] do 1, [] do 4, [] done",
        ),
        plain(
            FLIGHT.to_string(),
            "0 0 0 8",
            "[] do 0, [] do 3, [0] do 2, [] do 4, [] done",
        ),
        plain(
            from_29(BEHIND),
            "0 0 0 6",
            "[] do 0, [0] do 1, [] do 0, [1] 42, [0] done",
        ),
        plain(from_29(BEHIND), "0 0 0 6", "[] do 0, [1] do 0, [1] done"),
        plain(
            from_29("0 2 255 1 1 3 0 2 255 2 1 2 0 0 1 3 0 1 1 2 0 0 0"),
            "0 0 0 5",
            "[] do 1, [] do 2, [] do 0, [0] done",
        ),
        refused(from_29("0 1 1 1 7 1 2"), BUDGET),
        refused(from_29("0 1 2 0 0"), BUDGET),
        refused(from_29("0 1 255 2 1 1 0 2 1 2 1 0 0 0 1 7 1 2"), BUDGET),
        refused(file_a(), 4),
        (file_a(), 5, "0 0 0 5", ""),
        plain(String::new(), "11 1 0 0", "[] 11, [0 1] 11"),
        plain(
            from_29(REST.trim_end_matches(" 2")),
            "11 1 47 0",
            "[] 11, [0 1] 11",
        ),
        plain(
            with_byte(&file_a(), 11, "3"),
            "16 1 10 0",
            "[] 16, [0 1] 16",
        ),
        plain(
            with_byte(&file_a(), 41, "1"),
            "18 1 32 0",
            "[] 18, [0 1] 18",
        ),
    ]
}

/// The bytes with another one at a place.
fn with_byte(request: &str, place: usize, byte: &str) -> String {
    let mut words: Vec<&str> = request.split(' ').collect();
    words[place] = byte;
    words.join(" ")
}

/// The readings of a row's calls, with what each of them answers.
pub fn calls(row: &str) -> Vec<(Vec<u8>, String)> {
    let calls = row.split('[').skip(1);
    let call = |call: &str| {
        let (readings, told) = call.split_once("] ").expect("readings in brackets");
        (bytes(readings), told.trim_end_matches(", ").to_string())
    };
    calls.map(call).collect()
}

/// The rows as trials.
pub fn trials() -> Vec<Trial> {
    let trial = |(request, budget, _, row): Case| Trial {
        request: bytes(&request),
        budget,
        calls: calls(row)
            .into_iter()
            .map(|(readings, _)| readings)
            .collect(),
    };
    cases().into_iter().map(trial).collect()
}

fn bytes(text: &str) -> Vec<u8> {
    let words = text.split_whitespace();
    words.map(|word| word.parse().expect("a byte")).collect()
}
