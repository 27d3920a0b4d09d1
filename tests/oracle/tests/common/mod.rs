//! What the tests share: bytes from text, the calls in short, and File A.
#![allow(dead_code)]

use oracle::{judge, Answer, STATE_LENGTH};

/// Decimal bytes, with `|` and `,` as mere separators.
pub fn bytes(text: &str) -> Vec<u8> {
    text.split(|c: char| c.is_whitespace() || c == '|' || c == ',')
        .filter(|word| !word.is_empty())
        .map(|word| word.parse().expect("a decimal byte"))
        .collect()
}

/// File A: look at the bit; where it is clear, open and convert.
pub fn file_a() -> Vec<u8> {
    bytes(
        "4 3 | 3 3 5 7 | 3  1 2 0  1 6 1 0  2 4 0 | 3  0 0  1 1 3  2 1 2 | 1  0 0 | \
         0 2  0  255 2  1 1 0 2 1 2  1 0 0 0 | 1 7 | 1 2",
    )
}

/// File A's bytes 0 to 28, then others.
pub fn table_a(tail: &str) -> Vec<u8> {
    let mut request = file_a()[..29].to_vec();
    request.extend(bytes(tail));
    request
}

/// File A with one byte changed.
pub fn changed(place: usize, byte: u8) -> Vec<u8> {
    let mut request = file_a();
    request[place] = byte;
    request
}

/// File A with an empty whether list.
pub fn file_a_without_whether() -> Vec<u8> {
    let mut request = file_a();
    request.pop();
    request.pop();
    request.push(0);
    request
}

/// What the lent state is filled with before each call.
pub const LENT: u8 = 9;

/// The judging call with a lent state of the right length; the state afterwards comes along.
pub fn run(request: &[u8], budget: u32) -> (Answer, [u8; STATE_LENGTH]) {
    let mut lent = [LENT; STATE_LENGTH];
    let answer = judge(request, &mut lent, budget);
    (answer, lent)
}

/// An answer in short.
pub fn answer(number: u8, input: u8, place: u32, count: u32) -> Answer {
    Answer {
        number,
        input,
        place,
        count,
    }
}

/// The lent state that a line such as `?+-` stands for.
pub fn state(line: &str) -> [u8; STATE_LENGTH] {
    let mut state = [0; STATE_LENGTH];
    for (byte, mark) in state.iter_mut().zip(line.chars()) {
        *byte = match mark {
            '?' => 0,
            '+' => 1,
            '-' => 2,
            other => panic!("no mark: {other}"),
        };
    }
    state
}

/// Expects an answer that leaves the lent state alone.
pub fn expect(request: &[u8], budget: u32, number: u8, input: u8, place: u32, count: u32) {
    assert_eq!(
        run(request, budget),
        (answer(number, input, place, count), [LENT; STATE_LENGTH])
    );
}

/// Expects a refusal of the request.
pub fn refused(request: &[u8], number: u8, place: u32) {
    expect(request, 100_000, number, 1, place, 0);
}

/// Expects answer 0.
pub fn verified(request: &[u8], count: u32) {
    expect(request, 100_000, 0, 0, 0, count);
}

/// Expects answer 1 or 2.
pub fn failed(request: &[u8], number: u8, place: u32, count: u32, line: &str) {
    assert_eq!(
        run(request, 100_000),
        (answer(number, 1, place, count), state(line))
    );
}
