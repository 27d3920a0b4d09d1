//! Bytes and states as text.

/// Decimal bytes separated by blanks, with `|` and `,` as further separators; what follows a
/// `#` on its line is a comment.
pub fn parse_bytes(text: &str) -> Result<Vec<u8>, String> {
    text.lines()
        .map(without_comment)
        .flat_map(|line| line.split(|c: char| c.is_whitespace() || c == '|' || c == ','))
        .filter(|word| !word.is_empty())
        .map(|word| word.parse().map_err(|_| format!("not a byte: {word}")))
        .collect()
}

/// A line up to its comment.
pub fn without_comment(line: &str) -> &str {
    line.split('#').next().unwrap_or("")
}

/// A lent state as a line with one character for each of the first `fluents` bytes.
pub fn state_line(state: &[u8], fluents: u8) -> String {
    state
        .iter()
        .take(usize::from(fluents))
        .map(|mark| match mark {
            0 => '?',
            1 => '+',
            2 => '-',
            _ => '!',
        })
        .collect()
}

/// The same of a lent state with values: the value that is known of each fluent, or `?`, with blanks between.
pub fn values_line(state: &[u8], fluents: u8) -> String {
    let told = state.iter().take(usize::from(fluents));
    let told = told.map(|byte| match byte {
        0 => "?".to_string(),
        known => (known - 1).to_string(),
    });
    told.collect::<Vec<_>>().join(" ")
}

/// Bytes in decimal with commas between, or `-` where there are none.
pub fn comma_separated(bytes: &[u8]) -> String {
    if bytes.is_empty() {
        return "-".to_string();
    }
    bytes
        .iter()
        .map(u8::to_string)
        .collect::<Vec<_>>()
        .join(",")
}
