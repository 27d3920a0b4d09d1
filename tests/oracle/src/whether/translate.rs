//! From one layout of derivations to the other, for lines by rules that both have.

use crate::model::{Conclusion, Line, Proof, ProofLine};
use crate::reader::gives_fluent;

/// A derivation of the first layout in the second one, with a closing list that names its last
/// line; as bytes it is three longer. None where a rule byte would have a fluent after it.
pub fn as_proof(lines: &[Line]) -> Option<Proof> {
    let last = u16::try_from(lines.len().checked_sub(1)?).ok()?;
    let lines = lines
        .iter()
        .map(proof_line)
        .collect::<Option<Vec<ProofLine>>>()?;
    Some(Proof {
        lines,
        closing_place: 0,
        closing: vec![last],
    })
}

fn proof_line(line: &Line) -> Option<ProofLine> {
    (!gives_fluent(line.rule)).then(|| ProofLine {
        place: 0,
        before: line.before.clone(),
        sequence: line.sequence.clone(),
        rule: line.rule,
        gives: Conclusion::List(line.after.clone()),
        cites: line.cites.clone(),
    })
}

/// The way back: lines by rules 1 to 6, of which the closing list names the last and no other.
pub fn as_lines(proof: &Proof) -> Option<Vec<Line>> {
    match proof.closing[..] {
        [last] if usize::from(last) + 1 == proof.lines.len() => former_lines(&proof.lines),
        _ => None,
    }
}

/// Lines by rules 1 to 6 in the first layout.
pub fn former_lines(lines: &[ProofLine]) -> Option<Vec<Line>> {
    lines.iter().map(former_line).collect()
}

fn former_line(line: &ProofLine) -> Option<Line> {
    match &line.gives {
        Conclusion::List(after) if (1..=6).contains(&line.rule) => Some(Line {
            place: 0,
            before: line.before.clone(),
            sequence: line.sequence.clone(),
            after: after.clone(),
            rule: line.rule,
            cites: line.cites.clone(),
        }),
        _ => None,
    }
}
