//! The check of a derivation that has been read: its lines, then 35.

use crate::answer::Fault;
use crate::model::{Conclusion, Line, ProofLine, Request};
use crate::rules::check_all;

/// Checks the lines against the table and the question of a settled request.
pub fn check_lines(request: &Request, lines: &[Line]) -> Result<(), Fault> {
    let concluding: Vec<ProofLine> = lines.iter().map(concluding_list).collect();
    check_all(request, &concluding, |rule| (1..=6).contains(&rule))?;
    match lines.last() {
        Some(last) if !is_question(request, last) => Err(Fault::new(35, last.place)),
        _ => Ok(()),
    }
}

/// The line as one that concludes its list Y.
fn concluding_list(line: &Line) -> ProofLine {
    ProofLine {
        place: line.place,
        before: line.before.clone(),
        sequence: line.sequence.clone(),
        rule: line.rule,
        gives: Conclusion::List(line.after.clone()),
        cites: line.cites.clone(),
    }
}

/// The question: X the initial facts, c the plan, Y the goals.
fn is_question(request: &Request, line: &Line) -> bool {
    line.before == request.facts && line.sequence == request.plan && line.after == request.goals
}
