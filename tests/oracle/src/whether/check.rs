//! The check of a derivation in the second layout that has been read: its lines, then 36 over the
//! closing list.

use crate::answer::Fault;
use crate::model::{Conclusion, Proof, ProofLine, Request};
use crate::rules::check_all;

/// Checks the lines against the table of a settled request, and the closing list against its
/// question.
pub fn check_proof(request: &Request, proof: &Proof) -> Result<(), Fault> {
    check_all(
        request,
        &proof.lines,
        |rule| matches!(rule, 1..=8 | 10..=12),
    )?;
    check_closing(request, proof)
}

/// 36: the length at the count, then the first bad entry at its first byte.
fn check_closing(request: &Request, proof: &Proof) -> Result<(), Fault> {
    if proof.closing.len() != request.whether.len() + 1 {
        return Err(Fault::new(36, proof.closing_place));
    }
    for (index, &entry) in proof.closing.iter().enumerate() {
        let named = proof.lines.get(usize::from(entry));
        if !named.is_some_and(|line| answers(request, line, index)) {
            return Err(Fault::new(36, proof.closing_place + 1 + 2 * index));
        }
    }
    Ok(())
}

/// Whether a line answers the part of the question that an entry is about: X the initial facts,
/// c the plan, and the goals for entry 0, a whether entry's fluent for the others.
pub(crate) fn answers(request: &Request, line: &ProofLine, index: usize) -> bool {
    let asked = match index.checked_sub(1) {
        None => Conclusion::List(request.goals.clone()),
        Some(entry) => Conclusion::Fluent(request.whether[entry]),
    };
    line.before == request.facts && line.sequence == request.plan && line.gives == asked
}
