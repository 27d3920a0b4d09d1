//! The release call and the plans call.

use crate::answer::{Answer, REQUEST};
use crate::model::{Plan, Release};
use crate::reader::read_release;
use crate::settle::{settle_plan, settle_table};
use crate::walk::walk;
use crate::{tell, STATE_LENGTH};

/// Numbers that a row has for each plan.
pub const ROW_NUMBERS: usize = 4;

/// The release call. Its own answer is 10, the first fault before the plans, 9, 16, 17 or 20, or
/// else 0, which alone writes the row: number, place, count and input of each plan.
pub fn release(file: &[u8], row: &mut [u32], budget: u32) -> Answer {
    let release = match read_release(file) {
        Ok(release) => release,
        Err(fault) => return Answer::refusal(REQUEST, fault),
    };
    if row.len() != ROW_NUMBERS * release.count {
        return Answer::neither(9, 0);
    }
    let refused = settle_table(&release.table).err().or(release.left_over);
    if let Some(fault) = refused {
        return Answer::refusal(REQUEST, fault);
    }
    for (four, answer) in row
        .chunks_exact_mut(ROW_NUMBERS)
        .zip(answers(&release, budget))
    {
        four.copy_from_slice(&in_row(answer));
    }
    Answer::neither(0, 0)
}

/// The plans call: the plan count, or 0 where the file is refused before its plans.
pub fn plans(file: &[u8]) -> u32 {
    read_release(file).map_or(0, |release| release.count as u32)
}

/// An answer for each plan that the count says, 22 for those behind one that failed.
fn answers(release: &Release, budget: u32) -> impl Iterator<Item = Answer> + '_ {
    let reached = release.plans.iter();
    reached
        .map(move |plan| plan_answer(plan, budget))
        .chain(std::iter::repeat(Answer::neither(22, 0)))
        .take(release.count)
}

/// Its fault in reading, 18, or how its walk ends. The state is written for nobody.
fn plan_answer(plan: &Plan, budget: u32) -> Answer {
    let settled = plan.read.as_ref().map_err(|fault| *fault);
    match settled.and_then(|request| settle_plan(request).map(|()| request)) {
        Ok(request) => tell(walk(request, budget), &mut [0; STATE_LENGTH], budget),
        Err(fault) => Answer::refusal(REQUEST, fault),
    }
}

/// The four numbers of an answer, in the order of a row.
pub fn in_row(answer: Answer) -> [u32; ROW_NUMBERS] {
    [
        answer.number.into(),
        answer.place,
        answer.count,
        answer.input.into(),
    ]
}
