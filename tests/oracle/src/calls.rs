//! Random calls: inputs, right or damaged, with all that a call takes.

use crate::answer::{Answer, Fault};
use crate::damage::{add_whether, change_allowances, damage_derivation, damage_request, Damaged};
use crate::encode::{encode_derivation, encode_request};
use crate::generate::{any_request, drawn, forgetful, starve, Shape, FULL, MIDDLE, SMALL, TINY};
use crate::model::{Line, Request};
use crate::prove::{free, many_readings, natural, pad};
use crate::reader::{DERIVATION_LIMIT, LINE_LIMIT, REQUEST_LIMIT};
use crate::rng::Rng;
use crate::walk::walk;
use crate::STATE_LENGTH;

/// Counts above this aren't walked to their end.
pub(crate) const COUNT_CAP: u32 = 20_000;
/// Wrong lengths of a lent state, half of the right one among them, which was right when there
/// were 64 fluents at most.
const WRONG_LENGTHS: [usize; 6] = [
    0,
    1,
    STATE_LENGTH / 2,
    STATE_LENGTH - 1,
    STATE_LENGTH + 1,
    2 * STATE_LENGTH,
];

/// What is certain about an answer before the call is made.
#[derive(Clone, Copy, Debug, PartialEq, Eq)]
pub enum Outlook {
    /// Nothing.
    Open,
    /// The request can be read and settled, so the walk is reached.
    Walked,
    /// A derivation that is to be accepted.
    Accepted,
    /// A certain fault of the input named.
    Refused(u8, Fault),
}

/// A judging call.
#[derive(Clone, Debug)]
pub struct JudgeCall {
    pub request: Vec<u8>,
    pub lent: Vec<u8>,
    pub budget: u32,
    pub outlook: Outlook,
}

/// What a call on a request leaves: its answer, the line that this carries, and the lent state.
#[derive(Clone, Debug, PartialEq, Eq)]
pub struct Left {
    pub answer: Answer,
    pub line: u32,
    pub lent: Vec<u8>,
}

impl JudgeCall {
    /// The call made in one of the ways that there are.
    pub(crate) fn made(&self, judge: impl Fn(&[u8], &mut [u8], u32) -> (Answer, u32)) -> Left {
        let mut lent = self.lent.clone();
        let (answer, line) = judge(&self.request, &mut lent, self.budget);
        Left { answer, line, lent }
    }
}

/// A derivation call.
#[derive(Clone, Debug)]
pub struct CheckCall {
    pub request: Vec<u8>,
    pub derivation: Vec<u8>,
    pub outlook: Outlook,
}

/// A judging call of any kind; about three of ten requests are damaged.
pub fn judge_call(rng: &mut Rng) -> JudgeCall {
    let draft = within_limit(rng, any_request);
    some_damaged(
        rng,
        30,
        |rng| damaged_judge_call(rng, &draft),
        |rng| sound_judge_call(rng, &draft),
    )
}

/// A call that is damaged in so many cases of a hundred. Now and then the lent state has another length.
pub(crate) fn some_damaged(
    rng: &mut Rng,
    percent: u64,
    damaged: impl FnOnce(&mut Rng) -> JudgeCall,
    sound: impl FnOnce(&mut Rng) -> JudgeCall,
) -> JudgeCall {
    let mut call = match rng.chance(percent) {
        true => damaged(rng),
        false => sound(rng),
    };
    if rng.chance(1) {
        lend_wrongly(rng, &mut call);
    }
    call
}

/// A call with an undamaged request. Of one in ten an action of the plan gets other executability
/// lines.
pub fn sound_judge_call(rng: &mut Rng, draft: &Request) -> JudgeCall {
    let mut draft = draft.clone();
    if rng.chance(10) && encode_request(&draft).bytes.len() < REQUEST_LIMIT / 2 {
        starve(rng, &mut draft);
    }
    let bytes = encode_request(&draft).bytes;
    let budget = budget(rng, &draft);
    JudgeCall {
        request: bytes,
        lent: lent_state(rng),
        budget,
        outlook: Outlook::Walked,
    }
}

/// A call with a damaged request.
pub fn damaged_judge_call(rng: &mut Rng, draft: &Request) -> JudgeCall {
    let damaged = damage_request(rng, draft);
    let budget = *rng.pick(&[0, 3, 20, 1_000, COUNT_CAP]);
    let outlook = outlook(1, &damaged);
    JudgeCall {
        request: damaged.bytes,
        lent: lent_state(rng),
        budget,
        outlook,
    }
}

/// Gives a call a lent state of a wrong length.
pub fn lend_wrongly(rng: &mut Rng, call: &mut JudgeCall) {
    let length = *rng.pick(&WRONG_LENGTHS);
    call.lent = vec![rng.byte(0, 255); length];
    call.outlook = Outlook::Refused(0, Fault::new(9, 0));
}

pub(crate) fn outlook(input: u8, damaged: &Damaged) -> Outlook {
    damaged
        .expected
        .map_or(Outlook::Open, |fault| Outlook::Refused(input, fault))
}

/// Requests of any shape are seldom too long; those that are, are left out.
fn within_limit(rng: &mut Rng, source: fn(&mut Rng) -> Request) -> Request {
    loop {
        let draft = source(rng);
        if encode_request(&draft).bytes.len() <= REQUEST_LIMIT {
            return draft;
        }
    }
}

/// A lent state full of anything.
pub(crate) fn lent_state(rng: &mut Rng) -> Vec<u8> {
    (0..STATE_LENGTH).map(|_| rng.byte(0, 255)).collect()
}

/// A budget below, at, just above or far above the walk's count.
fn budget(rng: &mut Rng, draft: &Request) -> u32 {
    budget_near(rng, walk(draft, COUNT_CAP).count())
}

/// The same by the count, or by none where it is too large.
pub(crate) fn budget_near(rng: &mut Rng, count: Option<u64>) -> u32 {
    let Some(count) = count else {
        return *rng.pick(&[0, 7, 1_000, COUNT_CAP]);
    };
    let count = count as u32;
    match rng.below(100) {
        0..=11 => count.saturating_sub(1),
        12..=21 => rng.below(count as usize + 1) as u32,
        22..=39 => count,
        40..=49 => count + 1,
        50..=52 => 0,
        53..=55 => u32::MAX,
        _ => 100_000,
    }
}

/// A derivation call of any kind; about half of the inputs are damaged.
pub fn check_call(rng: &mut Rng) -> CheckCall {
    let shape = *rng.pick(&[TINY, TINY, SMALL, SMALL, SMALL, MIDDLE]);
    let (draft, mut lines) = match rng.below(200) {
        0 => many_readings(rng.byte(1, 40)),
        1 => wide_sensing(rng),
        2 | 3 => derivable(rng, &FULL),
        _ => derivable(rng, &shape),
    };
    if rng.below(300) == 0 {
        pad(&mut lines, LINE_LIMIT);
    }
    any_check_call(rng, &draft, &lines)
}

/// A call with a request and its derivation, either of them damaged or not.
pub fn any_check_call(rng: &mut Rng, draft: &Request, lines: &[Line]) -> CheckCall {
    let request = encode_request(draft).bytes;
    let derivation = encode_derivation(lines).bytes;
    if derivation.len() > DERIVATION_LIMIT {
        let outlook = Outlook::Refused(2, Fault::new(10, 0));
        return CheckCall {
            request,
            derivation,
            outlook,
        };
    }
    match rng.below(100) {
        0..=44 => CheckCall {
            request,
            derivation,
            outlook: Outlook::Accepted,
        },
        45..=84 => {
            let damaged = damage_derivation(rng, draft, lines);
            let outlook = outlook(2, &damaged);
            CheckCall {
                request,
                derivation: damaged.bytes,
                outlook,
            }
        }
        85..=91 => {
            let damaged = damage_request(rng, draft);
            let outlook = outlook(1, &damaged);
            CheckCall {
                request: damaged.bytes,
                derivation,
                outlook,
            }
        }
        _ => {
            let mut other = draft.clone();
            match rng.chance(50) {
                true => add_whether(rng, &mut other),
                false => change_allowances(rng, &mut other),
            }
            let request = encode_request(&other).bytes;
            CheckCall {
                request,
                derivation,
                outlook: Outlook::Open,
            }
        }
    }
}

/// A request that senses up to six fluents at once, and a derivation of it.
fn wide_sensing(rng: &mut Rng) -> (Request, Vec<Line>) {
    loop {
        let draft = forgetful(rng, 6, 1);
        if let Some(lines) = natural(&draft).filter(|_| draft.whether.is_empty()) {
            return (draft, lines);
        }
    }
}

/// A request without a whether list and a derivation of it.
pub fn derivable(rng: &mut Rng, shape: &Shape) -> (Request, Vec<Line>) {
    let shape = Shape {
        careless: 0,
        whether: false,
        ..*shape
    };
    loop {
        let draft = drawn(rng, &shape);
        let lines = match rng.chance(40) {
            true => natural(&draft),
            false => free(rng, &draft),
        };
        if let Some(lines) = lines {
            return (draft, lines);
        }
    }
}
