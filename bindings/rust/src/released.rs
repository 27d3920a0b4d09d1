//! What the release call gives (docs/FORMAT.md, section 19).

use std::{error, fmt};

use crate::answer::{strange, words_of};
use crate::{Answer, Input, Packed, MOST_PLANS, ROW_NUMBERS};

/// What the release call gives: an answer for each plan of the file, or what is wrong with the file as a whole.
#[must_use = "an answer other than 0 says that a plan is not to pass: see `is_verified` and `verified`"]
#[derive(Clone, Debug, PartialEq, Eq, Hash)]
pub enum Released {
    /// The call's own answer is 0: each plan has its answer, in the order of the file.
    Plans(Vec<PlanAnswer>),
    /// The call's own answer is another, one of 9 to 17 and 20, and no plan is answered.
    Refused(Answer),
}

impl Released {
    /// Takes what the release call gives apart: its own answer, and what the lent numbers are after the call.
    ///
    /// # Panics
    ///
    /// Where the number is none of the call's own, where input, place and count do not go with it, or where the own answer is 0 and the row
    /// is none. The proved library gives nothing of the kind.
    pub fn unpack(packed: Packed, row: &[u32]) -> Released {
        match packed.number() {
            0 => Released::Plans(answers(row).filter(|_| packed == Packed(0)).unwrap_or_else(|| strange(packed))),
            9 => Released::Refused(Answer::StateLength.if_packed(packed)),
            number @ (10..=17 | 20) => {
                let refused = Answer::refusal(number, Input::Request, packed.place()).unwrap_or_else(|| strange(packed));
                Released::Refused(refused.if_packed(packed))
            }
            _ => strange(packed),
        }
    }

    /// The answers of the plans, and none where the file is refused.
    pub fn plans(&self) -> &[PlanAnswer] {
        match self {
            Released::Plans(plans) => plans,
            Released::Refused(_) => &[],
        }
    }

    /// Every plan is verified.
    #[must_use]
    pub fn is_verified(&self) -> bool {
        self.stopped_by().is_none()
    }

    /// The same as a `Result`, for `?`.
    ///
    /// # Errors
    ///
    /// Where the file is refused, or a plan has another answer than 0. The error says which plan is the first of these, counted from 0.
    pub fn verified(&self) -> Result<(), NotReleased> {
        self.stopped_by().map_or(Ok(()), Err)
    }

    fn stopped_by(&self) -> Option<NotReleased> {
        match self {
            Released::Refused(answer) => Some(NotReleased::Refused(*answer)),
            Released::Plans(plans) => {
                let plan = plans.iter().position(|answer| !answer.is_verified())?;
                Some(NotReleased::Plan(plan, plans[plan]))
            }
        }
    }
}

/// The answers that a row has, where it is one.
fn answers(row: &[u32]) -> Option<Vec<PlanAnswer>> {
    let mut reached = true;
    let answers: Option<Vec<PlanAnswer>> = row
        .chunks(ROW_NUMBERS)
        .map(|numbers| {
            let answer = PlanAnswer::unpack(numbers.try_into().ok()?)?;
            // The plans behind one that fails in reading are not reached, and no others are.
            let told = (answer == PlanAnswer::NotReached) != reached;
            reached = reached && !answer.fails_in_reading();
            told.then_some(answer)
        })
        .collect();
    answers.filter(|answers| (1..=MOST_PLANS).contains(&answers.len()))
}

/// The answer to a plan of a release file. A place is the number of bytes that stand before it in that file. A state is not given: the walk call gives
/// it, for the plan's own request.
///
/// A number keeps its meaning from one version to the next, and a version may have numbers that the one before did not.
#[must_use = "an answer other than 0 says that the plan is not to pass: see `is_verified`"]
#[non_exhaustive]
#[derive(Clone, Copy, Debug, PartialEq, Eq, Hash)]
pub enum PlanAnswer {
    /// 0: the walk verifies the plan.
    Verified {
        /// Actions run and end states judged.
        count: u32,
    },
    /// 1: all paths can be run to their ends, and at least one end state misses a goal or a whether entry.
    GoalMissed {
        /// The first entry missed in the first end state that misses any.
        place: usize,
        /// Actions run and end states judged.
        count: u32,
    },
    /// 2: a path comes to an item that cannot be run.
    NotExecutable {
        /// That item.
        place: usize,
        /// Actions run and end states judged before it.
        count: u32,
    },
    /// 3: the walk counts to more than the budget, which each plan has for itself.
    BudgetSpent {
        /// The budget that was given.
        budget: u32,
    },
    /// 11 to 15, 18, 19 or 21: the plan is refused. [`Input::Request`] in it is the release file.
    Refused(Answer),
    /// 22: a plan before it fails in reading, so that nobody knows where this one starts.
    NotReached,
}

impl PlanAnswer {
    /// The answer that these numbers of a row are: number, place, count and input. None where they are no answer to a plan.
    pub fn unpack(numbers: [u32; ROW_NUMBERS]) -> Option<PlanAnswer> {
        let [number, place, count, _] = numbers;
        let place = usize::try_from(place).ok()?;
        let answer = match number {
            0 => PlanAnswer::Verified { count },
            1 => PlanAnswer::GoalMissed { place, count },
            2 => PlanAnswer::NotExecutable { place, count },
            3 => PlanAnswer::BudgetSpent { budget: count },
            11..=15 | 18 | 19 | 21 => PlanAnswer::Refused(Answer::refusal(number as u8, Input::Request, place)?),
            22 => PlanAnswer::NotReached,
            _ => return None,
        };
        (answer.numbers() == numbers).then_some(answer)
    }

    /// The numbers of the row that say this answer: number, place, count and input.
    pub fn numbers(&self) -> [u32; ROW_NUMBERS] {
        [self.number().into(), self.place() as u32, self.count(), self.input().into()]
    }

    /// The answer is 0: the plan can be carried out, and reaches its goals, from every world that has the initial facts.
    #[must_use]
    pub fn is_verified(&self) -> bool {
        self.number() == 0
    }

    /// The plan can't be read, so that those behind it are not reached.
    fn fails_in_reading(self) -> bool {
        matches!(self, PlanAnswer::Refused(answer) if answer.number() != 18)
    }

    /// The answer's number.
    pub fn number(&self) -> u8 {
        match self {
            PlanAnswer::Verified { .. } => 0,
            PlanAnswer::GoalMissed { .. } => 1,
            PlanAnswer::NotExecutable { .. } => 2,
            PlanAnswer::BudgetSpent { .. } => 3,
            PlanAnswer::Refused(answer) => answer.number(),
            PlanAnswer::NotReached => 22,
        }
    }

    /// The place in the release file, which is 0 for the answers that have none.
    pub fn place(&self) -> usize {
        match *self {
            PlanAnswer::GoalMissed { place, .. } | PlanAnswer::NotExecutable { place, .. } => place,
            PlanAnswer::Refused(answer) => answer.place(),
            PlanAnswer::Verified { .. } | PlanAnswer::BudgetSpent { .. } | PlanAnswer::NotReached => 0,
        }
    }

    /// The count: the walk's, or the budget where it is spent, and 0 for refusals and for a plan that is not reached.
    pub fn count(&self) -> u32 {
        match *self {
            PlanAnswer::Verified { count } | PlanAnswer::GoalMissed { count, .. } | PlanAnswer::NotExecutable { count, .. } => count,
            PlanAnswer::BudgetSpent { budget } => budget,
            PlanAnswer::Refused(_) | PlanAnswer::NotReached => 0,
        }
    }

    /// The input that the answer names: 1 the release file, 0 none.
    pub fn input(&self) -> u8 {
        match self {
            PlanAnswer::Verified { .. } | PlanAnswer::BudgetSpent { .. } | PlanAnswer::NotReached => 0,
            PlanAnswer::GoalMissed { .. } | PlanAnswer::NotExecutable { .. } => 1,
            PlanAnswer::Refused(answer) => answer.input(),
        }
    }

    /// What the answer says, in a few words.
    pub fn words(&self) -> &'static str {
        words_of(self.number())
    }
}

impl fmt::Display for PlanAnswer {
    fn fmt(&self, out: &mut fmt::Formatter<'_>) -> fmt::Result {
        write!(out, "{} ({}, place {}, count {})", self.words(), self.number(), self.place(), self.count())
    }
}

/// A release of which not every plan is verified, as an error.
#[derive(Clone, Copy, Debug, PartialEq, Eq, Hash)]
pub enum NotReleased {
    /// The file is refused as a whole, by this answer.
    Refused(Answer),
    /// The first plan that is not verified, counted from 0, and its answer.
    Plan(usize, PlanAnswer),
}

impl fmt::Display for NotReleased {
    fn fmt(&self, out: &mut fmt::Formatter<'_>) -> fmt::Result {
        let (number, place, input) = match self {
            NotReleased::Refused(answer) => {
                write!(out, "not released: {}", answer.words())?;
                (answer.number(), answer.place(), answer.input())
            }
            NotReleased::Plan(plan, answer) => {
                write!(out, "not released: plan {plan}: {}", answer.words())?;
                (answer.number(), answer.place(), answer.input())
            }
        };
        match input {
            0 => write!(out, " (answer {number}, no place)"),
            _ => write!(out, " (answer {number}, place {place} of the release file)"),
        }
    }
}

impl error::Error for NotReleased {}
