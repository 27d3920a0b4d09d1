//! What the derive call gives (docs/FORMAT.md, section 24).

use std::{error, fmt};

use crate::answer::{strange, words_of};
use crate::{Answer, Input, Packed, DERIVATION_LIMIT};

/// Bytes of the shortest derivation that the derive call writes: nothing is known, the plan is empty, and there are no goals.
const SHORTEST: usize = 16;

/// An answer of the derive call other than 0, as an error: no derivation is written. A state is not given: the walk call gives it.
///
/// A number keeps its meaning from one version to the next, and a version may have numbers that the one before did not.
#[non_exhaustive]
#[derive(Clone, Copy, Debug, PartialEq, Eq, Hash)]
pub enum NotDerived {
    /// 1: all paths can be run to their ends, and at least one end state misses a goal.
    GoalMissed {
        /// The first goal missed in the first end state that misses any.
        place: usize,
        /// Actions run and end states judged.
        count: u32,
    },
    /// 2: a path comes to an item that cannot be run.
    NotExecutable {
        /// That item.
        place: usize,
        /// Actions run and end states judged before it.
        count: u32,
    },
    /// 3: the walk counts to more than the budget.
    BudgetSpent {
        /// The budget that was given.
        budget: u32,
    },
    /// 10 to 21 and 30: the request is refused. Or 37 to 39: the walk verifies the plan, and its derivation is refused.
    Refused(Answer),
}

impl Answer {
    /// Takes an answer of the derive call apart; `room` is what the lent room is after the call. It gives the derivation, with which the room starts after
    /// answer 0.
    ///
    /// # Errors
    ///
    /// Every answer other than 0. The error says its words, number and place.
    ///
    /// # Panics
    ///
    /// Where the number is none of the derive call's, where input, place and count do not go with it, or where no derivation has so many bytes or the room has
    /// fewer. The proved library gives no such answer.
    pub fn unpack_derive(packed: Packed, room: &[u8]) -> Result<&[u8], NotDerived> {
        let (place, count) = (packed.place(), packed.count());
        let length = count as usize;
        let is_length = (SHORTEST..=DERIVATION_LIMIT.min(room.len())).contains(&length);
        let other = match packed.number() {
            0 if is_length && packed == Packed(u64::from(count) << 32) => return Ok(&room[..length]),
            1 => NotDerived::GoalMissed { place, count },
            2 => NotDerived::NotExecutable { place, count },
            3 => NotDerived::BudgetSpent { budget: count },
            30 => NotDerived::Refused(Answer::WhetherAsked { place }),
            37 => NotDerived::Refused(Answer::SensingTooWide { place }),
            38 => NotDerived::Refused(Answer::TooManyLines),
            39 => NotDerived::Refused(Answer::RoomShort),
            number => NotDerived::Refused(Answer::refusal(number, Input::Request, place).unwrap_or_else(|| strange(packed))),
        };
        if other.packed() != packed {
            strange(packed);
        }
        Err(other)
    }
}

impl NotDerived {
    /// The answer as the exported call packs it.
    pub fn packed(&self) -> Packed {
        let in_request = |number: u64, place: usize, count: u32| Packed(number + (1 << 8) + ((place as u64) << 16) + (u64::from(count) << 32));
        match *self {
            NotDerived::GoalMissed { place, count } => in_request(1, place, count),
            NotDerived::NotExecutable { place, count } => in_request(2, place, count),
            NotDerived::BudgetSpent { budget } => Answer::BudgetSpent { budget }.packed(),
            NotDerived::Refused(answer) => answer.packed(),
        }
    }

    /// The answer's number.
    pub fn number(&self) -> u8 {
        self.packed().number()
    }

    /// The place in the request, which is 0 for the answers that have none.
    pub fn place(&self) -> usize {
        self.packed().place()
    }

    /// The count: the walk's, or the budget where it is spent, and 0 for refusals.
    pub fn count(&self) -> u32 {
        self.packed().count()
    }

    /// The input that the answer names: 1 the request, 0 none.
    pub fn input(&self) -> u8 {
        self.packed().input()
    }

    /// What the answer says, in a few words.
    pub fn words(&self) -> &'static str {
        words_of(self.number())
    }
}

impl From<NotDerived> for Packed {
    fn from(other: NotDerived) -> Packed {
        other.packed()
    }
}

impl fmt::Display for NotDerived {
    fn fmt(&self, out: &mut fmt::Formatter<'_>) -> fmt::Result {
        write!(out, "not derived: {} (answer {}, ", self.words(), self.number())?;
        match self.input() {
            0 => write!(out, "no place)"),
            _ => write!(out, "place {} of the request)", self.place()),
        }
    }
}

impl error::Error for NotDerived {}
