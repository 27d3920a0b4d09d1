//! Answers with the format's names (docs/FORMAT.md, sections 4, 17, 21 to 24 and 26).

use std::{error, fmt};

use crate::{Values, INDEX_MOST, STATE_LENGTH};

/// An answer packed into one number: number + 2^8 * input + 2^16 * place + 2^32 * count.
#[must_use = "only number 0 lets a plan pass"]
#[derive(Clone, Copy, Debug, PartialEq, Eq, Hash)]
pub struct Packed(pub u64);

impl Packed {
    /// The answer's number.
    pub fn number(self) -> u8 {
        self.0 as u8
    }

    /// The input that the place is in: 1 the request, 2 the derivation, 3 the index, 0 none. An answer made by hand may have another number here.
    pub fn input(self) -> u8 {
        (self.0 >> 8) as u8
    }

    /// The number of bytes that stand before the place in its input.
    pub fn place(self) -> usize {
        usize::from((self.0 >> 16) as u16)
    }

    /// The count.
    pub fn count(self) -> u32 {
        (self.0 >> 32) as u32
    }
}

/// The input that a place is in.
#[derive(Clone, Copy, Debug, PartialEq, Eq, Hash)]
pub enum Input {
    /// The request, 1.
    Request,
    /// The derivation, 2.
    Derivation,
    /// The index, 3.
    Index,
}

impl fmt::Display for Input {
    fn fmt(&self, out: &mut fmt::Formatter<'_>) -> fmt::Result {
        out.write_str(match self {
            Input::Request => "request",
            Input::Derivation => "derivation",
            Input::Index => "index",
        })
    }
}

/// What is known of a fluent in a partial state.
#[derive(Clone, Copy, Debug, PartialEq, Eq, Hash)]
pub enum Mark {
    /// Unknown, byte 0.
    Unknown,
    /// Known true, byte 1.
    True,
    /// Known false, byte 2.
    False,
}

/// A partial state: a mark for each of 128 fluents. Those that the request does not have are unknown.
#[derive(Clone, Copy, Debug, PartialEq, Eq, Hash)]
pub struct State([Mark; STATE_LENGTH]);

impl State {
    /// The marks that the lent bytes have after an answer that wrote them; none where these are no such bytes.
    pub fn from_bytes(bytes: &[u8]) -> Option<State> {
        let mut marks = [Mark::Unknown; STATE_LENGTH];
        if bytes.len() != STATE_LENGTH {
            return None;
        }
        for (mark, byte) in marks.iter_mut().zip(bytes) {
            *mark = match byte {
                0 => Mark::Unknown,
                1 => Mark::True,
                2 => Mark::False,
                _ => return None,
            };
        }
        Some(State(marks))
    }

    /// The lent bytes that say this state.
    pub fn bytes(&self) -> [u8; STATE_LENGTH] {
        self.0.map(|mark| match mark {
            Mark::Unknown => 0,
            Mark::True => 1,
            Mark::False => 2,
        })
    }

    /// The marks of fluents 0 to 127.
    pub fn marks(&self) -> &[Mark; STATE_LENGTH] {
        &self.0
    }

    /// One character for each of the first fluents: `?` for unknown, `+` for true, `-` for false.
    pub fn line(&self, fluents: usize) -> String {
        let character = |mark: &Mark| match mark {
            Mark::Unknown => '?',
            Mark::True => '+',
            Mark::False => '-',
        };
        self.0.iter().take(fluents).map(character).collect()
    }
}

/// An answer of the walk call, the guarded call, the call by cases, the indexed call, the values call, the derivation call or the whether call, or what the
/// release call says of its file as a whole, or another answer of the index call than 0, or one by which the derive call refuses. A place is the number of bytes
/// that stand before it in its input: the derivation for 31 to 36, the index for 45, the request or the derivation where the answer says which, and the request
/// for all others. To the release call its file is the request.
///
/// A number keeps its meaning from one version to the next, and a version may have numbers that the one before did not.
#[must_use = "an answer other than 0 says that the plan is not to pass: see `is_verified` and `verified`"]
#[non_exhaustive]
#[derive(Clone, Copy, Debug, PartialEq, Eq, Hash)]
pub enum Answer {
    /// 0 of the walk call, of the guarded call, of the call by cases, of the indexed call and of the values call: the walk verifies the plan.
    Verified {
        /// Actions run and end states judged.
        count: u32,
    },
    /// 0 of the derivation call and of the whether call: the derivation is accepted.
    Accepted,
    /// 1: all paths can be run to their ends, and at least one end state misses a goal or a whether entry.
    GoalMissed {
        /// The first entry missed in the first end state that misses any.
        place: usize,
        /// Actions run and end states judged.
        count: u32,
        /// That end state.
        state: State,
    },
    /// 2: a path comes to an item that cannot be run.
    NotExecutable {
        /// That item.
        place: usize,
        /// Actions run and end states judged before it.
        count: u32,
        /// The state in which it could not be run.
        state: State,
    },
    /// 1 of the values call: the same as [`Answer::GoalMissed`], with values in the state.
    GoalMissedWithValues {
        /// The first entry missed in the first end state that misses any.
        place: usize,
        /// Actions run and end states judged.
        count: u32,
        /// That end state.
        values: Values,
    },
    /// 2 of the values call: the same as [`Answer::NotExecutable`], with values in the state.
    NotExecutableWithValues {
        /// That item.
        place: usize,
        /// Actions run and end states judged before it.
        count: u32,
        /// The state in which it could not be run.
        values: Values,
    },
    /// 3: the walk counts to more than the budget.
    BudgetSpent {
        /// The budget that was given.
        budget: u32,
    },
    /// 9: the lent state has another length than 128 bytes, or, of the release call itself, the lent row has another length than four numbers for
    /// each plan.
    StateLength,
    /// 10: the request or the release file has more than 16,384 bytes, or the derivation more than 32,768.
    TooLong {
        /// The one that is too long.
        input: Input,
    },
    /// 11: the input ends where a byte is due.
    InputEnds {
        /// The one that ends.
        input: Input,
        /// Its length.
        place: usize,
    },
    /// 12: a count is not within its limits.
    CountNotWithinLimits {
        /// The one that has it.
        input: Input,
        /// The count's byte.
        place: usize,
    },
    /// 13: a byte is too large for the fluent, literal, value or action it stands for.
    TooLarge {
        /// The one that has it.
        input: Input,
        /// That byte.
        place: usize,
    },
    /// 14: a list's entry is not larger than its predecessor.
    NotLarger {
        /// The one that has it.
        input: Input,
        /// That byte.
        place: usize,
    },
    /// 15: an entry of a list of literals is its predecessor's complement, or of a values request: with those before it, it leaves its fluent no value.
    Complement {
        /// The one that has it.
        input: Input,
        /// That byte.
        place: usize,
    },
    /// 16: two effects are contradictory.
    Contradictory {
        /// The later of the two, and of all such the earliest.
        place: usize,
    },
    /// 17: effect lines and knowledge lines exist for one and the same action.
    EffectsAndKnowledge {
        /// The first knowledge line of which this is true.
        place: usize,
    },
    /// 18: a branching has two conditions that are not exclusive.
    NotExclusive {
        /// The one that has it.
        input: Input,
        /// Byte 255 of the earliest such branching.
        place: usize,
    },
    /// 19: a branching stands inside eight others.
    TooDeep {
        /// The one that has it.
        input: Input,
        /// Its byte 255.
        place: usize,
    },
    /// 20: bytes are left over when the request's last section, the derivation's last line or closing list, or the release file's last plan is read.
    BytesLeftOver {
        /// The one that has it.
        input: Input,
        /// The first byte left over.
        place: usize,
    },
    /// 21: a plan goes on to a 1,025th item.
    TooManyItems {
        /// The one that has it.
        input: Input,
        /// That item's first byte.
        place: usize,
    },
    /// 30: a derivation is offered, or asked for, for a request with whether entries.
    WhetherAsked {
        /// The count byte of the whether list, in the request.
        place: usize,
    },
    /// 31: a line's rule byte is none of 1 to 6, or in the whether call none of 1 to 8 and 10 to 12.
    NoRule {
        /// The line.
        place: usize,
    },
    /// 32: a line cites something that is not a line before it.
    CitesNoEarlierLine {
        /// The citing line.
        place: usize,
    },
    /// 33: a line has a number of citations that its rule does not take.
    CitationsWrong {
        /// The line.
        place: usize,
    },
    /// 34: a line does not follow by its rule.
    DoesNotFollow {
        /// The line.
        place: usize,
    },
    /// 35: the last line differs from the question.
    NotTheQuestion {
        /// The last line.
        place: usize,
    },
    /// 36: the closing list is not what the request asks.
    ClosingNotRight {
        /// Its count byte where its length is another; or else its first entry that names no line, or another line than it is to name.
        place: usize,
    },
    /// 37 of the derive call: a sensing action is met in a state in which more of its fluents are unknown than [`MOST_FORKED`](crate::MOST_FORKED), so that no
    /// line can cite all its readings.
    SensingTooWide {
        /// The first such item, in the order of the walk.
        place: usize,
    },
    /// 38 of the derive call: the derivation has more than 1,024 lines.
    TooManyLines,
    /// 39 of the index call: the lent room has fewer bytes than the index. [`index`](crate::index) lends enough, so that
    /// [`index_packed`](crate::index_packed) alone gives it. 39 of the derive call: the derivation has more bytes than the lent room, or more than
    /// [`DERIVATION_LIMIT`](crate::DERIVATION_LIMIT), which are as many as [`derive`](crate::derive) lends.
    RoomShort,
    /// 43 of the guarded call: a state is met that lacks a guard, one that is not known true in it.
    GuardBroken {
        /// The first guard that it lacks.
        place: usize,
        /// Actions run and end states judged before it, the action that leads to it included.
        count: u32,
        /// That state.
        state: State,
    },
    /// 44 of the call by cases: an action is met that has more open fluents than [`MOST_OPEN`](crate::MOST_OPEN), which are the unknown ones in its bodies.
    TooManyCases {
        /// That item.
        place: usize,
    },
    /// 45 of the indexed call: the index is not that of the request.
    IndexDiffers {
        /// The first byte that differs, or the shorter of both lengths where they are the same so far.
        place: usize,
    },
    /// 46 of the values call: the literal of an effect says "is not", and not which value its fluent gets.
    SaysIsNot {
        /// The first byte of that literal.
        place: usize,
    },
}

impl Answer {
    /// Takes an answer of the walk call apart; `state` is what the lent bytes are after the call.
    ///
    /// # Panics
    ///
    /// Where the number is none of the walk call's, where input, place and count do not go with it, or where the state of answer 1 or 2
    /// is no state. The proved library gives no such answer.
    pub fn unpack(packed: Packed, state: &[u8]) -> Answer {
        let (place, count) = (packed.place(), packed.count());
        let written = || State::from_bytes(state).unwrap_or_else(|| strange(packed));
        let answer = match packed.number() {
            0 => Answer::Verified { count },
            1 => Answer::GoalMissed { place, count, state: written() },
            2 => Answer::NotExecutable { place, count, state: written() },
            3 => Answer::BudgetSpent { budget: count },
            9 => Answer::StateLength,
            number => Answer::refusal(number, Input::Request, place).unwrap_or_else(|| strange(packed)),
        };
        answer.if_packed(packed)
    }

    /// Takes an answer of the guarded call apart; `state` is what the lent bytes are after the call.
    ///
    /// # Panics
    ///
    /// Where [`Answer::unpack`] does, but for number 43, and where the state of 43 is no state. The proved library gives no such answer.
    pub fn unpack_guarded(packed: Packed, state: &[u8]) -> Answer {
        match packed.number() {
            43 => {
                let state = State::from_bytes(state).unwrap_or_else(|| strange(packed));
                Answer::GuardBroken { place: packed.place(), count: packed.count(), state }.if_packed(packed)
            }
            _ => Answer::unpack(packed, state),
        }
    }

    /// Takes an answer of the call by cases apart; `state` is what the lent bytes are after the call.
    ///
    /// # Panics
    ///
    /// Where [`Answer::unpack`] does, but for number 44, and where input and count do not go with 44. The proved library gives no such answer.
    pub fn unpack_by_cases(packed: Packed, state: &[u8]) -> Answer {
        match packed.number() {
            44 => Answer::TooManyCases { place: packed.place() }.if_packed(packed),
            _ => Answer::unpack(packed, state),
        }
    }

    /// Takes an answer of the indexed call apart; `state` is what the lent bytes are after the call.
    ///
    /// # Panics
    ///
    /// Where [`Answer::unpack`] does, but for number 45, and where input and count do not go with 45. The proved library gives no such answer.
    pub fn unpack_indexed(packed: Packed, state: &[u8]) -> Answer {
        match packed.number() {
            45 => Answer::IndexDiffers { place: packed.place() }.if_packed(packed),
            _ => Answer::unpack(packed, state),
        }
    }

    /// Takes an answer of the index call apart; `room` is what the lent room is after the call. It gives the index, with which the room starts after answer 0.
    ///
    /// # Errors
    ///
    /// Every answer other than 0. The error has that answer, and says its words, number and place.
    ///
    /// # Panics
    ///
    /// Where the number is none of the index call's, where input, place and count do not go with it, where no index has so many bytes or the room has fewer, or
    /// where 39 is said of a room of [`INDEX_MOST`] bytes. The proved library gives no such answer.
    pub fn unpack_index(packed: Packed, room: &[u8]) -> Result<&[u8], NotIndexed> {
        let length = packed.count() as usize;
        // An index has two bytes for each action, of which there is one at least, and two for each line.
        let is_length = length % 2 == 0 && (2..=INDEX_MOST.min(room.len())).contains(&length);
        let answer = match packed.number() {
            0 if is_length && packed == Packed(u64::from(packed.count()) << 32) => return Ok(&room[..length]),
            39 if room.len() < INDEX_MOST => Answer::RoomShort,
            number => Answer::refusal(number, Input::Request, packed.place()).unwrap_or_else(|| strange(packed)),
        };
        Err(NotIndexed(answer.if_packed(packed)))
    }

    /// Takes an answer of the derivation call apart.
    ///
    /// # Panics
    ///
    /// Where the number is none of the derivation call's, or where input, place and count do not go with it. The proved library gives no
    /// such answer.
    pub fn unpack_checked(packed: Packed) -> Answer {
        let place = packed.place();
        let input = if packed.input() == 2 { Input::Derivation } else { Input::Request };
        let answer = match packed.number() {
            0 => Some(Answer::Accepted),
            30 => Some(Answer::WhetherAsked { place }),
            31 => Some(Answer::NoRule { place }),
            32 => Some(Answer::CitesNoEarlierLine { place }),
            33 => Some(Answer::CitationsWrong { place }),
            34 => Some(Answer::DoesNotFollow { place }),
            35 => Some(Answer::NotTheQuestion { place }),
            number => Answer::refusal(number, input, place),
        };
        answer.unwrap_or_else(|| strange(packed)).if_packed(packed)
    }

    /// Takes an answer of the whether call apart.
    ///
    /// # Panics
    ///
    /// Where the number is none of the whether call's, or where input, place and count do not go with it. The proved library gives no such
    /// answer.
    pub fn unpack_whether(packed: Packed) -> Answer {
        match packed.number() {
            30 | 35 => strange(packed),
            36 => Answer::ClosingNotRight { place: packed.place() }.if_packed(packed),
            _ => Answer::unpack_checked(packed),
        }
    }

    /// The answers 10 to 21, which say that an input is not of the format.
    pub(crate) fn refusal(number: u8, input: Input, place: usize) -> Option<Answer> {
        Some(match number {
            10 => Answer::TooLong { input },
            11 => Answer::InputEnds { input, place },
            12 => Answer::CountNotWithinLimits { input, place },
            13 => Answer::TooLarge { input, place },
            14 => Answer::NotLarger { input, place },
            15 => Answer::Complement { input, place },
            16 => Answer::Contradictory { place },
            17 => Answer::EffectsAndKnowledge { place },
            18 => Answer::NotExclusive { input, place },
            19 => Answer::TooDeep { input, place },
            20 => Answer::BytesLeftOver { input, place },
            21 => Answer::TooManyItems { input, place },
            _ => return None,
        })
    }

    /// The answer, where it is just what was packed.
    pub(crate) fn if_packed(self, packed: Packed) -> Answer {
        if self.packed() != packed {
            strange(packed);
        }
        self
    }

    /// The answer is 0: the plan is verified by its walk, or by the derivation, which is accepted.
    ///
    /// Then it can be carried out, and reaches its goals, from every world that has the initial facts; after the guarded call the guards hold all the
    /// way. Of no other answer is that said.
    #[must_use]
    pub fn is_verified(&self) -> bool {
        self.number() == 0
    }

    /// The same as a `Result`, for `?`.
    ///
    /// # Errors
    ///
    /// Every answer other than 0. The error has that answer, and says its words, number and place.
    pub fn verified(self) -> Result<(), NotVerified> {
        if self.is_verified() {
            Ok(())
        } else {
            Err(NotVerified(self))
        }
    }

    /// The answer as the exported call packs it.
    pub fn packed(&self) -> Packed {
        let [number, input] = [self.number(), self.input()].map(u64::from);
        Packed(number + (input << 8) + ((self.place() as u64) << 16) + (u64::from(self.count()) << 32))
    }

    /// The answer's number.
    pub fn number(&self) -> u8 {
        match self {
            Answer::Verified { .. } | Answer::Accepted => 0,
            Answer::GoalMissed { .. } | Answer::GoalMissedWithValues { .. } => 1,
            Answer::NotExecutable { .. } | Answer::NotExecutableWithValues { .. } => 2,
            Answer::BudgetSpent { .. } => 3,
            Answer::StateLength => 9,
            Answer::TooLong { .. } => 10,
            Answer::InputEnds { .. } => 11,
            Answer::CountNotWithinLimits { .. } => 12,
            Answer::TooLarge { .. } => 13,
            Answer::NotLarger { .. } => 14,
            Answer::Complement { .. } => 15,
            Answer::Contradictory { .. } => 16,
            Answer::EffectsAndKnowledge { .. } => 17,
            Answer::NotExclusive { .. } => 18,
            Answer::TooDeep { .. } => 19,
            Answer::BytesLeftOver { .. } => 20,
            Answer::TooManyItems { .. } => 21,
            Answer::WhetherAsked { .. } => 30,
            Answer::NoRule { .. } => 31,
            Answer::CitesNoEarlierLine { .. } => 32,
            Answer::CitationsWrong { .. } => 33,
            Answer::DoesNotFollow { .. } => 34,
            Answer::NotTheQuestion { .. } => 35,
            Answer::ClosingNotRight { .. } => 36,
            Answer::SensingTooWide { .. } => 37,
            Answer::TooManyLines => 38,
            Answer::RoomShort => 39,
            Answer::GuardBroken { .. } => 43,
            Answer::TooManyCases { .. } => 44,
            Answer::IndexDiffers { .. } => 45,
            Answer::SaysIsNot { .. } => 46,
        }
    }

    /// The input that the answer names: 1 the request, 2 the derivation, 0 neither.
    pub fn input(&self) -> u8 {
        match self.named() {
            None => 0,
            Some(Input::Request) => 1,
            Some(Input::Derivation) => 2,
            Some(Input::Index) => 3,
        }
    }

    /// The same by its name; none where the answer names none.
    pub fn named(&self) -> Option<Input> {
        match *self {
            Answer::Verified { .. }
            | Answer::Accepted
            | Answer::BudgetSpent { .. }
            | Answer::StateLength
            | Answer::TooManyLines
            | Answer::RoomShort => None,
            Answer::TooLong { input }
            | Answer::InputEnds { input, .. }
            | Answer::CountNotWithinLimits { input, .. }
            | Answer::TooLarge { input, .. }
            | Answer::NotLarger { input, .. }
            | Answer::Complement { input, .. }
            | Answer::NotExclusive { input, .. }
            | Answer::TooDeep { input, .. }
            | Answer::BytesLeftOver { input, .. }
            | Answer::TooManyItems { input, .. } => Some(input),
            Answer::GoalMissed { .. }
            | Answer::NotExecutable { .. }
            | Answer::GoalMissedWithValues { .. }
            | Answer::NotExecutableWithValues { .. }
            | Answer::GuardBroken { .. }
            | Answer::TooManyCases { .. }
            | Answer::SaysIsNot { .. }
            | Answer::Contradictory { .. }
            | Answer::EffectsAndKnowledge { .. }
            | Answer::WhetherAsked { .. }
            | Answer::SensingTooWide { .. } => Some(Input::Request),
            Answer::NoRule { .. }
            | Answer::CitesNoEarlierLine { .. }
            | Answer::CitationsWrong { .. }
            | Answer::DoesNotFollow { .. }
            | Answer::NotTheQuestion { .. }
            | Answer::ClosingNotRight { .. } => Some(Input::Derivation),
            Answer::IndexDiffers { .. } => Some(Input::Index),
        }
    }

    /// The place, which is 0 for the answers that have none.
    pub fn place(&self) -> usize {
        match *self {
            Answer::Verified { .. }
            | Answer::Accepted
            | Answer::BudgetSpent { .. }
            | Answer::StateLength
            | Answer::TooManyLines
            | Answer::RoomShort
            | Answer::TooLong { .. } => 0,
            Answer::GoalMissed { place, .. }
            | Answer::NotExecutable { place, .. }
            | Answer::GoalMissedWithValues { place, .. }
            | Answer::NotExecutableWithValues { place, .. }
            | Answer::GuardBroken { place, .. }
            | Answer::TooManyCases { place }
            | Answer::SaysIsNot { place }
            | Answer::IndexDiffers { place }
            | Answer::InputEnds { place, .. }
            | Answer::CountNotWithinLimits { place, .. }
            | Answer::TooLarge { place, .. }
            | Answer::NotLarger { place, .. }
            | Answer::Complement { place, .. }
            | Answer::Contradictory { place }
            | Answer::EffectsAndKnowledge { place }
            | Answer::NotExclusive { place, .. }
            | Answer::TooDeep { place, .. }
            | Answer::BytesLeftOver { place, .. }
            | Answer::TooManyItems { place, .. }
            | Answer::WhetherAsked { place }
            | Answer::NoRule { place }
            | Answer::CitesNoEarlierLine { place }
            | Answer::CitationsWrong { place }
            | Answer::DoesNotFollow { place }
            | Answer::NotTheQuestion { place }
            | Answer::ClosingNotRight { place }
            | Answer::SensingTooWide { place } => place,
        }
    }

    /// The count: the walk's, or the budget where it is spent, and 0 for refusals, for too many cases, for an index that differs and for an accepted derivation.
    pub fn count(&self) -> u32 {
        match *self {
            Answer::Verified { count } => count,
            Answer::GoalMissed { count, .. } | Answer::NotExecutable { count, .. } | Answer::GuardBroken { count, .. } => count,
            Answer::GoalMissedWithValues { count, .. } | Answer::NotExecutableWithValues { count, .. } => count,
            Answer::BudgetSpent { budget } => budget,
            _ => 0,
        }
    }

    /// The state that goes with answers 1, 2 and 43, of every call but the values call.
    pub fn state(&self) -> Option<&State> {
        match self {
            Answer::GoalMissed { state, .. } | Answer::NotExecutable { state, .. } | Answer::GuardBroken { state, .. } => Some(state),
            _ => None,
        }
    }

    /// The state that goes with answers 1 and 2 of the values call.
    pub fn values(&self) -> Option<&Values> {
        match self {
            Answer::GoalMissedWithValues { values, .. } | Answer::NotExecutableWithValues { values, .. } => Some(values),
            _ => None,
        }
    }

    /// What the answer says, in a few words.
    pub fn words(&self) -> &'static str {
        match self {
            Answer::Accepted => "accepted",
            _ => words_of(self.number()),
        }
    }
}

/// What a number says, as `glintstring_words` of the C header has it.
pub(crate) fn words_of(number: u8) -> &'static str {
    match number {
        0 => "verified",
        1 => "goal missed",
        2 => "not executable",
        3 => "budget spent",
        9 => "the lent state or row has another length than it is to have",
        10 => "too long",
        11 => "the input ends where a byte is due",
        12 => "a count is not within its limits",
        13 => "a fluent, literal or action is too large",
        14 => "an entry is not larger than its predecessor",
        15 => "an entry is its predecessor's complement",
        16 => "two effects are contradictory",
        17 => "an action has effects and knowledge lines",
        18 => "two conditions are not exclusive",
        19 => "a branching stands inside eight others",
        20 => "bytes are left over",
        21 => "a plan has too many items",
        22 => "not reached",
        30 => "a derivation for a request with whether entries",
        31 => "a line has no rule",
        32 => "a line cites what is no line before it",
        33 => "a line has a number of citations that its rule does not take",
        34 => "a line does not follow by its rule",
        35 => "the last line differs from the question",
        36 => "the closing list is not what the request asks",
        37 => "too many readings",
        38 => "too many lines",
        39 => "room too short",
        43 => "guard broken",
        44 => "too many cases",
        45 => "index differs",
        46 => "effect that says is not",
        _ => "no answer that the format has",
    }
}

impl From<Answer> for Packed {
    fn from(answer: Answer) -> Packed {
        answer.packed()
    }
}

impl fmt::Display for Answer {
    fn fmt(&self, out: &mut fmt::Formatter<'_>) -> fmt::Result {
        write!(out, "{} ({}, place {}", self.words(), self.number(), self.place())?;
        if let Some(input @ (Input::Derivation | Input::Index)) = self.named() {
            write!(out, " of the {input}")?;
        }
        write!(out, ", count {})", self.count())
    }
}

/// What the walk call gives with the line: the answer, and the line that it carries.
#[must_use = "an answer other than 0 says that the plan is not to pass"]
#[derive(Clone, Copy, Debug, PartialEq, Eq, Hash)]
pub struct Judged {
    /// The answer.
    pub answer: Answer,
    /// In [`Answer::NotExecutable`] at an action, the place in the request of one of its executability lines: of all of them none has fewer
    /// literals in its body that are not known true in the state of the answer, and none before it has as few. None where the action has no
    /// such line, where the item is a branching, and in every other answer.
    pub line: Option<usize>,
}

impl Judged {
    /// Takes an answer of the walk call apart, with the line beside it; `state` is what the lent bytes are after the call.
    ///
    /// # Panics
    ///
    /// Where [`Answer::unpack`] does, and where an answer other than 2 carries a line, or one that does not come before the item. The proved
    /// library gives no such line.
    pub fn unpack(packed: Packed, state: &[u8], line: u32) -> Judged {
        let answer = Answer::unpack(packed, state);
        let place = usize::try_from(line).unwrap_or_else(|_| strange(packed));
        if place != 0 && !(answer.number() == 2 && place < answer.place()) {
            strange(packed);
        }
        Judged { answer, line: (place != 0).then_some(place) }
    }
}

/// An error that has an answer other than 0, and says what is not so and the answer's words, number and place.
macro_rules! error_of_answer {
    ($(#[$doc:meta])* $name:ident, $said:literal) => {
        $(#[$doc])*
        #[derive(Clone, Copy, Debug, PartialEq, Eq, Hash)]
        pub struct $name(Answer);

        impl $name {
            /// The answer.
            pub fn answer(&self) -> Answer {
                self.0
            }
        }

        impl fmt::Display for $name {
            fn fmt(&self, out: &mut fmt::Formatter<'_>) -> fmt::Result {
                let $name(answer) = self;
                write!(out, concat!($said, ": {} (answer {}, "), answer.words(), answer.number())?;
                match answer.named() {
                    None => write!(out, "no place)"),
                    Some(input) => write!(out, "place {} of the {input})", answer.place()),
                }
            }
        }

        impl error::Error for $name {}
    };
}

error_of_answer! {
    /// An answer other than 0, as an error.
    NotVerified, "not verified"
}

error_of_answer! {
    /// An answer of the index call other than 0, as an error.
    NotIndexed, "not indexed"
}

pub(crate) fn strange(packed: Packed) -> ! {
    let (number, input, place, count) = (packed.number(), packed.input(), packed.place(), packed.count());
    panic!("the library linked is not the proved one: number {number}, input {input}, place {place}, count {count} and any lent state are no answer")
}
