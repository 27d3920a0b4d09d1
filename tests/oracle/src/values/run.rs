//! A run of values calls: each answer against a second walk, the walk call where every fluent has two values,
//! the worlds and what is certain of it, and the tallies.

use super::call::{judge_values, open_valued};
use super::calls::values_call;
use super::literal::{left, Literal};
use super::translate::{names_twice, plain_of, some_list, spelled};
use super::walk::{walk, State};
use super::{again, tree, worlds, Valued};
use crate::answer::Answer;
use crate::calls::{judge_call, JudgeCall, Left};
use crate::encode::{encode_request, encode_valued, Encoded, Kind};
use crate::form::Form;
use crate::model::{Item, Request};
use crate::reader::{
    last_of_valued, read_request, read_valued, Part, BODY_LIMIT, BRANCHING, FLUENT_LIMIT,
    LIST_LIMIT, REQUEST_LIMIT,
};
use crate::rng::Rng;
use crate::run::{expect_bytes, expect_made, some_clash, told, LEAST_SHARE};
use crate::tally::{so, CarriedOut, Checked, Differences, Occurred, SecondWalks};
use crate::walk::Verdict;
use crate::{judge_line, STATE_LENGTH};

/// The answer to an effect that says what its fluent is not.
pub const SAYS_IS_NOT: u8 = 46;
/// The answers that a run must meet at least once.
pub const NUMBERS: [u8; 18] = [
    0,
    1,
    2,
    3,
    9,
    10,
    11,
    12,
    13,
    14,
    15,
    16,
    17,
    18,
    19,
    20,
    21,
    SAYS_IS_NOT,
];

/// What a call has been through, told from the call and its answer.
#[derive(Clone, Copy, Debug, PartialEq, Eq, PartialOrd, Ord)]
pub enum Event {
    /// 11 and 12 at the numbers of values: the bytes end, too few values, too many.
    ValuesEnd,
    TooFewValues,
    TooManyValues,
    /// 13 at the first byte of a literal, there also where it is the last byte of all, and at the second.
    FluentTooLarge,
    FluentTooLargeAtEnd,
    ValueTooLarge,
    /// 11 where the second byte of a literal is due.
    SecondMissing,
    /// 14 by the fluents of two literals, and by what they say of one fluent.
    FluentsNotAscending,
    SayingsNotAscending,
    /// 15 at an "is", at an "is not", and at one that two or more "is not" of its fluent stand before.
    NoneLeftByIs,
    NoneLeftByIsNot,
    NoneLeftByMany,
    /// 46 though the body is missing.
    SaysIsNotAtEnd,
    /// 16 though in no world both effects would happen: their bodies and the line only agree pair by pair.
    ContradictInNoWorld,
    /// From here on the walk is reached: two effects clash where their action can't be run; two conditions, or
    /// the bodies of two effects, are exclusive only by several literals of one of them together.
    ClashApart,
    ApartTogether,
    /// A list names a fluent twice; of a request in which every fluent has two values, some list does or none.
    NamedTwice,
    TwoValued,
    TwoValuedNamedTwice,
    /// A fluent of more than two values is known at the start by what it is not. One is unknown though the facts
    /// name it, and 1 is given for a goal that the facts say of one. A value is read that they exclude.
    KnownByIsNot,
    Forgotten,
    FactMissed,
    ExcludedRead,
    /// A fluent with three values or more is read, one with sixteen, and more fluents at once.
    ReadsThree,
    ReadsSixteen,
    ReadsSeveral,
    /// A branch is followed by a condition that says what a fluent is not.
    FollowedByIsNot,
    /// A fluent keeps its value though an effect that may happen sets it, which sets the same value; one loses its
    /// value; an effect happens whose body says several things of one fluent.
    KeptBySame,
    Lost,
    SetBySeveral,
    /// 2 at an action, and at a branching.
    StuckAtAction,
    StuckAtBranching,
    /// The count is the budget, and one more than the budget.
    JustEnough,
    OneTooFew,
    /// As many literals in a body as there may be, as many facts, as many fluents.
    FullBody,
    MostFacts,
    MostFluents,
}

impl Event {
    pub const ALL: [Event; 37] = [
        Event::ValuesEnd,
        Event::TooFewValues,
        Event::TooManyValues,
        Event::FluentTooLarge,
        Event::FluentTooLargeAtEnd,
        Event::ValueTooLarge,
        Event::SecondMissing,
        Event::FluentsNotAscending,
        Event::SayingsNotAscending,
        Event::NoneLeftByIs,
        Event::NoneLeftByIsNot,
        Event::NoneLeftByMany,
        Event::SaysIsNotAtEnd,
        Event::ContradictInNoWorld,
        Event::ClashApart,
        Event::ApartTogether,
        Event::NamedTwice,
        Event::TwoValued,
        Event::TwoValuedNamedTwice,
        Event::KnownByIsNot,
        Event::Forgotten,
        Event::FactMissed,
        Event::ExcludedRead,
        Event::ReadsThree,
        Event::ReadsSixteen,
        Event::ReadsSeveral,
        Event::FollowedByIsNot,
        Event::KeptBySame,
        Event::Lost,
        Event::SetBySeveral,
        Event::StuckAtAction,
        Event::StuckAtBranching,
        Event::JustEnough,
        Event::OneTooFew,
        Event::FullBody,
        Event::MostFacts,
        Event::MostFluents,
    ];
}

/// The events of a call.
pub fn events(request: &[u8], budget: u32, answer: Answer) -> Vec<Event> {
    so(match answer.number {
        0..=3 => match open_valued(request) {
            Ok(valued) => [
                of_request(&valued),
                of_facts(&valued, answer),
                of_walk(&valued, request, budget, answer),
            ]
            .concat(),
            Err(_) => Vec::new(),
        },
        11..=15 | SAYS_IS_NOT => of_reading(request, answer),
        16 => vec![(meets_nowhere(request), Event::ContradictInNoWorld)],
        _ => Vec::new(),
    })
}

fn of_reading(request: &[u8], answer: Answer) -> Vec<(bool, Event)> {
    let place = answer.place as usize;
    let (part, within) = last_of_valued(request);
    let number = |number| answer.number == number;
    let sizes = |wanted| number(wanted) && part == Part::Values;
    let byte = |place: usize| request.get(place).copied().unwrap_or(0);
    let first = number(13) && within == Some(place);
    let second = within.is_some_and(|literal| literal + 1 == place);
    let ends = place + 1 == request.len();
    let says = |place: usize| byte(place + 1) % 2;
    // The literal so many before that at the place is of the same fluent and says "is not".
    let is_not = |before: usize| {
        let other = place.saturating_sub(2 * before);
        byte(other) == byte(place) && says(other) == 1
    };
    let named_again = byte(place) == byte(place.saturating_sub(2));
    let literals = number(14) && part != Part::Whether;
    vec![
        (sizes(11), Event::ValuesEnd),
        (sizes(12) && byte(place) < 2, Event::TooFewValues),
        (sizes(12) && byte(place) > 16, Event::TooManyValues),
        (first, Event::FluentTooLarge),
        (first && ends, Event::FluentTooLargeAtEnd),
        (number(13) && second, Event::ValueTooLarge),
        (number(11) && second, Event::SecondMissing),
        (literals && !named_again, Event::FluentsNotAscending),
        (literals && named_again, Event::SayingsNotAscending),
        (number(15) && says(place) == 0, Event::NoneLeftByIs),
        (number(15) && is_not(0), Event::NoneLeftByIsNot),
        (
            number(15) && is_not(0) && is_not(1) && is_not(2),
            Event::NoneLeftByMany,
        ),
        (
            number(SAYS_IS_NOT) && place + 2 == request.len(),
            Event::SaysIsNotAtEnd,
        ),
    ]
}

/// In no world may an action be run whose effects would give a fluent two values.
fn meets_nowhere(request: &[u8]) -> bool {
    let Ok(valued) = read_valued(request) else {
        return false;
    };
    let worlds = worlds::all_worlds(&valued);
    worlds.is_some_and(|worlds| !worlds::effects_meet(&valued.request, &worlds))
}

fn of_request(valued: &Valued) -> Vec<(bool, Event)> {
    let request = &valued.request;
    let two = valued.values.iter().all(|&values| values == 2);
    let twice = some_list(request, names_twice);
    vec![
        (some_clash(&request.effects), Event::ClashApart),
        (some_together(request), Event::ApartTogether),
        (twice, Event::NamedTwice),
        (two && !twice, Event::TwoValued),
        (two && twice, Event::TwoValuedNamedTwice),
        (
            some_list(request, |list| list.len() == BODY_LIMIT),
            Event::FullBody,
        ),
        (request.facts.len() == LIST_LIMIT, Event::MostFacts),
        (
            usize::from(request.fluents) == FLUENT_LIMIT,
            Event::MostFluents,
        ),
    ]
}

/// Two lists are exclusive, and no literal of one with a literal of the other.
fn together(one: &[Literal], other: &[Literal]) -> bool {
    let single = |a: &Literal| other.iter().any(|b| Literal::exclusive(&[*a], &[*b]));
    Literal::exclusive(one, other) && !one.iter().any(single)
}

/// Some two conditions of a branching, or bodies of effects of one action, are so.
fn some_together(request: &Request<Literal>) -> bool {
    let effects = &request.effects;
    let of_effects = effects.iter().any(|one| {
        let mut others = effects.iter().filter(|other| other.action == one.action);
        others.any(|other| together(&one.body, &other.body))
    });
    of_effects || conditions_together(&request.plan)
}

fn conditions_together(sequence: &[Item<Literal>]) -> bool {
    sequence.iter().any(|item| match item {
        Item::Action { .. } => false,
        Item::Branching { branches, .. } => branches.iter().any(|branch| {
            let mut others = branches.iter();
            others.any(|other| together(&branch.condition, &other.condition))
                || conditions_together(&branch.sequence)
        }),
    })
}

fn of_facts(valued: &Valued, answer: Answer) -> Vec<(bool, Event)> {
    let request = &valued.request;
    let first = State::first(&request.facts);
    let named = |fluent: &u8| left(&request.facts, *fluent).is_some();
    let unknown = |fluent: u8| first.value(fluent).is_none();
    let by_is_not = |fluent: u8| {
        let mut said = request.facts.iter().filter(|fact| fact.fluent == fluent);
        valued.values[usize::from(fluent)] > 2
            && !unknown(fluent)
            && said.all(|fact| !fact.says_is())
    };
    let mut fluents = (0..request.fluents).filter(named);
    let forgotten = (0..request.fluents).any(|fluent| named(&fluent) && unknown(fluent));
    let place = answer.place as usize;
    let goal = place.checked_sub(request.goals_place + 1);
    let goal = goal.and_then(|index| request.goals.get(index / 2));
    let said = goal.is_some_and(|goal| request.facts.contains(goal) && unknown(goal.fluent));
    vec![
        (fluents.any(by_is_not), Event::KnownByIsNot),
        (forgotten, Event::Forgotten),
        (answer.number == 1 && said, Event::FactMissed),
    ]
}

fn of_walk(valued: &Valued, request: &[u8], budget: u32, answer: Answer) -> Vec<(bool, Event)> {
    let spent = answer.number == 3;
    let more = || walk(valued, budget.saturating_add(1));
    let mut all = vec![
        (spent && more() != Verdict::Over, Event::OneTooFew),
        (!spent && answer.count == budget, Event::JustEnough),
    ];
    if spent {
        return all;
    }
    let stuck = answer.number == 2;
    let branching = request.get(answer.place as usize) == Some(&BRANCHING);
    let seen = tree::answer(valued, budget).1;
    all.extend([
        (stuck && !branching, Event::StuckAtAction),
        (stuck && branching, Event::StuckAtBranching),
        (seen.excluded_read, Event::ExcludedRead),
        (seen.values_read >= 3, Event::ReadsThree),
        (seen.values_read == 16, Event::ReadsSixteen),
        (seen.fluents_read > 1, Event::ReadsSeveral),
        (seen.followed_by_is_not, Event::FollowedByIsNot),
        (seen.kept_by_same, Event::KeptBySame),
        (seen.lost, Event::Lost),
        (seen.set_by_several, Event::SetBySeveral),
    ]);
    all
}

/// How often each thing happened.
#[derive(Clone, Debug, Default)]
pub struct Tally {
    occurred: Occurred<Event>,
    second_walks: SecondWalks,
    carried_out: CarriedOut,
    moved_to_one: u64,
    matched: u64,
    spelled: u64,
    missed_though_reached: u64,
    stuck_though_reached: u64,
    differences: Differences,
}

/// Makes so many calls from a seed, and beside each a walk call whose request is said by values.
pub fn run(seed: u64, calls: u64) -> Tally {
    let mut tally = Tally::default();
    for index in 0..calls {
        let rng = &mut Rng::new(seed, 60, index);
        let call = values_call(rng);
        let made = tally.judge(&call).and_then(|()| tally.said_by_values(rng));
        if let Err(difference) = made {
            tally.differences.add(format!(
                "values request {index}: {difference}: {}",
                told(&call.request)
            ));
        }
    }
    tally
}

/// The values call made; its answer carries no line.
pub fn made(call: &JudgeCall) -> Left {
    call.made(|request, lent, budget| (judge_values(request, lent, budget), 0))
}

impl Tally {
    /// Notes a call with its answer.
    pub fn note(&mut self, request: &[u8], budget: u32, answer: Answer) {
        let events = events(request, budget, answer);
        self.occurred.note(answer.number, events);
    }

    /// Makes a values call and checks its answer.
    fn judge(&mut self, call: &JudgeCall) -> Result<(), String> {
        let left = made(call);
        let answer = left.answer;
        self.note(&call.request, call.budget, answer);
        expect_made(call, &left, None)?;
        if !matches!(answer.number, 0..=3 | 16..=18) {
            return Ok(());
        }
        let valued = read_valued(&call.request).map_err(|_| format!("answer {answer} unread"))?;
        let written = encode_valued(&valued);
        expect_bytes(&written.bytes, &call.request)?;
        expect_settled(&valued, answer)?;
        self.compare_meeting(&valued, answer)?;
        self.compare_plain(&valued, &written, call, &left)?;
        if answer.number > 3 {
            return Ok(());
        }
        let second = tree::answer(&valued, call.budget).0;
        let second = second.map(|told| (told.answer, 0, told.state.map(state_of)));
        self.second_walks.compare_left(second, &left)?;
        self.compare_worlds(&valued, answer)
    }

    /// Where 16 is not given, no action that may be run in a world would give a fluent two values there. With
    /// two values for each fluent it is given nowhere else.
    fn compare_meeting(&mut self, valued: &Valued, answer: Answer) -> Result<(), String> {
        let Some(worlds) = worlds::all_worlds(valued) else {
            return Ok(());
        };
        let meet = worlds::effects_meet(&valued.request, &worlds);
        let two = valued.values.iter().all(|&values| values == 2);
        match (answer.number == 16, meet) {
            (false, true) => Err(format!("answer {answer}, but effects meet in a world")),
            (true, false) if two => Err(format!("answer {answer}, but effects meet nowhere")),
            (refused, _) => {
                self.moved_to_one += u64::from(!refused);
                Ok(())
            }
        }
    }

    /// The plain request that matches gets the same number and count from the walk call, and leaves the same
    /// lent bytes. Its place is that of the same byte, but for the second bytes of literals.
    fn compare_plain(
        &mut self,
        valued: &Valued,
        written: &Encoded,
        call: &JudgeCall,
        left: &Left,
    ) -> Result<(), String> {
        let Some(plain) = plain_of(valued) else {
            return Ok(());
        };
        self.matched += 1;
        let plain = encode_request(&plain);
        let other = call.made(|_, lent, budget| judge_line(&plain.bytes, lent, budget));
        expect_alike(left, &other)?;
        match marked(written, left.answer) == marked(&plain, other.answer) {
            true => Ok(()),
            false => Err(format!("by the walk call {}", other.answer)),
        }
    }

    /// A walk call of any request, read and said by values, gets the same number and count from the values
    /// call, and leaves the same lent bytes.
    fn said_by_values(&mut self, rng: &mut Rng) -> Result<(), String> {
        let call = judge_call(rng);
        let left = call.made(judge_line);
        let Ok(request) = read_request(&call.request) else {
            return Ok(());
        };
        let valued = encode_valued(&spelled(rng, &request)).bytes;
        if left.answer.number == 9 || valued.len() > REQUEST_LIMIT {
            return Ok(());
        }
        self.spelled += 1;
        let judge = |_: &[u8], lent: &mut [u8], budget| (judge_values(&valued, lent, budget), 0);
        let alike = expect_alike(&call.made(judge), &left);
        alike.map_err(|difference| format!("{difference}, said by values: {}", told(&valued)))
    }

    /// A verified plan works in every true world; where 1 or 2 is given it may all the same.
    fn compare_worlds(&mut self, valued: &Valued, answer: Answer) -> Result<(), String> {
        let start = worlds::starting_worlds(valued);
        let enumerated = start.is_some();
        let reached = self.carried_out.note_where(enumerated, answer, || {
            worlds::carry_out(valued, start.unwrap_or_default())
        })?;
        match answer.number {
            1 => self.missed_though_reached += u64::from(reached),
            _ => self.stuck_though_reached += u64::from(reached),
        }
        Ok(())
    }
}

/// 16, 17 and 18 are given just where they are found a second time.
fn expect_settled(valued: &Valued, answer: Answer) -> Result<(), String> {
    let refused = (answer.number > 3).then_some((answer.number, answer.place as usize));
    let again = again::refused(valued).map(|fault| (fault.number, fault.place));
    match refused == again {
        true => Ok(()),
        false => Err(format!("answer {answer}, the second time {again:?}")),
    }
}

/// Number and count are the same, and the lent bytes.
fn expect_alike(left: &Left, plain: &Left) -> Result<(), String> {
    let told = |left: &Left| (left.answer.number, left.answer.count);
    match told(left) == told(plain) && left.lent == plain.lent {
        true => Ok(()),
        false => Err(format!(
            "answer {}, by the walk call {}",
            left.answer, plain.answer
        )),
    }
}

/// How many marks stand before an answer's place, but for numbers of values and second bytes; none where
/// it names no input.
fn marked(written: &Encoded, answer: Answer) -> Option<usize> {
    let marks = written.marks.iter();
    let mut marks = marks.filter(|mark| !matches!(mark.kind, Kind::Values | Kind::Says));
    (answer.input > 0).then(|| marks.position(|mark| mark.place == answer.place as usize))?
}

/// The lent state that the second walk's state stands for.
fn state_of(values: tree::Values) -> [u8; STATE_LENGTH] {
    let mut state = [0; STATE_LENGTH];
    for (byte, value) in state.iter_mut().zip(values) {
        *byte = value.map_or(0, |value| value + 1);
    }
    state
}

impl Checked for Tally {
    fn found(&self) -> &Differences {
        &self.differences
    }

    fn never_met(&self) -> Vec<String> {
        let never = self.occurred.never(&NUMBERS, "with values", &Event::ALL);
        never.collect()
    }

    fn none_rare(&self) -> Result<(), String> {
        self.occurred.none_rare(&[0, 1, 2, 3], LEAST_SHARE)
    }

    fn report(&self) -> String {
        let numbers = [
            (
                "walks with values compared with the second walk",
                self.second_walks.compared(),
            ),
            (
                "requests with two values compared with the walk call",
                self.matched,
            ),
            ("walk calls said by values", self.spelled),
            (
                "requests whose actions move each world to one",
                self.moved_to_one,
            ),
            (
                "verified with values in all worlds",
                self.carried_out.plans(),
            ),
            (
                "true worlds of these values requests",
                self.carried_out.worlds(),
            ),
            (
                "verified values requests with too many worlds",
                self.carried_out.not_enumerated(),
            ),
            (
                "answer 1 though every world with values reaches the goal",
                self.missed_though_reached,
            ),
            (
                "answer 2 though every world with values reaches the goal",
                self.stuck_though_reached,
            ),
        ];
        self.differences.report() + &self.occurred.report("values requests judged", &numbers)
    }
}
