//! A guide that is followed call by call: what each call answers is compared with the plan carried out over marks, and
//! what was shown by it is told.

use super::call::{Guide, Told, AGAINST_KNOWN, WRONG_NUMBER};
use super::course::OverMarks;
use crate::model::Request;
use crate::paths::sensed;
use crate::reader::{FLUENT_LIMIT, ITEM_LIMIT};
use crate::tally::so;
use crate::Answer;

/// What a call shows.
#[derive(Clone, Copy, Debug, PartialEq, Eq, PartialOrd, Ord)]
pub enum Event {
    /// An action, after none, after one that doesn't sense, and after one that does.
    FirstAction,
    AfterAction,
    AfterReadings,
    /// "Done" at the first call, after an action, after readings, and again.
    DoneAtOnce,
    DoneAfterAction,
    DoneAfterReadings,
    DoneAgain,
    /// 41 at the first call, after an action that doesn't sense, and where the plan would end; by one reading too few,
    /// one too many, none, and more than there can be fluents; and though a reading that is there is against a
    /// known fluent.
    ReadingsAtFirst,
    ReadingsAfterAction,
    WrongAtEnd,
    OneFewer,
    OneMore,
    NoneOfSome,
    FarMore,
    WrongThoughAgainst,
    /// 42 by the only reading, the first, the last, and more than one; where one before it is of an unknown fluent, and
    /// one behind it; and where the plan would end.
    OnlyAgainst,
    FirstAgainst,
    LastAgainst,
    TwoAgainst,
    AgainstBehindUnknown,
    AgainstBeforeUnknown,
    AgainstAtEnd,
    /// Readings that are taken over: of fluents that are known, of unknown ones, of both, of three and more unknown
    /// ones, and one for each of 128 fluents; and a yes by another byte than 1.
    KnownRead,
    UnknownRead,
    BothRead,
    ManyUnknownRead,
    MostRead,
    OtherYes,
    /// A fluent is asked for once though two knowledge lines say so, and readings are in another order than the lines.
    SaidTwice,
    OtherOrder,
    /// The call passes a branching, and more than one.
    Branched,
    BranchedTwice,
    /// An action is answered that is the 1,024th.
    MostActions,
}

impl Event {
    pub const ALL: [Event; 33] = [
        Event::FirstAction,
        Event::AfterAction,
        Event::AfterReadings,
        Event::DoneAtOnce,
        Event::DoneAfterAction,
        Event::DoneAfterReadings,
        Event::DoneAgain,
        Event::ReadingsAtFirst,
        Event::ReadingsAfterAction,
        Event::WrongAtEnd,
        Event::OneFewer,
        Event::OneMore,
        Event::NoneOfSome,
        Event::FarMore,
        Event::WrongThoughAgainst,
        Event::OnlyAgainst,
        Event::FirstAgainst,
        Event::LastAgainst,
        Event::TwoAgainst,
        Event::AgainstBehindUnknown,
        Event::AgainstBeforeUnknown,
        Event::AgainstAtEnd,
        Event::KnownRead,
        Event::UnknownRead,
        Event::BothRead,
        Event::ManyUnknownRead,
        Event::MostRead,
        Event::OtherYes,
        Event::SaidTwice,
        Event::OtherOrder,
        Event::Branched,
        Event::BranchedTwice,
        Event::MostActions,
    ];
}

/// A guide that was started, with the plan carried out over marks beside it.
#[derive(Clone)]
pub(crate) struct Follower<'a> {
    request: &'a Request,
    guide: Guide,
    pub(crate) course: OverMarks<'a>,
    /// The last action that was answered, and how many have been.
    pub(crate) last: Option<u8>,
    pub(crate) actions: usize,
    pub(crate) ended: bool,
}

impl<'a> Follower<'a> {
    pub(crate) fn new(request: &'a Request, guide: Guide) -> Follower<'a> {
        Follower {
            request,
            guide,
            course: OverMarks::new(request),
            last: None,
            actions: 0,
            ended: false,
        }
    }

    /// The fluents of which the next call brings readings, by the knowledge lines of the last action.
    pub(crate) fn asked(&self) -> Vec<u8> {
        match (self.ended, self.last) {
            (false, Some(action)) => sensed(self.request, action),
            _ => Vec::new(),
        }
    }

    /// A call. It answers what the plan over marks says; a refusal leaves the guide as it was.
    pub(crate) fn call(&mut self, readings: &[u8]) -> Result<(Told, Vec<Event>), String> {
        let asked = self.asked();
        if self.guide.asks() != asked {
            return Err(format!(
                "the guide asks for {:?}, not {asked:?}",
                self.guide.asks()
            ));
        }
        let before = self.clone();
        let expected = self.expected(&asked, readings)?;
        let (guide, told) = self.guide.clone().next(readings);
        if told != expected {
            return Err(format!(
                "readings {readings:?}: {told:?}, over marks {expected:?}"
            ));
        }
        if told.number() != 0 && guide != before.guide {
            return Err(format!("readings {readings:?}: {told:?} is another guide"));
        }
        self.guide = guide;
        let events = events(&before, self, &asked, readings, told);
        Ok((told, events))
    }

    /// The same over marks, which go on where nothing is refused.
    fn expected(&mut self, asked: &[u8], readings: &[u8]) -> Result<Told, String> {
        if self.ended {
            return Ok(Told::Done);
        }
        let refused = |number| Ok(Told::Refused(Answer::neither(number, 0)));
        if readings.len() != asked.len() {
            return refused(WRONG_NUMBER);
        }
        let read: Vec<(u8, bool)> = read(asked, readings);
        if read
            .iter()
            .any(|&(fluent, value)| self.course.is_against(fluent, value))
        {
            return refused(AGAINST_KNOWN);
        }
        for (fluent, value) in read {
            self.course.read(fluent, value);
        }
        if let (true, Some(action)) = (asked.is_empty(), self.last) {
            self.course.run(self.request, action);
        }
        let next = self.course.next_action();
        self.last = next.map_err(|failure| format!("over marks {failure:?}"))?;
        self.ended = self.last.is_none();
        self.actions += usize::from(!self.ended);
        Ok(self.last.map_or(Told::Done, Told::Do))
    }
}

/// Fluents with what is read of them.
fn read(asked: &[u8], readings: &[u8]) -> Vec<(u8, bool)> {
    let read = asked.iter().zip(readings);
    read.map(|(&fluent, &reading)| (fluent, reading != 0))
        .collect()
}

/// What a call has shown, from how all was before it and is after it.
fn events(
    before: &Follower,
    after: &Follower,
    asked: &[u8],
    readings: &[u8],
    told: Told,
) -> Vec<Event> {
    if before.ended {
        return vec![Event::DoneAgain];
    }
    match told {
        Told::Refused(answer) if answer.number == WRONG_NUMBER => {
            so(wrong_events(before, asked, readings))
        }
        Told::Refused(_) => so(against_events(before, asked, readings)),
        Told::Do(_) | Told::Done => {
            let mut all = taken_events(before, asked, readings);
            all.extend(way_events(before, after, asked));
            so(all)
        }
    }
}

/// Right readings would end the plan, whatever they say of unknown fluents.
fn is_last(before: &Follower) -> bool {
    before.course.left_items() == 0
}

fn wrong_events(before: &Follower, asked: &[u8], readings: &[u8]) -> Vec<(bool, Event)> {
    let (due, brought) = (asked.len(), readings.len());
    let against = read(asked, readings)
        .iter()
        .any(|&(fluent, value)| before.course.is_against(fluent, value));
    vec![
        (before.last.is_none(), Event::ReadingsAtFirst),
        (
            before.last.is_some() && due == 0,
            Event::ReadingsAfterAction,
        ),
        (is_last(before), Event::WrongAtEnd),
        (due > 1 && brought + 1 == due, Event::OneFewer),
        (due > 0 && brought == due + 1, Event::OneMore),
        (brought == 0, Event::NoneOfSome),
        (brought > FLUENT_LIMIT, Event::FarMore),
        (against, Event::WrongThoughAgainst),
    ]
}

fn against_events(before: &Follower, asked: &[u8], readings: &[u8]) -> Vec<(bool, Event)> {
    let read = read(asked, readings);
    let against: Vec<bool> = read
        .iter()
        .map(|&(fluent, value)| before.course.is_against(fluent, value))
        .collect();
    let unknown = |&fluent: &u8| !before.course.knows(fluent);
    let first = against.iter().position(|&it| it).unwrap_or(0);
    let several = asked.len() > 1;
    vec![
        (!several, Event::OnlyAgainst),
        (several && against[0], Event::FirstAgainst),
        (several && against[asked.len() - 1], Event::LastAgainst),
        (
            against.iter().filter(|&&it| it).count() > 1,
            Event::TwoAgainst,
        ),
        (
            asked[..first].iter().any(unknown),
            Event::AgainstBehindUnknown,
        ),
        (
            asked[first..].iter().any(unknown),
            Event::AgainstBeforeUnknown,
        ),
        (is_last(before), Event::AgainstAtEnd),
    ]
}

fn taken_events(before: &Follower, asked: &[u8], readings: &[u8]) -> Vec<(bool, Event)> {
    let unknown = asked.iter().filter(|&&fluent| !before.course.knows(fluent));
    let unknown = unknown.count();
    let known = asked.len() - unknown;
    let lines = before.request.knowledge.iter();
    let lines = lines.filter(|line| Some(line.action) == before.last);
    let said: Vec<u8> = lines.map(|line| line.fluent).collect();
    vec![
        (known > 0, Event::KnownRead),
        (unknown > 0, Event::UnknownRead),
        (known > 0 && unknown > 0, Event::BothRead),
        (unknown > 2, Event::ManyUnknownRead),
        (asked.len() == FLUENT_LIMIT, Event::MostRead),
        (readings.iter().any(|&reading| reading > 1), Event::OtherYes),
        (said.len() > asked.len(), Event::SaidTwice),
        (!said.is_sorted(), Event::OtherOrder),
    ]
}

fn way_events(before: &Follower, after: &Follower, asked: &[u8]) -> Vec<(bool, Event)> {
    let passed = after.course.branched - before.course.branched;
    let kind = match (after.ended, before.last, asked.is_empty()) {
        (false, None, _) => Event::FirstAction,
        (false, Some(_), true) => Event::AfterAction,
        (false, Some(_), false) => Event::AfterReadings,
        (true, None, _) => Event::DoneAtOnce,
        (true, Some(_), true) => Event::DoneAfterAction,
        (true, Some(_), false) => Event::DoneAfterReadings,
    };
    vec![
        (true, kind),
        (passed > 0, Event::Branched),
        (passed > 1, Event::BranchedTwice),
        (
            after.actions == ITEM_LIMIT && !after.ended,
            Event::MostActions,
        ),
    ]
}
