//! A run of derive calls: each answer against the walk call, the scheme a second time and what is certain of
//! it, each derivation put to both derivation calls, and the tallies.

use std::collections::BTreeMap;

use super::again::{expect_scheme, sizes, Sizes};
use super::call::{derive, first_too_wide, TOO_MANY_LINES, TOO_WIDE, WHETHER_ASKED};
use super::calls::derive_call;
use crate::answer::{narrow_count, Answer, Fault, REQUEST};
use crate::calls::{JudgeCall, Outlook};
use crate::encode::encode_proof;
use crate::indexes::call::ROOM_SHORT;
use crate::indexes::calls::FAR_TOO_LONG;
use crate::model::{Item, Request};
use crate::prove::READ_AT_ONCE;
use crate::reader::{read_derivation, DERIVATION_LIMIT, LINE_LIMIT};
use crate::rng::Rng;
use crate::run::{expect_form, expect_outlook, told, LEAST_SHARE};
use crate::table::Table;
use crate::tally::{each, never, so, Checked, Differences, Occurred};
use crate::whether::translate::as_proof;
use crate::{check, check_whether, judge_line, open, STATE_LENGTH};

/// The answers that a run must meet at least once.
pub const NUMBERS: [u8; 20] = [
    0,
    1,
    2,
    3,
    10,
    11,
    12,
    13,
    14,
    15,
    16,
    17,
    18,
    19,
    20,
    21,
    WHETHER_ASKED,
    TOO_WIDE,
    TOO_MANY_LINES,
    ROOM_SHORT,
];

/// The rules of the scheme.
const RULES: [u8; 6] = [1, 2, 3, 4, 5, 6];

/// What a call has been through, told from the call and its answer.
#[derive(Clone, Copy, Debug, PartialEq, Eq, PartialOrd, Ord)]
pub enum Event {
    /// 0 in a room that is just long enough, in one that is a byte longer, and in one that is far too long.
    RoomExact,
    RoomOneLonger,
    RoomFarTooLong,
    /// 39 in a room that is one byte short, and in none.
    RoomOneShort,
    NoRoom,
    /// A refusal, 30, 1, 2, 3, 37 and 38 though there is no room.
    RefusedWithoutRoom,
    WhetherWithoutRoom,
    MissedWithoutRoom,
    StuckWithoutRoom,
    SpentWithoutRoom,
    WideWithoutRoom,
    LinesWithoutRoom,
    /// 30 where the walk call gives 0, 1, 2 or 3.
    WhetherThoughVerified,
    WhetherThoughMissed,
    WhetherThoughStuck,
    WhetherThoughSpent,
    /// 0 with a budget that is just enough, and 3 with one that is one less.
    JustEnoughBudget,
    BudgetOneShort,
    /// 0, and five or six fluents are unknown where an action looks; and it senses more, which are known.
    FiveUnknown,
    SixUnknown,
    MoreThanSixSensed,
    /// 37 with seven unknown fluents, and with more.
    SevenUnknown,
    MoreUnknown,
    /// 37 at an item that is not the plan's first; behind one that senses as many and is not met; and where
    /// there are more lines than a derivation may have before it.
    WideLater,
    WidePassedBy,
    WideBehindManyLines,
    /// 1, 2 or 3 though a sensing action that is too wide is met.
    MissedThoughWide,
    StuckThoughWide,
    SpentThoughWide,
    /// 0 with as many lines as there may be; 38 with one more, and with more than twice as many.
    MostLines,
    OneLineMore,
    FarMoreLines,
    /// 39 with as many lines as there may be.
    MostLinesWithoutRoom,
    /// 0 with as many bytes as there may be; 39 with one more, in a room that has them, and with far more.
    MostBytes,
    OneByteMore,
    FarMoreBytes,
    /// 0, and a line by rule 6 has all that is known as Y; a line by rule 3 cites one line, and four.
    AllAreGoals,
    OneReading,
    FourReadings,
    /// 0, and a branching is met inside another, with items behind both; a line above 255 is cited; there is
    /// no item; there is no goal; a state has a literal for each of 128 fluents.
    JoinedTwice,
    FarCitation,
    EmptyPlan,
    NoGoals,
    FullState,
}

impl Event {
    pub const ALL: [Event; 44] = [
        Event::RoomExact,
        Event::RoomOneLonger,
        Event::RoomFarTooLong,
        Event::RoomOneShort,
        Event::NoRoom,
        Event::RefusedWithoutRoom,
        Event::WhetherWithoutRoom,
        Event::MissedWithoutRoom,
        Event::StuckWithoutRoom,
        Event::SpentWithoutRoom,
        Event::WideWithoutRoom,
        Event::LinesWithoutRoom,
        Event::WhetherThoughVerified,
        Event::WhetherThoughMissed,
        Event::WhetherThoughStuck,
        Event::WhetherThoughSpent,
        Event::JustEnoughBudget,
        Event::BudgetOneShort,
        Event::FiveUnknown,
        Event::SixUnknown,
        Event::MoreThanSixSensed,
        Event::SevenUnknown,
        Event::MoreUnknown,
        Event::WideLater,
        Event::WidePassedBy,
        Event::WideBehindManyLines,
        Event::MissedThoughWide,
        Event::StuckThoughWide,
        Event::SpentThoughWide,
        Event::MostLines,
        Event::OneLineMore,
        Event::FarMoreLines,
        Event::MostLinesWithoutRoom,
        Event::MostBytes,
        Event::OneByteMore,
        Event::FarMoreBytes,
        Event::AllAreGoals,
        Event::OneReading,
        Event::FourReadings,
        Event::JoinedTwice,
        Event::FarCitation,
        Event::EmptyPlan,
        Event::NoGoals,
        Event::FullState,
    ];
}

/// The events of a call with a room of this length.
pub fn events(bytes: &[u8], room: usize, budget: u32, answer: Answer) -> Vec<Event> {
    let without = match answer.number {
        1 => Event::MissedWithoutRoom,
        2 => Event::StuckWithoutRoom,
        3 => Event::SpentWithoutRoom,
        WHETHER_ASKED => Event::WhetherWithoutRoom,
        TOO_WIDE => Event::WideWithoutRoom,
        TOO_MANY_LINES => Event::LinesWithoutRoom,
        0 | ROOM_SHORT => Event::NoRoom,
        _ => Event::RefusedWithoutRoom,
    };
    let mut all = vec![(room == 0, without)];
    if let Ok(request) = open(bytes) {
        all.extend(match answer.number {
            WHETHER_ASKED => whether_events(bytes, budget),
            1..=3 => walk_events(&request, bytes, budget, answer),
            _ => scheme_events(&request, bytes, room, budget, answer),
        });
    }
    so(all)
}

/// What the walk call gives where the answer is 30.
fn whether_events(bytes: &[u8], budget: u32) -> Vec<(bool, Event)> {
    let (walked, _) = judge_line(bytes, &mut [0; STATE_LENGTH], budget);
    let though = match walked.number {
        0 => Event::WhetherThoughVerified,
        1 => Event::WhetherThoughMissed,
        2 => Event::WhetherThoughStuck,
        _ => Event::WhetherThoughSpent,
    };
    vec![(true, though)]
}

fn walk_events(request: &Request, bytes: &[u8], budget: u32, answer: Answer) -> Vec<(bool, Event)> {
    let wide = first_too_wide(request, budget).map(|wide| wide.place);
    // An item that can't be run is not met in a state in which it is run.
    let wide = wide.is_some_and(|place| (answer.number, answer.place as usize) != (2, place));
    let enough = || {
        let (more, _) = judge_line(bytes, &mut [0; STATE_LENGTH], budget.saturating_add(1));
        more.number == 0
    };
    let though = match answer.number {
        1 => Event::MissedThoughWide,
        2 => Event::StuckThoughWide,
        _ => Event::SpentThoughWide,
    };
    vec![
        (wide, though),
        (answer.number == 3 && enough(), Event::BudgetOneShort),
    ]
}

/// The events of a plan that is verified.
fn scheme_events(
    request: &Request,
    bytes: &[u8],
    room: usize,
    budget: u32,
    answer: Answer,
) -> Vec<(bool, Event)> {
    let is = |number| answer.number == number;
    let sizes = sizes(request, bytes);
    let (lines, length) = (sizes.lines(), sizes.bytes);
    let fits = room as u64 >= length;
    let most_lines = LINE_LIMIT as u64;
    let most_bytes = DERIVATION_LIMIT as u64;
    let mut all = vec![
        (
            is(ROOM_SHORT) && room as u64 + 1 == length,
            Event::RoomOneShort,
        ),
        (
            is(ROOM_SHORT) && lines == most_lines,
            Event::MostLinesWithoutRoom,
        ),
        (
            is(ROOM_SHORT) && fits && length == most_bytes + 1,
            Event::OneByteMore,
        ),
        (
            is(ROOM_SHORT) && fits && length > 2 * most_bytes,
            Event::FarMoreBytes,
        ),
        (
            is(TOO_MANY_LINES) && lines == most_lines + 1,
            Event::OneLineMore,
        ),
        (
            is(TOO_MANY_LINES) && lines > 2 * most_lines,
            Event::FarMoreLines,
        ),
    ];
    if is(TOO_WIDE) {
        all.extend(wide_events(request, &sizes, answer.place as usize));
    }
    if is(0) {
        let looks = |unknown| sizes.looked.iter().any(|look| look.1 == unknown);
        let table = Table::new(request);
        let many_sensed = |place: usize| {
            let senses = table.senses(bytes[place]);
            senses.count_ones() > READ_AT_ONCE
        };
        all.extend([
            (room as u64 == length, Event::RoomExact),
            (room as u64 == length + 1, Event::RoomOneLonger),
            (room >= FAR_TOO_LONG, Event::RoomFarTooLong),
            (u64::from(budget) == sizes.count(), Event::JustEnoughBudget),
            (looks(5), Event::FiveUnknown),
            (looks(6), Event::SixUnknown),
            (
                sizes.looked.iter().any(|look| many_sensed(look.0)),
                Event::MoreThanSixSensed,
            ),
            (lines == most_lines, Event::MostLines),
            (length == most_bytes, Event::MostBytes),
            (looks(0), Event::OneReading),
            (looks(2), Event::FourReadings),
            (sizes.joined_twice, Event::JoinedTwice),
            // The last line cites the one before it.
            (lines > 257, Event::FarCitation),
            (request.plan.is_empty(), Event::EmptyPlan),
            (request.goals.is_empty(), Event::NoGoals),
            (sizes.most_known == 128, Event::FullState),
            (sizes.all_are_goals, Event::AllAreGoals),
        ]);
    }
    all
}

/// The events of 37 at a place.
fn wide_events(request: &Request, sizes: &Sizes, place: usize) -> Vec<(bool, Event)> {
    let table = Table::new(request);
    let unknown = (sizes.looked.iter()).find_map(|&(at, unknown)| (at == place).then_some(unknown));
    let before = actions(&request.plan).into_iter();
    let before: Vec<(usize, u8)> = before.filter(|(other, _)| *other < place).collect();
    let is_met = |other: usize| sizes.looked.iter().any(|(at, _)| *at == other);
    let passed_by = |&(other, action): &(usize, u8)| {
        table.senses(action).count_ones() > READ_AT_ONCE && !is_met(other)
    };
    let many = sizes.lines() > LINE_LIMIT as u64;
    vec![
        (unknown == Some(7), Event::SevenUnknown),
        (unknown > Some(7), Event::MoreUnknown),
        (!before.is_empty(), Event::WideLater),
        (before.iter().any(passed_by), Event::WidePassedBy),
        (many, Event::WideBehindManyLines),
    ]
}

/// The actions of a sequence, those in branches included, with their places.
fn actions(sequence: &[Item]) -> Vec<(usize, u8)> {
    let of = |item: &Item| match item {
        Item::Action { place, action } => vec![(*place, *action)],
        Item::Branching { branches, .. } => {
            let inside = branches.iter().map(|branch| actions(&branch.sequence));
            inside.collect::<Vec<_>>().concat()
        }
    };
    sequence.iter().flat_map(of).collect()
}

/// How often each thing happened.
#[derive(Clone, Debug, Default)]
pub struct Tally {
    derived: Occurred<Event>,
    rules: BTreeMap<u8, u64>,
    accepted: u64,
    accepted_closing: u64,
    longest: usize,
    differences: Differences,
}

/// Makes so many calls from a seed.
pub fn run(seed: u64, calls: u64) -> Tally {
    let mut tally = Tally::default();
    for number in 0..calls {
        let call = derive_call(&mut Rng::new(seed, 37, number));
        if let Err(difference) = tally.derive(&call) {
            tally.differences.add(format!(
                "derived request {number}: {difference}: budget {}, room {}: {}",
                call.budget,
                call.lent.len(),
                told(&call.request)
            ));
        }
    }
    tally
}

impl Tally {
    /// Notes a call with its answer, the room as it is afterwards.
    pub fn note(&mut self, request: &[u8], room: &[u8], budget: u32, answer: Answer) {
        let events = events(request, room.len(), budget, answer);
        self.derived.note(answer.number, events);
        if answer.number == 0 {
            let length = answer.count as usize;
            self.longest = self.longest.max(length);
            for rule in rules(request, &room[..length]) {
                *self.rules.entry(rule).or_default() += 1;
            }
        }
    }

    /// Makes a call and checks its answer and its room.
    fn derive(&mut self, call: &JudgeCall) -> Result<(), String> {
        let left = call.made(|request, room, budget| (derive(request, room, budget), 0));
        let (request, answer) = (&call.request, left.answer);
        self.note(request, &left.lent, call.budget, answer);
        expect_form(answer, request, &[])?;
        match call.outlook {
            Outlook::Walked if answer.number >= WHETHER_ASKED => {}
            outlook => expect_outlook(answer, outlook)?,
        }
        let written = match answer.number {
            0 => answer.count as usize,
            _ => 0,
        };
        if left.lent[written..] != call.lent[written..] {
            return Err(format!("answer {answer} changed what is behind it"));
        }
        let expected = expected(call);
        if answer != expected {
            return Err(format!("answer {answer}, a second time {expected}"));
        }
        match answer.number {
            0 => self.expect_derived(request, &left.lent[..written]),
            _ => Ok(()),
        }
    }

    /// The derivation is that of the scheme, and both derivation calls accept it.
    fn expect_derived(&mut self, bytes: &[u8], derivation: &[u8]) -> Result<(), String> {
        let request = open(bytes).map_err(|_| "a derivation of a request that is refused")?;
        expect_scheme(&request, bytes, derivation)?;
        expect_accepted("derivation", check(bytes, derivation))?;
        self.accepted += 1;
        let closing = closing(&request, derivation).ok_or("it can't be read")?;
        if closing.len() != derivation.len() + 3 {
            return Err("in the closing layout it is not three bytes longer".to_string());
        }
        if closing.len() <= DERIVATION_LIMIT {
            expect_accepted("whether", check_whether(bytes, &closing))?;
            self.accepted_closing += 1;
        }
        Ok(())
    }
}

/// A derivation in the closing layout, with a closing list that names its last line; none where it can't be
/// read.
pub fn closing(request: &Request, derivation: &[u8]) -> Option<Vec<u8>> {
    let lines = read_derivation(derivation, request).ok()?;
    Some(encode_proof(&as_proof(&lines)?).bytes)
}

/// The rules of the lines of a derivation.
fn rules(request: &[u8], derivation: &[u8]) -> Vec<u8> {
    let lines = open(request).and_then(|request| read_derivation(derivation, &request));
    lines.map_or(Vec::new(), |lines| {
        lines.iter().map(|line| line.rule).collect()
    })
}

fn expect_accepted(call: &str, answer: Answer) -> Result<(), String> {
    match answer == Answer::neither(0, 0) {
        true => Ok(()),
        false => Err(format!("the {call} call on what was written: {answer}")),
    }
}

/// The answer by the walk call and by what the scheme comes to a second time.
fn expected(call: &JudgeCall) -> Answer {
    let (walked, _) = judge_line(&call.request, &mut [0; STATE_LENGTH], call.budget);
    if !matches!(walked.number, 0..=3) {
        return walked;
    }
    let Ok(request) = open(&call.request) else {
        return walked;
    };
    if !request.whether.is_empty() {
        let place = request.whether_place;
        return Answer::refusal(REQUEST, Fault::new(WHETHER_ASKED, place));
    }
    if walked.number != 0 {
        return walked;
    }
    let sizes = sizes(&request, &call.request);
    let room = call.lent.len().min(DERIVATION_LIMIT);
    match sizes.too_wide {
        Some(place) => Answer::refusal(REQUEST, Fault::new(TOO_WIDE, place)),
        // The count is the walk's, or else something was not gone through.
        _ if sizes.count() != u64::from(walked.count) => Answer::neither(0, 0),
        _ if sizes.lines() > LINE_LIMIT as u64 => Answer::neither(TOO_MANY_LINES, 0),
        _ if sizes.bytes > room as u64 => Answer::neither(ROOM_SHORT, 0),
        _ => Answer::neither(0, narrow_count(sizes.bytes)),
    }
}

impl Checked for Tally {
    fn found(&self) -> &Differences {
        &self.differences
    }

    fn never_met(&self) -> Vec<String> {
        let derived = self.derived.never(&NUMBERS, "in deriving", &Event::ALL);
        let rules = never(&RULES, &self.rules, |rule| format!("a line by rule {rule}"));
        derived.chain(rules).collect()
    }

    fn none_rare(&self) -> Result<(), String> {
        let often = [0, 1, 2, 3, WHETHER_ASKED, TOO_WIDE, ROOM_SHORT];
        self.derived.none_rare(&often, LEAST_SHARE)
    }

    fn report(&self) -> String {
        let numbers = [
            ("derivations accepted", self.accepted),
            ("of these in the closing layout", self.accepted_closing),
            ("bytes of the longest derivation", self.longest as u64),
        ];
        let rules = each(&self.rules, |rule| format!("  lines by rule {rule}"));
        self.differences.report() + &self.derived.report("derivations asked for", &numbers) + &rules
    }
}
