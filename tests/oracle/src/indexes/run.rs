//! A run of index calls and indexed calls: the index against a second way to find it, each answer against
//! a second walk, the walk call and what is certain of it, and the tallies.

use super::call::{index, judge_indexed_line, DIFFERS, ROOM_SHORT};
use super::calls::{indexed_call, said_twice, IndexedCall, FAR_TOO_LONG};
use super::index::{encode_index, first_difference, index_of, places};
use crate::answer::{Answer, INDEX};
use crate::calls::{Left, Outlook};
use crate::model::Request;
use crate::rng::Rng;
use crate::run::{expect_form, expect_left, expect_outlook, told, LEAST_SHARE, MOST_PATHS};
use crate::tally::{so, Checked, Differences, Occurred, SecondWalks};
use crate::{judge_line, open, paths, shown, STATE_LENGTH};

/// The answers that a run must meet at least once: of the index call, and of the indexed call.
pub const OF_BUILDING: [u8; 14] = [
    0, 10, 11, 12, 13, 14, 15, 16, 17, 18, 19, 20, 21, ROOM_SHORT,
];
pub const OF_JUDGING: [u8; 18] = [
    0, 1, 2, 3, 9, 10, 11, 12, 13, 14, 15, 16, 17, 18, 19, 20, 21, DIFFERS,
];

/// What an index call has been through, told from the call and its answer.
#[derive(Clone, Copy, Debug, PartialEq, Eq, PartialOrd, Ord)]
pub enum Built {
    /// 0 in a room that is just long enough; in a longer one, there also in one that is far too long.
    RoomExact,
    RoomLonger,
    RoomFarTooLong,
    /// 39 in a room that is one byte short, and in none.
    RoomOneShort,
    NoRoom,
    /// A refusal though there is no room.
    RefusedWithoutRoom,
    /// 0, and a line is said twice; an action has no lines; lines of another action stand between two of an
    /// action; an offset is above 255; an action has more than 16 lines of a kind.
    SaidTwice,
    NoLines,
    InTurn,
    FarOffset,
    ManyLines,
}

impl Built {
    pub const ALL: [Built; 11] = [
        Built::RoomExact,
        Built::RoomLonger,
        Built::RoomFarTooLong,
        Built::RoomOneShort,
        Built::NoRoom,
        Built::RefusedWithoutRoom,
        Built::SaidTwice,
        Built::NoLines,
        Built::InTurn,
        Built::FarOffset,
        Built::ManyLines,
    ];
}

/// What an indexed call has been through, told from the call and its answer.
#[derive(Clone, Copy, Debug, PartialEq, Eq, PartialOrd, Ord)]
pub enum Event {
    /// 45 for no index; for one that is cut short; for one with bytes behind it, there also for one that is
    /// far too long.
    NoIndex,
    CutShort,
    BytesBehind,
    FarTooLong,
    /// 45 where one byte is another, and no more: a count, the high byte of an offset, the low byte.
    AnotherCount,
    AnotherHighByte,
    AnotherLowByte,
    /// 45 where an offset is the place of the line's body; where all executability lines stand before the
    /// effects; where only the order of one list is another; where one offset of a line that is said twice
    /// is missing, and where the first is there in place of the second.
    BodyOffset,
    RunsFirst,
    OtherOrder,
    OneLeftOut,
    FirstTwice,
    /// 45 with budget 0, and where the walk call gives 0, 1, 2 or 3.
    DiffersWithBudget0,
    DiffersThoughVerified,
    DiffersThoughMissed,
    DiffersThoughStuck,
    DiffersThoughSpent,
    /// 9 though the index differs, and a refusal though there is no index.
    LengthBeforeIndex,
    RefusedWithoutIndex,
    /// 0, 1 or 2 where a line is said twice, and 2 with a line.
    WalkedSaidTwice,
    StuckWithLine,
}

impl Event {
    pub const ALL: [Event; 21] = [
        Event::NoIndex,
        Event::CutShort,
        Event::BytesBehind,
        Event::FarTooLong,
        Event::AnotherCount,
        Event::AnotherHighByte,
        Event::AnotherLowByte,
        Event::BodyOffset,
        Event::RunsFirst,
        Event::OtherOrder,
        Event::OneLeftOut,
        Event::FirstTwice,
        Event::DiffersWithBudget0,
        Event::DiffersThoughVerified,
        Event::DiffersThoughMissed,
        Event::DiffersThoughStuck,
        Event::DiffersThoughSpent,
        Event::LengthBeforeIndex,
        Event::RefusedWithoutIndex,
        Event::WalkedSaidTwice,
        Event::StuckWithLine,
    ];
}

/// The events of an index call with a room of this length.
pub fn built_events(request: &[u8], room: usize, answer: Answer) -> Vec<Built> {
    let Ok(read) = open(request) else {
        return so(vec![(room == 0, Built::RefusedWithoutRoom)]);
    };
    let length = index_of(&read).len();
    let placed = places(&read);
    let built = answer.number == 0;
    let mut lists = placed.iter().flatten();
    so(vec![
        (built && room == length, Built::RoomExact),
        (built && room > length, Built::RoomLonger),
        (built && room >= FAR_TOO_LONG, Built::RoomFarTooLong),
        (!built && room + 1 == length, Built::RoomOneShort),
        (!built && room == 0, Built::NoRoom),
        (built && !said_twice(&read).is_empty(), Built::SaidTwice),
        (
            built && placed.iter().any(|lists| lists.concat().is_empty()),
            Built::NoLines,
        ),
        (built && in_turn(&read), Built::InTurn),
        (
            built && placed.iter().flatten().flatten().any(|&place| place > 255),
            Built::FarOffset,
        ),
        (built && lists.any(|list| list.len() > 16), Built::ManyLines),
    ])
}

/// Two effects of an action have one of another action between them.
fn in_turn(request: &Request) -> bool {
    let actions: Vec<u8> = request.effects.iter().map(|line| line.action).collect();
    let between = |last: usize| {
        let of_action = |action: &u8| *action == actions[last];
        let first = actions.iter().position(of_action).unwrap_or(last);
        !actions[first..last].iter().all(of_action)
    };
    (0..actions.len()).any(between)
}

/// The events of an indexed call.
pub fn events(request: &[u8], given: &[u8], budget: u32, left: (Answer, u32)) -> Vec<Event> {
    let (answer, line) = left;
    let Ok(read) = open(request) else {
        let refused = matches!(answer.number, 10..=21);
        return so(vec![(
            refused && given.is_empty(),
            Event::RefusedWithoutIndex,
        )]);
    };
    let walked = matches!(answer.number, 0..=2);
    let mut all = vec![
        (
            answer.number == 9 && given != index_of(&read),
            Event::LengthBeforeIndex,
        ),
        (
            walked && !said_twice(&read).is_empty(),
            Event::WalkedSaidTwice,
        ),
        (answer.number == 2 && line > 0, Event::StuckWithLine),
    ];
    if answer.number == DIFFERS {
        all.extend(of_difference(&read, given, answer.place as usize));
        let (plain, _) = judge_line(request, &mut [0; STATE_LENGTH], budget);
        let though = |number| plain.number == number;
        all.extend([
            (budget == 0, Event::DiffersWithBudget0),
            (though(0), Event::DiffersThoughVerified),
            (though(1), Event::DiffersThoughMissed),
            (though(2), Event::DiffersThoughStuck),
            (though(3), Event::DiffersThoughSpent),
        ]);
    }
    so(all)
}

/// In what an index differs from the request's.
fn of_difference(request: &Request, given: &[u8], place: usize) -> Vec<(bool, Event)> {
    let right = index_of(request);
    let behind = place == right.len();
    let alike = given.len() == right.len();
    let one = alike && given[place + 1..] == right[place + 1..];
    let kind = |wanted| one && kind_at(request, place) == Some(wanted);
    let runs_first: Vec<_> = (places(request).into_iter())
        .map(|[effects, runs]| [runs, effects])
        .collect();
    vec![
        (given.is_empty(), Event::NoIndex),
        (place == given.len() && place > 0, Event::CutShort),
        (behind, Event::BytesBehind),
        (given.len() >= FAR_TOO_LONG, Event::FarTooLong),
        (kind(Kind::Count), Event::AnotherCount),
        (kind(Kind::High), Event::AnotherHighByte),
        (kind(Kind::Low), Event::AnotherLowByte),
        (
            alike && given == encode_index(&runs_first),
            Event::RunsFirst,
        ),
        (
            changed_list(request, given, |list, other| at_body(list, other)),
            Event::BodyOffset,
        ),
        (
            changed_list(request, given, |(_, list), other| {
                let mut sorted = other.to_vec();
                sorted.sort_unstable();
                sorted == list
            }),
            Event::OtherOrder,
        ),
        (
            twice_changed(request, given, |list, [_, second]| {
                list.remove(second);
            }),
            Event::OneLeftOut,
        ),
        (
            twice_changed(request, given, |list, [first, second]| {
                list[second] = list[first];
            }),
            Event::FirstTwice,
        ),
    ]
}

/// What a byte of an index is: a count, or the high or low byte of an offset.
#[derive(Clone, Copy, PartialEq, Eq)]
enum Kind {
    Count,
    High,
    Low,
}

fn kind_at(request: &Request, place: usize) -> Option<Kind> {
    let placed = places(request);
    let kinds = placed.iter().flatten().flat_map(|list| {
        let offsets = list.iter().flat_map(|_| [Kind::High, Kind::Low]);
        std::iter::once(Kind::Count).chain(offsets)
    });
    kinds.skip(place).next()
}

/// Whether an index is the right one but for one list, which has as many offsets and is as told; effects
/// are kind 0 and executability lines kind 1.
fn changed_list(
    request: &Request,
    given: &[u8],
    so: impl Fn((usize, &[usize]), &[usize]) -> bool,
) -> bool {
    let right = index_of(request);
    let Some(place) = first_difference(given, &right).filter(|_| given.len() == right.len()) else {
        return false;
    };
    let mut start = 0;
    for lists in places(request) {
        for (kind, list) in lists.iter().enumerate() {
            let end = start + 1 + 2 * list.len();
            if place < end {
                let offsets = given[start + 1..end].chunks(2);
                let offsets: Vec<usize> = offsets
                    .map(|pair| usize::from(u16::from_be_bytes([pair[0], pair[1]])))
                    .collect();
                return given[start] == right[start]
                    && given[end..] == right[end..]
                    && so((kind, list), &offsets);
            }
            start = end;
        }
    }
    false
}

/// One offset is that of its line's body, and the others are right.
fn at_body((kind, list): (usize, &[usize]), other: &[usize]) -> bool {
    let further = if kind == 0 { 2 } else { 1 };
    let pairs = list.iter().zip(other);
    let wrong: Vec<_> = pairs.filter(|(right, given)| right != given).collect();
    matches!(wrong[..], [(right, given)] if right + further == *given)
}

/// Whether an index is the right one but for a line that is said twice, in whose list it is as told.
fn twice_changed(
    request: &Request,
    given: &[u8],
    change: impl Fn(&mut Vec<usize>, [usize; 2]),
) -> bool {
    let changed = |&(action, kind, pair): &(u8, usize, [usize; 2])| {
        let mut placed = places(request);
        change(&mut placed[usize::from(action)][kind], pair);
        given == encode_index(&placed)
    };
    said_twice(request).iter().any(changed)
}

/// How often each thing happened.
#[derive(Clone, Debug, Default)]
pub struct Tally {
    built: Occurred<Built>,
    judged: Occurred<Event>,
    second_walks: SecondWalks,
    longest: usize,
    differences: Differences,
}

/// Makes so many calls of each kind from a seed.
pub fn run(seed: u64, calls: u64) -> Tally {
    let mut tally = Tally::default();
    for number in 0..calls {
        let call = indexed_call(&mut Rng::new(seed, 32, number));
        let made = tally.build(&call).and_then(|()| tally.judge(&call));
        if let Err(difference) = made {
            tally.differences.add(format!(
                "indexed request {number}: {difference}: budget {}, room {}: {} {}",
                call.call.budget,
                call.room.len(),
                told(&call.call.request),
                told(&call.index)
            ));
        }
    }
    tally
}

impl Tally {
    /// Notes an index call with its answer.
    pub fn note_built(&mut self, request: &[u8], room: usize, answer: Answer) {
        self.built
            .note(answer.number, built_events(request, room, answer));
        self.longest = self.longest.max(match answer.number {
            0 => answer.count as usize,
            _ => 0,
        });
    }

    /// Notes an indexed call with its answer and line.
    pub fn note(&mut self, request: &[u8], given: &[u8], budget: u32, left: (Answer, u32)) {
        let events = events(request, given, budget, left);
        self.judged.note(left.0.number, events);
    }

    /// Makes an index call and checks its answer and its room.
    fn build(&mut self, call: &IndexedCall) -> Result<(), String> {
        let request = &call.call.request;
        let mut room = call.room.clone();
        let answer = index(request, &mut room);
        self.note_built(request, room.len(), answer);
        expect_form(answer, request, &[])?;
        match call.read {
            Outlook::Walked if answer.number == ROOM_SHORT => {}
            outlook => expect_outlook(answer, outlook)?,
        }
        let (plain, _) = judge_line(request, &mut [0; STATE_LENGTH], 0);
        let right = match plain.number {
            10..=21 => answer == plain,
            _ => matches!(answer.number, 0 | ROOM_SHORT),
        };
        if !right {
            return Err(format!("index call {answer}, by the walk call {plain}"));
        }
        let written = match answer.number {
            0 => answer.count as usize,
            _ => 0,
        };
        if room[written..] != call.room[written..] {
            return Err(format!("index call {answer} changed what is behind it"));
        }
        match answer.number {
            0 => expect_index(request, &room[..written]),
            ROOM_SHORT => expect_shorter(request, room.len()),
            _ => Ok(()),
        }
    }

    /// Makes an indexed call and checks its answer.
    fn judge(&mut self, call: &IndexedCall) -> Result<(), String> {
        let asked = &call.call;
        let by = |index: &[u8]| {
            asked.made(|request, lent, budget| judge_indexed_line(request, index, lent, budget))
        };
        let left = by(&call.index);
        let answer = left.answer;
        self.note(
            &asked.request,
            &call.index,
            asked.budget,
            (answer, left.line),
        );
        match answer.number {
            DIFFERS => expect_differing(call, answer)?,
            _ => expect_form(answer, &asked.request, &[])?,
        }
        expect_outlook(answer, asked.outlook)?;
        expect_left(asked, &left)?;
        let plain = asked.made(judge_line);
        expect_plain(call, &left, &plain)?;
        if !matches!(plain.answer.number, 0..=3) {
            return Ok(());
        }
        let read = open(&asked.request).map_err(|_| format!("answer {answer} unread"))?;
        let right = by(&index_of(&read));
        if right != plain {
            let (one, other) = (right.answer, plain.answer);
            return Err(format!(
                "by the right index {one}, by the walk call {other}"
            ));
        }
        let second = paths::answer(&read, asked.budget, MOST_PATHS);
        self.second_walks.compare(second, &right)
    }
}

impl Checked for Tally {
    fn found(&self) -> &Differences {
        &self.differences
    }

    fn never_met(&self) -> Vec<String> {
        let built = self.built.never(&OF_BUILDING, "in building", &Built::ALL);
        let judged = self.judged.never(&OF_JUDGING, "by an index", &Event::ALL);
        built.chain(judged).collect()
    }

    fn none_rare(&self) -> Result<(), String> {
        self.built.none_rare(&[0, ROOM_SHORT], LEAST_SHARE)?;
        self.judged.none_rare(&[0, 1, 2, 3, DIFFERS], LEAST_SHARE)
    }

    fn report(&self) -> String {
        let numbers = [
            (
                "walks by the right index compared with the second walk",
                self.second_walks.compared(),
            ),
            (
                "walks by the right index too large for the second walk",
                self.second_walks.left(),
            ),
        ];
        let longest = [("bytes of the longest index", self.longest as u64)];
        self.differences.report()
            + &self.built.report("indexes asked for", &longest)
            + &self.judged.report("requests judged by an index", &numbers)
    }
}

/// What the answer to a wrong index keeps to. The showing call shows nothing of it.
fn expect_differing(call: &IndexedCall, answer: Answer) -> Result<(), String> {
    let place = answer.place as usize;
    let request = &call.call.request;
    let right = answer.input == INDEX && answer.count == 0 && place <= call.index.len();
    match right && shown(answer, request, &call.index).is_empty() {
        true => Ok(()),
        false => Err(format!("answer {answer} is out of form")),
    }
}

/// 45 is given where the walk call walks and the index is another; and else what the walk call gives.
fn expect_plain(call: &IndexedCall, left: &Left, plain: &Left) -> Result<(), String> {
    let right = match left.answer.number {
        DIFFERS => plain.answer.number <= 3 && is_first_difference(call, left.answer.place),
        _ => left == plain,
    };
    match right {
        true => Ok(()),
        false => Err(format!(
            "answer {}, by the walk call {}",
            left.answer, plain.answer
        )),
    }
}

/// Up to this place the index is the right one, as the index call writes it, and there it is not.
fn is_first_difference(call: &IndexedCall, place: u32) -> bool {
    let place = place as usize;
    let mut room = vec![0; FAR_TOO_LONG];
    let built = index(&call.call.request, &mut room);
    let right = &room[..built.count as usize];
    let same_before = call.index.get(..place) == right.get(..place);
    built.number == 0 && same_before && call.index.get(place) != right.get(place)
}

/// The lines of sections 3 and 4 that an index has, put in the order of their offsets, are all lines of
/// those sections: each begins where the one before it ends, and each has the action it is said to have.
/// Within a list the offsets ascend.
fn expect_index(request: &[u8], index: &[u8]) -> Result<(), String> {
    let byte = |place: usize| request.get(place).copied().unwrap_or(0);
    let number = |place: usize| usize::from(byte(place));
    let mut found: [Vec<(usize, u8)>; 2] = Default::default();
    let mut at = 0;
    for action in 0..byte(1) {
        for lines in &mut found {
            let count = *index.get(at).ok_or("the index ends too soon")?;
            let end = at + 1 + 2 * usize::from(count);
            let list = index.get(at + 1..end).ok_or("the index ends too soon")?;
            let offsets = list
                .chunks(2)
                .map(|pair| 256 * usize::from(pair[0]) + usize::from(pair[1]));
            let offsets: Vec<usize> = offsets.collect();
            if offsets.windows(2).any(|pair| pair[0] >= pair[1]) {
                return Err(format!("the offsets at {at} do not ascend"));
            }
            lines.extend(offsets.into_iter().map(|offset| (offset, action)));
            at = end;
        }
    }
    if at != index.len() {
        return Err("the index goes on".to_string());
    }
    // The count of effects stands behind the facts, and that of the executability lines behind the effects.
    let mut next = 3 + number(2);
    for (lines, before_body) in found.iter_mut().zip([2, 1]) {
        lines.sort_unstable();
        let right = lines.len() == number(next);
        next += 1;
        for &(offset, action) in lines.iter() {
            if !right || offset != next || byte(offset) != action {
                return Err(format!("the index has {offset} for action {action}"));
            }
            next = offset + before_body + 1 + number(offset + before_body);
        }
        if !right {
            return Err(format!("the index has {} lines", lines.len()));
        }
    }
    Ok(())
}

/// The room is shorter than two bytes for each action and two for each line.
fn expect_shorter(request: &[u8], room: usize) -> Result<(), String> {
    let read = open(request).map_err(|_| "no room for a request that is refused".to_string())?;
    let lines = read.effects.len() + read.allowances.len();
    match room < 2 * usize::from(read.actions) + 2 * lines {
        true => Ok(()),
        false => Err(format!("a room of {room} bytes is too short")),
    }
}
