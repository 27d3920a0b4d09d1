//! Small random calls with their answers as rows of text, for others to compute again.
//!
//! A judging call is one line
//! `J REQUEST LENT BUDGET NUMBER INPUT PLACE COUNT STATE LINE`,
//! a derivation call is one line
//! `D REQUEST DERIVATION NUMBER INPUT PLACE COUNT`;
//! those of the second layout stand in `whether/rows.rs`.
//!
//! Bytes are decimal with commas between, and `-` is no byte at all. `REP BYTE N`, three words
//! in place of one, stands for N times one byte. LENT is the length of the lent state. STATE is
//! all bytes of the lent state after answers 1 and 2, and `-` where it stays as lent. LINE is the
//! place of the executability line that answer 2 at an action carries, and 0 otherwise.
//!
//! All answers of a call come round in 150 rows, and answers 2 stop at items of every kind. Requests have at most 120 bytes, a few up to
//! 300; derivations at most 200, a few up to 400; a walk that is reached counts at most 2,000.
//! Only item 1,025 takes more bytes (two rows of judging and one of checking, in the first
//! round), an input too long (one row of each kind, there, written with `REP`), and lists of 128
//! entries (one row of each kind, there). The first round also has rows for each of the edges of
//! `edges.rs`.

use crate::answer::{writes_state, Answer, DERIVATION, NEITHER, REQUEST};
use crate::calls::{
    any_check_call, damaged_judge_call, derivable, lend_wrongly, sound_judge_call, CheckCall,
    JudgeCall, Left,
};
use crate::edges::{of_derivation, of_judging, Edge, OF_DERIVATIONS, OF_JUDGING};
use crate::generate::{drawn, filled, forgetful, Shape, MIDDLE, SMALL, TINY};
use crate::model::Request;
use crate::prove::natural;
use crate::reader::{Part, DERIVATION_LIMIT, LIST_LIMIT, REQUEST_LIMIT};
use crate::rng::Rng;
use crate::run::Stop;
use crate::text::comma_separated;
use crate::walk::{walk, Verdict};
use crate::{check, judge_line, open};

/// Most bytes of a request, and of the few that are longer.
pub(crate) const BYTES: usize = 120;
const MORE_BYTES: usize = 300;
/// Most bytes of a derivation, and of the few that are longer.
pub(crate) const DERIVATION_BYTES: usize = 200;
pub(crate) const MORE_DERIVATION_BYTES: usize = 400;
/// Most bytes of an input with item 1,025.
pub(crate) const LONG_BYTES: usize = 1_200;
/// Most bytes of an input with lists of 128 entries.
pub(crate) const FULL_BYTES: usize = 600;
/// Largest count of a walk.
const COUNT: u32 = 2_000;
/// Rows after which all answers have come round.
const ROUND: u64 = 150;

/// How often each answer comes in a round of judging calls.
const JUDGING: [(u8, u64); 15] = [
    (0, 25),
    (1, 25),
    (2, 20),
    (3, 20),
    (9, 2),
    (11, 8),
    (12, 10),
    (13, 10),
    (14, 8),
    (15, 6),
    (16, 4),
    (17, 4),
    (18, 4),
    (19, 1),
    (20, 3),
];

/// The answers that take long inputs, which stand in the first round only.
const LONG_JUDGING: [u8; 3] = [10, 21, 21];

/// How often each answer comes in a round of derivation calls.
const CHECKING: [((u8, u8), u64); 25] = [
    ((0, NEITHER), 46),
    ((30, REQUEST), 5),
    ((31, DERIVATION), 7),
    ((32, DERIVATION), 10),
    ((33, DERIVATION), 10),
    ((34, DERIVATION), 27),
    ((35, DERIVATION), 10),
    ((11, DERIVATION), 4),
    ((12, DERIVATION), 5),
    ((13, DERIVATION), 4),
    ((14, DERIVATION), 3),
    ((15, DERIVATION), 3),
    ((18, DERIVATION), 3),
    ((19, DERIVATION), 1),
    ((20, DERIVATION), 2),
    ((11, REQUEST), 1),
    ((12, REQUEST), 1),
    ((13, REQUEST), 1),
    ((14, REQUEST), 1),
    ((15, REQUEST), 1),
    ((16, REQUEST), 1),
    ((17, REQUEST), 1),
    ((18, REQUEST), 1),
    ((19, REQUEST), 1),
    ((20, REQUEST), 1),
];

/// The answers that take long inputs, which stand in the first round only.
const LONG_CHECKING: [(u8, u8); 2] = [(10, DERIVATION), (21, DERIVATION)];

/// So many rows of both kinds, one after the other.
pub fn rows(seed: u64, judging: u64, checking: u64) -> impl Iterator<Item = String> {
    let judged = rounds(seed, 3, judging, &JUDGING, &LONG_JUDGING, &OF_JUDGING)
        .zip(0..)
        .map(move |(wanted, index)| judging_row(&mut Rng::new(seed, 4, index), wanted));
    let checked = rounds(seed, 5, checking, &CHECKING, &LONG_CHECKING, OF_DERIVATIONS)
        .zip(0..)
        .map(move |(wanted, index)| checking_row(&mut Rng::new(seed, 6, index), wanted));
    judged.chain(checked)
}

/// What is wanted of a row.
#[derive(Clone, Copy)]
pub(crate) enum Wanted<T> {
    Answered(T),
    Shows(Edge),
}

impl<T> Wanted<T> {
    /// Of rows of which none has to show an edge.
    pub(crate) fn answered(self) -> T {
        match self {
            Wanted::Answered(wanted) => wanted,
            Wanted::Shows(_) => unreachable!("no edge is asked for"),
        }
    }
}

/// What a row of a call with events of its own is wanted for.
#[derive(Clone, Copy, Debug)]
pub(crate) enum Shown<Event> {
    Number(u8),
    Event(Event),
}

impl<Event: PartialEq> Shown<Event> {
    /// Whether a call with a request of at most so many bytes shows it, by the events that are told from
    /// request, budget and answer. For 21 the request may be longer, and for 10 it has to be.
    pub(crate) fn is_shown(
        &self,
        call: &JudgeCall,
        most: usize,
        judge: fn(&[u8], &mut [u8], u32) -> (Answer, u32),
        events: fn(&[u8], u32, Answer) -> Vec<Event>,
    ) -> bool {
        let answer = call.made(judge).answer;
        let most = match self {
            Shown::Number(10) => usize::MAX,
            Shown::Number(21) => LONG_BYTES,
            _ => most,
        };
        let events = || events(&call.request, call.budget, answer);
        call.request.len() <= most && self.is_met(answer.number, events)
    }

    /// Whether an answer with this number shows it, and these events.
    pub(crate) fn is_met(&self, number: u8, events: impl FnOnce() -> Vec<Event>) -> bool {
        match self {
            Shown::Number(wanted) => number == *wanted,
            Shown::Event(event) => events().contains(event),
        }
    }

    /// A call that may show it: a sound one where the walk is to be reached, and else a damaged one. For
    /// 9 the lent state has another length, and for 10 the request is too long.
    pub(crate) fn called(
        &self,
        rng: &mut Rng,
        walked: bool,
        sound: impl FnOnce(&mut Rng) -> JudgeCall,
        damaged: impl FnOnce(&mut Rng) -> JudgeCall,
    ) -> JudgeCall {
        let mut call = match walked || matches!(self, Shown::Number(9 | 10)) {
            true => sound(rng),
            false => damaged(rng),
        };
        match self {
            Shown::Number(9) => lend_wrongly(rng, &mut call),
            Shown::Number(10) => too_long(rng, &mut call.request),
            _ => {}
        }
        call
    }
}

/// Rows of calls of one kind: streams of random numbers, of the order within a round and of the calls;
/// what rows are wanted for, with how often each comes in a round, and what stands in the first round
/// only; a call that may be as wanted, whether it is, and how it is told.
pub(crate) struct Series<Wanted: 'static, Call> {
    pub(crate) streams: [u64; 2],
    pub(crate) often: &'static [(Wanted, u64)],
    pub(crate) first: &'static [Wanted],
    pub(crate) draw: fn(&mut Rng, Wanted) -> Call,
    pub(crate) fits: fn(&Call, Wanted) -> bool,
    pub(crate) tell: fn(&Call) -> String,
}

impl<Wanted: Copy, Call> Series<Wanted, Call> {
    /// So many rows.
    pub(crate) fn rows(&'static self, seed: u64, count: u64) -> impl Iterator<Item = String> {
        rounds(seed, self.streams[0], count, self.often, self.first, &[])
            .zip(0..)
            .map(move |(wanted, index)| {
                let rng = &mut Rng::new(seed, self.streams[1], index);
                (self.tell)(&self.call(rng, wanted.answered()))
            })
    }

    fn call(&self, rng: &mut Rng, wanted: Wanted) -> Call {
        loop {
            let call = (self.draw)(rng, wanted);
            if (self.fits)(&call, wanted) {
                return call;
            }
        }
    }
}

/// What is wanted of rows, each round in an order of its own. In the first round long inputs and
/// edges take the place of some of the most frequent answer.
pub(crate) fn rounds<T: Copy>(
    seed: u64,
    stream: u64,
    rows: u64,
    often: &'static [(T, u64)],
    long: &'static [T],
    edges: &'static [Edge],
) -> impl Iterator<Item = Wanted<T>> {
    let first = move || {
        let long = long.iter().copied().map(Wanted::Answered);
        let edges = edges.iter().copied().filter(|&edge| !shown_beside(edge));
        long.chain(edges.map(Wanted::Shows))
    };
    (0..rows.div_ceil(ROUND))
        .flat_map(move |round| {
            let times = often
                .iter()
                .flat_map(|&(wanted, times)| (0..times).map(move |_| Wanted::Answered(wanted)));
            let mut wanted: Vec<Wanted<T>> = times.collect();
            if round == 0 {
                wanted.splice(..first().count(), first());
            }
            Rng::new(seed, stream, round).shuffle(&mut wanted);
            wanted
        })
        .take(usize::try_from(rows).unwrap_or(usize::MAX))
}

/// Whether a row with another edge shows this one too: lists are full together.
fn shown_beside(edge: Edge) -> bool {
    matches!(edge, Edge::Full(Part::Goals | Part::Whether | Part::After))
}

/// A row as wanted.
fn judging_row(rng: &mut Rng, wanted: Wanted<u8>) -> String {
    let call = match wanted {
        Wanted::Shows(edge) => edge_judging(rng, edge),
        Wanted::Answered(10) => {
            let mut call = judging_call(rng, 11, BYTES);
            too_long(rng, &mut call.request);
            call
        }
        Wanted::Answered(21) => judging_call(rng, 21, LONG_BYTES),
        Wanted::Answered(2) => {
            let wanted = *rng.pick(&Stop::ALL);
            loop {
                let call = judging_call(rng, 2, BYTES);
                if stop_of(&call) == Some(wanted) {
                    break call;
                }
            }
        }
        Wanted::Answered(wanted) => {
            let most = if rng.chance(4) { MORE_BYTES } else { BYTES };
            judging_call(rng, wanted, most)
        }
    };
    tell_request("J", &call, &judged(&call))
}

/// A call that shows an edge, with a small request unless its lists are full.
fn edge_judging(rng: &mut Rng, edge: Edge) -> JudgeCall {
    loop {
        let shape = spread_shape(rng);
        let draft = drawn(rng, &shape);
        let (draft, most) = match edge {
            Edge::Full(Part::Facts) => (filled(rng, &draft), FULL_BYTES),
            _ => (draft, BYTES),
        };
        let mut call = match edge {
            Edge::Full(_) | Edge::LastLiteral => sound_judge_call(rng, &draft),
            _ => damaged_judge_call(rng, &draft),
        };
        if let Edge::Lent(_) = edge {
            lend_wrongly(rng, &mut call);
        }
        let shown = of_judging(&call.request, call.lent.len(), judged(&call).answer);
        if call.request.len() <= most && shown.contains(&edge) && is_light(&call) {
            return call;
        }
    }
}

/// A call of the wanted answer with a small request.
fn judging_call(rng: &mut Rng, wanted: u8, most: usize) -> JudgeCall {
    loop {
        let draft = small_request(rng, most);
        let mut call = match wanted > 3 {
            true => damaged_judge_call(rng, &draft),
            false => sound_judge_call(rng, &draft),
        };
        if wanted == 9 {
            lend_wrongly(rng, &mut call);
        }
        if call.request.len() <= most && judged(&call).answer.number == wanted && is_light(&call) {
            return call;
        }
    }
}

/// Where answer 2 stops the walk.
fn stop_of(call: &JudgeCall) -> Option<Stop> {
    let Left { answer, line, .. } = judged(call);
    let byte = call.request.get(answer.place as usize)?;
    let request = open(&call.request).ok()?;
    Some(Stop::of(&request, *byte, line))
}

/// A request of a small shape, or of a larger one where it may be longer.
fn small_request(rng: &mut Rng, most: usize) -> Request {
    match rng.below(100) {
        _ if most == MORE_BYTES => drawn(rng, &MIDDLE),
        0..=4 => forgetful(rng, 3, 3),
        _ => {
            let shape = small_shape(rng);
            drawn(rng, shape)
        }
    }
}

pub(crate) fn small_shape(rng: &mut Rng) -> &'static Shape {
    match rng.chance(60) {
        true => &TINY,
        false => &SMALL,
    }
}

/// The whole walk, if it is reached, counts little.
fn is_light(call: &JudgeCall) -> bool {
    match open(&call.request) {
        Ok(request) => walk(&request, COUNT) != Verdict::Over,
        Err(_) => true,
    }
}

fn judged(call: &JudgeCall) -> Left {
    call.made(judge_line)
}

/// A request, or a release file, that is too long.
pub(crate) fn too_long(rng: &mut Rng, request: &mut Vec<u8>) {
    *request = vec![rng.byte(0, LIST_LIMIT as u8); REQUEST_LIMIT + 1];
}

/// A row that begins with these words, of a call and what it leaves.
pub(crate) fn tell_judging(words: &str, call: &JudgeCall, left: &Left) -> String {
    format!("{} {}", tell_state(words, call, left), left.line)
}

/// The same without the line that the answer carries.
pub(crate) fn tell_state(words: &str, call: &JudgeCall, left: &Left) -> String {
    let Left { answer, lent, .. } = left;
    let state = match writes_state(answer.number) {
        true => comma_separated(lent),
        false => "-".to_string(),
    };
    let (length, budget) = (call.lent.len(), call.budget);
    format!("{words} {length} {budget} {answer} {state}")
}

/// A row that begins with this letter and the request.
pub(crate) fn tell_request(letter: &str, call: &JudgeCall, left: &Left) -> String {
    let request = tell_bytes(&call.request);
    tell_judging(&format!("{letter} {request}"), call, left)
}

/// A row as wanted.
fn checking_row(rng: &mut Rng, wanted: Wanted<(u8, u8)>) -> String {
    let call = match wanted {
        Wanted::Shows(edge) => edge_call(
            rng,
            edge,
            derivable,
            natural,
            |rng, draft, lines| any_check_call(rng, draft, lines),
            |call| {
                let answer = check(&call.request, &call.derivation);
                of_derivation(&call.request, &call.derivation, answer)
            },
        ),
        Wanted::Answered((10, _)) => {
            let mut call = checking_call(rng, (11, DERIVATION), DERIVATION_BYTES);
            call.derivation = vec![rng.byte(0, LIST_LIMIT as u8); DERIVATION_LIMIT + 1];
            call
        }
        Wanted::Answered(wanted @ (21, _)) => checking_call(rng, wanted, LONG_BYTES),
        Wanted::Answered(wanted) => {
            let most = if rng.chance(5) {
                MORE_DERIVATION_BYTES
            } else {
                DERIVATION_BYTES
            };
            checking_call(rng, wanted, most)
        }
    };
    tell_checking(&call)
}

/// A call that shows an edge, with small inputs unless their lists are full. In either layout a
/// derivation is drawn with its request or, for full lists, made of it, and a call of the two
/// shows some edges.
pub(crate) fn edge_call<D>(
    rng: &mut Rng,
    edge: Edge,
    draw: fn(&mut Rng, &Shape) -> (Request, D),
    natural: fn(&Request) -> Option<D>,
    any_call: impl Fn(&mut Rng, &Request, &D) -> CheckCall,
    shown: impl Fn(&CheckCall) -> Vec<Edge>,
) -> CheckCall {
    loop {
        let shape = spread_shape(rng);
        let full = matches!(edge, Edge::Full(_));
        let (draft, derivation) = match full {
            false => draw(rng, &shape),
            true => {
                let draft = drawn(rng, &shape);
                let draft = unasked(filled(rng, &draft));
                let Some(derivation) = natural(&draft) else {
                    continue;
                };
                (draft, derivation)
            }
        };
        let call = any_call(rng, &draft, &derivation);
        if is_small(&call, full) && shown(&call).contains(&edge) {
            return call;
        }
    }
}

/// Both inputs of a call that shows an edge have few bytes, or with full lists not too many.
fn is_small(call: &CheckCall, full: bool) -> bool {
    let (most, most_derived) = match full {
        false => (BYTES, DERIVATION_BYTES),
        true => (FULL_BYTES, FULL_BYTES),
    };
    call.request.len() <= most && call.derivation.len() <= most_derived
}

/// The same request without goals and whether entries.
fn unasked(request: Request) -> Request {
    Request {
        goals: Vec::new(),
        whether: Vec::new(),
        ..request
    }
}

/// A small shape, of which each draft is spread.
pub(crate) fn spread_shape(rng: &mut Rng) -> Shape {
    Shape {
        spread: 100,
        ..*small_shape(rng)
    }
}

/// A call of the wanted answer with small inputs.
fn checking_call(rng: &mut Rng, wanted: (u8, u8), most: usize) -> CheckCall {
    loop {
        let shape = small_shape(rng);
        let (draft, lines) = derivable(rng, shape);
        let call = any_check_call(rng, &draft, &lines);
        let small = call.request.len() <= BYTES && call.derivation.len() <= most;
        if small && lines.len() > 1 {
            let answer = check(&call.request, &call.derivation);
            if (answer.number, answer.input) == wanted {
                return call;
            }
        }
    }
}

fn tell_checking(call: &CheckCall) -> String {
    let answer = check(&call.request, &call.derivation);
    format!(
        "D {} {} {answer}",
        tell_bytes(&call.request),
        tell_bytes(&call.derivation)
    )
}

/// Bytes with commas between, or `REP BYTE N` for many equal ones.
pub(crate) fn tell_bytes(bytes: &[u8]) -> String {
    match bytes.first() {
        Some(first) if bytes.len() > REQUEST_LIMIT && bytes.iter().all(|byte| byte == first) => {
            format!("REP {first} {}", bytes.len())
        }
        _ => comma_separated(bytes),
    }
}
