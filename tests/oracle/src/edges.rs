//! What has to occur at the limits of fluents, actions and lists, told from a call and its answer.

use std::collections::BTreeMap;
use std::fmt;

use crate::answer::{Answer, DERIVATION, REQUEST};
use crate::model::{Conclusion, Line, Proof, Request};
use crate::reader::{
    last_of_derivation, last_of_proof, last_of_request, read_derivation, read_proof, Part,
    ACTION_LIMIT, FLUENT_LIMIT, LIST_LIMIT,
};
use crate::tally::so;
use crate::{open, STATE_LENGTH};

/// The limit of fluents, of actions and of entries in a list: 128.
const LIMIT: u8 = LIST_LIMIT as u8;
const _: () = assert!(FLUENT_LIMIT == LIST_LIMIT && ACTION_LIMIT == LIST_LIMIT);
/// The largest literal that a byte can say.
const LAST_LITERAL: u8 = 255;
/// The largest item byte that can't be a branching.
const LAST_ITEM: u8 = 254;

/// Something at the limits, or just beyond them.
#[derive(Clone, Copy, Debug, PartialEq, Eq, PartialOrd, Ord)]
pub enum Edge {
    /// 12 at a count of 129 in this part.
    Above(Part),
    /// So much as there can be in this part, without fault.
    Full(Part),
    /// 13 at literal 255 where there are 127 fluents.
    NoLiteral,
    /// Literal 255 where there are 128 fluents, without fault.
    LastLiteral,
    /// 13 at an item of this byte where there are 128 actions.
    NoItem(u8),
    /// 13 at fluent 128 in Y's place where there are 128 fluents.
    NoFluent,
    /// Fluent 127 in Y's place, without fault.
    LastFluent,
    /// 9 for a lent state of this length.
    Lent(usize),
}

use Edge::*;

/// What judging calls have to meet.
pub const OF_JUDGING: [Edge; 17] = [
    Above(Part::Fluents),
    Above(Part::Actions),
    Above(Part::Facts),
    Above(Part::Goals),
    Above(Part::Whether),
    Full(Part::Fluents),
    Full(Part::Actions),
    Full(Part::Facts),
    Full(Part::Goals),
    Full(Part::Whether),
    NoLiteral,
    LastLiteral,
    NoItem(LIMIT),
    NoItem(LAST_ITEM),
    Lent(STATE_LENGTH / 2),
    Lent(STATE_LENGTH - 1),
    Lent(STATE_LENGTH + 1),
];

/// What derivation calls have to meet, and those of the second layout also the last two.
pub const OF_CHECKING: [Edge; 10] = [
    Above(Part::Before),
    Above(Part::After),
    Full(Part::Before),
    Full(Part::After),
    NoLiteral,
    LastLiteral,
    NoItem(LIMIT),
    NoItem(LAST_ITEM),
    NoFluent,
    LastFluent,
];
pub const OF_DERIVATIONS: &[Edge] = OF_CHECKING.split_at(8).0;

impl fmt::Display for Edge {
    fn fmt(&self, out: &mut fmt::Formatter<'_>) -> fmt::Result {
        match self {
            Above(part) => write!(out, "12 at a count of {} in {part:?}", LIMIT + 1),
            Full(part) => write!(out, "{LIMIT} in {part:?}"),
            NoLiteral => write!(
                out,
                "13 at literal {LAST_LITERAL} with {} fluents",
                LIMIT - 1
            ),
            LastLiteral => write!(out, "literal {LAST_LITERAL} with {LIMIT} fluents"),
            NoItem(byte) => write!(out, "13 at item {byte} with {LIMIT} actions"),
            NoFluent => write!(out, "13 at fluent {LIMIT} in Y's place"),
            LastFluent => write!(out, "fluent {} in Y's place", LIMIT - 1),
            Lent(length) => write!(out, "9 for a lent state of {length}"),
        }
    }
}

/// How often each was met.
#[derive(Clone, Debug, Default)]
pub struct Met(BTreeMap<Edge, u64>);

impl Met {
    pub fn note(&mut self, edges: Vec<Edge>) {
        for edge in edges {
            *self.0.entry(edge).or_default() += 1;
        }
    }

    /// How often one was met.
    pub fn times(&self, edge: Edge) -> u64 {
        self.0.get(&edge).copied().unwrap_or(0)
    }

    /// Those that were never met, in words.
    pub fn never(&self, wanted: &[Edge]) -> Vec<String> {
        let missing = wanted.iter().filter(|edge| self.times(**edge) == 0);
        missing.map(Edge::to_string).collect()
    }

    /// How often each of these was met, a line for each.
    pub fn told(&self, wanted: &[Edge]) -> String {
        let lines = wanted.iter().map(|&edge| (edge, self.times(edge)));
        lines
            .map(|(edge, times)| format!("  {edge}: {times}\n"))
            .collect()
    }
}

/// What a judging call with its answer shows.
pub fn of_judging(bytes: &[u8], lent: usize, answer: Answer) -> Vec<Edge> {
    let sizes = [0, 1].map(|place| bytes.get(place).copied().unwrap_or(0));
    match answer.number {
        9 => vec![Lent(lent)],
        0..=3 if sizes.contains(&LIMIT) => open(bytes).map_or(Vec::new(), |request| read(&request)),
        _ if answer.input == REQUEST => refused(bytes, sizes, answer, || last_of_request(bytes)),
        _ => Vec::new(),
    }
}

/// What a derivation call with its answer shows of the derivation.
pub fn of_derivation(request: &[u8], bytes: &[u8], answer: Answer) -> Vec<Edge> {
    checked(request, bytes, answer, last_of_derivation, |request| {
        read_derivation(bytes, request).map_or(Vec::new(), |lines| of_lines(&lines))
    })
}

/// The same in the second layout.
pub fn of_proof(request: &[u8], bytes: &[u8], answer: Answer) -> Vec<Edge> {
    checked(request, bytes, answer, last_of_proof, |request| {
        read_proof(bytes, request).map_or(Vec::new(), |proof| of_proof_lines(&proof))
    })
}

/// What a fault of the derivation shows, or what its lines do. Only requests with 127 fluents, or
/// 128 fluents or actions, have to be read for it, and those of a count of 129.
fn checked(
    request: &[u8],
    bytes: &[u8],
    answer: Answer,
    last: fn(&[u8], &Request) -> Part,
    of_lines: impl FnOnce(&Request) -> Vec<Edge>,
) -> Vec<Edge> {
    if answer.number != 0 && answer.input != DERIVATION {
        return Vec::new();
    }
    let Some(&[fluents, actions]) = request.first_chunk() else {
        return Vec::new();
    };
    if answer.number != 12 && fluents < LIMIT - 1 && actions < LIMIT {
        return Vec::new();
    }
    let Ok(request) = open(request) else {
        return Vec::new();
    };
    match answer.number {
        0 | 31.. => of_lines(&request),
        _ => refused(bytes, [fluents, actions], answer, || last(bytes, &request)),
    }
}

/// What a fault shows.
fn refused(
    bytes: &[u8],
    [fluents, actions]: [u8; 2],
    answer: Answer,
    part: impl Fn() -> Part,
) -> Vec<Edge> {
    let byte = bytes.get(answer.place as usize).copied().unwrap_or(0);
    let edge = match (answer.number, byte) {
        (12, byte) if byte == LIMIT + 1 => Some(Above(part())),
        (13, LAST_LITERAL) if fluents == LIMIT - 1 && of_literals(part()) => Some(NoLiteral),
        (13, LIMIT..=LAST_ITEM) => match part() {
            Part::Item if actions == LIMIT => Some(NoItem(byte)),
            Part::Concluded if fluents == LIMIT && byte == LIMIT => Some(NoFluent),
            _ => None,
        },
        _ => None,
    };
    edge.into_iter().collect()
}

/// Whether each byte of this part, its count apart, is a literal.
fn of_literals(part: Part) -> bool {
    matches!(
        part,
        Part::Facts | Part::Condition | Part::Goals | Part::Before | Part::After
    )
}

/// What a request without fault shows.
fn read(request: &Request) -> Vec<Edge> {
    let told = [
        (request.fluents == LIMIT, Full(Part::Fluents)),
        (request.actions == LIMIT, Full(Part::Actions)),
        (is_full(&request.facts), Full(Part::Facts)),
        (is_full(&request.goals), Full(Part::Goals)),
        (is_full(&request.whether), Full(Part::Whether)),
        (has_last([&request.facts, &request.goals]), LastLiteral),
    ];
    so(told)
}

/// What lines show that were read.
fn of_lines(lines: &[Line]) -> Vec<Edge> {
    let told = lines.iter().flat_map(|line| {
        so([
            (is_full(&line.before), Full(Part::Before)),
            (is_full(&line.after), Full(Part::After)),
            (has_last([&line.before, &line.after]), LastLiteral),
        ])
    });
    told.collect()
}

fn of_proof_lines(proof: &Proof) -> Vec<Edge> {
    let told = proof.lines.iter().flat_map(|line| {
        let (after, concluded) = match &line.gives {
            Conclusion::List(list) => (&list[..], None),
            Conclusion::Fluent(fluent) => (&[][..], Some(*fluent)),
        };
        so([
            (is_full(&line.before), Full(Part::Before)),
            (is_full(after), Full(Part::After)),
            (has_last([&line.before, after]), LastLiteral),
            (concluded == Some(LIMIT - 1), LastFluent),
        ])
    });
    told.collect()
}

fn is_full(list: &[u8]) -> bool {
    list.len() == LIST_LIMIT
}

fn has_last(lists: [&[u8]; 2]) -> bool {
    lists.iter().any(|list| list.last() == Some(&LAST_LITERAL))
}
