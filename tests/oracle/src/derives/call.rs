//! The derive call.

use crate::answer::{narrow, Answer, Fault, REQUEST};
use crate::encode::encode_derivation;
use crate::indexes::call::ROOM_SHORT;
use crate::model::Request;
use crate::prove::{natural, READ_AT_ONCE};
use crate::reader::DERIVATION_LIMIT;
use crate::table::{Known, Table};
use crate::walk::{walk, walk_along, ByKnowledge, TooMany, Verdict, Way};
use crate::{open, tell};

/// The answer to a request with whether entries.
pub const WHETHER_ASKED: u8 = 30;
/// The answer to a sensing action with more readings than a line may cite.
pub const TOO_WIDE: u8 = 37;
/// The answer to a plan with more lines than a derivation may have.
pub const TOO_MANY_LINES: u8 = 38;

/// The derive call: the request's reading and settling, then 30, then the walk, then what the scheme
/// comes to, and then the room.
///
/// Only answer 0 writes the room, which then starts with the derivation; its count is the derivation's
/// length.
pub fn derive(request: &[u8], room: &mut [u8], budget: u32) -> Answer {
    let request = match open(request) {
        Ok(request) => request,
        Err(fault) => return Answer::refusal(REQUEST, fault),
    };
    if !request.whether.is_empty() {
        let fault = Fault::new(WHETHER_ASKED, request.whether_place);
        return Answer::refusal(REQUEST, fault);
    }
    match walk(&request, budget) {
        Verdict::Verified { .. } => {}
        other => return tell(other, &mut [], budget),
    }
    let derivation = match written(&request) {
        Ok(derivation) => derivation,
        Err(answer) => return answer,
    };
    match room.get_mut(..derivation.len()) {
        Some(start) if derivation.len() <= DERIVATION_LIMIT => {
            start.copy_from_slice(&derivation);
            Answer::neither(0, narrow(derivation.len()))
        }
        _ => Answer::neither(ROOM_SHORT, 0),
    }
}

/// The derivation of a request that the walk verifies, whatever its length; 37 or 38 where there is none. Its
/// lines are those of the natural scheme.
pub fn written(request: &Request) -> Result<Vec<u8>, Answer> {
    if let Some(first) = first_too_wide(request, u32::MAX) {
        let fault = Fault::new(TOO_WIDE, first.place);
        return Err(Answer::refusal(REQUEST, fault));
    }
    match natural(request) {
        Some(lines) => Ok(encode_derivation(&lines).bytes),
        None => Err(Answer::neither(TOO_MANY_LINES, 0)),
    }
}

/// The first sensing action, in the order of the walk, that is met in a state in which more of its fluents
/// are unknown than rule 3 can take; none where a walk with this budget meets none.
pub fn first_too_wide(request: &Request, budget: u32) -> Option<TooMany> {
    let table = &Table::new(request);
    let way = &mut UpToTooWide {
        table,
        known: ByKnowledge(table),
    };
    walk_along((request, table), way, budget).err()
}

/// By what is known, up to such an action.
struct UpToTooWide<'a> {
    table: &'a Table,
    known: ByKnowledge<'a>,
}

impl Way for UpToTooWide<'_> {
    fn ends(&mut self, action: u8, state: Known) -> bool {
        let unknown = self.table.senses(action) & !state.marked();
        unknown.count_ones() > READ_AT_ONCE
    }

    fn runnable(&mut self, action: u8, state: Known) -> bool {
        self.known.runnable(action, state)
    }

    fn nearest(&mut self, action: u8, state: Known) -> usize {
        self.known.nearest(action, state)
    }

    fn step(&mut self, action: u8, state: Known) -> Known {
        self.known.step(action, state)
    }
}
