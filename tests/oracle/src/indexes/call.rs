//! The index call and the indexed call.

use super::index::{first_difference, index_of};
use super::way::walk_by_index;
use crate::answer::{narrow, Answer, Fault, INDEX, REQUEST};
use crate::{judge_opened, open};

/// The answer to a room that is shorter than what is to be written.
pub const ROOM_SHORT: u8 = 39;
/// The answer to an index that is another than the request's.
pub const DIFFERS: u8 = 45;

/// The index call: the request's reading and settling, then the room.
///
/// Only answer 0 writes the room, which then starts with the index; its count is the index's length.
pub fn index(request: &[u8], room: &mut [u8]) -> Answer {
    let request = match open(request) {
        Ok(request) => request,
        Err(fault) => return Answer::refusal(REQUEST, fault),
    };
    let index = index_of(&request);
    match room.get_mut(..index.len()) {
        Some(start) => {
            start.copy_from_slice(&index);
            Answer::neither(0, narrow(index.len()))
        }
        None => Answer::neither(ROOM_SHORT, 0),
    }
}

/// The indexed call: 9, then the request's reading and settling, then the index, then the walk by it.
///
/// Answers 1 and 2 write the partial state concerned; otherwise the lent state stays as it is.
pub fn judge_indexed(request: &[u8], index: &[u8], lent: &mut [u8], budget: u32) -> Answer {
    judge_indexed_line(request, index, lent, budget).0
}

/// The indexed call with the line that its answer carries, which is 0 for 45.
pub fn judge_indexed_line(
    request: &[u8],
    index: &[u8],
    lent: &mut [u8],
    budget: u32,
) -> (Answer, u32) {
    let opened = || open(request);
    judge_opened(lent, budget, opened, |read, _| {
        match first_difference(index, &index_of(&read)) {
            None => Ok(walk_by_index(&read, request, index, budget)),
            // The count is 0, as that of a refusal is.
            Some(place) => Err(Answer::refusal(INDEX, Fault::new(DIFFERS, place))),
        }
    })
}
