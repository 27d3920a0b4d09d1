//! The way through an action by an index: its lines are those that stand in the request at its offsets.

use crate::model::Request;
use crate::table::{Known, Lines, Table};
use crate::walk::{walk_along, Verdict, Way};

/// Walks the plan of a settled request, whose bytes and index come along, and stops once the count is
/// above the budget. Only what is sensed comes from the table of what was read.
pub fn walk_by_index(request: &Request, bytes: &[u8], index: &[u8], budget: u32) -> Verdict {
    let table = Table::new(&Request {
        effects: Vec::new(),
        allowances: Vec::new(),
        ..request.clone()
    });
    let way = &mut ByIndex { bytes, index };
    match walk_along((request, &table), way, budget) {
        Ok(verdict) => verdict,
        Err(_) => unreachable!("an index has no cases"),
    }
}

struct ByIndex<'a> {
    /// The request's.
    bytes: &'a [u8],
    index: &'a [u8],
}

impl ByIndex<'_> {
    /// The lines at an action's offsets, behind the two lists of each action before it.
    fn lines(&self, action: u8) -> Lines {
        let mut left = self.index;
        for _ in 0..action {
            take_offsets(&mut left);
            take_offsets(&mut left);
        }
        let effects = take_offsets(&mut left);
        let allowances = take_offsets(&mut left);
        Lines {
            effects: effects.iter().map(|&place| self.effect(place)).collect(),
            allowances: (allowances.iter())
                .map(|&place| (place, self.body(place + 1)))
                .collect(),
        }
    }

    /// The literal and the body of the effect at a place, which follow its action.
    fn effect(&self, place: usize) -> (Known, Known) {
        let literal = Known::of(&self.bytes[place + 1..place + 2]);
        (literal, self.body(place + 2))
    }

    /// The body whose count stands at a place.
    fn body(&self, place: usize) -> Known {
        let count = usize::from(self.bytes[place]);
        Known::of(&self.bytes[place + 1..][..count])
    }
}

/// Takes a count byte and as many offsets off the front.
fn take_offsets(left: &mut &[u8]) -> Vec<usize> {
    let (list, rest) = left[1..].split_at(2 * usize::from(left[0]));
    *left = rest;
    let offset = |pair: &[u8]| usize::from(u16::from_be_bytes([pair[0], pair[1]]));
    list.chunks(2).map(offset).collect()
}

impl Way for ByIndex<'_> {
    fn runnable(&mut self, action: u8, state: Known) -> bool {
        self.lines(action).runnable(state)
    }

    fn nearest(&mut self, action: u8, state: Known) -> usize {
        self.lines(action).nearest(state)
    }

    fn step(&mut self, action: u8, state: Known) -> Known {
        self.lines(action).step(state)
    }
}
