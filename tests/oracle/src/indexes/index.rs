//! Indexes as bytes.

use crate::model::Request;

/// The places of an action's effects and of its executability lines, each in file order.
pub type Places = [Vec<usize>; 2];

/// These places for each action of a request that was read.
pub fn places(request: &Request) -> Vec<Places> {
    let mut all = vec![Places::default(); usize::from(request.actions)];
    for line in &request.effects {
        all[usize::from(line.action)][0].push(line.place);
    }
    for (place, line) in request.placed_allowances() {
        all[usize::from(line.action)][1].push(place);
    }
    all
}

/// Writes such places, action after action: a count byte and the offsets, high byte first, twice.
pub fn encode_index(places: &[Places]) -> Vec<u8> {
    let mut bytes = Vec::new();
    for list in places.iter().flatten() {
        bytes.push(u8::try_from(list.len()).expect("lines of a section"));
        for &place in list {
            let offset = u16::try_from(place).expect("a place in a request");
            bytes.extend(offset.to_be_bytes());
        }
    }
    bytes
}

/// The index of a request that was read.
pub fn index_of(request: &Request) -> Vec<u8> {
    encode_index(&places(request))
}

/// Where two strings of bytes first differ, which is the length of the shorter one where it ends before
/// they do; nothing where they are the same.
pub fn first_difference(one: &[u8], other: &[u8]) -> Option<usize> {
    let alike = one
        .iter()
        .zip(other)
        .take_while(|(one, other)| one == other);
    let place = alike.count();
    (place < one.len().max(other.len())).then_some(place)
}
