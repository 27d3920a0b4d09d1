//! Index calls and indexed calls made to do harm: tables as large as the format lets them be, indexes and rooms far longer than any index, and none.

use oracle::encode::encode_request;
use oracle::indexes::calls::{FAR_TOO_LONG, LONGEST};
use oracle::indexes::index::index_of;
use oracle::model::{Allowance, Effect, Item, Request};
use oracle::reader::{ACTION_LIMIT, ITEM_LIMIT, REQUEST_LIMIT};

use crate::calls::Call;
use crate::hostile::{all_lengths, eightfold, literals, Input, Named, FLUENTS, SECTION};
use crate::indexes::Indexed;

const MOST: u32 = 100_000;
const FEW: u32 = 1_000;
const LAST_ACTION: u8 = ACTION_LIMIT as u8 - 1;
/// Rooms of these lengths for every table.
const ROOMS: [usize; 6] = [0, 1, LONGEST - 1, LONGEST, LONGEST + 1, FAR_TOO_LONG];

pub fn built(name: &str, request: Vec<u8>, room: usize) -> Named {
    (format!("index: {name}, room of {room}"), Input::Index(Call { request, lent: vec![9; room], budget: 0 }))
}

pub fn indexed(name: &str, request: Vec<u8>, index: Vec<u8>, budget: u32) -> Named {
    let call = Call { request, lent: vec![9; glintstring::STATE_LENGTH], budget };
    (format!("indexed: {name}"), Input::Indexed(Indexed { call, index }))
}

/// The index of a request that is not refused.
fn index_for(request: &[u8]) -> Vec<u8> {
    index_of(&oracle::open(request).expect("a request that is not refused"))
}

/// Every input by name, with the deepest walks.
pub fn named(deepest: Vec<(String, Call)>) -> Vec<Named> {
    let mut inputs: Vec<Named> = Vec::new();
    for (name, call) in deepest {
        let index = index_for(&call.request);
        inputs.push(indexed(&name, call.request, index, call.budget));
    }
    for (name, request) in tables() {
        inputs.extend(ROOMS.iter().map(|&room| built(name, request.clone(), room)));
        inputs.extend(indexes(name, &request));
    }
    for (name, bytes) in all_lengths(REQUEST_LIMIT) {
        inputs.extend([0, FAR_TOO_LONG].map(|room| built(&format!("a request of {name}"), bytes.clone(), room)));
        inputs.push(indexed(&format!("a request of {name}"), bytes, vec![0; FAR_TOO_LONG], MOST));
    }
    inputs
}

/// A request by its right index, without one, by one that is far too long, by one that ends or goes on by a byte, and by bytes that are all the same.
fn indexes(name: &str, request: &[u8]) -> Vec<Named> {
    let right = index_for(request);
    let resized = |length: usize| {
        let mut index = right.clone();
        index.resize(length, 0);
        index
    };
    let last = [&right[..right.len() - 1], &[right[right.len() - 1] ^ 1]].concat();
    let given = [
        ("its index", right.clone()),
        ("no index", Vec::new()),
        ("its index but for its last byte", resized(right.len() - 1)),
        ("its index and a byte more", resized(right.len() + 1)),
        ("its index with another last byte", last),
        ("its index and bytes behind it up to 70,000", resized(FAR_TOO_LONG)),
        ("70,000 bytes 0", vec![0; FAR_TOO_LONG]),
        ("70,000 bytes 255", vec![255; FAR_TOO_LONG]),
    ];
    given.into_iter().map(|(by, index)| indexed(&format!("{name}, by {by}"), request.to_vec(), index, FEW)).collect()
}

/// Tables with as many lines as there can be: all of one action, the first or the last of 128; two of each action but for one; and with bodies so long that the
/// request has 16,384 bytes.
fn tables() -> Vec<(&'static str, Vec<u8>)> {
    let effect = |action: u8, body: Vec<u8>| Effect { place: 0, action, literal: 2 * (FLUENTS - 1), body };
    let allowance = |action: u8, body: Vec<u8>| Allowance { action, body };
    let of = |action: fn(usize) -> u8, body: u8, plan: Vec<Item>| Request {
        fluents: FLUENTS,
        actions: ACTION_LIMIT as u8,
        facts: literals(0..16),
        effects: (0..SECTION).map(|line| effect(action(line), literals(0..body))).collect(),
        allowances: (0..SECTION).map(|line| allowance(action(line), literals(0..body))).collect(),
        plan,
        ..Request::default()
    };
    let long = |action: u8| vec![Item::act(action); ITEM_LIMIT];
    let mut largest = of(|line| LAST_ACTION - line as u8 / 2, 16, Vec::new());
    let left = REQUEST_LIMIT - encode_request(&largest).bytes.len();
    let size = encode_request(&Request { plan: vec![eightfold()], ..Request::default() }).bytes.len() - encode_request(&Request::default()).bytes.len();
    largest.plan = vec![eightfold(); left / size];
    largest.plan.extend(vec![Item::act(LAST_ACTION); left % size]);
    let requests = [
        ("no line", Request { effects: Vec::new(), allowances: Vec::new(), ..of(|_| 0, 0, Vec::new()) }),
        ("all lines of the first action", of(|_| 0, 0, long(0))),
        ("all lines of the last action", of(|_| LAST_ACTION, 0, long(LAST_ACTION))),
        ("lines of all actions in turn", of(|line| line as u8 % ACTION_LIMIT as u8, 0, long(LAST_ACTION - 1))),
        ("all lines of the last action, of 16 literals each", of(|_| LAST_ACTION, 16, long(LAST_ACTION))),
        ("the largest request", largest),
    ];
    requests.map(|(name, request)| (name, encode_request(&request).bytes)).to_vec()
}
