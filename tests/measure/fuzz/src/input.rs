//! Inputs of the fuzzer: a byte that says what is called, a number of two bytes, and what the call is given.

use glintstring::STATE_LENGTH;
use oracle::rng::Rng;

use crate::calls::Call;
use crate::checks::{Check, Layout};
use crate::derivations::any_check;
use crate::generated::any_call;
use crate::indexes::{self, Both, Indexed};
use crate::releases::{self, Release};
use crate::{by_cases, by_cases_rows, cases, derive_rows, derives, guarded, guarded_cases, index_rows, release_cases, values, values_rows, whether, whether_cases};

/// A derivation call where this bit is set; the number is the length of the request, and the derivation follows it.
const DERIVATION: u8 = 1;
/// Instead of a derivation call: a whether call.
const CLOSING: u8 = 8;
/// A release call, and a plans call, where this bit is set and that of a derivation call is not. The row has four numbers for each plan, or those of
/// one plan where the file has none.
const RELEASE: u8 = 64;
/// A guarded call instead of a walk call.
const GUARDED: u8 = 128;
/// A call by cases instead of a walk call.
const BY_CASES: u8 = 32;
/// An index call and an indexed call instead of a walk call, where both are set. Two bytes more have the length of the request, and the index follows it; the room
/// has an eighth of the number as its length.
const INDEXED: u8 = GUARDED | BY_CASES;
/// A derive call, where both are set. Two bytes more have the length of the room, and the request follows them.
const DERIVE: u8 = GUARDED | DERIVATION;
/// A values call, where both are set and that of a guarded call is not.
const VALUES: u8 = RELEASE | DERIVATION;
/// In a call that walks: a budget of up to 16,383 instead of 255.
const FAR: u8 = 2;
/// The lent state, or the row, has the number modulo `LENGTHS` as its length where these are all set, and its own otherwise.
const ODD_LENGTH: u8 = 7 << 2;
const LENGTHS: usize = 2 * STATE_LENGTH + 2;
/// The longest input.
pub const LONGEST: usize = 4_096;
/// Streams of random numbers of the comparison's calls.
const CALLS: u64 = 3;
const CHECKS: u64 = 7;
const WHETHER: u64 = 13;
const RELEASES: u64 = 17;
const GUARDS: u64 = 22;
const CASES: u64 = 27;
const INDEXES: u64 = 35;
const DERIVES: u64 = 40;
const VALUED: u64 = 61;

/// A call to be made both ways.
pub enum Given {
    Walk(Call),
    Guarded(Call),
    ByCases(Call),
    Values(Call),
    Indexed(Both),
    Derive(Call),
    Derivation(Check),
    Release(Release),
}

/// The call that an input stands for; each input stands for one.
pub fn given(input: &[u8]) -> Given {
    let (kind, number, rest) = match *input {
        [kind, high, low, ref rest @ ..] => (kind, u16::from_be_bytes([high, low]), rest),
        _ => (0, 0, input),
    };
    let budget = if kind & FAR != 0 { number / 4 } else { number % 256 };
    if kind & DERIVE == DERIVE {
        let (length, request) = length_first(rest);
        return Given::Derive(Call { request: request.to_vec(), lent: vec![9; length], budget: budget.into() });
    }
    let odd = (kind & ODD_LENGTH == ODD_LENGTH).then_some(usize::from(number) % LENGTHS);
    let length = odd.unwrap_or(STATE_LENGTH);
    let call = |request: &[u8]| Call { request: request.to_vec(), lent: vec![9; length], budget: budget.into() };
    if kind & VALUES == VALUES {
        return Given::Values(call(rest));
    }
    if kind & DERIVATION != 0 {
        let (request, derivation) = rest.split_at(rest.len().min(number.into()));
        let (request, derivation) = (request.to_vec(), derivation.to_vec());
        return Given::Derivation(match kind & CLOSING {
            0 => Check::plain(request, derivation),
            _ => Check::closing(request, derivation),
        });
    }
    if kind & RELEASE != 0 {
        let length = odd.unwrap_or_else(|| 4 * oracle::plans(rest).max(1) as usize);
        return Given::Release(Release { file: rest.to_vec(), lent: vec![9; length], budget: budget.into() });
    }
    match kind & INDEXED {
        0 => Given::Walk(call(rest)),
        BY_CASES => Given::ByCases(call(rest)),
        GUARDED => Given::Guarded(call(rest)),
        _ => {
            let (length, rest) = length_first(rest);
            let (request, index) = rest.split_at(rest.len().min(length));
            Given::Indexed(Both { indexed: Indexed { call: call(request), index: index.to_vec() }, room: vec![9; usize::from(number / 8)] })
        }
    }
}

/// A length of two bytes and what follows it.
fn length_first(bytes: &[u8]) -> (usize, &[u8]) {
    match *bytes {
        [high, low, ref rest @ ..] => (u16::from_be_bytes([high, low]).into(), rest),
        _ => (0, &[]),
    }
}

/// An input for a walk call, or with the bits of a guarded call, of a call by cases or of a values call for that; a larger budget becomes the largest that there is.
fn of_call(call: &Call, bit: u8) -> Vec<u8> {
    let (kind, number) = match (call.lent.len(), call.budget) {
        (STATE_LENGTH, 0..=255) => (0, call.budget as u16),
        (STATE_LENGTH, _) => (FAR, call.budget.min(16_383) as u16 * 4),
        (length, _) => (ODD_LENGTH, (length % LENGTHS) as u16),
    };
    [&[bit | kind][..], &number.to_be_bytes(), &call.request].concat()
}

/// An input for an indexed call, in the same way; the room is another.
fn of_indexed(both: &Both) -> Vec<u8> {
    let Indexed { call, index } = &both.indexed;
    let length = u16::try_from(call.request.len()).unwrap_or(u16::MAX);
    let request = [&length.to_be_bytes()[..], &call.request, index].concat();
    of_call(&Call { request, ..call.clone() }, INDEXED)
}

/// An input for a derive call, in the same way; a longer room becomes the longest that there is.
fn of_derive(call: &Call) -> Vec<u8> {
    let length = u16::try_from(call.lent.len()).unwrap_or(u16::MAX);
    let request = [&length.to_be_bytes()[..], &call.request].concat();
    of_call(&Call { request, lent: vec![9; STATE_LENGTH], ..call.clone() }, DERIVE)
}

/// An input for a release call, in the same way.
fn of_release(call: &Release) -> Vec<u8> {
    let right = call.lent.len() == 4 * oracle::plans(&call.file) as usize;
    let (kind, number) = match call.budget {
        _ if !right => (ODD_LENGTH, (call.lent.len() % LENGTHS) as u16),
        0..=255 => (0, call.budget as u16),
        _ => (FAR, call.budget.min(16_383) as u16 * 4),
    };
    [&[RELEASE | kind][..], &number.to_be_bytes(), &call.file].concat()
}

fn of_check(check: &Check) -> Vec<u8> {
    let length = u16::try_from(check.request.len()).unwrap_or(u16::MAX);
    let kind = match check.layout {
        Layout::Plain => DERIVATION,
        Layout::Closing => DERIVATION | CLOSING,
    };
    [&[kind][..], &length.to_be_bytes(), &check.request, &check.derivation].concat()
}

/// What the fuzzer starts with: the format's rows, and so many generated calls of each kind; those that are too long are left out.
pub fn seeds(seed: u64, count: u64) -> Vec<Vec<u8>> {
    let walks = (0..count).map(|index| any_call(&mut Rng::new(seed, CALLS, index)));
    let derivations = (0..count).map(|index| any_check(&mut Rng::new(seed, CHECKS, index)));
    let closing = (0..count).map(|index| whether::any_check(&mut Rng::new(seed, WHETHER, index)));
    let walks = cases::calls().into_iter().chain(walks).map(|call| of_call(&call, 0));
    let guards = (0..count).map(|index| guarded::any_call(&mut Rng::new(seed, GUARDS, index)));
    let guards = guarded_cases::calls().into_iter().chain(guards).map(|call| of_call(&call, GUARDED));
    let by_cases = (0..count).map(|index| by_cases::any_call(&mut Rng::new(seed, CASES, index)));
    let by_cases = by_cases_rows::calls().into_iter().chain(by_cases).map(|call| of_call(&call, BY_CASES));
    let valued = (0..count).map(|index| values::any_call(&mut Rng::new(seed, VALUED, index)));
    let valued = values_rows::calls().into_iter().chain(valued).map(|call| of_call(&call, VALUES));
    let indexed = (0..count).map(|index| indexes::any_call(&mut Rng::new(seed, INDEXES, index)));
    let indexed = index_rows::calls().into_iter().chain(indexed).map(|both| of_indexed(&both));
    let derives = (0..count).map(|index| derives::any_call(&mut Rng::new(seed, DERIVES, index)));
    let derives = derive_rows::calls().into_iter().chain(derives).map(|call| of_derive(&call));
    let derivations = cases::checks().into_iter().chain(derivations).chain(whether_cases::checks()).chain(closing);
    let releases = (0..count).map(|index| releases::any_call(&mut Rng::new(seed, RELEASES, index)));
    let releases = release_cases::calls().into_iter().chain(releases).map(|call| of_release(&call));
    walks
        .chain(derivations.map(|check| of_check(&check)))
        .chain(releases)
        .chain(guards)
        .chain(by_cases)
        .chain(valued)
        .chain(indexed)
        .chain(derives)
        .filter(|input| input.len() <= LONGEST)
        .collect()
}
