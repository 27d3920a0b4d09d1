//! Inputs of derivation calls and whether calls made wrong once more.

use oracle::reader::{DERIVATION_LIMIT, REQUEST_LIMIT};
use oracle::rng::Rng;

use crate::checks::{Check, Layout};
use crate::generated::{change, cross};

/// In 14 of 100 turns: an input is changed byte by byte, put together from two, of random bytes, the request of another call, or of another
/// length.
pub fn spoil(rng: &mut Rng, turn: usize, check: &mut Check, drawn: fn(&mut Rng) -> Check) {
    match turn {
        0..=5 => {
            for _ in 0..rng.range(1, 3) {
                change(rng, &mut check.derivation);
            }
        }
        6..=7 => {
            let other = drawn(rng).derivation;
            cross(rng, &mut check.derivation, &other);
        }
        8 => {
            let last_rule = if check.layout == Layout::Plain { 6 } else { 12 };
            let most = *rng.pick(&[2, 3, last_rule, 255]);
            check.derivation = (0..rng.below(60)).map(|_| rng.byte(0, most)).collect();
            if rng.chance(70) {
                check.derivation.splice(0..0, [0, rng.byte(1, 3)]);
            }
        }
        9..=10 => change(rng, &mut check.request),
        11 => check.request = drawn(rng).request,
        19 => {
            let length = *rng.pick(&[DERIVATION_LIMIT - 1, DERIVATION_LIMIT, DERIVATION_LIMIT + 1, 65_535, 70_000]);
            check.derivation.resize(length, rng.byte(0, 3));
        }
        20 if rng.chance(30) => {
            let length = *rng.pick(&[REQUEST_LIMIT - 1, REQUEST_LIMIT, REQUEST_LIMIT + 1, 20_000]);
            check.request.resize(length, rng.byte(0, 3));
        }
        _ => {}
    }
}
