//! From values requests in which every fluent has two values to plain ones, and back. The value 0
//! stands for true and 1 for false.

use super::literal::Literal;
use super::Valued;
use crate::model::{Item, Request};
use crate::rng::Rng;
use crate::translation::{translated, Translation};

/// The plain request that matches a values request; none where a fluent has more than two values, or
/// a list names one twice.
pub fn plain_of(valued: &Valued) -> Option<Request> {
    let two = valued.values.iter().all(|&values| values == 2);
    (two && !some_list(&valued.request, names_twice))
        .then(|| translated(&valued.request, &mut AsPlain))
}

struct AsPlain;

impl Translation<Literal, u8> for AsPlain {
    fn literal(&mut self, literal: Literal) -> u8 {
        let negative = literal.says_is() == (literal.value() == 1);
        2 * literal.fluent + u8::from(negative)
    }
}

/// A list names a fluent twice.
pub fn names_twice(list: &[Literal]) -> bool {
    list.windows(2).any(|pair| pair[0].fluent == pair[1].fluent)
}

/// Some list of literals of a request is so.
pub fn some_list(request: &Request<Literal>, so: fn(&[Literal]) -> bool) -> bool {
    let effects = request.effects.iter().map(|line| &line.body);
    let allowances = request.allowances.iter().map(|line| &line.body);
    let mut bodies = effects.chain(allowances);
    so(&request.facts)
        || so(&request.goals)
        || bodies.any(|body| so(body))
        || some_condition(&request.plan, so)
}

/// Some condition of a sequence is so.
fn some_condition(sequence: &[Item<Literal>], so: fn(&[Literal]) -> bool) -> bool {
    sequence.iter().any(|item| match item {
        Item::Action { .. } => false,
        Item::Branching { branches, .. } => branches
            .iter()
            .any(|branch| so(&branch.condition) || some_condition(&branch.sequence, so)),
    })
}

/// A values request with two values for each fluent that a plain one matches, said by "is" and by
/// "is not" at random.
pub fn spelled(rng: &mut Rng, request: &Request) -> Valued {
    Valued {
        values: vec![2; usize::from(request.fluents)],
        request: translated(request, &mut Spelling { rng }),
    }
}

struct Spelling<'a> {
    rng: &'a mut Rng,
}

impl Translation<u8, Literal> for Spelling<'_> {
    fn literal(&mut self, literal: u8) -> Literal {
        let (fluent, value) = (literal / 2, literal % 2);
        match self.rng.chance(50) {
            true => Literal::is(fluent, value, 2),
            false => Literal::is_not(fluent, 1 - value, 2),
        }
    }

    fn effect(&mut self, literal: u8) -> Literal {
        Literal::is(literal / 2, literal % 2, 2)
    }
}
