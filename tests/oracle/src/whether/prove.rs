//! Random derivations of the second layout that are to be accepted.
//!
//! The natural scheme follows the walk, for the goals and then for each whether entry by itself:
//! rules 10, 12 and 11 stand where a list takes 3, 4 and 5, and at the end of the plan rule 8
//! names the literal that is known. The free scheme also looks by rule 7, cuts and assumes
//! less by rule 11, names a literal by rule 8 wherever all ends agree on it, says lines twice,
//! adds some that nothing cites, and brings the lines into another order.

use crate::generate::common;
use crate::model::{Conclusion, Item, Proof, ProofLine, Request};
use crate::prove::{one_by_one, Claim, Prover};
use crate::reader::LINE_LIMIT;
use crate::rng::Rng;
use crate::table::{bit, Known};

/// Most lines that are brought into another order.
const REORDERED: usize = 150;

/// The derivation of the natural scheme, if the plan is verified and the limits allow one.
pub fn natural_proof(request: &Request) -> Option<Proof> {
    let mut prover = Prover::new(request);
    let closing = questions(request)
        .iter()
        .map(|question| prover.natural(question))
        .collect::<Option<Vec<usize>>>()?;
    Some(prover.close(&closing))
}

/// A derivation of the free scheme, if the plan is verified and the limits allow one.
pub fn free_proof(rng: &mut Rng, request: &Request) -> Option<Proof> {
    let mut prover = Prover::new(request);
    let questions = questions(request);
    let fuel = rng.range(1, 10);
    let mut closing = vec![0; questions.len()];
    let mut order: Vec<usize> = (0..questions.len()).collect();
    rng.shuffle(&mut order);
    for index in order {
        closing[index] = prover.free(rng, &questions[index], fuel)?;
    }
    for _ in 0..*rng.pick(&[0, 0, 1, 1, 2, 5]) {
        prover.idle_look(rng, request);
    }
    for entry in &mut closing {
        if rng.chance(8) {
            *entry = prover.again(*entry)?;
        }
    }
    for _ in 0..*rng.pick(&[0, 0, 0, 1, 2]) {
        let line = rng.below(prover.lines.len());
        prover.again(line)?;
    }
    let mut proof = prover.close(&closing);
    if rng.chance(40) {
        reorder(rng, &mut proof);
    }
    Some(proof)
}

/// What the closing list has to name: the goals, then each whether entry.
fn questions(request: &Request) -> Vec<Claim> {
    let claim = |gives| Claim::that(&request.facts, &request.plan, &gives);
    let goals = claim(Conclusion::List(request.goals.clone()));
    let whether = request.whether.iter();
    let whether = whether.map(|&fluent| claim(Conclusion::Fluent(fluent)));
    [goals].into_iter().chain(whether).collect()
}

/// A request of so many sensing actions, each on a fluent of its own, that asks whether some of
/// these fluents, and a derivation of it, which is much shorter than the walk.
pub fn many_whether(sensing: u8, asked: &[u8]) -> (Request, Proof) {
    let request = Request {
        whether: asked.to_vec(),
        ..one_by_one(sensing)
    };
    let mut prover = Prover::new(&request);
    let goals = prover.in_turn(&request.facts, &request.plan);
    let mut closing = vec![goals.expect("the goals' line")];
    for &fluent in asked {
        let line = prover.seen_on_the_way(&request, fluent);
        closing.push(line.expect("lines enough"));
    }
    let proof = prover.close(&closing);
    (request, proof)
}

/// Adds lines that nothing cites until there are so many lines.
pub fn pad_proof(proof: &mut Proof, length: usize) {
    while proof.lines.len() < length {
        proof.lines.push(ProofLine {
            place: 0,
            before: Vec::new(),
            sequence: Vec::new(),
            rule: 1,
            gives: Conclusion::List(Vec::new()),
            cites: Vec::new(),
        });
    }
}

/// Brings the lines into another order in which each still stands after those it cites.
fn reorder(rng: &mut Rng, proof: &mut Proof) {
    let lines = &proof.lines;
    if lines.len() > REORDERED {
        return;
    }
    let mut order: Vec<usize> = Vec::new();
    let mut number: Vec<Option<u16>> = vec![None; lines.len()];
    while order.len() < lines.len() {
        let stands = |cite: &u16| number[usize::from(*cite)].is_some();
        let ready =
            |index: &usize| number[*index].is_none() && lines[*index].cites.iter().all(stands);
        let ready: Vec<usize> = (0..lines.len()).filter(ready).collect();
        let next = *rng.pick(&ready);
        number[next] = Some(order.len() as u16);
        order.push(next);
    }
    let renumber = |line: &u16| number[usize::from(*line)].expect("every line has a number");
    let moved = |index: &usize| ProofLine {
        cites: lines[*index].cites.iter().map(renumber).collect(),
        ..lines[*index].clone()
    };
    proof.closing = proof.closing.iter().map(renumber).collect();
    proof.lines = order.iter().map(moved).collect();
}

impl Prover {
    /// The lines so far with a closing list.
    fn close(self, closing: &[usize]) -> Proof {
        Proof {
            lines: self.lines,
            closing_place: 0,
            closing: closing.iter().map(|&line| line as u16).collect(),
        }
    }

    /// Proves that a fluent is known whether in any way; `fuel` bounds the detours.
    pub(crate) fn free_fluent(
        &mut self,
        rng: &mut Rng,
        claim: &Claim,
        fluent: u8,
        fuel: usize,
    ) -> Option<usize> {
        if fuel == 0 {
            return self.fluent_step(rng, claim, fluent, 0);
        }
        match rng.below(100) {
            0..=17 => self.by_literal(rng, claim, fluent, fuel),
            18..=32 => self.by_less(rng, claim, fuel),
            33..=54 => self.cut(rng, claim, fuel),
            _ => self.fluent_step(rng, claim, fluent, fuel),
        }
    }

    /// Rule 7 where the plan is one action that senses the fluent, else a step by the first item.
    pub(crate) fn fluent_step(
        &mut self,
        rng: &mut Rng,
        claim: &Claim,
        fluent: u8,
        fuel: usize,
    ) -> Option<usize> {
        if let [Item::Action { action, .. }] = claim.sequence[..] {
            let known = Known::of(&claim.before);
            let seen = self.table.senses(action) & bit(fluent) != 0;
            if seen && self.table.runnable(action, known) && rng.chance(75) {
                return self.add(claim, 7, &[]);
            }
        }
        self.by_first_item(claim, &mut |prover, part| prover.free(rng, part, fuel))
    }

    /// Rule 8, if all ends agree on the fluent.
    fn by_literal(
        &mut self,
        rng: &mut Rng,
        claim: &Claim,
        fluent: u8,
        fuel: usize,
    ) -> Option<usize> {
        let ends = self.ends(claim).unwrap_or_default();
        let shared = common(&ends).literals();
        let Some(literal) = shared.into_iter().find(|literal| literal / 2 == fluent) else {
            return self.fluent_step(rng, claim, fluent, fuel);
        };
        let alone = Claim::new(&claim.before, &claim.sequence, &[literal]);
        let alone = self.free(rng, &alone, fuel - 1)?;
        self.add(claim, 8, &[alone])
    }

    /// Rule 11 with an empty first plan, from a claim with a smaller X, or the same.
    fn by_less(&mut self, rng: &mut Rng, claim: &Claim, fuel: usize) -> Option<usize> {
        let mut weaker = claim.clone();
        for _ in 0..rng.below(4) {
            self.drop_fact(rng, &mut weaker);
        }
        let first = Claim::new(&claim.before, &[], &weaker.before);
        let one = self.free(rng, &first, fuel - 1)?;
        let two = self.free(rng, &weaker, fuel - 1)?;
        self.add(claim, 11, &[one, two])
    }

    /// A line by rule 7 that nothing need cite: any sensing action where it can be run.
    fn idle_look(&mut self, rng: &mut Rng, request: &Request) {
        if request.knowledge.is_empty() {
            return;
        }
        let seen = rng.pick(&request.knowledge);
        let allowances = request.allowances.iter();
        let allowing = allowances.filter(|line| line.action == seen.action);
        let bodies: Vec<&Vec<u8>> = allowing.map(|line| &line.body).collect();
        if bodies.is_empty() {
            return;
        }
        let before = (*rng.pick(&bodies)).clone();
        let gives = Conclusion::Fluent(seen.fluent);
        let claim = Claim::that(&before, &[Item::act(seen.action)], &gives);
        self.add(&claim, 7, &[]);
    }

    /// Says a line once more, with the same citations.
    fn again(&mut self, line: usize) -> Option<usize> {
        if self.lines.len() == LINE_LIMIT {
            return None;
        }
        self.lines.push(self.lines[line].clone());
        Some(self.lines.len() - 1)
    }

    /// In a plan that sees one fluent after the other: rule 11 with what goes before a fluent is
    /// seen; then rule 7 at the end of the plan, or rule 10 and, by rule 8, what is kept up.
    fn seen_on_the_way(&mut self, request: &Request, fluent: u8) -> Option<usize> {
        let (facts, gives) = (&request.facts, Conclusion::Fluent(fluent));
        let (head, tail) = request.plan.split_at(usize::from(fluent));
        let seen = Claim::that(facts, tail, &gives);
        let tail = match &tail[1..] {
            [] => self.add(&seen, 7, &[])?,
            rest => {
                let mut kept = Vec::new();
                for literal in [2 * fluent, 2 * fluent + 1] {
                    let before = [&[literal], &facts[..]].concat();
                    let all = self.in_turn(&before, rest)?;
                    let alone = self.add(&Claim::new(&before, rest, &[literal]), 6, &[all])?;
                    kept.push(self.add(&Claim::that(&before, rest, &gives), 8, &[alone])?);
                }
                self.add(&seen, 10, &kept)?
            }
        };
        if head.is_empty() {
            return Some(tail);
        }
        let head = self.in_turn(facts, head)?;
        let whole = Claim::that(facts, &request.plan, &gives);
        self.add(&whole, 11, &[head, tail])
    }
}
