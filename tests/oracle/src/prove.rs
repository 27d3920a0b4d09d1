//! Random derivations that are to be accepted.
//!
//! The natural scheme follows the walk: the empty plan by rules 1 and 6, an action by rule 2,
//! the rest and rule 5, a sensing action by rule 3 over all readings, a branching by rule 4.
//! The free scheme cuts, weakens, says again and shares lines wherever it likes.
//!
//! The prover keeps its lines in the form of the second layout, since it proves for both; what
//! is proved of fluents known whether stands in `whether/prove.rs`.

use crate::generate::common;
use crate::model::{Allowance, Conclusion, Item, Knowledge, Line, ProofLine, Request};
use crate::reader::{CITATION_LIMIT, LINE_LIMIT};
use crate::rng::Rng;
use crate::table::{bit, readings, Known, Table};
use crate::whether::translate::former_lines;

/// Most end states that are followed when a claim is tried.
const ENDS: usize = 64;
/// Most unknown fluents that rule 3 can take: a line for each reading is cited.
pub(crate) const READ_AT_ONCE: u32 = CITATION_LIMIT.ilog2();

/// A claim that the walk from X verifies: what is known after c.
#[derive(Clone)]
pub(crate) struct Claim {
    pub before: Vec<u8>,
    pub sequence: Vec<Item>,
    pub gives: Conclusion,
}

impl Claim {
    /// The claim {X} c {Y}.
    pub fn new(before: &[u8], sequence: &[Item], after: &[u8]) -> Claim {
        Claim::that(before, sequence, &Conclusion::List(after.to_vec()))
    }

    pub fn that(before: &[u8], sequence: &[Item], gives: &Conclusion) -> Claim {
        Claim {
            before: before.to_vec(),
            sequence: sequence.to_vec(),
            gives: gives.clone(),
        }
    }

    fn is(&self, line: &ProofLine) -> bool {
        line.before == self.before && line.gives == self.gives && line.sequence == self.sequence
    }

    /// The rule that does for this claim what one of the rules 3, 4 and 5 does for a list.
    pub fn rule(&self, of_lists: u8) -> u8 {
        match (&self.gives, of_lists) {
            (Conclusion::List(_), rule) => rule,
            (Conclusion::Fluent(_), 3) => 10,
            (Conclusion::Fluent(_), 4) => 12,
            (Conclusion::Fluent(_), _) => 11,
        }
    }

    /// Whether the conclusion is so in a state.
    pub fn known_in(&self, state: Known) -> bool {
        match &self.gives {
            Conclusion::List(after) => state.holds(Known::of(after)),
            Conclusion::Fluent(fluent) => state.marked() & bit(*fluent) != 0,
        }
    }
}

/// The derivation of the natural scheme, if the plan is verified and the limits allow one.
pub fn natural(request: &Request) -> Option<Vec<Line>> {
    let mut prover = Prover::new(request);
    prover.natural(&Claim::new(&request.facts, &request.plan, &request.goals))?;
    former_lines(&prover.lines)
}

/// A derivation of the free scheme, if the plan is verified and the limits allow one.
pub fn free(rng: &mut Rng, request: &Request) -> Option<Vec<Line>> {
    let mut prover = Prover::new(request);
    let question = Claim::new(&request.facts, &request.plan, &request.goals);
    let fuel = rng.range(1, 12);
    let last = prover.free(rng, &question, fuel)?;
    if last + 1 != prover.lines.len() {
        prover.add(&question, 6, &[last])?;
    }
    former_lines(&prover.lines)
}

/// A request of so many sensing actions, each on a fluent of its own, and a derivation of it.
///
/// The walk's count is above 2 to the number of actions; the derivation takes five lines for
/// each action and joins them.
pub fn many_readings(sensing: u8) -> (Request, Vec<Line>) {
    let request = one_by_one(sensing);
    let mut prover = Prover::new(&request);
    prover.in_turn(&request.facts, &request.plan);
    let lines = former_lines(&prover.lines).expect("lists only");
    (request, lines)
}

/// A request of so many sensing actions, each on a fluent of its own, with one more fluent that
/// is true from the start and a goal.
pub(crate) fn one_by_one(sensing: u8) -> Request {
    let fact = vec![2 * sensing];
    Request {
        fluents: sensing + 1,
        actions: sensing,
        facts: fact.clone(),
        allowances: (0..sensing)
            .map(|action| Allowance {
                action,
                body: Vec::new(),
            })
            .collect(),
        knowledge: (0..sensing)
            .map(|action| Knowledge {
                place: 0,
                action,
                fluent: action,
            })
            .collect(),
        plan: (0..sensing).map(Item::act).collect(),
        goals: fact,
        ..Request::default()
    }
}

/// Adds lines that nothing cites before the last line until there are so many lines.
pub fn pad(lines: &mut Vec<Line>, length: usize) {
    let Some(last) = lines.pop() else { return };
    while lines.len() + 1 < length {
        let before = last.before.clone();
        let after = before.clone();
        let sequence = Vec::new();
        lines.push(Line {
            place: 0,
            before,
            sequence,
            after,
            rule: 1,
            cites: Vec::new(),
        });
    }
    lines.push(last);
}

pub(crate) struct Prover {
    pub table: Table,
    pub lines: Vec<ProofLine>,
}

impl Prover {
    pub fn new(request: &Request) -> Prover {
        Prover {
            table: Table::new(request),
            lines: Vec::new(),
        }
    }

    /// Adds a line for a claim; nothing beyond the last line that a derivation may have.
    pub fn add(&mut self, claim: &Claim, rule: u8, cites: &[usize]) -> Option<usize> {
        if self.lines.len() == LINE_LIMIT {
            return None;
        }
        self.lines.push(ProofLine {
            place: 0,
            before: claim.before.clone(),
            sequence: claim.sequence.clone(),
            rule,
            gives: claim.gives.clone(),
            cites: cites.iter().map(|&cite| cite as u16).collect(),
        });
        Some(self.lines.len() - 1)
    }

    pub fn natural(&mut self, claim: &Claim) -> Option<usize> {
        self.by_first_item(claim, &mut |prover, part| prover.natural(part))
    }

    /// Proves that the same list is known before and after a sequence, item by item.
    pub fn in_turn(&mut self, list: &[u8], sequence: &[Item]) -> Option<usize> {
        let mut done: Option<usize> = None;
        for index in 0..sequence.len() {
            let one = self.natural(&Claim::new(list, &sequence[index..=index], list))?;
            let joined = Claim::new(list, &sequence[..=index], list);
            done = match done {
                Some(before) => Some(self.add(&joined, 5, &[before, one])?),
                None => Some(one),
            };
        }
        done
    }

    /// One step of the natural scheme; what remains is proved as told.
    pub fn by_first_item(
        &mut self,
        claim: &Claim,
        prove: &mut dyn FnMut(&mut Prover, &Claim) -> Option<usize>,
    ) -> Option<usize> {
        let known = Known::of(&claim.before);
        let Some((first, rest)) = claim.sequence.split_first() else {
            return self.empty(claim);
        };
        match first {
            Item::Action { action, .. } if self.table.senses(*action) == 0 => {
                let (done, middle) = self.action(claim, *action)?;
                let rest = prove(self, &Claim::that(&middle, rest, &claim.gives))?;
                self.add(claim, claim.rule(5), &[done, rest])
            }
            Item::Action { action, .. } => {
                if !self.table.runnable(*action, known) {
                    return None;
                }
                let unknown = self.table.senses(*action) & !known.marked();
                if unknown.count_ones() > READ_AT_ONCE {
                    return None;
                }
                let cites = readings(known, unknown)
                    .into_iter()
                    .map(|state| prove(self, &Claim::that(&state.literals(), rest, &claim.gives)))
                    .collect::<Option<Vec<usize>>>()?;
                self.add(claim, claim.rule(3), &cites)
            }
            Item::Branching { branches, .. } => {
                let branch = branches
                    .iter()
                    .find(|branch| known.holds(Known::of(&branch.condition)))?;
                let joined = [&branch.sequence[..], rest].concat();
                let cited = prove(self, &Claim::that(&claim.before, &joined, &claim.gives))?;
                self.add(claim, claim.rule(4), &[cited])
            }
        }
    }

    /// Rules 1 and 6, and rule 8 for a fluent.
    pub fn empty(&mut self, claim: &Claim) -> Option<usize> {
        if !claim.known_in(Known::of(&claim.before)) {
            return None;
        }
        let all = self.add(&Claim::new(&claim.before, &[], &claim.before), 1, &[])?;
        match claim.gives {
            Conclusion::List(_) => self.add(claim, 6, &[all]),
            Conclusion::Fluent(fluent) => {
                let literal = claim.before.iter().find(|literal| *literal / 2 == fluent)?;
                let alone = Claim::new(&claim.before, &[], &[*literal]);
                let alone = self.add(&alone, 6, &[all])?;
                self.add(claim, 8, &[alone])
            }
        }
    }

    /// Rule 2 for the first action of a claim; what is known after it comes along.
    fn action(&mut self, claim: &Claim, action: u8) -> Option<(usize, Vec<u8>)> {
        let known = Known::of(&claim.before);
        if !self.table.runnable(action, known) {
            return None;
        }
        let after = self.table.step(action, known).literals();
        let line = self.add(
            &Claim::new(&claim.before, &claim.sequence[..1], &after),
            2,
            &[],
        )?;
        Some((line, after))
    }

    /// Proves a claim that the walk verifies in any way; `fuel` bounds the detours.
    pub fn free(&mut self, rng: &mut Rng, claim: &Claim, fuel: usize) -> Option<usize> {
        if rng.chance(50) {
            if let Some(line) = self.lines.iter().position(|line| claim.is(line)) {
                return Some(line);
            }
        }
        if rng.chance(5) {
            self.idle_line(rng, claim);
        }
        if let Conclusion::Fluent(fluent) = claim.gives {
            return self.free_fluent(rng, claim, fluent, fuel);
        }
        if fuel == 0 {
            return self.free_step(rng, claim, 0);
        }
        match rng.below(100) {
            0..=11 => self.say_more(rng, claim, fuel),
            12..=23 => self.assume_less(rng, claim, fuel),
            24..=29 => {
                let line = self.free(rng, claim, fuel - 1)?;
                self.add(claim, 6, &[line])
            }
            30..=54 => self.cut(rng, claim, fuel),
            _ => self.free_step(rng, claim, fuel),
        }
    }

    /// One step by the first item, or at once where a rule allows it.
    fn free_step(&mut self, rng: &mut Rng, claim: &Claim, fuel: usize) -> Option<usize> {
        if let Conclusion::Fluent(fluent) = claim.gives {
            return self.fluent_step(rng, claim, fluent, fuel);
        }
        if let [Item::Action { action, .. }] = claim.sequence[..] {
            if self.table.senses(action) == 0 && rng.chance(70) {
                return self.single_action(claim, action);
            }
        }
        let same = claim.gives == Conclusion::List(claim.before.clone());
        if claim.sequence.is_empty() && same && rng.chance(70) {
            return self.add(claim, 1, &[]);
        }
        self.by_first_item(claim, &mut |prover, part| prover.free(rng, part, fuel))
    }

    /// Rule 2 alone where it says just enough, else with rule 6.
    fn single_action(&mut self, claim: &Claim, action: u8) -> Option<usize> {
        let (done, _) = self.action(claim, action)?;
        if self.lines[done].gives == claim.gives {
            return Some(done);
        }
        self.add(claim, 6, &[done])
    }

    /// Rule 6 from a claim with a larger Y.
    fn say_more(&mut self, rng: &mut Rng, claim: &Claim, fuel: usize) -> Option<usize> {
        let mut stronger = claim.clone();
        if let (Conclusion::List(after), Some(ends)) = (&claim.gives, self.ends(claim)) {
            let more = common(&ends).literals();
            let more = more
                .into_iter()
                .filter(|l| after.contains(l) || rng.chance(60))
                .collect();
            stronger.gives = Conclusion::List(more);
        }
        let line = self.free(rng, &stronger, fuel - 1)?;
        self.add(claim, 6, &[line])
    }

    /// Rule 6 from a claim with a smaller X.
    fn assume_less(&mut self, rng: &mut Rng, claim: &Claim, fuel: usize) -> Option<usize> {
        let mut weaker = claim.clone();
        for _ in 0..3 {
            self.drop_fact(rng, &mut weaker);
        }
        let line = self.free(rng, &weaker, fuel - 1)?;
        self.add(claim, 6, &[line])
    }

    /// Drops a literal of X if the claim still holds without it.
    pub fn drop_fact(&self, rng: &mut Rng, claim: &mut Claim) {
        if claim.before.is_empty() {
            return;
        }
        let mut fewer = claim.clone();
        fewer.before.remove(rng.below(claim.before.len()));
        if self.holds(&fewer) {
            *claim = fewer;
        }
    }

    /// Rule 5 or 11 with a cut anywhere, if the rest can be proved from what all ends have in
    /// common.
    pub fn cut(&mut self, rng: &mut Rng, claim: &Claim, fuel: usize) -> Option<usize> {
        let at = rng.below(claim.sequence.len() + 1);
        let (head, tail) = claim.sequence.split_at(at);
        let Some(ends) = self.ends(&Claim::new(&claim.before, head, &[])) else {
            return self.free_step(rng, claim, fuel);
        };
        let mut second = Claim::that(&common(&ends).literals(), tail, &claim.gives);
        if !self.holds(&second) {
            return self.free_step(rng, claim, fuel);
        }
        for _ in 0..rng.below(4) {
            self.drop_fact(rng, &mut second);
        }
        let first = Claim::new(&claim.before, head, &second.before);
        let (one, two) = match rng.chance(50) {
            true => {
                let one = self.free(rng, &first, fuel - 1)?;
                (one, self.free(rng, &second, fuel - 1)?)
            }
            false => {
                let two = self.free(rng, &second, fuel - 1)?;
                (self.free(rng, &first, fuel - 1)?, two)
            }
        };
        self.add(claim, claim.rule(5), &[one, two])
    }

    /// A line that nothing need cite.
    fn idle_line(&mut self, rng: &mut Rng, claim: &Claim) {
        let list = match &claim.gives {
            Conclusion::List(after) if !rng.chance(50) => after,
            _ => &claim.before,
        };
        let idle = Claim::new(list, &[], list);
        let line = self.add(&idle, 1, &[]);
        if let Some(line) = line.filter(|_| rng.chance(30)) {
            self.add(&Claim::new(list, &[], &[]), 6, &[line]);
        }
    }

    fn holds(&self, claim: &Claim) -> bool {
        self.ends(claim)
            .is_some_and(|ends| ends.iter().all(|&end| claim.known_in(end)))
    }

    /// All end states of a claim's sequence, if it can be run and they are few.
    pub fn ends(&self, claim: &Claim) -> Option<Vec<Known>> {
        self.through(&claim.sequence, vec![Known::of(&claim.before)])
    }

    fn through(&self, sequence: &[Item], states: Vec<Known>) -> Option<Vec<Known>> {
        sequence.iter().try_fold(states, |states, item| {
            let mut after = Vec::new();
            for state in states {
                after.extend(self.through_item(item, state)?);
            }
            after.sort_unstable();
            after.dedup();
            (after.len() <= ENDS).then_some(after)
        })
    }

    fn through_item(&self, item: &Item, state: Known) -> Option<Vec<Known>> {
        match item {
            Item::Branching { branches, .. } => {
                let branch = branches
                    .iter()
                    .find(|branch| state.holds(Known::of(&branch.condition)))?;
                self.through(&branch.sequence, vec![state])
            }
            Item::Action { action, .. } if !self.table.runnable(*action, state) => None,
            Item::Action { action, .. } if self.table.senses(*action) == 0 => {
                Some(vec![self.table.step(*action, state)])
            }
            Item::Action { action, .. } => {
                let unknown = self.table.senses(*action) & !state.marked();
                (unknown.count_ones() <= READ_AT_ONCE).then(|| readings(state, unknown))
            }
        }
    }
}
