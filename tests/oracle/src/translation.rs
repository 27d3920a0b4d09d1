//! A request said in other numbers, or in the other form of literals.

use crate::model::{Allowance, Branch, Effect, Item, Knowledge, Request};

/// What becomes of the parts of a request.
pub trait Translation<L, M> {
    fn literal(&mut self, literal: L) -> M;

    /// The literal of an effect.
    fn effect(&mut self, literal: L) -> M {
        self.literal(literal)
    }

    fn fluent(&self, fluent: u8) -> u8 {
        fluent
    }

    fn action(&self, action: u8) -> u8 {
        action
    }

    fn literals(&mut self, list: &[L]) -> Vec<M>
    where
        L: Copy,
    {
        list.iter().map(|&literal| self.literal(literal)).collect()
    }
}

/// The same request by a translation, without places, and with the counts that it had.
pub fn translated<L: Copy, M>(request: &Request<L>, by: &mut impl Translation<L, M>) -> Request<M> {
    let effects = request.effects.iter();
    let allowances = request.allowances.iter();
    let knowledge = request.knowledge.iter();
    Request {
        fluents: request.fluents,
        actions: request.actions,
        facts: by.literals(&request.facts),
        effects: effects
            .map(|line| Effect {
                place: 0,
                action: by.action(line.action),
                literal: by.effect(line.literal),
                body: by.literals(&line.body),
            })
            .collect(),
        allowances_place: 0,
        allowances: allowances
            .map(|line| Allowance {
                action: by.action(line.action),
                body: by.literals(&line.body),
            })
            .collect(),
        knowledge: knowledge
            .map(|line| Knowledge {
                place: 0,
                action: by.action(line.action),
                fluent: by.fluent(line.fluent),
            })
            .collect(),
        plan: sequence(&request.plan, by),
        goals_place: 0,
        goals: by.literals(&request.goals),
        whether_place: 0,
        whether: request.whether.iter().map(|&f| by.fluent(f)).collect(),
    }
}

fn sequence<L: Copy, M>(items: &[Item<L>], by: &mut impl Translation<L, M>) -> Vec<Item<M>> {
    let mut translated = Vec::new();
    for item in items {
        translated.push(match item {
            Item::Action { action, .. } => Item::act(by.action(*action)),
            Item::Branching { branches, .. } => {
                let branches = branches.iter().map(|branch| Branch {
                    condition: by.literals(&branch.condition),
                    sequence: sequence(&branch.sequence, by),
                });
                Item::case(branches.collect())
            }
        });
    }
    translated
}
