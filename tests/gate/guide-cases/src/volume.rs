//! A simulated volume: a world, in which actions are done and fluents are looked at. It knows the table and nothing of the plan.

use oracle::model::{is_positive, Item, Request};

/// The most fluents of a request whose worlds are all tried.
pub const MOST_FLUENTS: u8 = 12;

/// A volume that an operator works on.
pub struct Volume<'a> {
    table: &'a Request,
    /// For each fluent, whether it is true.
    world: Vec<bool>,
}

impl<'a> Volume<'a> {
    /// Every volume that has the initial facts.
    pub fn all(table: &'a Request) -> impl Iterator<Item = Volume<'a>> {
        assert!(table.fluents <= MOST_FLUENTS, "too many worlds");
        (0..1u32 << table.fluents)
            .map(move |bits| Volume {
                table,
                world: (0..table.fluents).map(|fluent| bits >> fluent & 1 == 1).collect(),
            })
            .filter(|volume| volume.has(&table.facts))
    }

    /// These literals all hold.
    pub fn has(&self, literals: &[u8]) -> bool {
        literals
            .iter()
            .all(|&literal| self.world[usize::from(literal / 2)] == is_positive(literal))
    }

    /// A fluent is true.
    pub fn reads(&self, fluent: u8) -> bool {
        self.world[usize::from(fluent)]
    }

    /// The action may be run.
    pub fn allows(&self, action: u8) -> bool {
        let lines = &self.table.allowances;
        lines.iter().any(|line| line.action == action && self.has(&line.body))
    }

    /// Does the action: every effect whose body holds before it takes place.
    pub fn act(&mut self, action: u8) {
        let effects = &self.table.effects;
        let made: Vec<u8> = effects
            .iter()
            .filter(|effect| effect.action == action && self.has(&effect.body))
            .map(|effect| effect.literal)
            .collect();
        for literal in made {
            self.world[usize::from(literal / 2)] = is_positive(literal);
        }
    }

    /// The fluents that the action senses, ascending.
    pub fn sensed(&self, action: u8) -> Vec<u8> {
        let knowledge = &self.table.knowledge;
        let senses = |fluent: &u8| knowledge.iter().any(|line| line.action == action && line.fluent == *fluent);
        (0..self.table.fluents).filter(senses).collect()
    }

    /// The fluents, one of `+-` for each.
    pub fn shown(&self) -> String {
        self.world.iter().map(|&yes| if yes { '+' } else { '-' }).collect()
    }

    /// Carries the plan out without a guide: the actions in their order. Conditions are looked up in the world, which has at most one of each branching.
    pub fn actions(&self, plan: &[Item]) -> Vec<u8> {
        let mut copy = Volume {
            table: self.table,
            world: self.world.clone(),
        };
        let mut done = Vec::new();
        copy.carry_out(plan, &mut done);
        done
    }

    fn carry_out(&mut self, plan: &[Item], done: &mut Vec<u8>) {
        for item in plan {
            match item {
                Item::Action { action, .. } => {
                    self.act(*action);
                    done.push(*action);
                }
                Item::Branching { branches, .. } => {
                    let branch = branches.iter().find(|branch| self.has(&branch.condition));
                    let branch = branch.expect("a verified plan has a branch for every world");
                    self.carry_out(&branch.sequence, done);
                }
            }
        }
    }
}
