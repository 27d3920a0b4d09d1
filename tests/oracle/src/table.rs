//! Partial states as two masks, and the domain table in a form that runs on them.

use crate::model::{is_positive, Request};
use crate::reader::FLUENT_LIMIT;

/// A set of fluents, a bit for each.
pub type Mask = u128;

const _: () = assert!(FLUENT_LIMIT <= Mask::BITS as usize);

/// The set of one fluent.
pub fn bit(fluent: u8) -> Mask {
    1 << fluent
}

/// A partial state: the fluents known true and those known false.
#[derive(Clone, Copy, Debug, Default, PartialEq, Eq, PartialOrd, Ord, Hash)]
pub struct Known {
    pub yes: Mask,
    pub no: Mask,
}

impl Known {
    /// The state that holds these literals and nothing else. Also used for bodies.
    pub fn of(literals: &[u8]) -> Known {
        let mut known = Known::default();
        for &literal in literals {
            known.learn(literal);
        }
        known
    }

    /// Marks the fluent of a literal, which has been unknown.
    pub fn learn(&mut self, literal: u8) {
        let bit = bit(literal / 2);
        if is_positive(literal) {
            self.yes |= bit;
        } else {
            self.no |= bit;
        }
    }

    /// The known literals, ascending.
    pub fn literals(self) -> Vec<u8> {
        (0..FLUENT_LIMIT as u8)
            .filter_map(|fluent| match self.mark(fluent) {
                0 => None,
                mark => Some(2 * fluent + (mark - 1)),
            })
            .collect()
    }

    /// The fluents that have a value.
    pub fn marked(self) -> Mask {
        self.yes | self.no
    }

    /// Each literal of the body is known true.
    pub fn holds(self, body: Known) -> bool {
        body.yes & !self.yes == 0 && body.no & !self.no == 0
    }

    /// How many literals of the body are not known true.
    pub fn lacks(self, body: Known) -> u32 {
        (body.yes & !self.yes).count_ones() + (body.no & !self.no).count_ones()
    }

    /// No literal of the body is known false.
    pub fn allows(self, body: Known) -> bool {
        body.yes & self.no == 0 && body.no & self.yes == 0
    }

    /// The literals known in both.
    pub fn common(self, other: Known) -> Known {
        Known {
            yes: self.yes & other.yes,
            no: self.no & other.no,
        }
    }

    /// The mark of a fluent as the lent state shows it: 0 unknown, 1 true, 2 false.
    pub fn mark(self, fluent: u8) -> u8 {
        let bit = bit(fluent);
        if self.yes & bit != 0 {
            1
        } else if self.no & bit != 0 {
            2
        } else {
            0
        }
    }
}

/// The effects and executability lines of one action, of the latter also the places.
#[derive(Clone, Debug, Default)]
pub struct Lines {
    pub allowances: Vec<(usize, Known)>,
    pub effects: Vec<(Known, Known)>,
}

impl Lines {
    /// An action can be run where some executability line of it has its whole body known true.
    pub fn runnable(&self, state: Known) -> bool {
        let mut lines = self.allowances.iter();
        lines.any(|&(_, body)| state.holds(body))
    }

    /// The place of the executability line that lacks the fewest literals, the earliest of
    /// equals, and 0 for an action without such lines.
    pub fn nearest(&self, state: Known) -> usize {
        let lines = self.allowances.iter();
        lines
            .min_by_key(|&&(place, body)| (state.lacks(body), place))
            .map_or(0, |&(place, _)| place)
    }

    /// The state after an action without knowledge lines.
    ///
    /// `sure` are the effects whose bodies are known true (e+ and e-), `may` those all of whose
    /// body literals are possible (F+ and F-).
    pub fn step(&self, state: Known) -> Known {
        let mut sure = Known::default();
        let mut may = Known::default();
        for &(literal, body) in &self.effects {
            if state.holds(body) {
                sure.yes |= literal.yes;
                sure.no |= literal.no;
            }
            if state.allows(body) {
                may.yes |= literal.yes;
                may.no |= literal.no;
            }
        }
        Known {
            yes: (state.yes | sure.yes) & !may.no,
            no: (state.no | sure.no) & !may.yes,
        }
    }
}

/// The lines of all actions, and the fluents that each senses.
#[derive(Clone, Debug)]
pub struct Table {
    lines: Vec<Lines>,
    senses: Vec<Mask>,
}

impl Table {
    pub fn new(request: &Request) -> Table {
        let actions = usize::from(request.actions);
        let mut lines = vec![Lines::default(); actions];
        let mut senses = vec![0; actions];
        for line in &request.effects {
            let effect = (Known::of(&[line.literal]), Known::of(&line.body));
            lines[usize::from(line.action)].effects.push(effect);
        }
        for (place, line) in request.placed_allowances() {
            lines[usize::from(line.action)]
                .allowances
                .push((place, Known::of(&line.body)));
        }
        for line in &request.knowledge {
            senses[usize::from(line.action)] |= bit(line.fluent);
        }
        Table { lines, senses }
    }

    /// Whether an action can be run, by its lines.
    pub fn runnable(&self, action: u8, state: Known) -> bool {
        self.lines(action).runnable(state)
    }

    /// The state after an action without knowledge lines, by its lines.
    pub fn step(&self, action: u8, state: Known) -> Known {
        self.lines(action).step(state)
    }

    /// The bodies of an action's executability lines.
    pub fn allowing(&self, action: u8) -> impl Iterator<Item = Known> + '_ {
        self.lines(action).allowances.iter().map(|&(_, body)| body)
    }

    /// The bodies of an action's effects.
    pub fn bringing(&self, action: u8) -> impl Iterator<Item = Known> + '_ {
        self.lines(action).effects.iter().map(|&(_, body)| body)
    }

    /// The fluents that a sensing action senses; none for any other action.
    pub fn senses(&self, action: u8) -> Mask {
        self.senses[usize::from(action)]
    }

    /// The effects and executability lines of an action.
    pub fn lines(&self, action: u8) -> &Lines {
        &self.lines[usize::from(action)]
    }
}

/// All readings of the given fluents over a state, in the walk's order: the smallest fluent
/// turns slowest, true before false.
pub fn readings(state: Known, fluents: Mask) -> Vec<Known> {
    let mut all = vec![state];
    for fluent in 0..FLUENT_LIMIT as u8 {
        if fluents & bit(fluent) != 0 {
            all = all
                .into_iter()
                .flat_map(|known| both_readings(known, fluent))
                .collect();
        }
    }
    all
}

fn both_readings(known: Known, fluent: u8) -> [Known; 2] {
    let (mut yes, mut no) = (known, known);
    yes.learn(2 * fluent);
    no.learn(2 * fluent + 1);
    [yes, no]
}
