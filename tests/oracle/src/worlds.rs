//! Carrying a plan out in worlds, without partial states.
//!
//! For every true world with the initial facts the plan is carried out together with the set of
//! possible worlds. True worlds that have given the same readings so far share one set, so they
//! go together as a party: each member is a true world, and the worlds where the members now
//! are make up the set of possible worlds of each of them.

use crate::model::{is_positive, Branch, Guarded, Item, Request};

/// Most fluents for which worlds are enumerated.
pub const WORLD_FLUENTS: u8 = 10;

/// Why some true world doesn't carry the plan to its goals.
#[derive(Clone, Copy, Debug, PartialEq, Eq)]
pub enum Failure {
    /// An action met may not be run in every possible world.
    NotRunnable,
    /// An action makes a fluent both true and false in one world.
    TwoValues,
    /// A branching met hasn't exactly one condition that holds in all possible worlds.
    NoBranch,
    /// A goal doesn't hold in all possible worlds.
    Goal,
    /// A whether fluent has two values across the possible worlds.
    Whether,
    /// A guard doesn't hold in all possible worlds, at the start or after some action or reading.
    Guard,
}

/// A set of fluents that are true; the others are false.
pub(crate) type World = u16;

/// Where the members, all with the same readings so far, are now; one entry for each member.
pub(crate) type Party = Vec<World>;

/// Literals that have to hold: those fluents true, those false.
#[derive(Clone, Copy)]
struct Demand {
    yes: World,
    no: World,
}

impl Demand {
    fn new(literals: &[u8]) -> Demand {
        let mut demand = Demand { yes: 0, no: 0 };
        for literal in literals {
            let bit = 1 << (literal / 2);
            match is_positive(*literal) {
                true => demand.yes |= bit,
                false => demand.no |= bit,
            }
        }
        demand
    }

    fn holds(self, world: World) -> bool {
        world & self.yes == self.yes && world & self.no == 0
    }
}

/// Carries the plan of a settled request out in every true world; returns how many these are.
///
/// The request has at most ten fluents.
pub fn carry_out(request: &Request) -> Result<u64, Failure> {
    carry_out_with(request, &[])
}

/// The same of a settled guarded request: the guards hold in every possible world at the start,
/// after every action and after every reading.
pub fn carry_out_guarded(guarded: &Guarded) -> Result<u64, Failure> {
    carry_out_with(&guarded.request, &guarded.guards)
}

fn carry_out_with(request: &Request, guards: &[u8]) -> Result<u64, Failure> {
    let carrier = Carrier {
        guards: Demand::new(guards),
        ..Carrier::new(request)
    };
    let start = carrier.start(request);
    let worlds = start.len();
    carrier.guarded(&start)?;
    let parties = carrier.through(&request.plan, vec![start])?;
    assert_eq!(
        parties.iter().map(Vec::len).sum::<usize>(),
        worlds,
        "a true world was lost"
    );
    for party in &parties {
        judge(request, party)?;
    }
    Ok(worlds as u64)
}

/// In some world in which an action may be run its effects would set a fluent both ways.
///
/// The request has at most ten fluents. 16 refuses just the requests of which this is so.
pub fn effects_meet(request: &Request) -> bool {
    assert!(request.fluents <= WORLD_FLUENTS);
    let carrier = Carrier::new(request);
    (0..usize::from(request.actions)).any(|action| {
        (0..1u16 << request.fluents)
            .any(|world| carrier.allowed(action, world) && carrier.step(action, world).is_err())
    })
}

/// At the end each goal holds in all possible worlds and each whether fluent has one value.
pub(crate) fn judge(request: &Request, party: &Party) -> Result<(), Failure> {
    let goals = Demand::new(&request.goals);
    if !party.iter().all(|&world| goals.holds(world)) {
        return Err(Failure::Goal);
    }
    let asked = request
        .whether
        .iter()
        .fold(0, |bits, fluent| bits | 1 << fluent);
    if party.iter().any(|&world| (world ^ party[0]) & asked != 0) {
        return Err(Failure::Whether);
    }
    Ok(())
}

/// The guards, and the table's lines by action.
pub(crate) struct Carrier {
    guards: Demand,
    allowances: Vec<Vec<Demand>>,
    effects: Vec<Vec<(Demand, Demand)>>,
    sensed: Vec<Option<World>>,
}

impl Carrier {
    pub(crate) fn new(request: &Request) -> Carrier {
        let actions = usize::from(request.actions);
        let mut carrier = Carrier {
            guards: Demand::new(&[]),
            allowances: vec![Vec::new(); actions],
            effects: vec![Vec::new(); actions],
            sensed: vec![None; actions],
        };
        for line in &request.allowances {
            carrier.allowances[usize::from(line.action)].push(Demand::new(&line.body));
        }
        for line in &request.effects {
            let change = (Demand::new(&[line.literal]), Demand::new(&line.body));
            carrier.effects[usize::from(line.action)].push(change);
        }
        for line in &request.knowledge {
            *carrier.sensed[usize::from(line.action)].get_or_insert(0) |= 1 << line.fluent;
        }
        carrier
    }

    /// Every world that has the initial facts. The request has at most ten fluents.
    pub(crate) fn start(&self, request: &Request) -> Party {
        assert!(request.fluents <= WORLD_FLUENTS);
        let facts = Demand::new(&request.facts);
        (0..1u16 << request.fluents)
            .filter(|&world| facts.holds(world))
            .collect()
    }

    fn through(&self, sequence: &[Item], parties: Vec<Party>) -> Result<Vec<Party>, Failure> {
        sequence.iter().try_fold(parties, |parties, item| {
            let mut after = Vec::with_capacity(parties.len());
            for party in parties {
                after.extend(self.item(item, party)?);
            }
            Ok(after)
        })
    }

    fn item(&self, item: &Item, party: Party) -> Result<Vec<Party>, Failure> {
        match item {
            Item::Action { action, .. } => {
                let after = self.act(usize::from(*action), party)?;
                after.iter().try_for_each(|party| self.guarded(party))?;
                Ok(after)
            }
            Item::Branching { branches, .. } => match Carrier::branch(branches, &party) {
                Some(branch) => self.through(&branch.sequence, vec![party]),
                None => Err(Failure::NoBranch),
            },
        }
    }

    /// The one branch whose condition holds in each possible world; none where there is not just one.
    pub(crate) fn branch<'a>(branches: &'a [Branch], party: &Party) -> Option<&'a Branch> {
        let mut known = branches.iter().filter(|branch| {
            let condition = Demand::new(&branch.condition);
            party.iter().all(|&world| condition.holds(world))
        });
        match (known.next(), known.next()) {
            (Some(branch), None) => Some(branch),
            _ => None,
        }
    }

    /// The guards hold in each possible world.
    fn guarded(&self, party: &Party) -> Result<(), Failure> {
        match party.iter().all(|&world| self.guards.holds(world)) {
            true => Ok(()),
            false => Err(Failure::Guard),
        }
    }

    /// In this world the action may be run.
    fn allowed(&self, action: usize, world: World) -> bool {
        self.allowances[action].iter().any(|body| body.holds(world))
    }

    /// An action, a sensing one too, drops the possible worlds in which it may not be run. Each
    /// action met may be run in every possible world, so none may be dropped.
    pub(crate) fn act(&self, action: usize, party: Party) -> Result<Vec<Party>, Failure> {
        let before = party.len();
        let kept: Party = party
            .into_iter()
            .filter(|&world| self.allowed(action, world))
            .collect();
        if kept.len() < before {
            return Err(Failure::NotRunnable);
        }
        match self.sensed[action] {
            Some(fluents) => Ok(split(kept, fluents)),
            None => {
                let moved = kept.into_iter().map(|world| self.step(action, world));
                Ok(vec![moved.collect::<Result<Party, Failure>>()?])
            }
        }
    }

    /// Moves a world by the effects whose bodies hold there.
    fn step(&self, action: usize, world: World) -> Result<World, Failure> {
        let (mut made_true, mut made_false) = (0, 0);
        for (change, body) in &self.effects[action] {
            if body.holds(world) {
                made_true |= change.yes;
                made_false |= change.no;
            }
        }
        if made_true & made_false != 0 {
            return Err(Failure::TwoValues);
        }
        Ok((world | made_true) & !made_false)
    }
}

/// Splits a party by what its members' worlds say of the sensed fluents: for each true world
/// the possible worlds kept are those that agree with it on all of them.
fn split(mut party: Party, fluents: World) -> Vec<Party> {
    party.sort_by_key(|world| world & fluents);
    party
        .chunk_by(|one, two| (one ^ two) & fluents == 0)
        .map(<[World]>::to_vec)
        .collect()
}
