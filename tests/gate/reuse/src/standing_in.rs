//! Calls that stand in for the exported one: the independent program's, under which every law holds, and wrong ones that break a law each, which
//! the trials have to notice.

use std::cell::Cell;

use glintstring::Packed;
use oracle::answer::{Fault, REQUEST};
use oracle::model::{Item, Request};
use oracle::table::{Known, Table};
use oracle::{Answer, STATE_LENGTH};

use crate::calls::Judge;
use crate::laws::{Law, Stopped};
use crate::{associating, converses, facts, goals, joining};

/// Trials of each law with the independent program's call.
const RIGHT: u64 = 2_000;

/// Characters that are printed of how a wrong call was noticed.
const SHOWN: usize = 90;

/// What notices a wrong call.
enum By {
    Trials(Law),
    Converses,
}

use By::{Converses, Trials};

/// Prints after how many trials each wrong call was noticed; in words the first that isn't, or a law that doesn't hold under the right one.
pub fn tell(seed: u64, count: u64) -> Result<String, String> {
    let right = |request: &[u8], lent: &mut [u8], budget: u32| packed(oracle::judge(request, lent, budget));
    for law in [facts::LAW, goals::LAW, joining::LAW, associating::LAW] {
        law.hold(&right, seed, RIGHT.min(count)).map_err(|stopped| format!("the independent program: {}: {stopped}", law.what))?;
    }
    converses::hold(&right).map_err(|why| format!("the independent program: {why}"))?;
    let wrong = wrong();
    for (what, by, judge) in &wrong {
        let noticed = match by {
            Trials(law) => match law.hold(judge, seed, count) {
                Ok(_) => None,
                Err(Stopped::Broken(broken)) => Some((format!("{}, trial {}", law.what, broken.trial), broken.why)),
                Err(Stopped::TooFew(told)) => return Err(format!("{what}: {told}")),
            },
            Converses => converses::hold(judge).err().map(|why| ("converses".to_string(), why)),
        };
        let (found, why) = noticed.ok_or_else(|| format!("not noticed in {count} trials of seed {seed}: {what}"))?;
        println!("  wrong call: {what}: {found}: {}", why.chars().take(SHOWN).collect::<String>());
    }
    Ok(format!("all {} wrong calls are noticed", wrong.len()))
}

fn wrong() -> Vec<(&'static str, By, Box<Judge>)> {
    let calls = Cell::new(0_u64);
    vec![
        ("each fact counts one", Trials(facts::LAW), twisted(|call| call.counting(call.request.facts.len()))),
        ("a sensing action can't be run if nothing is left to sense", Trials(facts::LAW), twisted(nothing_to_sense)),
        ("facts of all fluents are too many", Trials(facts::LAW), twisted(all_facts)),
        ("where nothing is asked, that is missed", Trials(goals::LAW), twisted(nothing_asked)),
        ("each goal counts one", Trials(goals::LAW), twisted(|call| call.counting(call.request.goals.len()))),
        ("each whether entry counts one", Trials(goals::LAW), twisted(|call| call.counting(call.request.whether.len()))),
        ("the last of the budget can't be spent", Trials(joining::LAW), twisted(last_not_spent)),
        ("a second branching can't be run", Trials(joining::LAW), twisted(second_branching)),
        ("a plan of more than five items counts one more", Trials(joining::LAW), twisted(|call| call.counting((call.request.plan.len() > 5).into()))),
        (
            "each thousandth answer has another place",
            Trials(associating::LAW),
            twisted(move |call| {
                calls.set(calls.get() + 1);
                let other = call.answer.input == REQUEST && calls.get().is_multiple_of(1_000);
                Answer { place: call.answer.place ^ u32::from(other), ..call.answer }
            }),
        ),
        ("marks of fluents that a request doesn't have come from what was lent", Trials(associating::LAW), twisted(marks_lent)),
        ("answer 3 writes to the lent state", Trials(associating::LAW), twisted(state_of_3)),
        ("missed goals are not seen", Converses, twisted(|call| call.instead_of(1))),
        ("what can't be run is passed over", Converses, twisted(|call| call.instead_of(2))),
    ]
}

/// A call on a request that is not refused, with the right answer.
struct Answered<'a> {
    request: &'a Request,
    answer: Answer,
    budget: u32,
    lent: &'a mut [u8],
    /// What was lent, before the right answer was written to it.
    before: [u8; STATE_LENGTH],
}

impl Answered<'_> {
    fn is_verified(&self) -> bool {
        self.answer.number == 0
    }

    /// A verified request's count is so much larger.
    fn counting(&self, more: usize) -> Answer {
        let count = self.answer.count + more as u32;
        match self.is_verified() {
            true if count > self.budget => Answer::neither(3, self.budget),
            true => Answer { count, ..self.answer },
            false => self.answer,
        }
    }

    /// Answer 1 or 2 in the first state.
    fn failing(&mut self, number: u8, place: usize) -> Answer {
        let first = Known::of(&self.request.facts);
        for (fluent, byte) in (0..).zip(self.lent.iter_mut()) {
            *byte = first.mark(fluent);
        }
        Answer::of_walk(number, place, 0)
    }

    /// Answer 0 for this one.
    fn instead_of(&mut self, number: u8) -> Answer {
        if self.answer.number != number {
            return self.answer;
        }
        self.lent.copy_from_slice(&self.before);
        Answer::neither(0, self.answer.count)
    }
}

/// A call that gives another answer where a request is not refused.
fn twisted(twist: impl Fn(&mut Answered) -> Answer + 'static) -> Box<Judge> {
    Box::new(move |request, lent, budget| {
        let before = <[u8; STATE_LENGTH]>::try_from(&*lent).expect("a lent state of the right length");
        let answer = oracle::judge(request, lent, budget);
        packed(match oracle::open(request) {
            Ok(request) => twist(&mut Answered { request: &request, answer, budget, lent, before }),
            Err(_) => answer,
        })
    })
}

fn packed(answer: Answer) -> Packed {
    Packed(u64::from(answer.number) | u64::from(answer.input) << 8 | u64::from(answer.place) << 16 | u64::from(answer.count) << 32)
}

fn nothing_to_sense(call: &mut Answered) -> Answer {
    let senses = |action| Table::new(call.request).senses(action);
    match call.request.plan.first() {
        Some(&Item::Action { place, action }) if call.is_verified() && senses(action) != 0 => {
            match senses(action) & !Known::of(&call.request.facts).marked() {
                0 => call.failing(2, place),
                _ => call.answer,
            }
        }
        _ => call.answer,
    }
}

fn all_facts(call: &mut Answered) -> Answer {
    match call.is_verified() && call.request.facts.len() == usize::from(call.request.fluents) {
        true => Answer::refusal(REQUEST, Fault::new(12, 2)),
        false => call.answer,
    }
}

fn nothing_asked(call: &mut Answered) -> Answer {
    match call.is_verified() && call.request.goals.is_empty() && call.request.whether.is_empty() {
        true => call.failing(1, call.request.goals_place),
        false => call.answer,
    }
}

fn last_not_spent(call: &mut Answered) -> Answer {
    match call.is_verified() && call.answer.count == call.budget {
        true => Answer::neither(3, call.budget),
        false => call.answer,
    }
}

fn second_branching(call: &mut Answered) -> Answer {
    let mut branchings = call.request.plan.iter().filter_map(|item| match item {
        Item::Branching { place, .. } => Some(*place),
        Item::Action { .. } => None,
    });
    match branchings.nth(1) {
        Some(place) if call.is_verified() => call.failing(2, place),
        _ => call.answer,
    }
}

fn marks_lent(call: &mut Answered) -> Answer {
    if matches!(call.answer.number, 1 | 2) {
        for fluent in usize::from(call.request.fluents)..STATE_LENGTH {
            call.lent[fluent] = call.before[fluent] % 3;
        }
    }
    call.answer
}

fn state_of_3(call: &mut Answered) -> Answer {
    if call.answer.number == 3 {
        call.lent[0] ^= 1;
    }
    call.answer
}
