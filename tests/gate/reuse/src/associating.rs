//! Joining is associative, and the plan without items is its unit: the bytes are the same, and so is the whole answer.

use oracle::encode::encode_request;
use oracle::generate::{SMALL, TINY};
use oracle::model::{Item, Request};
use oracle::rng::Rng;

use crate::asking::{Asker, Told};
use crate::drafts::{another, any_draft, MOST};
use crate::laws::{Law, Met, Tried};
use crate::parts::{join, plan_bytes, Parts, NO_ITEMS};

const ANSWERS: [&str; 4] = ["answer 0", "answer 1", "answer 2", "answer 3"];
const REFUSED: &str = "refused";
const EMPTY: [&str; 3] = ["first plan empty", "second plan empty", "third plan empty"];
const ITEMS: &str = "items in all three";

pub const LAW: Law = Law {
    what: "associating",
    stream: 14,
    trial,
    events: &[ANSWERS[0], ANSWERS[1], ANSWERS[2], ANSWERS[3], REFUSED, EMPTY[0], EMPTY[1], EMPTY[2], ITEMS],
};

fn trial(rng: &mut Rng, asker: &mut Asker, met: &mut Met) -> Result<Tried, String> {
    let draft = any_draft(rng);
    let plans = match rng.chance(50) {
        true => cut(rng, &draft.plan),
        false => others(rng, &draft),
    };
    let whole = Request { plan: plans.concat(), ..draft.clone() };
    let parts = Parts::of(&draft);
    let [p, q, r] = plans.clone().map(|plan| plan_bytes(&draft, plan));
    let (left, right) = (join(&join(&p, &q), &r), join(&p, &join(&q, &r)));
    let (left, right) = (parts.with_plan(left).bytes(), parts.with_plan(right).bytes());
    if left != right || encode_request(&whole).bytes != left {
        return Err("three plans joined differ in their bytes".to_string());
    }
    let (before, after) = (join(&NO_ITEMS, &p), join(&p, &NO_ITEMS));
    if before != p || after != p {
        return Err("a plan joined with the plan without items is another".to_string());
    }
    let budget = match rng.chance(20) {
        true => rng.below(12) as u32,
        false => MOST,
    };
    let told = alike(asker, &[&left, &right], budget)?;
    let alone = [&parts.with_plan(p.clone()), &parts.with_plan(before), &parts.with_plan(after)].map(Parts::bytes);
    alike(asker, &alone.each_ref().map(Vec::as_slice), budget)?;
    for (event, number) in ANSWERS.into_iter().zip(0..) {
        met.note(event, told.number() == number);
    }
    met.note(REFUSED, told.number() > 3);
    for (event, plan) in EMPTY.into_iter().zip(&plans) {
        met.note(event, plan.is_empty());
    }
    met.note(ITEMS, plans.iter().all(|plan| !plan.is_empty()));
    Ok(Tried::Yes)
}

/// The one answer that all of these requests get, with the place and with the state, whatever bytes are lent.
fn alike(asker: &mut Asker, requests: &[&[u8]], budget: u32) -> Result<Told, String> {
    let first = asker.ask(requests[0], budget)?;
    for request in &requests[1..] {
        let told = asker.ask(request, budget)?;
        if told != first {
            return Err(format!("the same bytes get {first}, and {told}"));
        }
    }
    Ok(first)
}

/// A plan in three, each of which may be empty.
fn cut(rng: &mut Rng, plan: &[Item]) -> [Vec<Item>; 3] {
    let mut places = [0, 0].map(|_| rng.below(plan.len() + 1));
    places.sort_unstable();
    let [from, to] = places;
    [&plan[..from], &plan[from..to], &plan[to..]].map(<[Item]>::to_vec)
}

/// The plan and two others over its table.
fn others(rng: &mut Rng, draft: &Request) -> [Vec<Item>; 3] {
    let [second, third] = [TINY, SMALL].map(|shape| another(rng, draft, &shape).plan);
    [draft.plan.clone(), second, third]
}
