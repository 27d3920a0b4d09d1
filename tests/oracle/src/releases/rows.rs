//! Small random release calls with their answers as rows of text, for others to compute again, one
//! per line: `R FILE LENT BUDGET NUMBER INPUT PLACE COUNT PLANS ROW`.
//!
//! Bytes are written as in `rows.rs`. LENT is the length of the lent row, the four numbers after
//! BUDGET are the own answer, PLANS is what the plans call gives, and ROW has all numbers of the
//! row, with commas between, after own answer 0, and is `-` where the row stays as lent. All
//! numbers of the own answer and of plans come round in 150 rows; files have at most 150 bytes and
//! six plans, a few 400 bytes. A file with item 1,025, one that is too long and one with 64 plans
//! stand in the first round only.

use super::call::{plans, release};
use super::calls::{full_release_call, lend_wrongly, lent_row, small_release_call, ReleaseCall};
use super::run::{events, Event};
use crate::answer::Answer;
use crate::reader::read_release;
use crate::rng::Rng;
use crate::rows::{tell_bytes, too_long, Series, LONG_BYTES};
use crate::settle::settle_plan;
use crate::walk::walk;

/// Most bytes of a file, of the few that are longer, and of one with 64 plans.
const BYTES: usize = 150;
const MORE_BYTES: usize = 400;
const FULL_BYTES: usize = 600;
/// Most plans, and of the few that are longer.
const PLANS: usize = 4;
const MORE_PLANS: usize = 6;
/// Largest count of the walks of a file together.
const COUNT: u64 = 1_000;

/// What a row is wanted for.
#[derive(Clone, Copy, Debug)]
enum Shown {
    Own(u8),
    OfPlan(u8),
    Event(Event),
}

use Shown::{OfPlan, Own};

/// How often each comes in a round of calls.
const RELEASES: [(Shown, u64); 27] = [
    (OfPlan(0), 20),
    (OfPlan(1), 14),
    (OfPlan(2), 14),
    (OfPlan(3), 12),
    (OfPlan(11), 6),
    (OfPlan(12), 4),
    (OfPlan(13), 6),
    (OfPlan(14), 3),
    (OfPlan(15), 2),
    (OfPlan(18), 8),
    (OfPlan(19), 2),
    (OfPlan(22), 8),
    (Own(9), 5),
    (Own(11), 4),
    (Own(12), 4),
    (Own(13), 3),
    (Own(14), 2),
    (Own(15), 2),
    (Own(16), 4),
    (Own(17), 4),
    (Own(20), 7),
    (Shown::Event(Event::MiddleFails), 4),
    (Shown::Event(Event::LastFails), 4),
    (Shown::Event(Event::BytesBehind), 3),
    (Shown::Event(Event::OthersAfter18), 2),
    (Shown::Event(Event::WholeBudget), 2),
    (Shown::Event(Event::TableBeforePlans), 1),
];

/// Those that take long files, which stand in the first round only.
const LONG: [Shown; 3] = [Own(10), OfPlan(21), Shown::Event(Event::MostPlans)];

const ROWS: Series<Shown, ReleaseCall> = Series {
    streams: [15, 16],
    often: &RELEASES,
    first: &LONG,
    draw,
    fits: |call, wanted| {
        let most = match wanted {
            Own(10) => usize::MAX,
            OfPlan(21) => LONG_BYTES,
            Shown::Event(Event::MostPlans) => FULL_BYTES,
            _ if plans(&call.file) as usize > PLANS => MORE_BYTES,
            _ => BYTES,
        };
        call.file.len() <= most && shows(call, wanted) && is_light(call)
    },
    tell,
};

/// So many rows.
pub fn release_rows(seed: u64, count: u64) -> impl Iterator<Item = String> {
    ROWS.rows(seed, count)
}

/// A call that may show what is wanted, of a small file but for that with 64 plans. A few have more
/// plans.
fn draw(rng: &mut Rng, wanted: Shown) -> ReleaseCall {
    let most = if rng.chance(4) { MORE_PLANS } else { PLANS };
    let mut call = match wanted {
        Shown::Event(Event::MostPlans) => full_release_call(rng),
        _ => small_release_call(rng, most),
    };
    match wanted {
        Own(9) => lend_wrongly(rng, &mut call),
        Own(10) => {
            too_long(rng, &mut call.file);
            call.lent = lent_row(rng, &call.file);
        }
        _ => {}
    }
    call
}

fn shows(call: &ReleaseCall, wanted: Shown) -> bool {
    let (own, row) = released(call);
    match wanted {
        Own(number) => own.number == number,
        OfPlan(number) => {
            own.number == 0 && row.iter().step_by(4).any(|&other| other == number.into())
        }
        Shown::Event(event) => events(&call.file, call.lent.len(), own, &row).contains(&event),
    }
}

/// The walks that are reached count little.
fn is_light(call: &ReleaseCall) -> bool {
    let Ok(read) = read_release(&call.file) else {
        return true;
    };
    let counts = read.plans.iter().flat_map(|plan| &plan.read);
    let counts = counts.filter(|plan| settle_plan(plan).is_ok());
    let counts = counts.map(|plan| walk(plan, COUNT as u32).count().unwrap_or(COUNT + 1));
    counts.sum::<u64>() <= COUNT
}

fn released(call: &ReleaseCall) -> (Answer, Vec<u32>) {
    let mut row = call.lent.clone();
    let own = release(&call.file, &mut row, call.budget);
    (own, row)
}

fn tell(call: &ReleaseCall) -> String {
    let (own, row) = released(call);
    let numbers: Vec<String> = row.iter().map(u32::to_string).collect();
    let told = match own.number {
        0 => numbers.join(","),
        _ => "-".to_string(),
    };
    let (file, lent, budget) = (tell_bytes(&call.file), call.lent.len(), call.budget);
    let plans = plans(&call.file);
    format!("R {file} {lent} {budget} {own} {plans} {told}")
}
