//! A run of release calls: each plan's numbers against the walk call on a request of its own, the
//! own answer against what is certain of it, and the tallies.

use std::collections::BTreeMap;
use std::fmt::Write;

use super::call::{in_row, plans, release, ROW_NUMBERS};
use super::calls::{release_call, Outlook, ReleaseCall};
use crate::answer::{Answer, NEITHER, REQUEST};
use crate::encode::encode_release;
use crate::model::Release;
use crate::reader::{read_release, PLAN_LIMIT};
use crate::rng::Rng;
use crate::run::{expect_bytes, told};
use crate::tally::{each, never, so, Checked, Differences};
use crate::{judge, STATE_LENGTH};

/// The numbers of the call's own answer, and those of a plan, each of which has to occur.
pub const OWN: [u8; 11] = [0, 9, 10, 11, 12, 13, 14, 15, 16, 17, 20];
pub const OF_PLANS: [u8; 13] = [0, 1, 2, 3, 11, 12, 13, 14, 15, 18, 19, 21, 22];

/// What a file has been through, told from the call and its answer.
#[derive(Clone, Copy, Debug, PartialEq, Eq, PartialOrd, Ord)]
pub enum Event {
    /// A fault of sections 1 to 5.
    InTable,
    /// 11 or 12 at the plan count.
    AtCount,
    /// A plan fails in reading: the only one, the first, one between, the last.
    OnlyFails,
    FirstFails,
    MiddleFails,
    LastFails,
    /// The file ends where the plan would start.
    EndsBefore,
    /// A plan fails, and bytes follow that nobody looks at.
    BytesBehind,
    /// A plan that was not the last is refused by 18.
    OthersAfter18,
    /// One plan, and as many as there can be, each of them read.
    OnePlan,
    MostPlans,
    /// Some plan is over the budget, and a later one is not.
    WholeBudget,
    /// A row without numbers, and one that is too short or too long.
    EmptyRow,
    ShortRow,
    LongRow,
    /// 9 though bytes follow the last plan.
    NineBefore20,
    /// 16 or 17 though a plan fails, or bytes follow the last.
    TableBeforePlans,
}

impl Event {
    pub const ALL: [Event; 17] = [
        Event::InTable,
        Event::AtCount,
        Event::OnlyFails,
        Event::FirstFails,
        Event::MiddleFails,
        Event::LastFails,
        Event::EndsBefore,
        Event::BytesBehind,
        Event::OthersAfter18,
        Event::OnePlan,
        Event::MostPlans,
        Event::WholeBudget,
        Event::EmptyRow,
        Event::ShortRow,
        Event::LongRow,
        Event::NineBefore20,
        Event::TableBeforePlans,
    ];
}

/// The events of a call.
pub fn events(file: &[u8], lent: usize, own: Answer, row: &[u32]) -> Vec<Event> {
    let Ok(release) = read_release(file) else {
        return match own.number {
            10 => Vec::new(),
            _ if at_count(file, own) => vec![Event::AtCount],
            _ => vec![Event::InTable],
        };
    };
    let fault = release
        .plans
        .last()
        .and_then(|plan| plan.read.as_ref().err());
    let right = ROW_NUMBERS * release.count;
    so(match own.number {
        9 => vec![
            (lent == 0, Event::EmptyRow),
            (0 < lent && lent < right, Event::ShortRow),
            (lent > right, Event::LongRow),
            (release.left_over.is_some(), Event::NineBefore20),
        ],
        16 | 17 => {
            let more = fault.is_some() || release.left_over.is_some();
            vec![(more, Event::TableBeforePlans)]
        }
        0 => of_plans(&release, file, row),
        _ => Vec::new(),
    })
}

/// Whether the table can be read, so that the fault is at the plan count. An input of sections 1
/// to 5 alone, with a plan count of 1 put behind them, has none before its plan.
fn at_count(file: &[u8], own: Answer) -> bool {
    let table = &file[..(own.place as usize).min(file.len())];
    read_release(&[table, &[1]].concat()).is_ok_and(|release| release.table_end == table.len())
}

fn of_plans(release: &Release, file: &[u8], row: &[u32]) -> Vec<(bool, Event)> {
    let reached = release.plans.len();
    let failed = release.plans.last().filter(|plan| plan.read.is_err());
    let fails = failed.is_some();
    let numbers: Vec<u32> = row.iter().copied().step_by(ROW_NUMBERS).collect();
    let before = |number: u32| numbers.iter().position(|&other| other == number);
    let after = |place: Option<usize>| place.map_or(&[][..], |place| &numbers[place + 1..]);
    let walked = |number: &u32| *number < 3;
    let count = release.count;
    let behind = failed.is_some_and(|plan| {
        plan.read
            .as_ref()
            .is_err_and(|fault| fault.number != 11 && fault.place + 1 < file.len())
    });
    vec![
        (fails && count == 1, Event::OnlyFails),
        (fails && reached == 1 && count > 1, Event::FirstFails),
        (fails && 1 < reached && reached < count, Event::MiddleFails),
        (fails && reached == count && count > 1, Event::LastFails),
        (
            failed.is_some_and(|plan| plan.start == file.len()),
            Event::EndsBefore,
        ),
        (behind, Event::BytesBehind),
        (after(before(18)).iter().any(walked), Event::OthersAfter18),
        (!fails && count == 1, Event::OnePlan),
        (!fails && count == PLAN_LIMIT, Event::MostPlans),
        (after(before(3)).iter().any(walked), Event::WholeBudget),
    ]
}

/// How often each thing happened.
#[derive(Clone, Debug, Default)]
pub struct Tally {
    files: u64,
    plans: u64,
    own: BTreeMap<u8, u64>,
    of_plans: BTreeMap<u8, u64>,
    events: BTreeMap<Event, u64>,
    differences: Differences,
}

/// Makes so many calls from a seed.
pub fn run(seed: u64, files: u64) -> Tally {
    let mut tally = Tally::default();
    for index in 0..files {
        let call = release_call(&mut Rng::new(seed, 14, index));
        if let Err(difference) = tally.release(&call) {
            tally.differences.add(format!(
                "release file {index}: {difference}: {}",
                told(&call.file)
            ));
        }
    }
    tally
}

impl Tally {
    /// Notes a call with its answer and the row afterwards.
    pub fn note(&mut self, file: &[u8], lent: usize, own: Answer, row: &[u32]) {
        self.files += 1;
        *self.own.entry(own.number).or_default() += 1;
        for event in events(file, lent, own, row) {
            *self.events.entry(event).or_default() += 1;
        }
        if own.number == 0 {
            for &number in row.iter().step_by(ROW_NUMBERS) {
                self.plans += 1;
                *self.of_plans.entry(number as u8).or_default() += 1;
            }
        }
    }

    /// Makes a release call and checks its answer and its row.
    fn release(&mut self, call: &ReleaseCall) -> Result<(), String> {
        let mut row = call.lent.clone();
        let own = release(&call.file, &mut row, call.budget);
        self.note(&call.file, call.lent.len(), own, &row);
        expect_own(own, call)?;
        expect_plans(own, call)?;
        expect_outlook(own, &row, &call.outlook)?;
        if own.number != 0 {
            return match row == call.lent {
                true => Ok(()),
                false => Err(format!("own answer {own} changed the row")),
            };
        }
        let read = read_release(&call.file).map_err(|_| "answered unread".to_string())?;
        if read.plans.iter().all(|plan| plan.read.is_ok()) {
            let plans = read.plans.iter().flat_map(|plan| &plan.read);
            let plans: Vec<_> = plans.cloned().collect();
            let written = encode_release(&read.table, &plans).whole.bytes;
            expect_bytes(&written, &call.file)?;
        }
        compare_requests(&call.file, &row, call.budget)
    }
}

impl Checked for Tally {
    fn found(&self) -> &Differences {
        &self.differences
    }

    fn never_met(&self) -> Vec<String> {
        let own = never(&OWN, &self.own, |number| format!("own answer {number}"));
        let of_plans = never(&OF_PLANS, &self.of_plans, |number| {
            format!("{number} for a plan")
        });
        let events = never(&Event::ALL, &self.events, |event| format!("{event:?}"));
        own.chain(of_plans).chain(events).collect()
    }

    fn report(&self) -> String {
        let mut out = self.differences.report();
        let _ = writeln!(out, "release files: {}", self.files);
        out += &each(&self.own, |number| format!("  own answer {number}"));
        let _ = writeln!(out, "plans of these: {}", self.plans);
        out += &each(&self.of_plans, |number| format!("  plan with {number}"));
        out + &each(&self.events, |event| format!("  {event:?}"))
    }
}

/// What every own answer keeps to: its number, input, place and count.
fn expect_own(own: Answer, call: &ReleaseCall) -> Result<(), String> {
    let neither = matches!(own.number, 0 | 9);
    let place = own.place as usize;
    let placed = match own.number {
        0 | 9 | 10 => place == 0,
        11 => place == call.file.len(),
        _ => place < call.file.len(),
    };
    let input = if neither { NEITHER } else { REQUEST };
    let right = OWN.contains(&own.number) && own.input == input && own.count == 0;
    match right && placed {
        true => Ok(()),
        false => Err(format!("own answer {own} is out of form")),
    }
}

/// A row of four times what the plans call gives is not refused by 9, and every row is refused by
/// 10 to 15 where it gives 0.
fn expect_plans(own: Answer, call: &ReleaseCall) -> Result<(), String> {
    let plans = plans(&call.file) as usize;
    let right = match plans {
        0 => matches!(own.number, 10..=15),
        1..=PLAN_LIMIT => (own.number == 9) == (call.lent.len() != ROW_NUMBERS * plans),
        _ => false,
    };
    match right && (plans == 0 || !matches!(own.number, 10..=15)) {
        true => Ok(()),
        false => Err(format!("own answer {own}, and {plans} plans")),
    }
}

fn expect_outlook(own: Answer, row: &[u32], outlook: &Outlook) -> Result<(), String> {
    let numbers = || row.iter().step_by(ROW_NUMBERS);
    let right = match *outlook {
        Outlook::Open => true,
        Outlook::Own(answer) => own == answer,
        Outlook::Read => own.number == 0 && numbers().all(|number| matches!(number, 0..=3 | 18)),
        Outlook::Failed(plan, fault) => {
            let four = in_row(Answer::refusal(REQUEST, fault));
            let unreached = in_row(Answer::neither(22, 0));
            let mut plans = row.chunks(ROW_NUMBERS).skip(plan);
            own.number == 0
                && numbers()
                    .take(plan)
                    .all(|number| matches!(number, 0..=3 | 18))
                && plans.next() == Some(&four[..])
                && plans.all(|four| four == unreached)
        }
    };
    match right {
        true => Ok(()),
        false => Err(format!(
            "own answer {own}, row {row:?}, expected {outlook:?}"
        )),
    }
}

/// Each plan's four numbers are those of the walk call on the request of that plan, whose places
/// are moved; behind a plan that fails in reading they are 22 and zeros.
fn compare_requests(file: &[u8], row: &[u32], budget: u32) -> Result<(), String> {
    let read = read_release(file).map_err(|_| "answered unread".to_string())?;
    let ends = read.plans.iter().skip(1).map(|plan| plan.start);
    let ends = ends.chain([file.len()]);
    let mut rows = row.chunks(ROW_NUMBERS);
    for (plan, end) in read.plans.iter().zip(ends) {
        let request = [&file[..read.table_end], &file[plan.start..end]].concat();
        let mut answer = judge(&request, &mut [9; STATE_LENGTH], budget);
        if answer.input == REQUEST {
            answer.place += (plan.start - read.table_end) as u32;
        }
        if rows.next() != Some(&in_row(answer)[..]) {
            let start = plan.start;
            return Err(format!("row {row:?}, the plan at {start} has {answer}"));
        }
    }
    match rows.all(|four| four == [22, 0, 0, 0]) {
        true => Ok(()),
        false => Err(format!("row {row:?}, {} plans reached", read.plans.len())),
    }
}
