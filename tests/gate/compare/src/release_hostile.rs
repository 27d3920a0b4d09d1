//! Release files made to do harm: as large, deep and slow as the format lets them be, and a little beyond.

use oracle::encode::{encode_release, encode_request};
use oracle::model::{Allowance, Branch, Effect, Item, Request};
use oracle::reader::{ITEM_LIMIT, NESTING_LIMIT, PLAN_LIMIT, REQUEST_LIMIT};

use crate::hostile::{all_lengths, always, eightfold, literals, senses, wide, Input, Named, FLUENTS, SECTION};
use crate::releases::Release;

/// Numbers of a row for each plan.
const NUMBERS: usize = 4;
/// A budget for each of 64 walks, and one for walks that are slow for each count.
const MANY: u32 = 1_500;
const FEW: u32 = 100;

/// A call with a row as long as the file's plan count says, or as that of 64 plans.
pub fn release(name: &str, file: Vec<u8>, budget: u32) -> Named {
    let plans = match oracle::plans(&file) as usize {
        0 => PLAN_LIMIT,
        plans => plans,
    };
    (format!("release: {name}"), Input::Release(Release { file, lent: vec![9; NUMBERS * plans], budget }))
}

fn file(table: &Request, plans: &[Request]) -> Vec<u8> {
    encode_release(table, plans).whole.bytes
}

/// The table with a plan, and without goals.
fn with_plan(table: &Request, plan: Vec<Item>) -> Request {
    Request { plan, goals: Vec::new(), whether: Vec::new(), ..table.clone() }
}

/// Every file by name, with the deepest walks of a folder, each as the last of as many plans as there is room for.
pub fn named(deepest: &[(String, Vec<u8>, u32)]) -> Vec<Named> {
    let mut inputs = largest_tables();
    inputs.extend(deepest.iter().filter_map(|(name, request, budget)| deep(name, request, *budget)));
    inputs.extend(long_plans());
    inputs.extend(failures());
    inputs.extend(wrong_rows());
    inputs.extend(all_lengths(REQUEST_LIMIT).into_iter().map(|(name, bytes)| release(&name, bytes, FEW)));
    inputs
}

/// A table that is as long as can be: 255 effects, 255 executability lines with 16 literals each, and 255 knowledge lines; and then as many plans
/// as there is room for, each an action, or none.
fn largest_tables() -> Vec<Named> {
    let body = literals(0..16);
    let knowledge = senses(1, 0..FLUENTS);
    let table = Request {
        fluents: FLUENTS,
        actions: 2,
        facts: literals(0..FLUENTS),
        effects: vec![Effect { place: 0, action: 0, literal: 2 * (FLUENTS - 1), body: body.clone() }; SECTION],
        allowances: [vec![Allowance { action: 0, body }; SECTION - 1], vec![always(1)]].concat(),
        knowledge: [&knowledge[..], &knowledge[..SECTION - knowledge.len()]].concat(),
        ..Request::default()
    };
    let room = REQUEST_LIMIT - encode_request(&table).bytes.len();
    let items = |count: usize| with_plan(&table, vec![Item::act(0); count]);
    let plans = vec![items(room / PLAN_LIMIT - 5); PLAN_LIMIT];
    let whole = file(&table, &plans);
    let mut full = plans.clone();
    full[0] = items(room / PLAN_LIMIT - 5 + REQUEST_LIMIT - whole.len());
    let full = file(&table, &full);
    assert_eq!(full.len(), REQUEST_LIMIT, "the largest release file");
    let effects: Vec<Effect> = (0..SECTION)
        .map(|i| Effect { place: 0, action: 0, literal: 2 * (FLUENTS - 1) + (i % 2) as u8, body: [literals(0..15), vec![30 + 2 * (i % 2) as u8]].concat() })
        .collect();
    let lines = vec![Allowance { action: 0, body: [literals(0..15), vec![33]].concat() }; SECTION];
    let clashing = Request { effects, allowances: lines, ..table.clone() };
    vec![
        release("64 plans over the largest table", full.clone(), MANY),
        release("the same and one byte more", [&full[..], &[0]].concat(), MANY),
        release("the same but for one byte", full[..full.len() - 1].to_vec(), MANY),
        release("64 empty plans over the largest table", file(&table, &vec![items(0); PLAN_LIMIT]), MANY),
        release("one plan over the largest table", file(&table, &[items(ITEM_LIMIT)]), MANY),
        release("64 plans over 255 effects, which clash where the action can't be run", file(&clashing, &vec![with_plan(&clashing, vec![Item::act(0)]); PLAN_LIMIT]), MANY),
        release("bytes after 63 plans over the largest table", whole.iter().enumerate().map(|(place, &byte)| if place == table_end(&table) { 63 } else { byte }).collect(), MANY),
    ]
}

/// Sections 1 to 5.
pub fn table(request: &Request) -> Vec<u8> {
    let mut bytes = file(request, &[]);
    bytes.pop();
    bytes
}

/// Where the plan count stands.
fn table_end(request: &Request) -> usize {
    table(request).len()
}

/// A deep request's plan, as many times as there is room for, and empty plans before it up to 64.
fn deep(name: &str, request: &[u8], budget: u32) -> Option<Named> {
    let request = oracle::open(request).ok()?;
    let table = table_end(&request);
    let plan = encode_request(&request).bytes.len() - table;
    let times = ((REQUEST_LIMIT - table - 1) / plan).min(PLAN_LIMIT);
    let empty = (REQUEST_LIMIT - table - 1 - times * plan) / 4;
    let mut plans = vec![with_plan(&request, Vec::new()); empty.min(PLAN_LIMIT - times)];
    plans.extend(vec![request.clone(); times]);
    (times > 0).then(|| release(&format!("{name}, {times} times"), file(&request, &plans), budget.min(MANY)))
}

/// 64 plans that sense all fluents at once, that go through many branchings, that are nested as deep as can be.
fn long_plans() -> Vec<Named> {
    let table = Request { facts: literals(0..16), allowances: vec![always(0), always(1)], knowledge: senses(0, 16..FLUENTS), ..wide() };
    let sensed = |rest: Vec<Item>| with_plan(&table, [vec![Item::act(0)], rest].concat());
    let follow = || Item::case(vec![Branch { condition: Vec::new(), sequence: Vec::new() }]);
    let towers = (0..NESTING_LIMIT).fold(vec![Item::act(1)], |inner, _| vec![Item::case(vec![Branch { condition: Vec::new(), sequence: inner }])]);
    let room = (REQUEST_LIMIT - table_end(&table) - 1) / PLAN_LIMIT;
    let all = |plan: Request| file(&table, &vec![plan; PLAN_LIMIT]);
    let eight = encode_request(&sensed(vec![eightfold()])).bytes.len() - table_end(&table);
    vec![
        release("64 plans that sense 112 fluents at once", all(sensed(Vec::new())), MANY),
        release("64 plans with branchings before each end state", all(sensed(vec![follow(); (room - 5) / 5])), FEW),
        release("64 plans with eight branches before each end state", all(sensed(vec![eightfold(); (room - 5) / (eight - 5)])), FEW),
        release("64 plans of eight branchings, one inside another", all(with_plan(&table, towers)), MANY),
        release("64 plans of as many actions as there is room for", all(with_plan(&table, vec![Item::act(1); room - 4])), MANY),
    ]
}

/// Plans that fail: the first of 64, with all the bytes of a file behind it; the last after 63; those that say they have 65,535 items.
fn failures() -> Vec<Named> {
    let table = wide();
    let good = with_plan(&table, vec![Item::act(0); 200]);
    let mut first = file(&table, &vec![good.clone(); PLAN_LIMIT]);
    let place = table_end(&table) + 1;
    first[place + 2] = FLUENTS;
    let mut last = file(&table, &vec![good; PLAN_LIMIT]);
    last.pop();
    let says = |plan: &[u8]| [&self::table(&table)[..], &[PLAN_LIMIT as u8], plan].concat();
    let nested = [[255, 255, 255, 1, 0].repeat(NESTING_LIMIT), vec![255, 255], vec![0; ITEM_LIMIT]].concat();
    vec![
        release("the first of 64 plans fails", first, MANY),
        release("the last of 64 plans fails", last, MANY),
        release("64 plans, none there", says(&[]), MANY),
        release("65,535 items, none there", says(&[255, 255]), MANY),
        release("65,535 items, 1,025 there", says(&[&[255, 255][..], &[0; ITEM_LIMIT + 1]].concat()), MANY),
        release("65,535 items in each of eight branchings", says(&nested), MANY),
    ]
}

/// Rows that are far too long, or have no number.
fn wrong_rows() -> Vec<Named> {
    let table = wide();
    let file = file(&table, &vec![with_plan(&table, Vec::new()); PLAN_LIMIT]);
    let row = |name: &str, length: usize| (format!("release: {name}"), Input::Release(Release { file: file.clone(), lent: vec![9; length], budget: MANY }));
    vec![row("no number lent", 0), row("a number too few lent", NUMBERS * PLAN_LIMIT - 1), row("1,048,576 numbers lent", 1 << 20)]
}
