//! The requests on which the walk goes deepest, and some beside them: writes each into the folder given, and prints a line for each, with
//! the file's name, the budget, the number of items and what the request is. Beside them derivations, and lists of these (`derivations`, and
//! `whether` for the closing layout), with the request's file, the derivation's, its number of lines and what it is; release files, and a
//! list of these (`releases`), with the file's name, the budget, the number of plans and what it is; guarded requests, and a list of these
//! (`guarded`), with the file's name, the budget, the number of guards and what it is; requests to be walked by cases, and a list of these
//! (`by-cases`), with the file's name, the budget, the most open fluents that an action has and what it is; values requests, and a list of these (`values`), with
//! the file's name, the budget, the number of values that each fluent has and what it is; and requests whose derivations go deepest, and a list of these
//! (`to-derive`), with the file's name, the budget, the number of items and what it is.

use std::ops::Range;
use std::{env, fs};

/// All have as many fluents as there can be, no initial facts, and those of these actions that their plan has. There is no room for the lines of
/// all of them.
const FLUENTS: u8 = 128;
const LAST: u8 = FLUENTS - 1;
const LOOK: u8 = 0; // senses all but the last
const FORGET: u8 = 1; // makes these unknown again, by effects with the unknown last one in their bodies
const LOOK_AT_ALL: u8 = 2; // senses all
const LOOK_AT_HALF: u8 = 3; // senses the first half
const LOOK_AT_ONE: u8 = 4; // senses one
const WORK: u8 = 5; // makes each but the last false if the next is true
const NEVER: u8 = 6; // can't be run
const LOOK_AT_SOME: u8 = 7; // senses as many as there is room for in a short request
const FORGET_SOME: u8 = 8; // makes these unknown again
const TRY: u8 = 9; // has as many open fluents as there can be, in an effect; of two lines one allows it where the first is true, the other where it is false
const LOOK_AT_OTHERS: u8 = 10; // senses all but these
const LOOK_AT_SIX: u8 = 11; // senses as many as may be unknown in a derivation that is written
const FORGET_SIX: u8 = 12; // makes these unknown again if all are true
const ACTIONS: u8 = 13;

/// Open fluents that an action may have by cases, which are the first.
const OPEN: u8 = 12;

/// Unknown fluents that a sensing action may have in a derivation that is written, which are the first.
const SIX: u8 = 6;

/// A short request has so many bytes at the most (FORMAT 12.21). A path goes through the most readings there where it looks at so many fluents.
const SHORT: usize = 1_024;
const SOME: u8 = 84;

/// A budget with which the end of the first path is reached and not much more, and one with which the whole plan is walked.
const SOON: u32 = 5_000;
const ENOUGH: u32 = u32::MAX;

/// An item of the plan: its bytes, how many items it is, and a bit for each action in it.
#[derive(Clone)]
struct Item(Vec<u8>, usize, u16);

fn act(action: u8) -> Item {
    Item(vec![action], 1, 1 << action)
}

/// A count byte and that many entries or lines.
fn section<Line: AsRef<[u8]>>(lines: impl IntoIterator<Item = Line>) -> Vec<u8> {
    let lines: Vec<Line> = lines.into_iter().collect();
    let count = u8::try_from(lines.len()).expect("lines of a section");
    lines.iter().fold(vec![count], |bytes, line| [&bytes, line.as_ref()].concat())
}

/// A two-byte item count and that many items.
fn sequence(items: &[Item]) -> Vec<u8> {
    let count = (items.len() as u16).to_be_bytes().to_vec();
    items.iter().fold(count, |bytes, item| [&bytes[..], &item.0].concat())
}

fn size(items: &[Item]) -> usize {
    items.iter().map(|item| item.1).sum()
}

fn actions(items: &[Item]) -> u16 {
    items.iter().fold(0, |all, item| all | item.2)
}

/// A branching of so many branches, each with its condition.
fn branching(branches: &[(&[u8], &[Item])]) -> Item {
    let lines = branches.iter().map(|(condition, items)| [section(condition.chunks(1)), sequence(items)].concat());
    let inside: usize = branches.iter().map(|branch| size(branch.1)).sum();
    let acts = branches.iter().fold(0, |all, branch| all | actions(branch.1));
    Item([vec![255], section(lines)].concat(), 1 + inside, acts)
}

/// A branching with one branch, which is always followed.
fn within(items: &[Item]) -> Item {
    branching(&[(&[], items)])
}

/// So many branchings, one inside another.
fn nested(depth: usize, items: Vec<Item>) -> Vec<Item> {
    (0..depth).fold(items, |items, _| vec![within(&items)])
}

/// What is forgotten: what is known true, which is all on the first path, or whatever is known.
#[derive(Clone, Copy)]
enum Forgets {
    True,
    Known,
}

/// What is wanted at the end: nothing, or that each fluent is true, and known.
#[derive(Clone, Copy)]
enum Goals {
    None,
    All,
}

/// The whole request.
fn request(forgets: Forgets, goals: Goals, plan: &[Item]) -> Vec<u8> {
    request_keeping(0, forgets, goals, plan)
}

/// One with so many guards: of the fluents before the last so many are true, and nothing changes them.
fn guarded(guards: u8, forgets: Forgets, goals: Goals, plan: &[Item]) -> Vec<u8> {
    let bytes = [request_keeping(guards, forgets, goals, plan), section((LAST - guards..LAST).map(|f| [2 * f]))].concat();
    assert!(bytes.len() <= 16384, "beyond the limits");
    bytes
}

/// The request in which so many fluents are kept.
fn request_keeping(kept: u8, forgets: Forgets, goals: Goals, plan: &[Item]) -> Vec<u8> {
    let changed = LAST - kept;
    let made_false = |action, count| (0..count).map(move |f| vec![action, 2 * f + 1, 1, 2 * LAST]);
    let made_true = (0..changed).map(|f| vec![FORGET, 2 * f, 1, 2 * LAST + 1]);
    let work = (0..changed).map(|f| vec![WORK, 2 * f + 1, 1, 2 * f + 2]);
    let made_true = made_true.filter(|_| matches!(forgets, Forgets::Known));
    let used = |action: u8| actions(plan) >> action & 1 == 1;
    let tried = [[vec![TRY, 1, OPEN], (0..OPEN).map(|f| 2 * f).collect()].concat()];
    let six = (0..SIX).map(|f| [vec![FORGET_SIX, 2 * f + 1, SIX + 1], (0..SIX).map(|f| 2 * f).collect(), vec![2 * LAST]].concat());
    let effects = made_false(FORGET, changed).chain(made_true).chain(made_false(FORGET_SOME, SOME)).chain(work).chain(tried).chain(six);
    let effects = section(effects.filter(|line| used(line[0])));
    let always = (0..ACTIONS).filter(|action| ![NEVER, TRY].contains(action)).map(|action| vec![action, 0]);
    let runs = section(always.chain([vec![TRY, 1, 0], vec![TRY, 1, 1]]).filter(|line| used(line[0])));
    let from_first = [(LOOK, LAST), (LOOK_AT_ALL, FLUENTS), (LOOK_AT_HALF, FLUENTS / 2), (LOOK_AT_ONE, 1), (LOOK_AT_SOME, SOME), (LOOK_AT_SIX, SIX)];
    let looks = from_first.map(|(action, count)| (action, 0..count)).into_iter().chain([(LOOK_AT_OTHERS, OPEN..FLUENTS)]);
    let sensed = |(action, fluents): (u8, Range<u8>)| fluents.map(move |f| [action, f]);
    let knowledge = section(looks.flat_map(sensed).filter(|line| used(line[0])));
    let wanted = match goals {
        Goals::None => vec![0, 0],
        Goals::All => [section((0..FLUENTS).map(|f| [2 * f])), section((0..FLUENTS).map(|f| [f]))].concat(),
    };
    let facts = section((changed..LAST).map(|f| [2 * f]));
    let bytes = [vec![FLUENTS, ACTIONS], facts, effects, runs, knowledge, sequence(plan), wanted].concat();
    assert!(size(plan) <= 1024 && bytes.len() <= 16384, "beyond the limits");
    bytes
}

/// The same items over and over, as often as they fit into so many.
fn over_and_over(items: &[Item], most: usize) -> Vec<Item> {
    items.iter().cloned().cycle().take(items.len() * (most / size(items))).collect()
}

/// A derivation's line with nothing known before and nothing said afterwards.
fn line(plan: &[Item], rule: u8, cited: &[u16]) -> Vec<u8> {
    [vec![0], sequence(plan), vec![0, rule], section(cited.iter().map(|number| number.to_be_bytes()))].concat()
}

fn derivation(lines: &[Vec<u8>]) -> Vec<u8> {
    let bytes = lines.iter().fold((lines.len() as u16).to_be_bytes().to_vec(), |bytes, line| [&bytes[..], line].concat());
    assert!(lines.len() <= 1024 && bytes.len() <= 32768, "beyond the limits");
    bytes
}

/// The same in the closing layout, with a fluent for what is said after rules 7, 8, 10, 11 and 12.
fn closing_line(plan: &[Item], rule: u8, cited: &[u16]) -> Vec<u8> {
    let said = if matches!(rule, 7 | 8 | 10..=12) { LAST } else { 0 };
    [vec![0], sequence(plan), vec![rule, said], section(cited.iter().map(|number| number.to_be_bytes()))].concat()
}

/// Lines, and a closing list that names the first so often.
fn closed(lines: &[Vec<u8>], entries: usize) -> Vec<u8> {
    let bytes = [derivation(lines), section(vec![[0, 0]; entries])].concat();
    assert!(bytes.len() <= 32768, "beyond the limits");
    bytes
}

/// Writes derivations for a request, and a list of them under this name.
fn write_derivations(folder: &str, list: &str, asked: (&str, Vec<u8>), derivations: &[(&str, usize, Vec<u8>)]) {
    let mut lines = String::new();
    fs::write(format!("{folder}/{}", asked.0), asked.1).expect("a file written");
    for (number, (name, count, bytes)) in derivations.iter().enumerate() {
        let file = format!("{list}-{number}");
        fs::write(format!("{folder}/{file}"), bytes).expect("a file written");
        lines += &format!("{} {file} {count} {name}\n", asked.0);
    }
    fs::write(format!("{folder}/{list}"), lines).expect("a file written");
}

/// Derivations of requests whose plan looks at all fluents. The sensing rules go through their readings as far as their citations go.
fn derivations(folder: &str) {
    let plan = [act(LOOK_AT_ALL)];
    let eight = nested(8, plan.to_vec());
    let in_a_row = over_and_over(&[within(&[])], 1024);
    let nothing = || line(&[], 1, &[]);
    let looks = || line(&plan, 3, &[0; 64]);
    let plain = [
        ("128 looked at, 64 cited", vec![nothing(), looks()]),
        ("eight branchings, one inside another", vec![nothing(), line(&eight, 4, &[0])]),
        ("1,024 branchings in a row", vec![nothing(), line(&in_a_row, 4, &[0])]),
        ("1,024 lines", vec![nothing(); 1024]),
        ("64 cited in each line but one", [vec![nothing()], vec![looks(); 240]].concat()),
    ];
    let plain = plain.map(|(name, lines)| (name, lines.len(), derivation(&lines)));
    write_derivations(folder, "derivations", ("asked.request", request(Forgets::True, Goals::None, &plan)), &plain);

    let nothing = || closing_line(&[], 1, &[]);
    let looks = || closing_line(&plan, 10, &[0; 64]);
    let asked = usize::from(FLUENTS) + 1;
    let closing = [
        ("128 looked at, 64 cited, rule 10", vec![nothing(), looks()], asked),
        ("128 looked at, rule 7", vec![closing_line(&plan, 7, &[])], asked),
        ("eight branchings, one inside another, rule 12", vec![nothing(), closing_line(&eight, 12, &[0])], asked),
        ("1,024 branchings in a row, rule 12", vec![nothing(), closing_line(&in_a_row, 12, &[0])], asked),
        ("1,024 lines, 129 entries", vec![nothing(); 1024], asked),
        ("1,024 lines, 255 entries", vec![nothing(); 1024], 255),
        ("64 cited in each line but one, rule 10", [vec![nothing()], vec![looks(); 240]].concat(), asked),
    ];
    let closing = closing.map(|(name, lines, entries)| (name, lines.len(), closed(&lines, entries)));
    write_derivations(folder, "whether", ("asked-whether.request", request(Forgets::True, Goals::All, &plan)), &closing);
}

/// A request: what it is, the budget, and what it is made of.
type Deep = (&'static str, u32, Forgets, Goals, Vec<Item>);

/// Guards that a request may have.
const MOST_GUARDS: u8 = 64;

/// A plan without items, goals and whether entries.
const EMPTY: [u8; 4] = [0; 4];

/// A release file of a request's table and plan, with so many empty plans before it.
fn release(request: &[u8], plan: &[Item], goals: Goals, before: usize) -> Vec<u8> {
    let plan_length = sequence(plan).len() + match goals {
        Goals::None => 2,
        Goals::All => 2 * (1 + usize::from(FLUENTS)),
    };
    let (table, plan) = request.split_at(request.len() - plan_length);
    [table, &[before as u8 + 1], &EMPTY.repeat(before), plan].concat()
}

/// The deepest requests with guards: none, one, or as many as there can be.
fn guarded_requests(folder: &str, requests: &[Deep], short: &Deep) {
    let mut lines = String::new();
    let all = requests.iter().flat_map(|deep| [0, 1, MOST_GUARDS].map(|guards| (guards, deep))).chain([(0, short)]);
    for (number, (guards, (name, budget, forgets, goals, plan))) in all.enumerate() {
        let file = format!("{number}.guarded");
        fs::write(format!("{folder}/{file}"), guarded(guards, *forgets, *goals, plan)).expect("a file written");
        let less = if guards == 0 { "no guards".to_string() } else { format!("but for {guards} guarded") };
        lines += &format!("{file} {budget} {guards} {name}, {less}\n");
    }
    fs::write(format!("{folder}/guarded"), lines).expect("a file written");
}

/// Requests to be walked by cases: the deepest, in which what forgets has one open fluent, and these, in which an action has as many as there can be at the end
/// of each path. Their first paths are walked to the end, and not much more: that action takes long.
fn requests_by_cases(folder: &str, requests: &[Deep], tries: &[(&str, Vec<Item>)]) {
    let tries = tries.iter().map(|(name, plan)| (OPEN, (*name, size(plan) as u32 + 2, Forgets::True, Goals::None, plan.clone())));
    let mut lines = String::new();
    for (number, (open, (name, budget, forgets, goals, plan))) in requests.iter().map(|deep| (1, deep.clone())).chain(tries).enumerate() {
        let file = format!("{number}.by-cases");
        fs::write(format!("{folder}/{file}"), request(forgets, goals, &plan)).expect("a file written");
        lines += &format!("{file} {budget} {open} {name}\n");
    }
    fs::write(format!("{folder}/by-cases"), lines).expect("a file written");
}

/// A request said by values, of which each fluent has so many: true is the value 0, and false the value 1. In a condition false is the last value, and true that a
/// fluent has another.
struct ByValues<'a> {
    request: &'a [u8],
    values: u8,
    said: Vec<u8>,
}

impl ByValues<'_> {
    fn byte(&mut self) -> u8 {
        let (byte, rest) = self.request.split_first().expect("a byte of a request");
        self.request = rest;
        self.said.push(*byte);
        *byte
    }

    /// A literal, whose fluent is followed by what says so if it is true, and if it is false.
    fn literal(&mut self, says: [u8; 2]) {
        let literal = self.byte();
        self.said.pop();
        self.said.extend([literal / 2, says[usize::from(literal % 2)]]);
    }

    fn literals(&mut self, says: [u8; 2]) {
        for _ in 0..self.byte() {
            self.literal(says);
        }
    }

    fn items(&mut self) {
        let count = u16::from_be_bytes([self.byte(), self.byte()]);
        for _ in 0..count {
            if self.byte() == 255 {
                for _ in 0..self.byte() {
                    let last = 2 * (self.values - 1);
                    self.literals([last + 1, last]);
                    self.items();
                }
            }
        }
    }
}

/// So many values for each fluent of a request.
fn by_values(request: &[u8], values: u8) -> Vec<u8> {
    const SAYS: [u8; 2] = [0, 2];
    let mut by = ByValues { request, values, said: Vec::new() };
    let fluents = by.byte();
    by.said.extend(vec![values; fluents.into()]);
    by.byte();
    by.literals(SAYS);
    for _ in 0..by.byte() {
        by.byte();
        by.literal(SAYS);
        by.literals(SAYS);
    }
    for _ in 0..by.byte() {
        by.byte();
        by.literals(SAYS);
    }
    for _ in 0..by.byte() {
        by.byte();
        by.byte();
    }
    by.items();
    by.literals(SAYS);
    for _ in 0..by.byte() {
        by.byte();
    }
    assert!(by.request.is_empty() && by.said.len() <= 16384, "beyond the limits");
    by.said
}

/// As many readings as a path can go through in a short values request: so many fluents are looked at and made unknown again, and there is one more.
fn short_by_values(values: u8) -> Vec<u8> {
    const LOOKED_AT: u8 = 57;
    let effects = section((0..LOOKED_AT).map(|f| [FORGET, 2 * f + 1, 1, 2 * LOOKED_AT]));
    let knowledge = section((0..LOOKED_AT).map(|f| [LOOK, f]));
    let table = [vec![LOOKED_AT + 1, 2, 0], effects, section([[LOOK, 0], [FORGET, 0]]), knowledge].concat();
    let whole = |items: &[Item]| by_values(&[&table[..], &sequence(items), &[0, 0]].concat(), values);
    let bytes = whole(&over_and_over(&[act(LOOK), act(FORGET)], SHORT - whole(&[]).len()));
    assert_eq!(bytes.len(), SHORT, "a short values request");
    bytes
}

/// The last fluent that is looked at has its third value on the path that goes deepest, and only where it has this one are all made unknown again. The paths by its first
/// two values look at nothing that is unknown after that, so the walk soon comes to the third.
fn third_by_values() -> Vec<u8> {
    const LOOKED_AT: u8 = 127;
    let last = LOOKED_AT - 1;
    let effects = section((0..LOOKED_AT).map(|f| [FORGET, f, 2, 2, last, 4, LOOKED_AT, 0]));
    let knowledge = section((0..LOOKED_AT).map(|f| [LOOK, f]));
    let counts = [3; LOOKED_AT as usize + 1];
    let plan = sequence(&over_and_over(&[act(LOOK), act(FORGET)], 1024));
    [&[LOOKED_AT + 1], &counts[..], &[2, 0], &effects, &section([[LOOK, 0], [FORGET, 0]]), &knowledge, &plan, &[0, 0]].concat()
}

/// Values requests: the deepest, with as few values as a fluent may have and with as many, one that goes deepest in a third value, and short ones.
fn values_requests(folder: &str, requests: &[Deep]) {
    let mut lines = String::new();
    let said = |values| requests.iter().map(move |(name, budget, forgets, goals, plan)| (*name, *budget, by_values(&request(*forgets, *goals, plan), values), values));
    let short = [2, 16].map(|values| ("57 looked at, forgotten, in 1,024 bytes", SOON, short_by_values(values), values));
    let third = [("127, the last at its third value, forgotten", 1_000_000, third_by_values(), 3)];
    for (number, (name, budget, bytes, values)) in said(2).chain(said(16)).chain(third).chain(short).enumerate() {
        let file = format!("{number}.values");
        fs::write(format!("{folder}/{file}"), bytes).expect("a file written");
        lines += &format!("{file} {budget} {values} {name}, {values} values\n");
    }
    fs::write(format!("{folder}/values"), lines).expect("a file written");
}

/// Requests that are verified, and whose derivations go deepest. They are walked to the end, so what is looked at forks again on the first path only.
fn requests_to_derive(folder: &str) {
    let looks = |most| over_and_over(&[act(LOOK_AT_SIX), act(FORGET_SIX)], most);
    let in_short = SHORT - request(Forgets::True, Goals::None, &looks(2)).len();
    let plans = [
        ("six looked at, forgotten", looks(1024)),
        ("six looked at, forgotten, in eight branchings", nested(8, looks(1016))),
        ("six looked at, forgotten, in 1,024 bytes", looks(in_short + 2)),
        ("one looked at, forgotten, all paths", over_and_over(&[act(LOOK_AT_ONE), act(FORGET)], 1024)),
        ("1,022 branchings in a row", over_and_over(&[within(&[])], 1022)),
        ("1,024 actions, no goals", vec![act(WORK); 1024]),
    ];
    let mut lines = String::new();
    for (number, (name, plan)) in plans.iter().enumerate() {
        let file = format!("{number}.to-derive");
        fs::write(format!("{folder}/{file}"), request(Forgets::True, Goals::None, plan)).expect("a file written");
        lines += &format!("{file} {ENOUGH} {} {name}\n", size(plan));
    }
    fs::write(format!("{folder}/to-derive"), lines).expect("a file written");
}

/// Release files in which the deepest plans are the only one, or the last of 64 where the file need not be short.
fn releases(folder: &str, requests: &[Deep]) {
    let mut lines = String::new();
    for (number, (name, budget, forgets, goals, plan)) in requests.iter().enumerate() {
        let request = request(*forgets, *goals, plan);
        for before in [0, 63] {
            let bytes = release(&request, plan, *goals, before);
            assert!(bytes.len() <= 16384, "beyond the limits");
            if before > 0 && request.len() < SHORT {
                continue;
            }
            let file = format!("{number}-{before}.release");
            fs::write(format!("{folder}/{file}"), bytes).expect("a file written");
            let others = if before == 0 { "alone" } else { "the last of 64" };
            lines += &format!("{file} {budget} {} {name}, {others}\n", before + 1);
        }
    }
    fs::write(format!("{folder}/releases"), lines).expect("a file written");
}

fn main() {
    let folder = env::args().nth(1).expect("a folder");
    derivations(&folder);
    let steps = |look, most| over_and_over(&[act(look), act(FORGET)], most);
    let with_end = |end: &[Item]| [&steps(LOOK, 1022), end].concat();
    let all_at_last = with_end(&[within(&[act(LOOK_AT_ALL)])]);
    let cannot_at_last = with_end(&[act(LOOK), act(NEVER)]);
    let second_reading = [act(LOOK_AT_ONE), branching(&[(&[0], &[]), (&[1], &steps(LOOK, 1022))])];
    let looks_within = over_and_over(&[within(&[act(LOOK)]), act(FORGET)], 1024);
    let looks_nested = over_and_over(&[nested(8, vec![act(LOOK)]), vec![act(FORGET)]].concat(), 1024);
    let steps_within = over_and_over(&[within(&[act(LOOK)]), within(&[act(FORGET)])], 1024);
    let steps_nested = nested(8, steps(LOOK, 1016));
    let short = |items| over_and_over(&[act(LOOK_AT_SOME), act(FORGET_SOME)], items);
    let left = SHORT - request(Forgets::True, Goals::None, &short(2)).len();
    let branchings = over_and_over(&[within(&[])], 1024);
    let towers = over_and_over(&nested(8, vec![]), 1024);
    let requests = [
        ("127 looked at, forgotten", SOON, Forgets::True, Goals::None, steps(LOOK, 1024)),
        ("127, false ones forgotten too", 100_000, Forgets::Known, Goals::None, steps(LOOK, 1024)),
        ("127, at last 128 in a branching", SOON, Forgets::True, Goals::None, all_at_last.clone()),
        ("127, at last 128, all goals", SOON, Forgets::True, Goals::All, all_at_last),
        ("127, at last what cannot be run", SOON, Forgets::True, Goals::None, cannot_at_last),
        ("127, after a second reading", SOON, Forgets::Known, Goals::None, second_reading.to_vec()),
        ("127, each look in a branching", SOON, Forgets::True, Goals::None, looks_within),
        ("127, each look in eight branchings", SOON, Forgets::True, Goals::None, looks_nested),
        ("127, each step in a branching", SOON, Forgets::True, Goals::None, steps_within),
        ("127, all steps in eight branchings", SOON, Forgets::True, Goals::None, steps_nested),
        ("64 looked at, forgotten", SOON, Forgets::True, Goals::None, steps(LOOK_AT_HALF, 1024)),
        ("one looked at, forgotten", SOON, Forgets::True, Goals::None, steps(LOOK_AT_ONE, 1024)),
        ("84 looked at, forgotten, in 1,024 bytes", SOON, Forgets::True, Goals::None, short(left + 2)),
        ("1,024 branchings in a row", SOON, Forgets::True, Goals::None, branchings),
        ("towers of eight branchings", SOON, Forgets::True, Goals::None, towers),
        ("1,024 actions", SOON, Forgets::Known, Goals::All, vec![act(WORK); 1024]),
        ("no item", SOON, Forgets::Known, Goals::All, vec![]),
    ];
    let short_file = ("84 looked at, forgotten, in 1,023 bytes", SOON, Forgets::True, Goals::None, short(left));
    guarded_requests(&folder, &requests[..5], &short_file);
    let short_tries = |items| [short(items), vec![act(TRY)]].concat();
    let left = SHORT - request(Forgets::True, Goals::None, &short_tries(2)).len();
    let tries = [
        ("127, at last 12 open", with_end(&[act(TRY)])),
        ("127, at last 116 and 12 open", with_end(&[act(LOOK_AT_OTHERS), act(TRY)])),
        ("127, at last 12 open in a branching", with_end(&[within(&[act(TRY)])])),
        ("84 looked at, forgotten, at last 12 open, in 1,024 bytes", short_tries(left + 2)),
    ];
    requests_by_cases(&folder, &requests[..5], &tries);
    values_requests(&folder, &requests[..6]);
    requests_to_derive(&folder);
    releases(&folder, &[&requests[..5], &[short_file]].concat());
    for (number, (name, budget, forgets, goals, plan)) in requests.into_iter().enumerate() {
        let file = format!("{number}.request");
        fs::write(format!("{folder}/{file}"), request(forgets, goals, &plan)).expect("a file written");
        println!("{file} {budget} {} {name}", size(&plan));
    }
}
