//! The exported calls timed beside two walks in Rust, on the same requests within one run; the release call, the guarded call, the call by cases, the values call,
//! the index call, the indexed call and the derive call timed beside walk calls; and the two walks against the independent program.

mod answers;
mod best;
mod by_cases;
#[allow(dead_code)]
#[path = "../../../gate/compare/src/calls.rs"]
mod calls;
mod check;
mod classes;
mod clock;
#[path = "../../../gate/compare/src/crowded.rs"]
mod crowded;
mod derivations;
mod derives;
#[allow(dead_code)]
#[path = "../../../gate/compare/src/fence.rs"]
mod fence;
#[allow(dead_code)]
#[path = "../../../gate/compare/src/generated.rs"]
mod generated;
mod guards;
mod indexes;
#[allow(dead_code)]
#[path = "../../../gate/compare/src/many.rs"]
mod many;
mod plain;
mod programs;
mod releases;
mod values;
mod walks;
mod whether;
#[path = "../../../gate/compare/src/words.rs"]
mod words;

use std::process::ExitCode;

use words::{number, obey, Failure};

/// Enough for the deepest walks of the plain program, which has a copy of the state in each call of itself.
const STACK: usize = 256 << 20;

const HELP: &str = "usage: bench check SEED COUNT | bench walks SEED ROUNDS COUNT | bench derivations SEED ROUNDS | bench releases SEED ROUNDS | \
     bench guards SEED ROUNDS | bench by-cases SEED ROUNDS | bench values SEED ROUNDS | bench index SEED ROUNDS | bench derives SEED ROUNDS | bench only-index walk|indexed|index ROW COUNT PASSES | bench only PROGRAM CLASS whole|reading COUNT PASSES";

fn main() -> ExitCode {
    obey("bench", STACK, |words| {
        let told = match *words {
            ["check", seed, count] => check::check(number(seed)?, number(count)?),
            ["walks", seed, rounds, count] => walks::time(number(seed)?, number(rounds)?, number(count)?),
            ["derivations", seed, rounds] => derivations::time(number(seed)?, number(rounds)?),
            ["releases", seed, rounds] => releases::time(number(seed)?, number(rounds)?),
            ["guards", seed, rounds] => guards::time(number(seed)?, number(rounds)?),
            ["by-cases", seed, rounds] => by_cases::time(number(seed)?, number(rounds)?),
            ["values", seed, rounds] => values::time(number(seed)?, number(rounds)?),
            ["index", seed, rounds] => indexes::time(number(seed)?, number(rounds)?),
            ["derives", seed, rounds] => derives::time(number(seed)?, number(rounds)?),
            ["only-index", way, name, count, passes] => indexes::only(way, name, number(count)?, number(passes)?),
            ["only", program, class, part, count, passes] => walks::only(program, class, part, number(count)?, number(passes)?),
            _ => return Err(Failure::Usage(HELP.to_string())),
        };
        told.map_err(Failure::Found)
    })
}
