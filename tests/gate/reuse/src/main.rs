//! The laws of reused verdicts, tried on generated requests through the exported walk call: more facts, fewer goals, plans joined, and joining in
//! whatever order; fixed requests for what doesn't hold; and calls that stand in for the exported one and break a law each, which have to be
//! noticed. The exit status is 0 where all holds and 1 at the first difference; what is told of it is enough to make the calls again.

mod asking;
mod associating;
#[allow(dead_code)]
#[path = "../../compare/src/calls.rs"]
mod calls;
mod converses;
mod drafts;
mod facts;
#[allow(dead_code)]
#[path = "../../compare/src/fence.rs"]
mod fence;
mod goals;
mod joining;
mod laws;
mod parts;
mod standing_in;
#[path = "../../compare/src/words.rs"]
mod words;

use std::process::ExitCode;

use words::{number, obey, Failure};

/// The stack on which calls are made: what a walk may need, and room for this program itself.
const STACK: usize = glintstring::STACK_NEEDED + (2 << 20);

const HELP: &str = "usage: reuse facts SEED COUNT | reuse goals SEED COUNT | reuse joining SEED COUNT | reuse associating SEED COUNT \
                    | reuse converses | reuse noticed SEED COUNT";

fn main() -> ExitCode {
    obey("reuse", STACK, |words| {
        let tried = match *words {
            ["facts", seed, count] => facts::LAW.tell(number(seed)?, number(count)?),
            ["goals", seed, count] => goals::LAW.tell(number(seed)?, number(count)?),
            ["joining", seed, count] => joining::LAW.tell(number(seed)?, number(count)?),
            ["associating", seed, count] => associating::LAW.tell(number(seed)?, number(count)?),
            ["converses"] => converses::tell(),
            ["noticed", seed, count] => standing_in::tell(number(seed)?, number(count)?),
            _ => return Err(Failure::Usage(HELP.to_string())),
        };
        let held = tried.map_err(|difference| Failure::Found(format!("DIFFERENCE: {difference}")))?;
        Ok(format!("reuse: {held}"))
    })
}
