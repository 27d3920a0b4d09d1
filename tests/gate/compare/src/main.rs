//! The exported calls against the independent program: the walk call on the format's cases, on the deepest requests, and on generated and
//! damaged ones, the derivation call, the whether call and the showing call on derivations at their limits, and on generated, forged and
//! damaged ones; the release call and the plans call on release files; the guarded call; the call by cases; the values call; the index call
//! and the indexed call; the derive call; and all of them on hostile inputs. The exit status is 0 where all agree and 1 at the first difference; what is told of it is
//! enough to make the call again.

mod answered;
mod by_cases;
mod by_cases_hostile;
mod by_cases_rows;
mod calls;
mod cases;
mod checks;
mod crowded;
mod deepest;
mod derivations;
mod derive_hostile;
mod derive_rows;
mod derives;
mod endured;
mod fence;
mod generated;
mod guarded;
mod guarded_cases;
mod guarded_hostile;
mod hostile;
mod index_hostile;
mod index_rows;
mod indexes;
mod largest;
mod many;
mod release_cases;
mod release_hostile;
mod releases;
mod spoiled;
mod values;
mod values_hostile;
mod values_rows;
mod whether;
mod whether_cases;
mod whether_hostile;
mod whether_largest;
mod words;

use std::process::ExitCode;

use words::{number, obey, Failure};

/// The stack on which calls are made: what a walk may need, and room for this program itself. The deepest ones have a thread without that room.
const STACK: usize = glintstring::STACK_NEEDED + (2 << 20);

const HELP: &str = "usage: compare cases | compare deepest FOLDER | compare generated SEED COUNT | compare largest | compare derivations SEED COUNT \
                    | compare whether SEED COUNT | compare releases SEED COUNT | compare guarded SEED COUNT | compare by-cases SEED COUNT | compare values SEED COUNT | compare indexes SEED COUNT | compare derives SEED COUNT | compare hostile FOLDER [SLOWER] | compare longest | compare write DEEPEST FOLDER BUDGET COUNT";

fn main() -> ExitCode {
    obey("compare", STACK, |words| {
        let compared = match *words {
            ["cases"] => cases::compare(),
            ["deepest", folder] => deepest::compare(folder),
            ["generated", seed, count] => generated::compare(number(seed)?, number(count)?),
            ["largest"] => largest::compare(),
            ["derivations", seed, count] => derivations::SERIES.compare(number(seed)?, number(count)?),
            ["whether", seed, count] => whether::SERIES.compare(number(seed)?, number(count)?),
            ["releases", seed, count] => releases::compare(number(seed)?, number(count)?),
            ["guarded", seed, count] => guarded::compare(number(seed)?, number(count)?),
            ["by-cases", seed, count] => by_cases::compare(number(seed)?, number(count)?),
            ["values", seed, count] => values::compare(number(seed)?, number(count)?),
            ["indexes", seed, count] => indexes::compare(number(seed)?, number(count)?),
            ["derives", seed, count] => derives::compare(number(seed)?, number(count)?),
            ["hostile", folder] => endured::compare(Some(folder), 1),
            ["hostile", folder, slower] => endured::compare(Some(folder), number(slower)?),
            ["longest"] => endured::compare(None, 1),
            ["write", deepest, folder, budget, count] => endured::write(deepest, folder, number(budget)?, number(count)?),
            _ => return Err(Failure::Usage(HELP.to_string())),
        };
        let agreed = compared.map_err(|difference| Failure::Found(format!("DIFFERENCE: {difference}")))?;
        Ok(format!("compare: {agreed}"))
    })
}
