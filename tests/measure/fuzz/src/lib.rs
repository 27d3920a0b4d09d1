//! One input of the fuzzer is one call, made by the exported calls and by the independent program.

#[allow(dead_code)]
#[path = "../../../gate/compare/src/answered.rs"]
mod answered;
#[allow(dead_code)]
#[path = "../../../gate/compare/src/by_cases.rs"]
mod by_cases;
#[allow(dead_code)]
#[path = "../../../gate/compare/src/by_cases_rows.rs"]
mod by_cases_rows;
#[allow(dead_code)]
#[path = "../../../gate/compare/src/calls.rs"]
mod calls;
#[allow(dead_code)]
#[path = "../../../gate/compare/src/cases.rs"]
mod cases;
#[path = "../../../gate/compare/src/checks.rs"]
mod checks;
#[path = "../../../gate/compare/src/crowded.rs"]
mod crowded;
#[allow(dead_code)]
#[path = "../../../gate/compare/src/derivations.rs"]
mod derivations;
#[allow(dead_code)]
#[path = "../../../gate/compare/src/derive_rows.rs"]
mod derive_rows;
#[allow(dead_code)]
#[path = "../../../gate/compare/src/derives.rs"]
mod derives;
#[path = "../../../gate/compare/src/fence.rs"]
mod fence;
#[allow(dead_code)]
#[path = "../../../gate/compare/src/generated.rs"]
mod generated;
#[allow(dead_code)]
#[path = "../../../gate/compare/src/guarded.rs"]
mod guarded;
#[allow(dead_code)]
#[path = "../../../gate/compare/src/guarded_cases.rs"]
mod guarded_cases;
#[allow(dead_code)]
#[path = "../../../gate/compare/src/index_rows.rs"]
mod index_rows;
#[allow(dead_code)]
#[path = "../../../gate/compare/src/indexes.rs"]
mod indexes;
pub mod input;
#[allow(dead_code)]
#[path = "../../../gate/compare/src/many.rs"]
mod many;
#[allow(dead_code)]
#[path = "../../../gate/compare/src/release_cases.rs"]
mod release_cases;
#[allow(dead_code)]
#[path = "../../../gate/compare/src/releases.rs"]
mod releases;
#[path = "../../../gate/compare/src/spoiled.rs"]
mod spoiled;
#[allow(dead_code)]
#[path = "../../../gate/compare/src/values.rs"]
mod values;
#[allow(dead_code)]
#[path = "../../../gate/compare/src/values_rows.rs"]
mod values_rows;
#[allow(dead_code)]
#[path = "../../../gate/compare/src/whether.rs"]
mod whether;
#[allow(dead_code)]
#[path = "../../../gate/compare/src/whether_cases.rs"]
mod whether_cases;

use input::{given, Given};
use oracle::rng::Rng;

/// The stream of random numbers of what stands around the inputs.
const FENCES: u64 = 11;

/// Number, input, place and count that both programs give, of a release file with a sum over its row for a count; or how they differ.
pub fn agreed(bytes: &[u8]) -> Result<[u64; 4], String> {
    let mut rng = Rng::new(1, FENCES, bytes.len() as u64);
    match given(bytes) {
        Given::Walk(call) => calls::agreed(&mut rng, &call).map(|left| left.answer).map_err(|why| format!("{why}; {call}")),
        Given::Guarded(call) => guarded::agreed(&mut rng, &call).map(|left| left.answer).map_err(|why| format!("{why}; {call}")),
        Given::ByCases(call) => by_cases::agreed(&mut rng, &call).map(|left| left.answer).map_err(|why| format!("{why}; {call}")),
        Given::Values(call) => values::agreed(&mut rng, &call).map(|left| left.answer).map_err(|why| format!("{why}; {call}")),
        Given::Indexed(both) => indexes::agreed(&mut rng, &both).map(|[_, left]| left.answer).map_err(|why| format!("{why}; {both}")),
        Given::Derive(call) => derives::agreed(&mut rng, &call).map(|left| left.answer).map_err(|why| format!("{why}; {call}")),
        Given::Derivation(check) => checks::agreed(&mut rng, &check).map_err(|why| format!("{why}; {check}")),
        Given::Release(call) => releases::agreed(&mut rng, &call).map(|left| left.summed()).map_err(|why| format!("{why}; {call}")),
    }
}

/// What the fuzzer calls with each input; a difference ends the process.
///
/// # Safety
///
/// The pointer is to be good for reading so many bytes.
#[no_mangle]
pub unsafe extern "C" fn LLVMFuzzerTestOneInput(start: *const u8, length: usize) -> i32 {
    let bytes = if length == 0 { &[][..] } else { std::slice::from_raw_parts(start, length) };
    if let Err(difference) = agreed(bytes) {
        eprintln!("fuzz: DIFFERENCE: {difference}");
        std::process::abort();
    }
    0
}
