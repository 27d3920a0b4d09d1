//! Reasoning by cases: what actions do, the call, random calls, a run of them, and rows.

pub mod call;
pub mod calls;
pub mod rows;
pub mod run;
pub mod way;
