//! Release files, which have many plans over one table: their calls, generators, damage, a run,
//! and rows.

pub mod call;
pub mod calls;
pub mod rows;
pub mod run;
