//! Writing a derivation: the derive call, the scheme a second time, random calls, a run of them, and rows.

pub mod again;
pub mod call;
pub mod calls;
pub mod rows;
pub mod run;
