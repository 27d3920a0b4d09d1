//! Derivations in the second layout, which also argue for whether entries.
//!
//! The rule byte stands before Y. After rules 7, 8, 10, 11 and 12 one fluent stands in Y's
//! place, and such a line claims that the fluent is known whether at each end. After the lines
//! a closing list names the goals' line and then a line for each whether entry.

pub mod calls;
pub mod check;
pub mod damage;
pub mod forge;
pub mod prove;
pub mod rows;
pub mod run;
pub mod translate;
