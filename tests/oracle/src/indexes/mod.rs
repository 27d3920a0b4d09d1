//! An index beside the table: where the lines of each action stand in a request, the two calls, the walk
//! by an index, random calls, a run of them, and rows.

pub mod call;
pub mod calls;
pub mod index;
pub mod rows;
pub mod run;
pub mod way;
