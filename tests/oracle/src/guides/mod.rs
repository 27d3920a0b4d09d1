//! The operator's guide: its start and its calls, plans carried out beside it, random requests, a run of them,
//! trials for a program that has a guide, and rows.

pub mod call;
pub mod calls;
pub mod cases;
pub mod course;
pub mod follower;
pub mod rows;
pub mod run;
pub mod trials;
