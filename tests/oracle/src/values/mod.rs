//! Fluents with values: the values call, random calls, a run of them, and rows.

pub mod again;
pub mod call;
pub mod calls;
pub mod damage;
pub mod generate;
pub mod literal;
pub mod rows;
pub mod run;
pub mod translate;
pub mod tree;
pub mod walk;
pub mod worlds;

use crate::model::Request;
use literal::Literal;

/// A values request: how many values each fluent has, and its sections.
#[derive(Clone, Debug, Default)]
pub struct Valued {
    pub values: Vec<u8>,
    pub request: Request<Literal>,
}
