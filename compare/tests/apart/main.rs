//! Events that measure both periods apart, with two reductions an entry: their bytes, figures by hand,
//! each number with its cases, and generated cases.

mod bytes;
mod cases;
#[path = "../common/mod.rs"]
mod common;
mod figures;
mod model;
mod numbers;
mod year;
