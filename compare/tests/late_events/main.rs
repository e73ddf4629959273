//! Events that come late: their numbers, figures by hand, and generated cases.

mod accepted;
mod cases;
#[path = "../common/mod.rs"]
mod common;
mod figures;
mod numbers;
mod year;
