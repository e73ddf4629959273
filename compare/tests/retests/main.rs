//! Retests: their bytes, figures by hand, each number with its cases, and generated cases.

mod accepted;
mod bytes;
mod cases;
#[path = "../common/mod.rs"]
mod common;
mod figures;
mod numbers;
mod year;
