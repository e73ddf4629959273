//! The delivery-year book of a demand-response pool, an independent reading of the documents.

pub mod account;
mod average;
#[cfg(feature = "before")]
pub mod before;
mod bill;
mod bits;
mod book;
pub mod cases;
mod clearings;
mod counter;
pub mod exact;
mod fields;
pub mod layout;
pub mod lines;
mod lists;
mod numbers;
pub mod owed;
mod packed;
#[cfg(feature = "piermint")]
pub mod piermint;
pub mod rates;
pub mod records;
mod retests;
pub mod statement;
pub mod telemetry;
mod year;

pub use bill::{bill, bill_file, take_each, Billed, MOST_STATEMENTS};
pub use book::{Book, Taken};
pub use numbers::{read, write, Read, Written};
