//! Which events come late.

use crate::owed::due_month;
use crate::records::Product;

/// With z months closed, does an event of this month come late? Then the first month in which it may be
/// due, that of a Limited registration, is closed. Document 01 refuses it; C-16 takes it.
pub fn comes_late(month: u8, z: u8) -> bool {
    z >= due_month(Product::Limited, month)
}
