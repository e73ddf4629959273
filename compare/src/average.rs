//! Averages weighted by kilowatts.

/// The sums that an average is made of.
#[derive(Clone, Copy, Default)]
pub struct Average {
    kw: i64,
    value_by_kw: i64,
}

impl Average {
    pub fn add(&mut self, kw: i64, value: i64) {
        self.kw += kw;
        self.value_by_kw += kw * value;
    }

    /// The average rounded down; none if nothing was added, since kilowatts to add are above 0.
    pub fn rounded(&self) -> Option<i64> {
        self.value_by_kw.checked_div(self.kw)
    }
}
