//! The rows of the tables.

use crate::race::Times;

/// What is timed, and the times. The goal is what Rattle's time is to be at most, as a multiple of
/// Rust's; empty if there is none.
pub struct Row {
    name: String,
    goal: &'static str,
    times: Times,
}

pub fn row(name: impl Into<String>, goal: &'static str, times: Times) -> Row {
    Row {
        name: name.into(),
        goal,
        times,
    }
}

impl Row {
    pub fn print_with_goal(&self) {
        println!("| {} | {} | {} |", self.name, self.goal, self.times());
    }

    /// For sides that the goal does not speak of.
    #[cfg(feature = "before")]
    pub fn print(&self) {
        println!("| {} | {} |", self.name, self.times());
    }

    fn times(&self) -> String {
        let [first, second] = self.times.sides.map(duration);
        format!("{first} | {second} | {:.2}", self.times.ratio())
    }
}

fn duration(nanoseconds: f64) -> String {
    let (time, unit) = match nanoseconds {
        ..1e3 => (nanoseconds, "ns"),
        ..1e6 => (nanoseconds / 1e3, "µs"),
        ..1e9 => (nanoseconds / 1e6, "ms"),
        _ => (nanoseconds / 1e9, "s"),
    };
    match time {
        ..100.0 => format!("{time:.1} {unit}"),
        _ => format!("{time:.0} {unit}"),
    }
}
