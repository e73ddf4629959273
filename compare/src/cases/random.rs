//! Deterministic choices from a seed (splitmix64).

use crate::exact::{narrow, widen};

/// How the values of a year are spread over their permitted range.
#[derive(Clone, Copy)]
pub enum Spread {
    Highest,
    Edges,
    Uniform,
    Small,
}

pub struct Random {
    state: u64,
    spread: Spread,
}

impl Random {
    pub fn new(seed: u64) -> Self {
        let mut random = Random {
            state: seed,
            spread: Spread::Uniform,
        };
        random.spread = random.pick(&[
            Spread::Highest,
            Spread::Edges,
            Spread::Uniform,
            Spread::Small,
        ]);
        random
    }

    fn next(&mut self) -> u64 {
        self.state = self.state.wrapping_add(0x9E37_79B9_7F4A_7C15);
        let z = (self.state ^ self.state >> 30).wrapping_mul(0xBF58_476D_1CE4_E5B9);
        let z = (z ^ z >> 27).wrapping_mul(0x94D0_49BB_1331_11EB);
        z ^ z >> 31
    }

    /// A number below the limit.
    pub fn below(&mut self, limit: usize) -> usize {
        narrow(self.next() % widen(limit))
    }

    /// Yes in `percent` of 100 cases.
    pub fn chance(&mut self, percent: usize) -> bool {
        self.below(100) < percent
    }

    pub fn byte(&mut self) -> u8 {
        self.next().to_le_bytes()[0]
    }

    /// Any pattern of 32 bits.
    pub fn bits(&mut self) -> u32 {
        narrow(self.next() >> 32)
    }

    pub fn pick<T: Copy>(&mut self, choices: &[T]) -> T {
        choices[self.below(choices.len())]
    }

    pub fn shuffle<T>(&mut self, items: &mut [T]) {
        for i in (1..items.len()).rev() {
            items.swap(i, self.below(i + 1));
        }
    }

    /// The items of all runs in any order, those of one run in theirs.
    pub fn merge<T>(&mut self, runs: Vec<Vec<T>>) -> Vec<T> {
        let turns = |(at, run): (usize, &Vec<T>)| vec![at; run.len()];
        let mut turns: Vec<usize> = runs.iter().enumerate().flat_map(turns).collect();
        self.shuffle(&mut turns);
        let mut runs: Vec<_> = runs.into_iter().map(Vec::into_iter).collect();
        let next = |at: usize| runs[at].next();
        turns.into_iter().filter_map(next).collect()
    }

    /// The items that chance keeps, each with the given percentage, in their order.
    pub fn some<T: Copy>(&mut self, items: &[T], percent: usize) -> Vec<T> {
        let keep = |_: &&T| self.chance(percent);
        items.iter().filter(keep).copied().collect()
    }

    /// One of the months that may be chosen, often the first or the last.
    pub fn month(&mut self, may: impl Fn(u8) -> bool) -> u8 {
        let months: Vec<u8> = (1..=12).filter(|month| may(*month)).collect();
        let any = self.pick(&months);
        self.pick(&[months[0], any, months[months.len() - 1]])
    }

    /// A permitted value, spread as this year's values are.
    pub fn value(&mut self, low: u64, high: u64) -> u64 {
        let uniform = low + self.next() % (high - low + 1);
        let small = low + self.next() % (high - low + 1).min(8);
        let edge = self.pick(&[low, low + 1, high - 1, high]);
        if self.chance(10) {
            return edge;
        }
        match self.spread {
            Spread::Highest => high,
            Spread::Edges => self.pick(&[edge, edge, uniform]),
            Spread::Uniform => uniform,
            Spread::Small => self.pick(&[small, small, uniform]),
        }
    }
}
