//! How well the registrations that a record lists perform.

use std::collections::BTreeMap;

use super::random::Random;
use super::record::Numbers;
use crate::records::Registration;

/// A registration that is listed, and its reduction.
pub type Performed = (Registration, u64);

#[derive(Clone, Copy)]
enum Performance {
    Nothing,
    Short,
    Over,
    Mixed,
}

/// All perform alike.
pub fn alike(random: &mut Random, listed: &[Registration]) -> Vec<Performed> {
    let performance = random.pick(&[
        Performance::Nothing,
        Performance::Short,
        Performance::Over,
        Performance::Mixed,
        Performance::Mixed,
        Performance::Mixed,
    ]);
    let perform = |r: &Registration| (*r, reduction(random, performance, r.committed.into()));
    listed.iter().map(perform).collect()
}

/// None reduces anything.
pub fn failing(listed: &[Registration]) -> Vec<Performed> {
    listed.iter().map(|r| (*r, 0)).collect()
}

/// Of each seller's kW a quarter at most is short, or one kW more.
pub fn few_short(random: &mut Random, listed: &[Registration]) -> Vec<Performed> {
    let mut short = BTreeMap::<u8, u32>::new();
    let perform = |r: &Registration| {
        let own = listed.iter().filter(|other| other.seller == r.seller);
        let most = own.map(|r| r.committed).sum::<u32>() / 4 + 1;
        let short = short.entry(r.seller).or_default();
        let performance = if *short + r.committed <= most && random.chance(80) {
            *short += r.committed;
            Performance::Short
        } else {
            Performance::Over
        };
        (*r, reduction(random, performance, r.committed.into()))
    };
    listed.iter().map(perform).collect()
}

fn reduction(random: &mut Random, performance: Performance, committed: u64) -> u64 {
    let any = random.value(0, 100_000);
    let about = [0, committed - 1, committed, committed + 1, any];
    let reduction = match performance {
        Performance::Nothing => 0,
        Performance::Short => any % committed,
        Performance::Over => committed + any % 1_000,
        Performance::Mixed => random.pick(&about),
    };
    reduction.min(100_000)
}

/// The numbers of the entries.
pub fn entries(performed: &[Performed]) -> Numbers {
    let entry = |(r, kw): &Performed| [r.id.into(), *kw];
    performed.iter().flat_map(entry).collect()
}

/// The numbers of the entries with a second reduction each.
pub fn entries_apart(on_peak: &[Performed], off_peak: &[Performed]) -> Numbers {
    let entry = |((r, on_peak), (_, off_peak)): (&Performed, &Performed)| {
        [r.id.into(), *on_peak, *off_peak]
    };
    on_peak.iter().zip(off_peak).flat_map(entry).collect()
}
