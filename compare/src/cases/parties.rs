//! The opening and the parties of a year from chance.

use super::random::Random;
use super::record::Numbers;
use crate::exact::{narrow, widen};
use crate::records::Product;

/// The opening, then the parties in any order, each registration before its clearings.
pub fn opening_and_parties(
    random: &mut Random,
    registrations: Vec<Vec<Numbers>>,
    lses: usize,
) -> Vec<Numbers> {
    let ids = ids(random, lses, 16).into_iter();
    let lses = ids.map(|id| vec![vec![3, id, random.value(1, 1_000_000)]]);
    let parties = [registrations, lses.collect()].concat();
    let parties = random.merge(parties);
    [vec![opening(random)], parties].concat()
}

fn opening(random: &mut Random) -> Numbers {
    let leap = random.value(0, 1);
    let factors = match random.chance(75) {
        true => [9_500, 10_800],
        false => [random.value(1, 12_000), random.value(1, 12_000)],
    };
    vec![1, leap, factors[0], factors[1]]
}

/// Registrations of a few areas, zones and products, so that many share a call.
pub fn registrations_of_few_places(random: &mut Random, count: usize) -> Vec<Numbers> {
    // Of the rates none is made 0, a third, nearly all, so that an area may have one lender, or all,
    // so that only clearings lend.
    let percent_of_zeros = random.pick(&[0, 0, 0, 33, 33, 33, 95, 100]);
    let mut sellers = some_ids(random, 16);
    let areas = few_places(random);
    let mut zones = few_places(random);
    let mut products = some_ids(random, 3);
    // In most years sellers have several in a zone, so that an event lists a seller's of many products,
    // or in a zone and product, so that a small part may fail a test.
    if random.chance(80) {
        sellers.truncate(1 + count / 8);
        zones.truncate(1);
        if random.chance(50) {
            products.truncate(1);
        }
    }
    // In some years nearly all commit the same, so that a quarter may fail to the kW.
    let common = random.chance(25).then(|| random.value(1, 99_999));
    let register = |id: u64, random: &mut Random| {
        vec![
            2,
            id,
            random.pick(&sellers),
            random.pick(&areas),
            random.pick(&zones),
            random.pick(&products),
            committed(random, common),
            rate(random, percent_of_zeros),
        ]
    };
    let ids = ids(random, count, 64);
    ids.into_iter().map(|id| register(id, random)).collect()
}

/// 64 registrations of one area and of every zone and product, a third at a rate of 0.
pub fn registrations_of_all_zones(random: &mut Random) -> Vec<Numbers> {
    let sellers = some_ids(random, 16);
    let area = widen(random.below(8));
    let register = |(id, (zone, product)): (u64, (u8, Product))| {
        vec![
            2,
            id,
            random.pick(&sellers),
            area,
            zone.into(),
            product.number(),
            random.value(1, 100_000),
            rate(random, 33),
        ]
    };
    let places = zones_and_products().into_iter().cycle();
    (0..64).zip(places).map(register).collect()
}

/// Committed kW: any, or those that are common, in some cases one more.
fn committed(random: &mut Random, common: Option<u64>) -> u64 {
    match common {
        Some(kw) => kw + u64::from(random.chance(20)),
        None => random.value(1, 100_000),
    }
}

/// A rate, in so many of 100 cases 0.
fn rate(random: &mut Random, percent_of_zeros: usize) -> u64 {
    match random.chance(percent_of_zeros) {
        true => 0,
        false => random.value(0, 100_000),
    }
}

pub fn zones_and_products() -> Vec<(u8, Product)> {
    let products = (0..3).map(Product::new);
    products
        .flat_map(|product| (0..8).map(move |zone| (zone, product)))
        .collect()
}

/// Some of the ids below the limit, at least one.
fn some_ids(random: &mut Random, limit: u64) -> Vec<u64> {
    let count = narrow(random.value(1, limit));
    ids(random, count, limit)
}

/// One to three of the eight areas or zones.
fn few_places(random: &mut Random) -> Vec<u64> {
    let count = 1 + random.below(3);
    ids(random, count, 8)
}

fn ids(random: &mut Random, count: usize, limit: u64) -> Vec<u64> {
    let mut ids: Vec<u64> = (0..limit).collect();
    random.shuffle(&mut ids);
    ids.truncate(count);
    ids
}
