//! Questions 6 to 17, 20 and 21 at the counter; a "no" gives the number.

use crate::fields::SELLERS;
use crate::records::{
    Clearing, Entry, Event, Lists, Lse, Product, Record, Registration, Retest, Test,
};
use crate::retests::FirstResult;
use crate::statement;
use crate::year::{Year, CLOSES, MOST_EVENTS};

type Asked = Result<(), u64>;

fn ask(yes: bool, number: u64) -> Asked {
    if yes {
        Ok(())
    } else {
        Err(number)
    }
}

/// Puts the questions in order, up to the first "no".
pub fn ask_all(year: Option<&Year>, record: &Record, room: usize) -> Asked {
    if let Record::Opening(_) = record {
        return ask(year.is_none(), 6);
    }
    let is_open = |year: &&Year| usize::from(year.closed) < CLOSES;
    let year = year.filter(is_open).ok_or(6_u64)?;
    match record {
        Record::Opening(_) => Ok(()),
        Record::Registration(registration) => ask_registration(year, registration),
        Record::Lse(lse) => ask_lse(year, lse),
        Record::Event(event) => ask_event(year, event),
        Record::Test(test) => ask_test(year, test),
        Record::Close { month } => ask_close(year, *month, room),
        Record::Clearing(clearing) => ask_clearing(year, clearing),
        Record::Retest(retest) => ask_retest(year, retest),
    }
}

fn ask_registration(year: &Year, registration: &Registration) -> Asked {
    ask(is_unused(year), 7)?;
    let slot = &year.registrations[usize::from(registration.id)];
    ask(slot.is_none(), 9)
}

fn ask_lse(year: &Year, lse: &Lse) -> Asked {
    ask(is_unused(year), 7)?;
    ask(year.lses[usize::from(lse.id)].is_none(), 9)
}

fn ask_event(year: &Year, event: &Event) -> Asked {
    ask(has_parties(year), 8)?;
    ask(
        all_known(year, event.lists.entries(), |r| r.area == event.area)
            && deficits_have_entries(year, &event.lists),
        10,
    )?;
    ask(may_call(year, event), 11)?;
    ask(year.events.len() < MOST_EVENTS, 12)
}

fn ask_test(year: &Year, test: &Test) -> Asked {
    let tests = |r: &Registration| (r.zone, r.product) == (test.zone, test.product);
    ask(has_parties(year), 8)?;
    ask(
        all_known(year, test.lists.entries(), tests) && deficits_have_entries(year, &test.lists),
        10,
    )?;
    ask(may_test(year, test.product, test.month), 11)?;
    ask(year.test_of(test.zone, test.product).is_none(), 13)?;
    ask(lists_exactly_the_uncalled(year, test, tests), 14)
}

fn ask_close(year: &Year, month: u8, room: usize) -> Asked {
    ask(has_parties(year), 8)?;
    ask(month == year.closed + 1, 15)?;
    ask(room >= statement::MOST_BYTES, 16)
}

fn ask_clearing(year: &Year, clearing: &Clearing) -> Asked {
    let id = usize::from(clearing.registration);
    ask(is_unused(year), 7)?;
    ask(year.registrations[id].is_some(), 10)?;
    ask(year.clearings[id].has_room(), 17)
}

fn ask_retest(year: &Year, retest: &Retest) -> Asked {
    let place = (retest.seller, retest.zone, retest.product);
    let belongs = |r: &Registration| (r.seller, r.zone, r.product) == place;
    ask(has_parties(year), 8)?;
    ask(all_known(year, retest.lists.entries(), belongs), 10)?;
    let test = year.test_of(retest.zone, retest.product);
    ask(
        may_test(year, retest.product, retest.month)
            && test.is_none_or(|test| test.month <= retest.month),
        11,
    )?;
    let first = FirstResult::new(year, test.ok_or(20_u64)?, retest.seller);
    ask(!year.retests.contains(&place) && first.allows_retest(), 20)?;
    ask(first.failed_are(retest.lists.entries()), 21)
}

fn is_unused(year: &Year) -> bool {
    year.events.is_empty() && year.tests.is_empty() && year.closed == 0
}

fn has_parties(year: &Year) -> bool {
    year.registrations.iter().any(Option::is_some) && year.lses.iter().any(Option::is_some)
}

fn all_known(year: &Year, entries: &[Entry], belongs: impl Fn(&Registration) -> bool) -> bool {
    entries.iter().all(|entry| {
        let registration = &year.registrations[usize::from(entry.registration)];
        registration.as_ref().is_some_and(&belongs)
    })
}

fn deficits_have_entries(year: &Year, lists: &Lists) -> bool {
    let mut has_entry = [false; SELLERS];
    for entry in lists.entries() {
        has_entry[usize::from(year.registration(entry).seller)] = true;
    }
    let mut sellers = lists.deficits.iter().zip(has_entry);
    sellers.all(|(deficit, has_entry)| *deficit == 0 || has_entry)
}

/// May the event call what it lists? It may long after its month, since its review may end late.
fn may_call(year: &Year, event: &Event) -> bool {
    month_has_begun(event.month, year.closed)
        && event.lists.entries().iter().all(|entry| {
            let product = year.registration(entry).product;
            may_be_called(product, event.month, event.is_off_peak())
        })
}

fn may_test(year: &Year, product: Product, month: u8) -> bool {
    month_has_begun(month, year.closed) && may_be_tested(product, month)
}

/// With z months closed, has this month begun?
pub fn month_has_begun(month: u8, z: u8) -> bool {
    month <= z + 1
}

pub fn may_be_called(product: Product, month: u8, off_peak: bool) -> bool {
    match product {
        Product::Limited => month <= 4 && !off_peak,
        Product::ExtendedSummer => month <= 5 || month == 12,
        Product::Annual => true,
    }
}

pub fn may_be_tested(product: Product, month: u8) -> bool {
    match product {
        Product::Limited => month <= 4,
        Product::ExtendedSummer | Product::Annual => month <= 5 || month == 12,
    }
}

fn lists_exactly_the_uncalled(
    year: &Year,
    test: &Test,
    tests: impl Fn(&Registration) -> bool,
) -> bool {
    let uncalled = year
        .registrations
        .iter()
        .flatten()
        .filter(|r| tests(r) && !year.is_called[usize::from(r.id)])
        .map(|r| r.id);
    uncalled.eq(test.lists.entries().iter().map(|entry| entry.registration))
}
