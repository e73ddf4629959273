//! Numbers from one type to another without loss: one that does not fit stops the program.

/// A number in the type that it is kept in. The numbers of a record are bounded by the widths of
/// their fields, and each is kept in a type that holds its field.
pub fn narrow<T: TryFrom<u64>>(number: u64) -> T {
    let Ok(number) = T::try_from(number) else {
        panic!("{number} is wider than the type that it is kept in");
    };
    number
}

/// A count as a number.
pub fn widen(count: usize) -> u64 {
    u64::try_from(count).expect("a count of at most 64 bits")
}

/// A whole number below 2^32 that a float holds.
pub fn whole(number: f64) -> u64 {
    // From 2^52 to 2^53 a step in the last bit is 1, so the bits count the steps.
    const FIRST: f64 = 1.0 / f64::EPSILON;
    let steps = (number + FIRST).to_bits().wrapping_sub(FIRST.to_bits());
    let whole: u32 = narrow(steps);
    assert!(f64::from(whole) == number, "{number} is no whole number");
    whole.into()
}
