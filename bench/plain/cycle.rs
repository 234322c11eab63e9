/// The least common multiple of cycles in milliseconds, 1 where there are none.
pub fn common_cycle(cycles: impl Iterator<Item = u16>) -> u64 {
    cycles.map(u64::from).fold(1, multiple)
}

/// The least common multiple.
fn multiple(a: u64, b: u64) -> u64 {
    a / divisor(a, b) * b
}

/// The greatest common divisor.
fn divisor(a: u64, b: u64) -> u64 {
    if b == 0 { a } else { divisor(b, a % b) }
}
