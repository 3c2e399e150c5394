//! Request e of document 02, read apart from the library: the editions, how far each goes, and which calls are refused.

/// The most samples of a call.
const LONGEST: usize = 65_536;

/// The highest order of THD; none where the edition is neither 1 nor 2.
pub fn highest_order(edition: u8) -> Option<usize> {
    match edition {
        1 => Some(16),
        2 => Some(40),
        _ => None,
    }
}

/// The number of a call by the length of its samples alone: 3, then 4.
pub fn by_length(n: usize) -> u8 {
    match n {
        0 | 1 => 0,
        _ if n > LONGEST => 3,
        _ if n > 4096 || !n.is_power_of_two() => 4,
        _ => 0,
    }
}

/// The number of a call that works out THD, with the edition that it names or that the state holds: 9 before all others.
pub fn number(edition: u8, n: usize) -> u8 {
    match highest_order(edition) {
        None => 9,
        Some(_) => by_length(n),
    }
}
