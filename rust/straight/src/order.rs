//! Which of two version records is the greater.

use std::cmp::Ordering;

use crate::layout::{ORIGIN, RECORD, VECTOR};

/// The greater of two records of a register with so many depots, as the buffer it lies in; the first if neither is greater.
pub fn greater<'a>(first: &'a [u32], second: &'a [u32], depots: usize) -> &'a [u32] {
    if above(second, first, depots) {
        second
    } else {
        first
    }
}

/// Whether record `a` is greater than record `b`, in a register with so many depots. With a number of depots that no register
/// has, it is not.
pub fn above(a: &[u32], b: &[u32], depots: usize) -> bool {
    if !(1..=4).contains(&depots) {
        return false;
    }
    match (Version::of(a, depots), Version::of(b, depots)) {
        (None, _) => false,
        (Some(_), None) => true,
        (Some(a), Some(b)) => a.against(&b) == Ordering::Greater,
    }
}

/// What of a written record counts in the order.
struct Version<'a> {
    vector: &'a [u32],
    origin: u32,
}

impl<'a> Version<'a> {
    /// The version of a record; none if it is unwritten or has the wrong length.
    fn of(record: &'a [u32], depots: usize) -> Option<Version<'a>> {
        if record.len() != RECORD {
            return None;
        }
        let vector = &record[VECTOR..VECTOR + depots];
        let written = vector.iter().any(|&entry| entry > 0);
        written.then(|| Version { vector, origin: record[ORIGIN] })
    }

    /// The sums of the entries first, then the entries from depot 0 on, then the origins.
    fn against(&self, other: &Version<'_>) -> Ordering {
        let by_sum = self.sum().cmp(&other.sum());
        by_sum.then(self.vector.cmp(other.vector)).then(self.origin.cmp(&other.origin))
    }

    fn sum(&self) -> u64 {
        self.vector.iter().map(|&entry| u64::from(entry)).sum()
    }
}
