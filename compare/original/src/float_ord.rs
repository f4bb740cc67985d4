//! Stand-in for the original's `FloatOrd`, which is in none of its files: the total order of IEEE 754.
use std::cmp::Ordering;

/// A float by its total order.
#[derive(Clone, Copy, Debug)]
pub struct FloatOrd(pub f32);

impl Ord for FloatOrd {
    fn cmp(&self, other: &Self) -> Ordering {
        self.0.total_cmp(&other.0)
    }
}

impl PartialOrd for FloatOrd {
    fn partial_cmp(&self, other: &Self) -> Option<Ordering> {
        Some(self.cmp(other))
    }
}

impl PartialEq for FloatOrd {
    fn eq(&self, other: &Self) -> bool {
        self.cmp(other) == Ordering::Equal
    }
}

impl Eq for FloatOrd {}
