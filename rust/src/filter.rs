//! Filters, and their pool.

use crate::sys;

/// A filter: 256 bits in four words. Each label sets two of the bits (or one, where both are the same). A label whose bits
/// are not all set is nowhere below the filter's node; one whose bits are may be. The bits are those of the label's hash, so labels
/// of one hash are not told apart.
pub type Filter = [u64; sys::FILTER];

/// The pool of two filters: the bits of both. A region pools the filters of its gateways in any order, and pooling one again
/// changes nothing.
///
/// ```
/// let north = [0b0101, 0, 0, 1];
/// let south = [0b0110, 0, 8, 0];
/// assert_eq!(curator::pool(north, south), [0b0111, 0, 8, 1]);
/// ```
pub fn pool(mut filter: Filter, other: Filter) -> Filter {
    // SAFETY: each pointer and count are those of one list, and the two are different.
    let number = unsafe {
        sys::curator_pool(
            filter.as_mut_ptr(),
            filter.len(),
            other.as_ptr(),
            other.len(),
        )
    };
    debug_assert_eq!(number, 0, "both have four words");
    filter
}
