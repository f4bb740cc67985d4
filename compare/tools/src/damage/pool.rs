//! Pooling of lists of any length that lie between guard pages.
use super::check::{ended, Checked};
use super::guard::Guarded;
use crate::ffi;
use crate::random::Random;

/// Up to six words: few bits, many, all or none.
fn words(random: &mut Random) -> Vec<u64> {
    let count = random.below(7);
    (0..count)
        .map(|_| match random.below(4) {
            0 => 0,
            1 => u64::MAX,
            2 => 1 << random.below(64),
            _ => random.bits(),
        })
        .collect()
}

/// Fewer than four words of either list are 3, and nothing is written; otherwise the first four get the bits of the other's.
pub fn pool(random: &mut Random) -> Checked {
    let (before, other) = (words(random), words(random));
    let (mut filter, lent) = (Guarded::new(&before), Guarded::new(&other));
    let number = ffi::pool(filter.get_mut(), lent.get());
    let short = before.len() < 4 || other.len() < 4;
    let mut after = before.clone();
    if !short {
        after.iter_mut().zip(&other).take(4).for_each(|(word, bits)| *word |= bits);
    }
    let code = if short { 3 } else { 0 };
    if number != code || filter.get() != after || lent.get() != other || !filter.intact() || !lent.intact() {
        return Err(format!("pool: {number}, not {code}, or a list; {before:x?} and {other:x?}"));
    }
    ended(code)
}
