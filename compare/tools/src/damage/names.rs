//! The label hash (K7 of document 02) from any start over bytes that lie between guard pages.
use super::check::{ended, Checked};
use super::guard::Guarded;
use crate::ffi;
use crate::model::label::{hash_from, START};
use crate::random::Random;

/// Whole, and carried on from any place; no bytes answer the start.
pub fn label_hash(random: &mut Random) -> Checked {
    let start = if random.one_in(4) { START } else { random.bits() };
    let length = if random.one_in(4) { random.below(600) } else { random.below(20) };
    let bytes: Vec<u8> = (0..length).map(|_| random.bits() as u8).collect();
    let at = random.from(0, length);
    let (whole, first, second) = (Guarded::new(&bytes), Guarded::new(&bytes[..at]), Guarded::new(&bytes[at..]));
    let expected = hash_from(start, &bytes);
    let carried = ffi::label_hash(ffi::label_hash(start, first.get()), second.get());
    if ffi::label_hash(start, whole.get()) != expected || carried != expected || ffi::label_hash(start, &whole.get()[..0]) != start {
        return Err(format!("label hash from {start:x} of {bytes:x?}, cut at {at}"));
    }
    ended(0)
}
