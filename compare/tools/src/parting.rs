//! Names in two parts (K7 of document 02): where a name is cut, and what an add is given of it.
use crate::case::Label;
use crate::ffi::Added;
use crate::random::Random;

/// The longest part of an added name, and the longest such name.
pub const PART: usize = 255;
pub const NAME: usize = 2 * PART;

/// A name in two parts.
#[derive(Clone, Copy, Debug)]
pub struct Name<'a> {
    pub first: &'a [u8],
    pub second: &'a [u8],
}

impl<'a> Name<'a> {
    /// The bytes before a place, and those from there on.
    pub fn cut(bytes: &'a [u8], at: usize) -> Name<'a> {
        let (first, second) = bytes.split_at(at);
        Name { first, second }
    }

    pub fn joined(&self) -> Vec<u8> {
        [self.first, self.second].concat()
    }
}

/// The places at which a name may be cut so that neither part has more than `most` bytes: the first and the last of them.
fn ends(length: usize, most: usize) -> (usize, usize) {
    (length.saturating_sub(most), length.min(most))
}

/// Such a place: the first, the last, or any.
pub fn place(random: &mut Random, length: usize, most: usize) -> usize {
    let (low, high) = ends(length, most);
    match random.below(4) {
        0 => low,
        1 => high,
        _ => random.from(low, high),
    }
}

/// Such a place that is not the given one, if there is another.
fn another(random: &mut Random, length: usize, most: usize, one: usize) -> usize {
    let (low, high) = ends(length, most);
    match place(random, length, most) {
        other if other != one => other,
        other if other < high => other + 1,
        _ => low,
    }
}

/// Two such places; they are different where there is more than one.
pub fn places(random: &mut Random, length: usize, most: usize) -> [usize; 2] {
    let one = place(random, length, most);
    [one, another(random, length, most, one)]
}

/// The bytes of labels, one after the other.
pub fn joined(labels: &[Label]) -> Vec<u8> {
    labels.iter().flat_map(|label| label.iter().copied()).collect()
}

/// What an add is given of names that are cut at these places.
pub fn added(id: u32, vector: &[f32], labels: &[Label], cuts: &[usize]) -> Added {
    let lengths = labels.iter().zip(cuts).flat_map(|(label, &at)| [at as u8, (label.len() - at) as u8]);
    Added { id, vector: vector.to_vec(), lengths: lengths.collect(), bytes: joined(labels) }
}

/// The same, with each name cut in the middle.
pub fn halved(id: u32, vector: &[f32], labels: &[Label]) -> Added {
    let cuts: Vec<usize> = labels.iter().map(|label| label.len() / 2).collect();
    added(id, vector, labels, &cuts)
}

/// The same names, each cut at another place if there is one. The lengths must be right.
pub fn recut(random: &mut Random, given: &Added) -> Added {
    let mut cut = |first: usize, second: usize| {
        let at = another(random, first + second, PART, first);
        [at as u8, (first + second - at) as u8]
    };
    let lengths = given.lengths.chunks_exact(2).flat_map(|pair| cut(pair[0].into(), pair[1].into())).collect();
    Added { lengths, ..given.clone() }
}
