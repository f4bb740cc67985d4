//! Names in two parts (K7 of document 02): the two ways in which a case's names are cut, and the hash carried on from part to part.
use crate::case::{Doc, Label, Query};
use crate::ffi::{self, Added};
use crate::model::label::{hash_bytes, START};
use crate::parting::{added, places, Name, PART};
use crate::random::Random;

/// What an add is given of a document, with each name cut in two ways, and how many of the names have two.
pub fn twice(random: &mut Random, doc: &Doc) -> ([Added; 2], usize) {
    let cuts: Vec<[usize; 2]> = doc.labels.iter().map(|label| places(random, label.len(), PART)).collect();
    let given = [0, 1].map(|way| {
        let cuts: Vec<usize> = cuts.iter().map(|pair| pair[way]).collect();
        added(doc.id, &doc.vector, &doc.labels, &cuts)
    });
    (given, differing(&cuts))
}

/// How many names are cut at two different places.
fn differing(cuts: &[[usize; 2]]) -> usize {
    cuts.iter().filter(|pair| pair[0] != pair[1]).count()
}

/// Lengths that do not fit: an odd number of them, or another sum.
pub fn spoilt(random: &mut Random, given: &Added) -> Added {
    let mut given = given.clone();
    match random.below(4) {
        0 => given.lengths.push(0),
        1 if !given.lengths.is_empty() => drop(given.lengths.pop()),
        2 if !given.bytes.is_empty() => drop(given.bytes.pop()),
        _ => given.bytes.push(b'x'),
    }
    given
}

/// The seed of random numbers that a search decides.
pub fn seed(query: &Query) -> u64 {
    let mut bytes: Vec<u8> = query.vector.iter().flat_map(|x| x.to_bits().to_le_bytes()).collect();
    bytes.extend(query.k.to_le_bytes());
    hash_bytes(&bytes)
}

/// Two ways in which a search's names are cut, a place for each name, derived from the search alone.
pub fn cuts(query: &Query) -> [[usize; 2]; 2] {
    let mut random = Random::new(seed(query));
    let [one, two] = query.lengths().map(|length| places(&mut random, length, length));
    [[one[0], two[0]], [one[1], two[1]]]
}

/// Whether the library's hash of the first part, carried on through the second, is that of the name.
pub fn carried_on(label: &Label, at: usize) -> bool {
    let name = Name::cut(label, at);
    ffi::label_hash(ffi::label_hash(START, name.first), name.second) == hash_bytes(label)
}
