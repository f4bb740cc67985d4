//! Random arguments of calls, and random damaged indexes.
use super::make;
use crate::case::{Case, Label};
use crate::ffi::Added;
use crate::generate::index::{case, fit, Most};
use crate::model::refusal::MOST_TEXT;
use crate::model::tree::Tree;
use crate::ours::Ours;
use crate::parting::{places, recut, Name, NAME};
use crate::random::Random;

const SMALL: Most = Most { dimension: 16, vectors: 60, entries: 120, name: NAME, text: MOST_TEXT, alike: true };

/// A component: finite in most cases.
fn component(random: &mut Random) -> f32 {
    if random.one_in(200) {
        return f32::from_bits(0x7F80_0000 | random.bits() as u32);
    }
    random.unit()
}

/// A vector: of the dimension in most cases.
pub fn vector(random: &mut Random, dimension: usize) -> Vec<f32> {
    let length = if random.one_in(20) { random.below(130) } else { dimension.min(200) };
    (0..length).map(|_| component(random)).collect()
}

/// A part's length: none, the longest, short, or any.
fn length(random: &mut Random) -> u8 {
    match random.below(6) {
        0 => 0,
        1 => u8::MAX,
        2..=4 => random.below(6) as u8,
        _ => random.below(256) as u8,
    }
}

/// An add with labels of any bytes; one in ten has an odd number of lengths, one in ten a sum that does not fit.
pub fn added(random: &mut Random, dimension: usize) -> Added {
    let labels = random.below(4);
    let odd = random.one_in(10);
    let lengths: Vec<u8> = (0..2 * labels + usize::from(odd)).map(|_| length(random)).collect();
    let sum: usize = lengths.iter().map(|&length| usize::from(length)).sum();
    let size = if random.one_in(10) { random.below(300) } else { sum };
    let bytes = (0..size).map(|_| random.bits() as u8).collect();
    Added { id: random.bits() as u32, vector: vector(random, dimension), lengths, bytes }
}

/// The same add with its names cut anew, where the lengths are right.
pub fn parted_otherwise(random: &mut Random, given: &Added) -> Option<Added> {
    let sum: usize = given.lengths.iter().map(|&length| usize::from(length)).sum();
    let right = given.lengths.len() % 2 == 0 && sum == given.bytes.len();
    right.then(|| recut(random, given))
}

/// A label's name, cut anywhere, at two places.
pub fn cut_twice<'a>(random: &mut Random, label: &'a Label) -> [Option<Name<'a>>; 2] {
    places(random, label.len(), label.len()).map(|at| Some(Name::cut(label, at)))
}

/// Makes one list shorter, now and then.
fn shorten(random: &mut Random, ours: &mut Ours) {
    let by = random.from(1, 40);
    let lists = &mut ours.lists;
    match random.below(40) {
        0 => lists.floats.truncate(lists.floats.len().saturating_sub(by)),
        1 => lists.numbers.truncate(lists.numbers.len().saturating_sub(by)),
        2 => lists.hashes.truncate(lists.hashes.len().saturating_sub(by)),
        3 => lists.work.truncate(lists.work.len().saturating_sub(by)),
        4 => lists.text.truncate(lists.text.len().saturating_sub(by)),
        _ => {}
    }
}

/// The labels of a case, and two that it has not; another of its labels may have the hash of the second.
fn labels(case: &Case) -> Vec<Label> {
    let all = case.docs.iter().flat_map(|doc| doc.labels.clone());
    all.chain([Label::from("none"), Label::from("77kepQFQ8Kl\0\0\0")]).collect()
}

/// A damaged index, and labels to search for.
pub fn damaged(random: &mut Random) -> (Ours, Vec<Label>) {
    let mut case = case(random, SMALL);
    let nodes = Tree::build(&case).nodes.len();
    fit(random, &mut case, nodes);
    case.shape.nodes = case.shape.nodes.max(nodes);
    let mut ours = make::damaged(random, &case);
    shorten(random, &mut ours);
    (ours, labels(&case))
}
