//! The domain of equality of document 01, for one search.
use crate::model::search::Walk;
use std::collections::HashMap;

/// What must be equal to the original's answer.
#[derive(Clone, Copy, Debug, PartialEq)]
pub enum Domain {
    /// Ids and distances.
    Whole,
    /// Distances, and the ids at distances that no other raw hit has.
    Distances,
    /// Nothing is promised.
    Outside,
}

/// How often each distance occurs among the raw hits.
fn counts(walk: &Walk) -> HashMap<u32, usize> {
    let mut counts = HashMap::new();
    for hit in &walk.raw {
        *counts.entry(hit.1.to_bits()).or_default() += 1;
    }
    counts
}

/// Whether no two raw hits of different documents have one distance.
fn unshared(walk: &Walk) -> bool {
    let mut owner = HashMap::new();
    walk.raw.iter().all(|hit| *owner.entry(hit.1.to_bits()).or_insert(hit.0) == hit.0)
}

/// `plain`: the document ids are all different and no label is repeated on a vector.
pub fn of(walk: &Walk, plain: bool) -> Domain {
    if unshared(walk) {
        return Domain::Whole;
    }
    if plain {
        return Domain::Distances;
    }
    Domain::Outside
}

type Hits = [(u32, f32)];

/// Whether two answers are equal as far as the domain says.
pub fn agree(domain: Domain, walk: &Walk, ours: &Hits, theirs: &Hits) -> bool {
    let counts = counts(walk);
    let alone = |x: f32| counts.get(&x.to_bits()) == Some(&1);
    let hit = |a: &(u32, f32), b: &(u32, f32)| match domain {
        Domain::Whole => a.0 == b.0 && a.1.to_bits() == b.1.to_bits(),
        Domain::Distances => a.1.to_bits() == b.1.to_bits() && (a.0 == b.0 || !alone(a.1)),
        Domain::Outside => true,
    };
    domain == Domain::Outside || ours.len() == theirs.len() && ours.iter().zip(theirs).all(|(a, b)| hit(a, b))
}
