//! Searches for two labels (K1 of document 02): against the original's two filtered searches joined on document id, against the search for one label, and in
//! the other order of the labels.
use super::case::need;
use super::domain::{self, Domain};
use super::names::cuts;
use super::search::{same, same_hits, search};
use super::withdraw::Built;
use crate::case::{Case, Query};
use crate::model::label::hash_bytes;
use crate::model::search::{answer, shares_hash, walk, Walk};
use crate::model::tree::Tree;
use crate::ours::Answer;
use crate::theirs;
use original::curator::CuratorIndex;

/// What was compared.
#[derive(Default)]
pub struct Pairs {
    pub searches: usize,
    pub whole: usize,
    pub cut: usize,
    /// Whole answers that the original's were compared with: all of it equal, or distances and the ids at distances that no other raw hit has.
    pub equal: usize,
    pub distances: usize,
    /// Whole answers without the original.
    pub brute_alone: usize,
    /// With hits; with other hits than the first label alone has; for one label given twice; for two of one hash.
    pub hits: usize,
    pub changed: usize,
    pub same: usize,
    pub of_one_hash: usize,
    /// With hits, of an index with withdrawn vectors, and with another answer for these.
    pub withdrawn: usize,
    /// With at least 16 k hits found, where hits may be kept out of the queue.
    pub of_many: usize,
}

/// The original with an unlimited `ef_search`, where it may be the reference: all labels are text, the ids are all different, and a search is for two labels.
pub fn unlimited(case: &Case) -> Option<CuratorIndex> {
    let asked = case.queries.iter().any(|query| query.other.is_some());
    (asked && case.has_text_alone() && case.ids_differ()).then(|| theirs::unlimited(case))
}

/// The original's answer: its two searches joined, withdrawn ids struck, the first k. No vector has another label of either hash.
fn original(query: &Query, tree: &Tree, theirs: Option<&CuratorIndex>, built: &Built) -> Option<Vec<(u32, f32)>> {
    let text = query.labels().all(|label| label.text().is_some());
    let theirs = theirs.filter(|_| text && !shares_hash(tree, query))?;
    let gone = built.ids(false);
    let joined = theirs::joined(theirs, query);
    Some(joined.into_iter().filter(|hit| !gone.contains(&hit.0)).take(query.k).collect())
}

/// In the other order, and the same label twice as the search for it: the hits, the nodes opened, whole or cut.
fn check_alike(query: &Query, got: &Answer, built: &mut Built) -> Result<(), String> {
    let ours = &mut built.pair[0];
    let swapped = query.swapped();
    let other = search(ours, &swapped, cuts(&swapped)[0])?;
    need(same(got, &other), || format!("{got:?}, in the other order {other:?}"))?;
    if query.label == query.other {
        let alone = query.alone();
        let one = search(ours, &alone, cuts(&alone)[0])?;
        need(same(got, &one), || format!("the same label twice {got:?}, once {one:?}"))?;
    }
    Ok(())
}

fn count(query: &Query, walk: &Walk, got: &Answer, alone: &Answer, counts: &mut Pairs) {
    let hashes = [&query.label, &query.other].map(|label| label.as_ref().map(|label| hash_bytes(label)));
    let one_hash = query.label != query.other && hashes[0] == hashes[1];
    counts.searches += 1;
    counts.whole += usize::from(got.whole);
    counts.cut += usize::from(!got.whole);
    counts.hits += usize::from(!got.hits.is_empty());
    counts.changed += usize::from(!same_hits(&got.hits, &alone.hits));
    counts.same += usize::from(query.label == query.other);
    counts.of_one_hash += usize::from(one_hash);
    counts.withdrawn += usize::from(!got.hits.is_empty() && !same(got, &answer(walk, query.k, |_| true)));
    counts.of_many += usize::from(query.k > 0 && walk.raw.len() >= 16 * query.k);
}

/// A search that is as the model says; returns in which domain the original has confirmed it.
pub fn check_both(
    query: &Query,
    walked: &Walk,
    got: &Answer,
    tree: &Tree,
    theirs: Option<&CuratorIndex>,
    built: &mut Built,
    counts: &mut Pairs,
) -> Result<Domain, String> {
    check_alike(query, got, built)?;
    let alone = answer(&walk(tree, &query.alone()), query.k, |vector| built.live[vector]);
    count(query, walked, got, &alone, counts);
    let reference = original(query, tree, theirs, built).filter(|_| got.whole);
    let Some(reference) = reference else {
        counts.brute_alone += usize::from(got.whole);
        return Ok(Domain::Outside);
    };
    // each id is there once on both sides, repeated labels or not
    let domain = domain::of(walked, true);
    need(domain::agree(domain, walked, &got.hits, &reference), || format!("{domain:?}: ours {got:?} original, joined, {reference:?}"))?;
    match domain {
        Domain::Whole => counts.equal += 1,
        _ => counts.distances += 1,
    }
    Ok(domain)
}
