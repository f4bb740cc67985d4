//! 'Search' of document 01; a label is its bytes, withdrawn hits are struck, and two labels may be searched for (K4, K10 and K1 of document 02).
use super::label::{hash_bytes, Filter};
use super::number::{distance, normalized};
use super::tree::Tree;
use crate::case::{Case, Label, Query};
use crate::ours::Answer;
use std::collections::HashSet;

/// What a walk gives: the raw hits (id, distance, vector number), the nodes opened, and whether no node waited.
pub struct Walk {
    pub raw: Vec<(u32, f32, usize)>,
    pub opened: usize,
    pub whole: bool,
}

/// A label that is searched for.
#[derive(Clone, Copy)]
pub struct Wanted<'a> {
    pub hash: u64,
    pub bytes: &'a [u8],
}

impl<'a> Wanted<'a> {
    pub fn of(bytes: &'a [u8]) -> Wanted<'a> {
        Wanted { hash: hash_bytes(bytes), bytes }
    }
}

/// What a search is about: every vector, those with a label, or those with each of two.
#[derive(Clone, Copy)]
pub struct Sought<'a> {
    pub label: Option<Wanted<'a>>,
    pub other: Option<Wanted<'a>>,
}

impl<'a> Sought<'a> {
    pub fn of(label: Option<&'a [u8]>, other: Option<&'a [u8]>) -> Sought<'a> {
        Sought { label: label.map(Wanted::of), other: other.map(Wanted::of) }
    }

    /// The labels.
    pub fn labels(self) -> impl Iterator<Item = Wanted<'a>> {
        self.label.into_iter().chain(self.other)
    }

    /// 'A node whose filter denies either is opened and gives nothing'.
    pub fn denied_by(self, filter: &Filter) -> bool {
        self.labels().any(|label| filter.denies(label.hash))
    }
}

/// The owners of a leaf's entries of a label: 'an entry is a label's if its hash and bytes are'.
fn owners(tree: &Tree, leaf: usize, label: Wanted) -> Vec<usize> {
    let is = |&&entry: &&usize| tree.hashes[entry] == label.hash && tree.names.of_entry(entry) == label.bytes;
    tree.nodes[leaf].entries.iter().filter(is).map(|&entry| tree.owners[entry]).collect()
}

/// The vectors that an opened leaf gives: 'its entries of the first whose owner has one of the second there'.
fn given(tree: &Tree, leaf: usize, sought: Sought) -> Vec<usize> {
    let Some(label) = sought.label else { return tree.nodes[leaf].vectors.clone() };
    let mut given = owners(tree, leaf, label);
    if let Some(other) = sought.other {
        let there: HashSet<usize> = owners(tree, leaf, other).into_iter().collect();
        given.retain(|owner| there.contains(owner));
    }
    given
}

/// Whether an entry has another label of a hash that is searched for: then the original, which goes by the hash, is no reference.
pub fn shares_hash(tree: &Tree, query: &Query) -> bool {
    let shares = |label: &Label| {
        let hash = hash_bytes(label);
        (0..tree.hashes.len()).any(|entry| tree.hashes[entry] == hash && *tree.names.of_entry(entry) != **label)
    };
    query.labels().any(shares)
}

/// The least waiting node by distance in total order, then number; it no longer waits.
pub fn take_least(waiting: &mut Vec<(f32, usize)>) -> Option<usize> {
    let order = |a: &(f32, usize), b: &(f32, usize)| a.0.total_cmp(&b.0).then(a.1.cmp(&b.1));
    let at = (0..waiting.len()).min_by(|&i, &j| order(&waiting[i], &waiting[j]))?;
    Some(waiting.swap_remove(at).1)
}

pub fn walk(tree: &Tree, query: &Query) -> Walk {
    let q = normalized(&query.vector);
    let sought = Sought::of(query.label.as_deref(), query.other.as_deref());
    let mut walk = Walk { raw: Vec::new(), opened: 0, whole: true };
    let mut waiting = vec![(distance(&q, &tree.nodes[0].centroid), 0)];
    while !waiting.is_empty() {
        if walk.opened == tree.ef {
            walk.whole = false;
            break;
        }
        let number = take_least(&mut waiting).expect("a node waits");
        walk.opened += 1;
        let node = &tree.nodes[number];
        if sought.denied_by(&node.filter) {
            continue;
        }
        if node.children.is_empty() {
            let hit = |v: usize| (tree.ids[v], distance(&q, &tree.vectors[v]), v);
            walk.raw.extend(given(tree, number, sought).into_iter().map(hit));
        }
        let near = |&c: &usize| (distance(&q, &tree.nodes[c].centroid), c);
        waiting.extend(node.children.iter().map(near));
    }
    walk
}

/// Raw hits sorted by distance, document id and vector number.
fn sorted(raw: &[(u32, f32, usize)]) -> Vec<(u32, f32, usize)> {
    let mut hits = raw.to_vec();
    hits.sort_by(|a, b| a.1.total_cmp(&b.1).then(a.0.cmp(&b.0)).then(a.2.cmp(&b.2)));
    hits
}

/// Hits are sorted, adjacent equal document ids lose the later; what is left.
pub fn heads(walk: &Walk) -> Vec<(u32, f32, usize)> {
    let mut hits = sorted(&walk.raw);
    hits.dedup_by_key(|hit| hit.0);
    hits
}

/// The answer of a walk with these hits, of which the first k stay.
fn first(hits: Vec<(u32, f32, usize)>, walk: &Walk, k: usize) -> Answer {
    let hits = hits.into_iter().take(k).map(|(id, distance, _)| (id, distance)).collect();
    Answer { hits, opened: walk.opened, whole: walk.whole }
}

/// 'Adjacent repeats are dropped before withdrawn hits are struck'; then the first k stay. `live` goes by vector number.
pub fn answer(walk: &Walk, k: usize, live: impl Fn(usize) -> bool) -> Answer {
    let mut hits = heads(walk);
    hits.retain(|hit| live(hit.2));
    first(hits, walk, k)
}

/// What the wrong order, striking first, would answer.
pub fn struck_first(walk: &Walk, k: usize, live: impl Fn(usize) -> bool) -> Answer {
    let mut hits = sorted(&walk.raw);
    hits.retain(|hit| live(hit.2));
    hits.dedup_by_key(|hit| hit.0);
    first(hits, walk, k)
}

/// Without any tree, store or hash: all vectors, or those with labels of the same bytes, by distance, document id and number; one behind another of its
/// id goes, then those that are not live, and the first k stay.
pub fn brute_force(case: &Case, query: &Query, live: &[bool]) -> Vec<(u32, f32)> {
    let q = normalized(&query.vector);
    let has = |i: &usize| query.labels().all(|label| case.docs[*i].labels.contains(label));
    let mut ranked: Vec<usize> = (0..case.docs.len()).filter(has).collect();
    let distances: Vec<f32> = case.docs.iter().map(|doc| distance(&q, &normalized(&doc.vector))).collect();
    ranked.sort_by(|&i, &j| distances[i].total_cmp(&distances[j]).then(case.docs[i].id.cmp(&case.docs[j].id)).then(i.cmp(&j)));
    let id = |place: usize| case.docs[ranked[place]].id;
    let stays = |&place: &usize| (place == 0 || id(place - 1) != id(place)) && live[ranked[place]];
    let given = (0..ranked.len()).filter(stays).take(query.k);
    given.map(|place| (id(place), distances[ranked[place]])).collect()
}
