//! The original, built from a case.
use crate::case::{Case, Doc, Label, Query};
use crate::ours::Shape;
use original::curator::{CuratorIndex, CuratorParams};
use std::collections::HashSet;

/// The original's index with nothing added.
pub fn empty(case: &Case) -> CuratorIndex {
    with(&case.shape, case.shape.ef)
}

/// The same with another `ef_search`.
fn with(shape: &Shape, ef_search: usize) -> CuratorIndex {
    let params = CuratorParams { branching_factor: shape.branching, max_leaf_size: shape.leaf_size, ef_search, beam_width: shape.beam };
    CuratorIndex::new(shape.dimension, params).expect("new")
}

/// A label as text.
fn text(label: &Label) -> &str {
    label.text().expect("text")
}

/// The labels of a document as the original takes them.
pub fn texts(doc: &Doc) -> Vec<String> {
    doc.labels.iter().map(|label| text(label).into()).collect()
}

fn fill(mut index: CuratorIndex, case: &Case) -> CuratorIndex {
    for doc in &case.docs {
        index.add(doc.id, doc.vector.clone(), texts(doc)).expect("add");
    }
    index
}

/// The original's index, not yet built. The labels are text.
pub fn filled(case: &Case) -> CuratorIndex {
    fill(empty(case), case)
}

pub fn built(case: &Case) -> CuratorIndex {
    let mut index = filled(case);
    index.build().expect("build");
    index
}

/// The original's index, built, with an unlimited `ef_search`.
pub fn unlimited(case: &Case) -> CuratorIndex {
    let mut index = fill(with(&case.shape, usize::MAX), case);
    index.build().expect("build");
    index
}

/// The reference of a search for two labels (K1 of document 02): the two filtered searches with an unlimited k, joined on document id. The ids are all
/// different, so that each is there once; in the first's order.
pub fn joined(index: &CuratorIndex, query: &Query) -> Vec<(u32, f32)> {
    let [one, two] = [&query.label, &query.other].map(|label| {
        let label = label.as_ref().expect("two labels");
        index.search_filtered(&query.vector, usize::MAX, text(label)).expect("search")
    });
    let mut second: HashSet<u32> = two.iter().map(|hit| hit.0).collect();
    one.into_iter().filter(|hit| second.remove(&hit.0)).collect()
}

pub fn search(index: &CuratorIndex, query: &Query) -> Vec<(u32, f32)> {
    let found = match &query.label {
        Some(label) => index.search_filtered(&query.vector, query.k, text(label)),
        None => index.search(&query.vector, query.k),
    };
    found.expect("search")
}
