//! known: the differences of docs/DIFFERENCES.md that a search shows, each by its smallest input. Ours must be as written there; what the original answers is
//! printed, since it leaves ties to its library's sort.
use tools::case::{Case, Doc, Query};
use tools::check::search::search;
use tools::ours::{Lists, Ours, Shape};
use tools::theirs;

const SHAPE: Shape = Shape { dimension: 1, branching: 2, leaf_size: 9, ef: 9, beam: 4, vectors: 9, entries: 2, nodes: 1, text: 21 };

/// Vectors that are all the same, with these ids.
fn equal(ids: &[u32], k: usize) -> Case {
    let doc = |&id: &u32| Doc { id, vector: vec![1.0], labels: Vec::new() };
    let query = Query { vector: vec![1.0], label: None, other: None, k };
    Case { shape: SHAPE, docs: ids.iter().map(doc).collect(), queries: vec![query] }
}

fn ids(hits: &[(u32, f32)]) -> Vec<u32> {
    hits.iter().map(|hit| hit.0).collect()
}

/// The ids of our answer to the case's search.
fn our_ids(case: &Case) -> Vec<u32> {
    let mut ours = Ours::new(case.shape, Lists::new(case.shape, 0, 0)).expect("new");
    for doc in &case.docs {
        ours.add(doc.id, &doc.vector, &doc.labels).expect("add");
    }
    ours.build().expect("build");
    ids(&search(&mut ours, &case.queries[0], [0; 2]).expect("search").hits)
}

/// Whether ours answers as expected.
fn shows(what: &str, case: &Case, expected: &[u32]) -> bool {
    let found = our_ids(case);
    let original = ids(&theirs::search(&theirs::built(case), &case.queries[0]));
    println!("{what}: ours {found:?}, the original {original:?}");
    found == expected
}

/// A component that is not finite: ours refuses it, the original takes it.
fn not_finite() -> bool {
    let case = equal(&[], 1);
    let mut ours = Ours::new(case.shape, Lists::new(case.shape, 0, 0)).expect("new");
    let refused = ours.add(7, &[f32::INFINITY], &[]);
    let original = theirs::filled(&case).add(7, vec![f32::INFINITY], Vec::new()).is_ok();
    println!("an infinite component: ours {refused:?}, the original takes it: {original}");
    refused == Err(8) && original
}

/// Two labels of one hash, a vector with each, and a search for one: ours finds its own vector, the original both.
fn one_hash() -> Case {
    let labels = ["77kepQFQ8Kl", "!0IC=VloaY"];
    let doc = |(id, label): (u32, &str)| Doc { id, vector: vec![1.0], labels: vec![label.into()] };
    let query = Query { vector: vec![1.0], label: Some(labels[1].into()), other: None, k: 3 };
    Case { shape: SHAPE, docs: vec![doc((5, labels[0])), doc((6, labels[1]))], queries: vec![query] }
}

fn main() {
    let known = shows("ids 2 and 1 at one distance, k 1", &equal(&[2, 1], 1), &[1])
        & shows("ids 5, 6 and 5 at one distance, k 3", &equal(&[5, 6, 5], 3), &[5, 6])
        & shows("ids 5 and 6 with labels of one hash, k 3", &one_hash(), &[6])
        & not_finite();
    std::process::exit(i32::from(!known));
}
