//! The smallest input that still fails: documents and searches are left out as long as the case fails.
use super::case::{check, Tally};
use crate::case::Case;
use crate::model::tree::Tree;

/// Why a case fails, if it does.
pub fn failure(case: &Case) -> Option<String> {
    let mut case = case.clone();
    let tree = Tree::build(&case);
    case.shape.nodes = case.shape.nodes.max(tree.nodes.len());
    check(&case, &tree, &mut Tally::default()).err()
}

/// The case without the elements from i on, `size` of them.
fn without(case: &Case, i: usize, size: usize) -> Case {
    let mut less = case.clone();
    let end = (i + size).min(less.docs.len());
    less.docs.drain(i..end);
    less
}

/// The case with as few documents as leaving out runs of them can reach.
fn fewer(case: &Case) -> Case {
    let mut best = case.clone();
    let mut size = best.docs.len() / 2;
    while size > 0 {
        let mut i = 0;
        while i < best.docs.len() {
            let less = without(&best, i, size);
            if !less.docs.is_empty() && failure(&less).is_some() {
                best = less;
            } else {
                i += size;
            }
        }
        size /= 2;
    }
    best
}

/// One search, then fewer and fewer documents.
pub fn shrink(case: &Case) -> Case {
    let alone = |query| Case { queries: vec![query], ..case.clone() };
    let one = case.queries.iter().cloned().map(alone).find(|one| failure(one).is_some());
    let mut best = one.unwrap_or_else(|| case.clone());
    loop {
        let less = fewer(&best);
        if less.docs.len() == best.docs.len() {
            return best;
        }
        best = less;
    }
}
