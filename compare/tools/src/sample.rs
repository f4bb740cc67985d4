//! Generated indexes that the program `echoes` takes, and what it must print of them.
use crate::case::{Case, Query};
use crate::check::domain::{self, Domain};
use crate::check::search::same_hits;
use crate::echo;
use crate::generate::index::{case, Most};
use crate::model::search::{answer, walk};
use crate::model::tree::Tree;
use crate::parting::PART;
use crate::random::Random;
use crate::theirs;

/// The sizes of the program `echoes`. An echo file has one length byte a label. Labels of one hash are left out, since the answers are the original's.
pub const SIZES: Most = Most { dimension: 16, vectors: 128, entries: 256, name: PART, text: 256 * PART, alike: false };
pub const NODES: usize = 512;
const PLACES: usize = 256;
const LONGEST: usize = 65536;

/// A case that `echoes` takes, with the searches on which ids and distances must be equal; an echo file has none for two labels.
pub fn sample(random: &mut Random) -> Option<(Case, Tree)> {
    let mut case = case(random, SIZES);
    let tree = Tree::build(&case);
    let plain = case.plain();
    let takes = |query: &Query| query.other.is_none() && query.k <= PLACES;
    case.queries.retain(|query| takes(query) && domain::of(&walk(&tree, query), plain) == Domain::Whole);
    let fits = tree.nodes.len() <= NODES && echo::file(&case).len() <= LONGEST;
    let tells = case.queries.iter().any(|query| answer(&walk(&tree, query), query.k, |_| true).hits.len() > 1);
    (fits && tells).then_some((case, tree))
}

/// What is printed (an echo file withdraws nothing), from the original's hits and the model's count.
pub fn printed(case: &Case, tree: &Tree) -> String {
    let theirs = theirs::built(case);
    let mut text = String::new();
    for query in &case.queries {
        let hits = theirs::search(&theirs, query);
        let model = answer(&walk(tree, query), query.k, |_| true);
        assert!(same_hits(&hits, &model.hits), "the original and the model differ");
        echo::print(&mut text, &hits, model.opened, model.whole);
    }
    text
}
