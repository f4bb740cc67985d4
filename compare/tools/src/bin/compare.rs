//! compare SEED COUNT: generated indexes through the static library against the original, the model and brute force.
use tools::case::Case;
use tools::check::both::Pairs;
use tools::check::case::{check, Tally};
use tools::check::shrink::shrink;
use tools::generate::index::{case, fit, WHOLE};
use tools::model::tree::Tree;
use tools::random::Random;

fn report(number: usize, case: &Case, why: &str) {
    println!("index {number} failed: {why}");
    let small = shrink(case);
    println!("smallest input: {:?}", small.shape);
    for doc in &small.docs {
        println!("  {doc:?}");
    }
    println!("  {:?}", small.queries);
}

fn summary(tally: &Tally) {
    println!("searches with a label or none: {} ({} whole, {} cut)", tally.searches, tally.whole, tally.cut);
    println!("  ids and distances equal to the original's: {}", tally.whole_domain);
    println!("  distances, and ids at unshared distances: {}", tally.distances);
    println!("  outside the domain of equality: {}", tally.outside);
    println!(
        "  without the original, by a label of which another has the hash, beside labels that are no text, or with an id taught again: {}",
        tally.no_reference
    );
    println!("  equal to the brute-force first k: {}, {} of these without the original", tally.whole, tally.brute_alone);
    println!("adds taken back: {}", tally.taught.taken_back);
    println!("adds refused for want of label text: {}", tally.taught.text_full);
    println!("names parted twice: {} in adds, {} in searches", tally.taught.parted, tally.parted_searches);
    println!("builds refused for want of nodes: {}", tally.too_many);
    withdrawals(tally);
    pairs(&tally.pairs);
}

fn pairs(pairs: &Pairs) {
    println!("searches with two labels: {} ({} whole, {} cut)", pairs.searches, pairs.whole, pairs.cut);
    println!(
        "  whole, by the original's two searches with unlimited k and ef_search, joined: {} with ids and distances equal, {} with distances, and ids at \
         unshared distances",
        pairs.equal, pairs.distances
    );
    println!("  whole, equal to the brute-force first k: {}, {} of these without the original", pairs.whole, pairs.brute_alone);
    println!(
        "  with hits: {}; changed by the second label: {}; with at least 16 k hits found: {}",
        pairs.hits, pairs.changed, pairs.of_many
    );
    println!("  with one label twice: {}; with two labels of one hash: {}", pairs.same, pairs.of_one_hash);
    println!("  with hits, and changed by withdrawals: {}", pairs.withdrawn);
}

fn withdrawals(tally: &Tally) {
    let (taught, counts) = (&tally.taught, &tally.withdrawals);
    println!(
        "withdrawals: {} before a build, {} of no document; {} after it, {} of no document",
        taught.withdrawn, taught.unknown, counts.accepted, counts.unknown
    );
    println!(
        "searches with withdrawn vectors: {}, {} of these in the domain by the original with an unlimited k",
        counts.searches, counts.by_original
    );
    println!("  with another answer for it: {}, {} of these with at least 16 k hits found", counts.other, counts.of_many);
    println!("  with an id taught again after its withdrawal: {}, {} of these confirmed by brute force", counts.again, counts.again_brute);
    println!("  with a live vector behind a withdrawn one of its document, and another answer for it: {}", counts.hiding);
}

fn main() {
    let words: Vec<String> = std::env::args().collect();
    let number = |i: usize, usual: u64| words.get(i).map_or(usual, |w| w.parse().expect("a number"));
    let (seed, count) = (number(1, 1), number(2, 1000) as usize);
    let mut tally = Tally::default();
    let mut failed = 0;
    for i in 0..count {
        let mut random = Random::of_case(seed, i);
        let mut one = case(&mut random, WHOLE);
        let tree = Tree::build(&one);
        fit(&mut random, &mut one, tree.nodes.len());
        if let Err(why) = check(&one, &tree, &mut tally) {
            failed += 1;
            report(i, &one, &why);
        }
    }
    summary(&tally);
    println!("{} passed, {} failed", count - failed, failed);
    std::process::exit(i32::from(failed > 0));
}
