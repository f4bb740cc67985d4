//! All checks of one case.
use super::both::{self, check_both, Pairs};
use super::domain::{self, Domain};
use super::layout;
use super::names::{carried_on, cuts, seed};
use super::pool::unpooled;
use super::search::{same, same_hits, search};
use super::teach::{teach, Times};
use super::withdraw::{Built, Manner};
use crate::case::{Case, Query};
use crate::model::search::{answer, brute_force, shares_hash, struck_first, walk, Walk};
use crate::model::tree::Tree;
use crate::ours::{Answer, Lists, Ours};
use crate::random::Random;
use crate::theirs;
use original::curator::CuratorIndex;

/// What was compared.
#[derive(Default)]
pub struct Tally {
    pub searches: usize,
    pub whole_domain: usize,
    pub distances: usize,
    pub outside: usize,
    pub no_reference: usize,
    pub brute_alone: usize,
    pub whole: usize,
    pub cut: usize,
    pub too_many: usize,
    pub taught: Times,
    pub parted_searches: usize,
    pub withdrawals: Withdrawals,
    pub pairs: Pairs,
}

/// Of withdrawals: those that were accepted and refused after a build, and searches.
#[derive(Default)]
pub struct Withdrawals {
    pub accepted: usize,
    pub unknown: usize,
    /// Of an index with withdrawn vectors; those that the original has confirmed; those whose answer is other for it; of these those with at least 16 k hits
    /// found.
    pub searches: usize,
    pub by_original: usize,
    pub other: usize,
    pub of_many: usize,
    /// Of an index with an id that was taught again after its withdrawal; those of them that brute force has confirmed; those that striking before dropping
    /// would answer otherwise.
    pub again: usize,
    pub again_brute: usize,
    pub hiding: usize,
}

pub fn need(holds: bool, what: impl FnOnce() -> String) -> Result<(), String> {
    if holds {
        return Ok(());
    }
    Err(what())
}

/// A tree with more nodes than there is room for: refusal 13, and nothing changed that is not free.
fn check_too_many(mut ours: Ours) -> Result<(), String> {
    let before = ours.clone();
    let shape = ours.shape();
    need(ours.build() == Err(13), || "build did not refuse 13".into())?;
    need(ours.state == before.state, || "refusal 13 changed the state".into())?;
    need(layout::same_added(&shape, &ours.lists, &before.lists), || "refusal 13 changed what was added".into())
}

/// The store before and after a build. The lists say what stands past the counts.
fn check_build(ours: &mut Ours, tree: &Tree, mut lists: Lists, live: &[bool]) -> Result<(), String> {
    let shape = ours.shape();
    layout::put_marks(&shape, &mut lists, live);
    let added = layout::expected(tree, &shape, lists.clone(), false);
    need(layout::same_store(&shape, &ours.lists, &added), || "add: the store differs from the model".into())?;
    ours.build().map_err(|n| format!("build refused {n}"))?;
    need(ours.state[10] == tree.nodes.len(), || format!("{} nodes", ours.state[10]))?;
    let built = layout::expected(tree, &shape, lists, true);
    need(layout::same_store(&shape, &ours.lists, &built), || "build: the store differs from the model".into())?;
    match unpooled(ours) {
        None => Ok(()),
        Some(node) => Err(format!("build: the filter of node {node} is not the pool of its children's")),
    }
}

/// The second of two indexes after its build: the same as the first, outside the parts that are free.
fn check_twin(ours: &Ours, twin: &mut Ours) -> Result<(), String> {
    twin.build().map_err(|n| format!("parted otherwise, build refused {n}"))?;
    let same = ours.state == twin.state && layout::same_store(&ours.shape(), &ours.lists, &twin.lists);
    need(same, || "parted otherwise, build: the store differs".into())
}

/// One search of both indexes, its names cut in two ways.
fn search_twice(query: &Query, pair: &mut [Ours; 2], tally: &mut Tally) -> Result<Answer, String> {
    let [ours, twin] = pair;
    let [one, other] = cuts(query);
    let got = search(ours, query, one)?;
    let again = search(twin, query, other)?;
    need(same(&got, &again), || format!("cut at {one:?} {got:?}, at {other:?} {again:?}"))?;
    for (label, i) in query.labels().zip(0..) {
        need(carried_on(label, one[i]) && carried_on(label, other[i]), || format!("the hash of {label:?}, cut at {one:?} or {other:?}"))?;
    }
    tally.parted_searches += usize::from(one != other);
    Ok(got)
}

/// The original's answer. Where vectors are withdrawn: with an unlimited k, their ids struck, the first k. None of the ids has a live vector.
fn struck(query: &Query, theirs: &CuratorIndex, built: &Built) -> Vec<(u32, f32)> {
    let gone = built.ids(false);
    if gone.is_empty() {
        return theirs::search(theirs, query);
    }
    let all = theirs::search(theirs, &Query { k: usize::MAX, ..query.clone() });
    all.into_iter().filter(|hit| !gone.contains(&hit.0)).take(query.k).collect()
}

/// An answer against the original's, as far as the domain of equality goes.
fn check_original(plain: bool, walk: &Walk, got: &Answer, original: &[(u32, f32)], tally: &mut Tally) -> Result<Domain, String> {
    let domain = domain::of(walk, plain);
    need(domain::agree(domain, walk, &got.hits, original), || format!("{domain:?}: ours {got:?} original {original:?}"))?;
    match domain {
        Domain::Whole => tally.whole_domain += 1,
        Domain::Distances => tally.distances += 1,
        Domain::Outside => tally.outside += 1,
    }
    Ok(domain)
}

/// What the searches of a case are compared with. The original is there where all labels are text; with an unlimited `ef_search`, for searches for two labels,
/// where the ids are all different too.
struct References<'a> {
    case: &'a Case,
    tree: &'a Tree,
    plain: bool,
    theirs: Option<CuratorIndex>,
    unlimited: Option<CuratorIndex>,
}

impl References<'_> {
    /// The original's answer, where it is the reference for a search: the label is text, no vector has another of its hash, and no id was taught again after
    /// its withdrawal.
    fn original(&self, query: &Query, built: &Built) -> Option<Vec<(u32, f32)>> {
        let text = query.label.as_ref().is_none_or(|label| label.text().is_some());
        let theirs = self.theirs.as_ref().filter(|_| text && !shares_hash(self.tree, query) && !built.taught_again())?;
        Some(struck(query, theirs, built))
    }
}

/// What a search says of withdrawals, in the counts; `domain` is that in which the original has confirmed it.
fn count_withdrawals(query: &Query, walk: &Walk, got: &Answer, built: &Built, domain: Domain, counts: &mut Withdrawals) {
    let live = |vector: usize| built.live[vector];
    let other = !same(got, &answer(walk, query.k, |_| true));
    let withdrawn = built.live.contains(&false);
    counts.searches += usize::from(withdrawn);
    counts.by_original += usize::from(withdrawn && domain != Domain::Outside);
    counts.other += usize::from(other);
    counts.of_many += usize::from(other && walk.raw.len() >= 16 * query.k);
    if built.taught_again() {
        counts.again += 1;
        counts.again_brute += usize::from(got.whole);
        counts.hiding += usize::from(!same(got, &struck_first(walk, query.k, live)));
    }
}

/// A search for a label or for none against the original; returns in which domain it has confirmed the answer.
fn check_one(
    query: &Query,
    walk: &Walk,
    got: &Answer,
    references: &References,
    built: &Built,
    tally: &mut Tally,
) -> Result<Domain, String> {
    let original = references.original(query, built);
    let domain = match &original {
        Some(original) => check_original(references.plain, walk, got, original, tally)?,
        None => Domain::Outside,
    };
    tally.no_reference += usize::from(original.is_none());
    tally.brute_alone += usize::from(original.is_none() && got.whole);
    tally.whole += usize::from(got.whole);
    tally.cut += usize::from(!got.whole);
    tally.searches += 1;
    Ok(domain)
}

/// One search of a walk that the model has made.
fn check_search(query: &Query, walk: &Walk, references: &References, built: &mut Built, tally: &mut Tally) -> Result<(), String> {
    let got = search_twice(query, &mut built.pair, tally)?;
    let model = answer(walk, query.k, |vector| built.live[vector]);
    need(same(&got, &model), || format!("ours {got:?} model {model:?}"))?;
    if got.whole {
        let first = brute_force(references.case, query, &built.live);
        need(same_hits(&got.hits, &first), || format!("ours {got:?} brute force {first:?}"))?;
    }
    let domain = match query.other {
        None => check_one(query, walk, &got, references, built, tally)?,
        Some(_) => check_both(query, walk, &got, references.tree, references.unlimited.as_ref(), built, &mut tally.pairs)?,
    };
    count_withdrawals(query, walk, &got, built, domain, &mut tally.withdrawals);
    Ok(())
}

/// A search of the case, after withdrawals in its manner; and again with a k of at most a sixteenth of the hits found, where there are so many: then hits may
/// be kept out of the queue.
fn check_query(query: &Query, references: &References, built: &mut Built, tally: &mut Tally) -> Result<(), String> {
    let walk = walk(references.tree, query);
    built.withdraw_all(&Manner::of(references.case).before(references.case, query, &walk))?;
    check_search(query, &walk, references, built, tally)?;
    let most = walk.raw.len() / 16;
    if most == 0 {
        return Ok(());
    }
    let few = Query { k: Random::new(seed(query)).from(1, most), ..query.clone() };
    check_search(&few, &walk, references, built, tally)
}

pub fn check(case: &Case, tree: &Tree, tally: &mut Tally) -> Result<(), String> {
    let taught = teach(case)?;
    tally.taught.add(&taught.times);
    let live = taught.live();
    let (mut pair, lists) = (taught.pair, taught.lists);
    if case.shape.nodes < tree.nodes.len() {
        tally.too_many += 1;
        return pair.into_iter().try_for_each(check_too_many);
    }
    let [ours, twin] = &mut pair;
    check_build(ours, tree, lists, &live)?;
    check_twin(ours, twin)?;
    let theirs = case.has_text_alone().then(|| theirs::built(case));
    let references = References { case, tree, plain: case.plain(), theirs, unlimited: both::unlimited(case) };
    let mut built = Built::new(case, pair, live);
    for query in &case.queries {
        check_query(query, &references, &mut built, tally)?;
    }
    tally.withdrawals.accepted += built.withdrawn;
    tally.withdrawals.unknown += built.unknown;
    need(built.kept(), || "a search changed the store".into())
}
