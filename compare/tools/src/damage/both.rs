//! Searches for two labels (K1 of document 02) of a damaged index.
use super::check::{self, joined, search_result, Ended};
use super::random_calls::cut_twice;
use crate::case::Label;
use crate::check::search::same;
use crate::ffi::Asked;
use crate::model::refusal::State;
use crate::model::search::{answer, Sought};
use crate::model::store::View;
use crate::ours::{Answer, Ours};
use crate::random::Random;

/// Two labels: in most cases such as stand side by side, which may be one vector's; the same twice; or any two.
pub fn pair<'a>(random: &mut Random, labels: &'a [Label]) -> [&'a Label; 2] {
    let at = random.below(labels.len());
    match random.below(6) {
        0 => [&labels[at]; 2],
        1 => [&labels[at], random.of(labels)],
        2 | 3 => [&labels[at], &labels[(at + 1) % labels.len()]],
        _ => [&labels[(at + 1) % labels.len()], &labels[at]],
    }
}

/// What would be answered if an entry of the second counted wherever it stands.
fn anywhere(ours: &Ours, asked: Asked) -> Option<Answer> {
    let [label, other] = joined(asked);
    let view = View { state: State::of(&ours.state), store: ours.lists.lend() };
    let walk = view.walk_anywhere(asked.query, Sought::of(label.as_deref(), other.as_deref())).ok()?;
    Some(answer(&walk, asked.k, |vector| view.live(vector)))
}

/// What the counts of calls name a search for two labels: without hits, with them, and where an entry of the second stands in another leaf than an entry of
/// the first, so that it would be given or refused otherwise.
fn name(ours: &Ours, asked: Asked, places: usize) -> &'static str {
    let (_, Some(found)) = search_result(ours, asked, places) else { return "search_both" };
    let elsewhere = anywhere(ours, asked).is_none_or(|other| !same(&found, &other));
    let alone = search_result(ours, Asked { other: None, ..asked }, places).1;
    match (elsewhere, found.hits.is_empty()) {
        (true, _) => "search_both, the second in another leaf",
        (_, true) => "search_both, without hits",
        _ if alone.is_some_and(|alone| same(&alone, &found)) => "search_both, as the first label alone",
        _ => "search_both, other than the first label alone",
    }
}

/// A search for two labels, their names parted in two ways, in the other order, and for the first label twice, which is the search for it.
pub fn search_both(
    random: &mut Random,
    ours: &Ours,
    labels: [&Label; 2],
    asked: Asked,
    places: usize,
    note: &mut impl FnMut(&'static str, Ended),
) -> Result<(), String> {
    let [[one, parted], [two, otherwise]] = labels.map(|label| cut_twice(random, label));
    let both = Asked { label: one, other: two, ..asked };
    note(name(ours, both, places), check::search(ours, both, places)?);
    note("search_both, parted otherwise", check::search(ours, Asked { label: parted, other: otherwise, ..asked }, places)?);
    note("search_both, in the other order", check::search(ours, Asked { label: two, other: one, ..asked }, places)?);
    let twice = check::search(ours, Asked { label: one, other: parted, ..asked }, places)?;
    let once = check::search(ours, Asked { label: one, ..asked }, places)?;
    note("search_both, one label twice", twice);
    let results = [Some(parted), None].map(|other| search_result(ours, Asked { label: one, other: other.flatten(), ..asked }, places));
    let alike = match &results {
        [(_, Some(twice)), (_, Some(once))] => same(twice, once),
        [(twice, None), (once, None)] => twice == once,
        _ => false,
    };
    if twice.code != once.code || !alike {
        return Err(format!("one label twice {}, once {}, or the answers", twice.code, once.code));
    }
    Ok(())
}
