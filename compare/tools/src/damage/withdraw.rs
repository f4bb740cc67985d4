//! Withdrawing (K10 of document 02) from a damaged index, the same again at once, and searches of what that leaves.
use super::check::{self, Ended};
use crate::ffi::Asked;
use crate::model::refusal::State;
use crate::model::store::View;
use crate::ours::Ours;
use crate::random::Random;

/// An id to withdraw: that of a place of the ids, held or not, or any.
pub fn id(random: &mut Random, ours: &Ours) -> u32 {
    let places = ours.state[5].min(ours.lists.numbers.len());
    match random.below(6) {
        0 => random.bits() as u32,
        1 if places > 0 => ours.lists.numbers[random.below(places)],
        _ if places > 0 => ours.lists.numbers[random.below(ours.state[8].clamp(1, places))],
        _ => 0,
    }
}

/// What the counts of calls name a withdrawal: of how many vectors, and whether a mark was 0 before.
fn name(ours: &Ours, id: u32, code: u32) -> &'static str {
    if code != 0 {
        return "withdraw";
    }
    let view = View { state: State::of(&ours.state), store: ours.lists.lend() };
    let vectors = view.with_id(id);
    let before = vectors.iter().filter(|&&vector| !view.live(vector)).count();
    match (vectors.len(), before) {
        (1, 0) => "withdraw, one vector",
        (_, 0) => "withdraw, several vectors",
        (all, some) if all == some => "withdraw, all of them withdrawn before",
        _ => "withdraw, some of them withdrawn before",
    }
}

/// A withdrawal, and again at once, which alters nothing; returns what is left, and notes how it ended.
pub fn withdraw(ours: &Ours, id: u32, note: &mut impl FnMut(&'static str, Ended)) -> Result<Ours, String> {
    let (end, left) = check::withdraw(ours, id)?;
    note(name(ours, id, end.code), end);
    let (again, last) = check::withdraw(&left, id)?;
    if again.code != end.code || last.lists.numbers != left.lists.numbers {
        return Err(format!("withdraw {id} again: {}, not {}, or a mark", again.code, end.code));
    }
    Ok(last)
}

/// Withdraws some ids and searches what is left.
pub fn withdraw_and_search(
    random: &mut Random,
    ours: &Ours,
    asked: Asked,
    note: &mut impl FnMut(&'static str, Ended),
) -> Result<(), String> {
    let mut left = ours.clone();
    for _ in 0..random.from(1, 6) {
        let id = id(random, &left);
        left = withdraw(&left, id, note)?;
    }
    note("search after withdrawals", check::search(&left, Asked { label: None, other: None, ..asked }, asked.k)?);
    if asked.label.is_some() {
        note("search_filtered after withdrawals", check::search(&left, Asked { other: None, ..asked }, asked.k)?);
    }
    if asked.other.is_some() {
        note("search_both after withdrawals", check::search(&left, asked, asked.k)?);
    }
    Ok(())
}
