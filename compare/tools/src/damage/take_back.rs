//! Taking back (K3 of document 02) on a damaged index, and again on what that leaves.
use super::check::{self, Ended};
use crate::model::refusal::State;
use crate::model::store::View;
use crate::ours::Ours;

/// What the counts of calls name a taking back: how many entries go, whether an entry that stays has the same owner, and whether entries go and bytes stay.
fn name(ours: &Ours, code: u32) -> &'static str {
    if code != 0 {
        return "take_back";
    }
    let view = View { state: State::of(&ours.state), store: ours.lists.lend() };
    if view.taken_back() > 0 && view.bytes_left() == ours.state[13] && ours.state[13] > 0 {
        return "take_back, the bytes held stay";
    }
    match (view.taken_back(), view.kept_of_last()) {
        (0, false) => "take_back, no entry",
        (0, true) => "take_back, no entry, an earlier one stays",
        (1, false) => "take_back, one entry",
        (1, true) => "take_back, one entry, an earlier one stays",
        (_, false) => "take_back, several entries",
        (_, true) => "take_back, several entries, an earlier one stays",
    }
}

/// Takes back so many times, and notes how each ended.
pub fn take_back(ours: &Ours, times: usize, note: &mut impl FnMut(&'static str, Ended)) -> Result<(), String> {
    let mut ours = ours.clone();
    for _ in 0..times {
        let (end, left) = check::take_back(&ours)?;
        note(name(&ours, end.code), end);
        ours = left;
    }
    Ok(())
}
