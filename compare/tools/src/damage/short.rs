//! State and answer lists that are too short for what they are to hold: a state has 14 places, an answer 3.
use super::guard::Guarded;
use crate::ffi::{self, Added, Asked, Filled};
use crate::model::refusal::{self, Lent, State};
use crate::ours::{Ours, STATE};
use crate::parting::Name;

/// The number that a search returns with a state of so many places and an answer list of so many.
fn search(ours: &Ours, asked: Asked, places: usize, state: usize, answer: usize) -> Result<u32, String> {
    let state = Guarded::new(&ours.state[..state]);
    let (mut ids, mut distances) = (Guarded::new(&vec![7; places]), Guarded::new(&vec![7.0; places]));
    let mut answer = Guarded::new(&vec![7; answer]);
    let mut work = ours.lists.work.clone();
    let filled = Filled { ids: ids.get_mut(), distances: distances.get_mut(), answer: answer.get_mut() };
    let code = ffi::search(state.get(), ours.lists.lend(), &mut work, asked, filled);
    let kept = ids.get().iter().all(|&x| x == 7) && distances.get().iter().all(|&x| x == 7.0) && answer.get().iter().all(|&x| x == 7);
    if kept && ids.intact() && distances.intact() && answer.intact() {
        return Ok(code);
    }
    Err("a short list: an answer was written".into())
}

/// A state that is too short is refused with 4 by every call that is given one.
pub fn short_state(ours: &Ours, added: &Added, asked: Asked, places: usize) -> Result<(), String> {
    let mut copy = ours.clone();
    let mut state = Guarded::new(&ours.state[..places]);
    let add = ffi::add(state.get_mut(), copy.lists.lend_mut().0, added);
    let take_back = ffi::take_back(state.get_mut(), copy.lists.lend());
    let withdraw = ffi::withdraw(state.get(), copy.lists.lend_mut().0, added.id);
    let mut work = ours.lists.work.clone();
    let build = ffi::build(state.get_mut(), copy.lists.lend_mut().0, &mut work);
    let name = Name { first: &added.bytes, second: &[] };
    let search = |label, other| search(ours, Asked { label, other, ..asked }, asked.k, places, 3);
    let searches = [search(None, None)?, search(Some(name), None)?, search(Some(name), Some(name))?];
    let codes = [add, take_back, withdraw, build, searches[0], searches[1], searches[2]];
    if codes == [4; 7] && state.get() == &ours.state[..places] && state.intact() {
        return Ok(());
    }
    Err(format!("a state of {places} places: {codes:?}"))
}

/// An answer list that is too short is refused with 14, in its place among the refusals.
pub fn short_answer(ours: &Ours, asked: Asked, places: usize) -> Result<(), String> {
    let lent = Lent::of(&ours.lists);
    let never = Asked { k: usize::MAX, ..asked };
    let expected = refusal::search(&State::of(&ours.state), lent, never, asked.k).unwrap_or(0);
    let code = search(ours, asked, asked.k, STATE, places)?;
    if code == expected {
        return Ok(());
    }
    Err(format!("an answer list of {places} places: {code}, not {expected}"))
}
