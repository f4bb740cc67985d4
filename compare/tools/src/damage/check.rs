//! Each call on a damaged index against the model: always an answer or a refusal, and nothing else changed.
use super::calls::{self, Left, OLD};
use crate::check::layout::{expected, put_one, same_added, same_lists, same_store};
use crate::ffi::{Added, Asked};
use crate::model::refusal::{self, Lent, State};
use crate::model::search::{answer, Sought};
use crate::model::store::View;
use crate::model::tree::{Names, Stored, Tree};
use crate::ours::{Answer, Lists, Ours, STATE};

/// How a call ended: the number that it returned, and whether a NaN came out as a distance or in a centroid.
#[derive(Clone, Copy)]
pub struct Ended {
    pub code: u32,
    pub nan: bool,
}

pub type Checked = Result<Ended, String>;

pub fn ended(code: u32) -> Checked {
    Ok(Ended { code, nan: false })
}

/// Whether the answer lists hold an answer, and behind it what they held; none: only what they held.
fn holds(left: &Left, answer: Option<&Answer>) -> bool {
    let hits: &[(u32, f32)] = answer.map_or(&[], |a| &a.hits);
    let numbers = answer.map_or([OLD.2; 3], |a| [a.hits.len(), a.opened, usize::from(a.whole)]);
    let id = |i: usize| hits.get(i).map_or(OLD.0, |hit| hit.0);
    let bits = |i: usize| hits.get(i).map_or(OLD.1, |hit| hit.1).to_bits();
    left.answer == numbers
        && left.ids.iter().enumerate().all(|(i, &x)| x == id(i))
        && left.distances.iter().enumerate().all(|(i, x)| x.to_bits() == bits(i))
}

/// The code, and for an answer the hits, that documents 01 and 02 define.
pub fn search_result(ours: &Ours, asked: Asked, places: usize) -> (u32, Option<Answer>) {
    let state = State::of(&ours.state);
    if let Some(number) = refusal::search(&state, Lent::of(&ours.lists), asked, places) {
        return (number, None);
    }
    let [label, other] = joined(asked);
    let view = View { state, store: ours.lists.lend() };
    match view.walk(asked.query, Sought::of(label.as_deref(), other.as_deref())) {
        Ok(walk) => (0, Some(answer(&walk, asked.k, |vector| view.live(vector)))),
        Err(_) => (15, None),
    }
}

/// The names that are searched for.
pub fn joined(asked: Asked) -> [Option<Vec<u8>>; 2] {
    [asked.label, asked.other].map(|name| name.map(|name| name.joined()))
}

pub fn search(ours: &Ours, asked: Asked, places: usize) -> Checked {
    let (code, answer) = search_result(ours, asked, places);
    let left = calls::search(ours, asked, places)?;
    let (before, after) = (&ours.lists, &left.ours.lists);
    let free = if code == 0 || code == 15 { State::of(&ours.state).shape.work() } else { 0 };
    let kept = left.ours.state == ours.state && same_lists(before, after) && before.work[free..] == after.work[free..];
    if left.code != code || !holds(&left, answer.as_ref()) {
        return Err(format!("search: {} {:?}, not {code} {answer:?}", left.code, left.answer));
    }
    if !kept {
        return Err(format!("search {code}: a list changed"));
    }
    let nan = answer.is_some_and(|answer| answer.hits.iter().any(|hit| hit.1.is_nan()));
    Ok(Ended { code, nan })
}

/// What the lists hold, up to the counts.
fn stored(state: &State, lists: &Lists) -> Stored {
    let s = &state.shape;
    let d = s.dimension;
    let of_entries = |at: usize| lists.numbers[at..at + state.entries].iter().map(|&x| x as usize).collect();
    Stored {
        ids: lists.numbers[..state.vectors].to_vec(),
        vectors: (0..state.vectors).map(|i| lists.floats[i * d..i * d + d].to_vec()).collect(),
        owners: of_entries(s.vectors),
        hashes: lists.hashes[..state.entries].to_vec(),
        names: Names { starts: of_entries(s.starts()), lengths: of_entries(s.lengths()), text: lists.text[..state.bytes].to_vec() },
    }
}

/// A build that no row before 15 refuses, of an index that is not built.
fn check_made(ours: &Ours, left: &Left) -> Checked {
    let state = State::of(&ours.state);
    let shape = &state.shape;
    let held = stored(&state, &ours.lists);
    let (before, after) = (&ours.lists, &left.ours.lists);
    if held.owners.iter().any(|&owner| owner >= state.vectors) {
        let free = shape.work();
        let kept = same_lists(before, after) && before.work[free..] == after.work[free..];
        return if kept { ended(15) } else { Err("build 15: a list changed".into()) };
    }
    let tree = Tree::over(shape, held);
    if tree.nodes.len() > shape.nodes {
        return if same_added(shape, before, after) { ended(13) } else { Err("build 13: a list changed".into()) };
    }
    if !same_store(shape, &expected(&tree, shape, before.clone(), true), after) {
        return Err("build: the store differs from the model".into());
    }
    if left.ours.state[10..12] != [tree.nodes.len(), 1] {
        return Err("build: nodes or the built flag".into());
    }
    let nan = tree.nodes.iter().any(|node| node.centroid.iter().any(|x| x.is_nan()));
    Ok(Ended { code: 0, nan })
}

pub fn build(ours: &Ours) -> Checked {
    let left = calls::build(ours)?;
    let state = State::of(&ours.state);
    let end = match refusal::build(&state, Lent::of(&ours.lists)) {
        None if state.built == 0 => check_made(ours, &left)?,
        refused => {
            if !same_lists(&ours.lists, &left.ours.lists) || ours.lists.work != left.ours.lists.work {
                return Err("build: a list changed".into());
            }
            ended(refused.unwrap_or(0))?
        }
    };
    let code = end.code;
    let mut numbers = ours.state;
    if code == 0 {
        numbers[10..12].copy_from_slice(&left.ours.state[10..12]);
    }
    if left.code != code || left.ours.state != numbers {
        return Err(format!("build: {}, not {code}, or the state", left.code));
    }
    Ok(end)
}

pub fn add(ours: &Ours, added: &Added) -> Checked {
    let left = calls::add(ours, added)?;
    let state = State::of(&ours.state);
    let refused = refusal::add(&state, Lent::of(&ours.lists), added);
    let (mut numbers, mut lists) = (ours.state, ours.lists.clone());
    if refused.is_none() {
        numbers[8] += 1;
        numbers[9] += added.labels();
        numbers[13] += added.bytes.len();
        put_one(&state, &mut lists, added);
    }
    let code = refused.unwrap_or(0);
    if left.code != code || left.ours.state != numbers || !same_lists(&lists, &left.ours.lists) {
        return Err(format!("add: {}, not {code}, or the state, or a list", left.code));
    }
    ended(code)
}

/// The number that document 02 defines for a taking back, and the state after it.
pub fn take_back_result(ours: &Ours) -> (u32, [usize; STATE]) {
    let mut numbers = ours.state;
    let state = State::of(&numbers);
    let refused = refusal::take_back(&state, Lent::of(&ours.lists));
    if refused.is_none() {
        numbers[8] -= 1;
        let view = View { state, store: ours.lists.lend() };
        numbers[9] -= view.taken_back();
        numbers[13] = view.bytes_left();
    }
    (refused.unwrap_or(0), numbers)
}

/// The number that document 02 defines for a withdrawal, and the numbers of the store after it.
pub fn withdraw_result(ours: &Ours, id: u32) -> (u32, Vec<u32>) {
    let state = State::of(&ours.state);
    let view = View { state, store: ours.lists.lend() };
    let refused = refusal::withdraw(&state, Lent::of(&ours.lists), || !view.with_id(id).is_empty());
    let mut numbers = ours.lists.numbers.clone();
    if refused.is_none() {
        view.with_id(id).into_iter().for_each(|vector| numbers[state.shape.live() + vector] = 0);
    }
    (refused.unwrap_or(0), numbers)
}

/// A withdrawal, and what it left.
pub fn withdraw(ours: &Ours, id: u32) -> Result<(Ended, Ours), String> {
    let left = calls::withdraw(ours, id)?;
    let (code, numbers) = withdraw_result(ours, id);
    let lists = Lists { numbers, ..ours.lists.clone() };
    if left.code != code || left.ours.state != ours.state {
        return Err(format!("withdraw {id}: {}, not {code}, or the state", left.code));
    }
    if !same_lists(&lists, &left.ours.lists) || lists.work != left.ours.lists.work {
        return Err(format!("withdraw {id}, {code}: a list differs from the model"));
    }
    Ok((ended(code)?, left.ours))
}

/// A taking back, and what it left.
pub fn take_back(ours: &Ours) -> Result<(Ended, Ours), String> {
    let left = calls::take_back(ours)?;
    let (code, numbers) = take_back_result(ours);
    if left.code != code || left.ours.state != numbers {
        return Err(format!("take back: {} {:?}, not {code} {numbers:?}", left.code, left.ours.state));
    }
    if !same_lists(&ours.lists, &left.ours.lists) || ours.lists.work != left.ours.lists.work {
        return Err(format!("take back {code}: a list changed"));
    }
    Ok((ended(code)?, left.ours))
}
