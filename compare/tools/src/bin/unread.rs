//! unread SEED COUNT, to be run under a memory checker: calls on damaged indexes in lists that hold nothing past the counts. The checker reports a read
//! of what is not held, and of what lies outside a list.
use tools::case::Label;
use tools::damage::bare::{Bare, BareLists};
use tools::damage::both::pair;
use tools::damage::check::{search_result, take_back_result, withdraw_result};
use tools::damage::make::{to_search_both, to_take_back};
use tools::damage::random_calls::{added, cut_twice, damaged, vector};
use tools::damage::withdraw::id;
use tools::ffi::{self, Asked, Filled, Store, StoreMut};
use tools::model::refusal::State;
use tools::ours::Ours;
use tools::random::Random;

fn store_mut(lists: &mut BareLists) -> (StoreMut<'_>, &mut [u32]) {
    let (floats, numbers) = (lists.floats.get_mut(), lists.numbers.get_mut());
    let store = StoreMut { floats, numbers, hashes: lists.hashes.get_mut(), text: lists.text.get_mut() };
    (store, lists.work.get_mut())
}

/// A search; whether it ends as the model says. Without a label there are no starts, lengths and bytes to be read.
fn search(ours: &Ours, asked: Asked) -> bool {
    let bare = if asked.label.is_some() { BareLists::new } else { BareLists::no_labels };
    let BareLists { floats, numbers, hashes, text, mut work } = bare(&State::of(&ours.state), &ours.lists);
    let store = Store { floats: floats.get(), numbers: numbers.get(), hashes: hashes.get(), text: text.get() };
    let (mut ids, mut distances, mut answer) = (Bare::new(asked.k), Bare::new(asked.k), Bare::new(3));
    let filled = Filled { ids: ids.get_mut(), distances: distances.get_mut(), answer: answer.get_mut() };
    let code = ffi::search(&ours.state, store, work.get_mut(), asked, filled);
    let (expected, hits) = search_result(ours, asked, asked.k);
    let Some(hits) = hits else { return code == expected };
    let same = |i: usize| ids.get()[i] == hits.hits[i].0 && distances.get()[i].to_bits() == hits.hits[i].1.to_bits();
    code == expected && answer.get()[0] == hits.hits.len() && (0..hits.hits.len()).all(same)
}

/// A taking back in lists that hold the owners alone, and the start of the first entry that goes; whether it ends as the model says.
fn take_back(ours: &Ours) -> bool {
    let BareLists { floats, numbers, hashes, text, .. } = BareLists::owners(&State::of(&ours.state), &ours.lists);
    let store = Store { floats: floats.get(), numbers: numbers.get(), hashes: hashes.get(), text: text.get() };
    let mut state = ours.state;
    let code = ffi::take_back(&mut state, store);
    (code, state) == take_back_result(ours)
}

/// A withdrawal in lists that hold the ids alone, no mark either; whether it ends as the model says.
fn withdraw(ours: &Ours, id: u32) -> bool {
    let state = State::of(&ours.state);
    let mut lists = BareLists::ids(&state, &ours.lists);
    let code = ffi::withdraw(&ours.state, store_mut(&mut lists).0, id);
    let (expected, numbers) = withdraw_result(ours, id);
    let written = |vector: &usize| numbers[*vector] == id;
    let zero = |vector: usize| lists.numbers.get()[state.shape.live() + vector] == 0;
    code == expected && (code != 0 || (0..state.vectors).filter(written).all(zero))
}

/// All calls; the built store is read by nobody here. Add and build read no starts, lengths and bytes, and no live marks.
fn calls(random: &mut Random, ours: &Ours, labels: &[Label]) -> bool {
    let held = || BareLists::no_marks(&State::of(&ours.state), &ours.lists);
    let mut state = ours.state;
    ffi::add(&mut state, store_mut(&mut held()).0, &added(random, ours.state[0]));
    let (mut state, mut lists) = (ours.state, held());
    let (store, work) = store_mut(&mut lists);
    ffi::build(&mut state, store, work);
    let query = vector(random, ours.state[0]);
    let all = Asked { query: &query, label: None, other: None, k: random.below(70) };
    let [label, second] = pair(random, labels).map(|label| cut_twice(random, label)[0]);
    let other = to_take_back(random, ours);
    let id = id(random, ours);
    let both = Asked { label, other: second, ..all };
    let searches = [all, Asked { label, ..all }, both, Asked { label, other: label, ..all }];
    let moved = to_search_both(random, ours);
    let changes = take_back(ours) && take_back(&other) && withdraw(ours, id);
    changes && searches.into_iter().all(|asked| search(ours, asked)) && search(&moved, both)
}

fn main() {
    let words: Vec<String> = std::env::args().collect();
    let number = |i: usize, usual: u64| words.get(i).map_or(usual, |w| w.parse().expect("a number"));
    let (seed, count) = (number(1, 1), number(2, 100) as usize);
    let passed = (0..count)
        .filter(|&i| {
            let mut random = Random::of_case(seed, i);
            let (ours, labels) = damaged(&mut random);
            calls(&mut random, &ours, &labels)
        })
        .count();
    println!("{passed} passed, {} failed", count - passed);
    std::process::exit(i32::from(passed < count));
}
