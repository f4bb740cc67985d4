//! 'Refusals and what they leave' of document 01, with rows 9, 19, 20 and 24 of document 02 (K7, K3, K4, K10): the rows of each call, in their order.
use crate::ffi::{Added, Asked};
use crate::ours::{Lists, Shape};

/// The most bytes of label text that there may be room for.
pub const MOST_TEXT: usize = 4_177_920;

/// A state by its numbers.
#[derive(Clone, Copy)]
pub struct State {
    pub shape: Shape,
    pub vectors: usize,
    pub entries: usize,
    pub nodes: usize,
    pub built: usize,
    /// Of label text.
    pub bytes: usize,
}

impl State {
    pub fn of(list: &[usize]) -> State {
        let [dimension, branching, leaf_size, ef, beam, vectors, entries, nodes] = *list.first_chunk().expect("eight numbers");
        let shape = Shape { dimension, branching, leaf_size, ef, beam, vectors, entries, nodes, text: list[12] };
        State { shape, vectors: list[8], entries: list[9], nodes: list[10], built: list[11], bytes: list[13] }
    }

    /// Row 4 does not hold.
    pub fn sound(&self) -> bool {
        let s = &self.shape;
        let settings =
            (1..=128).contains(&s.dimension) && (1..=64).contains(&s.branching) && s.leaf_size <= 4096 && s.ef <= 65537 && s.beam <= 65535;
        let capacities = (1..=4096).contains(&s.vectors) && s.entries <= 16384 && (1..=65537).contains(&s.nodes) && s.text <= MOST_TEXT;
        let counts = self.vectors <= s.vectors && self.entries <= s.entries && self.nodes <= s.nodes && self.bytes <= s.text;
        let flag = match self.built {
            0 => self.nodes == 0,
            1 => self.vectors > 0 && self.nodes > 0,
            _ => false,
        };
        settings && capacities && counts && flag
    }
}

/// The lengths of the lists that are lent; an add, a taking back or a withdrawal is lent no work list.
#[derive(Clone, Copy)]
pub struct Lent {
    pub floats: usize,
    pub numbers: usize,
    pub hashes: usize,
    pub text: usize,
    pub work: usize,
}

impl Lent {
    pub fn of(lists: &Lists) -> Lent {
        let Lists { floats, numbers, hashes, text, work } = lists;
        Lent { floats: floats.len(), numbers: numbers.len(), hashes: hashes.len(), text: text.len(), work: work.len() }
    }
}

/// Row 3.
fn short(s: &Shape, lent: Lent, with_work: bool) -> bool {
    let store = lent.floats < s.floats() || lent.numbers < s.numbers() || lent.hashes < s.hashes() || lent.text < s.text;
    store || with_work && lent.work < s.work()
}

/// The first row that holds, of rows whose test is only made if no earlier one holds.
macro_rules! first {
    ($($test:expr => $number:expr),* $(,)?) => { $(if $test { return Some($number); })* };
}

fn finite(vector: &[f32]) -> bool {
    vector.iter().all(|x| x.is_finite())
}

pub fn add(state: &State, lent: Lent, added: &Added) -> Option<u32> {
    let sum: usize = added.lengths.iter().map(|&length| usize::from(length)).sum();
    first! {
        !state.sound() => 4,
        short(&state.shape, lent, false) => 3,
        state.built == 1 => 5,
        added.vector.len() != state.shape.dimension => 7,
        !finite(&added.vector) => 8,
        added.lengths.len() % 2 == 1 || sum != added.bytes.len() => 9,
        state.vectors == state.shape.vectors => 10,
        state.entries + added.labels() > state.shape.entries => 11,
        state.bytes + added.bytes.len() > state.shape.text => 20,
    }
    None
}

pub fn take_back(state: &State, lent: Lent) -> Option<u32> {
    first! {
        !state.sound() => 4,
        short(&state.shape, lent, false) => 3,
        state.built == 1 => 5,
        state.vectors == 0 => 19,
    }
    None
}

/// Whether a vector held has the id is only asked where neither 4 nor 3 holds.
pub fn withdraw(state: &State, lent: Lent, held: impl FnOnce() -> bool) -> Option<u32> {
    first! {
        !state.sound() => 4,
        short(&state.shape, lent, false) => 3,
        !held() => 24,
    }
    None
}

/// The rows before 15 and 13; a built index succeeds unchanged after row 3.
pub fn build(state: &State, lent: Lent) -> Option<u32> {
    first! {
        !state.sound() => 4,
        short(&state.shape, lent, true) => 3,
        state.built == 0 && state.vectors == 0 => 12,
    }
    None
}

/// The rows before 15; `places` is the length of the shorter answer list.
pub fn search(state: &State, lent: Lent, asked: Asked, places: usize) -> Option<u32> {
    first! {
        !state.sound() => 4,
        short(&state.shape, lent, true) => 3,
        state.built == 0 => 6,
        asked.query.len() != state.shape.dimension => 7,
        !finite(asked.query) => 8,
        places < asked.k => 14,
    }
    None
}
