//! Lists whose memory is not initialised but for what an index holds. Under a memory checker a call that reads anything else is reported.
use crate::model::refusal::State;
use crate::model::store::View;
use crate::ours::Lists;
use std::alloc::{alloc, dealloc, Layout};

pub struct Bare<T> {
    list: *mut T,
    layout: Layout,
    len: usize,
}

impl<T: Copy> Bare<T> {
    pub fn new(len: usize) -> Bare<T> {
        let layout = Layout::array::<T>(len.max(1)).expect("a layout");
        Bare { list: unsafe { alloc(layout) }.cast(), layout, len }
    }

    /// Copies places from a list.
    fn put(&mut self, from: &[T], at: usize, count: usize) {
        self.get_mut()[at..at + count].copy_from_slice(&from[at..at + count]);
    }

    pub fn get(&self) -> &[T] {
        unsafe { std::slice::from_raw_parts(self.list, self.len) }
    }

    pub fn get_mut(&mut self) -> &mut [T] {
        unsafe { std::slice::from_raw_parts_mut(self.list, self.len) }
    }
}

impl<T> Drop for Bare<T> {
    fn drop(&mut self) {
        unsafe { dealloc(self.list.cast(), self.layout) };
    }
}

/// A store and a work list of which only what is held is initialised.
pub struct BareLists {
    pub floats: Bare<f32>,
    pub numbers: Bare<u32>,
    pub hashes: Bare<u64>,
    pub text: Bare<u8>,
    pub work: Bare<u32>,
}

impl BareLists {
    /// As long as the given lists. Nothing is held where the state is unsound or a list too short.
    pub fn new(state: &State, from: &Lists) -> BareLists {
        BareLists::with(state, from, BareLists::put_held)
    }

    /// Of what is held all but the labels' starts, lengths and bytes, which no search reads that is not filtered.
    pub fn no_labels(state: &State, from: &Lists) -> BareLists {
        BareLists::with(state, from, BareLists::put_unlabelled)
    }

    /// Of what is held all but those and the live marks, which no add or build reads.
    pub fn no_marks(state: &State, from: &Lists) -> BareLists {
        BareLists::with(state, from, BareLists::put_unmarked)
    }

    /// The document ids of what is held, which is all that a withdrawal may read.
    pub fn ids(state: &State, from: &Lists) -> BareLists {
        BareLists::with(state, from, BareLists::put_ids)
    }

    /// Of what is held the owners and the start of the first entry that goes, which is all that a taking back may read.
    pub fn owners(state: &State, from: &Lists) -> BareLists {
        BareLists::with(state, from, BareLists::put_to_take_back)
    }

    fn with(state: &State, from: &Lists, put: fn(&mut BareLists, &State, &Lists)) -> BareLists {
        let mut lists = BareLists {
            floats: Bare::new(from.floats.len()),
            numbers: Bare::new(from.numbers.len()),
            hashes: Bare::new(from.hashes.len()),
            text: Bare::new(from.text.len()),
            work: Bare::new(from.work.len()),
        };
        let s = &state.shape;
        let sound = state.sound() && from.text.len() >= s.text;
        if sound && from.floats.len() >= s.floats() && from.numbers.len() >= s.numbers() && from.hashes.len() >= s.hashes() {
            put(&mut lists, state, from);
        }
        lists
    }

    fn put_ids(&mut self, state: &State, from: &Lists) {
        self.numbers.put(&from.numbers, 0, state.vectors);
    }

    fn put_owners(&mut self, state: &State, from: &Lists) {
        self.numbers.put(&from.numbers, state.shape.vectors, state.entries);
    }

    fn put_to_take_back(&mut self, state: &State, from: &Lists) {
        self.put_owners(state, from);
        let taken = if state.vectors == 0 { 0 } else { View { state: *state, store: from.lend() }.taken_back() };
        if taken > 0 {
            self.numbers.put(&from.numbers, state.shape.starts() + state.entries - taken, 1);
        }
    }

    fn put_held(&mut self, state: &State, from: &Lists) {
        self.put_unlabelled(state, from);
        self.numbers.put(&from.numbers, state.shape.starts(), state.entries);
        self.numbers.put(&from.numbers, state.shape.lengths(), state.entries);
        self.text.put(&from.text, 0, state.bytes);
    }

    fn put_unlabelled(&mut self, state: &State, from: &Lists) {
        self.put_unmarked(state, from);
        self.numbers.put(&from.numbers, state.shape.live(), state.vectors);
    }

    fn put_unmarked(&mut self, state: &State, from: &Lists) {
        let s = &state.shape;
        let (n, e, nodes) = (state.vectors, state.entries, state.nodes);
        let order = s.vectors + s.entries;
        let table = order + s.vectors;
        self.floats.put(&from.floats, 0, n * s.dimension);
        self.put_ids(state, from);
        self.put_owners(state, from);
        self.hashes.put(&from.hashes, 0, e);
        if state.built == 1 {
            self.floats.put(&from.floats, s.vectors * s.dimension, nodes * s.dimension);
            self.numbers.put(&from.numbers, order, n);
            self.numbers.put(&from.numbers, table, 6 * nodes);
            self.numbers.put(&from.numbers, table + 6 * s.nodes, nodes);
            self.numbers.put(&from.numbers, table + 7 * s.nodes, e);
            self.hashes.put(&from.hashes, s.entries, 4 * nodes);
        }
    }
}
