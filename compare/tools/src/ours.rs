//! An index of ours with its lists, called through the static library.
use crate::case::Label;
use crate::ffi::{self, Added, Asked, Filled, Store, StoreMut};
use crate::parting::halved;

/// How many numbers a state has.
pub const STATE: usize = 14;

/// Settings and capacities, in the order of the state; that of label text comes behind the counts.
#[derive(Clone, Copy, Debug)]
pub struct Shape {
    pub dimension: usize,
    pub branching: usize,
    pub leaf_size: usize,
    pub ef: usize,
    pub beam: usize,
    pub vectors: usize,
    pub entries: usize,
    pub nodes: usize,
    pub text: usize,
}

impl Shape {
    pub fn floats(&self) -> usize {
        self.dimension * (self.vectors + self.nodes + self.branching)
    }

    pub fn numbers(&self) -> usize {
        self.live() + self.vectors
    }

    /// Where the starts of the entries' labels stand in the numbers, and their lengths.
    pub fn starts(&self) -> usize {
        2 * self.vectors + 2 * self.entries + 7 * self.nodes
    }

    pub fn lengths(&self) -> usize {
        self.starts() + self.entries
    }

    /// Where the live marks of the vectors stand.
    pub fn live(&self) -> usize {
        self.lengths() + self.entries
    }

    pub fn hashes(&self) -> usize {
        self.entries + 4 * self.nodes
    }

    pub fn work(&self) -> usize {
        3 * self.nodes + 3 * self.vectors.max(self.entries)
    }
}

/// The lists that are lent: the store, and the work list.
#[derive(Clone)]
pub struct Lists {
    pub floats: Vec<f32>,
    pub numbers: Vec<u32>,
    pub hashes: Vec<u64>,
    pub text: Vec<u8>,
    pub work: Vec<u32>,
}

impl Lists {
    /// Lists that are longer than needed by `surplus` places and filled with `junk`.
    pub fn new(shape: Shape, junk: u32, surplus: usize) -> Lists {
        let wide = u64::from(junk) << 32 | u64::from(junk);
        Lists {
            floats: vec![f32::from_bits(junk); shape.floats() + surplus],
            numbers: vec![junk; shape.numbers() + surplus],
            hashes: vec![wide; shape.hashes() + surplus],
            text: vec![junk as u8; shape.text + surplus],
            work: vec![junk; shape.work() + surplus],
        }
    }

    /// The store, to be read.
    pub fn lend(&self) -> Store<'_> {
        Store { floats: &self.floats, numbers: &self.numbers, hashes: &self.hashes, text: &self.text }
    }

    /// The store and the work list.
    pub fn lend_mut(&mut self) -> (StoreMut<'_>, &mut [u32]) {
        let store = StoreMut { floats: &mut self.floats, numbers: &mut self.numbers, hashes: &mut self.hashes, text: &mut self.text };
        (store, &mut self.work)
    }
}

/// What a search answers.
#[derive(Clone, Debug)]
pub struct Answer {
    pub hits: Vec<(u32, f32)>,
    pub opened: usize,
    pub whole: bool,
}

/// The state of an index and its lists.
#[derive(Clone)]
pub struct Ours {
    pub state: [usize; STATE],
    pub lists: Lists,
}

impl Ours {
    /// An empty index over lists.
    pub fn new(shape: Shape, lists: Lists) -> Result<Ours, u32> {
        let mut state = [0; STATE];
        done(ffi::new(shape, &mut state)).map(|()| Ours { state, lists })
    }

    /// The settings and capacities of the state.
    pub fn shape(&self) -> Shape {
        let [dimension, branching, leaf_size, ef, beam, vectors, entries, nodes, _, _, _, _, text, _] = self.state;
        Shape { dimension, branching, leaf_size, ef, beam, vectors, entries, nodes, text }
    }

    /// Adds a vector with its labels, each name in two halves.
    pub fn add(&mut self, id: u32, vector: &[f32], labels: &[Label]) -> Result<(), u32> {
        self.give(&halved(id, vector, labels))
    }

    pub fn give(&mut self, added: &Added) -> Result<(), u32> {
        done(ffi::add(&mut self.state, self.lists.lend_mut().0, added))
    }

    /// Takes the last add back.
    pub fn take_back(&mut self) -> Result<(), u32> {
        done(ffi::take_back(&mut self.state, self.lists.lend()))
    }

    /// Withdraws a document id.
    pub fn withdraw(&mut self, id: u32) -> Result<(), u32> {
        done(ffi::withdraw(&self.state, self.lists.lend_mut().0, id))
    }

    pub fn build(&mut self) -> Result<(), u32> {
        let (store, work) = self.lists.lend_mut();
        done(ffi::build(&mut self.state, store, work))
    }

    pub fn search(&mut self, asked: Asked, filled: Filled) -> u32 {
        let lists = &mut self.lists;
        let store = Store { floats: &lists.floats, numbers: &lists.numbers, hashes: &lists.hashes, text: &lists.text };
        ffi::search(&self.state, store, &mut lists.work, asked, filled)
    }
}

/// A returned number: 0 is an answer, any other a refusal.
pub fn done(code: u32) -> Result<(), u32> {
    if code == 0 {
        return Ok(());
    }
    Err(code)
}
