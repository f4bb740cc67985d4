//! The Curator index: nearest vectors among those with a label, over the proved library `curator_c`. A label is its bytes: two names
//! are one label exactly when their bytes are the same.
//!
//! A [`CuratorIndex`] owns the lists that the library's functions are lent. What each function does is stated and
//! proved in the repository's crates; this crate hands lists over and turns numbers into [`Result`]s.
//!
//! # Quick start
//!
//! ```
//! use curator::{CuratorIndex, CuratorParams};
//!
//! # fn main() -> Result<(), curator::RetrieveError> {
//! let mut index = CuratorIndex::new(3, CuratorParams::default())?;
//! index.add(1, &[1.0, 0.0, 0.5], &["kerb-6/silt"])?;
//! index.add(2, &[0.0, 1.0, 0.5], &["kerb-7/silt", "night"])?;
//! index.add(3, &[0.0, 0.5, 2.0], &["kerb-7/silt"])?;
//! index.build()?;
//!
//! let nearest = index.search_filtered(&[0.0, 0.25, 1.0], 5, "kerb-7/silt")?;
//! let ids: Vec<u32> = nearest.iter().map(|hit| hit.0).collect();
//! assert_eq!(ids, [3, 2]);
//! // the same name in two parts
//! assert_eq!(index.search_filtered(&[0.0, 0.25, 1.0], 5, ("kerb-7/", "silt"))?, nearest);
//! # Ok(())
//! # }
//! ```

mod error;
mod filter;
mod found;
mod name;
mod params;
mod sys;

pub use error::RetrieveError;
pub use filter::{pool, Filter};
pub use found::{Found, Hit};
pub use name::{label_hash, Name, LABEL_START};
pub use params::{Capacities, CuratorParams};

use std::cell::RefCell;

/// An index that owns its lists.
#[derive(Clone, Debug)]
pub struct CuratorIndex {
    state: [usize; sys::STATE],
    floats: Vec<f32>,
    numbers: Vec<u32>,
    hashes: Vec<u64>,
    text: Vec<u8>,
}

/// Places of the state.
const DIMENSION: usize = 0;
const VECTORS: usize = 5;
const ENTRIES: usize = 6;
const NODES: usize = 7;
const VECTORS_HELD: usize = 8;
const ENTRIES_HELD: usize = 9;
const BUILT: usize = 11;

/// Lends a work list of a size. It is the thread's own, so that searches of one index may run at the same time.
fn with_work<R>(size: usize, call: impl FnOnce(&mut [u32]) -> R) -> R {
    thread_local! {
        static WORK: RefCell<Vec<u32>> = const { RefCell::new(Vec::new()) };
    }
    WORK.with(|work| {
        let work = &mut *work.borrow_mut();
        if work.len() < size {
            work.resize(size, 0);
        }
        call(&mut work[..size])
    })
}

impl CuratorIndex {
    /// An index with the largest capacities. Memory is asked for zeroed, so the system hands out pages as they are written:
    /// at 128 dimensions 44 MB are reserved. [`CuratorIndex::with_capacities`] takes less.
    pub fn new(dimension: usize, params: CuratorParams) -> Result<Self, RetrieveError> {
        Self::with_capacities(dimension, params, Capacities::default())
    }

    /// An index with room for so many vectors, label entries, nodes and bytes of label text.
    ///
    /// ```
    /// # use curator::{Capacities, CuratorIndex, CuratorParams, RetrieveError};
    /// # fn main() -> Result<(), RetrieveError> {
    /// let capacities = Capacities { vectors: 100, entries: 200, nodes: 400, text: 20 };
    /// let mut index = CuratorIndex::with_capacities(2, CuratorParams::default(), capacities)?;
    /// index.add(1, &[1.0, 0.0], &["kerb-7/silt"])?; // 11 of the 20 bytes
    /// assert_eq!(index.add(2, &[0.0, 1.0], &["kerb-7/silt"]), Err(RetrieveError::TextFull));
    /// index.add(2, &[0.0, 1.0], &["kerb-7/"])?;
    /// # Ok(())
    /// # }
    /// ```
    pub fn with_capacities(
        dimension: usize,
        params: CuratorParams,
        capacities: Capacities,
    ) -> Result<Self, RetrieveError> {
        let mut state = [0; sys::STATE];
        // SAFETY: the pointer and the count are those of `state`, which nothing else refers to.
        let number = unsafe {
            sys::curator_new(
                dimension,
                params.branching_factor,
                params.max_leaf_size,
                params.ef_search,
                params.beam_width,
                capacities.vectors,
                capacities.entries,
                capacities.nodes,
                capacities.text,
                state.as_mut_ptr(),
                state.len(),
            )
        };
        RetrieveError::check(number)?;
        let Capacities {
            vectors,
            entries,
            nodes,
            text,
        } = capacities;
        Ok(Self {
            state,
            floats: vec![0.0; dimension * (vectors + nodes + params.branching_factor)],
            numbers: vec![0; 3 * vectors + 4 * entries + 7 * nodes],
            hashes: vec![0; entries + 4 * nodes],
            text: vec![0; text],
        })
    }

    /// Adds a vector under a document id, with labels of at most 510 bytes each, whose bytes are kept.
    pub fn add(
        &mut self,
        doc_id: u32,
        vector: &[f32],
        labels: &[&str],
    ) -> Result<(), RetrieveError> {
        let names: Vec<Name<'_>> = labels.iter().map(|&label| label.into()).collect();
        self.add_names(doc_id, vector, &names)
    }

    /// [`CuratorIndex::add`], with each label's name in two parts of together at most 510 bytes.
    ///
    /// ```
    /// # use curator::{CuratorIndex, CuratorParams, Name, RetrieveError};
    /// # fn main() -> Result<(), RetrieveError> {
    /// let mut index = CuratorIndex::new(2, CuratorParams::default())?;
    /// index.add_names(1, &[1.0, 0.0], &[Name::new("kerb-7/", "silt")])?;
    /// index.add(2, &[0.0, 1.0], &["kerb-7/silt"])?; // the same label
    /// index.build()?;
    /// assert_eq!(index.search_filtered(&[1.0, 0.0], 5, ("kerb-7", "/silt"))?.len(), 2);
    /// # Ok(())
    /// # }
    /// ```
    pub fn add_names(
        &mut self,
        doc_id: u32,
        vector: &[f32],
        names: &[Name<'_>],
    ) -> Result<(), RetrieveError> {
        let (lengths, bytes) = name::lists(names)?;
        // SAFETY: each pointer and count are those of one list. The lists that are written are fields of `self`, which is
        // borrowed mutably; the others are borrowed, or local, and different from them.
        let number = unsafe {
            sys::curator_add(
                self.state.as_mut_ptr(),
                self.state.len(),
                self.floats.as_mut_ptr(),
                self.floats.len(),
                self.numbers.as_mut_ptr(),
                self.numbers.len(),
                self.hashes.as_mut_ptr(),
                self.hashes.len(),
                self.text.as_mut_ptr(),
                self.text.len(),
                doc_id,
                vector.as_ptr(),
                vector.len(),
                lengths.as_ptr(),
                lengths.len(),
                bytes.as_ptr(),
                bytes.len(),
            )
        };
        RetrieveError::check(number)
    }

    /// Takes the last add back; called again, the one before it. The index then holds what it held before that add. A built index
    /// takes nothing back.
    ///
    /// ```
    /// # use curator::{CuratorIndex, CuratorParams, RetrieveError};
    /// # fn main() -> Result<(), RetrieveError> {
    /// let mut index = CuratorIndex::new(2, CuratorParams::default())?;
    /// index.add(1, &[1.0, 0.0], &["silt"])?;
    /// index.add(2, &[0.5, 0.5], &["silt"])?; // the lid was half open
    /// index.take_back()?;
    /// index.add(2, &[0.0, 1.0], &["silt"])?;
    /// index.build()?;
    /// assert_eq!(index.search(&[0.0, 1.0], 5)?, [(2, 0.0), (1, 1.0)]);
    /// assert_eq!(index.take_back(), Err(RetrieveError::AlreadyBuilt));
    /// # Ok(())
    /// # }
    /// ```
    pub fn take_back(&mut self) -> Result<(), RetrieveError> {
        // SAFETY: each pointer and count are those of one list. The state, which is written, is a field of `self`, which is borrowed
        // mutably; the others are only read.
        let number = unsafe {
            sys::curator_take_back(
                self.state.as_mut_ptr(),
                self.state.len(),
                self.floats.as_ptr(),
                self.floats.len(),
                self.numbers.as_ptr(),
                self.numbers.len(),
                self.hashes.as_ptr(),
                self.hashes.len(),
                self.text.as_ptr(),
                self.text.len(),
            )
        };
        RetrieveError::check(number)
    }

    /// Withdraws a document id, before or after the build: no search gives a vector that has it now. A vector that is added under
    /// the id afterwards is found; a withdrawn vector still hides one of its document that comes directly behind it. Withdrawing
    /// again changes nothing.
    ///
    /// ```
    /// # use curator::{CuratorIndex, CuratorParams, RetrieveError};
    /// # fn main() -> Result<(), RetrieveError> {
    /// let mut index = CuratorIndex::new(2, CuratorParams::default())?;
    /// index.add(1, &[1.0, 0.0], &["silt"])?;
    /// index.add(2, &[0.0, 1.0], &["silt"])?;
    /// index.build()?;
    /// index.withdraw(1)?; // the drain was rebuilt
    /// assert_eq!(index.search(&[1.0, 0.0], 5)?, [(2, 1.0)]);
    /// assert_eq!(index.withdraw(3), Err(RetrieveError::UnknownDocument));
    /// # Ok(())
    /// # }
    /// ```
    pub fn withdraw(&mut self, doc_id: u32) -> Result<(), RetrieveError> {
        // SAFETY: each pointer and count are those of one list. The numbers, which are written, are a field of `self`, which is
        // borrowed mutably; the others are only read.
        let number = unsafe {
            sys::curator_withdraw(
                self.state.as_ptr(),
                self.state.len(),
                self.floats.as_ptr(),
                self.floats.len(),
                self.numbers.as_mut_ptr(),
                self.numbers.len(),
                self.hashes.as_ptr(),
                self.hashes.len(),
                self.text.as_ptr(),
                self.text.len(),
                doc_id,
            )
        };
        RetrieveError::check(number)
    }

    /// Makes the tree of what is held. A built index stays as it is.
    pub fn build(&mut self) -> Result<(), RetrieveError> {
        let number = with_work(self.work_size(), |work| {
            // SAFETY: each pointer and count are those of one list: fields of `self`, which is borrowed mutably, and the work
            // list, which is lent here alone.
            unsafe {
                sys::curator_build(
                    self.state.as_mut_ptr(),
                    self.state.len(),
                    self.floats.as_mut_ptr(),
                    self.floats.len(),
                    self.numbers.as_mut_ptr(),
                    self.numbers.len(),
                    self.hashes.as_mut_ptr(),
                    self.hashes.len(),
                    self.text.as_ptr(),
                    self.text.len(),
                    work.as_mut_ptr(),
                    work.len(),
                )
            }
        });
        RetrieveError::check(number)
    }

    /// The nearest k documents that have a live vector with the label, one that is not withdrawn: document ids and distances, nearest
    /// first. The label's name is given whole, `"kerb-7/silt"`, or in two parts, `("kerb-7/", "silt")`. Labels are told apart by
    /// their bytes, also where their hashes are the same.
    pub fn search_filtered<'a>(
        &self,
        query: &[f32],
        k: usize,
        label: impl Into<Name<'a>>,
    ) -> Result<Vec<(u32, f32)>, RetrieveError> {
        self.find_filtered(query, k, label).map(Found::pairs)
    }

    /// The nearest k documents that have a live vector with both of two labels: document ids and distances, nearest first. The names
    /// are given as in [`CuratorIndex::search_filtered`]; their order makes no difference to a whole answer, and the same label twice is
    /// the search for it.
    ///
    /// ```
    /// # use curator::{CuratorIndex, CuratorParams, RetrieveError};
    /// # fn main() -> Result<(), RetrieveError> {
    /// let mut index = CuratorIndex::new(2, CuratorParams::default())?;
    /// index.add(1, &[1.0, 0.0], &["kerb-6", "silt"])?;
    /// index.add(2, &[0.0, 1.0], &["kerb-7", "silt"])?;
    /// index.add(3, &[1.0, 0.0], &["kerb-7", "roots"])?;
    /// index.build()?;
    /// // silt at kerb-7
    /// assert_eq!(index.search_both(&[1.0, 0.0], 5, "silt", "kerb-7")?, [(2, 1.0)]);
    /// // silt from everywhere
    /// assert_eq!(index.search_filtered(&[1.0, 0.0], 5, "silt")?, [(1, 0.0), (2, 1.0)]);
    /// // a name in two parts
    /// assert_eq!(index.search_both(&[1.0, 0.0], 5, ("kerb-", "7"), "silt")?, [(2, 1.0)]);
    /// # Ok(())
    /// # }
    /// ```
    pub fn search_both<'a, 'b>(
        &self,
        query: &[f32],
        k: usize,
        label: impl Into<Name<'a>>,
        other: impl Into<Name<'b>>,
    ) -> Result<Vec<(u32, f32)>, RetrieveError> {
        self.find_both(query, k, label, other).map(Found::pairs)
    }

    /// The nearest k documents that have a live vector: document ids and distances, nearest first.
    pub fn search(&self, query: &[f32], k: usize) -> Result<Vec<(u32, f32)>, RetrieveError> {
        self.find(query, k).map(Found::pairs)
    }

    /// [`CuratorIndex::search_filtered`], with the count of opened nodes and whether the answer is whole.
    pub fn find_filtered<'a>(
        &self,
        query: &[f32],
        k: usize,
        label: impl Into<Name<'a>>,
    ) -> Result<Found, RetrieveError> {
        let Name { first, second } = label.into();
        let places = k.min(self.state[ENTRIES_HELD]);
        self.found(places, |work, ids, distances, answer| {
            // SAFETY: each pointer and count are those of one list. Those that are written are borrowed mutably here alone.
            unsafe {
                sys::curator_search_filtered(
                    self.state.as_ptr(),
                    self.state.len(),
                    self.floats.as_ptr(),
                    self.floats.len(),
                    self.numbers.as_ptr(),
                    self.numbers.len(),
                    self.hashes.as_ptr(),
                    self.hashes.len(),
                    self.text.as_ptr(),
                    self.text.len(),
                    work.as_mut_ptr(),
                    work.len(),
                    query.as_ptr(),
                    query.len(),
                    first.as_ptr(),
                    first.len(),
                    second.as_ptr(),
                    second.len(),
                    places,
                    ids.as_mut_ptr(),
                    ids.len(),
                    distances.as_mut_ptr(),
                    distances.len(),
                    answer.as_mut_ptr(),
                    answer.len(),
                )
            }
        })
    }

    /// [`CuratorIndex::search_both`], with the count of opened nodes and whether the answer is whole.
    pub fn find_both<'a, 'b>(
        &self,
        query: &[f32],
        k: usize,
        label: impl Into<Name<'a>>,
        other: impl Into<Name<'b>>,
    ) -> Result<Found, RetrieveError> {
        let (one, two) = (label.into(), other.into());
        let places = k.min(self.state[ENTRIES_HELD]);
        self.found(places, |work, ids, distances, answer| {
            // SAFETY: as in `find_filtered`.
            unsafe {
                sys::curator_search_both(
                    self.state.as_ptr(),
                    self.state.len(),
                    self.floats.as_ptr(),
                    self.floats.len(),
                    self.numbers.as_ptr(),
                    self.numbers.len(),
                    self.hashes.as_ptr(),
                    self.hashes.len(),
                    self.text.as_ptr(),
                    self.text.len(),
                    work.as_mut_ptr(),
                    work.len(),
                    query.as_ptr(),
                    query.len(),
                    one.first.as_ptr(),
                    one.first.len(),
                    one.second.as_ptr(),
                    one.second.len(),
                    two.first.as_ptr(),
                    two.first.len(),
                    two.second.as_ptr(),
                    two.second.len(),
                    places,
                    ids.as_mut_ptr(),
                    ids.len(),
                    distances.as_mut_ptr(),
                    distances.len(),
                    answer.as_mut_ptr(),
                    answer.len(),
                )
            }
        })
    }

    /// [`CuratorIndex::search`], with the count of opened nodes and whether the answer is whole.
    pub fn find(&self, query: &[f32], k: usize) -> Result<Found, RetrieveError> {
        let places = k.min(self.state[VECTORS_HELD]);
        self.found(places, |work, ids, distances, answer| {
            // SAFETY: as in `find_filtered`.
            unsafe {
                sys::curator_search(
                    self.state.as_ptr(),
                    self.state.len(),
                    self.floats.as_ptr(),
                    self.floats.len(),
                    self.numbers.as_ptr(),
                    self.numbers.len(),
                    self.hashes.as_ptr(),
                    self.hashes.len(),
                    self.text.as_ptr(),
                    self.text.len(),
                    work.as_mut_ptr(),
                    work.len(),
                    query.as_ptr(),
                    query.len(),
                    places,
                    ids.as_mut_ptr(),
                    ids.len(),
                    distances.as_mut_ptr(),
                    distances.len(),
                    answer.as_mut_ptr(),
                    answer.len(),
                )
            }
        })
    }

    /// How many vectors the index holds, withdrawn ones among them.
    pub fn len(&self) -> usize {
        self.state[VECTORS_HELD]
    }

    /// Whether the index holds no vector.
    pub fn is_empty(&self) -> bool {
        self.len() == 0
    }

    /// The length of a vector.
    pub fn dimension(&self) -> usize {
        self.state[DIMENSION]
    }

    /// Whether the index is built.
    pub fn is_built(&self) -> bool {
        self.state[BUILT] == 1
    }

    /// The filter of all labels that the index holds: the root's. An index that is not built has none.
    pub fn filter(&self) -> Result<Filter, RetrieveError> {
        if !self.is_built() {
            return Err(RetrieveError::NotBuilt);
        }
        let root = self.state[ENTRIES];
        Ok([0, 1, 2, 3].map(|word| self.hashes[root + word]))
    }

    fn work_size(&self) -> usize {
        3 * self.state[NODES] + 3 * self.state[VECTORS].max(self.state[ENTRIES])
    }

    /// Runs a search with lists for so many hits. A search has no more hits than entries, or vectors, are held, so that k is cut to
    /// that number beforehand and the lists stay small.
    fn found(
        &self,
        places: usize,
        search: impl FnOnce(&mut [u32], &mut [u32], &mut [f32], &mut [usize; sys::ANSWER]) -> u32,
    ) -> Result<Found, RetrieveError> {
        let mut ids = vec![0; places];
        let mut distances = vec![0.0; places];
        let mut answer = [0; sys::ANSWER];
        let number = with_work(self.work_size(), |work| {
            search(work, &mut ids, &mut distances, &mut answer)
        });
        RetrieveError::check(number)?;
        let [count, opened, whole] = answer;
        let mut hits = vec![Hit::default(); count];
        // SAFETY: each pointer and count are those of one list. The records are borrowed mutably here alone.
        let number = unsafe {
            sys::curator_hits(
                hits.as_mut_ptr(),
                hits.len(),
                ids.as_ptr(),
                ids.len(),
                distances.as_ptr(),
                distances.len(),
                count,
            )
        };
        RetrieveError::check(number)?;
        Ok(Found {
            hits,
            opened,
            whole: whole == 1,
        })
    }
}
