//! The functions of the static library over slices. Each returns 0, or the number of the refusal (documents 01 and 02).
use crate::c;
use crate::ours::Shape;
use crate::parting::Name;

/// The store, for the calls that read it.
#[derive(Clone, Copy)]
pub struct Store<'a> {
    pub floats: &'a [f32],
    pub numbers: &'a [u32],
    pub hashes: &'a [u64],
    pub text: &'a [u8],
}

/// The store, for the calls that write it.
pub struct StoreMut<'a> {
    pub floats: &'a mut [f32],
    pub numbers: &'a mut [u32],
    pub hashes: &'a mut [u64],
    pub text: &'a mut [u8],
}

/// What an add is given. `lengths` has two bytes a label, the lengths of its parts, which stand in `bytes` one after the other.
#[derive(Clone, Debug)]
pub struct Added {
    pub id: u32,
    pub vector: Vec<f32>,
    pub lengths: Vec<u8>,
    pub bytes: Vec<u8>,
}

impl Added {
    pub fn labels(&self) -> usize {
        self.lengths.len() / 2
    }
}

/// What a search is given: a label's name where it is filtered, and another's where it is for two labels.
#[derive(Clone, Copy, Debug)]
pub struct Asked<'a> {
    pub query: &'a [f32],
    pub label: Option<Name<'a>>,
    pub other: Option<Name<'a>>,
    pub k: usize,
}

/// The lists that a search fills: ids, distances, and hit count, opened, whole.
pub struct Filled<'a> {
    pub ids: &'a mut [u32],
    pub distances: &'a mut [f32],
    pub answer: &'a mut [usize],
}

pub fn new(shape: Shape, state: &mut [usize]) -> u32 {
    let s = shape;
    let (sp, sl) = (state.as_mut_ptr(), state.len());
    unsafe { c::curator_new(s.dimension, s.branching, s.leaf_size, s.ef, s.beam, s.vectors, s.entries, s.nodes, s.text, sp, sl) }
}

pub fn add(state: &mut [usize], store: StoreMut, added: &Added) -> u32 {
    add_lists(state, store, added.id, &added.vector, &added.lengths, &added.bytes)
}

pub fn add_lists(state: &mut [usize], store: StoreMut, id: u32, vector: &[f32], lengths: &[u8], bytes: &[u8]) -> u32 {
    unsafe {
        c::curator_add(
            state.as_mut_ptr(),
            state.len(),
            store.floats.as_mut_ptr(),
            store.floats.len(),
            store.numbers.as_mut_ptr(),
            store.numbers.len(),
            store.hashes.as_mut_ptr(),
            store.hashes.len(),
            store.text.as_mut_ptr(),
            store.text.len(),
            id,
            vector.as_ptr(),
            vector.len(),
            lengths.as_ptr(),
            lengths.len(),
            bytes.as_ptr(),
            bytes.len(),
        )
    }
}

pub fn take_back(state: &mut [usize], store: Store) -> u32 {
    unsafe {
        c::curator_take_back(
            state.as_mut_ptr(),
            state.len(),
            store.floats.as_ptr(),
            store.floats.len(),
            store.numbers.as_ptr(),
            store.numbers.len(),
            store.hashes.as_ptr(),
            store.hashes.len(),
            store.text.as_ptr(),
            store.text.len(),
        )
    }
}

/// Of the store only the numbers are written.
pub fn withdraw(state: &[usize], store: StoreMut, id: u32) -> u32 {
    unsafe {
        c::curator_withdraw(
            state.as_ptr(),
            state.len(),
            store.floats.as_ptr(),
            store.floats.len(),
            store.numbers.as_mut_ptr(),
            store.numbers.len(),
            store.hashes.as_ptr(),
            store.hashes.len(),
            store.text.as_ptr(),
            store.text.len(),
            id,
        )
    }
}

pub fn build(state: &mut [usize], store: StoreMut, work: &mut [u32]) -> u32 {
    unsafe {
        c::curator_build(
            state.as_mut_ptr(),
            state.len(),
            store.floats.as_mut_ptr(),
            store.floats.len(),
            store.numbers.as_mut_ptr(),
            store.numbers.len(),
            store.hashes.as_mut_ptr(),
            store.hashes.len(),
            store.text.as_ptr(),
            store.text.len(),
            work.as_mut_ptr(),
            work.len(),
        )
    }
}

#[rustfmt::skip]
pub fn search(state: &[usize], store: Store, work: &mut [u32], asked: Asked, filled: Filled) -> u32 {
    let (sp, sl) = (state.as_ptr(), state.len());
    let (fp, fl) = (store.floats.as_ptr(), store.floats.len());
    let (np, nl) = (store.numbers.as_ptr(), store.numbers.len());
    let (hp, hl) = (store.hashes.as_ptr(), store.hashes.len());
    let (tp, tl) = (store.text.as_ptr(), store.text.len());
    let (wp, wl) = (work.as_mut_ptr(), work.len());
    let (qp, ql) = (asked.query.as_ptr(), asked.query.len());
    let (ip, il) = (filled.ids.as_mut_ptr(), filled.ids.len());
    let (dp, dl) = (filled.distances.as_mut_ptr(), filled.distances.len());
    let (ap, al) = (filled.answer.as_mut_ptr(), filled.answer.len());
    let k = asked.k;
    match (asked.label, asked.other) {
        (Some(Name { first: x, second: y }), None) => unsafe {
            c::curator_search_filtered(
                sp, sl, fp, fl, np, nl, hp, hl, tp, tl, wp, wl, qp, ql, x.as_ptr(), x.len(), y.as_ptr(), y.len(), k, ip, il, dp, dl, ap, al,
            )
        },
        (Some(Name { first: x, second: y }), Some(Name { first: v, second: w })) => unsafe {
            c::curator_search_both(
                sp, sl, fp, fl, np, nl, hp, hl, tp, tl, wp, wl, qp, ql, x.as_ptr(), x.len(), y.as_ptr(), y.len(), v.as_ptr(), v.len(), w.as_ptr(), w.len(), k,
                ip, il, dp, dl, ap, al,
            )
        },
        (None, _) => unsafe {
            c::curator_search(sp, sl, fp, fl, np, nl, hp, hl, tp, tl, wp, wl, qp, ql, k, ip, il, dp, dl, ap, al)
        },
    }
}

pub fn pool(filter: &mut [u64], other: &[u64]) -> u32 {
    unsafe { c::curator_pool(filter.as_mut_ptr(), filter.len(), other.as_ptr(), other.len()) }
}

pub fn label_hash(start: u64, bytes: &[u8]) -> u64 {
    unsafe { c::curator_label_hash(start, bytes.as_ptr(), bytes.len()) }
}
