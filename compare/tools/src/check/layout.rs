//! The store after adds and after a build, place by place ('The store' of document 01), from the model.
use crate::ffi::Added;
use crate::model::label::hash_bytes;
use crate::model::number::normalized;
use crate::model::refusal::State;
use crate::model::tree::Tree;
use crate::ours::{Lists, Shape};

/// Starts and counts of blocks that follow each other; an empty one has start 0.
fn blocks(counts: impl Iterator<Item = usize>) -> Vec<[u32; 2]> {
    let mut next = 0;
    counts
        .map(|count| {
            let start = if count == 0 { 0 } else { next };
            next += count;
            [start as u32, count as u32]
        })
        .collect()
}

fn put<T: Copy>(list: &mut [T], at: usize, values: impl IntoIterator<Item = T>) {
    for (i, value) in values.into_iter().enumerate() {
        list[at + i] = value;
    }
}

fn narrow(list: &[usize]) -> impl Iterator<Item = u32> + '_ {
    list.iter().map(|&x| x as u32)
}

/// What one add writes, which is accepted in a state: label text and, for each label, its start and length behind those held (K4 of document 02), and 1 as
/// the vector's live mark (K10).
pub fn put_one(state: &State, lists: &mut Lists, added: &Added) {
    let s = &state.shape;
    put(&mut lists.floats, state.vectors * s.dimension, normalized(&added.vector));
    lists.numbers[state.vectors] = added.id;
    lists.numbers[s.live() + state.vectors] = 1;
    let mut from = 0;
    for (i, parts) in added.lengths.chunks_exact(2).enumerate() {
        let end = from + usize::from(parts[0]) + usize::from(parts[1]);
        lists.numbers[s.vectors + state.entries + i] = state.vectors as u32;
        lists.hashes[state.entries + i] = hash_bytes(&added.bytes[from..end]);
        lists.numbers[s.starts() + state.entries + i] = (state.bytes + from) as u32;
        lists.numbers[s.lengths() + state.entries + i] = (end - from) as u32;
        from = end;
    }
    put(&mut lists.text, state.bytes, added.bytes.iter().copied());
}

/// The live marks of the vectors held: 1, or 0 where one is withdrawn.
pub fn put_marks(shape: &Shape, lists: &mut Lists, live: &[bool]) {
    put(&mut lists.numbers, shape.live(), live.iter().map(|&live| u32::from(live)));
}

/// What all adds write but for the live marks, which a withdrawal may have written since.
fn put_added(tree: &Tree, shape: &Shape, lists: &mut Lists) {
    put(&mut lists.floats, 0, tree.vectors.concat());
    put(&mut lists.numbers, 0, tree.ids.iter().copied());
    put(&mut lists.numbers, shape.vectors, narrow(&tree.owners));
    put(&mut lists.hashes, 0, tree.hashes.iter().copied());
    put(&mut lists.numbers, shape.starts(), narrow(&tree.names.starts));
    put(&mut lists.numbers, shape.lengths(), narrow(&tree.names.lengths));
    put(&mut lists.text, 0, tree.names.text.iter().copied());
}

/// What build writes.
fn put_built(tree: &Tree, shape: &Shape, lists: &mut Lists) {
    let nodes = &tree.nodes;
    let order = shape.vectors + shape.entries;
    let table = order + shape.vectors;
    let links = table + 6 * shape.nodes;
    let entries = links + shape.nodes;
    let children = blocks(nodes.iter().map(|node| node.children.len()));
    let vectors = blocks(nodes.iter().map(|node| node.vectors.len()));
    let labelled = blocks(nodes.iter().map(|node| node.entries.len()));
    put(&mut lists.floats, shape.dimension * shape.vectors, nodes.iter().flat_map(|node| node.centroid.clone()));
    put(&mut lists.numbers, order, nodes.iter().flat_map(|node| narrow(&node.vectors)));
    for i in 0..nodes.len() {
        put(&mut lists.numbers, table + 6 * i, [children[i], vectors[i], labelled[i]].concat());
    }
    put(&mut lists.numbers, links, nodes.iter().flat_map(|node| narrow(&node.children)));
    put(&mut lists.numbers, entries, nodes.iter().flat_map(|node| narrow(&node.entries)));
    put(&mut lists.hashes, shape.entries, nodes.iter().flat_map(|node| node.filter.0));
}

/// The lists after adds and, if `built`, an accepted build, given the lists before. Places past the counts keep what stands in those.
pub fn expected(tree: &Tree, shape: &Shape, mut lists: Lists, built: bool) -> Lists {
    put_added(tree, shape, &mut lists);
    if built {
        put_built(tree, shape, &mut lists);
    }
    lists
}

/// The bytes of floats.
fn bytes(list: &[f32]) -> &[u8] {
    unsafe { std::slice::from_raw_parts(list.as_ptr().cast(), std::mem::size_of_val(list)) }
}

pub fn same_bits(a: &[f32], b: &[f32]) -> bool {
    bytes(a) == bytes(b)
}

/// Whether every place of the stores is the same.
pub fn same_lists(a: &Lists, b: &Lists) -> bool {
    same_bits(&a.floats, &b.floats) && a.numbers == b.numbers && a.hashes == b.hashes && a.text == b.text
}

/// Whether the stores are the same outside the parts that are free after a build: cluster centres, and the work list.
pub fn same_store(shape: &Shape, a: &Lists, b: &Lists) -> bool {
    let centres = shape.dimension * (shape.vectors + shape.nodes);
    let end = shape.floats();
    let work = shape.work();
    same_bits(&a.floats[..centres], &b.floats[..centres])
        && same_bits(&a.floats[end..], &b.floats[end..])
        && a.numbers == b.numbers
        && a.hashes == b.hashes
        && a.text == b.text
        && a.work[work..] == b.work[work..]
}

/// Whether the stores are the same in the parts that are not free after refusal 13.
pub fn same_added(shape: &Shape, a: &Lists, b: &Lists) -> bool {
    let vectors = shape.dimension * shape.vectors;
    let owners = shape.vectors + shape.entries;
    same_bits(&a.floats[..vectors], &b.floats[..vectors])
        && same_bits(&a.floats[shape.floats()..], &b.floats[shape.floats()..])
        && a.numbers[..owners] == b.numbers[..owners]
        && a.numbers[shape.starts()..] == b.numbers[shape.starts()..]
        && a.hashes[..shape.entries] == b.hashes[..shape.entries]
        && a.hashes[shape.hashes()..] == b.hashes[shape.hashes()..]
        && a.text == b.text
        && a.work[shape.work()..] == b.work[shape.work()..]
}
