//! Filters that pool (K6 of document 02), as a caller reads a built store: six numbers and links of a node, four words of a filter.
use crate::ffi;
use crate::ours::Ours;

fn filter(ours: &Ours, node: usize) -> &[u64] {
    let at = ours.shape().entries + 4 * node;
    &ours.lists.hashes[at..at + 4]
}

fn children(ours: &Ours, node: usize) -> Vec<usize> {
    let shape = ours.shape();
    let table = 2 * shape.vectors + shape.entries;
    let number = |at: usize| ours.lists.numbers[at] as usize;
    let (start, count) = (number(table + 6 * node), number(table + 6 * node + 1));
    (0..count).map(|i| number(table + 6 * shape.nodes + start + i)).collect()
}

/// The first node with children whose filter is not the or of theirs, or not what `curator_pool` makes of them.
pub fn unpooled(ours: &Ours) -> Option<usize> {
    (0..ours.state[10]).find(|&node| {
        let children = children(ours, node);
        let (mut or, mut pool) = ([0; 4], [0; 4]);
        for &child in &children {
            let words = filter(ours, child);
            or = std::array::from_fn(|word| or[word] | words[word]);
            if ffi::pool(&mut pool, words) != 0 {
                return true;
            }
        }
        !children.is_empty() && (filter(ours, node) != or || pool != or)
    })
}
