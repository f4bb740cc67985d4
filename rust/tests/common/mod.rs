//! What the tests share: small indexes, and hits by their bits.

use curator::{Capacities, CuratorIndex, CuratorParams, Found};

pub const SMALL: Capacities = Capacities {
    vectors: 4,
    entries: 8,
    nodes: 16,
    text: 8 * 510,
};

pub fn params(branching_factor: usize, max_leaf_size: usize, ef_search: usize) -> CuratorParams {
    CuratorParams {
        branching_factor,
        max_leaf_size,
        ef_search,
        beam_width: 4,
    }
}

pub fn hits(found: &Found) -> Vec<(u32, u32)> {
    found
        .hits
        .iter()
        .map(|hit| (hit.id, hit.distance.to_bits()))
        .collect()
}

/// The three vectors of the worked example of document 01.
pub fn worked(ef_search: usize) -> CuratorIndex {
    let mut index = CuratorIndex::with_capacities(2, params(2, 1, ef_search), SMALL).unwrap();
    index.add(7, &[1.0, 0.0], &["a"]).unwrap();
    index.add(8, &[0.0, 2.0], &["b"]).unwrap();
    index.add(9, &[3.0, 4.0], &["a"]).unwrap();
    index.build().unwrap();
    index
}
