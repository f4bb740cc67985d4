//! Settings and capacities of an index.

/// The settings of an index beside its dimension.
#[derive(Clone, Copy, Debug, PartialEq, Eq)]
pub struct CuratorParams {
    /// Children of a node, 1 to 64.
    pub branching_factor: usize,
    /// Vectors of a leaf, 0 to 4,096.
    pub max_leaf_size: usize,
    /// Nodes that a search may open, 0 to 65,537.
    pub ef_search: usize,
    /// 0 to 65,535; kept, and read by no build or search.
    pub beam_width: usize,
}

impl Default for CuratorParams {
    /// The usual settings: 16, 128, 256 and 4.
    fn default() -> Self {
        Self {
            branching_factor: 16,
            max_leaf_size: 128,
            ef_search: 256,
            beam_width: 4,
        }
    }
}

/// How many vectors, label entries, nodes and bytes of label text an index has room for.
#[derive(Clone, Copy, Debug, PartialEq, Eq)]
pub struct Capacities {
    /// 1 to 4,096.
    pub vectors: usize,
    /// 0 to 16,384. A vector has one entry for each of its labels.
    pub entries: usize,
    /// 1 to 65,537.
    pub nodes: usize,
    /// 0 to 4,177,920. A label's bytes are kept for each vector that has it.
    pub text: usize,
}

impl Default for Capacities {
    /// The largest.
    fn default() -> Self {
        Self {
            vectors: 4_096,
            entries: 16_384,
            nodes: 65_537,
            text: 4_177_920,
        }
    }
}
