//! What a search finds.

/// A hit: a document and its distance from the query.
#[repr(C)]
#[derive(Clone, Copy, Debug, Default, PartialEq)]
pub struct Hit {
    pub id: u32,
    pub distance: f32,
}

/// What a search found.
#[derive(Clone, Debug, PartialEq)]
pub struct Found {
    /// Nearest first.
    pub hits: Vec<Hit>,
    /// How many nodes the search opened.
    pub opened: usize,
    /// Whether the search ended because no node waited; otherwise `ef_search` cut it.
    pub whole: bool,
}

impl Found {
    pub(crate) fn pairs(self) -> Vec<(u32, f32)> {
        self.hits.iter().map(|hit| (hit.id, hit.distance)).collect()
    }
}
