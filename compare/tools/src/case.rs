//! One generated index: settings, capacities, what is added, and the searches.
use crate::ours::Shape;
use std::fmt;
use std::ops::Deref;

/// A label: its bytes.
#[derive(Clone, PartialEq, Eq, PartialOrd, Ord)]
pub struct Label(pub Vec<u8>);

impl Label {
    /// The label as text, if it is that: the original takes no other.
    pub fn text(&self) -> Option<&str> {
        std::str::from_utf8(&self.0).ok()
    }
}

impl From<&str> for Label {
    fn from(text: &str) -> Label {
        Label(text.into())
    }
}

impl Deref for Label {
    type Target = [u8];

    fn deref(&self) -> &[u8] {
        &self.0
    }
}

impl fmt::Debug for Label {
    fn fmt(&self, f: &mut fmt::Formatter<'_>) -> fmt::Result {
        write!(f, "b\"{}\"", self.0.escape_ascii())
    }
}

/// A vector with its document id and labels.
#[derive(Clone, Debug, PartialEq)]
pub struct Doc {
    pub id: u32,
    pub vector: Vec<f32>,
    pub labels: Vec<Label>,
}

impl Doc {
    /// How many bytes its labels have.
    pub fn bytes(&self) -> usize {
        self.labels.iter().map(|label| label.len()).sum()
    }
}

/// A search: filtered where there is a label, for two labels where there is another (K1 of document 02). Another stands beside a label only.
#[derive(Clone, Debug, PartialEq)]
pub struct Query {
    pub vector: Vec<f32>,
    pub label: Option<Label>,
    pub other: Option<Label>,
    pub k: usize,
}

impl Query {
    /// The labels that are searched for.
    pub fn labels(&self) -> impl Iterator<Item = &Label> {
        self.label.iter().chain(&self.other)
    }

    /// The lengths of the names, 0 where there is none.
    pub fn lengths(&self) -> [usize; 2] {
        [&self.label, &self.other].map(|label| label.as_ref().map_or(0, |label| label.len()))
    }

    /// The middle of each name.
    pub fn half(&self) -> [usize; 2] {
        self.lengths().map(|length| length / 2)
    }

    /// The search for the first label alone.
    pub fn alone(&self) -> Query {
        Query { other: None, ..self.clone() }
    }

    /// The search for the two labels in the other order.
    pub fn swapped(&self) -> Query {
        Query { label: self.other.clone(), other: self.label.clone(), ..self.clone() }
    }
}

#[derive(Clone, Debug)]
pub struct Case {
    pub shape: Shape,
    pub docs: Vec<Doc>,
    pub queries: Vec<Query>,
}

impl Case {
    /// How many label entries there are.
    pub fn entries(&self) -> usize {
        self.docs.iter().map(|doc| doc.labels.len()).sum()
    }

    /// How many bytes of label text there are.
    pub fn bytes(&self) -> usize {
        self.docs.iter().map(Doc::bytes).sum()
    }

    /// Whether the document ids are all different.
    pub fn ids_differ(&self) -> bool {
        let mut ids: Vec<u32> = self.docs.iter().map(|doc| doc.id).collect();
        all_different(&mut ids)
    }

    /// Whether the document ids are all different and no label is repeated on a vector.
    pub fn plain(&self) -> bool {
        self.ids_differ() && self.docs.iter().all(|doc| all_different(&mut doc.labels.clone()))
    }

    /// Whether every label of a document is text.
    pub fn has_text_alone(&self) -> bool {
        self.docs.iter().all(|doc| doc.labels.iter().all(|label| label.text().is_some()))
    }
}

fn all_different<T: Ord>(list: &mut [T]) -> bool {
    list.sort_unstable();
    list.windows(2).all(|pair| pair[0] != pair[1])
}
