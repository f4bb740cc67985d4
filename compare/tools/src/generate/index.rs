//! Random cases: settings, documents and searches within the limits of document 01.
use super::labels;
use super::pairs;
use super::vectors::Maker;
use crate::case::{Case, Doc, Label, Query};
use crate::model::refusal::MOST_TEXT;
use crate::ours::Shape;
use crate::parting::NAME;
use crate::random::Random;

/// How large a case may become.
#[derive(Clone, Copy)]
pub struct Most {
    pub dimension: usize,
    pub vectors: usize,
    pub entries: usize,
    /// Bytes of a label.
    pub name: usize,
    /// Bytes of all labels.
    pub text: usize,
    /// Whether labels of one hash are among them.
    pub alike: bool,
}

/// The sizes of documents 01 and 02.
pub const WHOLE: Most = Most { dimension: 128, vectors: 4096, entries: 16384, name: NAME, text: MOST_TEXT, alike: true };

/// A case; its capacity of nodes is the largest tree's.
pub fn case(random: &mut Random, most: Most) -> Case {
    let dimension = dimension(random).min(most.dimension);
    let n = size(random).min(most.vectors);
    let maker = Maker::new(random, dimension);
    let pool = labels::pool(random, most.name, most.alike);
    let docs = docs(random, &maker, &pool, n, most);
    let queries = (0..6).map(|_| query(random, &maker, &pool, &docs)).collect();
    let entries: usize = docs.iter().map(|doc: &Doc| doc.labels.len()).sum();
    let mut case = Case { shape: shape(random, dimension, n, entries, most), docs, queries };
    case.shape.text = room_for_text(&case, most.text);
    pairs::put(&mut case, &maker, &pool);
    case
}

/// Room for label text: just enough, a little more, or more. It is drawn from the beam width, so that the other numbers of a case do not hang on it.
fn room_for_text(case: &Case, most: usize) -> usize {
    let mut random = Random::new(case.shape.beam as u64);
    let more = *random.of(&[0, 40, 2000]);
    let bytes = case.bytes();
    random.from(bytes, (bytes + more).min(most))
}

/// Room for nodes: more than needed, just enough, or one too few.
pub fn fit(random: &mut Random, case: &mut Case, nodes: usize) {
    case.shape.nodes = match random.below(20) {
        0 if nodes > 1 => nodes - 1,
        1..=8 => nodes,
        9 => case.shape.nodes,
        _ => nodes + random.below(10).min(65537 - nodes),
    };
}

fn dimension(random: &mut Random) -> usize {
    match random.below(10) {
        0..=4 => random.from(1, 8),
        5..=7 => random.from(9, 32),
        8 => *random.of(&[64, 128]),
        _ => random.from(33, 128),
    }
}

/// The number of vectors: small in most cases.
fn size(random: &mut Random) -> usize {
    match random.below(200) {
        0 if random.one_in(3) => 4096,
        0 => random.from(1500, 4096),
        1..=12 => random.from(300, 1500),
        13..=60 => random.from(40, 300),
        _ => random.from(1, 40),
    }
}

fn docs(random: &mut Random, maker: &Maker, pool: &[Label], n: usize, most: Most) -> Vec<Doc> {
    let repeats = random.one_in(4);
    let ids = ids(random, n);
    let each = random.from(0, 5).min(most.entries / n);
    let mut left = most.text;
    let doc = |id: u32| {
        let (vector, labels) = (maker.vector(random), labels::some(random, pool, each, repeats));
        Doc { id, vector, labels: that_fit(labels, &mut left) }
    };
    ids.into_iter().map(doc).collect()
}

/// The labels whose bytes are not more than those that are left, from which they are taken.
fn that_fit(labels: Vec<Label>, left: &mut usize) -> Vec<Label> {
    let fits = |label: &Label| {
        let rest = left.checked_sub(label.len());
        *left = rest.unwrap_or(*left);
        rest.is_some()
    };
    labels.into_iter().filter(fits).collect()
}

/// Document ids: in order, spread and different, or from a few.
fn ids(random: &mut Random, n: usize) -> Vec<u32> {
    match random.below(4) {
        0 => (0..n as u32).collect(),
        1 => (0..n as u32).map(|i| u32::MAX - i).collect(),
        2 => {
            let factor = random.bits() as u32 | 1;
            (0..n as u32).map(|i| i.wrapping_mul(factor)).collect()
        }
        _ => {
            let few = random.from(1, n + 3);
            (0..n).map(|_| random.below(few) as u32).collect()
        }
    }
}

/// What is asked about: a document's vector, or another.
pub fn heard(random: &mut Random, maker: &Maker, docs: &[Doc]) -> Vec<f32> {
    match random.below(3) {
        0 => random.of(docs).vector.clone(),
        _ => maker.vector(random),
    }
}

/// How many hits are asked for: few, all, or any number.
pub fn limit(random: &mut Random, n: usize) -> usize {
    match random.below(5) {
        0 => random.below(3),
        1 => n + random.below(3),
        2 => 5,
        _ => random.from(0, n),
    }
}

fn query(random: &mut Random, maker: &Maker, pool: &[Label], docs: &[Doc]) -> Query {
    let vector = heard(random, maker, docs);
    let label = match random.below(7) {
        0..=2 => None,
        3 => Some("absent".into()),
        _ => Some(random.of(pool).clone()),
    };
    Query { vector, label, other: None, k: limit(random, docs.len()) }
}

fn shape(random: &mut Random, dimension: usize, n: usize, entries: usize, most: Most) -> Shape {
    let branching = match random.below(3) {
        0 => *random.of(&[1, 2, 3, 4, 16, 64]),
        1 => random.from(2, 9),
        _ => random.from(1, 64),
    };
    let leaf_size = match random.below(4) {
        0 => random.from(0, 3),
        1 => random.from(0, n).min(4096),
        2 => random.from(1, 20),
        _ => *random.of(&[128, 4096, 16, 8]),
    };
    let ef = match random.below(4) {
        0 => random.from(0, 6),
        1 => random.from(0, n + 20),
        2 => 65537,
        _ => 256,
    };
    Shape {
        dimension,
        branching,
        leaf_size,
        ef,
        beam: random.below(65536),
        vectors: random.from(n, (n + 5).min(most.vectors)),
        entries: random.from(entries, (entries + 5).min(most.entries)),
        nodes: 16 * n + 1,
        text: 0,
    }
}
