//! The inputs of the benchmark: the same for both sides.
use crate::case::{Case, Doc, Label, Query};
use crate::ours::Shape;
use crate::random::Random;

pub const DIMENSION: usize = 64;
pub const LABELS: usize = 20;
pub const K: usize = 5;
pub const QUERIES: usize = 200;

fn label(i: usize) -> Label {
    Label(format!("label:{}", i % LABELS).into())
}

fn vector(random: &mut Random) -> Vec<f32> {
    (0..DIMENSION).map(|_| random.unit()).collect()
}

/// n vectors with `each` different labels of 20; the usual settings but for `ef`.
pub fn case(n: usize, each: usize, ef: usize) -> Case {
    let mut random = Random::new(2026);
    let docs = (0..n).map(|i| {
        let first = random.below(LABELS);
        let labels = (0..each).map(|j| label(first + j * LABELS / each)).collect();
        Doc { id: i as u32, vector: vector(&mut random), labels }
    });
    let docs: Vec<Doc> = docs.collect();
    let queries = (0..QUERIES).map(|i| Query { vector: vector(&mut random), label: Some(label(i)), other: None, k: K }).collect();
    Case { shape: shape(n, each, ef, &docs), docs, queries }
}

/// The same with labels that are drawn for each vector, so that any two of them are on some; each search is for two.
pub fn case_of_pairs(n: usize, each: usize, ef: usize) -> Case {
    let mut random = Random::new(2027);
    let docs: Vec<Doc> = (0..n).map(|i| Doc { id: i as u32, vector: vector(&mut random), labels: drawn(&mut random, each) }).collect();
    let query = |i: usize| {
        let [label, other] = [label(i), label(i + 1 + i / LABELS % (LABELS - 1))].map(Some);
        Query { vector: vector(&mut random), label, other, k: K }
    };
    let queries = (0..QUERIES).map(query).collect();
    Case { shape: shape(n, each, ef, &docs), docs, queries }
}

/// So many different labels.
fn drawn(random: &mut Random, count: usize) -> Vec<Label> {
    let mut labels: Vec<Label> = Vec::new();
    while labels.len() < count {
        let one = label(random.below(LABELS));
        if !labels.contains(&one) {
            labels.push(one);
        }
    }
    labels
}

fn shape(n: usize, each: usize, ef: usize, docs: &[Doc]) -> Shape {
    let (entries, nodes, text) = (n * each, (n / 2).max(32), docs.iter().map(Doc::bytes).sum());
    Shape { dimension: DIMENSION, branching: 16, leaf_size: 128, ef, beam: 4, vectors: n, entries, nodes, text }
}
