//! 'Clusters', 'Tree' and 'Entries' of document 01.
use super::label::{hash_bytes, Filter};
use super::number::{distance, mean, normalized};
use crate::case::{Case, Doc, Label};
use crate::ours::Shape;
use crate::parting::joined;

/// A node. A leaf has no children, an inner node no vectors or entries.
#[derive(Debug, Default)]
pub struct Node {
    pub centroid: Vec<f32>,
    pub children: Vec<usize>,
    pub vectors: Vec<usize>,
    pub entries: Vec<usize>,
    pub filter: Filter,
}

/// What a built index holds.
pub struct Tree {
    pub dimension: usize,
    pub ef: usize,
    pub ids: Vec<u32>,
    pub vectors: Vec<Vec<f32>>,
    pub owners: Vec<usize>,
    pub hashes: Vec<u64>,
    pub names: Names,
    pub nodes: Vec<Node>,
}

/// The bytes of the entries' labels (K4 of document 02): one text, and in it start and length of each.
#[derive(Default)]
pub struct Names {
    pub starts: Vec<usize>,
    pub lengths: Vec<usize>,
    pub text: Vec<u8>,
}

impl Names {
    /// The labels one after the other: an entry starts at the bytes before it.
    fn of(labels: &[Label]) -> Names {
        let lengths: Vec<usize> = labels.iter().map(|label| label.len()).collect();
        let starts = (0..labels.len()).scan(0, |next, i| Some(std::mem::replace(next, *next + lengths[i]))).collect();
        Names { starts, lengths, text: joined(labels) }
    }

    /// The bytes of an entry's label.
    pub fn of_entry(&self, entry: usize) -> &[u8] {
        &self.text[self.starts[entry]..][..self.lengths[entry]]
    }
}

/// What the adds have stored.
pub struct Stored {
    pub ids: Vec<u32>,
    pub vectors: Vec<Vec<f32>>,
    pub owners: Vec<usize>,
    pub hashes: Vec<u64>,
    pub names: Names,
}

impl Stored {
    /// Vectors are normalised; entries stand by vector, then label place.
    pub fn of(docs: &[Doc]) -> Stored {
        let labels: Vec<Label> = docs.iter().flat_map(|doc| doc.labels.clone()).collect();
        Stored {
            ids: docs.iter().map(|doc| doc.id).collect(),
            vectors: docs.iter().map(|doc| normalized(&doc.vector)).collect(),
            owners: docs.iter().enumerate().flat_map(|(i, doc)| vec![i; doc.labels.len()]).collect(),
            hashes: labels.iter().map(|label| hash_bytes(label)).collect(),
            names: Names::of(&labels),
        }
    }
}

impl Tree {
    pub fn build(case: &Case) -> Tree {
        Tree::over(&case.shape, Stored::of(&case.docs))
    }

    /// The tree over what is stored.
    pub fn over(shape: &Shape, stored: Stored) -> Tree {
        let Stored { ids, vectors, owners, hashes, names } = stored;
        let nodes = Vec::new();
        let mut tree = Tree { dimension: shape.dimension, ef: shape.ef, ids, vectors, owners, hashes, names, nodes };
        let paths = tree.make_nodes(shape.branching, shape.leaf_size);
        tree.enter(&paths);
        tree
    }

    fn mean_of(&self, ids: &[usize]) -> Vec<f32> {
        mean(ids.iter().map(|&id| &self.vectors[id][..]), self.dimension)
    }

    /// Makes the nodes, parent first; returns for each vector the nodes from the root to its leaf.
    fn make_nodes(&mut self, branching: usize, leaf_size: usize) -> Vec<Vec<usize>> {
        let mut paths = vec![Vec::new(); self.ids.len()];
        let mut waiting = vec![((0..self.ids.len()).collect::<Vec<usize>>(), 0, None)];
        while let Some((ids, depth, parent)) = waiting.pop() {
            let number = self.nodes.len();
            self.nodes.push(Node { centroid: self.mean_of(&ids), ..Node::default() });
            ids.iter().for_each(|&id| paths[id].push(number));
            if let Some(parent) = parent {
                let above: &mut Node = &mut self.nodes[parent];
                above.children.push(number);
            }
            if ids.len() <= leaf_size || depth > 15 {
                self.nodes[number].vectors = ids;
                continue;
            }
            let clusters = self.clusters(&ids, branching.min(ids.len()));
            let full = clusters.into_iter().filter(|cluster| !cluster.is_empty());
            waiting.extend(full.rev().map(|cluster| (cluster, depth + 1, Some(number))));
        }
        paths
    }

    /// Three rounds; the clusters are those of the third assignment.
    fn clusters(&self, ids: &[usize], k: usize) -> Vec<Vec<usize>> {
        let step = ids.len() / k;
        let mut centres: Vec<Vec<f32>> = (0..k).map(|i| self.vectors[ids[i * step]].clone()).collect();
        let mut clusters = Vec::new();
        for _ in 0..3 {
            clusters = vec![Vec::new(); k];
            for &id in ids {
                clusters[nearest(&self.vectors[id], &centres)].push(id);
            }
            for (centre, cluster) in centres.iter_mut().zip(&clusters) {
                if !cluster.is_empty() {
                    *centre = self.mean_of(cluster);
                }
            }
        }
        clusters
    }

    /// Each entry, by number: its hash into every filter from root to leaf, itself into the leaf.
    fn enter(&mut self, paths: &[Vec<usize>]) {
        for (entry, (&owner, &hash)) in self.owners.iter().zip(&self.hashes).enumerate() {
            for &node in &paths[owner] {
                self.nodes[node].filter.insert(hash);
            }
            let leaf = *paths[owner].last().expect("a path");
            self.nodes[leaf].entries.push(entry);
        }
    }
}

/// The first centre with a strictly smaller distance, from infinity; none smaller: 0.
fn nearest(vector: &[f32], centres: &[Vec<f32>]) -> usize {
    let (mut best, mut least) = (0, f32::INFINITY);
    for (i, centre) in centres.iter().enumerate() {
        let d = distance(vector, centre);
        if d < least {
            (best, least) = (i, d);
        }
    }
    best
}
