//! The index as its users call it.

mod common;

use common::{hits, params, worked, SMALL};
use curator::{pool, Capacities, CuratorIndex, CuratorParams, Found, Hit, RetrieveError};

#[test]
fn worked_example() {
    for (ef_search, hit_bits, opened, whole) in [
        (0, &[][..], 0, false),
        (2, &[(7, 0)][..], 2, false),
        (4, &[(7, 0), (9, 0x3ECC_CCCC)][..], 4, false),
        (5, &[(7, 0), (9, 0x3ECC_CCCC)][..], 5, true),
    ] {
        let found = worked(ef_search)
            .find_filtered(&[1.0, 0.0], 4, "a")
            .unwrap();
        assert_eq!(hits(&found), hit_bits);
        assert_eq!((found.opened, found.whole), (opened, whole));
    }
}

#[test]
fn default_settings() {
    assert_eq!(
        CuratorParams::default(),
        CuratorParams {
            branching_factor: 16,
            max_leaf_size: 128,
            ef_search: 256,
            beam_width: 4
        }
    );
    let index = CuratorIndex::new(128, CuratorParams::default()).unwrap();
    assert_eq!(
        (
            index.dimension(),
            index.len(),
            index.is_empty(),
            index.is_built()
        ),
        (128, 0, true, false)
    );
}

#[test]
fn settings_refused() {
    let new = |dimension, params, capacities| {
        CuratorIndex::with_capacities(dimension, params, capacities).map(|_| ())
    };
    let usual = CuratorParams::default();
    assert_eq!(new(0, usual, SMALL), Err(RetrieveError::InvalidDimension));
    assert_eq!(
        new(129, params(0, 0, 0), SMALL),
        Err(RetrieveError::InvalidDimension)
    );
    assert_eq!(
        new(2, params(0, 1, 1), SMALL),
        Err(RetrieveError::InvalidConfig)
    );
    assert_eq!(
        new(2, params(65, 1, 1), SMALL),
        Err(RetrieveError::InvalidConfig)
    );
    assert_eq!(
        new(
            2,
            usual,
            Capacities {
                vectors: usize::MAX,
                ..SMALL
            }
        ),
        Err(RetrieveError::InvalidConfig)
    );
    assert_eq!(
        new(2, usual, Capacities { nodes: 0, ..SMALL }),
        Err(RetrieveError::InvalidConfig)
    );
    for (text, answer) in [
        (0, Ok(())),
        (4_177_920, Ok(())),
        (4_177_921, Err(RetrieveError::InvalidConfig)),
        (usize::MAX, Err(RetrieveError::InvalidConfig)),
    ] {
        assert_eq!(new(2, usual, Capacities { text, ..SMALL }), answer);
    }
    assert_eq!(
        new(
            2,
            CuratorParams {
                beam_width: 65_536,
                ..usual
            },
            SMALL
        ),
        Err(RetrieveError::InvalidConfig)
    );
    assert_eq!(
        new(128, params(64, 4_096, 65_537), Capacities::default()),
        Ok(())
    );
}

#[test]
fn calls_refused() {
    let mut index = CuratorIndex::with_capacities(2, params(2, 1, 5), SMALL).unwrap();
    assert_eq!(index.build(), Err(RetrieveError::EmptyIndex));
    assert_eq!(index.search(&[1.0, 0.0], 1), Err(RetrieveError::NotBuilt));
    assert_eq!(
        index.add(1, &[1.0], &[]),
        Err(RetrieveError::DimensionMismatch)
    );
    assert_eq!(
        index.add(1, &[], &[]),
        Err(RetrieveError::DimensionMismatch)
    );
    assert_eq!(
        index.add(1, &[1.0, f32::NAN], &[]),
        Err(RetrieveError::NonFiniteInput)
    );
    assert_eq!(
        index.add(1, &[1.0, 0.0], &["", &"x".repeat(511)]),
        Err(RetrieveError::LabelTooLong)
    );
    assert_eq!(
        index.add(1, &[1.0, 0.0], &["a"; 9]),
        Err(RetrieveError::EntriesFull)
    );
    assert!(index.is_empty());
    for id in 0..4 {
        index.add(id, &[1.0, id as f32], &["a", "b"]).unwrap();
    }
    assert_eq!(
        index.add(4, &[1.0, 0.0], &[]),
        Err(RetrieveError::VectorsFull)
    );
    assert_eq!(index.len(), 4);
    index.build().unwrap();
    index.build().unwrap();
    assert!(index.is_built());
    assert_eq!(
        index.add(4, &[1.0, 0.0], &[]),
        Err(RetrieveError::AlreadyBuilt)
    );
    assert_eq!(
        index.search(&[1.0], 1),
        Err(RetrieveError::DimensionMismatch)
    );
    assert_eq!(
        index.search_filtered(&[1.0, f32::INFINITY], 1, "a"),
        Err(RetrieveError::NonFiniteInput)
    );
}

/// The squares of (1e30, -1e30) overflow: it is taken and stored as zeros, at distance 1 from every query. An echo that is not finite is refused.
#[test]
fn squares_that_overflow() {
    let mut index = CuratorIndex::with_capacities(2, params(2, 1, 17), SMALL).unwrap();
    for echo in [[f32::NAN, 0.0], [0.0, f32::NEG_INFINITY]] {
        assert_eq!(
            index.add(6, &echo, &["a"]),
            Err(RetrieveError::NonFiniteInput)
        );
    }
    assert!(index.is_empty());
    index.add(7, &[1e30, -1e30], &["a"]).unwrap();
    index.build().unwrap();
    assert_eq!(
        index.search_filtered(&[0.6, 0.8], 1, "a").unwrap(),
        [(7, 1.0)]
    );
    assert_eq!(index.search(&[1e30, -1e30], 1).unwrap(), [(7, 1.0)]);
}

/// One vector and leaf size 0: 17 nodes. With more room the same index can be built later.
#[test]
fn nodes_full() {
    let mut index = CuratorIndex::with_capacities(2, params(2, 0, 17), SMALL).unwrap();
    index.add(1, &[1.0, 0.0], &["a"]).unwrap();
    assert_eq!(index.build(), Err(RetrieveError::NodesFull));
    assert!(!index.is_built());
    let mut index =
        CuratorIndex::with_capacities(2, params(2, 0, 17), Capacities { nodes: 17, ..SMALL })
            .unwrap();
    index.add(1, &[1.0, 0.0], &["a"]).unwrap();
    index.build().unwrap();
    assert_eq!(
        index.find(&[1.0, 0.0], 1).unwrap(),
        Found {
            hits: vec![Hit {
                id: 1,
                distance: 0.0
            }],
            opened: 17,
            whole: true
        }
    );
}

#[test]
fn labels() {
    let long = "x".repeat(510);
    let mut index = CuratorIndex::with_capacities(2, CuratorParams::default(), SMALL).unwrap();
    index.add(1, &[1.0, 0.0], &[]).unwrap();
    index.add(2, &[1.0, 1.0], &["", "grün"]).unwrap();
    index.add(3, &[0.0, 1.0], &[&long, "grün"]).unwrap();
    index.build().unwrap();
    let ids = |label: &str| -> Vec<u32> {
        index
            .search_filtered(&[1.0, 0.0], 4, label)
            .unwrap()
            .iter()
            .map(|hit| hit.0)
            .collect()
    };
    assert_eq!(ids(""), [2]);
    assert_eq!(ids("grün"), [2, 3]);
    assert_eq!(ids(&long), [3]);
    assert_eq!(ids("gr"), []);
    assert_eq!(index.search(&[1.0, 0.0], 4).unwrap().len(), 3);
}

#[test]
fn any_k() {
    let index = worked(5);
    assert_eq!(index.search(&[1.0, 0.0], 0).unwrap(), []);
    assert_eq!(index.search(&[1.0, 0.0], 1).unwrap().len(), 1);
    assert_eq!(index.search(&[1.0, 0.0], usize::MAX).unwrap().len(), 3);
    assert_eq!(
        index
            .search_filtered(&[1.0, 0.0], usize::MAX, "a")
            .unwrap()
            .len(),
        2
    );
}

/// A number from 0 to 1, always the same ones.
fn numbers(mut seed: u64) -> impl FnMut() -> f32 {
    move || {
        seed = seed
            .wrapping_mul(6364136223846793005)
            .wrapping_add(1442695040888963407);
        (seed >> 40) as f32 / (1u64 << 24) as f32
    }
}

fn normalized(vector: &[f32]) -> Vec<f32> {
    let mut squares = 0.0;
    for x in vector {
        squares += x * x;
    }
    let norm: f32 = f32::sqrt(squares);
    vector.iter().map(|x| x / norm).collect()
}

fn distance(a: &[f32], b: &[f32]) -> f32 {
    let mut sum = 0.0;
    for (x, y) in a.iter().zip(b) {
        sum += x * y;
    }
    1.0 - sum
}

/// A budget of all nodes gives a whole answer: the nearest of those with the label, by plain comparison with every vector. Two of the
/// labels have one hash.
#[test]
fn whole_answers() {
    let mut number = numbers(7);
    let names = ["free", "77kepQFQ8Kl", "leaf", "!0IC=VloaY"];
    let params = CuratorParams {
        ef_search: 65_537,
        max_leaf_size: 8,
        branching_factor: 4,
        beam_width: 4,
    };
    let mut index = CuratorIndex::new(8, params).unwrap();
    let mut lines = Vec::new();
    for id in 0..500 {
        let vector: Vec<f32> = (0..8).map(|_| number() - 0.5).collect();
        let first = (number() * 4.0) as usize % 4;
        let labels = [names[first], names[(first + 1) % 4]];
        index
            .add(id, &vector, &labels[..1 + id as usize % 2])
            .unwrap();
        lines.push((
            id,
            normalized(&vector),
            labels[..1 + id as usize % 2].to_vec(),
        ));
    }
    index.build().unwrap();
    for round in 0..40 {
        let query: Vec<f32> = (0..8).map(|_| number() - 0.5).collect();
        let from = normalized(&query);
        let label = names[round % 4];
        let expected = |wanted: &dyn Fn(&[&str]) -> bool| {
            let mut all: Vec<Hit> = lines
                .iter()
                .filter(|line| wanted(&line.2))
                .map(|line| Hit {
                    id: line.0,
                    distance: distance(&from, &line.1),
                })
                .collect();
            all.sort_by(|a, b| a.distance.total_cmp(&b.distance).then(a.id.cmp(&b.id)));
            all.truncate(10);
            all
        };
        let found = index.find_filtered(&query, 10, label).unwrap();
        assert!(found.whole);
        assert_eq!(found.hits, expected(&|labels| labels.contains(&label)));
        let found = index.find(&query, 10).unwrap();
        assert!(found.whole);
        assert_eq!(found.hits, expected(&|_| true));
    }
}

#[test]
fn searches_of_several_threads() {
    let index = worked(5);
    let larger = CuratorIndex::new(2, CuratorParams::default()).unwrap();
    std::thread::scope(|scope| {
        for _ in 0..4 {
            scope.spawn(|| {
                for _ in 0..100 {
                    assert_eq!(index.search_filtered(&[1.0, 0.0], 4, "a").unwrap()[1].0, 9);
                    assert_eq!(larger.search(&[1.0, 0.0], 4), Err(RetrieveError::NotBuilt));
                }
            });
        }
    });
}

/// A copy goes its own way.
#[test]
fn a_copy() {
    let mut index = CuratorIndex::with_capacities(2, CuratorParams::default(), SMALL).unwrap();
    index.add(1, &[1.0, 0.0], &["a"]).unwrap();
    let mut other = index.clone();
    other.add(2, &[0.0, 1.0], &["a"]).unwrap();
    index.build().unwrap();
    other.build().unwrap();
    assert_eq!((index.len(), other.len()), (1, 2));
    assert_eq!(
        index.search_filtered(&[0.0, 1.0], 4, "a").unwrap(),
        [(1, 1.0)]
    );
    assert_eq!(
        other.search_filtered(&[0.0, 1.0], 4, "a").unwrap(),
        [(2, 0.0), (1, 1.0)]
    );
}

/// Two gateways' filters, pooled either way, are the filter of an index that holds what both hold.
#[test]
fn pooled_filters() {
    let north = [(1, [1.0, 0.0], "a"), (2, [0.5, 1.0], "kerb-7")];
    let south = [(3, [0.0, 2.0], "b"), (4, [3.0, 4.0], "a")];
    let filter = |parts: &[&[(u32, [f32; 2], &str)]]| {
        let mut index = CuratorIndex::with_capacities(2, params(2, 1, 5), SMALL).unwrap();
        assert_eq!(index.filter(), Err(RetrieveError::NotBuilt));
        for (id, vector, label) in parts.concat() {
            index.add(id, &vector, &[label]).unwrap();
        }
        index.build().unwrap();
        index.filter().unwrap()
    };
    let (first, second) = (filter(&[&north]), filter(&[&south]));
    assert_ne!(first, second);
    assert_eq!(pool(first, second), filter(&[&north, &south]));
    assert_eq!(pool(second, first), pool(first, second));
    assert_eq!(pool(first, first), first);
    // FNV-1a of `a` is af63dc4c8601ec8c: bits 8c and, by (af63dc4c times 9e3779b9) mod 256, ec
    assert_eq!(filter(&[&north[..1]]), [0, 0, 1 << 0x0c, 1 << 0x2c]);
}
