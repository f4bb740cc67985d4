//! Taking back the last echo.

mod common;

use common::{hits, params, worked, SMALL};
use curator::{CuratorIndex, RetrieveError};

/// Echoes that are taken back are left out of what is held, of answers and of the filter, and an id may be taught again.
#[test]
fn taken_back() {
    let mut index = CuratorIndex::with_capacities(2, params(2, 1, 5), SMALL).unwrap();
    index.add(7, &[1.0, 0.0], &["a"]).unwrap();
    index.add(8, &[0.0, 2.0], &["b"]).unwrap();
    index.add(9, &[1.0, 0.0], &["a", "half open"]).unwrap();
    index.add(10, &[1.0, 1.0], &[]).unwrap();
    index.take_back().unwrap();
    assert_eq!(index.len(), 3);
    index.take_back().unwrap();
    assert_eq!(index.len(), 2);
    index.add(9, &[3.0, 4.0], &["a"]).unwrap();
    index.build().unwrap();

    let query = [1.0, 0.0];
    let (found, all) = (index.find_filtered(&query, 4, "a"), index.find(&query, 4));
    assert_eq!(hits(&found.unwrap()), [(7, 0), (9, 0x3ECC_CCCC)]);
    assert_eq!(all.unwrap().hits.len(), 3);
    assert_eq!(index.search_filtered(&query, 4, "half open").unwrap(), []);
    for label in ["a", "b", "half open"] {
        assert_eq!(
            index.find_filtered(&query, 4, label),
            worked(5).find_filtered(&query, 4, label)
        );
    }
    assert_eq!(index.find(&query, 4), worked(5).find(&query, 4));
    assert_eq!(index.filter(), worked(5).filter());

    assert_eq!(index.take_back(), Err(RetrieveError::AlreadyBuilt));
    assert_eq!((index.len(), index.is_built()), (3, true));
}

/// Every add may be taken back, down to none; then there is room for as much as at first.
#[test]
fn taken_back_to_none() {
    let mut index = CuratorIndex::with_capacities(2, params(2, 1, 5), SMALL).unwrap();
    assert_eq!(index.take_back(), Err(RetrieveError::NoVectorHeld));
    for _ in 0..3 {
        for id in 0..4 {
            index.add(id, &[1.0, id as f32], &["a", "b"]).unwrap();
        }
        assert_eq!(
            index.add(4, &[1.0, 0.0], &[]),
            Err(RetrieveError::VectorsFull)
        );
        for left in (0..4).rev() {
            index.take_back().unwrap();
            assert_eq!(index.len(), left);
        }
        assert_eq!(index.take_back(), Err(RetrieveError::NoVectorHeld));
        assert!(index.is_empty());
        assert_eq!(index.build(), Err(RetrieveError::EmptyIndex));
    }
    index.add(3, &[0.0, 1.0], &["b"]).unwrap();
    index.build().unwrap();
    assert_eq!(index.search(&[0.0, 1.0], 9).unwrap(), [(3, 0.0)]);
    assert_eq!(index.search_filtered(&[0.0, 1.0], 9, "a").unwrap(), []);
}
