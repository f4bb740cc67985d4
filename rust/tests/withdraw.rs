//! Withdrawing a document.

mod common;

use common::{hits, params, worked, SMALL};
use curator::{Capacities, CuratorIndex, RetrieveError};

const NEAR: [f32; 2] = [1.0, 0.0];
const MIDDLE: [f32; 2] = [3.0, 4.0];
const FAR: [f32; 2] = [0.0, 2.0];

/// Withdrawn one by one after the build: others come up, the nodes opened stay, and again at once changes nothing.
#[test]
fn after_the_build() {
    let mut index = worked(5);
    assert_eq!(index.withdraw(10), Err(RetrieveError::UnknownDocument));
    for _ in 0..2 {
        index.withdraw(7).unwrap();
        let found = index.find_filtered(&NEAR, 1, "a").unwrap();
        assert_eq!(hits(&found), [(9, 0x3ECC_CCCC)]);
        assert_eq!((found.opened, found.whole), (5, true));
    }
    assert_eq!(
        hits(&index.find(&NEAR, 4).unwrap()),
        [(9, 0x3ECC_CCCC), (8, 0x3F80_0000)]
    );
    index.withdraw(9).unwrap();
    index.withdraw(8).unwrap();
    let found = index.find(&NEAR, 4).unwrap();
    assert_eq!(
        (&found.hits[..], found.opened, found.whole),
        (&[][..], 5, true)
    );
    assert_eq!(index.len(), 3);
}

/// Before the build: the same answers and the same filter as withdrawn after it.
#[test]
fn before_the_build() {
    let mut index = CuratorIndex::with_capacities(2, params(2, 1, 5), SMALL).unwrap();
    assert_eq!(index.withdraw(7), Err(RetrieveError::UnknownDocument));
    index.add(7, &NEAR, &["a"]).unwrap();
    index.add(8, &FAR, &["b"]).unwrap();
    index.withdraw(7).unwrap();
    index.add(9, &MIDDLE, &["a"]).unwrap();
    index.build().unwrap();
    let mut other = worked(5);
    other.withdraw(7).unwrap();
    assert_eq!(index.find(&NEAR, 4), other.find(&NEAR, 4));
    assert_eq!(
        index.find_filtered(&NEAR, 4, "a"),
        other.find_filtered(&NEAR, 4, "a")
    );
    assert_eq!(
        hits(&index.find_filtered(&NEAR, 4, "a").unwrap()),
        [(9, 0x3ECC_CCCC)]
    );
    assert_eq!(index.filter(), other.filter());
}

/// Document 5, withdrawn and taught again, and 6: the hits from the near echo.
fn again(first: [f32; 2], second: [f32; 2], other: [f32; 2]) -> Vec<u32> {
    let mut index = CuratorIndex::with_capacities(2, params(2, 8, 5), SMALL).unwrap();
    index.add(5, &first, &[]).unwrap();
    index.withdraw(5).unwrap();
    index.add(5, &second, &[]).unwrap();
    index.add(6, &other, &[]).unwrap();
    index.build().unwrap();
    let found = index.search(&NEAR, 4).unwrap();
    found.iter().map(|hit| hit.0).collect()
}

/// An id that is taught again is found, unless its withdrawn vector stands directly before it.
#[test]
fn taught_again() {
    assert_eq!(again(FAR, NEAR, MIDDLE), [5, 6]);
    assert_eq!(again(NEAR, FAR, MIDDLE), [6, 5]);
    assert_eq!(again(NEAR, MIDDLE, FAR), [6]);
    assert_eq!(again(NEAR, NEAR, MIDDLE), [6]);
}

/// A vector that is taken back takes its mark along: the next add is live, and an id that is not held any more is unknown.
#[test]
fn taken_back() {
    let mut index = CuratorIndex::with_capacities(2, params(2, 1, 5), SMALL).unwrap();
    index.add(7, &NEAR, &[]).unwrap();
    index.withdraw(7).unwrap();
    index.take_back().unwrap();
    assert_eq!(index.withdraw(7), Err(RetrieveError::UnknownDocument));
    index.add(8, &NEAR, &[]).unwrap();
    index.build().unwrap();
    assert_eq!(index.search(&NEAR, 4).unwrap(), [(8, 0.0)]);
}

/// Every vector of the id, and no other: of 300 documents on 600 vectors every third is withdrawn.
#[test]
fn many() {
    let capacities = Capacities {
        vectors: 600,
        entries: 600,
        nodes: 2400,
        text: 600,
    };
    let mut index = CuratorIndex::with_capacities(2, params(4, 8, 2400), capacities).unwrap();
    let echo = |i: u32| [(i % 37) as f32 - 18.0, (i % 41) as f32 - 20.5];
    for i in 0..600 {
        index.add(i % 300, &echo(i), &["a"]).unwrap();
    }
    index.build().unwrap();
    let all = index.search_filtered(&NEAR, 600, "a").unwrap();
    for id in (0..300).step_by(3) {
        index.withdraw(id).unwrap();
    }
    let live: Vec<_> = all.into_iter().filter(|hit| hit.0 % 3 != 0).collect();
    for k in [0, 1, 7, 30, 600] {
        let first = &live[..k.min(live.len())];
        assert_eq!(index.search_filtered(&NEAR, k, "a").unwrap(), first);
        assert_eq!(index.search(&NEAR, k).unwrap(), first);
    }
    assert!(live.len() > 300);
}
