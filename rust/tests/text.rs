//! A label is its bytes.

mod common;

use common::{hits, params, worked, SMALL};
use curator::{label_hash, Capacities, CuratorIndex, Name, RetrieveError, LABEL_START};

/// Labels of one hash, which is 0. The third begins with the second; the last two are equally long.
const ALIKE: [&[u8]; 5] = [
    b"\xd5\x6b\xb9\x53\x42\x87\x08\x36",
    b"77kepQFQ8Kl",
    b"77kepQFQ8Kl\0",
    b"!0IC=VloaY",
    b"QvXtM>@Fp%",
];

fn with_text(text: usize) -> CuratorIndex {
    let capacities = Capacities { text, ..SMALL };
    CuratorIndex::with_capacities(2, params(2, 1, 16), capacities).unwrap()
}

fn ids<'a>(index: &CuratorIndex, label: impl Into<Name<'a>>) -> Vec<u32> {
    let found = index.find_filtered(&[1.0, 0.0], 9, label).unwrap();
    assert!(found.whole);
    found.hits.iter().map(|hit| hit.id).collect()
}

#[test]
fn one_hash() {
    for label in ALIKE {
        assert_eq!(label_hash(LABEL_START, label), 0);
    }
}

/// Two labels of one hash, one by its bytes and one by its letters: a search for one does not find the other.
#[test]
fn two_labels_of_one_hash() {
    let mut index = with_text(64);
    let [bytes, letters] = [Name::from(ALIKE[0]), Name::from("77kepQFQ8Kl")];
    index.add_names(1, &[1.0, 0.0], &[bytes]).unwrap();
    index.add_names(2, &[3.0, 4.0], &[letters]).unwrap();
    index.add_names(3, &[0.0, 1.0], &[letters, bytes]).unwrap();
    index.build().unwrap();
    assert_eq!(ids(&index, bytes), [1, 3]);
    assert_eq!(ids(&index, letters), [2, 3]);
    for other in &ALIKE[2..] {
        assert_eq!(ids(&index, other), []);
    }
}

/// The worked example with labels of one hash in the place of `a` and `b`: the hits are the same.
#[test]
fn worked_example_of_one_hash() {
    let mut index = with_text(32);
    for (id, echo, label) in [
        (7, [1.0, 0.0], ALIKE[3]),
        (8, [0.0, 2.0], ALIKE[4]),
        (9, [3.0, 4.0], ALIKE[3]),
    ] {
        index.add_names(id, &echo, &[label.into()]).unwrap();
    }
    index.build().unwrap();
    for (label, other) in [(ALIKE[3], "a"), (ALIKE[4], "b")] {
        let found = index.find_filtered(&[1.0, 0.0], 4, label).unwrap();
        let expected = worked(5).find_filtered(&[1.0, 0.0], 4, other).unwrap();
        assert_eq!(hits(&found), hits(&expected));
        assert_eq!(found.opened, 5);
    }
}

/// Each of the labels alone, in every parting of the others.
#[test]
fn labels_of_one_hash() {
    let mut index = with_text(64);
    for (id, label) in ALIKE[1..].iter().enumerate() {
        let names = [Name::from(label)];
        index
            .add_names(id as u32, &[1.0, id as f32], &names)
            .unwrap();
    }
    index.build().unwrap();
    for (id, label) in ALIKE[1..].iter().enumerate() {
        for at in 0..=label.len() {
            assert_eq!(ids(&index, (&label[..at], &label[at..])), [id as u32]);
        }
    }
    assert_eq!(ids(&index, ALIKE[0]), []);
    // the filter goes by hash: one label of the five looks like all
    assert_eq!(index.filter().unwrap(), [1, 0, 0, 0]);
}

/// Refused exactly where the bytes do not fit, after the entries, and nothing changes; what is taken back gives its room back.
#[test]
fn text_full() {
    let mut index = with_text(11);
    index.add(1, &[1.0, 0.0], &["silt", "free"]).unwrap();
    let before = format!("{index:?}");
    let too_much = index.add(2, &[0.0, 1.0], &["root"]);
    assert_eq!(too_much, Err(RetrieveError::TextFull));
    let too_many = index.add(2, &[0.0, 1.0], &["root"; 7]);
    assert_eq!(too_many, Err(RetrieveError::EntriesFull));
    assert_eq!(format!("{index:?}"), before);
    index.add(2, &[0.0, 1.0], &["roo"]).unwrap();
    index.add(3, &[0.0, 2.0], &["", ""]).unwrap();
    assert_eq!(
        index.add(4, &[1.0, 1.0], &["r"]),
        Err(RetrieveError::TextFull)
    );
    index.take_back().unwrap();
    index.take_back().unwrap();
    index.add(5, &[0.0, 1.0], &["ro", "o"]).unwrap();
    index.build().unwrap();
    assert_eq!(ids(&index, "silt"), [1]);
    assert_eq!(ids(&index, "ro"), [5]);
    assert_eq!(ids(&index, "roo"), []);
    assert_eq!(ids(&index, ""), []);
}

/// Without room for text there are labels without bytes alone.
#[test]
fn no_text() {
    let mut index = with_text(0);
    assert_eq!(
        index.add(1, &[1.0, 0.0], &["a"]),
        Err(RetrieveError::TextFull)
    );
    index.add(1, &[1.0, 0.0], &[""]).unwrap();
    index.add(2, &[0.0, 1.0], &[]).unwrap();
    index.build().unwrap();
    assert_eq!(ids(&index, ""), [1]);
    assert_eq!(ids(&index, "a"), []);
}
