//! Names in two parts.

mod common;

use common::{hits, params, worked, SMALL};
use curator::{label_hash, CuratorIndex, Found, Name, RetrieveError, LABEL_START};

/// The published values of FNV-1a, whole and carried on from every place.
#[test]
fn hashes() {
    for (name, hash) in [
        (&b""[..], 0xcbf2_9ce4_8422_2325),
        (b"a", 0xaf63_dc4c_8601_ec8c),
        (b"foobar", 0x8594_4171_f739_67e8),
    ] {
        assert_eq!(label_hash(LABEL_START, name), hash);
        for at in 0..=name.len() {
            let between = label_hash(LABEL_START, &name[..at]);
            assert_eq!(label_hash(between, &name[at..]), hash);
        }
    }
    for start in [0, 1, 1 << 40, u64::MAX] {
        assert_eq!(label_hash(start, b""), start);
        assert_eq!(
            label_hash(start, b"x"),
            (start ^ 0x78).wrapping_mul(0x100_0000_01b3)
        );
    }
}

/// A name at every place at which it may be cut.
fn partings(name: &str) -> Vec<Name<'_>> {
    let places = (0..=name.len()).filter(|&at| name.is_char_boundary(at));
    places
        .map(|at| Name::new(&name[..at], &name[at..]))
        .collect()
}

const LABELS: [&str; 4] = ["kerb-7/silt", "", "grün", "kerb-7/"];

/// Four vectors, two labels each; `part` says how a name is cut.
fn taught<'a>(part: impl Fn(&'a str) -> Name<'a>) -> CuratorIndex {
    let mut index = CuratorIndex::with_capacities(2, params(2, 1, 16), SMALL).unwrap();
    for id in 0..4 {
        let names = [LABELS[id], LABELS[(id + 1) % 4]].map(&part);
        index
            .add_names(id as u32, &[1.0, id as f32], &names)
            .unwrap();
    }
    index
}

/// However names are parted, an index is the same in every place, and so is what it answers.
#[test]
fn parted_anywhere() {
    let whole = taught(Name::from);
    let mut other = taught(|name| Name::new("", name));
    assert_eq!(format!("{other:?}"), format!("{whole:?}"));
    other = taught(|name| partings(name)[partings(name).len() / 2]);
    assert_eq!(format!("{other:?}"), format!("{whole:?}"));

    other.build().unwrap();
    for (i, label) in LABELS.into_iter().enumerate() {
        let carriers = [i as u32, (i as u32 + 3) % 4];
        for name in partings(label) {
            let found: Found = other.find_filtered(&[1.0, 0.0], 4, name).unwrap();
            assert_eq!(
                found.hits.iter().map(|hit| hit.id).collect::<Vec<_>>(),
                [carriers[0].min(carriers[1]), carriers[0].max(carriers[1])]
            );
            assert_eq!(found, other.find_filtered(&[1.0, 0.0], 4, label).unwrap());
        }
    }
    for absent in [("silt", "kerb-7/"), ("kerb-7/", "sil"), ("erb-7/", "silt")] {
        assert_eq!(other.search_filtered(&[1.0, 0.0], 4, absent).unwrap(), []);
    }
}

/// A name's second part does not run into the next name.
#[test]
fn names_side_by_side() {
    let mut index = CuratorIndex::with_capacities(2, params(2, 1, 16), SMALL).unwrap();
    let names = [("a", "b").into(), ("", "c").into(), ("d", "").into()];
    index.add_names(5, &[1.0, 0.0], &names).unwrap();
    index.build().unwrap();
    for (label, count) in [
        ("ab", 1),
        ("c", 1),
        ("d", 1),
        ("a", 0),
        ("bc", 0),
        ("cd", 0),
    ] {
        let found = index.search_filtered(&[1.0, 0.0], 4, label).unwrap();
        assert_eq!(found.len(), count, "{label}");
    }
}

/// The worked example by a whole name, a string, a pair and a name.
#[test]
fn ways_to_give_a_name() {
    let (index, query) = (worked(5), [1.0, 0.0]);
    let expected = [(7, 0), (9, 0x3ECC_CCCC)];
    let string = String::from("a");
    for found in [
        index.find_filtered(&query, 4, "a"),
        index.find_filtered(&query, 4, &string),
        index.find_filtered(&query, 4, ("a", "")),
        index.find_filtered(&query, 4, ("", "a")),
        index.find_filtered(&query, 4, Name::new("a", "")),
    ] {
        assert_eq!(hits(&found.unwrap()), expected);
    }
}

/// 510 bytes may be added however they are parted, 511 may not. A search takes parts of any length.
#[test]
fn long_names() {
    let text: String = ('a'..='z').cycle().take(2000).collect();
    for total in [254, 255, 256, 509, 510] {
        for at in [0, 1, total / 3, 254.min(total), 255.min(total), total] {
            let mut index = CuratorIndex::with_capacities(2, params(2, 1, 5), SMALL).unwrap();
            let name = Name::new(&text[..at], &text[at..total]);
            index.add_names(3, &[0.0, 1.0], &[name]).unwrap();
            index.build().unwrap();
            for cut in [0, 100, total - 1, total] {
                let label = (&text[..cut], &text[cut..total]);
                let found = index.search_filtered(&[0.0, 1.0], 4, label);
                assert_eq!(found.unwrap(), [(3, 0.0)]);
            }
            let longer = (&text[..1000], &text[1000..]);
            let found = index.search_filtered(&[0.0, 1.0], 4, longer);
            assert_eq!(found.unwrap(), []);
        }
    }
    let mut index = CuratorIndex::with_capacities(2, params(2, 1, 5), SMALL).unwrap();
    for at in [0, 1, 255, 256, 510, 511] {
        let name = Name::new(&text[..at], &text[at..511]);
        let refused = index.add_names(3, &[0.0, 1.0], &["fine".into(), name]);
        assert_eq!(refused, Err(RetrieveError::LabelTooLong));
        assert!(index.is_empty());
    }
}
