//! Searches for two labels.

mod common;

use common::{hits, params, worked, SMALL};
use curator::{Capacities, CuratorIndex, Found, Name, RetrieveError};

const NEAR: [f32; 2] = [1.0, 0.0];

/// The labels of the random echoes: two of one hash, one that begins with another, one without bytes. The last is no vector's.
const LABELS: [&str; 8] = [
    "kerb-6",
    "kerb-7",
    "silt",
    "silt/deep",
    "77kepQFQ8Kl",
    "!0IC=VloaY",
    "",
    "roots",
];

/// Random numbers, always the same ones.
struct Random(u64);

impl Random {
    fn below(&mut self, n: usize) -> usize {
        self.0 ^= self.0 << 13;
        self.0 ^= self.0 >> 7;
        self.0 ^= self.0 << 17;
        ((self.0 >> 20) % n as u64) as usize
    }

    fn vector(&mut self) -> [f32; 2] {
        [0, 1].map(|_| self.below(41) as f32 / 8.0 - 2.5)
    }
}

/// An echo as it is taught, and whether it is live.
struct Echo {
    id: u32,
    vector: [f32; 2],
    labels: Vec<&'static str>,
    live: bool,
}

/// What is held, in order.
struct Book(Vec<Echo>);

fn dot(a: [f32; 2], b: [f32; 2]) -> f32 {
    a[0] * b[0] + a[1] * b[1]
}

fn normalized(v: [f32; 2]) -> [f32; 2] {
    let norm = dot(v, v).sqrt();
    if norm > 1e-10 {
        v.map(|x| x / norm)
    } else {
        v
    }
}

impl Book {
    /// Echoes with up to four labels, some of them twice; of so many ids.
    fn any(random: &mut Random, count: usize, ids: usize) -> Book {
        let echo = |i: usize| Echo {
            id: if ids < count { random.below(ids) } else { i } as u32,
            vector: random.vector(),
            labels: (0..random.below(5))
                .map(|_| LABELS[random.below(LABELS.len() - 1)])
                .collect(),
            live: true,
        };
        Book((0..count).map(echo).collect())
    }

    fn taught(
        &self,
        branching_factor: usize,
        max_leaf_size: usize,
        ef_search: usize,
    ) -> CuratorIndex {
        let vectors = self.0.len();
        let capacities = Capacities {
            vectors,
            entries: 4 * vectors,
            nodes: 16 * vectors + 1,
            text: 44 * vectors,
        };
        let params = params(branching_factor, max_leaf_size, ef_search);
        let mut index = CuratorIndex::with_capacities(2, params, capacities).unwrap();
        for echo in &self.0 {
            index.add(echo.id, &echo.vector, &echo.labels).unwrap();
        }
        index.build().unwrap();
        index
    }

    fn withdraw(&mut self, index: &mut CuratorIndex, id: u32) {
        index.withdraw(id).unwrap();
        for echo in self.0.iter_mut().filter(|echo| echo.id == id) {
            echo.live = false;
        }
    }

    /// Every vector that has both labels, by distance, id and number; of neighbours with one id the first; the live ones, the first k.
    fn first(&self, query: [f32; 2], k: usize, one: &str, two: &str) -> Vec<(u32, u32)> {
        let query = normalized(query);
        let mut all: Vec<(f32, u32, usize)> = Vec::new();
        for (i, echo) in self.0.iter().enumerate() {
            if echo.labels.contains(&one) && echo.labels.contains(&two) {
                all.push((1.0 - dot(query, normalized(echo.vector)), echo.id, i));
            }
        }
        all.sort_by(|a, b| a.0.total_cmp(&b.0).then(a.1.cmp(&b.1)).then(a.2.cmp(&b.2)));
        all.dedup_by_key(|hit| hit.1);
        let live = all.into_iter().filter(|hit| self.0[hit.2].live);
        live.take(k).map(|hit| (hit.1, hit.0.to_bits())).collect()
    }
}

/// Three echoes of two drains, in one leaf or in several.
fn drains(max_leaf_size: usize) -> CuratorIndex {
    let mut index = CuratorIndex::with_capacities(2, params(2, max_leaf_size, 16), SMALL).unwrap();
    index.add(7, &NEAR, &["silt", "kerb-6"]).unwrap();
    index.add(8, &[0.0, 2.0], &["kerb-7", "silt"]).unwrap();
    index.add(9, &[3.0, 4.0], &["kerb-7", "roots"]).unwrap();
    index.build().unwrap();
    index
}

#[test]
fn site_and_cause() {
    for max_leaf_size in [1, 4] {
        let index = drains(max_leaf_size);
        for (one, two, ids) in [
            ("silt", "kerb-7", &[8][..]),
            ("kerb-7", "silt", &[8]),
            ("kerb-6", "silt", &[7]),
            ("kerb-7", "roots", &[9]),
            ("kerb-7", "kerb-7", &[9, 8]),
            ("kerb-6", "kerb-7", &[]),
            ("roots", "silt", &[]),
            ("silt", "", &[]),
            ("", "silt", &[]),
            ("absent", "silt", &[]),
        ] {
            let nearest = index.search_both(&NEAR, 4, one, two).unwrap();
            let found: Vec<u32> = nearest.iter().map(|hit| hit.0).collect();
            assert_eq!(found, ids, "{one} and {two}");
        }
    }
    let found = drains(4).find_both(&NEAR, 4, "silt", "kerb-7").unwrap();
    assert_eq!(hits(&found), [(8, 0x3F80_0000)]);
    assert_eq!((found.opened, found.whole), (1, true));
}

/// No leaf of the worked example has both `a` and `b`; its inner nodes have. All five nodes are opened, and none gives a hit.
#[test]
fn denied_by_either() {
    for (ef_search, opened, whole) in [(0, 0, false), (2, 2, false), (4, 4, false), (5, 5, true)] {
        let index = worked(ef_search);
        for (one, two) in [("a", "b"), ("b", "a")] {
            let found = index.find_both(&NEAR, 4, one, two).unwrap();
            let expected = Found {
                hits: vec![],
                opened,
                whole,
            };
            assert_eq!(found, expected);
        }
    }
    // the root denies one of them: it is opened, and nothing waits
    for (one, two) in [("a", "c"), ("c", "a")] {
        let found = worked(5).find_both(&NEAR, 4, one, two).unwrap();
        assert_eq!((found.opened, found.whole), (1, true));
    }
}

/// Every pair of labels, in both orders, against brute force; the same label twice against the search for it, in all that is answered.
fn check(book: &Book, index: &CuratorIndex, random: &mut Random, whole: bool) -> usize {
    let mut found_any = 0;
    for one in LABELS {
        for two in LABELS {
            let query = random.vector();
            let k = [0, 1, 3, 1000, usize::MAX][random.below(5)];
            let found = index.find_both(&query, k, one, two).unwrap();
            let expected = book.first(query, k, one, two);
            if whole {
                assert!(found.whole);
            }
            if found.whole {
                assert_eq!(hits(&found), expected, "{one} and {two}");
            }
            assert_eq!(index.find_both(&query, k, two, one).unwrap(), found);
            if one == two {
                assert_eq!(index.find_filtered(&query, k, one).unwrap(), found);
            }
            found_any += usize::from(!found.hits.is_empty());
        }
    }
    found_any
}

#[test]
fn against_brute_force() {
    let mut random = Random(88172645463325252);
    let (mut searches, mut found) = (0, 0);
    for round in 0..40 {
        let count = 1 + random.below(if round % 8 == 0 { 400 } else { 40 });
        let ids = if round % 2 == 0 {
            count
        } else {
            1 + random.below(9)
        };
        let mut book = Book::any(&mut random, count, ids);
        let mut index = book.taught(2 + random.below(6), random.below(20), 65_537);
        for _ in 0..3 {
            found += check(&book, &index, &mut random, true);
            searches += LABELS.len() * LABELS.len();
            let id = book.0[random.below(count)].id;
            book.withdraw(&mut index, id);
        }
    }
    assert!(found > searches / 3, "{found} of {searches}");
}

/// Budgets that cut: the order of the labels makes no difference, nor does the same label given twice; what is whole is brute force's.
#[test]
fn cut() {
    let mut random = Random(2718281828459045);
    let book = Book::any(&mut random, 60, 60);
    for ef_search in [0, 1, 2, 5, 11, 30, 100] {
        let index = book.taught(3, 2, ef_search);
        check(&book, &index, &mut random, false);
    }
}

/// Every third document withdrawn: the others, in their order.
#[test]
fn withdrawn() {
    let mut random = Random(31415926535897);
    let mut book = Book::any(&mut random, 300, 300);
    let mut index = book.taught(4, 8, 65_537);
    let all = book.first(NEAR, 300, "silt", "kerb-7");
    for id in (0..300).step_by(3) {
        book.withdraw(&mut index, id);
    }
    let live: Vec<_> = all.into_iter().filter(|hit| hit.0 % 3 != 0).collect();
    assert!(live.len() > 10);
    for k in [0, 1, 5, 300] {
        let found = index.find_both(&NEAR, k, "silt", "kerb-7").unwrap();
        assert_eq!(hits(&found), live[..k.min(live.len())]);
    }
    check(&book, &index, &mut random, true);
}

/// However the two names are parted, the answer is the same.
#[test]
fn parted_anywhere() {
    let mut random = Random(1618033988749894);
    let book = Book::any(&mut random, 50, 50);
    let index = book.taught(3, 4, 65_537);
    let cut = |name: &'static str, at: usize| Name::new(&name[..at], &name[at..]);
    for (one, two) in [
        ("silt/deep", "kerb-7"),
        ("77kepQFQ8Kl", "!0IC=VloaY"),
        ("", "silt"),
        ("kerb-6", ""),
    ] {
        let found = index.find_both(&NEAR, 50, one, two).unwrap();
        assert!(found.whole && !found.hits.is_empty());
        for a in 0..=one.len() {
            for b in 0..=two.len() {
                let parted = index.find_both(&NEAR, 50, cut(one, a), cut(two, b));
                assert_eq!(parted.unwrap(), found);
            }
        }
    }
    // the parts of one name are not those of the other
    let other = index.search_both(&NEAR, 50, ("silt/deep", "kerb-7"), ("", ""));
    assert_eq!(other.unwrap(), []);
}

/// Refused as the other searches are, in their order; a k of any size is none.
#[test]
fn refused() {
    let mut index = CuratorIndex::with_capacities(2, params(2, 1, 5), SMALL).unwrap();
    index.add(7, &NEAR, &["silt", "kerb-7"]).unwrap();
    let ask = |index: &CuratorIndex, query: &[f32]| index.search_both(query, 4, "silt", "kerb-7");
    assert_eq!(ask(&index, &[f32::NAN]), Err(RetrieveError::NotBuilt));
    index.build().unwrap();
    let before = format!("{index:?}");
    for query in [&[][..], &[f32::NAN], &[1.0], &[1.0, 0.0, 0.0]] {
        assert_eq!(ask(&index, query), Err(RetrieveError::DimensionMismatch));
    }
    for bad in [f32::NAN, f32::INFINITY, f32::NEG_INFINITY] {
        assert_eq!(ask(&index, &[1.0, bad]), Err(RetrieveError::NonFiniteInput));
    }
    assert_eq!(ask(&index, &NEAR), Ok(vec![(7, 0.0)]));
    let all = index.search_both(&NEAR, usize::MAX, "kerb-7", "silt");
    assert_eq!(all, Ok(vec![(7, 0.0)]));
    assert_eq!(index.search_both(&NEAR, 0, "kerb-7", "silt"), Ok(vec![]));
    assert_eq!(format!("{index:?}"), before);
}
