//! Random labels: short and long, empty, with characters of one to four bytes, and labels of one hash.
use crate::case::Label;
use crate::parting::PART;
use crate::random::Random;

const WORDS: [&str; 14] = [
    "",
    "a",
    "b",
    "red",
    "color:red",
    "color:blue",
    "size:10",
    "größe:ä",
    "цвет:красный",
    "色:赤",
    "🟥",
    "e\u{301}",
    "tag with spaces",
    "\u{0}",
];

/// Labels whose hash is 0; the first is no text. A zero byte leaves that hash as it is, and the same bytes behind two of them give one hash again.
const OF_HASH_ZERO: [&[u8]; 4] = [b"\xd5\x6b\xb9\x53\x42\x87\x08\x36", b"77kepQFQ8Kl", b"!0IC=VloaY", b"QvXtM>@Fp%"];

/// Two to five different labels of one hash: equally long or not, some beginning with another.
fn of_one_hash(random: &mut Random) -> Vec<Label> {
    let first = usize::from(!random.one_in(3));
    let end = *random.of(&["", "", "x", "/silt"]);
    let count = random.from(2, 5);
    let label = |random: &mut Random| [random.of(&OF_HASH_ZERO[first..]), &[0; 3][..random.below(3)], end.as_bytes()].concat();
    (0..count).map(|_| Label(label(random))).collect()
}

/// The labels of an index, of at most so many bytes; where `alike`, one pool in four has labels of one hash.
pub fn pool(random: &mut Random, most: usize, alike: bool) -> Vec<Label> {
    let count = *random.of(&[1, 2, 4, 8, 20, 40]);
    let mut labels: Vec<Label> = (0..count).map(|i| Label::from(&label(random, i, most)[..])).collect();
    if alike && random.one_in(4) {
        labels.extend(of_one_hash(random));
    }
    labels.sort();
    labels.dedup();
    labels
}

fn label(random: &mut Random, i: usize, most: usize) -> String {
    if i < 3 || random.one_in(2) {
        return random.of(&WORDS).to_string();
    }
    if random.one_in(10) {
        return long(random, most);
    }
    format!("{}:{i}", random.of(&WORDS))
}

/// As long as a label can be, or a little less; where that is more than one part can have, also as long as one part, or between these.
fn long(random: &mut Random, most: usize) -> String {
    let word = random.of(&["x", "ä", "赤", "🟥"]);
    let most = match most {
        0..=PART => most,
        _ => {
            let any = random.from(PART, most);
            *random.of(&[PART, any, most])
        }
    };
    word.repeat((most - random.below(8)) / word.len())
}

/// The labels of one vector. They are different unless `repeats`.
pub fn some(random: &mut Random, pool: &[Label], most: usize, repeats: bool) -> Vec<Label> {
    let count = random.from(0, most);
    let mut labels: Vec<Label> = Vec::new();
    for _ in 0..count {
        let label = random.of(pool);
        if repeats || !labels.contains(label) {
            labels.push(label.clone());
        }
    }
    labels
}
