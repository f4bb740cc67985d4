//! What is damaged, and how.
use crate::case::Case;
use crate::model::refusal::{State, MOST_TEXT};
use crate::ours::{Lists, Ours, STATE};
use crate::parting::{added, place, PART};
use crate::random::Random;

/// A number for a place: any, near the sizes that are held, or an extreme one.
fn number(random: &mut Random, near: usize) -> u32 {
    match random.below(6) {
        0 => random.bits() as u32,
        1 => *random.of(&[0, 1, u32::MAX, 1 << 31, u32::MAX - 1]),
        _ => random.below(near + 3) as u32,
    }
}

/// A float for a place: any pattern, a NaN, an infinity, or a usual one.
fn float(random: &mut Random) -> f32 {
    let special = [0x7F80_0000, 0xFF80_0000, 0x7FC0_0000, 0xFFC0_0001, 0x7F80_0001, 0x8000_0000, 0x7F7F_FFFF];
    match random.below(4) {
        0 => f32::from_bits(random.bits() as u32),
        1 => f32::from_bits(*random.of(&special)),
        _ => random.unit(),
    }
}

/// How many places are damaged: one, a few, or as many as there are.
fn times(random: &mut Random, places: usize) -> usize {
    match random.below(4) {
        0 => 1,
        1 | 2 => random.from(1, 8),
        _ => places,
    }
}

/// Where: a part of a list that is `len` long, or all of it.
fn part(random: &mut Random, cuts: &[usize], len: usize) -> (usize, usize) {
    let i = random.below(cuts.len());
    let end = cuts.get(i + 1).copied().unwrap_or(len);
    if random.one_in(4) || cuts[i] == end {
        return (0, len);
    }
    (cuts[i], end)
}

fn damage_numbers(random: &mut Random, ours: &mut Ours) {
    let s = ours.shape();
    let order = s.vectors + s.entries;
    let table = order + s.vectors;
    let cuts = [0, s.vectors, order, table, table + 6 * s.nodes, table + 7 * s.nodes, s.starts(), s.lengths(), s.live()];
    let (start, end) = part(random, &cuts, s.numbers());
    for _ in 0..times(random, end - start) {
        let near = *random.of(&[ours.state[8], ours.state[9], ours.state[10], ours.state[13], 2]);
        ours.lists.numbers[random.from(start, end - 1)] = number(random, near);
    }
}

fn damage_floats(random: &mut Random, lists: &mut Lists) {
    for _ in 0..times(random, lists.floats.len()) {
        let at = random.below(lists.floats.len());
        lists.floats[at] = float(random);
    }
}

/// A hash: none's, every filter's, or another entry's, which has other bytes.
fn damage_hashes(random: &mut Random, lists: &mut Lists, entries: usize) {
    for _ in 0..times(random, lists.hashes.len()) {
        let at = random.below(lists.hashes.len());
        lists.hashes[at] = match random.below(3) {
            0 => u64::MAX,
            1 if entries > 0 => lists.hashes[random.below(entries)],
            _ => random.bits(),
        };
    }
}

/// One entry's start and length: the sum at the bytes held or beside them, or another entry's.
fn damage_label(random: &mut Random, ours: &mut Ours) {
    let (s, held, entries) = (ours.shape(), ours.state[13], ours.state[9]);
    if entries == 0 {
        return;
    }
    let (at, other) = (random.below(entries), random.below(entries));
    let numbers = &mut ours.lists.numbers;
    let start = random.from(0, held);
    let (start, length) = match random.below(4) {
        0 => (numbers[s.starts() + other], numbers[s.lengths() + other]),
        1 => (start as u32, (held - start) as u32),
        2 => (start as u32, (held - start + 1) as u32),
        _ => (u32::MAX - random.below(9) as u32, random.below(held + 20) as u32),
    };
    (numbers[s.starts() + at], numbers[s.lengths() + at]) = (start, length);
}

/// Entries of a built index in other leaves: two exchange their places in the leaf order, or one gets another's owner.
fn move_entries(random: &mut Random, ours: &mut Ours) {
    let (s, entries) = (ours.shape(), ours.state[9]);
    let order = 2 * s.vectors + s.entries + 7 * s.nodes;
    for _ in 0..if entries == 0 { 0 } else { times(random, entries) } {
        let (at, other) = (random.below(entries), random.below(entries));
        match random.below(4) {
            0 => ours.lists.numbers[s.vectors + at] = ours.lists.numbers[s.vectors + other],
            _ => ours.lists.numbers.swap(order + at, order + other),
        }
    }
}

/// Starts and lengths of a few entries, and bytes of the text, held or not.
fn damage_text(random: &mut Random, ours: &mut Ours) {
    for _ in 0..random.below(4) {
        damage_label(random, ours);
    }
    let places = ours.lists.text.len();
    for _ in 0..if places == 0 { 0 } else { times(random, places) } {
        let at = random.below(places);
        ours.lists.text[at] = random.bits() as u8;
    }
}

/// Live marks, held or not: 0, 1 or any number. Ids become each other's, so that a document has several vectors, some of them live and some not.
fn damage_marks(random: &mut Random, ours: &mut Ours) {
    let s = ours.shape();
    for _ in 0..times(random, s.vectors) {
        let at = s.live() + random.below(s.vectors);
        ours.lists.numbers[at] = if random.one_in(2) { 0 } else { number(random, 2) };
    }
    for _ in 0..if random.one_in(2) { times(random, s.vectors) } else { 0 } {
        let (at, from) = (random.below(s.vectors), random.below(s.vectors));
        ours.lists.numbers[at] = ours.lists.numbers[from];
    }
}

/// One or two numbers of the state: any, near a limit of document 01 or 02, or near what they were.
fn damage_state(random: &mut Random, state: &mut [usize; STATE]) {
    let limits = [128, 64, 4096, 65537, 65535, 4096, 16384, 65537, 4096, 16384, 65537, 1, MOST_TEXT, MOST_TEXT];
    for _ in 0..random.from(1, 2) {
        let at = random.below(STATE);
        state[at] = match random.below(5) {
            0 => random.bits() as usize,
            1 => limits[at] + random.below(3),
            2 => random.below(4),
            3 => state[at].wrapping_sub(1),
            _ => state[at] + 1,
        };
    }
}

/// A sound index, built or not, with damage.
pub fn damaged(random: &mut Random, case: &Case) -> Ours {
    let lists = Lists::new(case.shape, random.bits() as u32, random.below(4));
    let mut ours = Ours::new(case.shape, lists).expect("new");
    for doc in &case.docs {
        let cuts: Vec<usize> = doc.labels.iter().map(|label| place(random, label.len(), PART)).collect();
        ours.give(&added(doc.id, &doc.vector, &doc.labels, &cuts)).expect("add");
    }
    if !random.one_in(3) {
        ours.build().expect("build");
    }
    if ours.state[11] == 1 && random.one_in(3) {
        move_entries(random, &mut ours);
    }
    if random.one_in(2) {
        damage_numbers(random, &mut ours);
    }
    if random.one_in(2) {
        damage_floats(random, &mut ours.lists);
    }
    if random.one_in(2) {
        damage_hashes(random, &mut ours.lists, ours.state[9]);
    }
    if random.one_in(3) {
        damage_text(random, &mut ours);
    }
    if random.one_in(2) {
        damage_marks(random, &mut ours);
    }
    if random.one_in(4) {
        damage_state(random, &mut ours.state);
    }
    ours
}

/// An owner: the last vector in half of the cases, the numbers beside it, or any.
fn owner(random: &mut Random, vectors: usize) -> u32 {
    match random.below(8) {
        0..=3 => vectors.wrapping_sub(1) as u32,
        4 => vectors as u32,
        5 => vectors.wrapping_sub(2) as u32,
        _ => number(random, vectors),
    }
}

/// How many owners at the end of those held are damaged: none, all, or a few.
fn owners_damaged(random: &mut Random, entries: usize) -> usize {
    match random.below(4) {
        0 => 0,
        1 => entries,
        _ => random.from(1, 6).min(entries),
    }
}

/// A start for an entry that goes: any, or near the bytes held.
fn start(random: &mut Random, bytes: usize) -> u32 {
    match random.below(3) {
        0 => (bytes + random.below(3)).saturating_sub(1) as u32,
        _ => number(random, bytes),
    }
}

/// A copy to take back from: not built in most cases, without vectors in some, with other owners at the end of those held, each by itself or all the last
/// vector, and in half of the cases with other starts.
pub fn to_take_back(random: &mut Random, ours: &Ours) -> Ours {
    let mut ours = ours.clone();
    if !random.one_in(8) {
        (ours.state[10], ours.state[11]) = (0, 0);
    }
    if random.one_in(16) {
        ours.state[8] = 0;
    }
    let state = State::of(&ours.state);
    if !state.sound() || ours.lists.numbers.len() < state.shape.numbers() {
        return ours;
    }
    let (one, starts) = (random.one_in(6), random.one_in(2));
    for entry in state.entries - owners_damaged(random, state.entries)..state.entries {
        let owner = if one { state.vectors.wrapping_sub(1) as u32 } else { owner(random, state.vectors) };
        ours.lists.numbers[state.shape.vectors + entry] = owner;
        if starts {
            ours.lists.numbers[state.shape.starts() + entry] = start(random, state.bytes);
        }
    }
    ours
}

/// Every leaf has the entries of all leaves, or of some, so that what is given may be one hit too many.
fn share_entries(random: &mut Random, ours: &mut Ours) {
    let (s, entries) = (ours.shape(), ours.state[9]);
    let least = if random.one_in(2) { entries } else { random.from(0, entries) };
    for node in 0..ours.state[10] {
        let six = 2 * s.vectors + s.entries + 6 * node;
        if ours.lists.numbers[six + 1] == 0 {
            ours.lists.numbers[six + 4] = 0;
            ours.lists.numbers[six + 5] = random.from(least, entries) as u32;
        }
    }
}

/// A copy to search for two labels: where it can be searched, entries stand in other leaves or in several, and no filter denies anything, so that these are
/// read.
pub fn to_search_both(random: &mut Random, ours: &Ours) -> Ours {
    let mut ours = ours.clone();
    let state = State::of(&ours.state);
    let s = &state.shape;
    if state.sound() && state.built == 1 && ours.lists.numbers.len() >= s.numbers() && ours.lists.hashes.len() >= s.hashes() {
        ours.lists.hashes[s.entries..s.hashes()].fill(u64::MAX);
        match random.below(3) {
            0 => share_entries(random, &mut ours),
            _ => move_entries(random, &mut ours),
        }
    }
    ours
}
