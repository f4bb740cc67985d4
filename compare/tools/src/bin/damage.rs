//! damage SEED COUNT: calls on damaged indexes, their lists between guard pages, against the model.
use std::collections::BTreeMap;
use tools::case::Label;
use tools::damage::both::{pair, search_both};
use tools::damage::check::{self, Ended};
use tools::damage::make::{to_search_both, to_take_back};
use tools::damage::names::label_hash;
use tools::damage::pool::pool;
use tools::damage::random_calls::{added, cut_twice, damaged, parted_otherwise, vector};
use tools::damage::short::{short_answer, short_state};
use tools::damage::take_back::take_back;
use tools::damage::withdraw::withdraw_and_search;
use tools::ffi::Asked;
use tools::ours::{Ours, STATE};
use tools::random::Random;

/// How often each call ended with each number, and of these with a NaN.
type Codes = BTreeMap<(&'static str, u32), (usize, usize)>;

/// Every call on one damaged index.
fn calls(random: &mut Random, ours: &Ours, labels: &[Label], codes: &mut Codes) -> Result<(), String> {
    let dimension = ours.state[0];
    let mut note = |name, end: Ended| {
        let times = codes.entry((name, end.code)).or_default();
        times.0 += 1;
        times.1 += usize::from(end.nan);
    };
    let given = added(random, dimension);
    note("add", check::add(ours, &given)?);
    if let Some(other) = parted_otherwise(random, &given) {
        note("add, parted otherwise", check::add(ours, &other)?);
    }
    note("build", check::build(ours)?);
    note("pool", pool(random)?);
    note("label_hash", label_hash(random)?);
    for _ in 0..4 {
        let query = vector(random, dimension);
        let k = if random.one_in(2) { random.below(4) } else { random.below(70) };
        let places = if random.one_in(20) { random.below(k + 1) } else { k + random.below(3) };
        let all = Asked { query: &query, label: None, other: None, k };
        note("search", check::search(ours, all, places)?);
        let labels = pair(random, labels);
        let [label, parted] = cut_twice(random, labels[0]);
        let [other, _] = cut_twice(random, labels[1]);
        note("search_filtered", check::search(ours, Asked { label, ..all }, places)?);
        note("search_filtered, parted otherwise", check::search(ours, Asked { label: parted, ..all }, places)?);
        search_both(random, ours, labels, all, places, &mut note)?;
        let moved = to_search_both(random, ours);
        search_both(random, &moved, labels, all, places, &mut note)?;
        withdraw_and_search(random, ours, Asked { label, other, ..all }, &mut note)?;
    }
    take_back(ours, 1, &mut note)?;
    take_back(&to_take_back(random, ours), random.from(1, 4), &mut note)?;
    let query = vector(random, dimension);
    let asked = Asked { query: &query, label: None, other: None, k: random.below(5) };
    let [label, other] = pair(random, labels).map(|label| cut_twice(random, label)[0]);
    short_state(ours, &added(random, dimension), asked, random.below(STATE))?;
    for asked in [asked, Asked { label, ..asked }, Asked { label, other, ..asked }] {
        short_answer(ours, asked, random.below(3))?;
    }
    Ok(())
}

fn main() {
    let words: Vec<String> = std::env::args().collect();
    let number = |i: usize, usual: u64| words.get(i).map_or(usual, |w| w.parse().expect("a number"));
    let (seed, count) = (number(1, 1), number(2, 1000) as usize);
    let mut codes = Codes::new();
    let mut failed = 0;
    for i in 0..count {
        let mut random = Random::of_case(seed, i);
        let (ours, labels) = damaged(&mut random);
        if let Err(why) = calls(&mut random, &ours, &labels, &mut codes) {
            failed += 1;
            println!("index {i} failed: {why}");
        }
    }
    for ((name, code), (times, nans)) in &codes {
        let end = if *code == 0 { "answered".into() } else { format!("refused {code}") };
        println!("{name}: {end} {times} times, {nans} with a NaN");
    }
    println!("{} passed, {} failed", count - failed, failed);
    std::process::exit(i32::from(failed > 0));
}
