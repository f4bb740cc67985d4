//! Times of both sides in one process. The sides take turns, a block of calls each; a row has the median of each block.
use super::inputs::K;
use crate::case::{Case, Doc, Label, Query};
use crate::check::search::{same_hits, search};
use crate::ffi::{self, Added, Asked, Filled};
use crate::ours::{Lists, Ours};
use crate::parting::{halved, Name};
use crate::theirs;
use original::curator::CuratorIndex;
use std::hint::black_box;
use std::time::Instant;

/// What is called.
#[derive(Clone, Copy, Debug, PartialEq)]
pub enum Call {
    Add,
    Build,
    Filtered,
    Search,
    Both,
}

impl Call {
    pub fn name(self) -> &'static str {
        match self {
            Call::Add => "add",
            Call::Build => "build",
            Call::Filtered => "search_filtered",
            Call::Search => "search",
            Call::Both => "search_both",
        }
    }

    /// The labels of a query that the call searches for.
    fn labels(self, query: &Query) -> [Option<&Label>; 2] {
        match self {
            Call::Both => [query.label.as_ref(), query.other.as_ref()],
            Call::Filtered => [query.label.as_ref(), None],
            _ => [None, None],
        }
    }
}

/// The medians of each block, in microseconds.
#[derive(Clone, Default)]
pub struct Times {
    pub ours: Vec<f64>,
    pub theirs: Vec<f64>,
}

pub fn median(mut list: Vec<f64>) -> f64 {
    list.sort_by(f64::total_cmp);
    list[list.len() / 2]
}

impl Times {
    /// The original's time over ours in each pair of blocks that stood side by side, from the lowest to the highest.
    fn ratios(&self) -> Vec<f64> {
        let mut ratios: Vec<f64> = self.theirs.iter().zip(&self.ours).map(|(t, o)| t / o).collect();
        ratios.sort_by(f64::total_cmp);
        ratios
    }

    /// The median ratio.
    pub fn ratio(&self) -> f64 {
        median(self.ratios())
    }

    /// Between which ratios the middle half lies.
    pub fn middle(&self) -> (f64, f64) {
        let ratios = self.ratios();
        let quarter = ratios.len() / 4;
        (ratios[quarter], ratios[ratios.len() - 1 - quarter])
    }
}

/// By the clock, for short calls: the median leaves out those that were interrupted.
fn microseconds(call: impl FnOnce()) -> f64 {
    let start = Instant::now();
    call();
    start.elapsed().as_secs_f64() * 1e6
}

#[repr(C)]
struct Spec {
    seconds: i64,
    nanoseconds: i64,
}

extern "C" {
    fn clock_gettime(clock: i32, spec: *mut Spec) -> i32;
}

/// The processor time of this thread, in microseconds.
fn processor_time() -> f64 {
    const THREAD: i32 = 3;
    let mut spec = Spec { seconds: 0, nanoseconds: 0 };
    assert_eq!(unsafe { clock_gettime(THREAD, &mut spec) }, 0);
    spec.seconds as f64 * 1e6 + spec.nanoseconds as f64 / 1e3
}

/// By processor time, for calls so long that every one may be interrupted.
fn processor_microseconds(call: impl FnOnce()) -> f64 {
    let start = processor_time();
    call();
    processor_time() - start
}

/// Our index with nothing added.
fn empty(case: &Case) -> Ours {
    Ours::new(case.shape, Lists::new(case.shape, 0, 0)).expect("new")
}

/// Our index with everything added.
pub fn filled(case: &Case) -> Ours {
    let mut ours = empty(case);
    for doc in &case.docs {
        ours.add(doc.id, &doc.vector, &doc.labels).expect("add");
    }
    ours
}

/// One add: the time of filling an empty index over the number of vectors.
fn add_ours(case: &Case, given: &[Added]) -> f64 {
    let mut ours = empty(case);
    let time = processor_microseconds(|| {
        for added in given {
            assert_eq!(ffi::add(&mut ours.state, ours.lists.lend_mut().0, added), 0);
        }
    });
    black_box(ours);
    time / given.len() as f64
}

/// The same of the original, which takes a vector and its labels for itself: they are copied beforehand.
fn add_theirs(case: &Case) -> f64 {
    let mut theirs = theirs::empty(case);
    let given: Vec<_> = case.docs.iter().map(|doc| (doc.id, doc.vector.clone(), theirs::texts(doc))).collect();
    let time = processor_microseconds(|| {
        for (id, vector, labels) in given {
            theirs.add(id, vector, labels).expect("add");
        }
    });
    black_box(theirs);
    time / case.docs.len() as f64
}

/// Adds: `rounds` blocks of `size` fillings each.
pub fn adds(case: &Case, rounds: usize, size: usize) -> Times {
    let given: Vec<Added> = case.docs.iter().map(|doc| halved(doc.id, &doc.vector, &doc.labels)).collect();
    let mut times = Times::default();
    for _ in 0..rounds {
        times.ours.push(median((0..size).map(|_| add_ours(case, &given)).collect()));
        times.theirs.push(median((0..size).map(|_| add_theirs(case)).collect()));
    }
    times
}

fn build_ours(fresh: &Ours) -> f64 {
    let mut ours = fresh.clone();
    processor_microseconds(|| ours.build().expect("build"))
}

fn build_theirs(case: &Case) -> f64 {
    let mut theirs = theirs::filled(case);
    processor_microseconds(|| theirs.build().expect("build"))
}

/// Builds: `rounds` blocks of `size` calls each.
pub fn builds(case: &Case, rounds: usize, size: usize) -> Times {
    let fresh = filled(case);
    let mut times = Times::default();
    for _ in 0..rounds {
        times.ours.push(median((0..size).map(|_| build_ours(&fresh)).collect()));
        times.theirs.push(median((0..size).map(|_| build_theirs(case)).collect()));
    }
    times
}

/// Each label is given in two halves.
fn search_ours(ours: &mut Ours, query: &[f32], labels: [Option<&Label>; 2]) -> f64 {
    let (mut ids, mut distances, mut answer) = ([0; K], [0.0; K], [0; 3]);
    let [label, other] = labels.map(|label| label.map(|label| Name::cut(label, label.len() / 2)));
    let asked = Asked { query, label, other, k: K };
    let mut code = 0;
    let time = microseconds(|| {
        let filled = Filled { ids: &mut ids, distances: &mut distances, answer: &mut answer };
        code = ours.search(asked, filled);
    });
    assert_eq!(code, 0);
    black_box((ids, distances, answer));
    time
}

/// The original with nothing withdrawn, or with some ids: then it is asked with an unlimited k, these are struck, and the first k stay (K10 of document 02).
struct Theirs {
    index: CuratorIndex,
    /// By id; empty where nothing is withdrawn.
    gone: Vec<bool>,
}

impl Theirs {
    /// Two labels: the two searches with an unlimited k, joined on document id (K1 of document 02). The second's ids are marked in a list, which is clear before
    /// and after; of the first's hits those that are marked stay, the first k of them.
    fn joined(&self, query: &[f32], one: &str, two: &str, marks: &mut [bool]) -> Vec<(u32, f32)> {
        let search = |label| self.index.search_filtered(query, usize::MAX, label).expect("search");
        let (first, second) = (search(one), search(two));
        second.iter().for_each(|hit| marks[hit.0 as usize] = true);
        let hits = first.into_iter().filter(|hit| marks[hit.0 as usize]).take(K).collect();
        second.iter().for_each(|hit| marks[hit.0 as usize] = false);
        hits
    }

    fn hits(&self, query: &[f32], labels: [Option<&str>; 2], marks: &mut [bool]) -> Vec<(u32, f32)> {
        match labels {
            [Some(one), Some(two)] => self.joined(query, one, two, marks),
            [label, _] => self.hits_of(query, label),
        }
    }

    fn hits_of(&self, query: &[f32], label: Option<&str>) -> Vec<(u32, f32)> {
        let k = if self.gone.is_empty() { K } else { usize::MAX };
        let hits = match label {
            Some(label) => self.index.search_filtered(query, k, label),
            None => self.index.search(query, k),
        };
        let hits = hits.expect("search");
        if self.gone.is_empty() {
            return hits;
        }
        hits.into_iter().filter(|hit| !self.gone[hit.0 as usize]).take(K).collect()
    }
}

fn texts(labels: [Option<&Label>; 2]) -> [Option<&str>; 2] {
    labels.map(|label| label.map(|label| label.text().expect("text")))
}

fn search_theirs(theirs: &Theirs, query: &[f32], labels: [Option<&Label>; 2], marks: &mut [bool]) -> f64 {
    let labels = texts(labels);
    microseconds(|| drop(black_box(theirs.hits(query, labels, marks))))
}

/// Both sides must answer every query alike.
fn compare_answers(case: &Case, call: Call, ours: &mut Ours, theirs: &Theirs) {
    let mut marks = vec![false; case.docs.len()];
    for query in &case.queries {
        let labels = call.labels(query);
        let [label, other] = labels.map(|label| label.cloned());
        let query = Query { label, other, ..query.clone() };
        let found = search(ours, &query, query.half()).expect("search");
        assert!(same_hits(&found.hits, &theirs.hits(&query.vector, texts(labels), &mut marks)), "the answers differ");
    }
}

/// Both sides built, with these ids withdrawn after it.
fn built(case: &Case, gone: Vec<bool>) -> (Ours, Theirs) {
    let mut ours = filled(case);
    ours.build().expect("build");
    for (id, _) in gone.iter().enumerate().filter(|(_, &gone)| gone) {
        ours.withdraw(id as u32).expect("withdraw");
    }
    (ours, Theirs { index: theirs::built(case), gone })
}

/// Searches: `rounds` blocks; in each every query is searched once.
fn searches(case: &Case, call: Call, rounds: usize, gone: Vec<bool>) -> Times {
    let (mut ours, theirs) = built(case, gone);
    compare_answers(case, call, &mut ours, &theirs);
    let each = || case.queries.iter().map(|query| (&query.vector[..], call.labels(query)));
    let mut marks = vec![false; case.docs.len()];
    let mut times = Times::default();
    for _ in 0..rounds {
        times.ours.push(median(each().map(|(q, l)| search_ours(&mut ours, q, l)).collect()));
        times.theirs.push(median(each().map(|(q, l)| search_theirs(&theirs, q, l, &mut marks)).collect()));
    }
    times
}

/// Searches with every third id withdrawn.
pub fn searches_of_the_rest(case: &Case, call: Call, rounds: usize) -> Times {
    searches(case, call, rounds, (0..case.docs.len()).map(|id| id % 3 == 0).collect())
}

/// One withdrawal of ours: `rounds` blocks of every id once; the original has none.
pub fn withdrawal(case: &Case, rounds: usize) -> f64 {
    let (mut ours, _) = built(case, Vec::new());
    let mut block = || {
        let time = |doc: &Doc| microseconds(|| ours.withdraw(doc.id).expect("withdraw"));
        median(case.docs.iter().map(time).collect())
    };
    median((0..rounds).map(|_| block()).collect())
}

pub fn measure(case: &Case, call: Call, rounds: usize) -> Times {
    let size = if case.docs.len() > 1000 { 3 } else { 15 };
    match call {
        Call::Add => adds(case, rounds, size),
        Call::Build => builds(case, rounds, size),
        _ => searches(case, call, rounds, Vec::new()),
    }
}
