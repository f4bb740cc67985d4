//! Teaching a case: its documents in order, and in between others that are taken back (K3 of document 02), and ids that are withdrawn (K10). Every call is
//! compared with a model that keeps a line for each add that stands, and in each place of the lists what the last call wrote there, label text too (K4). Two
//! indexes are taught the same names, each cut in two ways (K7).
use super::case::need;
use super::layout::{put_one, same_lists};
use super::names::{spoilt, twice};
use super::withdraw::{any_id, Manner};
use crate::case::{Case, Doc};
use crate::ffi::Added;
use crate::generate::labels;
use crate::generate::vectors::Maker;
use crate::model::label::hash_bytes;
use crate::model::refusal::{self, Lent, State};
use crate::ours::{Lists, Ours, STATE};
use crate::parting::NAME;
use crate::random::Random;

const JUNK: u32 = 0x3F12_3456;

/// An add that stands: the state before it, its document id, and whether its vector is live.
struct Line {
    before: [usize; STATE],
    id: u32,
    live: bool,
}

/// How often something happened while a case was taught.
#[derive(Default)]
pub struct Times {
    pub taken_back: usize,
    pub text_full: usize,
    pub parted: usize,
    pub withdrawn: usize,
    pub unknown: usize,
}

impl Times {
    /// Adds those of another case.
    pub fn add(&mut self, other: &Times) {
        self.taken_back += other.taken_back;
        self.text_full += other.text_full;
        self.parted += other.parted;
        self.withdrawn += other.withdrawn;
        self.unknown += other.unknown;
    }
}

/// An index that is being taught, twice, and what the model says of it.
pub struct Taught {
    pub pair: [Ours; 2],
    pub lists: Lists,
    state: [usize; STATE],
    lines: Vec<Line>,
    manner: Manner,
    pub times: Times,
}

impl Taught {
    fn new(case: &Case) -> Result<Taught, String> {
        let lists = Lists::new(case.shape, JUNK, 3);
        let ours = Ours::new(case.shape, lists.clone()).map_err(|n| format!("new refused {n}"))?;
        let state = ours.state;
        Ok(Taught { pair: [ours.clone(), ours], lists, state, lines: Vec::new(), manner: Manner::of(case), times: Times::default() })
    }

    /// Whether the state and every place are as the model has them.
    fn same(&self, call: &str) -> Result<(), String> {
        let (held, ours) = (self.lines.len(), &self.pair[0]);
        need(ours.state == self.state, || format!("{call}, {held} held: {:?}, not {:?}", ours.state, self.state))?;
        let same = same_lists(&ours.lists, &self.lists) && ours.lists.work == self.lists.work;
        need(same, || format!("{call}, {held} held: a list differs from the model"))?;
        self.alike(call)
    }

    /// Whether the state and every place are the same in both indexes.
    fn alike(&self, call: &str) -> Result<(), String> {
        let [ours, twin] = &self.pair;
        let alike = ours.state == twin.state && same_lists(&ours.lists, &twin.lists) && ours.lists.work == twin.lists.work;
        need(alike, || format!("{call}, {} held: parted otherwise, a place differs", self.lines.len()))
    }

    /// Adds to both indexes; returns whether it is accepted. Otherwise nothing changes.
    fn give(&mut self, given: &[Added; 2]) -> Result<bool, String> {
        let state = State::of(&self.state);
        let expected = refusal::add(&state, Lent::of(&self.lists), &given[0]);
        let got = [0, 1].map(|i| self.pair[i].give(&given[i]).err());
        need(got == [expected; 2], || format!("add: refused {got:?}, not {expected:?}"))?;
        self.times.text_full += usize::from(expected == Some(20));
        if expected.is_some() {
            self.same("refused add")?;
            return Ok(false);
        }
        put_one(&state, &mut self.lists, &given[0]);
        self.lines.push(Line { before: self.state, id: given[0].id, live: true });
        self.state[8] += 1;
        self.state[9] += given[0].labels();
        self.state[13] += given[0].bytes.len();
        self.alike("add")?;
        Ok(true)
    }

    /// Adds a document, where there is room for it, its names cut in two ways.
    fn add(&mut self, doc: &Doc) -> Result<(), String> {
        let (given, parted) = twice(&mut Random::new(!seed(doc)), doc);
        if self.give(&given)? {
            self.times.parted += parted;
        }
        Ok(())
    }

    /// An add of a document with lengths that do not fit: 9.
    fn add_spoilt(&mut self, random: &mut Random, doc: &Doc) -> Result<(), String> {
        let (given, _) = twice(random, doc);
        let given = given.map(|given| spoilt(random, &given));
        self.give(&given).map(drop)
    }

    /// Takes the last add back: the state is the one before it, and no list changes. Nothing is held: 19.
    fn take_back(&mut self) -> Result<(), String> {
        let expected = refusal::take_back(&State::of(&self.state), Lent::of(&self.lists));
        let got = [0, 1].map(|i| self.pair[i].take_back().err());
        need(got == [expected; 2], || format!("take back: refused {got:?}, not {expected:?}"))?;
        if let Some(line) = self.lines.pop() {
            self.state = line.before;
            self.times.taken_back += 1;
        }
        self.same("take back")
    }

    /// Withdraws an id: the lines that have it are not live any more, their marks are 0, and nothing else changes. No line has it: 24.
    fn withdraw(&mut self, id: u32) -> Result<(), String> {
        let expected = refusal::withdraw(&State::of(&self.state), Lent::of(&self.lists), || self.lines.iter().any(|line| line.id == id));
        let got = [0, 1].map(|i| self.pair[i].withdraw(id).err());
        need(got == [expected; 2], || format!("withdraw {id}: refused {got:?}, not {expected:?}"))?;
        self.times.withdrawn += usize::from(expected.is_none());
        self.times.unknown += usize::from(expected.is_some());
        let marks = self.pair[0].shape().live();
        for (vector, line) in self.lines.iter_mut().enumerate().filter(|(_, line)| line.id == id) {
            line.live = false;
            self.lists.numbers[marks + vector] = 0;
        }
        self.same("withdraw")
    }

    /// Withdraws an id behind some of the documents, in the case's manner, and now and then the same again.
    fn withdraw_behind(&mut self, random: &mut Random, docs: &[Doc]) -> Result<(), String> {
        if !self.manner.comes(random) {
            return Ok(());
        }
        let id = any_id(random, docs);
        self.withdraw(id)?;
        if random.one_in(4) {
            self.withdraw(id)?;
        }
        Ok(())
    }

    /// Which vectors are live.
    pub fn live(&self) -> Vec<bool> {
        self.lines.iter().map(|line| line.live).collect()
    }

    /// Takes back some of the documents held, adds others and takes them back, in any order, with withdrawals, and adds the former again.
    fn detour(&mut self, random: &mut Random, case: &Case, held: &[Doc]) -> Result<(), String> {
        let again = &held[held.len() - depth(random, held.len())..];
        for _ in again {
            self.take_back()?;
        }
        let floor = self.lines.len();
        let doc = other(random, case);
        self.add_spoilt(random, &doc)?;
        for _ in 0..random.from(1, 8) {
            if random.one_in(3) && (self.lines.len() > floor || floor == 0) {
                self.take_back()?;
            } else {
                let doc = other(random, case);
                self.add(&doc)?;
                self.withdraw_behind(random, &[doc])?;
            }
        }
        while self.lines.len() > floor {
            self.take_back()?;
        }
        again.iter().try_for_each(|doc| self.add(doc))
    }
}

/// How many of the documents held are taken back and added again: none in most cases.
fn depth(random: &mut Random, held: usize) -> usize {
    match random.below(6) {
        0 => random.from(1, 3).min(held),
        1 => held.min(12),
        _ => 0,
    }
}

/// A document to be taken back: any, with an id of the case or not, or one of the case's own.
fn other(random: &mut Random, case: &Case) -> Doc {
    let own = random.of(&case.docs);
    if random.one_in(4) {
        return own.clone();
    }
    let id = if random.one_in(2) { own.id } else { random.bits() as u32 };
    let maker = Maker::new(random, case.shape.dimension);
    let (pool, most) = (labels::pool(random, NAME, true), random.below(5));
    Doc { id, vector: maker.vector(random), labels: labels::some(random, &pool, most, true) }
}

/// The seed of random numbers that a document decides, so that a case is taught alike whenever it is run.
fn seed(doc: &Doc) -> u64 {
    let mut bytes = doc.id.to_le_bytes().to_vec();
    doc.vector.iter().for_each(|x| bytes.extend(x.to_bits().to_le_bytes()));
    doc.labels.iter().for_each(|label| bytes.extend(label.iter()));
    hash_bytes(&bytes)
}

/// Our index with everything added, and what the model says of its lists. There is a detour behind about twelve documents, or two in five of them.
pub fn teach(case: &Case) -> Result<Taught, String> {
    let mut taught = Taught::new(case)?;
    taught.take_back()?;
    taught.withdraw(case.docs[0].id)?;
    for (i, doc) in case.docs.iter().enumerate() {
        taught.add(doc)?;
        let mut random = Random::new(seed(doc));
        if random.below(case.docs.len().max(30)) < 12 {
            taught.detour(&mut random, case, &case.docs[..=i])?;
        }
        taught.withdraw_behind(&mut random, &case.docs[..=i])?;
    }
    taught.same("adds")?;
    need(taught.lines.len() == case.docs.len(), || "a document was refused".into())?;
    Ok(taught)
}
