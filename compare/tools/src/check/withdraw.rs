//! Withdrawals (K10 of document 02): how often a case has them and of which ids, and those of a built index, between its searches.
use super::case::need;
use super::layout::{same_lists, same_store};
use super::names::seed;
use crate::case::{Case, Doc, Query};
use crate::model::search::{heads, Walk};
use crate::ours::Ours;
use crate::random::Random;
use std::collections::HashSet;

/// How a case withdraws: behind one of so many documents while it is taught, and at most so many ids before a search. 0 is never.
#[derive(Clone, Copy)]
pub struct Manner {
    behind: usize,
    at_once: usize,
}

impl Manner {
    /// Nothing is withdrawn in one case of four. It is drawn from the beam width, so that the other numbers of a case do not hang on it.
    pub fn of(case: &Case) -> Manner {
        let mut random = Random::new(!(case.shape.beam as u64));
        if random.one_in(4) {
            return Manner { behind: 0, at_once: 0 };
        }
        let third = case.docs.len() / 3 + 1;
        Manner { behind: *random.of(&[0, 2, 6, 30]), at_once: *random.of(&[0, 1, 4, third]) }
    }

    /// Whether a withdrawal comes behind a document.
    pub fn comes(self, random: &mut Random) -> bool {
        self.behind > 0 && random.one_in(self.behind)
    }

    /// The ids that are withdrawn before a search: those of its nearest hits, or of any documents, and now and then one that no document may have.
    pub fn before(self, case: &Case, query: &Query, walk: &Walk) -> Vec<u32> {
        let mut random = Random::new(!seed(query));
        let count = random.from(0, self.at_once);
        let mut ids: Vec<u32> = match random.below(2) {
            0 => heads(walk).iter().take(count).map(|hit| hit.0).collect(),
            _ => (0..count).map(|_| random.of(&case.docs).id).collect(),
        };
        if self.at_once > 0 && random.one_in(4) {
            ids.push(any_id(&mut random, &case.docs));
        }
        ids
    }
}

/// An id to withdraw: one of these documents' in most cases, the next number, or any.
pub fn any_id(random: &mut Random, docs: &[Doc]) -> u32 {
    let id = random.of(docs).id;
    match random.below(8) {
        0 => random.bits() as u32,
        1 => id.wrapping_add(1),
        _ => id,
    }
}

/// A built index, twice, and what the model says of it: every place as the build left it but for live marks.
pub struct Built<'a> {
    case: &'a Case,
    pub pair: [Ours; 2],
    left: [Ours; 2],
    pub live: Vec<bool>,
    /// How many withdrawals were accepted, and how many refused with 24.
    pub withdrawn: usize,
    pub unknown: usize,
}

impl Built<'_> {
    pub fn new(case: &Case, pair: [Ours; 2], live: Vec<bool>) -> Built<'_> {
        Built { case, left: pair.clone(), pair, live, withdrawn: 0, unknown: 0 }
    }

    /// Withdraws an id from both indexes; where no document has it, 24 is due.
    fn withdraw(&mut self, id: u32) -> Result<(), String> {
        let vectors: Vec<usize> = (0..self.case.docs.len()).filter(|&i| self.case.docs[i].id == id).collect();
        let expected = vectors.is_empty().then_some(24);
        let got = [0, 1].map(|i| self.pair[i].withdraw(id).err());
        need(got == [expected; 2], || format!("built, withdraw {id}: refused {got:?}, not {expected:?}"))?;
        self.withdrawn += usize::from(expected.is_none());
        self.unknown += usize::from(expected.is_some());
        for vector in vectors {
            self.live[vector] = false;
            self.left.iter_mut().for_each(|left| left.lists.numbers[self.case.shape.live() + vector] = 0);
        }
        Ok(())
    }

    /// Withdraws ids, the last one again at once. Then every place is as it was but for the marks, the work list too.
    pub fn withdraw_all(&mut self, ids: &[u32]) -> Result<(), String> {
        let Some(&last) = ids.last() else { return Ok(()) };
        self.left.iter_mut().zip(&self.pair).for_each(|(left, ours)| left.lists.work.clone_from(&ours.lists.work));
        ids.iter().try_for_each(|&id| self.withdraw(id))?;
        self.withdraw(last)?;
        let same = |i: usize| same_lists(&self.pair[i].lists, &self.left[i].lists) && self.pair[i].lists.work == self.left[i].lists.work;
        need(same(0) && same(1), || format!("built, withdraw {ids:?}: a list differs from the model"))?;
        need(self.states_kept(), || format!("built, withdraw {ids:?}: the state changed"))
    }

    fn states_kept(&self) -> bool {
        (0..2).all(|i| self.pair[i].state == self.left[i].state)
    }

    /// Whether state and store are still those that the build and the withdrawals left.
    pub fn kept(&self) -> bool {
        self.states_kept() && (0..2).all(|i| same_store(&self.case.shape, &self.pair[i].lists, &self.left[i].lists))
    }

    /// The ids of the vectors that are live, or of those that are not.
    pub fn ids(&self, live: bool) -> HashSet<u32> {
        let docs = self.case.docs.iter().zip(&self.live);
        docs.filter(|(_, &is)| is == live).map(|(doc, _)| doc.id).collect()
    }

    /// Whether a withdrawn id has a live vector too: it was taught again.
    pub fn taught_again(&self) -> bool {
        !self.ids(false).is_disjoint(&self.ids(true))
    }
}
