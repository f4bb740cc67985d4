//! Calls over the numbers of a store, whatever they are: a search ('Search' and 'Search's 15' of document 01; labels by their bytes, live marks, two labels,
//! K4, K10 and K1 of document 02), how many entries a taking back takes, and how many bytes it leaves (K3, K4), and which vectors a withdrawal reaches (K10).
use super::label::Filter;
use super::number::{distance, normalized};
use super::refusal::State;
use super::search::{Sought, Walk, Wanted};
use crate::ffi::Store;

/// The store is damaged: refusal 15.
pub struct Damaged;

/// A store with its state.
pub struct View<'a> {
    pub state: State,
    pub store: Store<'a>,
}

impl View<'_> {
    fn number(&self, at: usize) -> usize {
        self.store.numbers[at] as usize
    }

    /// The vector, or the centroid behind the vectors, by its number.
    fn vector(&self, i: usize) -> &[f32] {
        let d = self.state.shape.dimension;
        &self.store.floats[i * d..i * d + d]
    }

    /// The list whose start and count stand at a place; it counts from `base` on, where `held` are held.
    fn list(&self, at: usize, base: usize, held: usize) -> Result<Vec<usize>, Damaged> {
        let (start, count) = (self.number(at), self.number(at + 1));
        if count == 0 {
            return Ok(Vec::new());
        }
        if start + count > held {
            return Err(Damaged);
        }
        Ok((0..count).map(|i| self.number(base + start + i)).collect())
    }

    fn denies(&self, node: usize, sought: Sought) -> bool {
        let at = self.state.shape.entries + 4 * node;
        let words = &self.store.hashes[at..at + 4];
        sought.denied_by(&Filter([words[0], words[1], words[2], words[3]]))
    }

    /// The children of a node.
    fn children(&self, node: usize) -> Result<Vec<usize>, Damaged> {
        let s = &self.state.shape;
        let table = 2 * s.vectors + s.entries;
        self.list(table + 6 * node, table + 6 * s.nodes, self.state.nodes)
    }

    /// Whether an entry is a label's. One of the label's hash whose start plus length passes the bytes held is damaged.
    fn is(&self, entry: usize, label: Wanted) -> Result<bool, Damaged> {
        let s = &self.state.shape;
        if self.store.hashes[entry] != label.hash {
            return Ok(false);
        }
        let (start, length) = (self.number(s.starts() + entry), self.number(s.lengths() + entry));
        if start + length > self.state.bytes {
            return Err(Damaged);
        }
        Ok(self.store.text[start..start + length] == *label.bytes)
    }

    /// The owners of a label's entries in a list. Each number of the list is an entry's.
    fn owners_in(&self, list: &[usize], label: Wanted) -> Result<Vec<usize>, Damaged> {
        let mut owners = Vec::new();
        for &entry in list {
            if self.is(entry, label)? {
                owners.push(self.number(self.state.shape.vectors + entry));
            }
        }
        Ok(owners)
    }

    /// The vectors that a leaf gives. Of two labels: the first's whose owner has an entry of the second in the leaf's list, or, where an entry of the second
    /// `anywhere` counts, among all that are held; that is no search's definition.
    fn given(&self, node: usize, sought: Sought, anywhere: bool) -> Result<Vec<usize>, Damaged> {
        let s = &self.state.shape;
        let at = 2 * s.vectors + s.entries + 6 * node;
        let Some(label) = sought.label else {
            let list = self.list(at + 2, s.vectors + s.entries, self.state.vectors)?;
            return below(list, self.state.vectors);
        };
        let order = 2 * s.vectors + s.entries + 7 * s.nodes;
        let entries = below(self.list(at + 4, order, self.state.entries)?, self.state.entries)?;
        below(entries.iter().map(|&entry| self.number(s.vectors + entry)).collect(), self.state.vectors)?;
        let mut given = self.owners_in(&entries, label)?;
        if let Some(other) = sought.other {
            let mut there = self.owners_in(&entries, other)?;
            if anywhere {
                let whole = |&entry: &usize| self.is(entry, other).is_ok();
                there = self.owners_in(&(0..self.state.entries).filter(whole).collect::<Vec<_>>(), other)?;
            }
            given.retain(|owner| there.contains(owner));
        }
        Ok(given)
    }

    fn near(&self, query: &[f32], node: usize) -> (f32, usize) {
        (distance(query, self.vector(self.state.shape.vectors + node)), node)
    }

    /// Pushes the children of a node.
    fn push(
        &self,
        query: &[f32],
        parent: usize,
        children: Vec<usize>,
        pushed: &mut [bool],
        waiting: &mut Vec<(f32, usize)>,
    ) -> Result<(), Damaged> {
        for child in children {
            if child <= parent || child >= self.state.nodes || pushed[child] {
                return Err(Damaged);
            }
            pushed[child] = true;
            waiting.push(self.near(query, child));
        }
        Ok(())
    }

    /// '0 is withdrawn, anything else live'.
    pub fn live(&self, vector: usize) -> bool {
        self.number(self.state.shape.live() + vector) != 0
    }

    /// The vectors held that have a document id.
    pub fn with_id(&self, id: u32) -> Vec<usize> {
        (0..self.state.vectors).filter(|&vector| self.store.numbers[vector] == id).collect()
    }

    /// The owners of the entries held.
    fn owners(&self) -> &[u32] {
        let from = self.state.shape.vectors;
        &self.store.numbers[from..from + self.state.entries]
    }

    /// The entries at the end whose owner is the last vector: those behind the last one that has another. There is a vector.
    pub fn taken_back(&self) -> usize {
        let last = self.state.vectors - 1;
        let kept = self.owners().iter().rposition(|&owner| owner as usize != last);
        self.state.entries - kept.map_or(0, |entry| entry + 1)
    }

    /// The bytes held after a taking back: the start of the first entry that goes, if one goes and that is lower.
    pub fn bytes_left(&self) -> usize {
        let first = self.state.entries - self.taken_back();
        if first == self.state.entries {
            return self.state.bytes;
        }
        self.state.bytes.min(self.number(self.state.shape.starts() + first))
    }

    /// Whether one of the entries that stay has the last vector as its owner too.
    pub fn kept_of_last(&self) -> bool {
        let kept = self.state.entries - self.taken_back();
        self.owners()[..kept].iter().any(|&owner| owner as usize == self.state.vectors - 1)
    }

    pub fn walk(&self, query: &[f32], sought: Sought) -> Result<Walk, Damaged> {
        self.walk_where(query, sought, false)
    }

    /// What a walk would give if an entry of the second label counted wherever it stands.
    pub fn walk_anywhere(&self, query: &[f32], sought: Sought) -> Result<Walk, Damaged> {
        self.walk_where(query, sought, true)
    }

    fn walk_where(&self, query: &[f32], sought: Sought, anywhere: bool) -> Result<Walk, Damaged> {
        let q = normalized(query);
        let most = if sought.label.is_some() { self.state.entries } else { self.state.vectors };
        let mut pushed = vec![false; self.state.nodes];
        pushed[0] = true;
        let mut waiting = vec![self.near(&q, 0)];
        let mut walk = Walk { raw: Vec::new(), opened: 0, whole: true };
        while !waiting.is_empty() {
            if walk.opened == self.state.shape.ef {
                walk.whole = false;
                break;
            }
            let node = super::search::take_least(&mut waiting).expect("a node waits");
            walk.opened += 1;
            if self.denies(node, sought) {
                continue;
            }
            let children = self.children(node)?;
            if children.is_empty() {
                let hit = |v: usize| (self.store.numbers[v], distance(&q, self.vector(v)), v);
                walk.raw.extend(self.given(node, sought, anywhere)?.into_iter().map(hit));
            }
            if walk.raw.len() > most {
                return Err(Damaged);
            }
            self.push(&q, node, children, &mut pushed, &mut waiting)?;
        }
        Ok(walk)
    }
}

fn below(list: Vec<usize>, bound: usize) -> Result<Vec<usize>, Damaged> {
    if list.iter().all(|&x| x < bound) {
        return Ok(list);
    }
    Err(Damaged)
}
