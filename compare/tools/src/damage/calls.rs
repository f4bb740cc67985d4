//! Calls on copies of the lists that lie between guard pages.
use super::guard::Guarded;
use crate::ffi::{self, Added, Asked, Filled, Store, StoreMut};
use crate::ours::{Lists, Ours, STATE};
use crate::parting::Name;

/// What a call left.
pub struct Left {
    pub code: u32,
    pub ours: Ours,
    pub ids: Vec<u32>,
    pub distances: Vec<f32>,
    pub answer: [usize; 3],
}

/// What the answer lists hold before a search.
pub const OLD: (u32, f32, usize) = (0xDEAD_BEEF, -77.0, 0x7777);

struct Lent {
    state: Guarded<usize>,
    floats: Guarded<f32>,
    numbers: Guarded<u32>,
    hashes: Guarded<u64>,
    text: Guarded<u8>,
    work: Guarded<u32>,
    ids: Guarded<u32>,
    distances: Guarded<f32>,
    answer: Guarded<usize>,
}

impl Lent {
    fn new(ours: &Ours, places: usize) -> Lent {
        Lent {
            state: Guarded::new(&ours.state),
            floats: Guarded::new(&ours.lists.floats),
            numbers: Guarded::new(&ours.lists.numbers),
            hashes: Guarded::new(&ours.lists.hashes),
            text: Guarded::new(&ours.lists.text),
            work: Guarded::new(&ours.lists.work),
            ids: Guarded::new(&vec![OLD.0; places]),
            distances: Guarded::new(&vec![OLD.1; places]),
            answer: Guarded::new(&[OLD.2; 3]),
        }
    }

    fn store_mut(&mut self) -> StoreMut<'_> {
        let (floats, numbers) = (self.floats.get_mut(), self.numbers.get_mut());
        StoreMut { floats, numbers, hashes: self.hashes.get_mut(), text: self.text.get_mut() }
    }

    fn intact(&self) -> bool {
        self.state.intact()
            && self.floats.intact()
            && self.numbers.intact()
            && self.hashes.intact()
            && self.text.intact()
            && self.work.intact()
            && self.ids.intact()
            && self.distances.intact()
            && self.answer.intact()
    }

    fn left(self, code: u32) -> Result<Left, String> {
        if !self.intact() {
            return Err("written before a list".into());
        }
        let lists = Lists {
            floats: self.floats.get().to_vec(),
            numbers: self.numbers.get().to_vec(),
            hashes: self.hashes.get().to_vec(),
            text: self.text.get().to_vec(),
            work: self.work.get().to_vec(),
        };
        let state: [usize; STATE] = self.state.get().try_into().expect("a state");
        let ours = Ours { state, lists };
        Ok(Left {
            code,
            ours,
            ids: self.ids.get().to_vec(),
            distances: self.distances.get().to_vec(),
            answer: self.answer.get().try_into().expect("3 numbers"),
        })
    }
}

pub fn add(ours: &Ours, added: &Added) -> Result<Left, String> {
    let mut lent = Lent::new(ours, 0);
    let mut state = ours.state;
    let (lengths, bytes) = (Guarded::new(&added.lengths), Guarded::new(&added.bytes));
    let code = ffi::add_lists(&mut state, lent.store_mut(), added.id, &added.vector, lengths.get(), bytes.get());
    lent.state = Guarded::new(&state);
    lent.left(code)
}

pub fn take_back(ours: &Ours) -> Result<Left, String> {
    let mut lent = Lent::new(ours, 0);
    let store = Store { floats: lent.floats.get(), numbers: lent.numbers.get(), hashes: lent.hashes.get(), text: lent.text.get() };
    let code = ffi::take_back(lent.state.get_mut(), store);
    lent.left(code)
}

pub fn withdraw(ours: &Ours, id: u32) -> Result<Left, String> {
    let mut lent = Lent::new(ours, 0);
    let state = Guarded::new(&ours.state);
    let code = ffi::withdraw(state.get(), lent.store_mut(), id);
    lent.state = state;
    lent.left(code)
}

pub fn build(ours: &Ours) -> Result<Left, String> {
    let mut lent = Lent::new(ours, 0);
    let mut state = ours.state;
    let mut work = Guarded::new(lent.work.get());
    let code = ffi::build(&mut state, lent.store_mut(), work.get_mut());
    lent.state = Guarded::new(&state);
    lent.work = work;
    lent.left(code)
}

fn lent_name(parts: &Option<[Guarded<u8>; 2]>) -> Option<Name<'_>> {
    parts.as_ref().map(|[first, second]| Name { first: first.get(), second: second.get() })
}

pub fn search(ours: &Ours, asked: Asked, places: usize) -> Result<Left, String> {
    let mut lent = Lent::new(ours, places);
    let [one, two] = [asked.label, asked.other].map(|name| name.map(|name| [Guarded::new(name.first), Guarded::new(name.second)]));
    let (label, other) = (lent_name(&one), lent_name(&two));
    let store = Store { floats: lent.floats.get(), numbers: lent.numbers.get(), hashes: lent.hashes.get(), text: lent.text.get() };
    let filled = Filled { ids: lent.ids.get_mut(), distances: lent.distances.get_mut(), answer: lent.answer.get_mut() };
    let code = ffi::search(lent.state.get(), store, lent.work.get_mut(), Asked { label, other, ..asked }, filled);
    lent.left(code)
}
