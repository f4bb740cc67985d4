//! memory: bytes that each side holds after a build, in Markdown. The Rust's are counted by the allocator.
use std::alloc::{GlobalAlloc, Layout, System};
use std::sync::atomic::{AtomicUsize, Ordering::Relaxed};
use tools::bench::inputs::case;
use tools::ours::{Lists, Ours, Shape};
use tools::theirs;

static HELD: AtomicUsize = AtomicUsize::new(0);

struct Counting;

unsafe impl GlobalAlloc for Counting {
    unsafe fn alloc(&self, layout: Layout) -> *mut u8 {
        HELD.fetch_add(layout.size(), Relaxed);
        System.alloc(layout)
    }

    unsafe fn dealloc(&self, place: *mut u8, layout: Layout) {
        HELD.fetch_sub(layout.size(), Relaxed);
        System.dealloc(place, layout)
    }
}

#[global_allocator]
static COUNTING: Counting = Counting;

/// The node count of the tree, so that the capacity is no larger than needed.
fn nodes(n: usize, each: usize) -> usize {
    let case = case(n, each, 256);
    let mut ours = Ours::new(case.shape, Lists::new(case.shape, 0, 0)).expect("new");
    for doc in &case.docs {
        ours.add(doc.id, &doc.vector, &doc.labels).expect("add");
    }
    ours.build().expect("build");
    ours.state[10]
}

fn main() {
    println!("| n | labels a vector | our store | our work list | Rust | Rust / ours |");
    println!("|---|---|---|---|---|---|");
    for (n, each) in [(4096, 1), (4096, 4), (256, 1), (256, 4)] {
        let case = case(n, each, 256);
        let shape = Shape { nodes: nodes(n, each), ..case.shape };
        let store = 4 * shape.floats() + 4 * shape.numbers() + 8 * shape.hashes() + shape.text;
        let work = 4 * shape.work();
        let before = HELD.load(Relaxed);
        let index = theirs::built(&case);
        let held = HELD.load(Relaxed) - before + std::mem::size_of_val(&index);
        println!("| {n} | {each} | {store} | {work} | {held} | {:.2} |", held as f64 / (store + work) as f64);
    }
}
