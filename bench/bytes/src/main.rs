//! Prints the bytes and the blocks that collections of `u64`, or of pairs of them, ask of their allocator, if they are made with
//! a capacity and then filled.
use std::alloc::{GlobalAlloc, Layout, System};
use std::collections::hash_map::RandomState;
use std::collections::VecDeque;
use std::sync::atomic::{AtomicUsize, Ordering::Relaxed};

/// Counts what is in use.
struct Counting;

static BYTES: AtomicUsize = AtomicUsize::new(0);
static BLOCKS: AtomicUsize = AtomicUsize::new(0);

unsafe impl GlobalAlloc for Counting {
    unsafe fn alloc(&self, layout: Layout) -> *mut u8 {
        BYTES.fetch_add(layout.size(), Relaxed);
        BLOCKS.fetch_add(1, Relaxed);
        System.alloc(layout)
    }

    unsafe fn dealloc(&self, place: *mut u8, layout: Layout) {
        BYTES.fetch_sub(layout.size(), Relaxed);
        BLOCKS.fetch_sub(1, Relaxed);
        System.dealloc(place, layout);
    }
}

#[global_allocator]
static ALLOCATOR: Counting = Counting;

/// On both sides of a capacity at which a hash table takes twice as many buckets, and two round ones.
const CAPACITIES: [usize; 4] = [448, 449, 512, 1000];

/// Prints a row.
fn measure<T>(name: &str, make: impl Fn(usize) -> T) {
    print!("{name:10}");
    let mut blocks = 0;
    for capacity in CAPACITIES {
        let (bytes_before, blocks_before) = (BYTES.load(Relaxed), BLOCKS.load(Relaxed));
        let made = make(capacity);
        let bytes = BYTES.load(Relaxed) - bytes_before;
        blocks = BLOCKS.load(Relaxed) - blocks_before;
        drop(made);
        print!(" {:5.1}", bytes as f64 / capacity as f64);
    }
    println!("  {blocks}");
}

fn main() {
    println!("bytes an item at capacity {CAPACITIES:?}, and blocks");
    measure("VecDeque", |capacity| {
        let mut queue = VecDeque::with_capacity(capacity);
        queue.extend(0..capacity as u64);
        queue
    });
    measure("slab", |capacity| {
        let mut slab = slab::Slab::with_capacity(capacity);
        (0..capacity as u64).for_each(|value| drop(slab.insert(value)));
        slab
    });
    measure("slotmap", |capacity| {
        let mut map = slotmap::SlotMap::with_capacity(capacity);
        (0..capacity as u64).for_each(|value| drop(map.insert(value)));
        map
    });
    measure("hashbrown", |capacity| {
        let mut map = hashbrown::HashMap::with_capacity_and_hasher(capacity, RandomState::new());
        (0..capacity as u64).for_each(|key| drop(map.insert(key, key)));
        map
    });
    measure("indexmap", |capacity| {
        let mut map = indexmap::IndexMap::with_capacity(capacity);
        (0..capacity as u64).for_each(|key| drop(map.insert(key, key)));
        map
    });
}
