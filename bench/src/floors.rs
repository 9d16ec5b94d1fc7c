//! Twins in plain Rust of the steps that the language asks of the library: what its operations can take at the least.
//!
//! A place of an array always holds a value, so that an item which leaves it is replaced by another, and `None` is stored as a
//! whole. Each store of an atomic word is sequentially consistent.
use crate::plain::step;
use std::mem::replace;
use std::sync::atomic::{AtomicU64, Ordering::SeqCst};

const CAPACITY: usize = 64;

/// A vector in an array whose places behind the items hold zeros.
struct FullArray {
    places: [u64; CAPACITY],
    len: usize,
}

impl FullArray {
    fn new() -> FullArray {
        FullArray { places: [0; CAPACITY], len: 0 }
    }

    fn push(&mut self, item: u64) -> bool {
        let len = self.len;
        let has_room = len < CAPACITY;
        if has_room {
            self.places[len] = item;
            self.len = len + 1;
        }
        has_room
    }

    fn pop(&mut self) -> Option<u64> {
        let last = self.len.checked_sub(1)?;
        let item = replace(&mut self.places[last], 0);
        self.len = last;
        Some(item)
    }

    fn insert(&mut self, index: usize, item: u64) -> bool {
        let len = self.len;
        let fits = len < CAPACITY && index <= len;
        if fits {
            self.places.copy_within(index..len, index + 1);
            self.places[index] = item;
            self.len = len + 1;
        }
        fits
    }

    fn remove(&mut self, index: usize) -> Option<u64> {
        let last = self.len.checked_sub(1)?;
        if index > last {
            return None;
        }
        let item = self.places[index];
        self.places.copy_within(index + 1..=last, index);
        self.places[last] = 0;
        self.len = last;
        Some(item)
    }

    fn extend(&mut self, items: &[u64]) -> bool {
        let len = self.len;
        let fits = items.len() <= CAPACITY - len;
        if fits {
            self.places[len..len + items.len()].copy_from_slice(items);
            self.len = len + items.len();
        }
        fits
    }

    fn clear(&mut self) {
        for place in self.places[..self.len].iter_mut().rev() {
            *place = 0;
        }
        self.len = 0;
    }
}

pub fn vec_push_pop(rounds: u64, _capacity: u64) -> u64 {
    let mut vector = FullArray::new();
    let mut sum = 0u64;
    for i in 0..rounds {
        vector.push(i);
        vector.push(i ^ sum);
        sum = sum.wrapping_add(vector.pop().unwrap_or(1));
        if vector.len >= 60 {
            vector.clear();
        }
    }
    sum
}

pub fn vec_ins_rem(rounds: u64, _capacity: u64) -> u64 {
    let mut vector = FullArray::new();
    for i in 0..32 {
        vector.insert(0, i);
    }
    let (mut x, mut sum) = (1u64, 0u64);
    for i in 0..rounds {
        x = step(x);
        vector.insert((x >> 59) as usize, i);
        sum = sum.wrapping_add(vector.remove((x >> 54 & 31) as usize).unwrap_or(1));
    }
    sum
}

pub fn vec_extend(rounds: u64, _capacity: u64) -> u64 {
    let mut vector = FullArray::new();
    let mut from = [7u64; 16];
    let mut sum = 0u64;
    for i in 0..rounds {
        from[(i & 15) as usize] = i;
        vector.extend(&from);
        vector.extend(&from);
        vector.extend(&from);
        sum = sum.wrapping_add(vector.places[..vector.len][(i & 31) as usize]);
        vector.clear();
    }
    sum
}

type Large = [u64; 32];

/// An optional item, all of whose bytes are written where it is replaced.
#[derive(Clone, Copy)]
struct Place {
    is_held: bool,
    item: Large,
}

const EMPTY: Place = Place { is_held: false, item: [0; 32] };

struct Ring {
    places: [Place; 16],
    start: usize,
    len: usize,
}

impl Ring {
    fn place_after(&self, count: usize) -> usize {
        let place = self.start + count;
        if place >= self.places.len() {
            place - self.places.len()
        } else {
            place
        }
    }

    fn push(&mut self, item: Large) -> bool {
        let has_room = self.len < self.places.len();
        if has_room {
            let end = self.place_after(self.len);
            self.places[end] = Place { is_held: true, item };
            self.len += 1;
        }
        has_room
    }

    fn pop(&mut self) -> Option<Large> {
        let rest = self.len.checked_sub(1)?;
        let next = self.place_after(1);
        let front = replace(&mut self.places[self.start], EMPTY);
        self.start = next;
        self.len = rest;
        front.is_held.then_some(front.item)
    }
}

pub fn queue_big(rounds: u64, _capacity: u64) -> u64 {
    let mut queue = Ring { places: [EMPTY; 16], start: 0, len: 0 };
    for i in 0..5 {
        queue.push([i; 32]);
    }
    let mut sum = 0u64;
    for i in 0..rounds {
        queue.push([i; 32]);
        sum = sum.wrapping_add(queue.pop().map_or(1, |item| item[(i & 31) as usize]));
    }
    sum
}

/// A sequence lock over words of eight bytes.
struct Words {
    version: AtomicU64,
    words: Vec<AtomicU64>,
}

impl Words {
    /// Loads the version, exchanges it for the next one, stores each word, and the version after it.
    fn try_write(&self, value: &[u8]) -> bool {
        let loaded = self.version.load(SeqCst);
        if loaded % 2 == 1 || self.version.compare_exchange(loaded, loaded + 1, SeqCst, SeqCst).is_err() {
            return false;
        }
        for (word, bytes) in self.words.iter().zip(value.chunks_exact(8)) {
            word.store(u64::from_le_bytes(bytes.try_into().unwrap_or_default()), SeqCst);
        }
        self.version.store(loaded + 2, SeqCst);
        true
    }
}

pub fn seq_write(rounds: u64, size: u64) -> u64 {
    let cell = Words { version: AtomicU64::new(0), words: (0..size / 8).map(|_| AtomicU64::new(0)).collect() };
    let mut value = vec![7; size as usize];
    for i in 0..rounds {
        value[0] = i as u8;
        cell.try_write(&value);
    }
    cell.version.load(SeqCst)
}
