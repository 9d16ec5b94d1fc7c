//! The same operations on Rust's own collections, which are kept within the capacity where ours are.
use std::cmp::Ordering;
use std::collections::{HashMap, VecDeque};
use std::hash::Hasher;
use std::hint::black_box;
use std::sync::atomic::{AtomicU64, AtomicU8, Ordering::SeqCst};

/// The number behind `x` of a multiplicative generator. Its high bits serve.
pub fn step(x: u64) -> u64 {
    x.wrapping_mul(6_364_136_223_846_793_005).wrapping_add(1_442_695_040_888_963_407)
}

fn push_within<T>(queue: &mut VecDeque<T>, capacity: usize, item: T) -> bool {
    let has_room = queue.len() < capacity;
    if has_room {
        queue.push_back(item);
    }
    has_room
}

pub fn queue(rounds: u64, capacity: u64) -> u64 {
    let capacity = capacity as usize;
    let mut queue: VecDeque<u64> = VecDeque::with_capacity(capacity);
    for i in 0..20 {
        push_within(&mut queue, capacity, i);
    }
    let mut sum = 0u64;
    for i in 0..rounds {
        push_within(&mut queue, capacity, i);
        sum = sum.wrapping_add(queue.pop_front().unwrap_or(1));
    }
    sum
}

pub fn overflow(rounds: u64, capacity: u64) -> u64 {
    let mut queue: VecDeque<u64> = (0..capacity).collect();
    let mut sum = 0u64;
    for i in 0..rounds {
        let oldest = queue.pop_front();
        queue.push_back(i);
        sum = sum.wrapping_add(oldest.unwrap_or(1));
    }
    sum
}

pub fn queue_big(rounds: u64, capacity: u64) -> u64 {
    let capacity = capacity as usize;
    let mut queue: VecDeque<[u64; 32]> = VecDeque::with_capacity(capacity);
    for i in 0..5 {
        push_within(&mut queue, capacity, [i; 32]);
    }
    let mut sum = 0u64;
    for i in 0..rounds {
        push_within(&mut queue, capacity, [i; 32]);
        sum = sum.wrapping_add(queue.pop_front().map_or(1, |item| item[(i & 31) as usize]));
    }
    sum
}

pub fn queue_new(rounds: u64, capacity: u64) -> u64 {
    let mut sum = 0u64;
    for i in 0..rounds {
        let mut queue = VecDeque::with_capacity(capacity as usize);
        queue.push_back(i);
        sum = sum.wrapping_add(black_box(&mut queue).pop_front().unwrap_or(1));
    }
    sum
}

/// A map that gives out keys, and gives one that was removed last again first.
struct Keyed {
    values: HashMap<usize, u64>,
    free: Vec<usize>,
}

impl Keyed {
    fn new(capacity: usize) -> Keyed {
        Keyed { values: HashMap::with_capacity(capacity), free: (0..capacity).rev().collect() }
    }

    fn insert(&mut self, value: u64) -> Option<usize> {
        let key = self.free.pop()?;
        self.values.insert(key, value);
        Some(key)
    }

    fn remove(&mut self, key: usize) -> Option<u64> {
        let value = self.values.remove(&key)?;
        self.free.push(key);
        Some(value)
    }
}

pub fn slot_churn(rounds: u64, capacity: u64) -> u64 {
    let mut map = Keyed::new(capacity as usize);
    let mut keys: Vec<usize> = (0..capacity / 2).map(|i| map.insert(i).unwrap_or(0)).collect();
    let (mut x, mut sum) = (1u64, 0u64);
    for i in 0..rounds {
        x = step(x);
        let place = (x >> 33) as usize % keys.len();
        sum = sum.wrapping_add(map.remove(keys[place]).unwrap_or(1));
        keys[place] = map.insert(i).unwrap_or(0);
        x = step(x);
        let place = (x >> 33) as usize % keys.len();
        sum = sum.wrapping_add(map.values.get(&keys[place]).copied().unwrap_or(1));
    }
    sum
}

pub fn slot_at(rounds: u64, capacity: u64) -> u64 {
    let mut values: HashMap<usize, u64> = HashMap::with_capacity(capacity as usize);
    let (mut x, mut sum) = (1u64, 0u64);
    for i in 0..rounds {
        x = step(x);
        let key = (x >> 33) as usize % capacity as usize;
        if values.contains_key(&key) {
            sum = sum.wrapping_add(values.remove(&key).unwrap_or(1));
        } else {
            values.insert(key, i);
        }
    }
    sum
}

pub fn slot_iter(rounds: u64, capacity: u64) -> u64 {
    let mut values: HashMap<u64, u64> = (0..capacity).step_by(2).map(|i| (i, i)).collect();
    let mut sum = 0u64;
    for _ in 0..rounds {
        sum = sum.wrapping_add(values.values().fold(0, |all: u64, value| all.wrapping_add(*value)));
        values.insert(0, sum & 1023);
    }
    sum
}

/// A map that gives out keys, each of them once.
struct Numbered {
    values: HashMap<u64, u64>,
    capacity: usize,
    next: u64,
}

impl Numbered {
    fn new(capacity: usize) -> Numbered {
        Numbered { values: HashMap::with_capacity(capacity), capacity, next: 0 }
    }

    fn insert(&mut self, value: u64) -> Option<u64> {
        if self.values.len() == self.capacity {
            return None;
        }
        let key = self.next;
        self.values.insert(key, value);
        self.next += 1;
        Some(key)
    }
}

pub fn slot_map_churn(rounds: u64, capacity: u64) -> u64 {
    let mut map = Numbered::new(capacity as usize);
    let mut keys: Vec<u64> = (0..capacity / 2).map(|i| map.insert(i).unwrap_or(0)).collect();
    let (mut x, mut sum) = (1u64, 0u64);
    for i in 0..rounds {
        x = step(x);
        let place = (x >> 33) as usize % keys.len();
        sum = sum.wrapping_add(map.values.remove(&keys[place]).unwrap_or(1));
        keys[place] = map.insert(i).unwrap_or(0);
        x = step(x);
        let place = (x >> 33) as usize % keys.len();
        sum = sum.wrapping_add(map.values.get(&keys[place]).copied().unwrap_or(1));
    }
    sum
}

pub fn slot_map_at(rounds: u64, capacity: u64) -> u64 {
    let mut map = Numbered::new(capacity as usize);
    let mut keys = vec![u64::MAX; capacity as usize];
    let (mut x, mut sum) = (1u64, 0u64);
    for i in 0..rounds {
        x = step(x);
        let place = (x >> 33) as usize % keys.len();
        if map.values.contains_key(&keys[place]) {
            sum = sum.wrapping_add(map.values.remove(&keys[place]).unwrap_or(1));
        } else {
            keys[place] = map.insert(i).unwrap_or(0);
        }
    }
    sum
}

pub fn slot_map_iter(rounds: u64, capacity: u64) -> u64 {
    let mut map = Numbered::new(capacity as usize);
    for i in (0..capacity).step_by(2) {
        map.insert(i);
    }
    let (mut first, mut sum) = (0u64, 0u64);
    for _ in 0..rounds {
        sum = sum.wrapping_add(map.values.values().fold(0, |all: u64, value| all.wrapping_add(*value)));
        map.values.remove(&first);
        first = map.insert(sum & 1023).unwrap_or(0);
    }
    sum
}

/// Pairs of which no two have equal keys, which can only be compared.
struct Pairs {
    pairs: Vec<(u64, u64)>,
}

impl Pairs {
    /// As many as `capacity`, with the keys 1, 4, 7 and so on.
    fn full(capacity: u64) -> Pairs {
        let mut map = Pairs { pairs: Vec::with_capacity(capacity as usize) };
        for i in 0..capacity {
            map.insert(i * 3 + 1, i);
        }
        map
    }

    fn insert(&mut self, key: u64, value: u64) -> bool {
        let is_new = self.get(key).is_none();
        if is_new {
            self.pairs.push((key, value));
        }
        is_new
    }

    fn get(&self, key: u64) -> Option<u64> {
        self.pairs.iter().find(|pair| pair.0 == key).map(|pair| pair.1)
    }
}

/// A round looks up a multiple of 3 below `3 * count`, plus `more`.
fn look_up(rounds: u64, count: u64, more: u64, get: impl Fn(u64) -> Option<u64>) -> u64 {
    let (mut x, mut sum) = (1u64, 0u64);
    for _ in 0..rounds {
        x = step(x);
        sum = sum.wrapping_add(get((x >> 33) % count * 3 + more).unwrap_or(1));
    }
    sum
}

fn flat_look_up(rounds: u64, capacity: u64, more: u64) -> u64 {
    let map = Pairs::full(capacity);
    look_up(rounds, capacity, more, |key| map.get(key))
}

pub fn flat_get(rounds: u64, capacity: u64) -> u64 {
    flat_look_up(rounds, capacity, 1)
}

pub fn flat_miss(rounds: u64, capacity: u64) -> u64 {
    flat_look_up(rounds, capacity, 0)
}

/// A map of the keys 1, 4, 7 and so on.
fn hash_map_of(count: u64) -> HashMap<u64, u64> {
    let mut map = HashMap::with_capacity(count as usize);
    map.extend((0..count).map(|i| (3 * i + 1, i)));
    map
}

fn hash_look_up(rounds: u64, count: u64, more: u64) -> u64 {
    let map = hash_map_of(count);
    look_up(rounds, count, more, |key| map.get(&key).copied())
}

pub fn hash_get(rounds: u64, count: u64) -> u64 {
    hash_look_up(rounds, count, 1)
}

pub fn hash_miss(rounds: u64, count: u64) -> u64 {
    hash_look_up(rounds, count, 0)
}

pub fn hash_exchange(rounds: u64, count: u64) -> u64 {
    let mut map = hash_map_of(count);
    let mut sum = 0u64;
    for i in 0..rounds {
        sum = sum.wrapping_add(map.remove(&(3 * i + 1)).unwrap_or(0));
        map.insert(3 * (count + i) + 1, i);
    }
    sum
}

fn vec_push(vec: &mut Vec<u64>, capacity: usize, item: u64) -> bool {
    let has_room = vec.len() < capacity;
    if has_room {
        vec.push(item);
    }
    has_room
}

pub fn vec_push_pop(rounds: u64, capacity: u64) -> u64 {
    let capacity = capacity as usize;
    let mut vec = Vec::with_capacity(capacity);
    let mut sum = 0u64;
    for i in 0..rounds {
        vec_push(&mut vec, capacity, i);
        vec_push(&mut vec, capacity, i ^ sum);
        sum = sum.wrapping_add(vec.pop().unwrap_or(1));
        if vec.len() >= 60 {
            vec.clear();
        }
    }
    sum
}

pub fn vec_ins_rem(rounds: u64, capacity: u64) -> u64 {
    let mut vec: Vec<u64> = Vec::with_capacity(capacity as usize);
    vec.extend((0..32).rev());
    let (mut x, mut sum) = (1u64, 0u64);
    for i in 0..rounds {
        x = step(x);
        vec.insert((x >> 59) as usize, i);
        sum = sum.wrapping_add(vec.remove((x >> 54 & 31) as usize));
    }
    sum
}

pub fn vec_extend(rounds: u64, capacity: u64) -> u64 {
    let mut vec: Vec<u64> = Vec::with_capacity(capacity as usize);
    let mut from = [7u64; 16];
    let mut sum = 0u64;
    for i in 0..rounds {
        from[(i & 15) as usize] = i;
        vec.extend_from_slice(&from);
        vec.extend_from_slice(&from);
        vec.extend_from_slice(&from);
        sum = sum.wrapping_add(vec[(i & 31) as usize]);
        vec.clear();
    }
    sum
}

pub fn vec_new(rounds: u64, capacity: u64) -> u64 {
    let mut sum = 0u64;
    for i in 0..rounds {
        let mut vec = Vec::with_capacity(capacity as usize);
        vec.push(i);
        sum = sum.wrapping_add(black_box(&vec)[0]);
    }
    sum
}

pub fn vec_refuse(rounds: u64, capacity: u64) -> u64 {
    let mut vec = vec![1; capacity as usize];
    let mut sum = 0u64;
    for i in 0..rounds {
        sum = sum.wrapping_add(!vec_push(black_box(&mut vec), capacity as usize, i) as u64);
    }
    sum
}

/// `abc` again and again, 100 bytes, with `xyz!` at 90, and `last` at the end.
fn sample(capacity: u64, last: char) -> String {
    let mut text = String::with_capacity(capacity as usize);
    text.extend("abc".chars().cycle().take(99));
    text.replace_range(90..94, "xyz!");
    text.push(last);
    text
}

fn set_last(text: &mut String, i: u64) {
    text.pop();
    text.push((97 + (i & 1) as u8) as char);
}

pub fn str_push(rounds: u64, capacity: u64) -> u64 {
    let mut text = String::with_capacity(capacity as usize);
    let mut word = *b"abcdefgh";
    let mut sum = 0u64;
    for i in 0..rounds {
        word[(i & 7) as usize] = 97 + (i & 15) as u8;
        if text.len() + word.len() <= capacity as usize {
            text.push_str(std::str::from_utf8(&word).unwrap_or(""));
        }
        sum = sum.wrapping_add(text.len() as u64);
        if text.len() == 120 {
            text.clear();
        }
    }
    sum
}

pub fn str_find(rounds: u64, capacity: u64) -> u64 {
    let text = sample(capacity, 'a');
    let words = ["xyz!", "xyz\""];
    (0..rounds).fold(0, |sum: u64, i| sum.wrapping_add(text.find(words[(i & 1) as usize]).unwrap_or(200) as u64))
}

pub fn str_eq(rounds: u64, capacity: u64) -> u64 {
    let (text, mut other) = (sample(capacity, 'a'), sample(capacity, 'a'));
    let mut sum = 0u64;
    for i in 0..rounds {
        set_last(&mut other, i);
        sum = sum.wrapping_add((text == other) as u64);
    }
    sum
}

pub fn str_cmp(rounds: u64, capacity: u64) -> u64 {
    let (text, mut other) = (sample(capacity, 'a'), sample(capacity, 'a'));
    let mut sum = 0u64;
    for i in 0..rounds {
        set_last(&mut other, i);
        sum = sum.wrapping_add(match text.cmp(&other) {
            Ordering::Less => 0,
            Ordering::Equal => 1,
            Ordering::Greater => 2,
        });
    }
    sum
}

/// The hash function FNV-1a, of 64 bits.
struct Fnv(u64);

impl Hasher for Fnv {
    fn finish(&self) -> u64 {
        self.0
    }

    fn write(&mut self, bytes: &[u8]) {
        for byte in bytes {
            self.0 = (self.0 ^ *byte as u64).wrapping_mul(0x100_0000_01b3);
        }
    }
}

pub fn str_hash(rounds: u64, capacity: u64) -> u64 {
    let mut text = sample(capacity, 'a');
    let mut sum = 0u64;
    for i in 0..rounds {
        set_last(&mut text, i);
        let mut hasher = Fnv(0xcbf2_9ce4_8422_2325);
        hasher.write(text.as_bytes());
        sum = sum.wrapping_add(hasher.finish());
    }
    sum
}

pub fn str_ins_rem(rounds: u64, capacity: u64) -> u64 {
    let mut text = sample(capacity, 'a');
    let (mut x, mut sum) = (1u64, 0u64);
    for i in 0..rounds {
        x = step(x);
        let place = (x >> 58 & 63) as usize;
        text.insert_str(place, "wxyz");
        text.replace_range(place..place + 4, "");
        sum = sum.wrapping_add(text.as_bytes()[(i & 63) as usize] as u64);
    }
    sum
}

/// A sequence lock round atomic bytes: the version is odd during a write.
struct SequenceLock {
    version: AtomicU64,
    bytes: Box<[AtomicU8]>,
}

impl SequenceLock {
    fn new(size: u64) -> Self {
        SequenceLock { version: AtomicU64::new(0), bytes: (0..size).map(|_| AtomicU8::new(0)).collect() }
    }

    /// The one writer knows the version.
    fn write(&self, version: u64, value: &[u8]) {
        self.version.store(version + 1, SeqCst);
        for (byte, new) in self.bytes.iter().zip(value) {
            byte.store(*new, SeqCst);
        }
        self.version.store(version + 2, SeqCst);
    }

    /// Tells whether `value` is whole.
    fn try_read(&self, value: &mut [u8]) -> bool {
        let first = self.version.load(SeqCst);
        for (byte, out) in self.bytes.iter().zip(value) {
            *out = byte.load(SeqCst);
        }
        let last = self.version.load(SeqCst);
        first == last && first % 2 == 0
    }
}

pub fn seq_write(rounds: u64, size: u64) -> u64 {
    let lock = SequenceLock::new(size);
    let mut value = vec![7; size as usize];
    for i in 0..rounds {
        value[0] = i as u8;
        lock.write(2 * i, &value);
    }
    lock.version.load(SeqCst)
}

pub fn seq_read(rounds: u64, size: u64) -> u64 {
    let lock = SequenceLock::new(size);
    let mut value = vec![7; size as usize];
    let mut sum = 0u64;
    for i in 0..rounds {
        if lock.try_read(&mut value) {
            sum = sum.wrapping_add(value[(i & 7) as usize] as u64 + 1);
        }
    }
    sum
}

/// A name of a group: lower-case letters, digits and dashes, a letter first.
#[derive(Clone, Copy, PartialEq)]
struct GroupName {
    bytes: [u8; 31],
    len: usize,
}

impl GroupName {
    fn new(bytes: &[u8]) -> Option<GroupName> {
        let starts_well = !matches!(bytes.first()?, b'-' | b'0'..=b'9');
        let are_allowed = bytes.iter().all(|byte| matches!(byte, b'a'..=b'z' | b'0'..=b'9' | b'-'));
        if !starts_well || !are_allowed || bytes.len() > 31 {
            return None;
        }
        let mut name = GroupName { bytes: [0; 31], len: bytes.len() };
        name.bytes[..bytes.len()].copy_from_slice(bytes);
        Some(name)
    }
}

pub fn sem_new(rounds: u64, _capacity: u64) -> u64 {
    let mut word = *b"abcdefghijklmnop";
    let mut sum = 0u64;
    for i in 0..rounds {
        word[(i & 15) as usize] = 97 + (i & 15) as u8;
        sum = sum.wrapping_add(GroupName::new(&word).map_or(1, |name| name.len as u64));
    }
    sum
}

pub fn sem_cmp(rounds: u64, _capacity: u64) -> u64 {
    let names = [b"abcdefghijklmnop", b"abcdefghijklmnoq"].map(|bytes| GroupName::new(bytes));
    let name = names[0];
    (0..rounds).fold(0, |sum: u64, i| sum.wrapping_add((name == names[(i & 1) as usize]) as u64))
}
