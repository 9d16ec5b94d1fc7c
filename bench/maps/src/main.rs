//! Times allocated hash maps of `u64` beside hashbrown's with the same hasher, with keys that look random, and prints a table: the
//! least nanoseconds of processor time of an operation, of as many turns as the argument says, in which all sides take part.
use hashbrown::HashMap;
use std::hash::{BuildHasherDefault, Hasher};
use std::hint::black_box;

/// The default hasher of Tolkzin's maps, for keys of eight bytes.
struct Fold(u64);

impl Default for Fold {
    fn default() -> Fold {
        Fold(0x243f_6a88_85a3_08d3)
    }
}

impl Hasher for Fold {
    fn write(&mut self, bytes: &[u8]) {
        let word = u64::from_le_bytes(bytes.try_into().expect("keys of eight bytes"));
        let product = (self.0 ^ word) as u128 * 0x9e37_79b9_7f4a_7c05;
        self.0 = product as u64 ^ (product >> 64) as u64;
    }

    fn finish(&self) -> u64 {
        self.0
    }
}

type Map = HashMap<u64, u64, BuildHasherDefault<Fold>>;

fn step(x: u64) -> u64 {
    x.wrapping_mul(6_364_136_223_846_793_005).wrapping_add(1_442_695_040_888_963_407)
}

fn drawn(number: u64) -> u64 {
    let product = number.wrapping_mul(6_364_136_223_846_793_005);
    (product ^ product >> 32).wrapping_mul(6_364_136_223_846_793_005)
}

fn map_of(count: u64, capacity: u64) -> Map {
    let mut map = Map::with_capacity_and_hasher(capacity as usize, Default::default());
    map.extend((0..count).map(|number| (drawn(number), number)));
    map
}

fn look_up(map: &Map, rounds: u64, count: u64, more: u64) -> u64 {
    let mut x = 1;
    (0..rounds).fold(0u64, |sum, _| {
        x = step(x);
        let key = drawn((x >> 33) % count + more);
        sum.wrapping_add(map.get(&key).copied().unwrap_or(1))
    })
}

fn exchange(map: &mut Map, rounds: u64, count: u64) -> u64 {
    (0..rounds).fold(0u64, |sum, oldest| {
        let value = map.remove(&drawn(oldest)).unwrap_or(0);
        map.insert(drawn(oldest + count), oldest);
        sum.wrapping_add(value)
    })
}

/// A kernel makes a map of `count` keys, runs an operation so many rounds, and answers a checksum.
type Kernel = fn(rounds: u64, count: u64) -> u64;

/// The library's kernel of a name.
macro_rules! linked {
    ($kernel:ident) => {
        |rounds, count| {
            extern "C" {
                fn $kernel(rounds: u64, count: u64) -> u64;
            }
            // SAFETY: the library proves that its kernels are safe for all numbers.
            unsafe { $kernel(rounds, count) }
        }
    };
}

/// An operation on Tolkzin's map and on hashbrown's, each full and half full.
const ROWS: [(&str, [Kernel; 4]); 3] = [
    (
        "held key",
        [
            linked!(ix_bench_drawn_get),
            linked!(ix_bench_drawn_get__half),
            |rounds, count| look_up(&map_of(count, count), rounds, count, 0),
            |rounds, count| look_up(&map_of(count, 2 * count), rounds, count, 0),
        ],
    ),
    (
        "absent key",
        [
            linked!(ix_bench_drawn_miss),
            linked!(ix_bench_drawn_miss__half),
            |rounds, count| look_up(&map_of(count, count), rounds, count, count),
            |rounds, count| look_up(&map_of(count, 2 * count), rounds, count, count),
        ],
    ),
    (
        "exchange",
        [
            linked!(ix_bench_drawn_exchange),
            linked!(ix_bench_drawn_exchange__half),
            |rounds, count| exchange(&mut map_of(count, count), rounds, count),
            |rounds, count| exchange(&mut map_of(count, 2 * count), rounds, count),
        ],
    ),
];

const COUNTS: [u64; 5] = [8, 64, 512, 4096, 65_536];

#[repr(C)]
struct Moment {
    seconds: i64,
    nanoseconds: i64,
}

extern "C" {
    fn clock_gettime(clock: i32, moment: *mut Moment) -> i32;
}

/// The processor time of this process.
fn now() -> f64 {
    const PROCESS_TIME: i32 = 2;
    let mut moment = Moment { seconds: 0, nanoseconds: 0 };
    // SAFETY: the call writes the moment, which has the form that the C library on x86-64 gives it.
    assert_eq!(unsafe { clock_gettime(PROCESS_TIME, &mut moment) }, 0);
    moment.seconds as f64 * 1e9 + moment.nanoseconds as f64
}

/// Nanoseconds of a run.
fn time(kernel: Kernel, rounds: u64, count: u64) -> f64 {
    let start = now();
    black_box(kernel(black_box(rounds), black_box(count)));
    now() - start
}

/// The least nanoseconds of a round of each kernel. What is done once falls out, as a run of few rounds tells.
fn least(kernels: &[Kernel; 4], turns: usize, count: u64) -> [f64; 4] {
    let few = 2000;
    let many = if count < 10_000 { 300_000 } else { 1_000_000 };
    let sums = kernels.map(|kernel| kernel(few, count));
    assert!(sums.iter().all(|&sum| sum == sums[0]), "the checksums differ");
    let mut times = [[f64::INFINITY; 2]; 4];
    for _ in 0..turns {
        for (kernel, least) in kernels.iter().zip(&mut times) {
            least[0] = least[0].min(time(*kernel, few, count));
            least[1] = least[1].min(time(*kernel, few + many, count));
        }
    }
    times.map(|[few, all]| (all - few) / many as f64)
}

fn main() {
    let turns = std::env::args().nth(1).map_or(15, |word| word.parse().expect("a number of turns"));
    println!("| operation, keys | full | half | hashbrown | hashbrown, half | of hashbrown | half |");
    println!("|---|---|---|---|---|---|---|");
    for (operation, kernels) in &ROWS {
        for count in COUNTS {
            let [full, half, peer, peer_half] = least(kernels, turns, count);
            println!("| {operation}, {count} | {full:.1} | {half:.1} | {peer:.1} | {peer_half:.1} | {:.2} | {:.2} |", full / peer, half / peer_half);
        }
    }
}
