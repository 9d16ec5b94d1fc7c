//! The kernels of the library `bench_kernels`, beside their peers, and at any capacity.
use crate::{floors, plain, Kernel, Operation};

/// The library's kernel of a name.
macro_rules! kernel {
    ($linked:ident) => {
        |rounds, param| {
            extern "C" {
                fn $linked(rounds: u64, param: u64) -> u64;
            }
            // SAFETY: the library proves that its kernels are safe for all numbers.
            unsafe { $linked(rounds, param) }
        }
    };
}

/// Lists the library's kernels, of which one may serve several operations, beside their peers.
macro_rules! operations {
    ($list:ident: $($name:ident = $linked:ident, $param:expr, $peer:literal, $theirs:path;)*) => {
        pub const $list: &[Operation] = &[$(Operation {
            name: stringify!($name),
            param: $param,
            ours: kernel!($linked),
            peer: $peer,
            theirs: $theirs,
        }),*];
    };
}

operations! {
    BESIDE_STD:
    queue_fixed = ix_bench_queue_fixed, 64, "VecDeque", plain::queue;
    queue_heap = ix_bench_queue_heap, 64, "VecDeque", plain::queue;
    overflow_fixed = ix_bench_overflow_fixed, 64, "VecDeque", plain::overflow;
    overflow_heap = ix_bench_overflow_heap, 64, "VecDeque", plain::overflow;
    queue_big = ix_bench_queue_big, 16, "VecDeque", plain::queue_big;
    queue_big_heap = ix_bench_queue_big_heap, 16, "VecDeque", plain::queue_big;
    queue_new = ix_bench_queue_new, 64, "VecDeque", plain::queue_new;
    slot_churn_fixed = ix_bench_slot_churn_fixed, 512, "HashMap", plain::slot_churn;
    slot_churn_heap = ix_bench_slot_churn_heap, 512, "HashMap", plain::slot_churn;
    slot_at = ix_bench_slot_at, 512, "HashMap", plain::slot_at;
    slot_iter = ix_bench_slot_iter, 512, "HashMap", plain::slot_iter;
    slot_map_churn_fixed = ix_bench_slot_map_churn_fixed, 512, "HashMap", plain::slot_map_churn;
    slot_map_churn_heap = ix_bench_slot_map_churn_heap, 512, "HashMap", plain::slot_map_churn;
    slot_map_at = ix_bench_slot_map_at, 512, "HashMap", plain::slot_map_at;
    slot_map_iter = ix_bench_slot_map_iter, 512, "HashMap", plain::slot_map_iter;
    flat_get_8 = ix_bench_flat_get, 8, "Vec of pairs", plain::flat_get;
    flat_get_64 = ix_bench_flat_get, 64, "Vec of pairs", plain::flat_get;
    flat_get_512 = ix_bench_flat_get, 512, "Vec of pairs", plain::flat_get;
    flat_miss_8 = ix_bench_flat_miss, 8, "Vec of pairs", plain::flat_miss;
    flat_miss_64 = ix_bench_flat_miss, 64, "Vec of pairs", plain::flat_miss;
    flat_miss_512 = ix_bench_flat_miss, 512, "Vec of pairs", plain::flat_miss;
    hash_get = ix_bench_hash_get, 512, "HashMap", plain::hash_get;
    hash_miss = ix_bench_hash_miss, 512, "HashMap", plain::hash_miss;
    hash_exchange = ix_bench_hash_exchange, 512, "HashMap", plain::hash_exchange;
    vec_push_pop = ix_bench_vec_push_pop, 64, "Vec", plain::vec_push_pop;
    vec_ins_rem = ix_bench_vec_ins_rem, 64, "Vec", plain::vec_ins_rem;
    vec_extend = ix_bench_vec_extend, 64, "Vec", plain::vec_extend;
    vec_new = ix_bench_vec_new, 64, "Vec", plain::vec_new;
    vec_refuse = ix_bench_vec_refuse, 64, "Vec", plain::vec_refuse;
    str_push = ix_bench_str_push, 123, "String", plain::str_push;
    str_find = ix_bench_str_find, 123, "&str", plain::str_find;
    str_eq = ix_bench_str_eq, 123, "String", plain::str_eq;
    str_cmp = ix_bench_str_cmp, 123, "String", plain::str_cmp;
    str_hash = ix_bench_str_hash, 123, "String", plain::str_hash;
    str_ins_rem = ix_bench_str_ins_rem, 123, "String", plain::str_ins_rem;
    sem_new = ix_bench_sem_new, 31, "array", plain::sem_new;
    sem_cmp = ix_bench_sem_cmp, 31, "array", plain::sem_cmp;
    seq_write_8 = ix_bench_seq_write, 8, "sequence lock", plain::seq_write;
    seq_write_64 = ix_bench_seq_write, 64, "sequence lock", plain::seq_write;
    seq_write_256 = ix_bench_seq_write, 256, "sequence lock", plain::seq_write;
    seq_read_8 = ix_bench_seq_read, 8, "sequence lock", plain::seq_read;
    seq_read_64 = ix_bench_seq_read, 64, "sequence lock", plain::seq_read;
    seq_read_256 = ix_bench_seq_read, 256, "sequence lock", plain::seq_read;
}

operations! {
    BESIDE_FLOORS:
    vec_push_pop = ix_bench_vec_push_pop, 64, "full array", floors::vec_push_pop;
    vec_ins_rem = ix_bench_vec_ins_rem, 64, "full array", floors::vec_ins_rem;
    vec_extend = ix_bench_vec_extend, 64, "full array", floors::vec_extend;
    queue_big = ix_bench_queue_big, 16, "array of whole places", floors::queue_big;
    seq_write_8 = ix_bench_seq_write, 8, "exchanged words", floors::seq_write;
    seq_write_64 = ix_bench_seq_write, 64, "exchanged words", floors::seq_write;
    seq_write_256 = ix_bench_seq_write, 256, "exchanged words", floors::seq_write;
}

/// What a round of each kernel does whose `param` is a capacity.
pub const OF_ANY_CAPACITY: &[(&str, Kernel)] = &[
    ("queue: push, pop", kernel!(ix_bench_queue_heap)),
    ("queue: push_with_overflow", kernel!(ix_bench_overflow_heap)),
    ("slot table: remove, insert, get", kernel!(ix_bench_slot_churn_heap)),
    ("slot table: insert_at or remove", kernel!(ix_bench_slot_at)),
    ("slot table: iterate", kernel!(ix_bench_slot_iter)),
    ("slot map: remove, insert, get", kernel!(ix_bench_slot_map_churn_heap)),
    ("slot map: insert_at or remove", kernel!(ix_bench_slot_map_at)),
    ("slot map: iterate", kernel!(ix_bench_slot_map_iter)),
    ("flat map: get a held key", kernel!(ix_bench_flat_get)),
    ("flat map: get an absent key", kernel!(ix_bench_flat_miss)),
    ("hash map: get a held key", kernel!(ix_bench_hash_get)),
    ("hash map: get an absent key", kernel!(ix_bench_hash_miss)),
    ("hash map: remove, insert", kernel!(ix_bench_hash_exchange)),
    ("vector: push, pop", kernel!(ix_bench_vec_push_pop_heap)),
    ("vector: insert and remove at 0", kernel!(ix_bench_vec_ins_rem_heap)),
    ("string: push, pop", kernel!(ix_bench_str_push_pop_heap)),
    ("string: find an absent text", kernel!(ix_bench_str_find_heap)),
];
