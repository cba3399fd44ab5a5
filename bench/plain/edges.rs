//! Probe windows that threads share, a word an edge: as atomics, and under one lock.
use crate::views::MOST_THREADS;
use std::hint::black_box;
use std::sync::Mutex;
use std::sync::atomic::{AtomicU64, Ordering};
use std::time::Instant;

const TIMES: u32 = 1_000_000;
const RUNS: u32 = 20;
const EDGES: usize = 16;
const WINDOW: u64 = 0x3ff;
const DOWN: u64 = 0x4000;

/// The word after one more result, by the word before: bits 0 to 9 are the last ten results, the
/// newest in bit 0 and a failure 1, bits 10 to 13 how many there are, bit 14 whether it is down.
fn next_word(word: u64, ok: bool) -> u64 {
    let window = (word << 1 | u64::from(!ok)) & WINDOW;
    let count = ((word >> 10 & 0xf) + 1).min(10);
    let down = word >= DOWN || window.count_ones() >= 4;
    window | count << 10 | if down { DOWN } else { 0 }
}

/// How many nanoseconds it takes this many threads to do this, each by its number.
fn time(threads: usize, work: &(impl Fn(usize) + Sync)) -> u128 {
    let start = Instant::now();
    std::thread::scope(|scope| {
        for thread in 0..threads {
            scope.spawn(move || work(thread));
        }
    });
    start.elapsed().as_nanos()
}

/// Prints the nanoseconds of a hundred of the calls that are the work of a thread.
fn measure(name: &str, work: impl Fn(usize) + Sync) {
    for threads in [1, MOST_THREADS] {
        let least = (0..RUNS).map(|_| time(threads, &work)).min().unwrap();
        println!("{name}_{threads} {}", least / (TIMES / 100) as u128);
    }
}

/// Each thread takes results of an edge of its own.
fn probe(words: &[AtomicU64], edge: usize, load: Ordering, store: Ordering) {
    for _ in 0..TIMES {
        let next = next_word(words[edge].load(load), black_box(true));
        words[edge].store(next, store);
        black_box(next >= DOWN);
    }
}

/// Each thread looks at each edge in turn.
fn look(is_down: impl Fn(usize) -> bool) {
    let mut edge = 0;
    for _ in 0..TIMES {
        black_box(is_down(edge));
        edge = if edge + 1 < EDGES { edge + 1 } else { 0 };
    }
}

pub fn measure_all() {
    let words: Vec<AtomicU64> = (0..EDGES).map(|_| AtomicU64::new(0)).collect();
    measure("probe", |edge| probe(&words, edge, Ordering::Relaxed, Ordering::Release));
    measure("probe_seq_cst", |edge| probe(&words, edge, Ordering::SeqCst, Ordering::SeqCst));
    measure("is_down", |_| look(|edge| words[edge].load(Ordering::Acquire) >= DOWN));
    let windows = Mutex::new(vec![0; EDGES]);
    measure("locked_probe", |edge| {
        for _ in 0..TIMES {
            let mut words = windows.lock().unwrap();
            words[edge] = next_word(words[edge], black_box(true));
            black_box(words[edge] >= DOWN);
        }
    });
    measure("locked_is_down", |_| look(|edge| windows.lock().unwrap()[edge] >= DOWN));
}
