//! Reads of a stamp and of a list of members, by one and by four threads, each under a lock.
use crate::process;
use crate::view::{Configuration, Params};
use std::hint::black_box;
use std::sync::{Arc, Mutex};
use std::time::Instant;

const STAMPS: u32 = 1_000_000;
const VIEWS: u32 = 10_000;
const RUNS: u32 = 20;
pub const MOST_THREADS: usize = 4;

/// What is read of a configuration without its members.
#[derive(Clone, Copy, PartialEq, Eq)]
struct Stamp {
    height: u64,
    id: [u8; 32],
    members: usize,
}

/// How many nanoseconds it takes this many threads to read this often, each.
fn time(threads: usize, times: u32, read: &(impl Fn() + Sync)) -> u128 {
    let start = Instant::now();
    std::thread::scope(|scope| {
        for _ in 0..threads {
            scope.spawn(|| (0..times).for_each(|_| read()));
        }
    });
    start.elapsed().as_nanos()
}

fn measure(name: &str, times: u32, read: impl Fn() + Sync) {
    for threads in [1, MOST_THREADS] {
        let least = (0..RUNS).map(|_| time(threads, times, &read)).min().unwrap();
        println!("{name}_{threads} {}", least / (times / 100) as u128);
    }
}

pub fn measure_all() {
    let members = (1..=1000).map(process).collect();
    let config = Configuration::seed(Params { k: 10, h: 9, l: 3 }, members);
    let (height, id, count) = (config.height, config.id, config.members.len());
    let stamp = Mutex::new(Stamp { height, id, members: count });
    let view = Mutex::new(Arc::new(config));
    let first = *stamp.lock().unwrap();
    measure("locked_stamp", STAMPS, || {
        let read = *stamp.lock().unwrap();
        black_box(read == first);
    });
    measure("locked_members", VIEWS, || {
        let read = view.lock().unwrap().clone();
        black_box(read);
    });
}
