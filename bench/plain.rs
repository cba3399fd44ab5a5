//! The same work in plain Rust, as something to measure against: each figure is printed as
//! `NAME NUMBER`, in nanoseconds for one unit of work or in bytes.
use std::cmp::Ordering;
use std::hint::black_box;
use std::time::Instant;
use tags::Tags;
use view::{Configuration, Params};
use voting::FastRound;

#[path = "plain/cluster.rs"]
mod cluster;
#[path = "plain/crashes.rs"]
mod crashes;
#[path = "plain/detect.rs"]
mod detect;
#[path = "plain/detector.rs"]
mod detector;
#[path = "plain/edges.rs"]
mod edges;
#[path = "plain/frames.rs"]
mod frames;
#[path = "plain/lines.rs"]
mod lines;
#[path = "plain/node.rs"]
mod node;
#[path = "plain/sim.rs"]
mod sim;
#[path = "plain/steps.rs"]
mod steps;
#[path = "plain/tags.rs"]
mod tags;
#[path = "plain/view.rs"]
mod view;
#[path = "plain/views.rs"]
mod views;
#[path = "plain/voting.rs"]
mod voting;
#[path = "plain/world.rs"]
mod world;

const ROUND_CONSTANTS: [u32; 64] = [
    0x428a2f98, 0x71374491, 0xb5c0fbcf, 0xe9b5dba5, 0x3956c25b, 0x59f111f1, 0x923f82a4, 0xab1c5ed5,
    0xd807aa98, 0x12835b01, 0x243185be, 0x550c7dc3, 0x72be5d74, 0x80deb1fe, 0x9bdc06a7, 0xc19bf174,
    0xe49b69c1, 0xefbe4786, 0x0fc19dc6, 0x240ca1cc, 0x2de92c6f, 0x4a7484aa, 0x5cb0a9dc, 0x76f988da,
    0x983e5152, 0xa831c66d, 0xb00327c8, 0xbf597fc7, 0xc6e00bf3, 0xd5a79147, 0x06ca6351, 0x14292967,
    0x27b70a85, 0x2e1b2138, 0x4d2c6dfc, 0x53380d13, 0x650a7354, 0x766a0abb, 0x81c2c92e, 0x92722c85,
    0xa2bfe8a1, 0xa81a664b, 0xc24b8b70, 0xc76c51a3, 0xd192e819, 0xd6990624, 0xf40e3585, 0x106aa070,
    0x19a4c116, 0x1e376c08, 0x2748774c, 0x34b0bcb5, 0x391c0cb3, 0x4ed8aa4a, 0x5b9cca4f, 0x682e6ff3,
    0x748f82ee, 0x78a5636f, 0x84c87814, 0x8cc70208, 0x90befffa, 0xa4506ceb, 0xbef9a3f7, 0xc67178f2,
];

fn compress(state: &mut [u32; 8], block: &[u8]) {
    let mut w = [0u32; 64];
    for (word, bytes) in w.iter_mut().zip(block.chunks_exact(4)) {
        *word = u32::from_be_bytes(bytes.try_into().unwrap());
    }
    for i in 16..64 {
        let s0 = w[i - 15].rotate_right(7) ^ w[i - 15].rotate_right(18) ^ (w[i - 15] >> 3);
        let s1 = w[i - 2].rotate_right(17) ^ w[i - 2].rotate_right(19) ^ (w[i - 2] >> 10);
        w[i] = w[i - 16].wrapping_add(s0).wrapping_add(w[i - 7]).wrapping_add(s1);
    }
    let [mut a, mut b, mut c, mut d, mut e, mut f, mut g, mut h] = *state;
    for i in 0..64 {
        let s1 = e.rotate_right(6) ^ e.rotate_right(11) ^ e.rotate_right(25);
        let choice = (e & f) ^ (!e & g);
        let t1 = h.wrapping_add(s1).wrapping_add(choice);
        let t1 = t1.wrapping_add(ROUND_CONSTANTS[i]).wrapping_add(w[i]);
        let s0 = a.rotate_right(2) ^ a.rotate_right(13) ^ a.rotate_right(22);
        let t2 = s0.wrapping_add((a & b) ^ (a & c) ^ (b & c));
        (h, g, f, e, d, c, b, a) = (g, f, e, d.wrapping_add(t1), c, b, a, t1.wrapping_add(t2));
    }
    for (s, x) in state.iter_mut().zip([a, b, c, d, e, f, g, h]) {
        *s = s.wrapping_add(x);
    }
}

/// SHA-256 (FIPS 180-4).
fn sha256(bytes: &[u8]) -> [u8; 32] {
    let mut state = [
        0x6a09e667, 0xbb67ae85, 0x3c6ef372, 0xa54ff53a,
        0x510e527f, 0x9b05688c, 0x1f83d9ab, 0x5be0cd19,
    ];
    let whole = bytes.chunks_exact(64);
    let rest = whole.remainder();
    for block in whole {
        compress(&mut state, block);
    }
    let mut tail = [0u8; 128];
    tail[..rest.len()].copy_from_slice(rest);
    tail[rest.len()] = 0x80;
    let end = if rest.len() < 56 { 64 } else { 128 };
    tail[end - 8..end].copy_from_slice(&(bytes.len() as u64 * 8).to_be_bytes());
    for block in tail[..end].chunks_exact(64) {
        compress(&mut state, block);
    }
    let mut hash = [0; 32];
    for (bytes, word) in hash.chunks_exact_mut(4).zip(state) {
        bytes.copy_from_slice(&word.to_be_bytes());
    }
    hash
}

/// Who a process is. The key is its identifier, its address and its port.
#[derive(Clone, Copy, PartialEq, Eq, Hash)]
struct Process {
    key: [u8; 22],
    tags: Tags,
}

impl Process {
    fn id(&self) -> u128 {
        u128::from_be_bytes(*self.key.first_chunk().unwrap())
    }
}

/// Processes are in the order of their bytes.
impl Ord for Process {
    fn cmp(&self, other: &Process) -> Ordering {
        // cuts that are compared are mostly equal, other processes mostly differ in the identifier
        if self == other {
            return Ordering::Equal;
        }
        let keys = self.id().cmp(&other.id()).then_with(|| self.key[16..].cmp(&other.key[16..]));
        keys.then_with(|| self.tags.cmp(&other.tags))
    }
}

impl PartialOrd for Process {
    fn partial_cmp(&self, other: &Process) -> Option<Ordering> {
        Some(self.cmp(other))
    }
}

/// The process in front of the bytes, and what follows.
fn read_process(bytes: &[u8]) -> Option<(Process, &[u8])> {
    let (key, rest) = bytes.split_first_chunk()?;
    let (tags, rest) = Tags::read(rest)?;
    Some((Process { key: *key, tags }, rest))
}

#[inline]
fn put_process(out: &mut Vec<u8>, p: &Process) {
    out.extend_from_slice(&p.key);
    p.tags.put(out);
}

/// The process with a number, which is its identifier and its port. It has no tags.
fn process(n: u16) -> Process {
    let mut key = [0; 22];
    key[14..16].copy_from_slice(&n.to_be_bytes());
    key[16..20].copy_from_slice(&[127, 0, 0, 1]);
    key[20..].copy_from_slice(&n.to_be_bytes());
    Process { key, tags: Tags::NONE }
}

fn key(ring: u8, p: &Process) -> [u8; 32] {
    let mut bytes = [0; 23];
    bytes[0] = ring;
    bytes[1..].copy_from_slice(&p.key);
    sha256(&bytes)
}

type Ring = Vec<([u8; 32], Process)>;

fn rings(members: &[Process], k: u8) -> Vec<Ring> {
    (0..k)
        .map(|ring| {
            let mut sorted: Ring = members.iter().map(|p| (key(ring, p), *p)).collect();
            sorted.sort_unstable();
            sorted
        })
        .collect()
}

/// The rings after one member left and one joined.
fn next_rings(old: &[Ring], gone: &Process, new: &Process) -> Vec<Ring> {
    old.iter()
        .enumerate()
        .map(|(ring, sorted)| {
            let mut next: Ring = sorted.iter().filter(|(_, p)| p != gone).copied().collect();
            let entry = (key(ring as u8, new), *new);
            let place = next.partition_point(|x| *x < entry);
            next.insert(place, entry);
            next
        })
        .collect()
}

/// Reads a configuration, with its identifier; none if it is refused.
fn from_bytes(bytes: &[u8]) -> Option<Configuration> {
    if bytes.len() < 49 || &bytes[..4] != b"RPC2" {
        return None;
    }
    let [k, h, l] = [bytes[44], bytes[45], bytes[46]];
    if !(1 <= l && l <= h && h <= k && k <= 16) {
        return None;
    }
    let count = u16::from_be_bytes([bytes[47], bytes[48]]) as usize;
    if count > 1024 {
        return None;
    }
    let mut members: Vec<Process> = Vec::with_capacity(count);
    let mut rest = &bytes[49..];
    for _ in 0..count {
        let (member, after) = read_process(rest)?;
        members.push(member);
        rest = after;
    }
    if !rest.is_empty() || !members.windows(2).all(|w| w[0].id() < w[1].id()) {
        return None;
    }
    let mut endpoints: Vec<&[u8]> = members.iter().map(|p| &p.key[16..]).collect();
    endpoints.sort_unstable();
    if endpoints.windows(2).any(|w| w[0] == w[1]) {
        return None;
    }
    Some(Configuration {
        params: Params { k, h, l },
        previous: bytes[4..36].try_into().unwrap(),
        height: u64::from_be_bytes(bytes[36..44].try_into().unwrap()),
        members,
        id: sha256(bytes),
    })
}

/// Prints how many nanoseconds one unit of the work takes, of which each run does `units`, in the
/// fastest of the runs.
fn measure(name: &str, units: u128, runs: u32, mut work: impl FnMut()) {
    work();
    let mut least = u128::MAX;
    for _ in 0..runs {
        let start = Instant::now();
        work();
        least = least.min(start.elapsed().as_nanos());
    }
    println!("{name} {}", least / units);
}

/// How many bytes of memory the process holds.
fn held() -> u64 {
    let rollup = std::fs::read_to_string("/proc/self/smaps_rollup").unwrap();
    let kibibytes = rollup.split_whitespace().skip_while(|word| *word != "Rss:").nth(1).unwrap();
    kibibytes.parse::<u64>().unwrap() * 1024
}

/// Prints how many bytes a fast round of 1,024 members holds after the vote of each, for these cuts
/// in turn.
fn measure_bytes(name: &str, cuts: &[Vec<Process>]) {
    const ROUNDS: u64 = 1000;
    let mut rounds = Vec::with_capacity(ROUNDS as usize);
    let before = held();
    for _ in 0..ROUNDS {
        let mut round = FastRound::new(1024);
        for (position, cut) in (0..1024).zip(cuts.iter().cycle()) {
            black_box(round.hear(position, cut));
        }
        rounds.push(round);
    }
    println!("{name} {}", (held() - before) / ROUNDS);
}

/// Prints the figures that need no process of their own, and times alone.
fn measure_all() {
    let members: Vec<Process> = (1..=1024).map(process).collect();
    measure("rings_new", 1, 20, || {
        black_box(rings(black_box(&members), 16));
    });
    let old = rings(&members, 16);
    measure("rings_next", 1, 50, || {
        black_box(next_rings(black_box(&old), &members[500], &process(2000)));
    });
    let bytes = Configuration::seed(Params { k: 16, h: 9, l: 3 }, members).bytes();
    measure("from_bytes", 1, 500, || {
        black_box(from_bytes(black_box(&bytes)));
    });
    for size in [1, 10, 100] {
        let cut: Vec<Process> = (1..=size).map(process).collect();
        measure(&format!("votes_cut_{size}"), 1024, 200, || {
            let mut round = FastRound::new(1024);
            for position in 0..1024 {
                black_box(round.hear(black_box(position), &cut));
            }
        });
    }
    frames::measure_all();
    steps::measure_all();
}

/// Prints how many bytes fast rounds hold. They need a process of their own: room that was given
/// back before would not be counted.
fn measure_memory() {
    let ten_from = |first| (first..first + 10).map(process).collect();
    let cuts: Vec<Vec<Process>> = (1..=1024).map(ten_from).collect();
    measure_bytes("round_bytes_one_cut", &cuts[..1]);
    measure_bytes("round_bytes_own_cuts", &cuts);
}

fn main() {
    let words: Vec<String> = std::env::args().skip(1).collect();
    let number = |place: usize| words[place].parse().unwrap();
    match words.first().map(String::as_str) {
        None => measure_all(),
        Some("steps") => steps::measure_all(),
        Some("step_bytes") => steps::measure_bytes(),
        Some("memory") => measure_memory(),
        Some("detect") => {
            let mut run = detect::Run::default();
            lines::answer_all(|line, out| run.answer(line, out));
        }
        Some("sim") => {
            let mut run = sim::Simulator::default();
            lines::answer_all(|line, out| run.answer(line, out));
            eprintln!("events {}", run.accepted());
        }
        Some("cluster") => cluster::run(number(1), number(2) as usize, number(3) as usize),
        Some("desks") => steps::measure_desks(),
        Some("worlds") => crashes::measure(number(1), number(2)),
        Some("views") => views::measure_all(),
        Some("edges") => edges::measure_all(),
        Some(other) => panic!("no figure is called {other}"),
    }
}
