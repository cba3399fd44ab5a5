//! A simulated cluster that threads drive, a turn at a time, under a lock.
use crate::process;
use crate::sim::write_members;
use crate::view::{endpoint, ConfigId, Params};
use crate::world::{ProcessId, World, WorldEvent, MOST_EVENTS};
use std::collections::BTreeMap;
use std::io::Write;
use std::ops::Bound;
use std::sync::Mutex;

/// A world, and what turns remember.
struct Cluster {
    world: World,
    // all packets up to this number were delivered or passed over
    passed: u64,
    ticked: Option<ProcessId>,
}

impl Cluster {
    /// The next of those that run, going round from the least.
    fn next_node(&self) -> Option<ProcessId> {
        let running = self.world.running();
        let above = |last| running.range((Bound::Excluded(last), Bound::Unbounded)).next();
        self.ticked.and_then(above).or(running.first()).copied()
    }

    /// Takes a turn; whether there was room for it.
    fn turn(&mut self) -> bool {
        if self.world.accepted() >= MOST_EVENTS {
            return false;
        }
        let packets = self.world.packets();
        let packet = (self.passed + 1..=packets).find(|packet| self.world.can_deliver(*packet));
        let event = match packet {
            Some(packet) => {
                self.passed = packet;
                WorldEvent::Deliver(packet)
            }
            None => {
                self.passed = packets;
                self.ticked = self.next_node();
                WorldEvent::Tick(self.ticked.unwrap())
            }
        };
        self.world.step(&event).unwrap();
        true
    }
}

/// Whether two nodes hold different identifiers at one height.
fn is_split(world: &World, ids: &[ProcessId]) -> bool {
    let mut seen: BTreeMap<u64, ConfigId> = BTreeMap::new();
    let stamps = ids.iter().filter_map(|id| world.node(id)).flat_map(|node| &node.installed);
    stamps.into_iter().any(|stamp| *seen.entry(stamp.height).or_insert(stamp.id) != stamp.id)
}

fn report(world: &World, nodes: u16) -> Vec<u8> {
    let mut out = format!("events {}\n", world.accepted()).into_bytes();
    let ids: Vec<ProcessId> = (1..=nodes).map(|n| u128::from(n).to_be_bytes()).collect();
    for (n, id) in (1..).zip(&ids) {
        match world.node(id) {
            Some(node) if node.membership().is_some() => {
                let config = node.configuration().unwrap();
                write!(out, "node {n} height {} members", config.height).unwrap();
                write_members(&mut out, &config.members);
                out.push(b'\n');
            }
            Some(node) if node.configuration().is_none() => {
                writeln!(out, "node {n} joining").unwrap()
            }
            _ => {}
        }
    }
    writeln!(out, "agree {}", if is_split(world, &ids) { "no" } else { "yes" }).unwrap();
    out
}

/// Lets this many threads take this many turns each, and prints what comes of it.
pub fn run(nodes: u16, workers: usize, turns: usize) {
    let mut world = World::new(Params { k: 10, h: 9, l: 3 }, vec![process(1)]);
    for n in 2..=nodes {
        world.step(&WorldEvent::Start(process(n), endpoint(&process(1)))).unwrap();
    }
    let cluster = Mutex::new(Cluster { world, passed: 0, ticked: None });
    std::thread::scope(|scope| {
        for _ in 0..workers {
            scope.spawn(|| (0..turns).all(|_| cluster.lock().unwrap().turn()));
        }
    });
    let cluster = cluster.into_inner().unwrap();
    std::io::stdout().write_all(&report(&cluster.world, nodes)).unwrap();
}
