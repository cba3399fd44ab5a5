//! A world of founders of which some crash, until all others have installed the next view.
use crate::process;
use crate::view::Params;
use crate::world::{id_of, ProcessId, World, WorldEvent};
use std::time::Instant;

/// The parameters of the world.
const PARAMS: Params = Params { k: 10, h: 9, l: 3 };

/// The greatest memory that the process held, in bytes.
fn peak() -> u64 {
    let status = std::fs::read_to_string("/proc/self/status").unwrap();
    let kibibytes = status.split_whitespace().skip_while(|word| *word != "VmHWM:").nth(1).unwrap();
    kibibytes.parse::<u64>().unwrap() * 1024
}

/// Makes an event happen, and answers how many installed by it.
fn step(world: &mut World, event: &WorldEvent) -> usize {
    world.step(event).unwrap().is_some() as usize
}

/// Those of the crashed: evenly spread over the founders.
fn crashed(founders: u16, crashes: u16) -> Vec<ProcessId> {
    (0..crashes).map(|i| id_of(&process(i * (founders / crashes) + 7))).collect()
}

/// All that happens before packets are delivered: the others lose those that crash, and tick.
fn script(world: &World, crashed: &[ProcessId]) -> Vec<WorldEvent> {
    let running: Vec<&ProcessId> =
        world.running().iter().filter(|id| !crashed.contains(id)).collect();
    let mut events = Vec::new();
    for observer in &running {
        for ring in 0..PARAMS.k {
            let subject = world.observed(observer, ring);
            if subject.is_some_and(|subject| crashed.contains(&id_of(&subject))) {
                events.extend([WorldEvent::Probe(**observer, ring, false); 4]);
            }
        }
    }
    events.extend(crashed.iter().map(|id| WorldEvent::Crash(*id)));
    events.extend(running.into_iter().map(|id| WorldEvent::Tick(*id)));
    events
}

/// These events happen, and then packets are delivered in order until this many nodes have installed.
fn run(world: &mut World, events: &[WorldEvent], nodes: usize) {
    let mut left = nodes;
    for event in events {
        left -= step(world, event);
    }
    let mut packet = 1;
    while left > 0 {
        if world.can_deliver(packet) {
            left -= step(world, &WorldEvent::Deliver(packet));
        }
        packet += 1;
    }
}

/// Prints the figures of this many founders, of which these many crash.
pub fn measure(founders: u16, crashes: u16) {
    let mut least = u128::MAX;
    let mut founding = u128::MAX;
    let mut events = 0;
    for _ in 0..3 {
        let start = Instant::now();
        let mut world = World::new(PARAMS, (1..=founders).map(process).collect());
        founding = founding.min(start.elapsed().as_nanos());
        let script = script(&world, &crashed(founders, crashes));
        let start = Instant::now();
        run(&mut world, &script, (founders - crashes) as usize);
        least = least.min(start.elapsed().as_nanos());
        events = world.accepted();
    }
    println!("world_{founders}_event {}", least / events as u128);
    println!("world_{founders}_events {events}");
    println!("world_{founders}_founding {founding}");
    println!("world_{founders}_peak {}", peak());
}
