//! A simulated cluster that lines drive.
use crate::lines::{self, Line, Words};
use crate::process;
use crate::tags::{TagFault, Tags};
use crate::view::{Endpoint, Params};
use crate::world::{id_of, Installed, ProcessId, World, WorldEvent};
use crate::Process;
use std::collections::BTreeSet;
use std::io::Write;

/// How many packets one flow settles at most.
const MOST_IN_FLOW: usize = 10_000;

enum Command {
    Params(Params),
    Found(Vec<Process>),
    Events(WorldEvent, u64),
    /// A start whose tags are refused.
    BadTags(TagFault),
    Lose(ProcessId),
    Deliver(u64),
    Drop(u64),
    Flow,
    Packets,
}

fn id(number: u64) -> ProcessId {
    (number as u128).to_be_bytes()
}

fn local(port: u64) -> Endpoint {
    let [high, low] = (port as u16).to_be_bytes();
    [127, 0, 0, 1, high, low]
}

/// The number of a process, from 1.
fn named(words: &mut Words) -> Option<u64> {
    words.number(65535).filter(|number| *number > 0)
}

fn packet(words: &mut Words) -> Option<u64> {
    words.number(u64::MAX).filter(|number| *number > 0)
}

/// How often an event happens.
fn count(words: &mut Words) -> Option<u64> {
    match words.next() {
        None => Some(1),
        Some(word) => lines::number(word, 1000).filter(|number| *number > 0),
    }
}

fn params(words: &mut Words) -> Option<Command> {
    let mut number = || words.number(255).map(|number| number as u8);
    Some(Command::Params(Params { k: number()?, h: number()?, l: number()? }))
}

fn found(words: &mut Words) -> Option<Command> {
    let mut founders = Vec::new();
    for word in words {
        let number = lines::number(word, 65535).filter(|number| *number > 0)?;
        founders.push(process(number as u16));
    }
    let ascend = founders.windows(2).all(|w| w[0] < w[1]);
    (ascend && (1..=1024).contains(&founders.len())).then_some(Command::Found(founders))
}

fn start(words: &mut Words) -> Option<Command> {
    let mut key = [0; 22];
    key[..16].copy_from_slice(&id(named(words)?));
    key[16..].copy_from_slice(&local(words.number(65535)?));
    let seed = local(words.number(65535)?);
    let tags: Vec<&[u8]> = words.collect();
    Some(match Tags::new(&tags) {
        Ok(tags) => Command::Events(WorldEvent::Start(Process { key, tags }, seed), 1),
        Err(fault) => Command::BadTags(fault),
    })
}

fn probe(words: &mut Words) -> Option<Command> {
    let (node, ring) = (id(named(words)?), words.number(255)? as u8);
    let ok = match words.next()? {
        b"ok" => true,
        b"fail" => false,
        _ => return None,
    };
    Some(Command::Events(WorldEvent::Probe(node, ring, ok), count(words)?))
}

fn command(mut words: Words) -> Option<Command> {
    let command = match words.next()? {
        b"params" => params(&mut words)?,
        b"found" => found(&mut words)?,
        b"start" => start(&mut words)?,
        b"probe" => probe(&mut words)?,
        b"lose" => Command::Lose(id(named(&mut words)?)),
        b"tick" => {
            let tick = WorldEvent::Tick(id(named(&mut words)?));
            Command::Events(tick, count(&mut words)?)
        }
        b"deliver" => Command::Deliver(packet(&mut words)?),
        b"drop" => Command::Drop(packet(&mut words)?),
        b"flow" => Command::Flow,
        b"crash" => Command::Events(WorldEvent::Crash(id(named(&mut words)?)), 1),
        b"leave" => Command::Events(WorldEvent::Leave(id(named(&mut words)?)), 1),
        b"packets" => Command::Packets,
        _ => return None,
    };
    words.end()?;
    Some(command)
}

/// The packets that are settled.
#[derive(Default)]
struct Settled {
    all_to: u64,
    above: BTreeSet<u64>,
}

impl Settled {
    fn settle(&mut self, packet: u64) {
        if packet > self.all_to {
            self.above.insert(packet);
        }
        while self.above.remove(&(self.all_to + 1)) {
            self.all_to += 1;
        }
    }
}

#[derive(Default)]
pub struct Simulator {
    params: Option<Params>,
    world: Option<World>,
    settled: Settled,
}

fn refuse(out: &mut Vec<u8>, name: &str) {
    writeln!(out, "refused {name}").unwrap();
}

fn report(out: &mut Vec<u8>, installed: &Installed) {
    let Installed(id, config) = installed;
    write!(out, "node {}", u128::from_be_bytes(*id)).unwrap();
    if !config.members.iter().any(|p| id_of(p) == *id) {
        return writeln!(out, " removed at height {}", config.height).unwrap();
    }
    write!(out, " height {} members", config.height).unwrap();
    write_members(out, &config.members);
    out.push(b'\n');
}

/// The numbers and the tags of processes, each number after a space.
pub fn write_members(out: &mut Vec<u8>, members: &[Process]) {
    for member in members {
        write!(out, " {}", member.id()).unwrap();
        member.tags.print(out);
    }
}

/// Makes an event happen; whether it was accepted.
fn step(world: &mut World, event: &WorldEvent, out: &mut Vec<u8>) -> bool {
    match world.step(event) {
        Ok(installed) => {
            installed.iter().for_each(|installed| report(out, installed));
            true
        }
        Err(refusal) => {
            writeln!(out, "refused {refusal:?}").unwrap();
            false
        }
    }
}

/// The probes by which all that run lose a member.
fn losing(world: &World, k: u8, lost: &ProcessId) -> Vec<WorldEvent> {
    let mut events = Vec::new();
    for observer in world.running() {
        for ring in 0..k {
            if world.observed(observer, ring).is_some_and(|p| id_of(&p) == *lost) {
                events.extend([WorldEvent::Probe(*observer, ring, false); 4]);
            }
        }
    }
    events
}

fn flow(world: &mut World, settled: &mut Settled, out: &mut Vec<u8>) {
    for _ in 0..MOST_IN_FLOW {
        let packet = settled.all_to + 1;
        if packet > world.packets() {
            return;
        }
        if world.can_deliver(packet) && !step(world, &WorldEvent::Deliver(packet), out) {
            return;
        }
        settled.settle(packet);
    }
}

impl Simulator {
    /// How many events were accepted.
    pub fn accepted(&self) -> usize {
        self.world.as_ref().map_or(0, World::accepted)
    }

    fn begin(&mut self, params: Params, founders: Vec<Process>, out: &mut Vec<u8>) {
        let world = World::new(params, founders);
        for id in world.running() {
            let config = world.node(id).and_then(|node| node.configuration()).unwrap();
            report(out, &Installed(*id, config.clone()));
        }
        self.world = Some(world);
    }

    fn prepare(&mut self, command: Command, out: &mut Vec<u8>) {
        match (command, self.params) {
            (Command::Params(Params { k, h, l }), None) => {
                if 1 <= l && l <= h && h <= k && k <= 16 {
                    self.params = Some(Params { k, h, l });
                } else {
                    refuse(out, "BadParams");
                }
            }
            (Command::Found(founders), Some(params)) => self.begin(params, founders, out),
            (Command::Params(_), _) | (Command::Drop(_), _) => refuse(out, "BadLine"),
            _ => refuse(out, "NoParams"),
        }
    }

    fn obey(&mut self, command: Command, out: &mut Vec<u8>) {
        let (Some(world), Some(params)) = (&mut self.world, self.params) else {
            return self.prepare(command, out);
        };
        match command {
            Command::Params(_) | Command::Found(_) => refuse(out, "BadLine"),
            Command::BadTags(fault) => refuse(out, &format!("{fault:?}")),
            Command::Events(event, count) => {
                let _ = (0..count).all(|_| step(world, &event, out));
            }
            Command::Lose(id) => {
                let _ = losing(world, params.k, &id).iter().all(|event| step(world, event, out));
            }
            Command::Deliver(packet) => {
                if step(world, &WorldEvent::Deliver(packet), out) {
                    self.settled.settle(packet);
                }
            }
            Command::Drop(packet) if packet > world.packets() => refuse(out, "BadLine"),
            Command::Drop(packet) => self.settled.settle(packet),
            Command::Flow => flow(world, &mut self.settled, out),
            Command::Packets => writeln!(out, "packets {}", world.packets()).unwrap(),
        }
    }

    pub fn answer(&mut self, line: &[u8], out: &mut Vec<u8>) {
        match lines::read(line) {
            Line::Bad => refuse(out, "BadLine"),
            Line::Nothing => {}
            Line::Words(words) => match command(words) {
                Some(command) => self.obey(command, out),
                None => refuse(out, "BadLine"),
            },
        }
    }
}
