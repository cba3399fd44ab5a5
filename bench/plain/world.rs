//! A world of many nodes and the packets between them, which runs by events.
use crate::frames::Message;
use crate::node::{Destination, Event, Node, Outputs};
use crate::view::{endpoint, Configuration, Endpoint, Params, Views};
use crate::Process;
use std::collections::{BTreeSet, HashMap};
use std::sync::Arc;

/// The identifier of a process.
pub type ProcessId = [u8; 16];

/// How many events a world accepts at most.
pub const MOST_EVENTS: usize = 1_000_000;

#[derive(Clone, Copy)]
pub enum WorldEvent {
    Start(Process, Endpoint),
    Probe(ProcessId, u8, bool),
    Tick(ProcessId),
    Deliver(u64),
    Crash(ProcessId),
    Leave(ProcessId),
}

#[derive(Clone, Copy, Debug)]
pub enum Refusal {
    IdentifierUsed,
    EndpointBusy,
    NoSuchNode,
    NoSuchPacket,
    NotObserved,
    EventsFull,
}

/// The results of the probes of an edge.
#[derive(Clone, Copy, Default)]
struct Edge {
    // whether each of the last ten failed, the newest lowest
    window: u16,
    is_down: bool,
}

impl Edge {
    fn probe(&mut self, ok: bool) -> bool {
        self.window = (self.window << 1 | !ok as u16) & 0x3ff;
        self.is_down |= self.window.count_ones() >= 4;
        self.is_down
    }
}

struct Peer {
    node: Node,
    edges: [Edge; 16],
}

/// That a node installed a configuration.
pub struct Installed(pub ProcessId, pub Arc<Configuration>);

#[derive(Default)]
pub struct World {
    peers: Vec<Peer>,
    by_id: HashMap<ProcessId, usize>,
    // those that run
    running: BTreeSet<ProcessId>,
    by_endpoint: HashMap<Endpoint, usize>,
    views: Views,
    packets: Vec<(Endpoint, Arc<Message>)>,
    accepted: usize,
}

pub fn id_of(p: &Process) -> ProcessId {
    p.key[..16].try_into().unwrap()
}

/// Puts what a node sends behind the other packets.
fn post(packets: &mut Vec<(Endpoint, Arc<Message>)>, me: &Process, outputs: Outputs) {
    for (to, message) in outputs {
        match to {
            Destination::To(to) => packets.push((to, message)),
            Destination::Others(view) => {
                let others = view.config.members.iter().filter(|p| *p != me);
                packets.extend(others.map(|p| (endpoint(p), message.clone())));
            }
        }
    }
}

impl World {
    pub fn new(params: Params, founders: Vec<Process>) -> World {
        let mut world = World::default();
        let config = Arc::new(Configuration::seed(params, founders));
        let view = world.views.of(&config);
        for me in &config.members {
            world.add(Node::founder(view.clone(), *me));
        }
        world
    }

    fn add(&mut self, node: Node) {
        let place = self.peers.len();
        self.by_id.insert(id_of(&node.me), place);
        self.by_endpoint.insert(endpoint(&node.me), place);
        self.running.insert(id_of(&node.me));
        self.peers.push(Peer { node, edges: Default::default() });
    }

    pub fn accepted(&self) -> usize {
        self.accepted
    }

    pub fn packets(&self) -> u64 {
        self.packets.len() as u64
    }

    /// Those that run, ascending.
    pub fn running(&self) -> &BTreeSet<ProcessId> {
        &self.running
    }

    pub fn node(&self, id: &ProcessId) -> Option<&Node> {
        self.by_id.get(id).map(|place| &self.peers[*place].node)
    }

    fn running_under(&self, id: &ProcessId) -> Result<usize, Refusal> {
        if !self.running.contains(id) {
            return Err(Refusal::NoSuchNode);
        }
        Ok(self.by_id[id])
    }

    fn packet(&self, number: u64) -> Option<&(Endpoint, Arc<Message>)> {
        self.packets.get((number as usize).checked_sub(1)?)
    }

    /// Whether the packet was sent, and a node runs at its endpoint.
    pub fn can_deliver(&self, number: u64) -> bool {
        self.packet(number).is_some_and(|(to, _)| self.by_endpoint.contains_key(to))
    }

    /// Whom a running node observes on a ring.
    pub fn observed(&self, id: &ProcessId, ring: u8) -> Option<Process> {
        let place = self.running_under(id).ok()?;
        let (view, place) = self.peers[place].node.membership()?;
        if ring >= view.k() {
            return None;
        }
        view.subject(place, ring)
    }

    fn hand(&mut self, place: usize, event: Event) -> Option<Installed> {
        let peer = &mut self.peers[place];
        let before = peer.node.installed.len();
        let outputs = peer.node.step(&mut self.views, &event);
        post(&mut self.packets, &peer.node.me, outputs);
        if peer.node.installed.len() == before {
            return None;
        }
        peer.edges = Default::default();
        Some(Installed(id_of(&peer.node.me), peer.node.configuration()?.clone()))
    }

    fn deliver(&mut self, number: u64) -> Result<Option<Installed>, Refusal> {
        let (to, message) = self.packet(number).ok_or(Refusal::NoSuchPacket)?;
        let place = *self.by_endpoint.get(to).ok_or(Refusal::NoSuchNode)?;
        let message = message.clone();
        Ok(self.hand(place, Event::Receive(&message)))
    }

    fn probe(&mut self, id: &ProcessId, ring: u8, ok: bool) -> Result<Option<Installed>, Refusal> {
        let place = self.running_under(id)?;
        let subject = self.observed(id, ring).ok_or(Refusal::NotObserved)?;
        let peer = &mut self.peers[place];
        if !peer.edges[ring as usize].probe(ok) {
            return Ok(None);
        }
        let config = peer.node.configuration().unwrap().id;
        Ok(self.hand(place, Event::EdgeDown(config, ring, subject)))
    }

    fn start(&mut self, me: Process, seed: Endpoint) -> Result<(), Refusal> {
        if self.by_id.contains_key(&id_of(&me)) {
            return Err(Refusal::IdentifierUsed);
        }
        if self.by_endpoint.contains_key(&endpoint(&me)) {
            return Err(Refusal::EndpointBusy);
        }
        self.add(Node::joiner(me, seed));
        Ok(())
    }

    fn crash(&mut self, id: &ProcessId) -> Result<(), Refusal> {
        let place = self.running_under(id)?;
        self.running.remove(id);
        self.by_endpoint.remove(&endpoint(&self.peers[place].node.me));
        Ok(())
    }

    pub fn step(&mut self, event: &WorldEvent) -> Result<Option<Installed>, Refusal> {
        if self.accepted >= MOST_EVENTS {
            return Err(Refusal::EventsFull);
        }
        let installed = match event {
            WorldEvent::Start(me, seed) => self.start(*me, *seed).map(|()| None)?,
            WorldEvent::Probe(id, ring, ok) => self.probe(id, *ring, *ok)?,
            WorldEvent::Tick(id) => {
                let place = self.running_under(id)?;
                self.hand(place, Event::Tick)
            }
            WorldEvent::Deliver(number) => self.deliver(*number)?,
            WorldEvent::Crash(id) => self.crash(id).map(|()| None)?,
            WorldEvent::Leave(id) => {
                let place = self.running_under(id)?;
                self.hand(place, Event::Leave)
            }
        };
        self.accepted += 1;
        Ok(installed)
    }
}
