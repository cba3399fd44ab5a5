//! Steps of a node.
use crate::frames::{batch, every_ring, vote, Message};
use crate::node::{Event, Node};
use crate::view::{Configuration, Params, View, Views};
use crate::{held, process, Process};
use std::hint::black_box;
use std::sync::Arc;
use std::time::Instant;

const K: u8 = 16;

/// What happens to a node; a tick if there is no message.
type Happening = Option<Message>;

fn event(happening: &Happening) -> Event<'_> {
    happening.as_ref().map_or(Event::Tick, Event::Receive)
}

/// Events that this many copies of a node take in a run, each from the same start.
struct Steps {
    name: String,
    start: Node,
    events: Vec<Happening>,
    copies: usize,
}

impl Steps {
    fn new(name: String, start: &Node, events: Vec<Happening>) -> Steps {
        let copies = (1000 / events.len()).max(2);
        Steps { name, start: start.clone(), events, copies }
    }

    fn take(&self, views: &mut Views, nodes: &mut [Node]) {
        for node in nodes {
            for happening in &self.events {
                black_box(node.step(views, &event(black_box(happening))));
            }
        }
    }

    fn count(&self) -> usize {
        self.copies * self.events.len()
    }

    fn print_time(&self) {
        let mut least = u128::MAX;
        for _ in 0..50 {
            let mut nodes = vec![self.start.clone(); self.copies];
            let start = Instant::now();
            self.take(&mut Views::default(), &mut nodes);
            least = least.min(start.elapsed().as_nanos());
        }
        println!("{} {}", self.name, least / self.count() as u128);
    }

    /// The copies are made within the measured time.
    fn print_copied_time(&self) {
        let mut least = u128::MAX;
        for _ in 0..50 {
            let start = Instant::now();
            let mut nodes = vec![self.start.clone(); self.copies];
            self.take(&mut Views::default(), &mut nodes);
            least = least.min(start.elapsed().as_nanos());
        }
        println!("copied_{} {}", self.name, least / self.count() as u128);
    }

    /// Each copy has taken another event before, as a copy of ours that shares its reports with none.
    fn print_own_time(&self) {
        let mut least = u128::MAX;
        for _ in 0..50 {
            let mut nodes = self.own_copies();
            let start = Instant::now();
            self.take(&mut Views::default(), &mut nodes);
            least = least.min(start.elapsed().as_nanos());
        }
        println!("own_{} {}", self.name, least / self.count() as u128);
    }

    /// Copies that have taken an alert of the member with the number 2 on itself, which is ill-formed.
    fn own_copies(&self) -> Vec<Node> {
        let mut nodes = vec![self.start.clone(); self.copies];
        let id = self.start.configuration().unwrap().id;
        let before = batch(process(2), id, &[(0, process(2))]);
        for node in &mut nodes {
            black_box(node.step(&mut Views::default(), &Event::Receive(black_box(&before))));
        }
        nodes
    }

    fn print_own_held(&self) {
        let mut nodes = self.own_copies();
        let before = held();
        self.take(&mut Views::default(), &mut nodes);
        println!("own_{}_bytes {}", self.name, (held() - before) / self.count() as u64);
    }

    fn print_copied_held(&self) {
        let before = held();
        let mut nodes = vec![self.start.clone(); self.copies];
        self.take(&mut Views::default(), &mut nodes);
        println!("copied_{}_bytes {}", self.name, (held() - before) / self.count() as u64);
    }

    fn is_batch(&self) -> bool {
        self.name.contains("batch") && !self.name.contains("great")
    }

    fn print_held(&self) {
        let mut nodes = vec![self.start.clone(); self.copies];
        let before = held();
        self.take(&mut Views::default(), &mut nodes);
        println!("{}_bytes {}", self.name, (held() - before) / self.count() as u64);
    }
}

/// How many copies are made at a time.
const COPIES: usize = 1000;

fn print_copy_time(name: &str, node: &Node) {
    let mut least = u128::MAX;
    for _ in 0..50 {
        let start = Instant::now();
        let nodes = vec![node.clone(); COPIES];
        least = least.min(start.elapsed().as_nanos());
        drop(nodes);
    }
    println!("{name} {}", least / COPIES as u128);
}

fn print_copy_held(name: &str, node: &Node) {
    let before = held();
    let nodes = vec![node.clone(); COPIES];
    println!("{name}_bytes {}", (held() - before) / COPIES as u64);
    drop(nodes);
}

/// The founder with the number 1 among this many on this many rings, and what it is a member of.
fn founder_on(rings: u8, members: u16) -> (Node, Arc<View>) {
    let members = (1..=members).map(process).collect();
    let config = Configuration::seed(Params { k: rings, h: 9, l: 3 }, members);
    let view = Arc::new(View::new(Arc::new(config)));
    (Node::founder(view.clone(), process(1)), view)
}

fn founder(members: u16) -> (Node, Arc<View>) {
    founder_on(K, members)
}

fn one_batch(view: &View, observer: Process, subjects: &[(u8, Process)]) -> Vec<Happening> {
    vec![Some(batch(observer, view.config.id, subjects))]
}

fn alerts_on_one(view: &View) -> Vec<Happening> {
    let subject = process(3);
    let observer = view.observer(0, &subject).unwrap();
    let observes = |ring: &u8| view.observer(*ring, &subject) == Some(observer);
    let subjects: Vec<_> = (0..K).filter(observes).map(|ring| (ring, subject)).collect();
    one_batch(view, observer, &subjects)
}

/// The node after eight reports on each of the twenty members from 11 on, a batch each.
fn reported(node: &Node, view: &View) -> Node {
    let mut node = node.clone();
    for n in 11..=30 {
        for ring in 0..8 {
            let observer = view.observer(ring, &process(n)).unwrap();
            for happening in one_batch(view, observer, &[(ring, process(n))]) {
                node.step(&mut Views::default(), &event(&happening));
            }
        }
    }
    node
}

const SIZES: [u16; 3] = [5, 100, 1024];

fn all_steps() -> Vec<Steps> {
    let mut all = Vec::new();
    for members in SIZES {
        let (node, view) = founder(members);
        let voters = 2..members / 4 * 3 + 2;
        let votes = voters.map(|n| Some(vote(process(n), view.config.id, 10))).collect();
        all.push(Steps::new(format!("vote_step_{members}"), &node, votes));
        all.push(Steps::new(format!("batch_step_{members}"), &node, alerts_on_one(&view)));
        let ticks = (0..19).map(|_| None).collect();
        all.push(Steps::new(format!("tick_step_{members}"), &node, ticks));
    }
    let (node, view) = founder(1024);
    let (start, events) = (reported(&node, &view), alerts_on_one(&view));
    all.push(Steps { name: "late_batch_step_1024".into(), start, events, copies: 20 });
    let events = one_batch(&view, process(3), &every_ring());
    all.push(Steps { name: "great_batch_step_1024".into(), start: node, events, copies: 20 });
    all
}

pub fn measure_all() {
    for steps in all_steps() {
        steps.print_time();
    }
    for steps in all_steps().iter().filter(|it| it.is_batch()) {
        steps.print_copied_time();
        steps.print_own_time();
    }
    for members in SIZES {
        print_copy_time(&format!("copy_{members}"), &founder(members).0);
    }
}

pub fn measure_bytes() {
    for steps in all_steps() {
        steps.print_held();
    }
    for steps in all_steps().iter().filter(|it| it.is_batch()) {
        steps.print_copied_held();
        steps.print_own_held();
    }
    for members in SIZES {
        print_copy_held(&format!("copy_{members}"), &founder(members).0);
    }
}

/// Prints the figures of a node that stand beside those of a desk.
pub fn measure_desks() {
    let (node, view) = founder_on(10, 1000);
    let votes = (2..502).map(|n| Some(vote(process(n), view.config.id, 10))).collect();
    Steps::new("node_vote".into(), &node, votes).print_time();
    let ticks = (0..500).map(|_| None).collect();
    Steps::new("node_tick".into(), &node, ticks).print_time();
}
