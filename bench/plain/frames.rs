//! Frames: messages as bytes, and a stream of bytes as messages.
use crate::view::{ConfigId, Configuration, Cut};
use crate::voting::{Ballot, Vote};
use crate::{from_bytes, measure, process, put_process, read_process, Process};
use std::hint::black_box;
use std::sync::Arc;

#[derive(Clone, Copy, PartialEq, Eq)]
pub enum Kind {
    Remove = 1,
    Join = 2,
}

#[derive(Clone, Copy)]
pub struct Alert {
    pub observer: Process,
    pub subject: Process,
    pub ring: u8,
    pub kind: Kind,
    pub config: ConfigId,
}

pub enum Answer {
    Safe(ConfigId, Vec<Process>),
    EndpointInUse,
    ConfigurationChanged,
    TooManyJoiners,
}

pub enum Body {
    Batch(ConfigId, Vec<Alert>),
    FastVote(ConfigId, Cut),
    Prepare(ConfigId, Ballot),
    Promise(ConfigId, Ballot, Option<Vote>),
    Accept(ConfigId, Ballot, Cut),
    Accepted(ConfigId, Ballot, Cut),
    Decision(ConfigId, Cut),
    PreJoin,
    Reply(Process, Answer),
    JoinRequest(ConfigId, u8),
    Confirm(Arc<Configuration>),
    Probe(ConfigId),
    ProbeAck(ConfigId),
    Leave(ConfigId, u8),
}

pub struct Message {
    pub sender: Process,
    pub body: Body,
}

fn put_cut(out: &mut Vec<u8>, cut: &[Process]) {
    out.extend_from_slice(&(cut.len() as u16).to_be_bytes());
    for p in cut {
        put_process(out, p);
    }
}

fn put_ballot(out: &mut Vec<u8>, ballot: &Ballot) {
    out.push(ballot.round);
    out.extend_from_slice(&ballot.position.to_be_bytes());
}

fn put_batch(out: &mut Vec<u8>, alerts: &[Alert]) {
    out.extend_from_slice(&(alerts.len() as u16).to_be_bytes());
    for alert in alerts {
        out.push(alert.ring);
        out.push(alert.kind as u8);
        put_process(out, &alert.subject);
    }
}

fn put_answer(out: &mut Vec<u8>, answer: &Answer) {
    match answer {
        Answer::Safe(id, observers) => {
            out.push(1);
            out.extend_from_slice(id);
            out.push(observers.len() as u8);
            for p in observers {
                put_process(out, p);
            }
        }
        Answer::EndpointInUse => out.push(2),
        Answer::ConfigurationChanged => out.push(3),
        Answer::TooManyJoiners => out.push(4),
    }
}

fn kind_of(body: &Body) -> u8 {
    match body {
        Body::Batch(..) => 1,
        Body::FastVote(..) => 2,
        Body::Prepare(..) => 3,
        Body::Promise(..) => 4,
        Body::Accept(..) => 5,
        Body::Accepted(..) => 6,
        Body::Decision(..) => 7,
        Body::PreJoin => 8,
        Body::Reply(..) => 9,
        Body::JoinRequest(..) => 10,
        Body::Confirm(_) => 11,
        Body::Probe(_) => 12,
        Body::ProbeAck(_) => 13,
        Body::Leave(..) => 14,
    }
}

/// The frame of a message.
pub fn encode(message: &Message) -> Vec<u8> {
    let mut out = vec![0; 4];
    out.extend_from_slice(&[2, kind_of(&message.body)]);
    put_process(&mut out, &message.sender);
    match &message.body {
        Body::Batch(id, alerts) => {
            out.extend_from_slice(id);
            put_batch(&mut out, alerts);
        }
        Body::FastVote(id, cut) | Body::Decision(id, cut) => {
            out.extend_from_slice(id);
            put_cut(&mut out, cut);
        }
        Body::Prepare(id, ballot) => {
            out.extend_from_slice(id);
            put_ballot(&mut out, ballot);
        }
        Body::Promise(id, ballot, vote) => {
            out.extend_from_slice(id);
            put_ballot(&mut out, ballot);
            out.push(vote.is_some() as u8);
            if let Some((ballot, cut)) = vote {
                put_ballot(&mut out, ballot);
                put_cut(&mut out, cut);
            }
        }
        Body::Accept(id, ballot, cut) | Body::Accepted(id, ballot, cut) => {
            out.extend_from_slice(id);
            put_ballot(&mut out, ballot);
            put_cut(&mut out, cut);
        }
        Body::PreJoin => {}
        Body::Reply(joiner, answer) => {
            put_process(&mut out, joiner);
            put_answer(&mut out, answer);
        }
        Body::JoinRequest(id, ring) | Body::Leave(id, ring) => {
            out.extend_from_slice(id);
            out.push(*ring);
        }
        Body::Confirm(config) => out.extend(config.bytes()),
        Body::Probe(id) | Body::ProbeAck(id) => out.extend_from_slice(id),
    }
    let length = out.len() as u32 - 4;
    out[..4].copy_from_slice(&length.to_be_bytes());
    out
}

/// The bytes that are not read yet.
struct Reader<'a>(&'a [u8]);

impl Reader<'_> {
    fn array<const N: usize>(&mut self) -> Option<[u8; N]> {
        let (front, rest) = self.0.split_first_chunk()?;
        self.0 = rest;
        Some(*front)
    }

    fn byte(&mut self) -> Option<u8> {
        Some(u8::from_be_bytes(self.array()?))
    }

    fn number(&mut self) -> Option<u16> {
        Some(u16::from_be_bytes(self.array()?))
    }

    fn process(&mut self) -> Option<Process> {
        let (process, rest) = read_process(self.0)?;
        self.0 = rest;
        Some(process)
    }

    fn processes(&mut self, count: usize) -> Option<Vec<Process>> {
        (0..count).map(|_| self.process()).collect()
    }

    fn cut(&mut self) -> Option<Cut> {
        let count = self.number()? as usize;
        let cut = self.processes(count)?;
        ((1..=1536).contains(&count) && cut.windows(2).all(|w| w[0] < w[1])).then_some(cut)
    }

    fn ballot(&mut self) -> Option<Ballot> {
        Some(Ballot { round: self.byte()?, position: self.number()? })
    }

    fn classic(&mut self) -> Option<Ballot> {
        self.ballot().filter(|b| (2..=250).contains(&b.round) && b.position < 1024)
    }

    fn report(&mut self) -> Option<Option<Vote>> {
        match self.byte()? {
            0 => Some(None),
            1 => {
                let ballot = self.ballot()?;
                let fast = ballot.round == 1 && ballot.position == 0;
                let classic = (2..=250).contains(&ballot.round) && ballot.position < 1024;
                (fast || classic).then_some(Some((ballot, self.cut()?)))
            }
            _ => None,
        }
    }

    fn batch(&mut self, observer: Process, config: ConfigId) -> Option<Vec<Alert>> {
        let count = self.number()? as usize;
        if !(1..=2048).contains(&count) {
            return None;
        }
        let mut alerts = Vec::new();
        for _ in 0..count {
            let ring = self.byte()?;
            let kind = match self.byte()? {
                1 => Kind::Remove,
                2 => Kind::Join,
                _ => return None,
            };
            alerts.push(Alert { observer, subject: self.process()?, ring, kind, config });
        }
        Some(alerts)
    }

    fn answer(&mut self) -> Option<Answer> {
        match self.byte()? {
            1 => {
                let id = self.array()?;
                let count = self.byte()? as usize;
                let observers = self.processes(count)?;
                (1..=16).contains(&count).then_some(Answer::Safe(id, observers))
            }
            2 => Some(Answer::EndpointInUse),
            3 => Some(Answer::ConfigurationChanged),
            4 => Some(Answer::TooManyJoiners),
            _ => None,
        }
    }

    fn body(&mut self, kind: u8, sender: Process) -> Option<Body> {
        Some(match kind {
            1 => {
                let id = self.array()?;
                Body::Batch(id, self.batch(sender, id)?)
            }
            2 => Body::FastVote(self.array()?, self.cut()?),
            3 => Body::Prepare(self.array()?, self.classic()?),
            4 => Body::Promise(self.array()?, self.classic()?, self.report()?),
            5 => Body::Accept(self.array()?, self.classic()?, self.cut()?),
            6 => Body::Accepted(self.array()?, self.classic()?, self.cut()?),
            7 => Body::Decision(self.array()?, self.cut()?),
            8 => Body::PreJoin,
            9 => Body::Reply(self.process()?, self.answer()?),
            10 => Body::JoinRequest(self.array()?, self.byte()?),
            11 => Body::Confirm(Arc::new(from_bytes(std::mem::take(&mut self.0))?)),
            12 => Body::Probe(self.array()?),
            13 => Body::ProbeAck(self.array()?),
            _ => Body::Leave(self.array()?, self.byte()?),
        })
    }
}

#[derive(Clone, Copy, Debug, PartialEq, Eq)]
pub enum Fault {
    TooLong,
    BadVersion,
    BadKind,
    BadBody,
}

fn decode(frame: &[u8]) -> Result<Message, Fault> {
    let [version, kind, rest @ ..] = frame else {
        return Err(Fault::BadBody);
    };
    if *version != 2 {
        return Err(Fault::BadVersion);
    }
    if !(1..=14).contains(kind) {
        return Err(Fault::BadKind);
    }
    let mut reader = Reader(rest);
    let sender = reader.process().ok_or(Fault::BadBody)?;
    let body = reader.body(*kind, sender).ok_or(Fault::BadBody)?;
    if !reader.0.is_empty() {
        return Err(Fault::BadBody);
    }
    Ok(Message { sender, body })
}

/// The messages of a stream of bytes that comes in pieces.
#[derive(Default)]
pub struct Feed {
    held: Vec<u8>,
    // how many bytes of those in front were answered
    answered: usize,
    fault: Option<Fault>,
}

impl Feed {
    pub fn feed(&mut self, piece: &[u8]) {
        if self.fault.is_some() {
            return;
        }
        if self.answered >= self.held.len() - self.answered {
            self.held.drain(..self.answered);
            self.answered = 0;
        }
        self.held.extend_from_slice(piece);
    }

    pub fn next(&mut self) -> Result<Option<Message>, Fault> {
        if let Some(fault) = self.fault {
            return Err(fault);
        }
        let Some((length, rest)) = self.held[self.answered..].split_first_chunk() else {
            return Ok(None);
        };
        let length = u32::from_be_bytes(*length) as usize;
        let read = if length > 2_097_152 {
            Err(Fault::TooLong)
        } else if let Some(frame) = rest.get(..length) {
            decode(frame)
        } else {
            return Ok(None);
        };
        match read {
            Ok(message) => {
                self.answered += 4 + length;
                Ok(Some(message))
            }
            Err(fault) => {
                self.fault = Some(fault);
                Err(fault)
            }
        }
    }
}

/// About how many bytes a run writes or reads.
const BYTES: usize = 400_000;

fn measure_encoding(name: &str, message: &Message) {
    let length = encode(message).len();
    let times = BYTES / length;
    measure(name, (length * times / 1000) as u128, 50, || {
        for _ in 0..times {
            black_box(encode(black_box(message)));
        }
    });
}

fn measure_feeding(name: &str, frame: &[u8], piece: usize) {
    let times = BYTES / frame.len();
    measure(name, (frame.len() * times / 1000) as u128, 50, || {
        let mut feed = Feed::default();
        for _ in 0..times {
            let mut messages = 0;
            for bytes in frame.chunks(piece) {
                feed.feed(black_box(bytes));
                if let Some(message) = feed.next().unwrap() {
                    black_box(message);
                    messages += 1;
                }
            }
            assert_eq!(messages, 1);
        }
    });
}

/// The first 128 members on each of sixteen rings.
pub fn every_ring() -> Vec<(u8, Process)> {
    (1..=128).flat_map(|n| (0..16).map(move |ring| (ring, process(n)))).collect()
}

/// The batch of an observer that is to remove these members, each on its ring.
pub fn batch(observer: Process, config: ConfigId, subjects: &[(u8, Process)]) -> Message {
    let kind = Kind::Remove;
    let alert = |&(ring, subject): &(u8, Process)| Alert { observer, subject, ring, kind, config };
    Message { sender: observer, body: Body::Batch(config, subjects.iter().map(alert).collect()) }
}

/// The fast vote of a member for the cut of the processes up to a number.
pub fn vote(sender: Process, config: ConfigId, last: u16) -> Message {
    Message { sender, body: Body::FastVote(config, (1..=last).map(process).collect()) }
}

pub fn measure_all() {
    let vote = vote(process(1), [7; 32], 100);
    let batch = batch(process(1), [7; 32], &every_ring());
    let messages = [("vote", vote), ("batch", batch)];
    for (name, message) in &messages {
        let frame = encode(message);
        measure_feeding(&format!("feed_{name}_whole"), &frame, frame.len());
        measure_feeding(&format!("feed_{name}_1500"), &frame, 1500);
        measure_feeding(&format!("feed_{name}_7"), &frame, 7);
        measure_feeding(&format!("feed_{name}_1"), &frame, 1);
        measure_encoding(&format!("encode_{name}"), message);
    }
}
