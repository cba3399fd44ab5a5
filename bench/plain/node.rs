//! One node of the service: how it joins, what it does as a member, and what it installs.
use crate::frames::{Alert, Answer, Body, Kind, Message};
use crate::detector::Detector;
use crate::view::{collides, endpoint, ConfigId, Configuration, Cut, Endpoint, View, Views};
use crate::voting::{Acceptor, Ballot, Coordinator, FastRound, Learner, Vote, FAST};
use crate::Process;
use std::collections::{BTreeMap, BTreeSet, HashSet, VecDeque};
use std::sync::Arc;

const MOST_JOINERS: usize = 512;
const MOST_ALERTS: usize = 2048;
const KEPT_DECISIONS: usize = 64;
const RESEND_PERIOD: u64 = 20;
const ECHO_AGE: u8 = 40;

#[derive(Clone, Copy)]
pub enum Event<'a> {
    EdgeDown(ConfigId, u8, Process),
    Tick,
    Receive(&'a Message),
    Leave,
}

pub enum Destination {
    To(Endpoint),
    /// To the other members of this view.
    Others(Arc<View>),
}

/// What a node sends in a step.
pub type Outputs = Vec<(Destination, Arc<Message>)>;

/// The alerts of a member.
#[derive(Clone, Default)]
struct Outbox {
    raised: Vec<Alert>,
    seen: HashSet<(Process, u8)>,
    joiners: BTreeSet<Process>,
    flushed: usize,
}

/// A member in its configuration.
#[derive(Clone)]
pub struct Member {
    me: Process,
    place: usize,
    view: Arc<View>,
    detector: Detector,
    fast: FastRound,
    acceptor: Acceptor,
    coordinator: Coordinator,
    learner: Learner,
    outbox: Outbox,
    // the joiners that wait for an answer here
    pending: BTreeSet<Process>,
    proposal: Option<Cut>,
    voted: bool,
    tick: u64,
    first_vote: Option<u64>,
    ages: BTreeMap<Process, u8>,
}

/// The cut that was decided, if one was.
type Decided = Option<Cut>;

impl Member {
    fn new(view: Arc<View>, me: Process) -> Member {
        Member {
            me,
            place: view.config.position(&me).unwrap(),
            detector: Detector::default(),
            fast: FastRound::new(view.config.members.len()),
            acceptor: Acceptor::new(),
            coordinator: Coordinator::default(),
            learner: Learner::default(),
            outbox: Outbox::default(),
            pending: BTreeSet::new(),
            proposal: None,
            voted: false,
            tick: 0,
            first_vote: None,
            ages: BTreeMap::new(),
            view,
        }
    }

    fn id(&self) -> ConfigId {
        self.view.config.id
    }

    fn size(&self) -> usize {
        self.view.config.members.len()
    }

    fn say(&self, out: &mut Outputs, to: &Process, body: Body) {
        out.push((Destination::To(endpoint(to)), Arc::new(Message { sender: self.me, body })));
    }

    fn say_all(&self, out: &mut Outputs, body: Body) {
        let others = Destination::Others(self.view.clone());
        out.push((others, Arc::new(Message { sender: self.me, body })));
    }

    fn raise(&mut self, alert: Alert) {
        let view = &self.view;
        let fits = (alert.kind == Kind::Remove) == view.is_member(&alert.subject);
        let has_room = alert.kind == Kind::Remove
            || self.outbox.joiners.contains(&alert.subject)
            || self.outbox.joiners.len() < MOST_JOINERS;
        let own =
            alert.ring < view.k() && view.observer(alert.ring, &alert.subject) == Some(self.me);
        if alert.config != view.config.id || !own || !fits || !has_room {
            return;
        }
        if self.outbox.seen.insert((alert.subject, alert.ring)) {
            if alert.kind == Kind::Join {
                self.outbox.joiners.insert(alert.subject);
            }
            self.outbox.raised.push(alert);
        }
    }

    fn raise_on(&mut self, subject: Process, ring: u8) {
        let kind = if self.view.is_member(&subject) { Kind::Remove } else { Kind::Join };
        self.raise(Alert { observer: self.me, subject, ring, kind, config: self.id() });
    }

    fn take_vote(&mut self, place: usize, cut: &Cut) -> Decided {
        self.first_vote.get_or_insert(self.tick);
        self.fast.hear(place, cut).then(|| cut.clone())
    }

    fn take_batch(&mut self, out: &mut Outputs, alerts: &[Alert]) -> Decided {
        let cut = self.detector.batch(&self.view, alerts)?;
        self.proposal = Some(cut.clone());
        if !self.acceptor.accept(FAST, &cut) {
            return None;
        }
        self.voted = true;
        self.say_all(out, Body::FastVote(self.id(), cut.clone()));
        self.take_vote(self.place, &cut)
    }

    fn take_accepted(&mut self, place: usize, ballot: Ballot, cut: &Cut) -> Decided {
        self.learner.hear(self.size(), place, ballot, cut).then(|| cut.clone())
    }

    fn take_accept(&mut self, out: &mut Outputs, ballot: Ballot, cut: &Cut) -> Decided {
        if !self.acceptor.accept(ballot, cut) {
            return None;
        }
        self.say_all(out, Body::Accepted(self.id(), ballot, cut.clone()));
        self.take_accepted(self.place, ballot, cut)
    }

    fn take_promise(
        &mut self,
        out: &mut Outputs,
        place: usize,
        ballot: Ballot,
        vote: Option<Vote>,
    ) -> Decided {
        let (size, own) = (self.size(), self.proposal.as_ref());
        let cut = self.coordinator.hear(size, place, ballot, vote, own)?;
        self.say_all(out, Body::Accept(self.id(), ballot, cut.clone()));
        self.take_accept(out, ballot, &cut)
    }

    fn take_prepare(&mut self, out: &mut Outputs, from: &Process, ballot: Ballot) -> Decided {
        let vote = self.acceptor.promise(ballot)?;
        if *from == self.me {
            return self.take_promise(out, self.place, ballot, vote);
        }
        self.say(out, from, Body::Promise(self.id(), ballot, vote));
        None
    }

    /// Takes a message about its configuration.
    fn take(&mut self, out: &mut Outputs, from: &Process, body: &Body) -> Decided {
        let position = self.view.config.position(from);
        let is_of = |ballot: &Ballot| position == Some(ballot.position as usize);
        match body {
            Body::Batch(_, alerts) => self.take_batch(out, alerts),
            Body::FastVote(_, cut) => self.take_vote(position?, cut),
            Body::Prepare(_, ballot) if is_of(ballot) => self.take_prepare(out, from, *ballot),
            Body::Promise(_, ballot, vote) => {
                self.take_promise(out, position?, *ballot, vote.clone())
            }
            Body::Accept(_, ballot, cut) if is_of(ballot) => self.take_accept(out, *ballot, cut),
            Body::Accepted(_, ballot, cut) => self.take_accepted(position?, *ballot, cut),
            Body::Decision(_, cut) => Some(cut.clone()),
            Body::Leave(_, ring) => {
                let kind = Kind::Remove;
                let (observer, config) = (self.me, self.id());
                self.raise(Alert { observer, subject: *from, ring: *ring, kind, config });
                None
            }
            _ => None,
        }
    }

    /// Answers a joiner, if there is an answer that is the same on every ring.
    fn answer(&self, joiner: &Process) -> Option<Answer> {
        if collides(&self.view.config.members, joiner) {
            return Some(Answer::EndpointInUse);
        }
        let is_full = !self.pending.contains(joiner) && self.pending.len() >= MOST_JOINERS;
        is_full.then_some(Answer::TooManyJoiners)
    }

    fn reply(&self, out: &mut Outputs, joiner: &Process, answer: Answer) {
        self.say(out, joiner, Body::Reply(*joiner, answer));
    }

    fn confirm(&self, out: &mut Outputs, joiner: &Process, config: &Arc<Configuration>) {
        self.say(out, joiner, Body::Confirm(config.clone()));
    }

    fn pre_join(&self, out: &mut Outputs, joiner: &Process) {
        if self.view.is_member(joiner) {
            return self.confirm(out, joiner, &self.view.config);
        }
        let safe = || Answer::Safe(self.id(), self.view.observers(joiner));
        self.reply(out, joiner, self.answer(joiner).unwrap_or_else(safe));
    }

    fn join_request(&mut self, out: &mut Outputs, joiner: &Process, id: &ConfigId, ring: u8) {
        if self.view.is_member(joiner) {
            return self.confirm(out, joiner, &self.view.config);
        }
        if *id != self.id() {
            return self.reply(out, joiner, Answer::ConfigurationChanged);
        }
        let observes = ring < self.view.k() && self.view.observer(ring, joiner) == Some(self.me);
        match self.answer(joiner) {
            Some(Answer::EndpointInUse) => self.reply(out, joiner, Answer::EndpointInUse),
            _ if !observes => {}
            Some(answer) => self.reply(out, joiner, answer),
            None => {
                self.pending.insert(*joiner);
                self.raise_on(*joiner, ring);
            }
        }
    }

    fn age(&mut self) {
        let older = |p: &Process| self.ages.get(p).map_or(1, |age| (age + 1).min(ECHO_AGE + 1));
        let ages = self.detector.unstable(&self.view).map(|p| (*p, older(p))).collect();
        self.ages = ages;
        let is_due = |age: &u8| *age == ECHO_AGE;
        let due: Vec<Process> =
            self.ages.iter().filter(|(_, age)| is_due(age)).map(|(p, _)| *p).collect();
        for subject in due {
            for ring in 0..self.view.k() {
                if self.view.observer(ring, &subject) == Some(self.me) {
                    self.raise_on(subject, ring);
                }
            }
        }
    }

    fn repeat(&mut self, out: &mut Outputs) {
        self.outbox.flushed = 0;
        if let (true, Some(cut)) = (self.voted, &self.proposal) {
            self.say_all(out, Body::FastVote(self.id(), cut.clone()));
        }
    }

    fn send_batch(&mut self, out: &mut Outputs) -> Decided {
        let end = self.outbox.raised.len().min(self.outbox.flushed + MOST_ALERTS);
        if self.outbox.flushed == end {
            return None;
        }
        let alerts = self.outbox.raised[self.outbox.flushed..end].to_vec();
        self.outbox.flushed = end;
        self.say_all(out, Body::Batch(self.id(), alerts.clone()));
        self.take_batch(out, &alerts)
    }

    fn recover(&mut self, out: &mut Outputs) -> Decided {
        let patience = RESEND_PERIOD + 4 * self.place as u64;
        let first = self.first_vote?;
        if first >= self.tick || (self.tick - first) % patience != 0 {
            return None;
        }
        let ballot = self.coordinator.begin(self.place, self.acceptor.promised)?;
        self.say_all(out, Body::Prepare(self.id(), ballot));
        let me = self.me;
        self.take_prepare(out, &me, ballot)
    }

    fn on_tick(&mut self, out: &mut Outputs) -> Decided {
        self.tick = self.tick.saturating_add(1);
        self.age();
        if self.tick % RESEND_PERIOD == 0 {
            self.repeat(out);
        }
        self.send_batch(out).or_else(|| self.recover(out))
    }

    /// Tells the pending joiners what comes after its configuration.
    fn confirm_all(&self, out: &mut Outputs, next: &Arc<Configuration>) {
        for joiner in &self.pending {
            if next.position(joiner).is_some() {
                self.confirm(out, joiner, next);
            } else {
                self.reply(out, joiner, Answer::ConfigurationChanged);
            }
        }
    }
}

#[derive(Clone)]
pub enum Phase {
    Joining { seed: Endpoint, ticks: u8 },
    Member(Box<Member>),
    Removed(Arc<Configuration>),
}

/// What is kept of a configuration that was installed.
#[derive(Clone)]
pub struct Stamp {
    pub height: u64,
    pub id: ConfigId,
}

#[derive(Clone)]
pub struct Node {
    pub me: Process,
    phase: Phase,
    pub installed: Vec<Stamp>,
    decisions: VecDeque<(ConfigId, Cut)>,
}

/// The configuration for which a message is answered with a decision, once that was left.
fn about(body: &Body) -> Option<ConfigId> {
    match body {
        Body::Batch(id, _)
        | Body::FastVote(id, _)
        | Body::Prepare(id, _)
        | Body::Promise(id, ..)
        | Body::Accept(id, ..)
        | Body::Accepted(id, ..)
        | Body::Probe(id)
        | Body::Leave(id, _) => Some(*id),
        _ => None,
    }
}

impl Node {
    fn new(me: Process, phase: Phase) -> Node {
        Node { me, phase, installed: Vec::new(), decisions: VecDeque::new() }
    }

    /// The node of a founder.
    pub fn founder(view: Arc<View>, me: Process) -> Node {
        let stamp = Stamp { height: view.config.height, id: view.config.id };
        let mut node = Node::new(me, Phase::Member(Box::new(Member::new(view, me))));
        node.installed.push(stamp);
        node
    }

    /// The node of a process that asks a seed to let it in.
    pub fn joiner(me: Process, seed: Endpoint) -> Node {
        Node::new(me, Phase::Joining { seed, ticks: 0 })
    }

    /// What it is a member of, and its place there.
    pub fn membership(&self) -> Option<(&Arc<View>, usize)> {
        match &self.phase {
            Phase::Member(member) => Some((&member.view, member.place)),
            _ => None,
        }
    }

    pub fn configuration(&self) -> Option<&Arc<Configuration>> {
        match &self.phase {
            Phase::Joining { .. } => None,
            Phase::Member(member) => Some(&member.view.config),
            Phase::Removed(config) => Some(config),
        }
    }

    fn install(&mut self, views: &mut Views, out: &mut Outputs, cut: Cut) {
        let Phase::Member(member) = &self.phase else {
            return;
        };
        let next = views.after(&member.view, &cut);
        member.confirm_all(out, &next.config);
        if self.decisions.len() == KEPT_DECISIONS {
            self.decisions.pop_front();
        }
        self.decisions.push_back((member.id(), cut));
        self.installed.push(Stamp { height: next.config.height, id: next.config.id });
        self.phase = if next.is_member(&self.me) {
            Phase::Member(Box::new(Member::new(next, self.me)))
        } else {
            Phase::Removed(next.config.clone())
        };
    }

    /// Answers a message for a configuration that was left with the cut decided there.
    fn catch_up(&self, out: &mut Outputs, message: &Message) {
        let Some(id) = about(&message.body) else {
            return;
        };
        if let Some((_, cut)) = self.decisions.iter().find(|(left, _)| *left == id) {
            let body = Body::Decision(id, cut.clone());
            let answer = Message { sender: self.me, body };
            out.push((Destination::To(endpoint(&message.sender)), Arc::new(answer)));
        }
    }

    fn member_receives(&mut self, out: &mut Outputs, message: &Message) -> Decided {
        let Phase::Member(member) = &mut self.phase else {
            return None;
        };
        let from = &message.sender;
        match &message.body {
            Body::PreJoin => member.pre_join(out, from),
            Body::JoinRequest(id, ring) => member.join_request(out, from, id, *ring),
            Body::Decision(id, cut) if *id == member.id() => return Some(cut.clone()),
            Body::Decision(..) => {}
            body => {
                if let Body::Probe(_) = body {
                    member.say(out, from, Body::ProbeAck(member.id()));
                }
                if about(body) == Some(member.id()) {
                    return member.take(out, from, body);
                }
                self.catch_up(out, message);
            }
        }
        None
    }

    fn joiner_receives(&mut self, views: &mut Views, out: &mut Outputs, message: &Message) {
        let Phase::Joining { seed, .. } = &self.phase else {
            return;
        };
        let mut say = |to: Endpoint, body: Body| {
            out.push((Destination::To(to), Arc::new(Message { sender: self.me, body })))
        };
        match &message.body {
            Body::Reply(who, Answer::Safe(id, observers)) if *who == self.me => {
                for (ring, observer) in (0..).zip(observers) {
                    say(endpoint(observer), Body::JoinRequest(*id, ring));
                }
            }
            Body::Reply(who, Answer::ConfigurationChanged) if *who == self.me => {
                say(*seed, Body::PreJoin);
            }
            Body::Confirm(config) if config.position(&self.me).is_some() => {
                *self = Node::founder(views.of(config), self.me);
            }
            _ => {}
        }
    }

    fn receive(&mut self, views: &mut Views, out: &mut Outputs, message: &Message) -> Decided {
        match &self.phase {
            Phase::Joining { .. } => self.joiner_receives(views, out, message),
            Phase::Member(_) => return self.member_receives(out, message),
            Phase::Removed(_) => self.catch_up(out, message),
        }
        None
    }

    fn on_tick(&mut self, out: &mut Outputs) -> Decided {
        match &mut self.phase {
            Phase::Joining { seed, ticks } => {
                if *ticks == 0 {
                    let asks = Message { sender: self.me, body: Body::PreJoin };
                    out.push((Destination::To(*seed), Arc::new(asks)));
                }
                *ticks = (*ticks + 1) % 10;
                None
            }
            Phase::Member(member) => member.on_tick(out),
            Phase::Removed(_) => None,
        }
    }

    fn on_edge_down(&mut self, config: ConfigId, ring: u8, subject: Process) {
        if let Phase::Member(member) = &mut self.phase {
            let observer = member.me;
            member.raise(Alert { observer, subject, ring, kind: Kind::Remove, config });
        }
    }

    /// A member asks those that observe it to have it removed.
    fn leave(&self, out: &mut Outputs) {
        if let Phase::Member(member) = &self.phase {
            for ring in 0..member.view.k() {
                if let Some(observer) = member.view.observer(ring, &self.me) {
                    member.say(out, &observer, Body::Leave(member.id(), ring));
                }
            }
        }
    }

    /// Takes an event, by views that nodes share, and gives out what it sends.
    pub fn step(&mut self, views: &mut Views, event: &Event) -> Outputs {
        let mut out = Vec::new();
        let decided = match event {
            Event::EdgeDown(config, ring, subject) => {
                self.on_edge_down(*config, *ring, *subject);
                None
            }
            Event::Tick => self.on_tick(&mut out),
            Event::Receive(message) => self.receive(views, &mut out, message),
            Event::Leave => {
                self.leave(&mut out);
                None
            }
        };
        if let Some(cut) = decided {
            self.install(views, &mut out, cut);
        }
        out
    }
}
