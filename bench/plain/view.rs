//! Configurations, and who observes whom in them.
use crate::{key, put_process, sha256, Process, Ring};
use std::collections::HashMap;
use std::sync::{Arc, Mutex};

/// The identifier of a configuration.
pub type ConfigId = [u8; 32];

/// From 1 to 1,536 processes, strictly ascending.
pub type Cut = Vec<Process>;

/// The most members of a configuration.
const MOST_MEMBERS: usize = 1024;

/// An address and a port.
pub type Endpoint = [u8; 6];

/// How many rings there are, and how many reports make a process stable or unstable.
#[derive(Clone, Copy, PartialEq, Eq)]
pub struct Params {
    pub k: u8,
    pub h: u8,
    pub l: u8,
}

/// Who the members are.
#[derive(Clone)]
pub struct Configuration {
    pub params: Params,
    pub height: u64,
    pub previous: ConfigId,
    pub members: Vec<Process>,
    pub id: ConfigId,
}

/// The last bytes of its key.
pub fn endpoint(p: &Process) -> Endpoint {
    p.key[16..].try_into().unwrap()
}

/// Whether the process has the identifier or the endpoint of one of these.
pub fn collides(members: &[Process], p: &Process) -> bool {
    members.iter().any(|m| m.key[..16] == p.key[..16] || m.key[16..] == p.key[16..])
}

impl Configuration {
    /// The configuration of height 0 with these members, which ascend.
    pub fn seed(params: Params, members: Vec<Process>) -> Configuration {
        Configuration::new(params, 0, [0; 32], members)
    }

    pub fn new(
        params: Params,
        height: u64,
        previous: ConfigId,
        members: Vec<Process>,
    ) -> Configuration {
        let mut made = Configuration { params, height, previous, members, id: [0; 32] };
        made.id = sha256(&made.bytes());
        made
    }

    pub fn bytes(&self) -> Vec<u8> {
        let mut bytes = b"RPC2".to_vec();
        bytes.extend(self.previous);
        bytes.extend(self.height.to_be_bytes());
        bytes.extend([self.params.k, self.params.h, self.params.l]);
        bytes.extend((self.members.len() as u16).to_be_bytes());
        for p in &self.members {
            put_process(&mut bytes, p);
        }
        bytes
    }

    /// No two members have one identifier.
    pub fn position(&self, p: &Process) -> Option<usize> {
        let place = self.members.binary_search_by_key(&p.id(), Process::id).ok()?;
        (self.members[place] == *p).then_some(place)
    }

    /// The configuration after a cut.
    fn after(&self, cut: &[Process]) -> Configuration {
        let stays = |p: &&Process| cut.binary_search(p).is_err();
        let mut members: Vec<Process> = self.members.iter().filter(stays).copied().collect();
        for joiner in cut.iter().filter(|p| self.position(p).is_none()) {
            if members.len() < MOST_MEMBERS && !collides(&members, joiner) {
                let place = members.partition_point(|m| m < joiner);
                members.insert(place, *joiner);
            }
        }
        Configuration::new(self.params, self.height + 1, self.id, members)
    }
}

/// Nobody's place.
const NOBODY: u16 = u16::MAX;

/// The places of members, by ring.
pub type Places = [u16; 16];

/// The keys of a process, by ring.
type Keys = Vec<[u8; 32]>;

/// The keys of those that were no members when they were asked for: they are hashed once for all
/// nodes and views.
#[derive(Default)]
struct KnownKeys(Mutex<HashMap<Process, Arc<Keys>>>);

impl KnownKeys {
    fn of(&self, k: u8, p: &Process) -> Arc<Keys> {
        let hashed = || Arc::new((0..k).map(|ring| key(ring, p)).collect());
        self.0.lock().unwrap().entry(*p).or_insert_with(hashed).clone()
    }
}

/// A configuration, with who observes whom.
pub struct View {
    pub config: Arc<Configuration>,
    rings: Vec<Ring>,
    // of each member, by ring: the place of its observer, and of whom it observes
    observers: Vec<Places>,
    subjects: Vec<Places>,
    // of others, once they were asked for
    strangers: Mutex<HashMap<Process, Places>>,
    keys: Arc<KnownKeys>,
}

impl View {
    pub fn new(config: Arc<Configuration>) -> View {
        let rings = crate::rings(&config.members, config.params.k);
        View::of(config, rings, Arc::default())
    }

    fn of(config: Arc<Configuration>, rings: Vec<Ring>, keys: Arc<KnownKeys>) -> View {
        let count = config.members.len();
        let mut observers = vec![[NOBODY; 16]; count];
        let mut subjects = vec![[NOBODY; 16]; count];
        for (number, ring) in rings.iter().enumerate().filter(|_| count > 1) {
            let places: Vec<usize> =
                ring.iter().map(|(_, p)| config.position(p).unwrap()).collect();
            for (i, subject) in places.iter().enumerate() {
                let observer = places[(i + count - 1) % count];
                observers[*subject][number] = observer as u16;
                subjects[observer][number] = *subject as u16;
            }
        }
        View { config, rings, observers, subjects, strangers: Mutex::default(), keys }
    }

    /// The view of the configuration after this one: keys are taken over.
    fn next(&self, config: Arc<Configuration>) -> View {
        let new: Vec<(Process, Arc<Keys>)> = config
            .members
            .iter()
            .filter(|p| self.config.position(p).is_none())
            .map(|p| (*p, self.keys.of(self.k(), p)))
            .collect();
        let next = |(number, old): (usize, &Ring)| {
            let stays = |x: &&([u8; 32], Process)| config.position(&x.1).is_some();
            let mut ring: Ring = old.iter().filter(stays).copied().collect();
            ring.extend(new.iter().map(|(p, keys)| (keys[number], *p)));
            ring.sort();
            ring
        };
        let rings = self.rings.iter().enumerate().map(next).collect();
        View::of(config, rings, self.keys.clone())
    }

    pub fn k(&self) -> u8 {
        self.config.params.k
    }

    pub fn is_member(&self, p: &Process) -> bool {
        self.config.position(p).is_some()
    }

    /// The member at a place.
    pub fn member(&self, place: u16) -> Option<Process> {
        self.config.members.get(place as usize).copied()
    }

    /// Who observes a process, a member or not, on a ring that there is.
    pub fn observer(&self, number: u8, subject: &Process) -> Option<Process> {
        self.member(self.observers_of(subject)[number as usize])
    }

    /// The places of the observers of a process, by ring.
    pub fn observers_of(&self, subject: &Process) -> Places {
        if let Some(place) = self.config.position(subject) {
            return self.observers[place];
        }
        let mut strangers = self.strangers.lock().unwrap();
        *strangers.entry(*subject).or_insert_with(|| self.places_of_observers(subject))
    }

    /// The places of the observers of a process that is no member.
    fn places_of_observers(&self, subject: &Process) -> Places {
        let mut places = [NOBODY; 16];
        let keys = self.keys.of(self.k(), subject);
        for (number, ring) in self.rings.iter().enumerate().filter(|(_, ring)| !ring.is_empty()) {
            let seat = (keys[number], *subject);
            let below = ring.partition_point(|x| *x < seat);
            let observer = ring[(below + ring.len() - 1) % ring.len()].1;
            places[number] = self.config.position(&observer).map_or(NOBODY, |place| place as u16);
        }
        places
    }

    /// The observers of a process, by ring.
    pub fn observers(&self, subject: &Process) -> Vec<Process> {
        (0..self.k()).filter_map(|ring| self.observer(ring, subject)).collect()
    }

    /// Whom the member at a place observes on a ring.
    pub fn subject(&self, place: usize, ring: u8) -> Option<Process> {
        self.member(self.subjects[place][ring as usize])
    }
}

/// The views that nodes of one process share.
#[derive(Default)]
pub struct Views {
    by_id: HashMap<ConfigId, Arc<View>>,
    after: HashMap<(ConfigId, Cut), Arc<View>>,
}

impl Views {
    /// The view of a configuration.
    pub fn of(&mut self, config: &Arc<Configuration>) -> Arc<View> {
        let view = || Arc::new(View::new(config.clone()));
        self.by_id.entry(config.id).or_insert_with(view).clone()
    }

    /// The view after a cut.
    pub fn after(&mut self, view: &View, cut: &Cut) -> Arc<View> {
        if let Some(next) = self.after.get(&(view.config.id, cut.clone())) {
            return next.clone();
        }
        let config = Arc::new(view.config.after(cut));
        let next = Arc::new(view.next(config));
        self.by_id.insert(next.config.id, next.clone());
        self.after.insert((view.config.id, cut.clone()), next.clone());
        next
    }
}
