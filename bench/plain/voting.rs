//! What a member keeps for the vote: the fast round, and the three parts of classic recovery.
use crate::view::Cut;
use crate::Process;
use std::collections::{BTreeMap, BTreeSet};

/// A ballot: rounds first, then positions.
#[derive(Clone, Copy, Debug, PartialEq, Eq, PartialOrd, Ord)]
pub struct Ballot {
    pub round: u8,
    pub position: u16,
}

pub const FAST: Ballot = Ballot { round: 1, position: 0 };

/// A vote at a ballot.
pub type Vote = (Ballot, Cut);

pub fn fast_size(members: usize) -> usize {
    3 * members / 4 + 1
}

pub fn classic_size(members: usize) -> usize {
    members / 2 + 1
}

/// The fast round of n members: a bit for each position heard and a counter for each value.
#[derive(Clone)]
pub struct FastRound {
    size: usize,
    heard: [u64; 16],
    counts: BTreeMap<Cut, usize>,
}

impl FastRound {
    pub fn new(size: usize) -> FastRound {
        FastRound { size, heard: [0; 16], counts: BTreeMap::new() }
    }

    /// Takes the vote of a position. Whether it is the one that completes a fast quorum.
    pub fn hear(&mut self, position: usize, cut: &[Process]) -> bool {
        if position >= self.size || self.heard[position / 64] >> (position % 64) & 1 == 1 {
            return false;
        }
        self.heard[position / 64] |= 1 << (position % 64);
        let count = match self.counts.get_mut(cut) {
            Some(count) => {
                *count += 1;
                *count
            }
            None => {
                self.counts.insert(cut.to_vec(), 1);
                1
            }
        };
        count == fast_size(self.size)
    }
}

/// The acceptor of one member.
#[derive(Clone)]
pub struct Acceptor {
    pub promised: Ballot,
    last: Option<Vote>,
}

impl Acceptor {
    pub fn new() -> Acceptor {
        Acceptor { promised: FAST, last: None }
    }

    /// Promises a ballot above all before, and reports the last vote.
    pub fn promise(&mut self, ballot: Ballot) -> Option<Option<Vote>> {
        (self.promised < ballot).then(|| {
            self.promised = ballot;
            self.last.clone()
        })
    }

    /// Votes for a cut, unless a higher ballot was promised or it voted at this one.
    pub fn accept(&mut self, ballot: Ballot, cut: &Cut) -> bool {
        if ballot < self.promised || self.last.as_ref().is_some_and(|vote| vote.0 == ballot) {
            return false;
        }
        self.promised = ballot;
        self.last = Some((ballot, cut.clone()));
        true
    }
}

/// The coordinator of one member.
#[derive(Clone, Default)]
pub struct Coordinator {
    ballot: Option<Ballot>,
    heard: BTreeSet<usize>,
    top: Option<Ballot>,
    counts: BTreeMap<Cut, usize>,
}

impl Coordinator {
    /// Begins the next ballot above this one, if rounds are left.
    pub fn begin(&mut self, position: usize, above: Ballot) -> Option<Ballot> {
        let last = self.ballot.map_or(0, |ballot| ballot.round);
        let round = 2.max(above.round.max(last).saturating_add(1));
        (round <= 250).then(|| {
            let ballot = Ballot { round, position: position as u16 };
            *self = Coordinator { ballot: Some(ballot), ..Coordinator::default() };
            ballot
        })
    }

    fn note(&mut self, vote: Option<Vote>) {
        let Some((ballot, cut)) = vote else {
            return;
        };
        if self.top < Some(ballot) {
            self.top = Some(ballot);
            self.counts.clear();
        }
        if self.top == Some(ballot) {
            *self.counts.entry(cut).or_default() += 1;
        }
    }

    fn value(&self, members: usize, own: Option<&Cut>) -> Option<Cut> {
        let promised = self.heard.len();
        let is_forced = |count: &usize| fast_size(members) + promised <= count + members;
        let forced = self.counts.iter().find(|(_, count)| is_forced(count));
        // the bytes of a cut, by which cuts are compared, begin with its length
        let least = || self.counts.iter().min_by_key(|(cut, _)| (cut.len(), *cut));
        forced.or_else(least).map(|(cut, _)| cut).or(own).cloned()
    }

    /// Takes a promise. The cut to ask for, if it completes a classic quorum.
    pub fn hear(
        &mut self,
        members: usize,
        position: usize,
        ballot: Ballot,
        vote: Option<Vote>,
        own: Option<&Cut>,
    ) -> Option<Cut> {
        if self.ballot != Some(ballot) || !self.heard.insert(position) {
            return None;
        }
        self.note(vote);
        if self.heard.len() != classic_size(members) {
            return None;
        }
        self.value(members, own)
    }
}

/// The learner of one member.
#[derive(Clone, Default)]
pub struct Learner {
    notices: BTreeMap<Vote, BTreeSet<usize>>,
}

impl Learner {
    /// Takes a notice. Whether a classic quorum gave it.
    pub fn hear(&mut self, members: usize, position: usize, ballot: Ballot, cut: &Cut) -> bool {
        let heard = self.notices.entry((ballot, cut.clone())).or_default();
        heard.insert(position);
        heard.len() >= classic_size(members)
    }
}
