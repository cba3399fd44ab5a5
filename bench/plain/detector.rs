//! The cut detector: a bit for each ring on which a process is reported or its report is implied.
use crate::frames::{Alert, Kind};
use crate::view::{Cut, Places, View};
use crate::Process;
use std::collections::BTreeMap;

/// The most joiners that are reported on.
const MOST_JOINERS: usize = 512;

#[derive(Clone)]
struct Reports {
    direct: u16,
    all: u16,
    // the places of its observers, by ring
    observers: Places,
}

#[derive(Clone, Default)]
pub struct Detector {
    reports: BTreeMap<Process, Reports>,
    joiners: usize,
    // those with at least L direct reports, in the order in which they came to it
    low: Vec<Process>,
    closed: bool,
}

fn may_be_well_formed(view: &View, alert: &Alert) -> bool {
    alert.config == view.config.id
        && alert.ring < view.k()
        && (alert.kind == Kind::Remove) == view.is_member(&alert.subject)
}

impl Detector {
    /// Makes room for reports on the subject of a well-formed alert, unless it is a joiner too
    /// many.
    fn begin(&mut self, view: &View, alert: &Alert) -> bool {
        let observers = view.observers_of(&alert.subject);
        if view.member(observers[alert.ring as usize]) != Some(alert.observer) {
            return false;
        }
        if alert.kind == Kind::Join {
            if self.joiners == MOST_JOINERS {
                return false;
            }
            self.joiners += 1;
        }
        self.reports.insert(alert.subject, Reports { direct: 0, all: 0, observers });
        true
    }

    fn take(&mut self, view: &View, alert: &Alert) {
        if !may_be_well_formed(view, alert) {
            return;
        }
        if !self.reports.contains_key(&alert.subject) && !self.begin(view, alert) {
            return;
        }
        let Some(reports) = self.reports.get_mut(&alert.subject) else {
            return;
        };
        let observer = view.member(reports.observers[alert.ring as usize]);
        if observer != Some(alert.observer) || reports.direct >> alert.ring & 1 == 1 {
            return;
        }
        reports.direct |= 1 << alert.ring;
        reports.all |= 1 << alert.ring;
        if reports.direct.count_ones() == view.config.params.l as u32 {
            self.low.push(alert.subject);
        }
    }

    fn reaches_low(&self, view: &View, place: u16) -> bool {
        let low = view.config.params.l as u32;
        let reports = view.member(place).and_then(|p| self.reports.get(&p));
        reports.is_some_and(|reports| reports.direct.count_ones() >= low)
    }

    /// Adds the reports that are implied: if the subject and its observer both have at least L.
    /// Implied reports make nobody else have L, since they are only on those who have.
    fn close(&mut self, view: &View) {
        for subject in self.low.clone() {
            let Reports { all, observers, .. } = self.reports[&subject];
            for ring in (0..view.k()).filter(|ring| all >> ring & 1 == 0) {
                if self.reaches_low(view, observers[ring as usize]) {
                    self.reports.get_mut(&subject).unwrap().all |= 1 << ring;
                }
            }
        }
    }

    fn tally(&self, p: &Process) -> u32 {
        self.reports[p].all.count_ones()
    }

    /// The unstable processes, in no order.
    pub fn unstable<'a>(&'a self, view: &View) -> impl Iterator<Item = &'a Process> {
        let high = view.config.params.h as u32;
        self.low.iter().filter(move |p| self.tally(p) < high)
    }

    /// Takes a batch. The cut, at the first batch that has one.
    pub fn batch(&mut self, view: &View, alerts: &[Alert]) -> Option<Cut> {
        if self.closed {
            return None;
        }
        let before = self.low.len();
        for alert in alerts {
            self.take(view, alert);
        }
        if before < self.low.len() {
            self.close(view);
        }
        if self.low.is_empty() || self.unstable(view).next().is_some() {
            return None;
        }
        self.closed = true;
        let mut cut = self.low.clone();
        cut.sort_unstable();
        Some(cut)
    }
}
