//! The cut detector over lines: who observes whom is told by lines too.
use crate::lines::{self, Line, Words};
use std::collections::{HashMap, HashSet};
use std::io::Write;

const MOST_JOINERS: usize = 512;
const MOST_MEMBERS: usize = 1024;
const MOST_EDGES: usize = 16_384;
const MOST_ALERTS: usize = 16_384;

#[derive(Clone, Copy)]
struct Marks {
    k: u8,
    high: u32,
    low: u32,
}

#[derive(Clone, Copy)]
struct Alert {
    is_join: bool,
    ring: u8,
    observer: u16,
    subject: u16,
}

/// The rings on which a process is reported, and those on which it is or a report is implied.
#[derive(Clone, Copy, Default)]
struct Reports {
    direct: u16,
    all: u16,
}

/// Who observes whom: of each subject its observers by ring, 0 for none.
#[derive(Default)]
struct Table {
    rows: HashMap<u16, [u16; 16]>,
    edges: usize,
    joiners: HashSet<u16>,
    joiner_lines: usize,
    observed: HashSet<u16>,
}

#[derive(Default)]
struct Detector {
    reports: HashMap<u16, Reports>,
    joiners: usize,
    // those with at least L direct reports
    low: Vec<u16>,
    stable: usize,
    // of those with fewer, whom they observe that has as many, and on which ring
    waits: HashMap<u16, Vec<(u16, u8)>>,
    closed: bool,
}

impl Detector {
    fn set(&mut self, marks: Marks, subject: u16, ring: u8) {
        let reports = self.reports.entry(subject).or_default();
        if reports.all >> ring & 1 == 0 {
            reports.all |= 1 << ring;
            self.stable += (reports.all.count_ones() == marks.high) as usize;
        }
    }

    fn reaches_low(&self, marks: Marks, process: u16) -> bool {
        self.reports.get(&process).is_some_and(|it| it.direct.count_ones() >= marks.low)
    }

    /// A process has L reports now: reports are implied on it, and by it.
    fn rise(&mut self, marks: Marks, subject: u16, row: &[u16; 16]) {
        self.low.push(subject);
        for (ring, observer) in (0..marks.k).zip(row).filter(|(_, observer)| **observer != 0) {
            if self.reaches_low(marks, *observer) {
                self.set(marks, subject, ring);
            } else {
                self.waits.entry(*observer).or_default().push((subject, ring));
            }
        }
        for (waiting, ring) in self.waits.remove(&subject).unwrap_or_default() {
            self.set(marks, waiting, ring);
        }
    }

    /// Takes an alert; whether it was not skipped.
    fn take(&mut self, marks: Marks, table: &Table, alert: Alert) -> bool {
        let is_joiner = table.joiners.contains(&alert.subject);
        if alert.is_join != is_joiner || alert.ring >= marks.k {
            return false;
        }
        let row = match table.rows.get(&alert.subject) {
            Some(row) if row[alert.ring as usize] == alert.observer => row,
            _ => return false,
        };
        if is_joiner && !self.reports.contains_key(&alert.subject) {
            if self.joiners == MOST_JOINERS {
                return false;
            }
            self.joiners += 1;
        }
        let reports = self.reports.entry(alert.subject).or_default();
        if reports.direct >> alert.ring & 1 == 1 {
            return true;
        }
        reports.direct |= 1 << alert.ring;
        let count = reports.direct.count_ones();
        self.set(marks, alert.subject, alert.ring);
        if count == marks.low {
            self.rise(marks, alert.subject, row);
        }
        true
    }

    /// Takes a batch: the cut, if it has one now, and how many alerts were skipped.
    fn batch(&mut self, marks: Marks, table: &Table, alerts: &[Alert]) -> (Vec<u16>, usize) {
        if self.closed {
            return (Vec::new(), 0);
        }
        let skipped = alerts.iter().filter(|alert| !self.take(marks, table, **alert)).count();
        if self.stable == 0 || self.stable < self.low.len() {
            return (Vec::new(), skipped);
        }
        self.closed = true;
        let mut cut = self.low.clone();
        cut.sort_unstable();
        (cut, skipped)
    }
}

/// A run of `detect`.
#[derive(Default)]
pub struct Run {
    marks: Option<Marks>,
    reporting: bool,
    table: Table,
    alerts: Vec<Alert>,
    detector: Detector,
}

type Refused = Result<(), &'static str>;

fn marks(words: &mut Words) -> Option<(u8, u8, u8)> {
    let mut number = || words.number(255).map(|number| number as u8);
    let marks = (number()?, number()?, number()?);
    words.end().map(|()| marks)
}

/// A ring and two processes.
fn edge(words: &mut Words) -> Option<(u8, u16, u16)> {
    let ring = words.number(255)? as u8;
    let mut process = || words.number(65535).map(|number| number as u16);
    let (observer, subject) = (process()?, process()?);
    (words.end().is_some() && observer > 0 && subject > 0).then_some((ring, observer, subject))
}

impl Run {
    fn take_marks(&mut self, words: &mut Words) -> Refused {
        let (k, h, l) = marks(words).filter(|_| self.marks.is_none()).ok_or("BadLine")?;
        if !(1 <= l && l <= h && h <= k && k <= 16) {
            return Err("BadParams");
        }
        self.marks = Some(Marks { k, high: h as u32, low: l as u32 });
        Ok(())
    }

    fn take_joiner(&mut self, words: &mut Words) -> Refused {
        let number = words.number(65535).filter(|number| *number > 0).ok_or("BadLine")? as u16;
        words.end().ok_or("BadLine")?;
        self.marks.ok_or("NoWatermarks")?;
        if self.reporting {
            return Err("TooLate");
        }
        if self.table.joiner_lines >= MOST_JOINERS {
            return Err("TooMany");
        }
        self.table.joiner_lines += 1;
        self.table.joiners.insert(number);
        self.table.observed.remove(&number);
        Ok(())
    }

    fn take_edge(&mut self, words: &mut Words) -> Refused {
        let (ring, observer, subject) = edge(words).filter(|it| it.1 != it.2).ok_or("BadLine")?;
        let marks = self.marks.ok_or("NoWatermarks")?;
        if self.reporting {
            return Err("TooLate");
        }
        let table = &mut self.table;
        let is_new = !table.joiners.contains(&subject) && !table.observed.contains(&subject);
        if table.edges >= MOST_EDGES || is_new && table.observed.len() >= MOST_MEMBERS {
            return Err("TooMany");
        }
        if ring >= marks.k {
            return Err("RingRange");
        }
        let row = table.rows.entry(subject).or_default();
        if row[ring as usize] != 0 {
            return Err("EdgeTwice");
        }
        row[ring as usize] = observer;
        table.edges += 1;
        if is_new {
            table.observed.insert(subject);
        }
        Ok(())
    }

    fn take_alert(&mut self, is_join: bool, words: &mut Words) -> Refused {
        let (ring, observer, subject) = edge(words).ok_or("BadLine")?;
        self.marks.ok_or("NoWatermarks")?;
        if self.alerts.len() >= MOST_ALERTS {
            return Err("TooMany");
        }
        self.reporting = true;
        self.alerts.push(Alert { is_join, ring, observer, subject });
        Ok(())
    }

    fn take_batch(&mut self, words: &mut Words, out: &mut Vec<u8>) -> Refused {
        words.end().ok_or("BadLine")?;
        let marks = self.marks.ok_or("NoWatermarks")?;
        self.reporting = true;
        let (cut, skipped) = self.detector.batch(marks, &self.table, &self.alerts);
        self.alerts.clear();
        out.extend(if cut.is_empty() { b"none".as_slice() } else { b"cut" });
        for number in cut {
            write!(out, " {number}").unwrap();
        }
        if skipped > 0 {
            write!(out, " skipped {skipped}").unwrap();
        }
        out.push(b'\n');
        Ok(())
    }

    fn obey(&mut self, mut words: Words, out: &mut Vec<u8>) -> Refused {
        match words.next() {
            Some(b"watermarks") => self.take_marks(&mut words),
            Some(b"joiner") => self.take_joiner(&mut words),
            Some(b"edge") => self.take_edge(&mut words),
            Some(b"remove") => self.take_alert(false, &mut words),
            Some(b"join") => self.take_alert(true, &mut words),
            Some(b"batch") => self.take_batch(&mut words, out),
            _ => Err("BadLine"),
        }
    }

    pub fn answer(&mut self, line: &[u8], out: &mut Vec<u8>) {
        let obeyed = match lines::read(line) {
            Line::Bad => Err("BadLine"),
            Line::Nothing => Ok(()),
            Line::Words(words) => self.obey(words, out),
        };
        if let Err(name) = obeyed {
            writeln!(out, "refused {name}").unwrap();
        }
    }
}
