//! The site: sizes, boxes, links and mails; a fresh one; what is by form.

use std::collections::VecDeque;

/// left × 4,294,967,296 + right; 0 means no record.
pub type Record = u64;

pub const UNKNOWN: u32 = u32::MAX;
pub const LAST_EPOCH: u32 = 1_000_000;
pub const HIGHEST_PN: u32 = 999_999_999;
/// The last load number.
pub const MOST: u32 = 1_000_000_000;

#[derive(Clone, Copy, PartialEq, Eq, Debug)]
pub enum State {
    Recovering,
    Active,
    Updating,
    UpdatingPrevious,
    Refresh,
}
pub const STATES: [State; 5] =
    [State::Recovering, State::Active, State::Updating, State::UpdatingPrevious, State::Refresh];

#[derive(Clone, Copy, PartialEq, Eq, Debug)]
pub enum Phase {
    Election,
    SendCollect,
    Collect,
    Lease,
    Begin,
    Commit,
    LeaseDone,
}
pub const PHASES: [Phase; 7] = [
    Phase::Election,
    Phase::SendCollect,
    Phase::Collect,
    Phase::Lease,
    Phase::Begin,
    Phase::Commit,
    Phase::LeaseDone,
];

#[derive(Clone, Copy, PartialEq, Eq, Debug)]
pub enum Kind {
    Collect = 1,
    Last,
    Begin,
    Accept,
    Commit,
    Lease,
    LeaseAck,
}
pub const KINDS: [Kind; 7] = [
    Kind::Collect,
    Kind::Last,
    Kind::Begin,
    Kind::Accept,
    Kind::Commit,
    Kind::Lease,
    Kind::LeaseAck,
];

#[derive(Clone, Copy, PartialEq, Eq, Debug)]
pub struct Sizes {
    pub n: u32,
    pub j: u32,
    pub l: u32,
}

/// The best unagreed record heard; cleared, all three are 0.
#[derive(Clone, Copy, PartialEq, Eq, Debug, Default)]
pub struct Best {
    pub pn: u32,
    pub number: u32,
    pub record: Record,
}

/// A box of the site (`Box` is a word of Rust's own).
#[derive(Clone, PartialEq, Eq, Debug)]
pub struct Camera {
    pub leads: bool,
    pub state: State,
    pub phase: Phase,
    pub pn: u32,
    pub last: u32,
    /// The first number that is kept.
    pub first: u32,
    pub stored_pn: u32,
    pub stored_number: u32,
    pub best: Best,
    /// The boxes that answered, the leader among them.
    pub answered: u32,
    pub accepts: u32,
    /// The boxes that answered the lease, the leader among them.
    pub heard: u32,
    pub waiting: Record,
    pub agreeing: Record,
    pub peers: Vec<u32>,
    /// The records from first on.
    pub records: Vec<Record>,
}

#[derive(Clone, PartialEq, Eq, Debug)]
pub struct Mail {
    pub kind: Kind,
    pub pn: u32,
    pub last: u32,
    /// The sender's, in Last, Begin and Commit; 0 in the other kinds.
    pub first: u32,
    pub unagreed_pn: u32,
    pub records: Vec<Record>,
}

#[derive(Clone, PartialEq, Eq, Debug)]
pub struct Site {
    pub sizes: Sizes,
    pub epoch: u32,
    /// Box k is the value 2^(k−1), here and in every other set.
    pub present: u32,
    boxes: Vec<Camera>,
    links: Vec<VecDeque<Mail>>,
}

pub fn member(set: u32, k: u32) -> bool {
    set >> (k - 1) & 1 == 1
}

pub fn only(k: u32) -> u32 {
    1 << (k - 1)
}

pub fn everyone(n: u32) -> u32 {
    (1 << n) - 1
}

pub fn majority(n: u32) -> u32 {
    n / 2 + 1
}

/// 1 ≤ first ≤ last, and 1 where nothing is agreed.
fn first_by_form(first: u32, last: u32) -> bool {
    (1..=last.max(1)).contains(&first)
}

/// How many numbers first to last are.
fn span(first: u32, last: u32) -> usize {
    (last + 1 - first) as usize
}

/// Whether so many records are those from first to last+1, which is a load number.
fn with_next(first: u32, last: u32, held: usize) -> bool {
    last < MOST && held == span(first, last) + 1
}

pub fn proper(r: Record) -> bool {
    r >> 32 != 0 && r & 0xffff_ffff != 0
}

impl Sizes {
    pub fn in_range(&self) -> bool {
        (1..=5).contains(&self.n) && (1..=4096).contains(&self.j) && (1..=16).contains(&self.l)
    }
}

impl Camera {
    pub fn fresh(n: u32) -> Camera {
        Camera {
            leads: false,
            state: State::Recovering,
            phase: Phase::Election,
            pn: 0,
            last: 0,
            first: 1,
            stored_pn: 0,
            stored_number: 0,
            best: Best::default(),
            answered: 0,
            accepts: 0,
            heard: 0,
            waiting: 0,
            agreeing: 0,
            peers: vec![UNKNOWN; n as usize],
            records: vec![],
        }
    }

    /// How many numbers are kept, first to last.
    pub fn kept(&self) -> usize {
        span(self.first, self.last)
    }

    /// The record at last+1, where it is held.
    pub fn unagreed(&self) -> Option<Record> {
        self.records.get(self.kept()).copied()
    }

    /// Records first to last.
    pub fn agreed(&self) -> &[Record] {
        &self.records[..self.kept()]
    }

    /// The record that is held as this number, agreed or not.
    pub fn record(&self, number: u32) -> Option<Record> {
        self.records.get(number.checked_sub(self.first)? as usize).copied()
    }

    /// Whether last+1 would need a record beyond J, or pass the last load number.
    pub fn full(&self, j: u32) -> bool {
        self.last >= MOST || self.kept() as u32 + 1 > j
    }

    /// By form, of what concerns box c alone.
    pub fn by_form(&self, sizes: Sizes, c: u32) -> bool {
        let Sizes { n, j, .. } = sizes;
        let held = self.records.len();
        let numbers = [self.last, self.stored_number, self.best.number];
        [self.pn, self.stored_pn, self.best.pn].iter().all(|pn| *pn <= HIGHEST_PN)
            && numbers.iter().all(|number| *number <= MOST)
            && first_by_form(self.first, self.last)
            && [self.answered, self.accepts, self.heard].iter().all(|set| *set <= everyone(n))
            && [self.best.record, self.waiting, self.agreeing].iter().all(|r| *r == 0 || proper(*r))
            && (1..=n).all(|k| {
                let last = self.peers[k as usize - 1];
                last == UNKNOWN || (k != c && last <= MOST)
            })
            && (held == self.kept() || with_next(self.first, self.last, held))
            && held <= j as usize
            && self.records.iter().all(|r| proper(*r))
    }
}

impl Mail {
    /// How many numbers its sender keeps, first to last.
    pub fn kept(&self) -> usize {
        span(self.first, self.last)
    }

    /// The kinds that carry their sender's first.
    pub fn carries_first(kind: Kind) -> bool {
        matches!(kind, Kind::Last | Kind::Begin | Kind::Commit)
    }

    pub fn by_form(&self, j: u32) -> bool {
        let first = match Mail::carries_first(self.kind) {
            true => first_by_form(self.first, self.last),
            false => self.first == 0,
        };
        let count = self.records.len();
        let told = || self.kind == Kind::Last && with_next(self.first, self.last, count);
        self.pn <= HIGHEST_PN
            && self.last <= MOST
            && first
            && self.unagreed_pn <= HIGHEST_PN
            && (self.unagreed_pn == 0 || told())
            && count <= j as usize
            && self.records.iter().all(|r| proper(*r))
            && match self.kind {
                Kind::Last => count == self.kept() || told(),
                Kind::Commit => count == self.kept(),
                Kind::Begin => count == 1 && self.last < MOST,
                Kind::Lease | Kind::LeaseAck => count == 0 && self.pn == 0,
                Kind::Collect | Kind::Accept => count == 0,
            }
    }
}

impl Site {
    /// A fresh site: epoch 1, all present, links empty.
    pub fn fresh(sizes: Sizes) -> Site {
        let n = sizes.n;
        Site {
            sizes,
            epoch: 1,
            present: everyone(n),
            boxes: vec![Camera::fresh(n); n as usize],
            links: vec![VecDeque::new(); (n * n) as usize],
        }
    }

    pub fn numbers(&self) -> std::ops::RangeInclusive<u32> {
        1..=self.sizes.n
    }

    pub fn at(&self, c: u32) -> &Camera {
        &self.boxes[c as usize - 1]
    }

    pub fn at_mut(&mut self, c: u32) -> &mut Camera {
        &mut self.boxes[c as usize - 1]
    }

    fn place(&self, a: u32, b: u32) -> usize {
        ((a - 1) * self.sizes.n + b - 1) as usize
    }

    pub fn link(&self, a: u32, b: u32) -> &VecDeque<Mail> {
        &self.links[self.place(a, b)]
    }

    pub fn link_mut(&mut self, a: u32, b: u32) -> &mut VecDeque<Mail> {
        let p = self.place(a, b);
        &mut self.links[p]
    }

    /// Ordered pairs of different boxes, by sender and then receiver.
    pub fn pairs(&self) -> Vec<(u32, u32)> {
        let n = self.sizes.n;
        (1..=n).flat_map(|a| (1..=n).filter(move |b| *b != a).map(move |b| (a, b))).collect()
    }

    pub fn clear_links(&mut self) {
        self.links.iter_mut().for_each(VecDeque::clear);
    }

    pub fn leader(&self) -> Option<u32> {
        self.numbers().find(|c| self.at(*c).leads)
    }

    pub fn by_form(&self) -> bool {
        self.sizes.in_range()
            && (1..=LAST_EPOCH).contains(&self.epoch)
            && self.present <= everyone(self.sizes.n)
            && self.boxes.iter().filter(|b| b.leads).count() <= 1
            && self.numbers().all(|c| self.at(c).by_form(self.sizes, c))
            && self.pairs().iter().all(|(a, b)| self.link_by_form(self.link(*a, *b)))
    }

    fn link_by_form(&self, link: &VecDeque<Mail>) -> bool {
        link.len() <= self.sizes.l as usize && link.iter().all(|m| m.by_form(self.sizes.j))
    }
}
