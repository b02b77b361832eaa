//! A box's own part of a step: its next fields and the mails that it sends.

use crate::faults::Fault;
use crate::rules::{Answer, Call, Cause, Refusal};
use crate::site::*;

/// What a box sees of its site.
#[derive(Clone, Copy)]
pub struct Around {
    pub n: u32,
    pub j: u32,
    pub epoch: u32,
    pub present: u32,
    pub fault: Fault,
}

/// A box's own part of a step: its next fields and the mails that it sends.
pub struct Turn {
    pub answer: Answer,
    pub next: Camera,
    pub out: Vec<(u32, Mail)>,
}

fn done(next: Camera, out: Vec<(u32, Mail)>) -> Result<Turn, Refusal> {
    Ok(Turn { answer: Answer::Done, next, out })
}

fn taken(next: Camera, out: Vec<(u32, Mail)>) -> Result<Turn, Refusal> {
    Ok(Turn { answer: Answer::Taken, next, out })
}

pub fn needs(condition: bool) -> Result<(), Refusal> {
    if condition {
        Ok(())
    } else {
        Err(3)
    }
}

impl Around {
    fn count(&self) -> u32 {
        self.present.count_ones()
    }

    fn others(&self, c: u32) -> impl Iterator<Item = u32> {
        let present = self.present;
        (1..=self.n).filter(move |k| *k != c && member(present, *k))
    }

    fn to_others(&self, c: u32, mail: Mail) -> Vec<(u32, Mail)> {
        self.others(c).map(|k| (k, mail.clone())).collect()
    }

    fn enough_accepts(&self, accepts: u32) -> bool {
        match self.fault {
            Fault::MajorityOfPresent => {
                (accepts & self.present).count_ones() >= majority(self.count())
            }
            Fault::MajorityOfSite => accepts.count_ones() >= majority(self.n),
            _ => accepts & self.present == self.present,
        }
    }

    fn enough_hearers(&self, heard: u32) -> bool {
        match self.fault {
            Fault::HeardByMajority => (heard & self.present).count_ones() >= majority(self.count()),
            _ => heard & self.present == self.present,
        }
    }

    /// The smallest number above the old one whose last two digits are the rank.
    fn new_pn(&self, old: u32, rank: u32) -> Result<u32, Refusal> {
        let near = old / 100 * 100 + rank;
        let far = near <= old || self.fault == Fault::FullHundred;
        let new = if far { near + 100 } else { near };
        if new > HIGHEST_PN {
            Err(6)
        } else {
            Ok(new)
        }
    }

    /// Who has answered once this box has, too. The paper's count knows nobody by name.
    fn joined(&self, answered: u32, k: u32) -> u32 {
        match self.fault {
            Fault::CountOfReplies => answered + 1,
            _ => answered | only(k),
        }
    }

    fn all_answered(&self, answered: u32) -> bool {
        match self.fault {
            Fault::CountOfReplies => answered == self.count(),
            _ => answered == self.present,
        }
    }

    /// Whether a further Last comes too late: the paper's count takes no more than it waits for.
    fn enough_answers(&self, answered: u32) -> bool {
        self.fault == Fault::CountOfReplies && answered >= self.count()
    }
}

impl Mail {
    fn bare(kind: Kind, pn: u32, last: u32) -> Mail {
        Mail { kind, pn, last, first: 0, unagreed_pn: 0, records: vec![] }
    }
}

impl Camera {
    fn put_unagreed(&mut self, r: Record, pn: u32) {
        self.records.truncate(self.kept());
        self.records.push(r);
        self.stored_number = self.last + 1;
        self.stored_pn = pn;
    }

    /// The pn under which the record at last+1 was stored; 0 where there is none.
    fn unagreed_pn(&self) -> u32 {
        let stored = self.unagreed().is_some() && self.stored_number == self.last + 1;
        if stored {
            self.stored_pn
        } else {
            0
        }
    }

    /// Whether last+1 has no room. One record too many is a fault.
    fn no_room(&self, around: Around) -> bool {
        self.full(around.j + (around.fault == Fault::OneTooMany) as u32)
    }

    /// Drops what is kept below this number, which is at most last+1.
    fn raise_first(&mut self, first: u32) {
        if first > self.first {
            self.records.drain(..(first - self.first) as usize);
            self.first = first;
        }
    }

    /// What a mail with its sender's first does first of all.
    fn raise(&mut self, mail: &Mail, fault: Fault) {
        if fault != Fault::FirstNotRaised {
            self.raise_first(mail.first);
        }
    }

    /// Takes the records of a Last or Commit from own last+1 to its last. Where its first lies
    /// above that, they are all that is kept.
    fn take_records(&mut self, mail: &Mail, fault: Fault) {
        if mail.first > self.last + 1 {
            return self.take_whole(mail, fault);
        }
        self.raise(mail, fault);
        if mail.last > self.last {
            let new = (mail.last - self.last) as usize;
            let by_place = fault == Fault::TakenByPlace;
            let from = if by_place { self.kept() } else { mail.kept() - new };
            self.records.truncate(self.kept());
            self.records.extend_from_slice(&mail.records[from..][..new]);
            self.last = mail.last;
        }
    }

    fn take_whole(&mut self, mail: &Mail, fault: Fault) {
        let under = if fault == Fault::KeptUnderGap { self.agreed().to_vec() } else { vec![] };
        self.first = mail.first - under.len() as u32;
        self.last = mail.last;
        self.records = [under, mail.records[..mail.kept()].to_vec()].concat();
    }

    fn clear_stale_best(&mut self) {
        if self.best.number <= self.last {
            self.best = Best::default();
        }
    }

    fn forget_peers(&mut self) {
        self.peers.fill(UNKNOWN);
    }

    fn commit(&self) -> Mail {
        let mail = Mail::bare(Kind::Commit, self.pn, self.last);
        Mail { first: self.first, records: self.agreed().to_vec(), ..mail }
    }

    /// Box c's own part of a call: refusals 10, 3, 6 and 7.
    pub fn act(self, c: u32, around: Around, call: Call) -> Result<Turn, Refusal> {
        if matches!(call, Call::Offer(_, 0, _) | Call::Offer(_, _, 0)) {
            return Err(10);
        }
        needs(around.epoch % 2 == 0)?;
        match call {
            Call::Recover(_) => self.recover(c, around),
            Call::Collect(_) => self.collect(c, around),
            Call::Ready(_) => self.ready(c, around),
            Call::Offer(_, left, right) => self.offer(left, right),
            Call::Propose(_) => self.propose(c, around),
            Call::Agree(_) => self.agree(c, around),
            Call::Finish(_) => self.finish(c, around),
            Call::Heard(_) => self.heard(around),
            Call::Trim(_, k) => self.trim(c, around, k),
            _ => unreachable!("a step of the site"),
        }
    }

    fn recover(mut self, c: u32, around: Around) -> Result<Turn, Refusal> {
        needs(self.leads && self.phase == Phase::Election && self.state == State::Recovering)?;
        needs(around.count() > 1)?;
        self.pn = around.new_pn(self.pn, c)?;
        self.phase = Phase::SendCollect;
        done(self, vec![])
    }

    fn collect(mut self, c: u32, around: Around) -> Result<Turn, Refusal> {
        needs(self.leads && self.state == State::Recovering && self.phase == Phase::SendCollect)?;
        self.forget_peers();
        self.answered = around.joined(0, c);
        self.best = match self.unagreed() {
            Some(record) => Best { pn: self.unagreed_pn(), number: self.last + 1, record },
            None => Best::default(),
        };
        self.phase = Phase::Collect;
        let mail = Mail::bare(Kind::Collect, self.pn, self.last);
        done(self, around.to_others(c, mail))
    }

    fn ready(mut self, c: u32, around: Around) -> Result<Turn, Refusal> {
        needs(self.leads && self.phase == Phase::Collect)?;
        needs(around.all_answered(self.answered))?;
        self.forget_peers();
        if self.best.number == self.last + 1 && self.best.record != 0 {
            self.state = State::UpdatingPrevious;
            let r = self.best.record;
            self.start(c, around, r)
        } else {
            self.lease(c, around)
        }
    }

    fn lease(mut self, c: u32, around: Around) -> Result<Turn, Refusal> {
        self.state = State::Active;
        self.phase = Phase::Lease;
        let before = if around.fault == Fault::HeardKept { self.heard } else { 0 };
        self.heard = before | only(c);
        let mail = Mail::bare(Kind::Lease, 0, self.last);
        done(self, around.to_others(c, mail))
    }

    fn start(mut self, c: u32, around: Around, r: Record) -> Result<Turn, Refusal> {
        if self.no_room(around) {
            return Err(7);
        }
        self.put_unagreed(r, self.pn);
        self.agreeing = r;
        self.accepts = only(c);
        self.phase = Phase::Begin;
        let mail = Mail::bare(Kind::Begin, self.pn, self.last);
        let mail = Mail { first: self.first, records: vec![r], ..mail };
        done(self, around.to_others(c, mail))
    }

    fn offer(mut self, left: u32, right: u32) -> Result<Turn, Refusal> {
        needs(self.leads && self.state == State::Active && self.waiting == 0)?;
        self.waiting = (left as u64) << 32 | right as u64;
        done(self, vec![])
    }

    fn propose(mut self, c: u32, around: Around) -> Result<Turn, Refusal> {
        needs(self.leads && self.state == State::Active && self.waiting != 0)?;
        let heard = self.phase == Phase::LeaseDone && around.fault != Fault::NoProposeWhenHeard;
        needs(heard || self.phase == Phase::Lease || self.phase == Phase::Election)?;
        self.state = State::Updating;
        let r = std::mem::take(&mut self.waiting);
        self.start(c, around, r)
    }

    fn agree(mut self, c: u32, around: Around) -> Result<Turn, Refusal> {
        needs(self.leads && self.phase == Phase::Begin)?;
        needs(self.state == State::Updating || self.state == State::UpdatingPrevious)?;
        needs(around.enough_accepts(self.accepts) && self.unagreed().is_some())?;
        self.last += 1;
        self.agreeing = 0;
        self.state = State::Refresh;
        self.phase = Phase::Commit;
        let mail = self.commit();
        done(self, around.to_others(c, mail))
    }

    fn finish(self, c: u32, around: Around) -> Result<Turn, Refusal> {
        needs(self.leads && self.state == State::Refresh && self.phase == Phase::Commit)?;
        self.lease(c, around)
    }

    /// All present have answered the lease.
    fn heard(mut self, around: Around) -> Result<Turn, Refusal> {
        needs(self.leads && self.phase == Phase::Lease)?;
        needs(around.enough_hearers(self.heard))?;
        self.phase = Phase::LeaseDone;
        done(self, vec![])
    }

    /// At a present box, whoever leads.
    fn trim(mut self, c: u32, around: Around, k: u32) -> Result<Turn, Refusal> {
        let most = self.last + (around.fault == Fault::TrimPastLast) as u32;
        needs(member(around.present, c) && self.first < k && k <= most)?;
        self.raise_first(k);
        done(self, vec![])
    }

    /// Box c's own part of a mail that is handed to it: refusals 3, 6 and 7.
    pub fn receive(self, c: u32, around: Around, from: u32, mail: &Mail) -> Result<Turn, Refusal> {
        needs(around.epoch % 2 == 0)?;
        let above = mail.kind == Kind::Begin && !self.leads && mail.pn > self.pn;
        if above && around.fault == Fault::AboveRefused {
            return Err(9);
        }
        if let Some(cause) = self.discards(around, mail) {
            let replies = around.fault == Fault::AckOfDiscarded && mail.kind == Kind::Lease;
            let out = if replies { vec![(from, self.lease_ack(around.fault))] } else { vec![] };
            return Ok(Turn { answer: Answer::Discarded(cause), next: self, out });
        }
        match mail.kind {
            Kind::Collect => self.on_collect(around, from, mail),
            Kind::Last => self.on_last(c, around, from, mail),
            Kind::Begin => self.on_begin(around, from, mail),
            Kind::Accept => self.on_accept(from),
            Kind::Commit => self.on_commit(around, mail),
            Kind::Lease => self.on_lease(around, from),
            // in phase Begin by a broken rule alone
            Kind::LeaseAck if self.phase == Phase::Begin => self.on_accept(from),
            Kind::LeaseAck => self.on_lease_ack(from),
        }
    }

    /// The first cause that applies.
    fn discards(&self, around: Around, mail: &Mail) -> Option<Cause> {
        let (number, place) = (mail.pn != self.pn, mail.last != self.last);
        let causes = match mail.kind {
            Kind::Collect | Kind::Commit => [self.leads, false, false, false],
            Kind::Last => {
                let closed = self.phase != Phase::Collect || around.enough_answers(self.answered);
                [!self.leads, closed, false, false]
            }
            Kind::Begin => [self.leads, false, number, place],
            Kind::Accept => [!self.leads, self.phase != Phase::Begin, number, place],
            Kind::Lease => [self.leads, false, false, place],
            Kind::LeaseAck => {
                let counts = around.fault == Fault::AckAccepts && self.phase == Phase::Begin;
                let by_place = around.fault == Fault::AckByPlace;
                let closed = self.phase != Phase::Lease && !counts;
                [!self.leads, closed, false, by_place && place]
            }
        };
        let names = [Cause::Role, Cause::Phase, Cause::Number, Cause::Place];
        causes.iter().position(|applies| *applies).map(|first| names[first])
    }

    fn on_collect(mut self, around: Around, from: u32, mail: &Mail) -> Result<Turn, Refusal> {
        self.state = State::Recovering;
        self.pn = self.pn.max(mail.pn);
        let unagreed_pn = match around.fault {
            Fault::PromisedInLast if self.unagreed().is_some() => self.pn,
            _ => self.unagreed_pn(),
        };
        let reply = Mail {
            kind: Kind::Last,
            pn: self.pn,
            last: self.last,
            first: self.first,
            unagreed_pn,
            records: self.records.clone(),
        };
        taken(self, vec![(from, reply)])
    }

    fn on_last(mut self, c: u32, around: Around, from: u32, mail: &Mail) -> Result<Turn, Refusal> {
        self.peers[from as usize - 1] = mail.last;
        let lagging = |b: &Camera| -> Vec<(u32, Mail)> {
            let behind = |k: &u32| {
                let last = b.peers[*k as usize - 1];
                last != UNKNOWN && last < b.last
            };
            around.others(c).filter(behind).map(|k| (k, b.commit())).collect()
        };
        let before = self.clone();
        self.take_records(mail, around.fault);
        let out = match around.fault {
            Fault::SharedBeforeStored => lagging(&before),
            Fault::OldFirstInCommits => {
                let mut unraised = before;
                unraised.take_records(mail, Fault::FirstNotRaised);
                lagging(&unraised)
            }
            _ => lagging(&self),
        };
        let mut became = false;
        if mail.pn > self.pn {
            self.pn = around.new_pn(mail.pn, c)?;
            self.phase = Phase::SendCollect;
        } else if mail.pn == self.pn {
            self.answered = around.joined(self.answered, from);
            became = self.be_told(around, mail);
        }
        if !became {
            self.clear_stale_best();
        }
        taken(self, out)
    }

    /// Whether the unagreed record of a Last became the best.
    fn be_told(&mut self, around: Around, mail: &Mail) -> bool {
        let Some(record) = mail.records.get(mail.kept()).copied() else { return false };
        let told = Best { pn: mail.unagreed_pn, number: mail.last + 1, record };
        let better = match around.fault {
            Fault::FirstHeard => self.best.number != told.number,
            _ => told.number >= self.best.number && told.pn >= self.best.pn,
        };
        if mail.last >= self.last && better {
            self.best = told;
            return true;
        }
        false
    }

    /// 7 is judged with first raised.
    fn on_begin(mut self, around: Around, from: u32, mail: &Mail) -> Result<Turn, Refusal> {
        let full_before = around.fault == Fault::FullBeforeRaise && self.no_room(around);
        self.raise(mail, around.fault);
        if full_before || self.no_room(around) {
            return Err(7);
        }
        self.put_unagreed(mail.records[0], mail.pn);
        self.state = State::Updating;
        let reply = Mail::bare(Kind::Accept, self.pn, self.last);
        taken(self, vec![(from, reply)])
    }

    fn on_accept(mut self, from: u32) -> Result<Turn, Refusal> {
        self.accepts |= only(from);
        taken(self, vec![])
    }

    fn on_commit(mut self, around: Around, mail: &Mail) -> Result<Turn, Refusal> {
        self.take_records(mail, around.fault);
        self.clear_stale_best();
        taken(self, vec![])
    }

    fn lease_ack(&self, fault: Fault) -> Mail {
        let pn = if fault == Fault::AckWithPn { self.pn } else { 0 };
        Mail::bare(Kind::LeaseAck, pn, self.last)
    }

    fn on_lease(mut self, around: Around, from: u32) -> Result<Turn, Refusal> {
        self.state = State::Active;
        let reply = self.lease_ack(around.fault);
        taken(self, vec![(from, reply)])
    }

    fn on_lease_ack(mut self, from: u32) -> Result<Turn, Refusal> {
        self.heard |= only(from);
        taken(self, vec![])
    }
}
