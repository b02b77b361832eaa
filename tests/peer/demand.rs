//! What is looked at after each step: demand 3, and what the step's own rule makes visible.

use crate::rules::*;
use crate::site::*;
use std::collections::HashSet;

/// What has been agreed so far, over all boxes and whether or not it is still kept; which offers
/// were accepted; and each box's first and last.
#[derive(Default)]
pub struct Journal {
    pub agreed: Vec<Record>,
    filled: HashSet<Record>,
    offers: HashSet<Record>,
    books: Vec<(u32, u32)>,
}

impl Journal {
    /// An offer that was accepted is one of those that may be agreed.
    pub fn note(&mut self, call: Call) {
        if let Call::Offer(_, left, right) = call {
            self.offers.insert((left as u64) << 32 | right as u64);
        }
    }

    /// Demand 3: each box keeps first to last without a hole, neither ever falls, and what it keeps
    /// is what any box keeps, or kept, as that number; each is from one accepted offer, and none
    /// fills two numbers.
    pub fn look(&mut self, site: &Site) -> Result<(), String> {
        self.books.resize(site.sizes.n as usize, (1, 0));
        for c in site.numbers() {
            let b = site.at(c);
            let (first, last) =
                std::mem::replace(&mut self.books[c as usize - 1], (b.first, b.last));
            if b.first < first || b.last < last {
                let now = format!("{} to {}", b.first, b.last);
                return Err(format!("box {c} kept {first} to {last}, and falls to {now}"));
            }
            if !(1..=b.last.max(1)).contains(&b.first) || b.records.len() < b.kept() {
                return Err(format!("box {c} does not keep {} to {}", b.first, b.last));
            }
            (b.first..).zip(b.agreed()).try_for_each(|(k, r)| self.look_at(k, *r))?;
        }
        Ok(())
    }

    /// The record is kept as agreed under this number.
    fn look_at(&mut self, number: u32, r: Record) -> Result<(), String> {
        let name = format!("{} {}", r >> 32, r as u32);
        let next = self.agreed.len() as u32 + 1;
        match self.agreed.get(number as usize - 1) {
            Some(known) if *known == r => return Ok(()),
            Some(_) => return Err(format!("two records agreed as number {number}")),
            None if number != next => return Err(format!("{number} is agreed, and {next} is not")),
            None if !self.offers.contains(&r) => {
                return Err(format!("{name} is agreed, and no offer"))
            }
            None if !self.filled.insert(r) => {
                return Err(format!("offer {name} fills two numbers"))
            }
            None => self.agreed.push(r),
        }
        Ok(())
    }
}

/// What a step began with: its box's last and promise, the number that a new one is made from, and
/// its mail's kind and the first that it carries.
#[derive(Clone, Copy, Default)]
pub struct Before {
    pub last: u32,
    pn: u32,
    old: u32,
    told: u32,
    pub kind: Option<Kind>,
}

impl Before {
    pub fn of(site: &Site, call: Call) -> Before {
        let (c, mail) = match call {
            Call::Recover(c) | Call::Agree(c) => (c, None),
            Call::Deliver(a, c) => (c, site.link(a, c).front()),
            _ => return Before::default(),
        };
        let Camera { last, pn, .. } = *site.at(c);
        let (old, told) = mail.map_or((pn, 0), |mail| (mail.pn, mail.first));
        Before { last, pn, old, told, kind: mail.map(|mail| mail.kind) }
    }
}

/// What a step's own rule makes visible, beyond demand 3: a record is agreed once all present hold
/// it, a taken mail leaves no first below its own, a Last leaves no present box behind that is
/// known to lag, a taken Lease is answered, a LeaseAck is looked at for its sender alone, and a
/// leader's new number is the smallest above the old one with its rank.
pub fn look_at_rule(site: &Site, call: Call, answer: Answer, before: Before) -> Result<(), String> {
    let c = match call {
        Call::Recover(c) | Call::Agree(c) | Call::Deliver(_, c) => c,
        _ => return Ok(()),
    };
    let own = site.at(c);
    let smallest = own.pn > before.old && own.pn - before.old <= 100 && own.pn % 100 == c;
    if own.leads && own.pn != before.pn && !smallest {
        return Err("a new number is not the smallest".into());
    }
    if matches!(call, Call::Agree(_)) {
        return look_at_agreed(site, c);
    }
    if answer == Answer::Taken && own.first < before.told {
        return Err(format!("box {c} took a mail of a higher first, and keeps its own"));
    }
    if answer == Answer::Taken && own.leads && lags_untold(site, c) {
        return Err("a box is known to lag, and the new records are not on their way".into());
    }
    match (call, before.kind, answer) {
        (Call::Deliver(a, c), Some(Kind::Lease), Answer::Taken) => look_at_answer(site, c, a),
        (_, Some(Kind::LeaseAck), Answer::Discarded(Cause::Place)) => {
            Err("a LeaseAck is discarded for its place".into())
        }
        _ => Ok(()),
    }
}

/// The last mail from c to a is c's LeaseAck.
fn look_at_answer(site: &Site, c: u32, a: u32) -> Result<(), String> {
    let ack = |m: &Mail| m.kind == Kind::LeaseAck && m.last == site.at(c).last;
    match site.link(c, a).back().is_some_and(ack) {
        true => Ok(()),
        false => Err(format!("box {c} took a Lease, and does not answer")),
    }
}

fn others(site: &Site, c: u32) -> impl Iterator<Item = u32> + '_ {
    site.numbers().filter(move |k| *k != c && member(site.present, *k))
}

fn look_at_agreed(site: &Site, c: u32) -> Result<(), String> {
    let number = site.at(c).last;
    let r = site.at(c).record(number);
    if others(site, c).any(|k| site.at(k).record(number) != r) {
        return Err(format!("number {number} is agreed, and a present box does not hold it"));
    }
    Ok(())
}

/// Whether a present box is known to lag, and the last mail to it is not the leader's book.
fn lags_untold(site: &Site, c: u32) -> bool {
    let own = site.at(c);
    let book = |m: &Mail| m.first == own.first && m.records == own.agreed();
    let told = |k: u32| site.link(c, k).back().is_some_and(book);
    others(site, c).any(|k| own.peers[k as usize - 1] < own.last && !told(k))
}

/// Who has taken a Lease since its leader's phase Lease began.
#[derive(Default)]
pub struct Leases(u32);

impl Leases {
    /// A step was done.
    pub fn note(&mut self, call: Call, answer: Answer, before: Before) {
        match (call, before.kind, answer) {
            (Call::Ready(_) | Call::Finish(_), ..) => self.0 = 0,
            (Call::Deliver(_, c), Some(Kind::Lease), Answer::Taken) => self.0 |= only(c),
            _ => {}
        }
    }

    /// What a leader's set says: it starts as itself, and whoever else is in it has taken the lease
    /// and is Active at its last. It includes all present once the lease is heard.
    pub fn look(&self, site: &Site) -> Result<(), String> {
        let out = |c: &u32| matches!(site.at(*c).phase, Phase::Lease | Phase::LeaseDone);
        let Some(c) = site.leader().filter(|c| site.epoch % 2 == 0 && out(c)) else {
            return Ok(());
        };
        let own = site.at(c);
        let heard = |k: u32| member(own.heard, k);
        let stays = |k: u32| site.at(k).state == State::Active && site.at(k).last == own.last;
        if let Some(k) = site.numbers().find(|k| *k != c && heard(*k) && !member(self.0, *k)) {
            return Err(format!("box {k} is said to have heard a lease, and has taken none"));
        }
        if let Some(k) = site.numbers().find(|k| heard(*k) && !stays(*k)) {
            return Err(format!("box {k} has heard the lease, and does not stand by it"));
        }
        let silent = |k: u32| member(site.present, k) && !heard(k);
        if !heard(c) || own.phase == Phase::LeaseDone && site.numbers().any(silent) {
            return Err("a lease is heard by all, and a present box is not in the set".into());
        }
        Ok(())
    }
}

/// Once the lease is heard an offer that waits may be proposed.
pub fn look_at_propose(site: &Site, call: Call) -> Result<(), String> {
    let may = |c: u32| {
        let own = site.at(c);
        let waits = own.state == State::Active && own.waiting != 0;
        site.epoch % 2 == 0 && own.leads && own.phase == Phase::LeaseDone && waits
    };
    match call {
        Call::Propose(c) if site.numbers().contains(&c) && may(c) => {
            Err("the lease is heard, and the offer that waits is not proposed".into())
        }
        _ => Ok(()),
    }
}

/// A LeaseAck on its way to a leader in phase Lease tells the leader's last: an Accept stood behind
/// every older one.
pub fn look_at_acks(site: &Site) -> Result<(), String> {
    let stray = |(a, b): &(u32, u32)| {
        let to = site.at(*b);
        let old = |m: &Mail| m.kind == Kind::LeaseAck && m.last != to.last;
        to.leads && to.phase == Phase::Lease && site.link(*a, *b).iter().any(old)
    };
    match site.pairs().iter().find(|pair| stray(pair)) {
        Some((a, b)) => Err(format!("a LeaseAck from {a} to {b} is of an older lease")),
        None => Ok(()),
    }
}

/// Room is looked for at Propose alone: where a leader starts a record again, and where a Begin is
/// taken, its sender had room, and first is raised to the sender's.
pub fn look_at_room(call: Call) -> Result<(), String> {
    match call {
        Call::Propose(_) => Ok(()),
        Call::Ready(_) => Err("a record that was started has no room at the leader".into()),
        _ => Err("a Begin has no room".into()),
    }
}

/// A Begin on its way has the number that its receiver promised: none is above, and none below.
pub fn look_at_begins(site: &Site) -> Result<(), String> {
    let stray = |(a, b): &(u32, u32)| {
        site.link(*a, *b).iter().any(|m| m.kind == Kind::Begin && m.pn != site.at(*b).pn)
    };
    match site.pairs().iter().find(|pair| stray(pair)) {
        Some((a, b)) => Err(format!("a Begin from {a} to {b} has not the number promised there")),
        None => Ok(()),
    }
}
