//! The calls and their answers; the site's step, with links and refusals.

use crate::faults::Fault;
use crate::site::*;
use crate::turn::{needs, Around, Turn};

#[derive(Clone, Copy, PartialEq, Eq, Debug)]
pub enum Call {
    Elect(u32),
    Recover(u32),
    Collect(u32),
    Ready(u32),
    Offer(u32, u32, u32),
    Propose(u32),
    Agree(u32),
    Finish(u32),
    Heard(u32),
    Stop(u32),
    Return(u32),
    Timeout(u32),
    Trim(u32, u32),
    Lose(u32, u32),
    Repeat(u32, u32),
    Deliver(u32, u32),
}

#[derive(Clone, Copy, PartialEq, Eq, Debug)]
pub enum Cause {
    Role,
    Phase,
    Number,
    Place,
}

#[derive(Clone, Copy, PartialEq, Eq, Debug)]
pub enum Answer {
    Done,
    Taken,
    Discarded(Cause),
}

/// A refusal is its number of the paper's table.
pub type Refusal = u32;

impl Call {
    /// The box that the call names first.
    pub fn at(self) -> u32 {
        match self {
            Call::Elect(c) | Call::Recover(c) | Call::Collect(c) | Call::Ready(c) => c,
            Call::Offer(c, ..) | Call::Propose(c) | Call::Agree(c) | Call::Finish(c) => c,
            Call::Heard(c) | Call::Trim(c, _) => c,
            Call::Stop(c) | Call::Return(c) | Call::Timeout(c) => c,
            Call::Lose(a, _) | Call::Repeat(a, _) | Call::Deliver(a, _) => a,
        }
    }

    /// The link whose head the call is about.
    pub fn along(self) -> Option<(u32, u32)> {
        match self {
            Call::Lose(a, b) | Call::Repeat(a, b) | Call::Deliver(a, b) => Some((a, b)),
            _ => None,
        }
    }
}

/// One step of a site by form; a refusal leaves it as it was.
pub fn step(site: &mut Site, call: Call) -> Result<Answer, Refusal> {
    step_with(site, call, Fault::None)
}

pub fn step_with(site: &mut Site, call: Call, fault: Fault) -> Result<Answer, Refusal> {
    let n = site.sizes.n;
    let on_site = |c: u32| (1..=n).contains(&c);
    let named = match call {
        Call::Lose(a, b) | Call::Repeat(a, b) | Call::Deliver(a, b) => {
            on_site(a) && on_site(b) && a != b
        }
        _ => on_site(call.at()),
    };
    if !named {
        return Err(2);
    }
    let Site { epoch, present, .. } = *site;
    let around = Around { n, j: site.sizes.j, epoch, present, fault };
    match call {
        Call::Elect(c) => elect(site, c),
        Call::Stop(c) => presence(site, c, true, fault),
        Call::Return(c) => presence(site, c, false, fault),
        Call::Timeout(c) => {
            needs(site.epoch % 2 == 0 && member(site.present, c))?;
            next_epoch(site)
        }
        Call::Lose(a, b) => {
            needs(site.link_mut(a, b).pop_front().is_some())?;
            Ok(Answer::Done)
        }
        Call::Repeat(a, b) => repeat(site, a, b),
        Call::Deliver(a, b) => deliver(site, a, b, around),
        _ => {
            let c = call.at();
            let turn = site.at(c).clone().act(c, around, call)?;
            settle(site, c, turn, fault)
        }
    }
}

/// Sends the turn's mails, unless one would go onto a full link; then keeps the box.
fn settle(site: &mut Site, c: u32, mut turn: Turn, fault: Fault) -> Result<Answer, Refusal> {
    let room = |to: u32| site.link(c, to).len() < site.sizes.l as usize;
    if fault == Fault::AckDroppedWhenFull {
        turn.out.retain(|(to, mail)| mail.kind != Kind::LeaseAck || room(*to));
    }
    if turn.out.iter().any(|(to, _)| !room(*to)) {
        return Err(8);
    }
    for (to, mail) in turn.out {
        site.link_mut(c, to).push_back(mail);
    }
    *site.at_mut(c) = turn.next;
    Ok(turn.answer)
}

/// What an election makes of a box.
pub fn be_elected(b: &mut Camera, leads: bool, present: u32) {
    let alone = present.count_ones() == 1;
    b.leads = leads;
    b.state = if alone { State::Active } else { State::Recovering };
    b.phase = Phase::Election;
    b.waiting = 0;
    b.agreeing = 0;
}

fn elect(site: &mut Site, c: u32) -> Result<Answer, Refusal> {
    needs(site.epoch % 2 == 1 && member(site.present, c))?;
    let present = site.present;
    if present.count_ones() < majority(site.sizes.n) {
        return Err(4);
    }
    site.numbers().for_each(|k| be_elected(site.at_mut(k), k == c, present));
    site.clear_links();
    site.epoch += 1;
    Ok(Answer::Done)
}

fn presence(site: &mut Site, c: u32, was: bool, fault: Fault) -> Result<Answer, Refusal> {
    needs(member(site.present, c) == was)?;
    next_epoch_if_even(site)?;
    site.present ^= only(c);
    if was && fault == Fault::PromiseClearedAtStop {
        site.at_mut(c).pn = 0;
    }
    Ok(Answer::Done)
}

fn next_epoch(site: &mut Site) -> Result<Answer, Refusal> {
    if site.epoch == LAST_EPOCH {
        return Err(5);
    }
    site.epoch += 1;
    Ok(Answer::Done)
}

fn next_epoch_if_even(site: &mut Site) -> Result<Answer, Refusal> {
    if site.epoch % 2 == 0 {
        next_epoch(site)
    } else {
        Ok(Answer::Done)
    }
}

/// The head of the link stands twice, the copy right behind it.
fn repeat(site: &mut Site, a: u32, b: u32) -> Result<Answer, Refusal> {
    let room = site.sizes.l as usize;
    let link = site.link_mut(a, b);
    let head = link.front().cloned().ok_or(3u32)?;
    if link.len() >= room {
        return Err(8);
    }
    link.insert(1, head);
    Ok(Answer::Done)
}

fn deliver(site: &mut Site, a: u32, b: u32, around: Around) -> Result<Answer, Refusal> {
    let mail = site.link(a, b).front().cloned().ok_or(3u32)?;
    let turn = site.at(b).clone().receive(b, around, a, &mail)?;
    let answer = settle(site, b, turn, around.fault)?;
    site.link_mut(a, b).pop_front();
    Ok(answer)
}

/// Whether k is kept as agreed at c with this record: refusal 2, or 14 where it is untrue.
pub fn holds(site: &Site, c: u32, k: u32, left: u32, right: u32) -> Result<Answer, Refusal> {
    if !(1..=site.sizes.n).contains(&c) {
        return Err(2);
    }
    held(site.at(c), k, left, right)
}

/// .. in the box's book.
pub fn held(b: &Camera, k: u32, left: u32, right: u32) -> Result<Answer, Refusal> {
    let r = (left as u64) << 32 | right as u64;
    if k <= b.last && b.record(k) == Some(r) {
        Ok(Answer::Done)
    } else {
        Err(14)
    }
}
