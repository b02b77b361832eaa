//! the run after an election. Mail turns and leader turns, while there are steps left.

use crate::faults::Fault;
use crate::rules::*;
use crate::site::*;

#[derive(Clone, Copy, PartialEq, Eq, Debug)]
pub enum Ended {
    /// So many steps were used, and neither turn is possible or none is left.
    Ran(u32),
    /// A step was refused after so many.
    Stopped(Refusal, u32),
}

/// The head of the first link with mail, by sender and then receiver.
fn mail_turn(site: &Site, fault: Fault) -> Option<Call> {
    let mut pairs = site.pairs();
    if fault == Fault::ByReceiver {
        pairs.sort_by_key(|(a, b)| (*b, *a));
    }
    let mail = pairs.into_iter().find(|(a, b)| !site.link(*a, *b).is_empty());
    mail.map(|(a, b)| Call::Deliver(a, b))
}

/// The leader's own step that is possible, which is not refused 3.
pub fn leader_turn(site: &Site, fault: Fault) -> Option<Call> {
    let c = site.leader()?;
    let five =
        [Call::Recover(c), Call::Collect(c), Call::Ready(c), Call::Agree(c), Call::Finish(c)];
    let heard = (fault != Fault::HeardLeftOut).then_some(Call::Heard(c));
    let possible = |call: &Call| step_with(&mut site.clone(), *call, fault) != Err(3);
    five.into_iter().chain(heard).find(possible)
}

pub fn next_turn(site: &Site, fault: Fault) -> Option<Call> {
    match fault {
        Fault::LeaderFirst => leader_turn(site, fault).or_else(|| mail_turn(site, fault)),
        _ => mail_turn(site, fault).or_else(|| leader_turn(site, fault)),
    }
}

/// A run of at most so many steps of a site by form; refused 3 where the epoch is odd. Each step
/// that is done is told.
pub fn run(
    site: &mut Site,
    steps: u32,
    fault: Fault,
    mut told: impl FnMut(Call),
) -> Result<Ended, Refusal> {
    if site.epoch % 2 == 1 && fault != Fault::OddEpochRuns {
        return Err(3);
    }
    let mut used = 0;
    while used < steps {
        let Some(call) = next_turn(site, fault) else { return Ok(Ended::Ran(used)) };
        match step_with(site, call, fault) {
            Ok(Answer::Discarded(_)) if fault == Fault::DiscardNotCounted => {}
            Ok(_) => used += 1,
            Err(why) => {
                let counted = (fault == Fault::RefusedCounted) as u32;
                return Ok(Ended::Stopped(why, used + counted));
            }
        }
        told(call);
    }
    let further = next_turn(site, fault).filter(|_| fault == Fault::TriedWithNoneLeft);
    match further.map(|call| step_with(&mut site.clone(), call, fault)) {
        Some(Err(why)) => Ok(Ended::Stopped(why, used)),
        _ => Ok(Ended::Ran(used)),
    }
}

/// "with the leader Active, all links empty, and every present box Active at the leader's last"
pub fn usable(site: &Site) -> bool {
    let Some(leader) = site.leader().map(|c| site.at(c)) else { return false };
    let stands = |c: u32| site.at(c).state == State::Active && site.at(c).last == leader.last;
    leader.state == State::Active
        && site.pairs().iter().all(|(a, b)| site.link(*a, *b).is_empty())
        && site.numbers().filter(|c| member(site.present, *c)).all(stands)
}
