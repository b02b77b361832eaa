//! Random calls: those that mostly go through, in the style of a walk, and any.

use crate::random::Random;
use crate::rules::*;
use crate::site::*;

/// How often a walk does what disturbs it. Each walk has its own, so that some are quiet and
/// others hold elections at awkward moments.
pub struct Style {
    /// Of a thousand steps at an even epoch, those that disturb.
    disturb: u32,
    /// Added while a record is being agreed or was just agreed.
    awkward: u32,
    /// Of a hundred disturbances, those that lose a mail.
    lose: u32,
    /// Of a hundred calls between elections, those that change who is present.
    shuffle: u32,
    /// Of a hundred mails whose turn it is, those that are repeated first.
    repeat: u32,
    /// A box whose mail is seldom handed over, and so lags; or none.
    slow: u32,
    /// Whether those boxes are slow instead that hold more than the leader.
    deaf: bool,
    /// Of a hundred steps at an even epoch, those that trim a book.
    trim: u32,
    /// A box that is sent away, and is back only once others have dropped what it needs next; or
    /// none.
    far: u32,
}

/// Nothing but the leader's way to a load that is agreed.
pub const QUIET: Style = Style {
    disturb: 0,
    awkward: 0,
    lose: 0,
    shuffle: 0,
    repeat: 0,
    slow: 0,
    deaf: false,
    trim: 0,
    far: 0,
};

impl Style {
    pub fn random(r: &mut Random, n: u32) -> Style {
        Style {
            disturb: r.pick(&[1, 5, 20, 60]),
            awkward: r.pick(&[0, 20, 80, 200]),
            lose: r.pick(&[0, 30, 70]),
            shuffle: r.pick(&[10, 40, 70]),
            repeat: r.pick(&[0, 0, 10]),
            slow: r.below(2 * n),
            deaf: false,
            trim: r.pick(&[0, 0, 2, 8]),
            far: 0,
        }
    }

    /// A bridge that repeats much, at a leader that hears last from those who could tell it more.
    pub fn bridge(r: &mut Random, n: u32) -> Style {
        Style { repeat: 40, deaf: true, ..Style::random(r, n) }
    }

    /// One box is away while the others agree loads and drop them.
    pub fn laggard(r: &mut Random, n: u32) -> Style {
        let (trim, far) = (r.pick(&[5, 10, 20]), r.from(1, n));
        Style { disturb: r.pick(&[1, 5, 20]), slow: 0, trim, far, ..Style::random(r, n) }
    }

    pub fn any(r: &mut Random, n: u32) -> Style {
        match r.below(4) {
            0 => Style::bridge(r, n),
            1 => Style::laggard(r, n),
            _ => Style::random(r, n),
        }
    }
}

fn some_box_of(set: u32, r: &mut Random) -> Option<u32> {
    let boxes: Vec<u32> = (1..=5).filter(|k| member(set, *k)).collect();
    (!boxes.is_empty()).then(|| r.pick(&boxes))
}

/// Whether some box no longer keeps what this one needs next.
fn left_behind(site: &Site, c: u32) -> bool {
    site.numbers().any(|k| site.at(k).first > site.at(c).last + 1)
}

/// None where the box that is to be far behind would be back too early.
fn presence_call(site: &Site, r: &mut Random, style: &Style) -> Option<Call> {
    let c = r.from(1, site.sizes.n);
    if member(site.present, c) {
        Some(Call::Stop(c))
    } else {
        (c != style.far || left_behind(site, c)).then_some(Call::Return(c))
    }
}

/// The far box goes away once it has all that is agreed, and comes back late.
fn far_call(site: &Site, r: &mut Random, style: &Style) -> Option<Call> {
    let c = Some(style.far).filter(|c| site.numbers().contains(c) && r.percent(10))?;
    let behind = left_behind(site, c);
    match member(site.present, c) {
        true => site.numbers().all(|k| site.at(k).last <= site.at(c).last).then_some(Call::Stop(c)),
        false => behind.then_some(Call::Return(c)),
    }
}

/// A trim of a present box that keeps two or more, mostly by its rule.
pub fn some_trim(site: &Site, r: &mut Random) -> Option<Call> {
    let keeps = |c: &u32| member(site.present, *c) && site.at(*c).first < site.at(*c).last;
    let boxes: Vec<u32> = site.numbers().filter(keeps).collect();
    let c = (!boxes.is_empty()).then(|| r.pick(&boxes))?;
    let Camera { first, last, .. } = *site.at(c);
    let k = match r.below(10) {
        0 => r.pick(&[first, last + 1]),
        1..=4 => last,
        5 => first + 1,
        _ => r.from(first + 1, last),
    };
    Some(Call::Trim(c, k))
}

fn call_between_elections(site: &Site, r: &mut Random, style: &Style) -> Call {
    let absent = everyone(site.sizes.n) & !site.present;
    let few = site.present.count_ones() < majority(site.sizes.n);
    match some_box_of(if few { absent } else { site.present }, r) {
        Some(c) if few => Call::Return(c),
        Some(c) if !r.percent(style.shuffle) => Call::Elect(c),
        Some(c) => presence_call(site, r, style).unwrap_or(Call::Elect(c)),
        None => Call::Return(r.from(1, site.sizes.n)),
    }
}

/// The step that a leader would do next.
pub fn leader_call(site: &Site, r: &mut Random, c: u32, frame: u32) -> Call {
    let b = site.at(c);
    let heard = site.present & !b.heard == 0;
    match b.phase {
        Phase::Election if b.state == State::Recovering => Call::Recover(c),
        Phase::SendCollect => Call::Collect(c),
        Phase::Collect => Call::Ready(c),
        Phase::Begin => Call::Agree(c),
        Phase::Commit => Call::Finish(c),
        Phase::Lease if r.percent(if heard { 60 } else { 5 }) => Call::Heard(c),
        _ if b.waiting != 0 => Call::Propose(c),
        _ => Call::Offer(c, frame, frame + 1),
    }
}

/// A trim; more often where the leader has no room for what waits.
fn room_call(site: &Site, r: &mut Random, style: &Style) -> Option<Call> {
    let stuck = |c: u32| site.at(c).waiting != 0 && site.at(c).full(site.sizes.j);
    let often = style.trim > 0 && site.leader().is_some_and(stuck);
    r.percent(if often { 60 } else { style.trim }).then(|| some_trim(site, r)).flatten()
}

/// A call that mostly goes through.
pub fn likely_call(site: &Site, r: &mut Random, style: &Style, frame: u32) -> Call {
    if site.epoch % 2 == 1 {
        return call_between_elections(site, r, style);
    }
    let leader = site.leader();
    let busy = leader.is_some_and(|c| matches!(site.at(c).phase, Phase::Begin | Phase::Commit));
    let full = full_links(site);
    let timeout = Call::Timeout(some_box_of(site.present, r).unwrap_or(1));
    if r.below(1000) < style.disturb + if busy { style.awkward } else { 0 } {
        if !full.is_empty() && r.percent(style.lose) {
            let (a, b) = r.pick(&full);
            return Call::Lose(a, b);
        }
        let presence = presence_call(site, r, style);
        return if r.percent(40) { timeout } else { presence.unwrap_or(timeout) };
    }
    if let Some(call) = far_call(site, r, style).or_else(|| room_call(site, r, style)) {
        return call;
    }
    let held = |c: u32| site.at(c).records.len();
    let slow = |c: u32| match leader {
        Some(leader) if style.deaf => held(c) > held(leader),
        _ => c == style.slow,
    };
    let prompt = |(a, b): &(u32, u32)| !slow(*a) && !slow(*b);
    let mut mails: Vec<_> = full.iter().copied().filter(prompt).collect();
    if mails.is_empty() || r.percent(5) {
        mails = full;
    }
    match leader {
        Some(c) if r.percent(if mails.is_empty() { 80 } else { 40 }) => {
            leader_call(site, r, c, frame)
        }
        _ if mails.is_empty() => timeout,
        _ => {
            let (a, b) = r.pick(&mails);
            if r.percent(style.repeat) {
                Call::Repeat(a, b)
            } else {
                Call::Deliver(a, b)
            }
        }
    }
}

pub fn full_links(site: &Site) -> Vec<(u32, u32)> {
    site.pairs().into_iter().filter(|(a, b)| !site.link(*a, *b).is_empty()).collect()
}

/// Any call, with any numbers: box numbers and frames at their edges too.
pub fn any_call(n: u32, r: &mut Random) -> Call {
    let number = |r: &mut Random| {
        let edge = r.percent(2);
        if edge {
            r.pick(&[0, n + 1, 6, u32::MAX])
        } else {
            r.from(1, n)
        }
    };
    let (c, x) = (number(r), number(r));
    match r.below(16) {
        0 => Call::Elect(c),
        1 => Call::Recover(c),
        2 => Call::Collect(c),
        3 => Call::Ready(c),
        4 => Call::Offer(c, r.pick(&[0, 1, 2, 7, u32::MAX]), r.pick(&[0, 1, 2, 7, u32::MAX])),
        5 => Call::Propose(c),
        6 => Call::Agree(c),
        7 => Call::Finish(c),
        8 => Call::Stop(c),
        9 => Call::Return(c),
        10 => Call::Timeout(c),
        11 => Call::Lose(c, x),
        12 => Call::Repeat(c, x),
        13 => Call::Trim(c, r.pick(&[0, 1, 2, 3, MOST, MOST + 1, u32::MAX])),
        14 => Call::Heard(c),
        _ => Call::Deliver(c, x),
    }
}
