//! Sites by form that the steps need not reach.

use crate::random::Random;
use crate::site::*;

/// Numbers from few, so that two are often equal, and those after which some rank has no new one.
fn some_pn(r: &mut Random) -> u32 {
    match r.below(10) {
        0 => HIGHEST_PN,
        1 | 2 => HIGHEST_PN - r.from(94, 100),
        _ => r.pick(&[0, 1, 101, 102, 103, 105, 202, 202, 302, 305]),
    }
}

fn some_set(r: &mut Random, n: u32) -> u32 {
    if r.percent(50) {
        everyone(n)
    } else {
        r.below(1 << n)
    }
}

fn some_record(r: &mut Random) -> Record {
    (r.pick(&[1u64, 2, 0xffff_ffff]) << 32) | r.pick(&[1, 7])
}

fn some_records(r: &mut Random, count: u32) -> Vec<Record> {
    (0..count).map(|_| some_record(r)).collect()
}

/// The number about which the books of a foreign site end: few loads, many, or the most.
fn some_about(r: &mut Random, j: u32) -> u32 {
    match r.below(10) {
        0 => MOST - r.below(4),
        1 => r.pick(&[100, 5000]),
        2 => j + r.below(3),
        3..=6 if j > 4 => j + r.below(3),
        _ => r.below(10),
    }
}

fn some_number(r: &mut Random, about: u32) -> u32 {
    match r.below(20) {
        0 => r.pick(&[0, 1, MOST]),
        1..=11 => about,
        _ => r.from(about.saturating_sub(3), MOST.min(about + 5)),
    }
}

/// How many of the numbers up to last are kept: any that are by form, but a long book seldom, for
/// most images shall be short.
fn some_kept(r: &mut Random, last: u32, j: u32) -> u32 {
    let most = last.min(j);
    match r.below(10) {
        _ if last == 0 => 0,
        0 => most,
        1 => r.from(1, most),
        2..=4 => most.min(9),
        _ => r.from(1, most.min(9)),
    }
}

fn some_kind(r: &mut Random, to_leader: bool) -> Kind {
    match (r.percent(70), to_leader) {
        (true, true) => r.pick(&[Kind::Last, Kind::Last, Kind::Accept, Kind::LeaseAck]),
        (true, false) => r.pick(&[Kind::Collect, Kind::Begin, Kind::Commit, Kind::Lease]),
        _ => r.pick(&KINDS),
    }
}

fn some_mail(r: &mut Random, j: u32, near: &Camera) -> Mail {
    let kind = some_kind(r, near.leads);
    let most = if kind == Kind::Begin { MOST - 1 } else { MOST };
    let books = matches!(kind, Kind::Last | Kind::Commit);
    let ahead = if books { r.below(3) } else { 0 };
    let last = some_number(r, near.last + ahead).min(most);
    let kept = some_kept(r, last, j);
    let told = kind == Kind::Last && last < MOST && kept < j && r.percent(60);
    let count = match kind {
        Kind::Last => kept + told as u32,
        Kind::Commit => kept,
        Kind::Begin => 1,
        _ => 0,
    };
    let pn = if r.percent(60) { near.pn } else { some_pn(r) };
    Mail {
        kind,
        pn: if matches!(kind, Kind::Lease | Kind::LeaseAck) { 0 } else { pn },
        last,
        first: if Mail::carries_first(kind) { last + 1 - kept } else { 0 },
        unagreed_pn: if told { some_pn(r) } else { 0 },
        records: some_records(r, count),
    }
}

fn some_box(r: &mut Random, sizes: Sizes, c: u32, about: u32) -> Camera {
    let Sizes { n, j, .. } = sizes;
    let last = some_number(r, about);
    let kept = some_kept(r, last, j);
    let held = if last < MOST && kept < j && r.percent(60) { kept + 1 } else { kept };
    let next = MOST.min(last + 1);
    let number = |r: &mut Random| if r.percent(60) { next } else { some_number(r, last) };
    let record = |r: &mut Random| if r.percent(50) { some_record(r) } else { 0 };
    let (state, phase) = if r.percent(70) {
        r.pick(&[
            (State::Recovering, Phase::Election),
            (State::Recovering, Phase::SendCollect),
            (State::Recovering, Phase::Collect),
            (State::UpdatingPrevious, Phase::Begin),
            (State::Updating, Phase::Begin),
            (State::Refresh, Phase::Commit),
            (State::Active, Phase::Lease),
            (State::Active, Phase::LeaseDone),
        ])
    } else {
        (r.pick(&STATES), r.pick(&PHASES))
    };
    Camera {
        leads: false,
        state,
        phase,
        pn: some_pn(r),
        last,
        first: last + 1 - kept,
        stored_pn: some_pn(r),
        stored_number: number(r),
        best: Best { pn: some_pn(r), number: number(r), record: record(r) },
        answered: some_set(r, n),
        accepts: some_set(r, n),
        heard: some_set(r, n),
        waiting: record(r),
        agreeing: record(r),
        peers: (1..=n)
            .map(|k| if k == c || r.percent(40) { UNKNOWN } else { some_number(r, about) })
            .collect(),
        records: some_records(r, held),
    }
}

/// A site by form that the steps need not reach.
pub fn foreign(r: &mut Random, sizes: Sizes) -> Site {
    let mut site = Site::fresh(sizes);
    site.epoch = r.pick(&[1, 2, 2, 4, 6, 999_998, 999_999, LAST_EPOCH]);
    site.present = some_set(r, sizes.n);
    let about = some_about(r, sizes.j);
    for c in site.numbers() {
        *site.at_mut(c) = some_box(r, sizes, c, about);
    }
    if r.percent(90) {
        let c = r.from(1, sizes.n);
        let b = site.at_mut(c);
        b.leads = true;
        match r.below(10) {
            // most of the rules' choices are in a Last
            0..=3 => (b.state, b.phase) = (State::Recovering, Phase::Collect),
            // the last number that it can make, the one before, and none
            4 => {
                (b.state, b.phase) = (State::Recovering, Phase::Election);
                b.pn = HIGHEST_PN - 100 + c + r.below(3);
            }
            5 => (b.state, b.phase) = (State::Active, Phase::Lease),
            _ => {}
        }
    }
    let full = r.below(4);
    for (a, b) in site.pairs() {
        let count = if r.below(4) < full { r.from(0, sizes.l) } else { r.below(2) };
        for _ in 0..count {
            let mail = some_mail(r, sizes.j, site.at(b));
            site.link_mut(a, b).push_back(mail);
        }
    }
    site
}
