//! How soon the scale is usable: runs just after an election, on many sites. Each must end within
//! the steps that are proved, and leave the scale usable.

use crate::calls::{full_links, likely_call, Style};
use crate::faults::Fault;
use crate::foreign::foreign;
use crate::random::Random;
use crate::rules::*;
use crate::run::{leader_turn, run, usable, Ended};
use crate::site::*;

/// The steps that are proved to be enough, by the number of boxes present.
const MOST_STEPS: [u32; 5] = [0, 18, 42, 84, 150];
/// What is allowed.
const ALLOWED: u32 = 200;

/// The largest number of steps that was seen, by the number of boxes present, and how many runs.
#[derive(Default)]
struct Seen {
    largest: [u32; 5],
    runs: [u64; 5],
}

/// An odd epoch with a majority present.
fn due(site: &mut Site, r: &mut Random) {
    if site.epoch % 2 == 0 {
        let c = site.numbers().find(|c| member(site.present, *c));
        let call = c.map_or(Call::Return(1), Call::Timeout);
        step(site, call).expect("an even epoch ends");
    }
    while site.present.count_ones() < majority(site.sizes.n) {
        let _ = step(site, Call::Return(r.from(1, site.sizes.n)));
    }
    if r.percent(30) {
        let c = r.from(1, site.sizes.n);
        let few = site.present.count_ones() <= majority(site.sizes.n);
        let call = if few || !member(site.present, c) { Call::Return(c) } else { Call::Stop(c) };
        let _ = step(site, call);
    }
}

/// By steps alone: loads, laggards, trims, records that are not agreed, elections that are cut off.
fn by_steps(r: &mut Random, sizes: Sizes, _most: u32) -> Site {
    let mut site = Site::fresh(sizes);
    let style = Style::any(r, sizes.n);
    for frame in 1..=r.pick(&[0, 20, 60, 150, 400]) {
        let call = likely_call(&site, r, &style, frame);
        let _ = step(&mut site, call);
    }
    due(&mut site, r);
    site
}

/// Promises that the leader hears of one after another, or any; none is above this.
fn promise(site: &mut Site, r: &mut Random, most: u32) {
    let from = r.pick(&[0, 1000, most - 500]);
    let rising = r.percent(70);
    for c in site.numbers() {
        let place = if rising { c * 100 } else { r.below(6) * 100 };
        site.at_mut(c).pn = (from + place + r.below(100)).min(most);
    }
}

/// Lasts that rise or fall from box to box, each box with a record that is not agreed or without.
fn lag(site: &mut Site, r: &mut Random) {
    let (j, n) = (site.sizes.j, site.sizes.n);
    let rises = r.percent(50);
    for c in site.numbers() {
        let last = (if rises { c } else { n + 1 - c }).min(j - 1);
        let unagreed = r.percent(40) as u32;
        let b = site.at_mut(c);
        (b.first, b.last) = (1, last);
        b.records = (1..=last + unagreed).map(|k| (k as u64) << 32 | c as u64).collect();
        (b.stored_pn, b.stored_number) = (r.below(3), last + 1);
    }
}

/// A site by form that the steps need not reach.
fn by_form(r: &mut Random, sizes: Sizes, most: u32) -> Site {
    let mut site = if r.percent(50) { by_steps(r, sizes, most) } else { foreign(r, sizes) };
    site.epoch = r.pick(&[1, 3, 999_999]);
    promise(&mut site, r, most);
    if r.percent(50) && sizes.j > 1 {
        lag(&mut site, r);
    }
    due(&mut site, r);
    site
}

/// Not the paper's run: any link's head next, or the leader's own step whether or not mail is under
/// way, as it comes on a radio.
fn as_it_comes(site: &mut Site, r: &mut Random) -> Result<Ended, Refusal> {
    for used in 0..ALLOWED {
        let mails = full_links(site).into_iter().map(|(a, b)| Call::Deliver(a, b));
        let calls: Vec<_> = mails.chain(leader_turn(site, Fault::None)).collect();
        if calls.is_empty() {
            return Ok(Ended::Ran(used));
        }
        if let Err(why) = step(site, r.pick(&calls)) {
            return Ok(Ended::Stopped(why, used));
        }
    }
    Ok(Ended::Ran(ALLOWED))
}

/// A run just after an election of a box that is present: what is wrong with it, or the steps.
fn waits(site: &Site, c: u32, any: &mut Option<Random>) -> Result<u32, String> {
    let mut site = site.clone();
    step(&mut site, Call::Elect(c)).map_err(|why| format!("elect refused {why}"))?;
    let ended = match any {
        Some(r) => as_it_comes(&mut site, r),
        None => run(&mut site, ALLOWED, Fault::None, |_| ()),
    };
    match ended {
        Ok(Ended::Ran(used)) if !usable(&site) => Err(format!("not usable after {used} steps")),
        Ok(Ended::Ran(used)) if used > MOST_STEPS[site.present.count_ones() as usize - 1] => {
            Err(format!("usable only after {used} steps"))
        }
        Ok(Ended::Ran(used)) => Ok(used),
        other => Err(format!("{other:?}")),
    }
}

impl Seen {
    fn look(&mut self, site: &Site, any: &mut Option<Random>) -> Result<(), String> {
        let at = site.present.count_ones() as usize - 1;
        for c in site.numbers().filter(|c| member(site.present, *c)) {
            let used = waits(site, c, any)?;
            self.runs[at] += 1;
            self.largest[at] = self.largest[at].max(used);
        }
        Ok(())
    }

    fn tell(&self, which: &str) {
        println!("{which}:");
        for (k, most) in MOST_STEPS.iter().enumerate() {
            let (runs, largest) = (self.runs[k], self.largest[k]);
            println!("  {} present: {runs} runs, at most {largest} steps, {most} proved", k + 1);
        }
    }
}

/// So many sites of each kind, with room for so many mails and promises up to this one, and a run
/// for each box that can be elected there. With 8 mails and 999,999,800 it is proved, of the order
/// that the paper's run has; in any order it is only looked at.
pub fn wait(seed: u64, count: u64, mails: u32, most: u32, any: bool) -> bool {
    let kinds: [(&str, fn(&mut Random, Sizes, u32) -> Site); 2] =
        [("reached by the steps", by_steps), ("by form", by_form)];
    for (which, make) in kinds {
        let mut seen = Seen::default();
        for k in seed..seed + count {
            let mut r = Random::new(k);
            let (n, j) = (r.pick(&[1, 2, 3, 4, 5, 5]), r.pick(&[1, 2, 6, 12]));
            let site = make(&mut r, Sizes { n, j, l: mails }, most);
            let mut any = any.then(|| Random::new(!k));
            if let Err(wrong) = seen.look(&site, &mut any) {
                println!("a site {which}, of seed {k}: {wrong}");
                return false;
            }
        }
        seen.tell(which);
    }
    true
}
