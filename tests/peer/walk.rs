//! Long random walks with demand 3 looked at after every step, and the same walks under broken
//! rules: each of them must be noticed.

use crate::calls::*;
use crate::demand::*;
use crate::faults::{Fault, Shows, FAULTS};
use crate::random::Random;
use crate::rules::*;
use crate::shrink::fewest;
use crate::site::*;
use crate::trace::{call_text, lines, read_line, replay_line, Line};

#[derive(Default)]
pub struct Told {
    steps: u64,
    agreed: u64,
    elections: u64,
    recovered: u64,
    shared: u64,
    repeated: u64,
    trimmed: u64,
    whole: u64,
    beyond: u64,
    acks: u64,
    heard: u64,
}

impl Told {
    /// A step was done.
    fn count(&mut self, site: &Site, call: Call, answer: Answer, before: Before) {
        self.steps += 1;
        match call {
            Call::Elect(_) => self.elections += 1,
            Call::Repeat(..) => self.repeated += 1,
            Call::Trim(..) => self.trimmed += 1,
            Call::Heard(_) => self.heard += 1,
            Call::Ready(c) if site.at(c).state == State::UpdatingPrevious => self.recovered += 1,
            Call::Deliver(_, c) => {
                self.shared += (site.at(c).last > before.last + 1) as u64;
                self.whole += (site.at(c).first > before.last + 1) as u64;
                let noted = before.kind == Some(Kind::LeaseAck) && answer == Answer::Taken;
                self.acks += noted as u64;
            }
            _ => {}
        }
    }

    fn add(&mut self, more: Told) {
        self.steps += more.steps;
        self.agreed += more.agreed;
        self.elections += more.elections;
        self.recovered += more.recovered;
        self.shared += more.shared;
        self.repeated += more.repeated;
        self.trimmed += more.trimmed;
        self.whole += more.whole;
        self.beyond += more.beyond;
        self.acks += more.acks;
        self.heard += more.heard;
    }
}

/// Whether only demand 3 and form are looked at: a rule that is broken must break these.
fn demand_alone(fault: Fault) -> bool {
    FAULTS.iter().any(|(f, _, shows)| *f == fault && *shows == Shows::InDemand)
}

/// A step that is counted, and what is wrong after it; a refused one leaves the site.
fn looked(
    site: &mut Site,
    (journal, leases): (&mut Journal, &mut Leases),
    told: &mut Told,
    call: Call,
    fault: Fault,
) -> Result<(), String> {
    let before = Before::of(site, call);
    let answer = match step_with(site, call, fault) {
        Ok(answer) => answer,
        Err(9) => return Err("refused 9".into()),
        Err(7) if !demand_alone(fault) => return look_at_room(call),
        Err(3) if !demand_alone(fault) => return look_at_propose(site, call),
        Err(_) => return Ok(()),
    };
    journal.note(call);
    leases.note(call, answer, before);
    told.count(site, call, answer, before);
    journal.look(site)?;
    if !site.by_form() {
        return Err("not by form".into());
    }
    if demand_alone(fault) {
        return Ok(());
    }
    look_at_begins(site)?;
    look_at_acks(site)?;
    leases.look(site)?;
    look_at_rule(site, call, answer, before)
}

/// Plays calls from a fresh site until something is wrong; refused calls leave the site.
fn play(
    sizes: Sizes,
    calls: impl FnMut(&Site) -> Option<Call>,
    fault: Fault,
) -> (Told, Option<String>) {
    let mut calls = calls;
    let mut site = Site::fresh(sizes);
    let (mut journal, mut leases, mut told) = Default::default();
    while let Some(call) = calls(&site) {
        if let Err(wrong) = looked(&mut site, (&mut journal, &mut leases), &mut told, call, fault) {
            return (told, Some(wrong));
        }
    }
    told.agreed = journal.agreed.len() as u64;
    told.beyond = told.agreed.saturating_sub(sizes.j as u64);
    (told, None)
}

/// The first line of a trace that is refused or after which demand 3 does not hold.
pub fn watch(input: &[u8], fault: Fault) -> Vec<u8> {
    let (mut site, mut journal) = (None, Journal::default());
    for (k, line) in (1..).zip(lines(input)) {
        if let Err(refusal) = replay_line(&mut site, line, fault) {
            return format!("{k} refused {refusal}\n").into_bytes();
        }
        if let Some(Line::Call(call)) = line.and_then(read_line) {
            journal.note(call);
        }
        if let Err(wrong) = site.as_ref().map_or(Ok(()), |site| journal.look(site)) {
            return format!("{k} {wrong}\n").into_bytes();
        }
    }
    b"demand 3 held after each line\n".to_vec()
}

/// A walk's sizes, its style, and who is away at its opening. In a quarter of the walks a box is
/// away while others agree loads and drop them. A quarter have a bridge that repeats: one box that
/// answers for others does harm once two of five missed a load.
fn beginning(r: &mut Random) -> (Sizes, Style, u32) {
    let j = r.pick(&[2, 4, 12]);
    let bridge = r.percent(25);
    if !bridge {
        let sizes = Sizes { n: r.pick(&[2, 3, 3, 3, 4, 5, 5]), j, l: r.pick(&[1, 3, 8]) };
        let laggard = r.percent(33);
        let style = if laggard { Style::laggard } else { Style::random };
        return (sizes, style(r, sizes.n), 0);
    }
    let sizes = Sizes { n: r.pick(&[3, 4, 5, 5, 5]), j, l: r.pick(&[3, 8]) };
    let mut away = 0u32;
    while away.count_ones() < sizes.n - majority(sizes.n) {
        away |= only(r.from(1, sizes.n));
    }
    (sizes, Style::bridge(r, sizes.n), away)
}

/// The calls by which a bare majority agrees a load, and those who are away come back before
/// anyone is told.
fn opening(site: &Site, away: &mut u32, r: &mut Random, frame: u32) -> Option<Call> {
    let first = |set: u32| site.numbers().find(|c| member(set, *c));
    let back = first(*away)?;
    if site.numbers().all(|c| site.at(c).last == 0) {
        let stop = first(*away & site.present).map(Call::Stop);
        return stop.or_else(|| Some(likely_call(site, r, &QUIET, frame)));
    }
    *away ^= only(back);
    Some(Call::Return(back))
}

/// One walk of its own seed; the calls that were made, and what was wrong.
fn walk(seed: u64, steps: u32, fault: Fault) -> (Sizes, Vec<Call>, Told, Option<String>) {
    let mut r = Random::new(seed);
    let (sizes, style, mut away) = beginning(&mut r);
    let mut made = vec![];
    let next = |site: &Site| {
        let frame = made.len() as u32 + 1;
        let call = opening(site, &mut away, &mut r, frame)
            .unwrap_or_else(|| likely_call(site, &mut r, &style, frame));
        made.push(call);
        (frame < steps).then_some(call)
    };
    let (told, wrong) = play(sizes, next, fault);
    (sizes, made, told, wrong)
}

fn replayed(sizes: Sizes, calls: &[Call], fault: Fault) -> Option<String> {
    let mut calls = calls.iter().copied();
    play(sizes, |_| calls.next(), fault).1
}

/// Under the right rules nothing may be wrong.
pub fn right(seed: u64, walks: u64, steps: u32) -> bool {
    let mut all = Told::default();
    for k in 0..walks {
        let (sizes, calls, told, wrong) = walk(seed + k, steps, Fault::None);
        if let Some(wrong) = wrong {
            println!("walk {}: {wrong}", seed + k);
            show(sizes, &calls, Fault::None);
            return false;
        }
        all.add(told);
    }
    let Told { steps, agreed, elections, recovered, shared, repeated, .. } = all;
    let Told { trimmed, whole, beyond, acks, heard, .. } = all;
    println!("{walks} walks from seed {seed}, {steps} steps: demand 3 and form held after each");
    println!("  {elections} elections, {agreed} loads agreed, {recovered} started again,");
    println!("  {shared} times a box caught up by two or more, {repeated} mails repeated,");
    println!("  {trimmed} trims, {whole} books taken whole, {beyond} loads agreed beyond J,");
    println!("  {acks} LeaseAcks noted, {heard} leases heard by all present");
    let much = agreed > walks && repeated > walks && trimmed > walks && beyond > walks;
    let silence = acks > walks && heard > walks;
    much && silence && recovered > walks / 10 && whole > walks / 10 && shared > 0
}

/// Under a broken rule some walk must go wrong.
pub fn broken(seed: u64, walks: u64, steps: u32, fault: Fault, name: &str, tell: bool) -> bool {
    for k in 0..walks {
        let (sizes, calls, _, wrong) = walk(seed + k, steps, fault);
        if let Some(wrong) = wrong {
            let fewer =
                fewest(&calls, |calls| replayed(sizes, calls, fault).as_ref() == Some(&wrong));
            println!("{name}: noticed in walk {}, {} calls: {wrong}", seed + k, fewer.len());
            if tell {
                show(sizes, &fewer, fault);
            }
            return true;
        }
    }
    println!("{name}: NOT noticed in {walks} walks from seed {seed}");
    false
}

/// Under a broken rule that shows on foreign sites alone no walk may go wrong.
pub fn unseen(seed: u64, walks: u64, steps: u32, fault: Fault, name: &str) -> bool {
    let met = (seed..seed + walks).find(|k| walk(*k, steps, fault).3.is_some());
    match met {
        Some(k) => println!("{name}: MET in walk {k}"),
        None => println!("{name}: met in none of {walks} walks from seed {seed}"),
    }
    met.is_none()
}

/// The trace, ready for a replay.
fn show(sizes: Sizes, calls: &[Call], fault: Fault) {
    let wrong = replayed(sizes, calls, fault);
    let fewer = fewest(calls, |calls| replayed(sizes, calls, fault) == wrong);
    println!("site {} {} {}", sizes.n, sizes.j, sizes.l);
    fewer.iter().for_each(|call| println!("{}", call_text(*call)));
}
