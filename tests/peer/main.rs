//! The load journal a second time, from the paper alone: the proved programs are compared with it.
//!
//!     peer replay            the replayer, standard input to standard output
//!     peer apply             one step on an image, a line each
//!     peer to-new, to-old    images at rest from the old form to the new, and back, a line each
//!     peer salvage           what can be read from damaged images, a line of hex each
//!     peer strike            the images of the lines of standard input, damaged in many ways
//!     peer damage            images changed, cut and made longer, how often each answer comes
//!     peer script            calls on lent words, and on those of a box by itself
//!     peer desk              the pairing desk, lines in, answers out; wrong=NAME
//!     peer compare-replay    random traces to this and to another program, command=SHELL
//!     peer compare-apply     random image steps to both
//!     peer compare-run       random runs of images to both
//!     peer compare-desk      random mornings at the desk to both
//!     peer publish           a trace under the published step names
//!     peer unpublish         .. and back
//!     peer compare-publish   random traces to this and to another program
//!     peer compare-unpublish .. and back
//!     peer compare-find      random questions which load has a frame to both
//!     peer each steps=N      a run of the raw image of standard input: each step, and its answer
//!     peer wait              runs just after an election: how many steps until the scale is usable
//!     peer walk              long random walks with demand 3 looked at, and broken rules noticed
//!     peer watch             a trace with demand 3 looked at after every line
//!     peer faults            the names of the broken rules
//!     peer run-faults        .. of those that break the run alone
//!     peer desk-faults       .. of wrong desks
//!     peer publish-faults    .. of those that break a translation, wrong=NAME
//!     peer find-faults       .. and of those that break the question which load has a frame
//!
//! `fault=NAME` breaks a rule on purpose; a walk then shows the shortest trace. `seed=N`, and
//! `count=N` or `walks=N steps=N`, say which random inputs and how many; `limit=SECONDS` how long
//! the other program may take for one, `longest=BYTES` how long an image may be; `mails=L` and
//! `promise=PN` what the sites of `wait` have, and `order=any` that mail comes in any order there. `replay` and `apply`
//! end with 1 where a line was refused.

mod calls;
mod compare;
mod damage;
mod demand;
mod desk;
mod faults;
mod find;
mod foreign;
mod image;
mod moves;
mod other;
mod published;
mod random;
mod rules;
mod run;
mod salvage;
mod script;
mod shrink;
mod site;
mod texts;
mod trace;
mod turn;
mod waits;
mod walk;
mod words;

use faults::{Fault, Shows, FAULTS};
use other::Other;
use published::{Way, Wrong, WRONGS};
use std::io::{Read, Write};
use std::process::ExitCode;
use std::time::Duration;
use trace::Said;

fn fault_named(name: &str) -> Option<Fault> {
    FAULTS.iter().find(|(_, n, _)| *n == name).map(|(fault, ..)| *fault)
}

/// Standard input to standard output; the status is the manuals': 1 a line was refused, 3 input or
/// output failed.
fn filter(work: impl Fn(&[u8]) -> Said) -> ExitCode {
    let mut input = vec![];
    let read = std::io::stdin().read_to_end(&mut input);
    let said = work(&input);
    match read.and_then(|_| std::io::stdout().write_all(&said.text)) {
        Ok(()) => ExitCode::from(said.status() as u8),
        Err(_) => ExitCode::from(3),
    }
}

/// A text in which nothing is refused.
fn text(text: Vec<u8>) -> Said {
    Said { text, refused: false }
}

fn status(good: bool) -> ExitCode {
    if good {
        ExitCode::SUCCESS
    } else {
        ExitCode::FAILURE
    }
}

/// The right rules on long walks; each broken rule on many short ones, or on long ones where no
/// walk may notice it.
fn walks(seed: u64, walks: u64, steps: u32, fault: Fault) -> ExitCode {
    let broken = |(fault, name, shows), tell| match shows {
        Shows::OnForeign => walk::unseen(seed, walks, steps, fault, name),
        _ => walk::broken(seed, 100_000, 400, fault, name, tell),
    };
    if let Some(one) = FAULTS.iter().find(|(f, ..)| *f == fault) {
        return status(broken(*one, true));
    }
    let mut good = walk::right(seed, walks, steps);
    for one in FAULTS.into_iter().filter(|(_, _, shows)| in_steps(*shows)) {
        good &= broken(one, false);
    }
    status(good)
}

/// Whether it breaks a step.
fn in_steps(shows: Shows) -> bool {
    shows != Shows::InRun && shows != Shows::InFind
}

/// The names of the broken rules that show so.
fn names(so: impl Fn(Shows) -> bool) -> ExitCode {
    FAULTS.iter().filter(|(_, _, shows)| so(*shows)).for_each(|(_, name, _)| println!("{name}"));
    ExitCode::SUCCESS
}

fn main() -> ExitCode {
    let words: Vec<String> = std::env::args().skip(1).collect();
    let value = |name: &str| {
        words.iter().find_map(|w| w.strip_prefix(name).and_then(|w| w.strip_prefix('=')))
    };
    let number = |name, usual| value(name).map_or(usual, |text| text.parse().expect("a number"));
    let fault =
        value("fault").map_or(Fault::None, |name| fault_named(name).expect("a fault's name"));
    let translation = || {
        value("wrong").map_or(Wrong::Nothing, |name| {
            WRONGS.iter().find(|(_, n)| *n == name).expect("a wrong translation's name").0
        })
    };
    let seed = number("seed", 1);
    let limit = Duration::from_secs(number("limit", 600));
    let other = value("command").map(|command| Other { command: command.into(), limit });
    match (words.first().map(String::as_str), other) {
        (Some("replay"), _) => filter(|input| trace::replay(input, fault)),
        (Some("apply"), _) => filter(|input| trace::apply(input, fault)),
        (Some("to-new"), _) => filter(|input| moves::moves(input, true)),
        (Some("to-old"), _) => filter(|input| moves::moves(input, false)),
        (Some("publish"), _) => {
            filter(|input| published::translate(input, Way::Publish, translation()))
        }
        (Some("unpublish"), _) => {
            filter(|input| published::translate(input, Way::Unpublish, translation()))
        }
        (Some("compare-publish"), Some(other)) => {
            status(published::compare(&other, Way::Publish, seed, number("count", 300)))
        }
        (Some("compare-unpublish"), Some(other)) => {
            status(published::compare(&other, Way::Unpublish, seed, number("count", 300)))
        }
        (Some("publish-faults"), _) => {
            WRONGS.iter().for_each(|(_, name)| println!("{name}"));
            ExitCode::SUCCESS
        }
        (Some("each"), _) => {
            let steps = number("steps", 200) as u32;
            filter(|image| trace::each(image, steps))
        }
        (Some("desk"), _) => {
            let wrong = value("wrong").map_or(desk::Wrong::Nothing, |name| {
                desk::wrong_named(name).expect("the name of a wrong desk")
            });
            filter(|input| desk::desk(input, wrong))
        }
        (Some("desk-faults"), _) => {
            desk::WRONG.iter().for_each(|(_, name)| println!("{name}"));
            ExitCode::SUCCESS
        }
        (Some("compare-desk"), Some(other)) => {
            status(desk::compare(&other, seed, number("count", 300)))
        }
        (Some("salvage"), _) => filter(salvage::salvage),
        (Some("strike"), _) => {
            let count = number("count", 300);
            filter(|input| text(salvage::strike(input, seed, count)))
        }
        (Some("damage"), _) => filter(|input| text(damage::damage(input))),
        (Some("script"), _) => filter(|input| text(script::script(input, fault))),
        (Some("watch"), _) => filter(|input| text(walk::watch(input, fault))),
        (Some("compare-replay"), Some(other)) => {
            status(compare::replays(&other, seed, number("count", 300)))
        }
        (Some("compare-apply"), Some(other)) => {
            let longest = number("longest", trace::LONGEST_IMAGE as u64) as usize;
            status(compare::applies(&other, seed, number("count", 6000), longest))
        }
        (Some("compare-run"), Some(other)) => {
            let longest = number("longest", trace::LONGEST_IMAGE as u64) as usize;
            status(compare::runs(&other, seed, number("count", 6000), longest))
        }
        (Some("compare-find"), Some(other)) => {
            let longest = number("longest", trace::LONGEST_IMAGE as u64) as usize;
            status(compare::finds(&other, seed, number("count", 6000), longest))
        }
        (Some("wait"), _) => {
            let (mails, promise) =
                (number("mails", 8) as u32, number("promise", 999_999_800) as u32);
            status(waits::wait(
                seed,
                number("count", 40_000),
                mails,
                promise,
                value("order") == Some("any"),
            ))
        }
        (Some("faults"), _) => names(in_steps),
        (Some("run-faults"), _) => names(|shows| shows == Shows::InRun),
        (Some("find-faults"), _) => names(|shows| shows == Shows::InFind),
        (Some("walk"), _) => walks(seed, number("walks", 2000), number("steps", 500) as u32, fault),
        _ => {
            eprintln!(
                "usage: peer replay|apply|to-new|to-old|each|damage|script|walk|watch|wait|faults|run-faults|compare-replay|compare-apply|compare-run|desk|desk-faults|compare-desk|publish|unpublish|compare-publish|compare-unpublish|publish-faults|salvage|strike|find-faults|compare-find [NAME=VALUE ..]"
            );
            ExitCode::FAILURE
        }
    }
}
