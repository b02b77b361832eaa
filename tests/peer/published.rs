//! Traces under the published step names and back, and the driver of `publish` and `unpublish`.

use crate::other::{Other, Run, Verdict};
use crate::random::Random;
use crate::shrink::fewest;
use crate::texts::{random_trace, spoilt};
use crate::trace::{lines, lines_of, numbers_of, Said};
use std::collections::BTreeMap;

/// Our name, the published one where there is one, and how many numbers follow.
const NAMES: [(&str, Option<&str>, usize); 18] = [
    ("site", Some("site"), 3),
    ("elect", Some("election"), 1),
    ("recover", Some("election_recover"), 1),
    ("collect", Some("send_collect"), 1),
    ("ready", Some("post_last"), 1),
    ("offer", Some("client_request"), 3),
    ("propose", Some("propose_pending"), 1),
    ("agree", Some("post_accept"), 1),
    ("finish", Some("finish_commit"), 1),
    ("stop", Some("crash_mon"), 1),
    ("return", Some("restore_mon"), 1),
    ("timeout", Some("timeout_and_restart"), 1),
    ("heard", Some("post_lease_ack"), 1),
    ("mail", Some("receive"), 2),
    ("lose", None, 2),
    ("repeat", None, 2),
    ("trim", None, 2),
    ("holds", None, 4),
];

#[derive(Clone, Copy, PartialEq, Eq)]
pub enum Way {
    Publish,
    Unpublish,
}

/// What a driver must notice.
#[derive(Clone, Copy, PartialEq, Eq)]
pub enum Wrong {
    Nothing,
    /// 18 before 11, by the first line that has one of them.
    FirstLine,
    /// A second site line is let through.
    TwoSites,
    /// Our own words are read in a published trace.
    OwnWords,
    /// The last line needs no newline.
    Unended,
    /// A refused trace is translated up to there.
    Halfway,
}

pub const WRONGS: [(Wrong, &str); 5] = [
    (Wrong::FirstLine, "first-line"),
    (Wrong::TwoSites, "two-sites"),
    (Wrong::OwnWords, "own-words"),
    (Wrong::Unended, "unended"),
    (Wrong::Halfway, "halfway"),
];

/// One line under the other names; 11 where it cannot be read, 18 where it has no such name.
fn renamed(line: Option<&[u8]>, first: bool, way: Way, wrong: Wrong) -> Result<String, u32> {
    let line = std::str::from_utf8(line.filter(|line| line.len() <= 64).ok_or(11u32)?);
    let (name, numbers) = line.map_err(|_| 11u32)?.split_once(' ').ok_or(11u32)?;
    let found = NAMES.iter().find(|(ours, published, _)| match way {
        Way::Publish => *ours == name,
        Way::Unpublish => *published == Some(name) || wrong == Wrong::OwnWords && *ours == name,
    });
    let (ours, published, count) = found.ok_or(11u32)?;
    let read = numbers_of(numbers.as_bytes()).ok_or(11u32)?;
    let second = *ours == "site" && !first && wrong != Wrong::TwoSites;
    if read.len() != *count || second || *ours != "site" && first {
        return Err(11);
    }
    let new = match way {
        Way::Publish => published.ok_or(18u32)?,
        Way::Unpublish => ours,
    };
    Ok(format!("{new} {numbers}\n"))
}

/// The whole trace under the other names, or the number of its refusal alone: 11 wherever a line
/// is unreadable, else 18.
pub fn translate(input: &[u8], way: Way, wrong: Wrong) -> Said {
    let mut out = String::new();
    let mut refusal = None;
    for (k, line) in (1u64..).zip(lines(input)) {
        let line = if k > u32::MAX as u64 { None } else { line };
        let last = input.rsplit(|byte| *byte == b'\n').next();
        let line = if wrong == Wrong::Unended { line.or(last) } else { line };
        match (renamed(line, k == 1, way, wrong), refusal) {
            (Ok(text), None) => out += &text,
            (Err(18), Some(11)) | (Ok(_), _) => (),
            (Err(_), Some(_)) if wrong == Wrong::FirstLine => (),
            (Err(number), _) => refusal = Some(number),
        }
    }
    if let Some(number) = refusal {
        let before = if wrong == Wrong::Halfway { out } else { String::new() };
        out = format!("{before}refused {number}\n");
    }
    Said { text: out.into_bytes(), refused: refusal.is_some() }
}

/// A line that can be published.
fn has_name(line: &[u8]) -> bool {
    !["lose ", "repeat ", "trim ", "holds "].iter().any(|word| line.starts_with(word.as_bytes()))
}

/// A line of the other way, one that is too long, a second site line, or one with a byte changed.
fn odd_line(r: &mut Random, line: &[u8]) -> Vec<u8> {
    let text = String::from_utf8_lossy(line).trim_end().to_string();
    let made = match r.below(8) {
        0 => format!("{} {}", r.pick(&NAMES).0, r.next() as u32).into_bytes(),
        1 => format!("{} {}", r.pick(&NAMES).1.unwrap_or("receive"), r.below(6)).into_bytes(),
        2 => format!("site {} {} {}", r.below(7), r.below(40), r.below(10)).into_bytes(),
        3 => format!("{text}{}", "0".repeat(r.from(1, 60) as usize)).into_bytes(),
        4 => format!("{}{text}", r.pick(&["e", "post_", "election_", "re", "#"])).into_bytes(),
        5 => text.split(' ').next().unwrap_or_default().as_bytes().to_vec(),
        _ => spoilt(&format!("{text} "), r),
    };
    [made, b"\n".to_vec()].concat()
}

/// A trace of a seed for this way, as lines, and the pieces in which it is handed over: whole, or
/// with a line put in, changed, left out or unended.
fn seeded(seed: u64, way: Way) -> (Vec<Vec<u8>>, usize) {
    let mut r = Random::new(seed);
    let mut ours = lines_of(&random_trace(&mut r));
    if r.percent(80) {
        ours.retain(|line| has_name(line));
    }
    // what a replay refuses as unreadable is mostly left out, so that the rest is looked at
    if r.percent(70) {
        ours.retain(|line| line.ends_with(b"\n"));
        let mut seen = 0;
        ours.retain(|line| {
            let bare = line.strip_suffix(b"\n");
            seen += 1;
            renamed(bare, seen == 1, Way::Publish, Wrong::Nothing) != Err(11)
        });
    }
    let mut made = match way {
        Way::Publish => ours,
        Way::Unpublish => {
            let other = |(k, line): (usize, &Vec<u8>)| {
                let bare = line.strip_suffix(b"\n");
                renamed(bare, k == 0, Way::Publish, Wrong::Nothing).ok().map(String::into_bytes)
            };
            ours.iter().enumerate().map(|l| other(l).unwrap_or(l.1.clone())).collect()
        }
    };
    if r.percent(40) && !made.is_empty() {
        let at = r.below(made.len() as u32) as usize;
        let line = odd_line(&mut r, &made[at]);
        match r.below(4) {
            0 => made[at] = line,
            1 => drop(made.remove(at)),
            2 => drop(made.last_mut().unwrap().pop()),
            _ => made.insert(at, line),
        }
    }
    (made, r.pick(&[1, 63, 64, 65, 1000, 100_000]))
}

fn both(other: &Other, way: Way, lines: &[Vec<u8>], piece: usize) -> (Said, Run) {
    let input = lines.concat();
    (translate(&input, way, Wrong::Nothing), other.run(&input, piece))
}

/// The fewest lines of which the other program makes something else.
fn show(other: &Other, way: Way, seed: u64, lines: &[Vec<u8>], piece: usize) {
    let (expected, run) = both(other, way, lines, piece);
    println!("translation {}: seed {seed}, pieces of {piece}", run.against(&expected));
    let other = other.quicker();
    let short = fewest(lines, |lines| {
        let (expected, run) = both(&other, way, lines, piece);
        run.against(&expected) != Verdict::Same
    });
    let (expected, run) = both(&other, way, &short, piece);
    let shown = |bytes: &[u8]| {
        String::from_utf8_lossy(bytes)
            .lines()
            .take(20)
            .fold(String::new(), |text, line| text + "    " + line + "\n")
    };
    print!("{}", shown(&short.concat()));
    println!("  expected, status {}:\n{}", expected.status(), shown(&expected.text));
    println!("  got, {}:\n{}{}", run.end, shown(&run.text), shown(&run.said));
}

/// Traces of each seed to the other program; 11, 18 of publish, and a translation must have come.
pub fn compare(other: &Other, way: Way, seed: u64, count: u64) -> bool {
    let mut met = BTreeMap::<String, u64>::new();
    for k in seed..seed + count {
        let (lines, piece) = seeded(k, way);
        let (expected, run) = both(other, way, &lines, piece);
        if run.against(&expected) != Verdict::Same {
            show(other, way, k, &lines, piece);
            return false;
        }
        let text = String::from_utf8_lossy(&expected.text).trim_end().to_string();
        let answer = if expected.refused { text } else { "translated".into() };
        *met.entry(answer).or_default() += 1;
        // there and back, by this one alone: the other was just compared with it
        let back = if way == Way::Publish { Way::Unpublish } else { Way::Publish };
        let there = translate(&expected.text, back, Wrong::Nothing);
        if !expected.refused && (there.refused || there.text != lines.concat()) {
            println!("seed {k}: there and back is something else");
            return false;
        }
    }
    println!("{count} traces from seed {seed}: the same");
    let wanted: &[&str] = match way {
        Way::Publish => &["translated", "refused 11", "refused 18"],
        Way::Unpublish => &["translated", "refused 11"],
    };
    let counts: Vec<_> = met.iter().map(|(answer, n)| format!("{answer} {n}")).collect();
    println!("  {}", counts.join(", "));
    met.len() == wanted.len() && wanted.iter().all(|answer| met.contains_key(*answer))
}
