//! The driver: the same random input to this program and to another, through a pipe; every byte and
//! the exit status must be the same. What differs, and where the other program dies, is shown in its
//! shortest form, with its seed.

use crate::faults::Fault;
use crate::image;
use crate::other::{Other, Run, Verdict};
use crate::random::Random;
use crate::rules::Call;
use crate::find::random_find;
use crate::run::{next_turn, usable};
use crate::shrink::fewest;
use crate::site::*;
use crate::texts::*;
use crate::trace::{self, read_line, Line, Said};
use std::collections::BTreeMap;

fn text(bytes: &[u8]) -> String {
    let shown = String::from_utf8_lossy(bytes);
    shown.lines().map(|line| format!("    {line}\n")).collect()
}

/// How often each answer was given, by its words; to a repeat, a trim and a heard, and where there
/// is no room, also by the call's word; to a Lease and to its answer also by the mail's kind.
#[derive(Default)]
struct Met(BTreeMap<String, u64>);

/// What a repeat, a trim and a heard must have been refused with, and a Lease whose answer has no
/// room.
const REFUSED: [&str; 8] = [
    "repeat refused 2",
    "repeat refused 3",
    "repeat refused 8",
    "trim refused 2",
    "trim refused 3",
    "heard refused 2",
    "heard refused 3",
    "Lease refused 8",
];
/// What must have become of a box that was far behind.
const WHOLE: &str = "book taken whole";
/// Who must have had no room: a mail and Ready on foreign images alone.
const FULL: [&str; 3] = ["propose refused 7", "ready refused 7", "mail refused 7"];

impl Met {
    /// What was asked of this site, where there was one, and the answer.
    fn count(&mut self, site: Option<&Site>, asked: &[u8], answer: &str) {
        let words: Vec<_> = answer.trim_end().split(' ').collect();
        let answer = match words[..] {
            ["refused", number] | [_, "refused", number] => format!("refused {number}"),
            ["discarded", cause, _] => format!("discarded {cause}"),
            ["done" | "taken", _] => words[0].into(),
            _ => "printed".into(),
        };
        if let Some(kind @ (Kind::Lease | Kind::LeaseAck)) = site.and_then(|s| handed(s, asked)) {
            *self.0.entry(format!("{kind:?} {answer}")).or_default() += 1;
        }
        let asked = asked.split(|byte| *byte == b' ').next().unwrap_or_default();
        let asked = String::from_utf8_lossy(asked);
        if matches!(&asked[..], "repeat" | "trim" | "heard") || answer == "refused 7" {
            *self.0.entry(format!("{asked} {answer}")).or_default() += 1;
        }
        *self.0.entry(answer).or_default() += 1;
    }

    /// Whether a box that was far behind took a book whole.
    fn count_whole(&mut self, before: &Site, after: &Site) {
        if before.numbers().any(|c| after.at(c).first > before.at(c).last + 1) {
            *self.0.entry(WHOLE.into()).or_default() += 1;
        }
    }

    fn count_status(&mut self, said: &Said) {
        *self.0.entry(format!("status {}", said.status())).or_default() += 1;
    }

    /// Whether all of these were met: a driver that misses an answer has not tried it. Refusal 9
    /// must not have been.
    fn all(&self, refusals: &[u32], others: &[&str]) -> bool {
        let named = refusals.iter().map(|k| format!("refused {k}"));
        let wanted = named.chain(others.iter().map(|word| word.to_string()));
        let missed: Vec<_> = wanted.filter(|answer| !self.0.contains_key(answer)).collect();
        let counts: Vec<_> = self.0.iter().map(|(answer, n)| format!("{answer} {n}")).collect();
        println!("  {}", counts.join(", "));
        missed.iter().for_each(|answer| println!("  never met: {answer}"));
        let gone = self.0.contains_key("refused 9");
        if gone {
            println!("  met: refused 9, which is gone");
        }
        missed.is_empty() && !gone
    }
}

/// The kind of the mail that is handed over.
fn handed(site: &Site, asked: &[u8]) -> Option<Kind> {
    let Some(Line::Call(Call::Deliver(a, b))) = read_line(asked.trim_ascii_end()) else {
        return None;
    };
    let pair = site.pairs().contains(&(a, b));
    pair.then(|| site.link(a, b).front().map(|mail| mail.kind)).flatten()
}

/// Of two that differ the first line that does, or else the statuses; of a death how it ended. Then
/// what the other program said last.
fn show_difference(expected: &Said, run: &Run) {
    let (ours, theirs) =
        (String::from_utf8_lossy(&expected.text), String::from_utf8_lossy(&run.text));
    let same = ours.lines().zip(theirs.lines()).take_while(|(a, b)| a == b).count();
    let shown = |line: Option<&str>| line.unwrap_or("(nothing)").to_string();
    let (wanted, got) = match run.against(expected) {
        Verdict::Dies => ("an end with 0 or 1".into(), format!("{}, {same} lines out", run.end)),
        _ if ours == theirs => (format!("exit status: {}", expected.status()), run.end.to_string()),
        _ => (shown(ours.lines().nth(same)), shown(theirs.lines().nth(same))),
    };
    println!("  expected: {wanted}\n  got:      {got}");
    let said = String::from_utf8_lossy(&run.said);
    let last: Vec<_> = said.lines().rev().take(5).collect();
    last.iter().rev().for_each(|line| println!("  it said:  {line}"));
}

/// A trace of a seed, as lines, and the pieces in which it is handed over.
fn seeded(seed: u64) -> (Vec<Vec<u8>>, usize) {
    let mut r = Random::new(seed);
    let lines = trace::lines_of(&random_trace(&mut r));
    (lines, r.pick(&[1, 63, 64, 65, 1000, 100_000]))
}

/// What is expected of a replay, and what the other program did.
fn replay(other: &Other, input: &[u8], piece: usize) -> (Said, Run) {
    (trace::replay(input, Fault::None), other.run(input, piece))
}

/// The lines without those, but the last, that are refused: a run that went on longer.
fn without_refused(lines: &[Vec<u8>]) -> Vec<Vec<u8>> {
    let mut kept: Vec<Vec<u8>> = vec![];
    let mut site = None;
    for (k, line) in lines.iter().enumerate() {
        let bare = line.strip_suffix(b"\n");
        if trace::replay_line(&mut site, bare, Fault::None).is_ok() || k + 1 == lines.len() {
            kept.push(line.clone());
        }
    }
    kept
}

/// Of this seed and the next hundred the shortest trace that differs or that the other program dies
/// of, with what can be left out left out. One that has no end is shown as it is.
fn show_replay(other: &Other, seed: u64, expected: &Said, run: &Run) {
    let (lines, piece) = seeded(seed);
    let verdict = run.against(expected);
    println!("replay {verdict}: seed {seed}, pieces of {piece}, {}", run.end);
    if run.hangs() {
        print!("{}", text(&lines.concat()));
        return show_difference(expected, run);
    }
    let bad = |lines: &[Vec<u8>], piece| {
        let (expected, run) = replay(other, &lines.concat(), piece);
        run.against(&expected) != Verdict::Same
    };
    let failing = |k: &u64| {
        let (lines, piece) = seeded(*k);
        bad(&lines, piece)
    };
    let failing = (seed..seed + 100).filter(failing);
    let Some(best) = failing.min_by_key(|k| seeded(*k).0.len()) else {
        println!("  once, and not again; the first time:");
        return show_difference(expected, run);
    };
    let (lines, piece) = seeded(best);
    let goes_on = |lines: &[Vec<u8>]| bad(&without_refused(lines), piece);
    let short = if goes_on(&lines) { without_refused(&fewest(&lines, goes_on)) } else { lines };
    let short = fewest(&short, |lines| bad(lines, piece)).concat();
    println!("  the shortest, of seed {best}, in pieces of {piece}:");
    print!("{}", text(&short));
    let (expected, run) = replay(other, &short, piece);
    show_difference(&expected, &run);
}

/// What a replay meets on its way, line by line.
fn count_lines(met: &mut Met, lines: &[Vec<u8>], answers: &str) {
    let mut site = None;
    for (line, answer) in lines.iter().zip(answers.lines()) {
        let before = site.clone();
        let refused = trace::replay_line(&mut site, line.strip_suffix(b"\n"), Fault::None);
        met.count(before.as_ref(), line, answer);
        if let (Some(before), Some(after), Ok(())) = (&before, &site, refused) {
            met.count_whole(before, after);
        }
    }
}

/// Traces, each in a run of its own; then one that reaches the last epoch.
pub fn replays(other: &Other, seed: u64, count: u64) -> bool {
    let (mut met, mut printed) = (Met::default(), 0);
    for k in seed..seed + count {
        let (lines, piece) = seeded(k);
        let (expected, run) = replay(other, &lines.concat(), piece);
        if run.against(&expected) != Verdict::Same {
            show_replay(other, k, &expected, &run);
            return false;
        }
        met.count_status(&expected);
        let answers = String::from_utf8_lossy(&expected.text);
        count_lines(&mut met, &lines, &answers);
        printed += answers.lines().count();
    }
    let long = ["site 1 1 1\n", &"elect 1\ntimeout 1\n".repeat(500_000)].concat().into_bytes();
    for (name, input) in [("no input", vec![]), ("a million lines, to the last epoch", long)] {
        let (expected, run) = replay(other, &input, 65_536);
        let verdict = run.against(&expected);
        if verdict != Verdict::Same {
            println!("replay {verdict}: {name}");
            show_difference(&expected, &run);
            return false;
        }
        let answers = String::from_utf8_lossy(&expected.text);
        if let Some(last) = answers.lines().last() {
            met.count(None, b"timeout 1", last);
        }
    }
    println!("{count} traces from seed {seed}, {printed} lines, and one of a million: the same");
    let statuses = ["printed", "status 0", "status 1"];
    let words = ["repeat printed", "trim printed", "heard printed", "LeaseAck printed"];
    let others = [&statuses[..], &words, &REFUSED, &FULL[..1], &[WHOLE]].concat();
    met.all(&[2, 3, 4, 5, 7, 8, 10, 11, 13, 14], &others)
}

/// The site by form whose image is a word of the line, its first or its last.
fn image_of(line: &[u8]) -> Option<Site> {
    line.trim_ascii_end()
        .split(|byte| *byte == b' ')
        .find_map(|word| image::read(&trace::unhex(word)?))
}

/// What is expected of image steps, and what the other program did.
fn apply(other: &Other, input: &[u8]) -> (Said, Run) {
    (trace::apply(input, Fault::None), other.run(input, 65_536))
}

fn ended_lines(lines: &[Vec<u8>]) -> Vec<u8> {
    lines.iter().flat_map(|line| [line, &b"\n"[..]].concat()).collect()
}

fn is_bad(other: &Other, lines: &[Vec<u8>]) -> bool {
    let (expected, run) = apply(other, &ended_lines(lines));
    run.against(&expected) != Verdict::Same
}

/// The first line that is answered otherwise or that the other program dies at: the last of the
/// fewest, from the first on, that show it.
fn first_bad(other: &Other, lines: &[Vec<u8>]) -> Option<usize> {
    if lines.is_empty() || !is_bad(other, lines) {
        return None;
    }
    let (mut good, mut bad) = (0, lines.len());
    while good + 1 < bad {
        let middle = (good + bad) / 2;
        if is_bad(other, &lines[..middle]) {
            bad = middle;
        } else {
            good = middle;
        }
    }
    Some(bad - 1)
}

/// Whether the other program answers these lines as it has to. If not, the first that it does not
/// is shown in its simplest form; as it stands where that has no end or is good by itself.
fn steps_agree(other: &Other, seeds: &[u64], lines: &[Vec<u8>]) -> bool {
    let (expected, run) = apply(other, &ended_lines(lines));
    let verdict = run.against(&expected);
    if verdict == Verdict::Same {
        return true;
    }
    let (first, last) = (seeds[0], seeds[seeds.len() - 1]);
    println!("apply {verdict}: among the lines of seeds {first} to {last}, {}", run.end);
    let other = &other.quicker();
    let Some(at) = first_bad(other, lines) else {
        println!("  once, and not again; the first time:");
        show_difference(&expected, &run);
        return false;
    };
    let (mut line, mut which) = (lines[at].clone(), "as it stands".to_string());
    let (mut expected, mut run) = apply(other, &ended_lines(&[line.clone()]));
    if run.against(&expected) == Verdict::Same {
        (expected, run) = apply(other, &ended_lines(&lines[..=at]));
        which = format!("after the {at} before it, and not by itself");
    } else if !run.hangs() {
        while let Some(simpler) = simplest(other, &line) {
            line = simpler;
        }
        (expected, run) = apply(other, &ended_lines(&[line.clone()]));
        which = "in its simplest form".to_string();
    }
    println!("  the line of seed {}, {which}:", seeds[at]);
    print!("{}", text(&line));
    show_difference(&expected, &run);
    false
}

/// Image steps, many to a run; then those of the first run that are not refused. An image has at
/// most `longest` bytes.
pub fn applies(other: &Other, seed: u64, count: u64, longest: usize) -> bool {
    let (mut met, mut tried) = (Met::default(), 0);
    let mut done = vec![];
    for from in (seed..seed + count).step_by(500) {
        let (seeds, lines): (Vec<u64>, Vec<_>) = (from..(from + 500).min(seed + count))
            .map(|k| (k, random_image_step(&mut Random::new(k))))
            .filter(|(_, line)| line.len() <= 2 * longest + 65)
            .unzip();
        if !steps_agree(other, &seeds, &lines) {
            return false;
        }
        met.count_status(&trace::apply(&ended_lines(&lines), Fault::None));
        for (k, line) in seeds.iter().zip(lines) {
            let answer = trace::apply(&[&line[..], b"\n"].concat(), Fault::None);
            let asked = line.splitn(2, |byte| *byte == b' ').nth(1).unwrap_or_default();
            let before = image_of(&line);
            met.count(before.as_ref(), asked, &String::from_utf8_lossy(&answer.text));
            if let (Some(before), Some(after)) = (&before, image_of(&answer.text)) {
                met.count_whole(before, &after);
            }
            if line.len() > 2 * SHORT_IMAGE + 65 && !answer.refused {
                *met.0.entry("long image".into()).or_default() += 1;
            }
            tried += 1;
            if from == seed && !answer.refused {
                done.push((*k, line));
            }
        }
    }
    let (seeds, lines): (Vec<u64>, Vec<_>) = done.into_iter().unzip();
    if !lines.is_empty() && !steps_agree(other, &seeds, &lines) {
        return false;
    }
    met.count_status(&trace::apply(&ended_lines(&lines), Fault::None));
    for input in [random_image_step(&mut Random::new(seed)), vec![]] {
        let (expected, run) = apply(other, &input);
        let verdict = run.against(&expected);
        if verdict != Verdict::Same {
            println!("apply {verdict} where the last line is unended, or where there is none:");
            show_difference(&expected, &run);
            return false;
        }
    }
    println!("{tried} image steps from seed {seed}: the same");
    let causes = ["discarded role", "discarded phase", "discarded number", "discarded place"];
    let answers = ["done", "taken", "status 0", "status 1"];
    let words = ["repeat done", "trim done", "heard done"];
    let acks = ["LeaseAck taken", "LeaseAck discarded role", "LeaseAck discarded phase"];
    let long: &[&str] = if longest > SHORT_IMAGE { &["long image"] } else { &[] };
    let others = [&answers[..], &words, &acks, &causes, &REFUSED, &FULL, &[WHOLE], long].concat();
    met.all(&[1, 2, 3, 4, 5, 6, 7, 8, 10, 11, 14], &others)
}

/// What a run's answer must have been, beside the refusals 1, 3 and 11.
const RUNS: [&str; 8] = [
    "ran",
    "ran nothing",
    "ran out of steps",
    "stopped 6",
    "stopped 7",
    "stopped 8",
    "stopped at once",
    "usable",
];

/// What came of a run, in words; several may be true.
fn came_of_run(line: &[u8], answer: &str) -> Vec<String> {
    let words: Vec<_> = answer.split_ascii_whitespace().collect();
    let after = || image_of(answer.as_bytes()).expect("the image after a run");
    match words[..] {
        ["refused", number] => vec![format!("refused {number}")],
        ["stopped", number, used, _] => {
            let at_once = (used == "0").then(|| "stopped at once".to_string());
            at_once.into_iter().chain([format!("stopped {number}")]).collect()
        }
        ["ran", used, _] => {
            let after = after();
            let limit = line.rsplit(|byte| *byte == b' ').next() == Some(used.as_bytes());
            let out = limit && next_turn(&after, Fault::None).is_some();
            let so = [(true, "ran"), (used == "0", "ran nothing"), (out, "ran out of steps")];
            let so = so.into_iter().chain([(used != "0" && usable(&after), "usable")]);
            so.filter(|(so, _)| *so).map(|(_, word)| word.into()).collect()
        }
        _ => vec!["unknown".into()],
    }
}

/// Lines of `apply`, many to a run of the other program; then those of the first that are not
/// refused. What came of each is counted; None where the two programs differ. An image has at most
/// `longest` bytes.
fn asked(
    other: &Other,
    (seed, count, longest): (u64, u64, usize),
    random: fn(&mut Random) -> Vec<u8>,
    came: fn(&[u8], &str) -> Vec<String>,
) -> Option<Met> {
    let (mut met, mut done) = (Met::default(), vec![]);
    for from in (seed..seed + count).step_by(500) {
        let (seeds, lines): (Vec<u64>, Vec<_>) = (from..(from + 500).min(seed + count))
            .map(|k| (k, random(&mut Random::new(k))))
            .filter(|(_, line)| line.len() <= 2 * longest + 65)
            .unzip();
        if !steps_agree(other, &seeds, &lines) {
            return None;
        }
        let said = trace::apply(&ended_lines(&lines), Fault::None);
        met.count_status(&said);
        let answers = String::from_utf8_lossy(&said.text);
        for ((k, line), answer) in seeds.iter().zip(lines).zip(answers.lines()) {
            for word in came(&line, answer) {
                *met.0.entry(word).or_default() += 1;
            }
            if from == seed && !answer.starts_with("refused") {
                done.push((*k, line));
            }
        }
    }
    let (seeds, lines): (Vec<u64>, Vec<_>) = done.into_iter().unzip();
    if !lines.is_empty() && !steps_agree(other, &seeds, &lines) {
        return None;
    }
    met.count_status(&trace::apply(&ended_lines(&lines), Fault::None));
    Some(met)
}

/// Runs of images.
pub fn runs(other: &Other, seed: u64, count: u64, longest: usize) -> bool {
    let Some(met) = asked(other, (seed, count, longest), random_run, came_of_run) else {
        return false;
    };
    println!("{count} runs from seed {seed}: the same");
    // nothing else stops a run, or refuses it
    let other = |answer: &&String| {
        let known = ["stopped 6", "stopped 7", "stopped 8", "refused 1", "refused 3", "refused 11"];
        let number = answer.ends_with(|last: char| last.is_ascii_digit());
        number && !answer.starts_with("status") && !known.contains(&answer.as_str())
    };
    let others: Vec<_> = met.0.keys().filter(other).collect();
    others.iter().for_each(|answer| println!("  met: {answer}"));
    let all = met.all(&[1, 3, 11], &[&RUNS[..], &["status 0", "status 1"]].concat());
    all && others.is_empty()
}

/// What an answer to a find must have been, beside the refusals 1, 2, 10 and 11.
const FINDS: [&str; 8] = [
    "found",
    "found below others",
    "found behind others of its slot",
    "found past the first",
    "none",
    "none but at last+1",
    "none but in its slot",
    "of a box that is away",
];

/// What came of a find, in words; several may be true.
fn came_of_find(line: &[u8], answer: &str) -> Vec<String> {
    let number = match answer.split_once(' ') {
        Some(("found", number)) => number.parse().ok(),
        None if answer == "none" => None,
        _ => return vec![answer.into()],
    };
    let site = image_of(line).expect("the image that was asked");
    let space = line.iter().position(|byte| *byte == b' ').expect("a line");
    let (c, left) = trace::read_find(&line[space + 1..]).expect("a find");
    let b = site.at(c);
    let (kept, held) = (&b.records[..b.kept()], &b.records[..]);
    let has = |record: &&Record| **record >> 32 == left as u64;
    let near = |record: &&Record| (**record >> 32) % 64 == left as u64 % 64;
    let place = number.map(|k: u32| (k - b.first) as usize);
    let before = &kept[..place.unwrap_or(kept.len())];
    let so = [
        (place.is_some(), "found"),
        (place.is_some() && kept.iter().filter(has).count() > 1, "found below others"),
        (place.is_some() && before.iter().any(|r| near(&r)), "found behind others of its slot"),
        (place.is_some() && b.first > 1, "found past the first"),
        (place.is_none(), "none"),
        (place.is_none() && held.iter().any(|r| has(&r)), "none but at last+1"),
        (place.is_none() && before.iter().any(|r| near(&r)), "none but in its slot"),
        (!member(site.present, c), "of a box that is away"),
    ];
    so.into_iter().filter(|(so, _)| *so).map(|(_, word)| word.into()).collect()
}

/// Which load has a frame, asked of images.
pub fn finds(other: &Other, seed: u64, count: u64, longest: usize) -> bool {
    let Some(met) = asked(other, (seed, count, longest), random_find, came_of_find) else {
        return false;
    };
    println!("{count} frames asked for from seed {seed}: the same");
    met.all(&[1, 2, 10, 11], &[&FINDS[..], &["status 0", "status 1"]].concat())
}

/// A simpler line that is bad too.
fn simplest(other: &Other, line: &[u8]) -> Option<Vec<u8>> {
    let space = line.iter().position(|b| *b == b' ')?;
    let (bytes, words) = (trace::unhex(&line[..space])?, &line[space..]);
    let images = match image::read(&bytes) {
        Some(site) => simpler_sites(&site).iter().map(image::write).collect(),
        None => shorter(&bytes),
    };
    let lines: Vec<_> = images.iter().map(|i| [trace::hex(i).as_bytes(), words].concat()).collect();
    first_bad(other, &lines).map(|first| lines[first].clone())
}

/// The bytes with a word left out or cleared.
fn shorter(bytes: &[u8]) -> Vec<Vec<u8>> {
    let mut all = vec![];
    for at in (0..bytes.len()).step_by(4) {
        let end = (at + 4).min(bytes.len());
        all.push([&bytes[..at], &bytes[end..]].concat());
        if bytes[at..end].iter().any(|b| *b != 0) {
            let mut cleared = bytes.to_vec();
            cleared[at..end].fill(0);
            all.push(cleared);
        }
    }
    all
}

/// Sites by form with one thing less.
fn simpler_sites(site: &Site) -> Vec<Site> {
    let mut all = vec![];
    let mut with = |change: &dyn Fn(&mut Site)| {
        let mut next = site.clone();
        change(&mut next);
        if next != *site && next.by_form() {
            all.push(next);
        }
    };
    for (a, b) in site.pairs() {
        with(&|s| s.link_mut(a, b).clear());
        with(&|s| drop(s.link_mut(a, b).pop_front()));
        with(&|s| drop(s.link_mut(a, b).pop_back()));
    }
    let fresh = Camera::fresh(site.sizes.n);
    for c in site.numbers() {
        with(&|s| *s.at_mut(c) = fresh.clone());
        with(&|s| s.at_mut(c).leads = false);
        with(&|s| s.at_mut(c).state = fresh.state);
        with(&|s| s.at_mut(c).phase = fresh.phase);
        with(&|s| s.at_mut(c).pn = 0);
        with(&|s| (s.at_mut(c).stored_pn, s.at_mut(c).stored_number) = (0, 0));
        with(&|s| s.at_mut(c).best = fresh.best);
        with(&|s| s.at_mut(c).answered = 0);
        with(&|s| s.at_mut(c).accepts = 0);
        with(&|s| s.at_mut(c).heard = 0);
        with(&|s| s.at_mut(c).waiting = 0);
        with(&|s| s.at_mut(c).agreeing = 0);
        with(&|s| s.at_mut(c).peers.fill(UNKNOWN));
        with(&|s| s.at_mut(c).records.truncate(site.at(c).kept()));
        with(&|s| {
            let b = s.at_mut(c);
            b.records.drain(..b.kept().min(1));
            b.first += 1;
        });
        with(&|s| {
            let b = s.at_mut(c);
            b.records.pop();
            b.last = b.last.saturating_sub(1);
        });
        with(&|s| {
            let b = s.at_mut(c);
            (b.first, b.last) = (1, b.kept() as u32);
        });
    }
    with(&|s| s.epoch = 2 - s.epoch % 2);
    with(&|s| s.present = everyone(s.sizes.n));
    all
}
