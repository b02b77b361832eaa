//! Trace lines, the replayer, and `apply`: one step on an image.

use crate::faults::Fault;
use crate::find::find;
use crate::image;
use crate::moves;
use crate::rules::*;
use crate::run::{run, Ended};
use crate::site::*;

pub enum Line {
    Site(Sizes),
    Call(Call),
    Holds(u32, u32, u32, u32),
}

const LONGEST_LINE: usize = 64;

/// The longest image that a site has: table and general body, five full boxes, twenty links full of
/// mails with all 4,096 records.
pub const LONGEST_IMAGE: usize = {
    let (n, j, l) = (5, 4096, 16);
    4 + 8 * (n + 2) + 20 + n * (80 + 4 * n + 8 * j) + n * (n - 1) * (4 + l * (24 + 8 * j))
};

pub fn decimal(word: &[u8]) -> Option<u32> {
    let plain =
        word.iter().all(u8::is_ascii_digit) && (word.len() == 1 || word.first() != Some(&b'0'));
    if plain {
        std::str::from_utf8(word).ok()?.parse().ok()
    } else {
        None
    }
}

/// Decimals parted by one space.
pub fn numbers_of(text: &[u8]) -> Option<Vec<u32>> {
    text.split(|byte| *byte == b' ').map(decimal).collect()
}

/// A line without its newline; None where it is unreadable.
pub fn read_line(line: &[u8]) -> Option<Line> {
    if line.len() > LONGEST_LINE {
        return None;
    }
    let mut words = line.splitn(2, |byte| *byte == b' ');
    let name = words.next()?;
    let numbers = words.next().map_or(Some(vec![]), numbers_of)?;
    Some(match (name, &numbers[..]) {
        (b"site", &[n, j, l]) => Line::Site(Sizes { n, j, l }),
        (b"holds", &[c, k, left, right]) => Line::Holds(c, k, left, right),
        (b"elect", &[c]) => Line::Call(Call::Elect(c)),
        (b"recover", &[c]) => Line::Call(Call::Recover(c)),
        (b"collect", &[c]) => Line::Call(Call::Collect(c)),
        (b"ready", &[c]) => Line::Call(Call::Ready(c)),
        (b"offer", &[c, left, right]) => Line::Call(Call::Offer(c, left, right)),
        (b"propose", &[c]) => Line::Call(Call::Propose(c)),
        (b"agree", &[c]) => Line::Call(Call::Agree(c)),
        (b"finish", &[c]) => Line::Call(Call::Finish(c)),
        (b"heard", &[c]) => Line::Call(Call::Heard(c)),
        (b"stop", &[c]) => Line::Call(Call::Stop(c)),
        (b"return", &[c]) => Line::Call(Call::Return(c)),
        (b"timeout", &[c]) => Line::Call(Call::Timeout(c)),
        (b"trim", &[c, k]) => Line::Call(Call::Trim(c, k)),
        (b"lose", &[a, b]) => Line::Call(Call::Lose(a, b)),
        (b"repeat", &[a, b]) => Line::Call(Call::Repeat(a, b)),
        (b"mail", &[a, b]) => Line::Call(Call::Deliver(a, b)),
        _ => return None,
    })
}

pub fn call_text(call: Call) -> String {
    match call {
        Call::Elect(c) => format!("elect {c}"),
        Call::Recover(c) => format!("recover {c}"),
        Call::Collect(c) => format!("collect {c}"),
        Call::Ready(c) => format!("ready {c}"),
        Call::Offer(c, left, right) => format!("offer {c} {left} {right}"),
        Call::Propose(c) => format!("propose {c}"),
        Call::Agree(c) => format!("agree {c}"),
        Call::Finish(c) => format!("finish {c}"),
        Call::Heard(c) => format!("heard {c}"),
        Call::Stop(c) => format!("stop {c}"),
        Call::Return(c) => format!("return {c}"),
        Call::Timeout(c) => format!("timeout {c}"),
        Call::Trim(c, k) => format!("trim {c} {k}"),
        Call::Lose(a, b) => format!("lose {a} {b}"),
        Call::Repeat(a, b) => format!("repeat {a} {b}"),
        Call::Deliver(a, b) => format!("mail {a} {b}"),
    }
}

/// The lines of an input, each with its newline.
pub fn lines_of(input: &[u8]) -> Vec<Vec<u8>> {
    input.split_inclusive(|byte| *byte == b'\n').map(<[u8]>::to_vec).collect()
}

/// The lines without their newlines; the last is None where no newline ends it.
pub fn lines(input: &[u8]) -> impl Iterator<Item = Option<&[u8]>> {
    input.split_inclusive(|byte| *byte == b'\n').map(|line| line.strip_suffix(b"\n"))
}

/// One line of a replay; a refused one leaves the site.
pub fn replay_line(
    site: &mut Option<Site>,
    line: Option<&[u8]>,
    fault: Fault,
) -> Result<(), Refusal> {
    let line = line.and_then(read_line).ok_or(11u32)?;
    match (site, line) {
        (site @ None, Line::Site(sizes)) => {
            if !sizes.in_range() || sizes.j > 32 || sizes.l > 8 {
                return Err(13);
            }
            *site = Some(Site::fresh(sizes));
        }
        (Some(site), Line::Call(call)) => {
            step_with(site, call, fault)?;
        }
        (Some(site), Line::Holds(c, k, left, right)) => {
            holds(site, c, k, left, right)?;
        }
        _ => return Err(11),
    }
    Ok(())
}

/// What a run writes, and whether a line of it was refused.
pub struct Said {
    pub text: Vec<u8>,
    pub refused: bool,
}

impl Said {
    /// The exit status, by the manuals.
    pub fn status(&self) -> i32 {
        self.refused as i32
    }
}

/// What a replay of this input prints.
pub fn replay(input: &[u8], fault: Fault) -> Said {
    let mut out = String::new();
    let (mut site, mut refused) = (None, false);
    for (k, line) in (1u64..).zip(lines(input)) {
        let line = if k > u32::MAX as u64 { None } else { line };
        if let Err(refusal) = replay_line(&mut site, line, fault) {
            out += &format!("{k} refused {refusal}\n");
            refused = true;
            break;
        }
        let site = site.as_ref().unwrap();
        out += &format!("{k} {}", site.epoch);
        site.numbers().for_each(|c| out += &format!(" {}", site.at(c).last));
        out += "\n";
    }
    Said { text: out.into_bytes(), refused }
}

pub fn hex(bytes: &[u8]) -> String {
    if bytes.is_empty() {
        return "-".into();
    }
    bytes.iter().map(|byte| format!("{byte:02x}")).collect()
}

pub fn unhex(text: &[u8]) -> Option<Vec<u8>> {
    if text == b"-" {
        return Some(vec![]);
    }
    let digit = |d: u8| match d {
        b'0'..=b'9' => Some(d - b'0'),
        b'a'..=b'f' => Some(d - b'a' + 10),
        b'A'..=b'F' => Some(d - b'A' + 10),
        _ => None,
    };
    if text.is_empty() || text.len() % 2 == 1 {
        return None;
    }
    text.chunks(2).map(|pair| Some(digit(pair[0])? << 4 | digit(pair[1])?)).collect()
}

/// What `run STEPS` asks for, which is no line of a trace.
pub fn read_run(words: &[u8]) -> Option<u32> {
    let steps = words.strip_prefix(b"run ")?;
    (words.len() <= LONGEST_LINE).then(|| decimal(steps)).flatten()
}

fn run_line(bytes: &[u8], steps: u32, fault: Fault) -> Result<String, Refusal> {
    let mut site = image::read(bytes).ok_or(1u32)?;
    let ended = run(&mut site, steps, fault, |_| ())?;
    let after = hex(&image::write(&site));
    Ok(match ended {
        Ended::Ran(used) => format!("ran {used} {after}"),
        Ended::Stopped(why, used) => format!("stopped {why} {used} {after}"),
    })
}

/// What `find C LEFT` asks for, which is no line of a trace.
pub fn read_find(words: &[u8]) -> Option<(u32, u32)> {
    let numbers = words.strip_prefix(b"find ").filter(|_| words.len() <= LONGEST_LINE)?;
    let space = numbers.iter().position(|byte| *byte == b' ')?;
    Some((decimal(&numbers[..space])?, decimal(&numbers[space + 1..])?))
}

fn find_line(bytes: &[u8], (c, left): (u32, u32), fault: Fault) -> Result<String, Refusal> {
    let site = image::read(bytes).ok_or(1u32)?;
    let found = find(&site, c, left, fault)?;
    Ok(found.map_or("none".into(), |number| format!("found {number}")))
}

fn apply_line(line: Option<&[u8]>, fault: Fault) -> Result<String, Refusal> {
    // a line is no longer than its image in hex, the space and the call may be together
    let line =
        line.filter(|line| line.len() <= 2 * LONGEST_IMAGE + 1 + LONGEST_LINE).ok_or(11u32)?;
    let space = line.iter().position(|byte| *byte == b' ').ok_or(11u32)?;
    let bytes = unhex(&line[..space]).ok_or(11u32)?;
    if let Some(steps) = read_run(&line[space + 1..]) {
        return run_line(&bytes, steps, fault);
    }
    if &line[space + 1..] == b"rest" {
        let mut site = image::read(&bytes).ok_or(1u32)?;
        moves::rest(&mut site)?;
        return Ok(format!("done {}", hex(&image::write(&site))));
    }
    if let Some(asked) = read_find(&line[space + 1..]) {
        return find_line(&bytes, asked, fault);
    }
    let words = read_line(&line[space + 1..]).ok_or(11u32)?;
    if matches!(words, Line::Site(_)) {
        return Err(11);
    }
    let mut site = image::read(&bytes).ok_or(1u32)?;
    let answer = match words {
        Line::Site(_) => unreachable!(),
        Line::Call(call) => step_with(&mut site, call, fault)?,
        Line::Holds(c, k, left, right) => holds(&site, c, k, left, right)?,
    };
    let word = match answer {
        Answer::Done => "done",
        Answer::Taken => "taken",
        Answer::Discarded(Cause::Role) => "discarded role",
        Answer::Discarded(Cause::Phase) => "discarded phase",
        Answer::Discarded(Cause::Number) => "discarded number",
        Answer::Discarded(Cause::Place) => "discarded place",
    };
    Ok(format!("{word} {}", hex(&image::write(&site))))
}

/// What `wait --each` prints of this image: each step that is done, and the run's answer.
pub fn each(image: &[u8], steps: u32) -> Said {
    let mut out = String::new();
    let ended = image::read(image).ok_or(1u32).and_then(|mut site| {
        run(&mut site, steps, Fault::None, |call| out += &(call_text(call) + "\n"))
    });
    out += &match ended {
        Ok(Ended::Ran(used)) => format!("ran {used}\n"),
        Ok(Ended::Stopped(why, used)) => format!("stopped {why} {used}\n"),
        Err(why) => format!("refused {why}\n"),
    };
    Said { text: out.into_bytes(), refused: ended.is_err() }
}

/// What `apply` prints for this input: one line for each line.
pub fn apply(input: &[u8], fault: Fault) -> Said {
    answered(input, |line| apply_line(line, fault))
}

/// A line for each line: its answer, or that it is refused.
pub fn answered(
    input: &[u8],
    answer: impl Fn(Option<&[u8]>) -> Result<String, Refusal>,
) -> Said {
    let (mut out, mut refused) = (String::new(), false);
    for line in lines(input) {
        match answer(line) {
            Ok(text) => out += &text,
            Err(refusal) => {
                out += &format!("refused {refusal}");
                refused = true;
            }
        }
        out += "\n";
    }
    Said { text: out.into_bytes(), refused }
}
