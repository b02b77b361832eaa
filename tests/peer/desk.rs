//! Q-13, the pairing desk, from the paper's words: what waits on each side by its number, in no
//! order of places. A line's words, its answer, and random lines.

use crate::calls::{likely_call, Style};
use crate::foreign::foreign;
use crate::image;
use crate::other::{Other, Verdict};
use crate::random::Random;
use crate::rules::*;
use crate::shrink::fewest;
use crate::site::*;
use crate::trace::{self, hex, lines, unhex, Said};
use std::collections::{BTreeMap, BTreeSet};

const PLACES: usize = 32;
const NEAR: u32 = 40;

/// What is wrong with a desk on purpose.
#[derive(Clone, Copy, PartialEq, Eq)]
pub enum Wrong {
    Nothing,
    NoWrap,
    HigherOnTie,
    FortyFar,
    LeavesThoughRefused,
    RightStays,
    FormFirst,
}

pub const WRONG: [(Wrong, &str); 6] = [
    (Wrong::NoWrap, "difference-without-the-wrap"),
    (Wrong::HigherOnTie, "higher-number-on-a-tie"),
    (Wrong::FortyFar, "forty-refused"),
    (Wrong::LeavesThoughRefused, "pair-leaves-though-refused"),
    (Wrong::RightStays, "right-frame-stays"),
    (Wrong::FormFirst, "form-before-the-desk"),
];

#[derive(Clone, Copy)]
enum Side {
    Left,
    Right,
}

enum Ask<'a> {
    Site(&'a [u8]),
    Give(Side, u32, u32),
    Withdraw(Side, u32),
    Pair(u32),
}

struct Desk {
    /// Frame number to tick.
    left: BTreeMap<u32, u32>,
    right: BTreeMap<u32, u32>,
    site: Option<Site>,
    wrong: Wrong,
}

fn decimal(word: &[u8]) -> Option<u32> {
    let text = std::str::from_utf8(word).ok()?;
    let plain = text == "0" || !text.starts_with(['0', '+']);
    text.parse().ok().filter(|_| plain)
}

fn side(word: &[u8]) -> Option<Side> {
    match word {
        b"left" => Some(Side::Left),
        b"right" => Some(Side::Right),
        _ => None,
    }
}

fn read(line: &[u8]) -> Option<Ask<'_>> {
    let words: Vec<&[u8]> = line.split(|byte| *byte == b' ').collect();
    Some(match words[..] {
        [b"site", image] if !image.is_empty() => Ask::Site(image),
        [b"withdraw", at, frame] => Ask::Withdraw(side(at)?, decimal(frame)?),
        [b"pair", frame] => Ask::Pair(decimal(frame)?),
        [at, frame, tick] => Ask::Give(side(at)?, decimal(frame)?, decimal(tick)?),
        _ => return None,
    })
}

impl Desk {
    fn at(&mut self, side: Side) -> &mut BTreeMap<u32, u32> {
        match side {
            Side::Left => &mut self.left,
            Side::Right => &mut self.right,
        }
    }

    /// "forward or back, whichever is smaller"
    fn apart(&self, a: u32, b: u32) -> u32 {
        let difference = (a as i64 - b as i64).abs();
        match self.wrong {
            Wrong::NoWrap => difference as u32,
            _ => difference.min((1 << 32) - difference) as u32,
        }
    }

    fn give(&mut self, side: Side, frame: u32, tick: u32) -> Result<(), Refusal> {
        let waiting = self.at(side);
        if frame == 0 {
            return Err(10);
        }
        if waiting.contains_key(&frame) {
            return Err(19);
        }
        if waiting.len() == PLACES {
            return Err(20);
        }
        waiting.insert(frame, tick);
        Ok(())
    }

    fn withdraw(&mut self, side: Side, frame: u32) -> Result<(), Refusal> {
        if frame == 0 {
            return Err(10);
        }
        self.at(side).remove(&frame).map(|_| ()).ok_or(23)
    }

    /// The right frame, and how often another was as near.
    fn nearest(&self, tick: u32) -> Option<(u32, usize)> {
        let far = if self.wrong == Wrong::FortyFar { NEAR } else { NEAR + 1 };
        let near = |other: u32| Some(self.apart(tick, other)).filter(|apart| *apart < far);
        let least = self.right.values().filter_map(|other| near(*other)).min()?;
        let as_near = || self.right.iter().filter(|(_, other)| near(**other) == Some(least));
        let frame = match self.wrong {
            Wrong::HigherOnTie => *as_near().map(|(frame, _)| frame).max()?,
            _ => *as_near().map(|(frame, _)| frame).min()?,
        };
        Some((frame, as_near().count() - 1))
    }

    fn offer(&mut self, left: u32, right: u32) -> Result<(), Refusal> {
        let site = self.site.as_mut().ok_or(1u32)?;
        let leader = site.leader().ok_or(3u32)?;
        step(site, Call::Offer(leader, left, right)).map(|_| ())
    }

    fn pair(&mut self, frame: u32) -> Result<u32, Refusal> {
        if self.wrong == Wrong::FormFirst && self.site.is_none() {
            return Err(1);
        }
        if frame == 0 {
            return Err(10);
        }
        let tick = *self.left.get(&frame).ok_or(23u32)?;
        let (right, _) = self.nearest(tick).ok_or(21u32)?;
        let offered = self.offer(frame, right);
        if offered.is_ok() || self.wrong == Wrong::LeavesThoughRefused {
            self.left.remove(&frame);
            if self.wrong != Wrong::RightStays {
                self.right.remove(&right);
            }
        }
        offered.map(|_| right)
    }

    fn answer(&mut self, line: Option<&[u8]>) -> Result<String, Refusal> {
        match line.and_then(read).ok_or(11u32)? {
            Ask::Site(text) => {
                let bytes = if text == b"-" { Some(vec![]) } else { unhex(text) };
                self.site = Some(bytes.and_then(|image| image::read(&image)).ok_or(1u32)?);
            }
            Ask::Give(side, frame, tick) => self.give(side, frame, tick)?,
            Ask::Withdraw(side, frame) => self.withdraw(side, frame)?,
            Ask::Pair(left) => {
                let right = self.pair(left)?;
                let site = self.site.as_ref().expect("it was accepted");
                return Ok(format!("paired {left} {right} {}", hex(&image::write(site))));
            }
        }
        Ok("done".into())
    }
}

fn empty(wrong: Wrong) -> Desk {
    Desk { left: BTreeMap::new(), right: BTreeMap::new(), site: None, wrong }
}

pub fn wrong_named(name: &str) -> Option<Wrong> {
    WRONG.iter().find(|(_, n)| *n == name).map(|(wrong, _)| *wrong)
}

/// What the lines of an input are answered.
pub fn desk(input: &[u8], wrong: Wrong) -> Said {
    let (mut desk, mut text, mut refused) = (empty(wrong), String::new(), false);
    for line in lines(input) {
        match desk.answer(line) {
            Ok(answer) => text += &format!("{answer}\n"),
            Err(why) => {
                refused = true;
                text += &format!("refused {why}\n");
            }
        }
    }
    Said { text: text.into_bytes(), refused }
}

/// A site: reached by a walk, most with a leader that is Active, or foreign, or none.
fn some_site(r: &mut Random) -> Vec<u8> {
    let sizes = Sizes { n: r.from(1, 5), j: r.from(1, 4), l: r.from(1, 3) };
    if r.percent(25) {
        return image::write(&foreign(r, sizes));
    }
    let mut site = Site::fresh(sizes);
    let style = Style::random(r, sizes.n);
    for frame in 0..r.below(120) {
        let call = likely_call(&site, r, &style, 2 * frame + 1);
        let _ = step(&mut site, call);
        let ready = site.leader().is_some_and(|c| {
            site.at(c).state == State::Active && site.at(c).waiting == 0 && site.epoch % 2 == 0
        });
        if ready && r.percent(30) {
            break;
        }
    }
    image::write(&site)
}

/// A tick about the moment, which is often near the wrap.
fn some_tick(r: &mut Random, moment: u32) -> u32 {
    match r.below(12) {
        0 => r.next() as u32,
        1 => moment.wrapping_add(r.pick(&[40, 41])),
        2 => moment.wrapping_sub(r.pick(&[40, 41])),
        3 => moment,
        _ => moment.wrapping_add(r.below(90)).wrapping_sub(45),
    }
}

fn some_line(r: &mut Random, moment: u32, most: u32) -> Vec<u8> {
    let least = u32::from(!r.percent(4));
    let frame = r.from(least, most);
    let which = r.pick(&["left", "right"]);
    let line = match r.below(40) {
        0..=12 => format!("{which} {frame} {}", some_tick(r, moment)),
        13..=15 => format!("right {frame} {}", some_tick(r, moment)),
        16..=30 => format!("pair {frame}"),
        31..=32 => format!("withdraw {which} {frame}"),
        33..=38 => match r.below(12) {
            0 => format!("site {}", r.pick(&["-", "0", "00", "zz"])),
            1 => format!("site {}00", hex(&some_site(r))),
            2 => format!("site {}", hex(&some_site(r)).to_uppercase()),
            _ => format!("site {}", hex(&some_site(r))),
        },
        _ => r
            .pick(&[
                "", "pair", "pair 01", "left 1", "left 1 2 3", "right 1  2", "withdraw both 1",
                "withdraw 1", "pair 4294967296", "left 4294967295 4294967295", " pair 1", "pair 1 ",
                "site", "site ", "Left 1 2", "left +1 2", "right 4294967296 1", "pair\t1", "site - 1",
            ])
            .to_string(),
    };
    line.into_bytes()
}

/// The lines of a morning: some fill a side.
fn some_lines(r: &mut Random) -> Vec<Vec<u8>> {
    let most = r.pick(&[3, 8, 40, 60]);
    let mut moment = r.pick(&[0u32, u32::MAX - 20, 0x8000_0000, 1000]);
    let give = if most == 60 { r.pick(&["left", "right"]) } else { "" };
    let mut out = vec![];
    for k in 0..r.from(20, 160) {
        if !give.is_empty() && k < 45 {
            out.push(format!("{give} {} {}", k + 1, some_tick(r, moment)).into_bytes());
        } else {
            out.push(some_line(r, moment, most));
        }
        moment = moment.wrapping_add(r.below(8));
    }
    out
}

fn ended(lines: &[Vec<u8>]) -> Vec<u8> {
    lines.iter().flat_map(|line| [line, &b"\n"[..]].concat()).collect()
}

/// What these lines met: answers, ties, pairs round the wrap, pairs 40 ticks apart.
fn met(lines: &[Vec<u8>], met: &mut BTreeMap<String, u64>) {
    let mut desk = empty(Wrong::Nothing);
    let mut count = |word: &str| *met.entry(word.into()).or_default() += 1;
    for line in lines {
        let pair = match read(line) {
            Some(Ask::Pair(frame)) => desk.left.get(&frame).copied(),
            _ => None,
        };
        let found = pair.and_then(|tick| Some((tick, desk.nearest(tick)?)));
        let right = found.map(|(_, (frame, _))| desk.right[&frame]);
        let waiting = (desk.left.clone(), desk.right.clone());
        match desk.answer(Some(line)) {
            Ok(answer) => {
                count(answer.split(' ').next().unwrap_or_default());
                if let (Some((tick, (_, others))), Some(right)) = (found, right) {
                    if others > 0 {
                        count("tie");
                    }
                    if tick.abs_diff(right) > NEAR {
                        count("wrap");
                    }
                    if desk.apart(tick, right) == NEAR {
                        count("forty");
                    }
                }
            }
            Err(why) => {
                count(&format!("refused {why}"));
                if found.is_some() && (desk.left.clone(), desk.right.clone()) == waiting {
                    count("pair that waits on");
                }
            }
        }
    }
}

const WANTED: [&str; 15] = [
    "done",
    "paired",
    "refused 1",
    "refused 3",
    "refused 10",
    "refused 11",
    "refused 19",
    "refused 20",
    "refused 21",
    "refused 23",
    "tie",
    "wrap",
    "forty",
    "pair that waits on",
    "status 0",
];

/// Random lines to this desk and to another program, every byte and the exit status compared.
pub fn compare(other: &Other, seed: u64, count: u64) -> bool {
    let (mut all, mut tried) = (BTreeMap::new(), 0);
    for k in seed..seed + count {
        let mut r = Random::new(k);
        let mut lines = some_lines(&mut r);
        if r.percent(20) {
            // those alone that are not refused
            let mut desk = empty(Wrong::Nothing);
            lines.retain(|line| desk.answer(Some(line)).is_ok());
        }
        let piece = r.pick(&[1, 64, 1000, 100_000]);
        let bad = |lines: &[Vec<u8>]| {
            let expected = desk(&ended(lines), Wrong::Nothing);
            let run = other.run(&ended(lines), piece);
            (run.against(&expected), expected, run)
        };
        let (verdict, expected, run) = bad(&lines);
        if verdict != Verdict::Same {
            println!("desk {verdict}: the lines of seed {k}, {}; the fewest:", run.end);
            let short = match run.hangs() {
                true => lines,
                false => fewest(&lines, |some| bad(some).0 != Verdict::Same),
            };
            let again = bad(&short);
            for line in trace::lines_of(&ended(&short)) {
                print!("    {}", String::from_utf8_lossy(&line));
            }
            println!("  expected: {}", String::from_utf8_lossy(&again.1.text));
            println!("  got:      {}", String::from_utf8_lossy(&again.2.text));
            return false;
        }
        *all.entry(format!("status {}", expected.status())).or_default() += 1;
        met(&lines, &mut all);
        tried += lines.len();
    }
    let counts: Vec<_> = all.iter().map(|(word, n)| format!("{word} {n}")).collect();
    println!("  {}", counts.join(", "));
    let wanted: BTreeSet<_> = WANTED.iter().map(|word| word.to_string()).collect();
    let missed: Vec<_> = wanted.iter().filter(|word| !all.contains_key(*word)).collect();
    missed.iter().for_each(|word| println!("  never met: {word}"));
    println!("{tried} lines of {count} mornings at the desk agree");
    missed.is_empty()
}
