//! The script of the program `try_walk` of crates/, played on words of this program's own: what it has
//! to print, for the program to be held to.
//!
//! A line is written as it stands, with what came of it. Beside the lines of a trace there are:
//!
//!     lend S K         so many words are lent of the site and of the links
//!     trays I O        .. and of the places for a letter in and a letter out
//!     word K V, row C K V, link A B K V, letter K V
//!                      word K is V: of the site, of a box's row, of a link, of the letter in
//!                      (a box's index follows its other words, and not the other way round)
//!     book C K         box C has agreed K loads, number i with the frames i and i
//!     box C, mails A B the words of a box, the mails of a link
//!     own CALL         the call at its box by itself; its letter is the next that is handed over
//!     start C N J L, tell C D, ask C K LEFT RIGHT
//!                      box C by itself is made fresh for a site of these sizes, is told that D is
//!                      elected, is asked whether it holds load K with these frames

use crate::faults::Fault;
use crate::rules::*;
use crate::site::*;
use crate::trace::{read_line, Line};
use crate::words::{self, Event, Told, COUNT, ENCLOSED, LAST, RECORDS};

/// The largest site of the script: its words are there from the beginning.
const LARGEST: Sizes = Sizes { n: 5, j: 4096, l: 4 };

/// How many words are lent.
#[derive(Default)]
struct Lent {
    site: usize,
    links: usize,
    letter: usize,
    out: usize,
}

struct Stage {
    sizes: Sizes,
    lent: Lent,
    site: Vec<u64>,
    links: Vec<u64>,
    letter: Vec<u64>,
    out: Vec<u64>,
    fault: Fault,
}

fn number(answer: Result<Answer, Refusal>) -> u32 {
    match answer {
        Ok(Answer::Done) => 0,
        Ok(Answer::Taken) => 100,
        Ok(Answer::Discarded(cause)) => 101 + cause as u32,
        Err(refusal) => refusal,
    }
}

/// A refused call leaves every word, a discarded mail all but its link's head and count.
fn told(answer: Result<Answer, Refusal>) -> String {
    let kept = if matches!(answer, Ok(Answer::Done | Answer::Taken)) { "" } else { " kept" };
    format!(" | {}{kept}", number(answer))
}

fn shown(words: &[u64]) -> String {
    words.iter().map(|word| format!(" {word}")).collect()
}

/// A place and the records that it holds.
fn shown_letter(words: &[u64]) -> String {
    format!(" |{}", shown(&words[..ENCLOSED + words[ENCLOSED - 1] as usize]))
}

fn put(words: &mut [u64], at: usize, value: u64) {
    if let Some(word) = words.get_mut(at) {
        *word = value;
    }
}

/// As many of the words as are lent.
fn part(words: &mut [u64], lent: usize) -> &mut [u64] {
    let most = words.len();
    &mut words[..lent.min(most)]
}

fn short(value: u64) -> u32 {
    u32::try_from(value).unwrap_or(u32::MAX)
}

/// The row of box `me`, which stands where the site that was made last has it, and what it is told.
fn row_of<'a>(site: &'a mut [u64], lent: &Lent, made: Sizes, me: u32) -> (&'a mut [u64], Told) {
    let site = part(site, lent.site);
    let word = |at: usize| short(site.get(at).copied().unwrap_or_default());
    let sizes = Sizes { n: word(0), j: word(1), l: word(2) };
    let around = Told { sizes, epoch: word(3), present: word(4), me };
    let from = made.row_at(me.max(1)).min(site.len());
    (part(&mut site[from..], made.row_words()), around)
}

impl Stage {
    fn new(fault: Fault) -> Stage {
        Stage {
            sizes: Sizes { n: 0, j: 0, l: 0 },
            lent: Lent::default(),
            site: vec![0; LARGEST.site_words()],
            links: vec![0; LARGEST.links_words()],
            letter: vec![0; LARGEST.place_words()],
            out: vec![0; LARGEST.place_words()],
            fault,
        }
    }

    fn row(&mut self, me: u64) -> (&mut [u64], Told) {
        row_of(&mut self.site, &self.lent, self.sizes, short(me))
    }

    /// Box c has the index of its agreed records.
    fn reindex(&mut self, c: u64) {
        let from = self.sizes.row_at(c as u32).min(self.site.len());
        words::reindex(part(&mut self.site[from..], self.sizes.row_words()), self.sizes);
    }

    /// What came of a line.
    fn line(&mut self, line: &str) -> String {
        let (word, rest) = line.split_once(' ').unwrap_or((line, ""));
        let numbers: Vec<u64> = rest.split(' ').map_while(|word| word.parse().ok()).collect();
        let row_at = |c: u64| self.sizes.row_at(c as u32);
        match (word, &numbers[..]) {
            _ if line.starts_with('#') => {}
            ("lend", &[site, links]) => {
                (self.lent.site, self.lent.links) = (site as usize, links as usize)
            }
            ("trays", &[letter, out]) => {
                (self.lent.letter, self.lent.out) = (letter as usize, out as usize)
            }
            ("word", &[k, v]) => put(&mut self.site, k as usize, v),
            ("row", &[c, k, v]) => {
                put(&mut self.site, row_at(c) + k as usize, v);
                if (k as usize) < self.sizes.index_at() {
                    self.reindex(c);
                }
            }
            ("link", &[a, b, k, v]) => {
                let at = self.sizes.link_at(a as u32, b as u32);
                put(&mut self.links, at + k as usize, v)
            }
            ("letter", &[k, v]) => put(&mut self.letter, k as usize, v),
            ("book", &[c, k]) => {
                let row = &mut self.site[row_at(c)..];
                (row[LAST], row[COUNT]) = (k, k);
                (1..=k).for_each(|i| row[COUNT + i as usize] = i << 32 | i);
                self.reindex(c);
            }
            ("box", &[c]) => {
                let row = &self.site[row_at(c)..];
                return format!(" |{}", shown(&row[..RECORDS + row[COUNT] as usize]));
            }
            ("mails", &[a, b]) => {
                let link = &self.links[self.sizes.link_at(a as u32, b as u32)..];
                let mails = (0..link[1]).map(|i| &link[self.sizes.place_at(link[0], i)..]);
                return format!(" | {}{}", link[1], mails.map(shown_letter).collect::<String>());
            }
            ("start", &[c, n, j, l]) => {
                let sizes = Sizes { n: short(n), j: short(j), l: short(l) };
                return told(words::started(self.row(c).0, sizes));
            }
            ("tell", &[c, leader]) => {
                let (row, around) = self.row(c);
                return told(words::elected(row, around, short(leader)));
            }
            ("ask", &[c, k, left, right]) => {
                let (row, around) = self.row(c);
                let line = (short(k), short(left), short(right));
                return told(words::asked_alone(row, around, line));
            }
            ("own", _) => return self.own(rest),
            _ => return self.trace(line),
        }
        String::new()
    }

    /// A line of a trace: the answer, the epoch, the last agreed number of each box.
    fn trace(&mut self, line: &str) -> String {
        let site = part(&mut self.site, self.lent.site);
        let links = part(&mut self.links, self.lent.links);
        let came = match read_line(line.as_bytes()) {
            None => return " | unreadable".into(),
            Some(Line::Site(sizes)) => {
                self.sizes = sizes;
                told(words::fresh(site, links, sizes))
            }
            Some(Line::Call(call)) => told(words::step(site, links, call, self.fault)),
            Some(Line::Holds(c, k, left, right)) => {
                format!(" | {}", number(words::asked(site, links, (c, k, left, right))))
            }
        };
        let word = |at: usize| site.get(at).copied().unwrap_or_default();
        let boxes = if self.sizes.n <= 5 { self.sizes.n } else { 0 };
        let lasts: Vec<u64> = (1..=boxes).map(|c| word(self.sizes.row_at(c) + LAST)).collect();
        format!("{came} | {} |{}", word(3), shown(&lasts))
    }

    /// An event of a box by itself: the answer, the set that its letter goes to, the letter.
    fn own(&mut self, line: &str) -> String {
        let Some(Line::Call(call)) = read_line(line.as_bytes()) else {
            return " | unreadable".into();
        };
        let letter = part(&mut self.letter, self.lent.letter);
        let (me, event) = match call {
            Call::Elect(_) | Call::Stop(_) | Call::Return(_) | Call::Timeout(_) => {
                return " | no event of a box".into()
            }
            Call::Lose(..) | Call::Repeat(..) => return " | no event of a box".into(),
            Call::Deliver(a, b) => (b, Event::Mail(a, letter)),
            _ => (call.at(), Event::Act(call)),
        };
        let (row, around) = row_of(&mut self.site, &self.lent, self.sizes, me);
        let out = part(&mut self.out, self.lent.out);
        let came = words::alone(row, out, around, event, self.fault);
        let answer = told(came.map(|(answer, _)| answer));
        match came {
            Ok((_, to)) if to != 0 => {
                let most = letter.len().min(out.len());
                letter[..most].copy_from_slice(&out[..most]);
                format!("{answer} to {to}{}", shown_letter(out))
            }
            _ => answer,
        }
    }
}

/// What the program prints for this script.
pub fn script(input: &[u8], fault: Fault) -> Vec<u8> {
    let mut stage = Stage::new(fault);
    let text = std::str::from_utf8(input).expect("text");
    let lines = text.lines().map(|line| format!("{line}{}\n", stage.line(line)));
    lines.collect::<String>().into_bytes()
}
