//! What can be read from a damaged image, from the request's words: each body is read field
//! by field, and the first that does not fit or is not by form sets it aside.

use crate::random::Random;
use crate::trace::{hex, unhex, Said};
use std::collections::BTreeMap;
use std::fmt::Write;

const MOST: usize = 65_536;
const NUMBER: u64 = 1_000_000_000;
const PN: u64 = 999_999_999;
const UNKNOWN: u64 = 4_294_967_295;

/// The field that set a body aside.
type Aside = String;

struct Body<'a> {
    bytes: &'a [u8],
    at: usize,
}

impl Body<'_> {
    fn take(&mut self, width: usize, name: &str) -> Result<u64, Aside> {
        let part = self.bytes.get(self.at..self.at + width).ok_or_else(|| name.to_string())?;
        self.at += width;
        Ok(part.iter().rev().fold(0, |x, b| x << 8 | u64::from(*b)))
    }

    /// A number that passes the test.
    fn number(&mut self, name: &str, test: impl Fn(u64) -> bool) -> Result<u64, Aside> {
        let x = self.take(4, name)?;
        if test(x) {
            Ok(x)
        } else {
            Err(name.to_string())
        }
    }

    /// A record; 0 is none, where that may be.
    fn record(&mut self, name: &str, none: bool) -> Result<u64, Aside> {
        let x = self.take(8, name)?;
        if x >> 32 != 0 && x & UNKNOWN != 0 || none && x == 0 {
            Ok(x)
        } else {
            Err(name.to_string())
        }
    }

    fn end(&self) -> Result<(), Aside> {
        if self.at == self.bytes.len() {
            Ok(())
        } else {
            Err("rest".into())
        }
    }
}

fn general(bytes: &[u8], n: u64) -> Result<(u64, u64), Aside> {
    let mut body = Body { bytes, at: 0 };
    body.number("n", |x| x == n)?;
    let loads = body.number("J", |x| (1..=4096).contains(&x))?;
    let mails = body.number("L", |x| (1..=16).contains(&x))?;
    body.number("epoch", |x| (1..=1_000_000).contains(&x))?;
    body.number("present", |x| x < 1 << n)?;
    body.end()?;
    Ok((loads, mails))
}

fn first_form(first: u64, last: u64) -> bool {
    first == 1 || first >= 1 && first <= last
}

/// First to last; or also last+1, which is a load number too.
fn agreed_count(first: u64, last: u64) -> u64 {
    last + 1 - first
}

/// A box's first number, and its agreed records from that on.
fn one_box(bytes: &[u8], n: u64, own: u64, loads: u64) -> Result<(u64, Vec<u64>), Aside> {
    let mut body = Body { bytes, at: 0 };
    body.number("flag", |x| x <= 1)?;
    body.number("state", |x| x <= 4)?;
    body.number("phase", |x| x <= 6)?;
    body.number("pn", |x| x <= PN)?;
    let last = body.number("last", |x| x <= NUMBER)?;
    let first = body.number("first", |x| first_form(x, last))?;
    body.number("stored-pn", |x| x <= PN)?;
    body.number("stored-number", |x| x <= NUMBER)?;
    body.number("best-pn", |x| x <= PN)?;
    body.number("best-number", |x| x <= NUMBER)?;
    for name in ["answered", "accept-set", "heard-set"] {
        body.number(name, |x| x < 1 << n)?;
    }
    for name in ["best", "waiting", "being-agreed"] {
        body.record(name, true)?;
    }
    for k in 1..=n {
        body.number(&format!("peer{k}"), |x| x == UNKNOWN || k != own && x <= NUMBER)?;
    }
    let agreed = agreed_count(first, last);
    let count = body.number("count", |x| {
        x <= loads && (x == agreed || x == agreed + 1 && last < NUMBER)
    })?;
    let mut records = vec![];
    for i in 0..count {
        records.push(body.record(&format!("record{}", first + i), false)?);
    }
    body.end()?;
    records.truncate(agreed as usize);
    Ok((first, records))
}

fn mail(bytes: &[u8], n: u64, loads: u64, mails: u64) -> Result<(), Aside> {
    let mut body = Body { bytes, at: 0 };
    for a in 1..=n {
        for b in (1..=n).filter(|b| *b != a) {
            let count = body.number(&format!("{a}-{b}.count"), |x| x <= mails)?;
            for i in 1..=count {
                one_mail(&mut body, &format!("{a}-{b}.mail{i}"), loads)?;
            }
        }
    }
    body.end()
}

fn one_mail(body: &mut Body, name: &str, loads: u64) -> Result<(), Aside> {
    let named = |field: &str| format!("{name}.{field}");
    let kind = body.number(&named("kind"), |x| (1..=7).contains(&x))?;
    let leases = kind == 6 || kind == 7;
    body.number(&named("pn"), |x| if leases { x == 0 } else { x <= PN })?;
    let last =
        body.number(&named("last"), |x| if kind == 3 { x < NUMBER } else { x <= NUMBER })?;
    let first = match kind {
        2 | 3 | 5 => body.number(&named("first"), |x| first_form(x, last))?,
        _ => 1,
    };
    let unagreed =
        body.number(&named("unagreed-pn"), |x| if kind == 2 { x <= PN } else { x == 0 })?;
    let agreed = agreed_count(first, last);
    let count = body.number(&named("count"), |x| match kind {
        2 => {
            let more = x == agreed + 1 && last < NUMBER;
            x <= loads && (more || x == agreed && unagreed == 0)
        }
        3 => x == 1,
        5 => x <= loads && x == agreed,
        _ => x == 0,
    })?;
    let from = if kind == 3 { last + 1 } else { first };
    for i in 0..count {
        body.record(&named(&format!("record{}", from + i)), false)?;
    }
    Ok(())
}

/// The bodies that a sound table names.
fn bodies(image: &[u8]) -> Option<Vec<&[u8]>> {
    let word = |i: usize| {
        let part = image.get(4 * i..4 * i + 4)?;
        Some(u32::from_le_bytes(part.try_into().unwrap()) as usize)
    };
    let count = word(0)?;
    if image.len() > MOST || !(3..=7).contains(&count) {
        return None;
    }
    let (mut at, mut parts) = (4 + 8 * count, vec![]);
    for k in 0..count {
        let (begin, long) = (word(2 * k + 1)?, word(2 * k + 2)?);
        if begin != at {
            return None;
        }
        at += long;
        parts.push(image.get(begin..at)?);
    }
    (at == image.len()).then_some(parts)
}

/// The block of an image.
pub fn block(image: &[u8]) -> String {
    let Some(parts) = bodies(image) else {
        return "refused 17\n.\n".into();
    };
    let n = parts.len() as u64 - 2;
    let mut text = String::new();
    let mut line = |i: usize, what: &str, aside: Option<&Aside>| match aside {
        None => writeln!(text, "body {i} {what} kept").unwrap(),
        Some(field) => writeln!(text, "body {i} {what} set aside {field}").unwrap(),
    };
    let sizes = general(parts[0], n);
    line(1, "general", sizes.as_ref().err());
    let (loads, mails) = sizes.unwrap_or((4096, 16));
    let mut list: BTreeMap<u64, Vec<u64>> = BTreeMap::new();
    for b in 1..=n {
        let found = one_box(parts[b as usize], n, b, loads);
        line(b as usize + 1, &format!("box {b}"), found.as_ref().err());
        if let Ok((first, records)) = found {
            for (k, record) in (first..).zip(records) {
                list.entry(k).or_default().push(record);
            }
        }
    }
    let last = parts.len();
    line(last, "mail", mail(parts[last - 1], n, loads, mails).as_ref().err());
    for (k, kept) in list {
        if kept.iter().all(|r| *r == kept[0]) {
            let (left, right) = (kept[0] >> 32, kept[0] & UNKNOWN);
            writeln!(text, "load {k} {left} {right} {}", kept.len()).unwrap();
        } else {
            writeln!(text, "load {k} differs").unwrap();
        }
    }
    text + ".\n"
}

/// A block for each line, which is an image in hex; what is no hex has no sound table.
pub fn salvage(input: &[u8]) -> Said {
    let mut text = String::new();
    for line in input.split_inclusive(|byte| *byte == b'\n') {
        let image = line.strip_suffix(b"\n").and_then(unhex);
        text += &image.map_or("refused 17\n.\n".into(), |image| block(&image));
    }
    let refused = text.contains("refused");
    Said { text: text.into(), refused }
}

/// One byte of an image changed, to a value that fields come near to or to any.
fn struck(image: &[u8], at: usize, r: &mut Random) -> Vec<u8> {
    let (mut image, old) = (image.to_vec(), image[at]);
    let any = r.below(256) as u8;
    image[at] = r.pick(&[0, 1, 2, 255, old.wrapping_add(1), old.wrapping_sub(1), old ^ 128, any]);
    image
}

/// The images of the input's lines, damaged: each byte changed to several values, cut after every
/// byte, made longer; a body made longer or shorter, with a table that is sound again; and `count`
/// double damages of each.
pub fn strike(input: &[u8], seed: u64, count: u64) -> Vec<u8> {
    let mut r = Random::new(seed);
    let mut lines = String::new();
    let mut put = |image: &[u8]| {
        lines += &hex(image);
        lines += "\n";
    };
    for image in input.split(|byte| *byte == b'\n').filter_map(unhex) {
        if image.is_empty() {
            continue;
        }
        put(&image);
        for at in 0..image.len() {
            for value in [0, 1, 255, image[at] ^ 1, image[at] ^ 128, image[at].wrapping_add(1)] {
                let mut image = image.clone();
                image[at] = value;
                put(&image);
            }
            put(&image[..at]);
        }
        for byte in [0, 1, 255] {
            put(&[&image[..], &[byte]].concat());
        }
        for part in 0..bodies(&image).map_or(0, |parts| parts.len()) {
            for by in [-16, -9, -8, -7, -4, -1, 1, 4, 8, 12] {
                put(&resized(&image, part, by));
            }
        }
        for _ in 0..count {
            let once = struck(&image, r.below(image.len() as u32) as usize, &mut r);
            let twice = struck(&once, r.below(image.len() as u32) as usize, &mut r);
            let part = r.below(bodies(&image).map_or(1, |parts| parts.len()) as u32) as usize;
            put(&twice);
            put(&resized(&once, part, r.from(0, 24) as isize - 12));
        }
    }
    lines.into_bytes()
}

/// An image with one of its bodies so many bytes longer or shorter, its table as it should be.
fn resized(image: &[u8], which: usize, by: isize) -> Vec<u8> {
    let Some(parts) = bodies(image) else {
        return image.to_vec();
    };
    let mut parts: Vec<Vec<u8>> = parts.into_iter().map(<[u8]>::to_vec).collect();
    let long = (parts[which].len() as isize + by).max(0) as usize;
    parts[which].resize(long, 0);
    let (mut table, mut at) = (vec![parts.len() as u32], 4 + 8 * parts.len() as u32);
    for part in &parts {
        table.extend([at, part.len() as u32]);
        at += part.len() as u32;
    }
    let table = table.into_iter().flat_map(u32::to_le_bytes);
    table.chain(parts.into_iter().flatten()).collect()
}
