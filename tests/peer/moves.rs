//! a site at rest, the step that puts one at rest, and the moves between the old image and the
//! new one. The old paper's image has no first, no set of those that heard, and a count of replies.

use crate::image::{self, put, with_contents, Rest};
use crate::rules::Refusal;
use crate::site::*;
use crate::trace::{answered, decimal, hex, unhex, Said};

/// Every field as in a fresh site, but for what outlives a stop.
fn rested(b: &Camera) -> Camera {
    Camera {
        pn: b.pn,
        last: b.last,
        first: b.first,
        stored_pn: b.stored_pn,
        stored_number: b.stored_number,
        records: b.records.clone(),
        ..Camera::fresh(b.peers.len() as u32)
    }
}

pub fn at_rest(site: &Site) -> bool {
    site.epoch % 2 == 1
        && site.pairs().iter().all(|(a, b)| site.link(*a, *b).is_empty())
        && site.numbers().all(|c| *site.at(c) == rested(site.at(c)))
}

pub fn rest(site: &mut Site) -> Result<(), Refusal> {
    if site.epoch % 2 == 0 {
        return Err(3);
    }
    site.clear_links();
    for c in site.numbers() {
        *site.at_mut(c) = rested(site.at(c));
    }
    Ok(())
}

/// A box by the old paper: its eleven numbers, three records, peers, and the records held.
struct OldBox {
    numbers: [u32; 11],
    three: [Record; 3],
    peers: Vec<u32>,
    held: Vec<Record>,
}

struct OldMail {
    kind: u32,
    pn: u32,
    last: u32,
    unagreed_pn: u32,
    records: Vec<Record>,
}

struct Old {
    sizes: Sizes,
    epoch: u32,
    present: u32,
    boxes: Vec<OldBox>,
    links: Vec<Vec<OldMail>>,
}

fn record_by_form(r: Record) -> bool {
    r == 0 || proper(r)
}

impl OldBox {
    fn by_form(&self, sizes: Sizes, c: u32) -> bool {
        let Sizes { n, j, .. } = sizes;
        let [flag, state, phase, pn, last, stored_pn, stored, best_pn, best, replies, accepts] =
            self.numbers;
        let held = self.held.len() as u32;
        flag <= 1
            && state <= 4
            && phase <= 5
            && [pn, stored_pn, best_pn].iter().all(|pn| *pn <= HIGHEST_PN)
            && [last, stored, best].iter().all(|number| *number <= j)
            && replies <= n
            && accepts <= everyone(n)
            && self.three.iter().all(|r| record_by_form(*r))
            && (1..=n).zip(&self.peers).all(|(k, l)| *l == UNKNOWN || (k != c && *l <= j))
            && (held == last || held == last + 1)
            && held <= j
            && self.held.iter().all(|r| proper(*r))
    }

    /// What is not kept at rest is as in a fresh site.
    fn at_rest(&self) -> bool {
        let [flag, state, phase, _, _, _, _, best_pn, best, replies, accepts] = self.numbers;
        [flag, state, phase, best_pn, best, replies, accepts].iter().all(|w| *w == 0)
            && self.three == [0; 3]
            && self.peers.iter().all(|last| *last == UNKNOWN)
    }
}

impl OldMail {
    fn by_form(&self, j: u32) -> bool {
        let count = self.records.len() as u32;
        let told = self.kind == 2 && count == self.last + 1;
        self.pn <= HIGHEST_PN
            && self.last <= j
            && self.unagreed_pn <= HIGHEST_PN
            && (self.unagreed_pn == 0 || told)
            && count <= j
            && self.records.iter().all(|r| proper(*r))
            && match self.kind {
                1 | 4 => count == 0,
                2 => count == self.last || told,
                3 => count == 1 && self.last < j,
                5 => count == self.last,
                6 => count == 0 && self.pn == 0,
                _ => false,
            }
    }
}

impl Old {
    fn by_form(&self) -> bool {
        self.sizes.in_range()
            && (1..=LAST_EPOCH).contains(&self.epoch)
            && self.present <= everyone(self.sizes.n)
            && self.boxes.iter().filter(|b| b.numbers[0] == 1).count() <= 1
            && (1..).zip(&self.boxes).all(|(c, b)| b.by_form(self.sizes, c))
            && self.links.iter().all(|link| {
                link.len() <= self.sizes.l as usize && link.iter().all(|m| m.by_form(self.sizes.j))
            })
    }

    fn at_rest(&self) -> bool {
        self.epoch % 2 == 1
            && self.links.iter().all(Vec::is_empty)
            && self.boxes.iter().all(OldBox::at_rest)
    }
}

// ---- the old image

fn put_counted(bytes: &mut Vec<u8>, records: &[Record]) {
    put(bytes, &[records.len() as u32]);
    image::put_records(bytes, records);
}

fn write(old: &Old) -> Vec<u8> {
    let Sizes { n, j, l } = old.sizes;
    let mut general = vec![];
    put(&mut general, &[n, j, l, old.epoch, old.present]);
    let mut bodies = vec![general];
    for b in &old.boxes {
        let mut body = vec![];
        put(&mut body, &b.numbers);
        image::put_records(&mut body, &b.three);
        put(&mut body, &b.peers);
        put_counted(&mut body, &b.held);
        bodies.push(body);
    }
    let mut mail = vec![];
    for link in &old.links {
        put(&mut mail, &[link.len() as u32]);
        for m in link {
            put(&mut mail, &[m.kind, m.pn, m.last, m.unagreed_pn]);
            put_counted(&mut mail, &m.records);
        }
    }
    bodies.push(mail);
    with_contents(&bodies)
}

impl Rest<'_> {
    fn old_box(&mut self, n: u32) -> Option<OldBox> {
        let mut numbers = [0; 11];
        for w in &mut numbers {
            *w = self.word()?;
        }
        Some(OldBox {
            numbers,
            three: [self.record()?, self.record()?, self.record()?],
            peers: (0..n).map(|_| self.word()).collect::<Option<_>>()?,
            held: self.records(4096)?,
        })
    }

    fn old_mail(&mut self) -> Option<OldMail> {
        Some(OldMail {
            kind: self.word()?,
            pn: self.word()?,
            last: self.word()?,
            unagreed_pn: self.word()?,
            records: self.records(4096)?,
        })
    }

    fn old(&mut self) -> Option<Old> {
        let sizes = self.sizes()?;
        let (epoch, present) = (self.word()?, self.word()?);
        let boxes = (0..sizes.n).map(|_| self.old_box(sizes.n)).collect::<Option<_>>()?;
        let mut links = vec![];
        for _ in 0..sizes.n * (sizes.n - 1) {
            let count = self.word().filter(|count| *count <= sizes.l)?;
            links.push((0..count).map(|_| self.old_mail()).collect::<Option<_>>()?);
        }
        Some(Old { sizes, epoch, present, boxes, links })
    }
}

/// The old site by form whose image this is; one site has one image.
fn read(image: &[u8]) -> Option<Old> {
    let old = Rest(image).old()?;
    (old.by_form() && write(&old) == image).then_some(old)
}

// ---- the moves

fn renewed(old: &Old) -> Site {
    let mut site = Site::fresh(old.sizes);
    site.epoch = old.epoch;
    site.present = old.present;
    for (c, b) in (1..).zip(&old.boxes) {
        let [_, _, _, pn, last, stored_pn, stored_number, ..] = b.numbers;
        let fresh = Camera::fresh(old.sizes.n);
        let records = b.held.clone();
        *site.at_mut(c) = Camera { pn, last, stored_pn, stored_number, records, ..fresh };
    }
    site
}

fn aged(site: &Site) -> Option<Old> {
    let Sizes { n, j, .. } = site.sizes;
    let mut boxes = vec![];
    for b in site.numbers().map(|c| site.at(c)) {
        if b.first != 1 || b.last > j || b.stored_number > j {
            return None;
        }
        boxes.push(OldBox {
            numbers: [0, 0, 0, b.pn, b.last, b.stored_pn, b.stored_number, 0, 0, 0, 0],
            three: [0; 3],
            peers: b.peers.clone(),
            held: b.records.clone(),
        });
    }
    let links = (0..n * (n - 1)).map(|_| vec![]).collect();
    Some(Old { sizes: site.sizes, epoch: site.epoch, present: site.present, boxes, links })
}

/// Refusals 1, 15, 16, in this order; 12 is the buffer's.
pub fn to_new(image: &[u8]) -> Result<Vec<u8>, Refusal> {
    let old = read(image).ok_or(1u32)?;
    if !old.at_rest() {
        return Err(15);
    }
    Ok(image::write(&renewed(&old)))
}

pub fn to_old(image: &[u8]) -> Result<Vec<u8>, Refusal> {
    let site = image::read(image).ok_or(1u32)?;
    if !at_rest(&site) {
        return Err(15);
    }
    aged(&site).as_ref().map(write).ok_or(16)
}

fn move_line(line: Option<&[u8]>, new: bool) -> Result<String, Refusal> {
    let line = line.ok_or(11u32)?;
    let mut words = line.split(|byte| *byte == b' ');
    let text = words.next().filter(|text| !text.is_empty()).ok_or(11u32)?;
    let room = match words.next() {
        Some(room) => Some(decimal(room).ok_or(11u32)? as usize),
        None => None,
    };
    if words.next().is_some() {
        return Err(11);
    }
    let image = unhex(text).ok_or(1u32)?;
    let moved = if new { to_new(&image)? } else { to_old(&image)? };
    if room.is_some_and(|room| room < moved.len()) {
        return Err(12);
    }
    Ok(format!("done {}", hex(&moved)))
}

/// What `move` prints for this input: one line for each line.
pub fn moves(input: &[u8], new: bool) -> Said {
    answered(input, |line| move_line(line, new))
}
