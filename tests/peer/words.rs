//! A site in lent words, by include/journal.h and docs/ARCHITECTURE.md, and the entries on it.
//!
//! `site`: n, J, L, epoch, present set, and a row for each box, its fields in the image's order, with
//! five peers and room for J records, then the index of the agreed ones: by the remainder of the left
//! frame by 64 the smallest number and the largest, and beside each record the next number that has
//! its remainder, 0 for none. `links`: for each pair of different boxes, by sender and then
//! receiver, the place of its head, how many mails it holds, and L places round a ring, each a mail's
//! fields in the image's order with room for J records, and a first of 0 in the kinds that carry
//! none. Other words are neither read nor written.

use crate::faults::Fault;
use crate::rules::*;
use crate::site::*;
use crate::turn::Around;
use std::collections::VecDeque;

const GENERAL: usize = 5;
pub const LAST: usize = 4;
const FIRST: usize = 5;
const PEERS: std::ops::Range<usize> = 16..21;
pub const COUNT: usize = 21;
pub const RECORDS: usize = 22;
const SLOTS: usize = 64;
const NEXTS: usize = 2 * SLOTS;
pub const ENCLOSED: usize = 6;

impl Sizes {
    pub fn row_words(self) -> usize {
        self.index_at() + NEXTS + self.j as usize
    }

    /// Where in a row the index begins.
    pub fn index_at(self) -> usize {
        RECORDS + self.j as usize
    }

    pub fn place_words(self) -> usize {
        ENCLOSED + self.j as usize
    }

    fn link_words(self) -> usize {
        2 + self.l as usize * self.place_words()
    }

    pub fn site_words(self) -> usize {
        GENERAL + self.n as usize * self.row_words()
    }

    pub fn links_words(self) -> usize {
        (self.n * (self.n - 1)) as usize * self.link_words()
    }

    /// Where the row of a box begins.
    pub fn row_at(self, c: u32) -> usize {
        GENERAL + (c as usize - 1) * self.row_words()
    }

    /// Where the link from a to b begins.
    pub fn link_at(self, a: u32, b: u32) -> usize {
        let receiver = if b < a { b - 1 } else { b - 2 };
        ((a - 1) * (self.n - 1) + receiver) as usize * self.link_words()
    }

    /// Where in a link the place begins that is i places on from the first, round the ring.
    pub fn place_at(self, first: u64, i: u64) -> usize {
        2 + ((first + i) % self.l as u64) as usize * self.place_words()
    }
}

fn number(word: u64) -> Option<u32> {
    u32::try_from(word).ok()
}

/// The index of these records, the first of which has this number, from the last to the first.
fn index_of(first: u64, records: &[Record]) -> Vec<u64> {
    let mut index = vec![0; NEXTS + records.len()];
    for (i, record) in records.iter().enumerate().rev() {
        let (slot, number) = ((*record >> 32) as usize % SLOTS, first + i as u64);
        index[NEXTS + i] = index[slot];
        index[slot] = number;
        if index[SLOTS + slot] == 0 {
            index[SLOTS + slot] = number;
        }
    }
    index
}

/// The row gets the index of the records that its words call agreed, if they are a book's.
pub fn reindex(row: &mut [u64], sizes: Sizes) {
    let (first, last, count) = (row[FIRST], row[LAST], row[COUNT]);
    let agreed = last.wrapping_add(1).wrapping_sub(first);
    if first >= 1 && agreed <= count && count <= sizes.j as u64 {
        let index = index_of(first, &row[RECORDS..][..agreed as usize]);
        row[sizes.index_at()..][..index.len()].copy_from_slice(&index);
    }
}

/// The box that a row holds; None where the words are too few or too large for it, or have another
/// index than that of its agreed records.
fn read_row(words: &[u64], sizes: Sizes) -> Option<Camera> {
    let words = words.get(..sizes.row_words())?;
    let count = number(words[COUNT]).filter(|count| *count <= sizes.j)?;
    let peers = &words[PEERS][..sizes.n as usize];
    let read = Camera {
        leads: number(words[0]).filter(|flag| *flag <= 1)? == 1,
        state: *STATES.get(number(words[1])? as usize)?,
        phase: *PHASES.get(number(words[2])? as usize)?,
        pn: number(words[3])?,
        last: number(words[LAST])?,
        first: number(words[5])?,
        stored_pn: number(words[6])?,
        stored_number: number(words[7])?,
        best: Best { pn: number(words[8])?, number: number(words[9])?, record: words[13] },
        answered: number(words[10])?,
        accepts: number(words[11])?,
        heard: number(words[12])?,
        waiting: words[14],
        agreeing: words[15],
        peers: peers.iter().map(|last| number(*last)).collect::<Option<_>>()?,
        records: words[RECORDS..][..count as usize].to_vec(),
    };
    let agreed = read.records.get(..read.kept())?;
    words[sizes.index_at()..].starts_with(&index_of(read.first as u64, agreed)).then_some(read)
}

fn put_row(words: &mut [u64], b: &Camera, sizes: Sizes) {
    let Best { pn, number, record } = b.best;
    let numbers = [b.leads as u32, b.state as u32, b.phase as u32, b.pn, b.last, b.first]
        .into_iter()
        .chain([b.stored_pn, b.stored_number, pn, number, b.answered, b.accepts, b.heard]);
    let values = [record, b.waiting, b.agreeing];
    let head = numbers.map(u64::from).chain(values).chain(b.peers.iter().map(|k| *k as u64));
    words.iter_mut().zip(head).for_each(|(word, value)| *word = value);
    words[COUNT] = b.records.len() as u64;
    words[RECORDS..][..b.records.len()].copy_from_slice(&b.records);
    let index = index_of(b.first as u64, &b.records[..b.kept()]);
    words[sizes.index_at()..][..index.len()].copy_from_slice(&index);
}

/// The mail that a place holds; None where the words are too few or too large for it.
fn read_mail(words: &[u64], sizes: Sizes) -> Option<Mail> {
    let words = words.get(..sizes.place_words())?;
    let count = number(words[5]).filter(|count| *count <= sizes.j)?;
    Some(Mail {
        kind: *KINDS.get(number(words[0])?.checked_sub(1)? as usize)?,
        pn: number(words[1])?,
        last: number(words[2])?,
        first: number(words[3])?,
        unagreed_pn: number(words[4])?,
        records: words[ENCLOSED..][..count as usize].to_vec(),
    })
}

fn put_mail(words: &mut [u64], m: &Mail) {
    let count = m.records.len() as u32;
    let head = [m.kind as u32, m.pn, m.last, m.first, m.unagreed_pn, count];
    let all = head.map(u64::from).into_iter().chain(m.records.iter().copied());
    words.iter_mut().zip(all).for_each(|(word, value)| *word = value);
}

fn read_link(words: &[u64], sizes: Sizes) -> Option<VecDeque<Mail>> {
    let (first, count) = (words[0], words[1]);
    if first >= sizes.l as u64 || count > sizes.l as u64 {
        return None;
    }
    (0..count).map(|i| read_mail(&words[sizes.place_at(first, i)..], sizes)).collect()
}

/// The mail goes into the place that is i places on from the first; there is one more.
fn enclose(link: &mut [u64], sizes: Sizes, i: u64, m: &Mail) {
    let at = sizes.place_at(link[0], i);
    put_mail(&mut link[at..], m);
    link[1] += 1;
}

/// The head leaves the link.
fn hand_over(link: &mut [u64], sizes: Sizes) {
    link[0] = (link[0] + 1) % sizes.l as u64;
    link[1] -= 1;
}

/// The copy goes into the place before the head's.
fn double(link: &mut [u64], sizes: Sizes, head: &Mail) {
    link[0] = (link[0] + sizes.l as u64 - 1) % sizes.l as u64;
    enclose(link, sizes, 0, head);
}

/// The site by form that the words hold.
fn read(site: &[u64], links: &[u64]) -> Option<Site> {
    let general = |at: usize| number(*site.get(at)?);
    let sizes = Sizes { n: general(0)?, j: general(1)?, l: general(2)? };
    if !sizes.in_range() || !enough(site, links, sizes) {
        return None;
    }
    let mut held = Site::fresh(sizes);
    held.epoch = general(3)?;
    held.present = general(4)?;
    for c in held.numbers() {
        *held.at_mut(c) = read_row(&site[sizes.row_at(c)..], sizes)?;
    }
    for (a, b) in held.pairs() {
        *held.link_mut(a, b) = read_link(&links[sizes.link_at(a, b)..], sizes)?;
    }
    held.by_form().then_some(held)
}

fn enough(site: &[u64], links: &[u64], sizes: Sizes) -> bool {
    site.len() >= sizes.site_words() && links.len() >= sizes.links_words()
}

fn put_site(words: &mut [u64], site: &Site) {
    let Sizes { n, j, l } = site.sizes;
    let general = [n, j, l, site.epoch, site.present].map(u64::from);
    words[..GENERAL].copy_from_slice(&general);
    let row_at = |c: u32| site.sizes.row_at(c);
    site.numbers().for_each(|c| put_row(&mut words[row_at(c)..], site.at(c), site.sizes));
}

/// A fresh site, whatever the words held.
pub fn fresh(site: &mut [u64], links: &mut [u64], sizes: Sizes) -> Result<Answer, Refusal> {
    if !sizes.in_range() {
        return Err(13);
    }
    if !enough(site, links, sizes) {
        return Err(12);
    }
    let new = Site::fresh(sizes);
    for c in new.numbers() {
        site[sizes.row_at(c)..][PEERS].fill(UNKNOWN as u64);
    }
    put_site(site, &new);
    for (a, b) in new.pairs() {
        links[sizes.link_at(a, b)..][..2].fill(0);
    }
    Ok(Answer::Done)
}

pub fn step(
    site: &mut [u64],
    links: &mut [u64],
    call: Call,
    fault: Fault,
) -> Result<Answer, Refusal> {
    let mut held = read(site, links).ok_or(1u32)?;
    let answer = step_with(&mut held, call, fault)?;
    put_site(site, &held);
    for (a, b) in held.pairs() {
        let (link, mails) = (&mut links[held.sizes.link_at(a, b)..], held.link(a, b));
        match call {
            Call::Elect(_) => link[..2].fill(0),
            Call::Lose(..) | Call::Deliver(..) if call.along() == Some((a, b)) => {
                hand_over(link, held.sizes)
            }
            Call::Repeat(..) if call.along() == Some((a, b)) => double(link, held.sizes, &mails[0]),
            _ => {}
        }
        mails.iter().skip(link[1] as usize).for_each(|m| enclose(link, held.sizes, link[1], m));
    }
    Ok(answer)
}

pub fn asked(
    site: &[u64],
    links: &[u64],
    (c, k, left, right): (u32, u32, u32, u32),
) -> Result<Answer, Refusal> {
    holds(&read(site, links).ok_or(1u32)?, c, k, left, right)
}

/// What a box by itself is told of its site, and its own number.
#[derive(Clone, Copy)]
pub struct Told {
    pub sizes: Sizes,
    pub epoch: u32,
    pub present: u32,
    pub me: u32,
}

impl Told {
    /// The box that the row holds: 13, 1 for what concerns it alone.
    fn own(self, row: &[u64]) -> Result<Camera, Refusal> {
        let Told { sizes, epoch, present, me } = self;
        if !sizes.in_range() {
            return Err(13);
        }
        let by_form = (1..=LAST_EPOCH).contains(&epoch) && present <= everyone(sizes.n);
        read_row(row, sizes).filter(|b| by_form && b.by_form(sizes, me)).ok_or(1)
    }
}

/// A row becomes a fresh box, whatever its words were.
pub fn started(row: &mut [u64], sizes: Sizes) -> Result<Answer, Refusal> {
    if !sizes.in_range() {
        return Err(13);
    }
    if row.len() < sizes.row_words() {
        return Err(12);
    }
    row[PEERS].fill(UNKNOWN as u64);
    put_row(row, &Camera::fresh(sizes.n), sizes);
    Ok(Answer::Done)
}

/// A box by itself is told that c is elected; the epoch is the one after it.
pub fn elected(row: &mut [u64], told: Told, c: u32) -> Result<Answer, Refusal> {
    let mut own = told.own(row)?;
    let is_box = |c: u32| (1..=told.sizes.n).contains(&c);
    if !is_box(told.me) || !is_box(c) {
        return Err(2);
    }
    if told.epoch % 2 == 1 || !member(told.present, c) {
        return Err(3);
    }
    if told.present.count_ones() < majority(told.sizes.n) {
        return Err(4);
    }
    be_elected(&mut own, told.me == c, told.present);
    put_row(row, &own, told.sizes);
    Ok(Answer::Done)
}

/// A box by itself is asked whether load k is agreed with these frames.
pub fn asked_alone(
    row: &[u64],
    told: Told,
    (k, left, right): (u32, u32, u32),
) -> Result<Answer, Refusal> {
    let own = told.own(row)?;
    if !(1..=told.sizes.n).contains(&told.me) {
        return Err(2);
    }
    held(&own, k, left, right)
}

/// A call of the box's own, or the words of a letter and their sender.
pub enum Event<'a> {
    Act(Call),
    Mail(u32, &'a [u64]),
}

/// A box by itself: 13, 1 for what concerns it alone, 2, the rules' own, 12. The answer, and the set
/// of boxes that the letter in `out` is for.
pub fn alone(
    row: &mut [u64],
    out: &mut [u64],
    told: Told,
    event: Event,
    fault: Fault,
) -> Result<(Answer, u32), Refusal> {
    let Told { sizes, epoch, present, me } = told;
    let own = told.own(row)?;
    let around = Around { n: sizes.n, j: sizes.j, epoch, present, fault };
    let is_box = |c: u32| (1..=sizes.n).contains(&c);
    let turn = match event {
        Event::Act(_) if !is_box(me) => return Err(2),
        Event::Act(call) => own.act(me, around, call)?,
        Event::Mail(from, words) => {
            let mail = read_mail(words, sizes).filter(|m| m.by_form(sizes.j)).ok_or(1u32)?;
            if !is_box(me) || !is_box(from) || from == me {
                return Err(2);
            }
            own.receive(me, around, from, &mail)?
        }
    };
    if matches!(turn.answer, Answer::Discarded(_)) {
        return Ok((turn.answer, 0));
    }
    if out.len() < sizes.place_words() {
        return Err(12);
    }
    put_row(row, &turn.next, sizes);
    // a turn's mails are all alike
    if let Some((_, mail)) = turn.out.first() {
        put_mail(out, mail);
    }
    Ok((turn.answer, turn.out.iter().fold(0, |set, (k, _)| set | only(*k))))
}
