//! The site image: writer and reader.

use crate::site::*;

pub fn put(bytes: &mut Vec<u8>, words: &[u32]) {
    words.iter().for_each(|w| bytes.extend(w.to_le_bytes()));
}

pub fn put_records(bytes: &mut Vec<u8>, records: &[Record]) {
    records.iter().for_each(|r| bytes.extend(r.to_le_bytes()));
}

fn box_body(b: &Camera) -> Vec<u8> {
    let mut body = vec![];
    put(&mut body, &[b.leads as u32, b.state as u32, b.phase as u32, b.pn, b.last]);
    put(&mut body, &[b.first, b.stored_pn, b.stored_number, b.best.pn, b.best.number]);
    put(&mut body, &[b.answered, b.accepts, b.heard]);
    put_records(&mut body, &[b.best.record, b.waiting, b.agreeing]);
    put(&mut body, &b.peers);
    put(&mut body, &[b.records.len() as u32]);
    put_records(&mut body, &b.records);
    body
}

fn mail_body(site: &Site) -> Vec<u8> {
    let mut body = vec![];
    for (a, b) in site.pairs() {
        put(&mut body, &[site.link(a, b).len() as u32]);
        for m in site.link(a, b) {
            put(&mut body, &[m.kind as u32, m.pn, m.last]);
            if Mail::carries_first(m.kind) {
                put(&mut body, &[m.first]);
            }
            put(&mut body, &[m.unagreed_pn, m.records.len() as u32]);
            put_records(&mut body, &m.records);
        }
    }
    body
}

pub fn write(site: &Site) -> Vec<u8> {
    let Sizes { n, j, l } = site.sizes;
    let mut general = vec![];
    put(&mut general, &[n, j, l, site.epoch, site.present]);
    let mut bodies = vec![general];
    bodies.extend(site.numbers().map(|c| box_body(site.at(c))));
    bodies.push(mail_body(site));
    with_contents(&bodies)
}

/// The bodies behind their table of contents.
pub fn with_contents(bodies: &[Vec<u8>]) -> Vec<u8> {
    let mut image = vec![];
    put(&mut image, &[bodies.len() as u32]);
    let mut offset = 4 + 8 * bodies.len();
    for body in bodies {
        put(&mut image, &[offset as u32, body.len() as u32]);
        offset += body.len();
    }
    bodies.iter().for_each(|body| image.extend(body));
    image
}

/// What is left of an image; None once it is too short.
pub struct Rest<'a>(pub &'a [u8]);

impl Rest<'_> {
    pub fn word(&mut self) -> Option<u32> {
        let (word, rest) = self.0.split_first_chunk()?;
        self.0 = rest;
        Some(u32::from_le_bytes(*word))
    }

    pub fn record(&mut self) -> Option<Record> {
        let (record, rest) = self.0.split_first_chunk()?;
        self.0 = rest;
        Some(u64::from_le_bytes(*record))
    }

    pub fn records(&mut self, j: u32) -> Option<Vec<Record>> {
        let count = self.word().filter(|count| *count <= j)?;
        (0..count).map(|_| self.record()).collect()
    }

    fn camera(&mut self, sizes: Sizes) -> Option<Camera> {
        let mut b = Camera::fresh(sizes.n);
        b.leads = self.word().filter(|flag| *flag <= 1)? == 1;
        b.state = *STATES.get(self.word()? as usize)?;
        b.phase = *PHASES.get(self.word()? as usize)?;
        b.pn = self.word()?;
        b.last = self.word()?;
        b.first = self.word()?;
        b.stored_pn = self.word()?;
        b.stored_number = self.word()?;
        b.best.pn = self.word()?;
        b.best.number = self.word()?;
        b.answered = self.word()?;
        b.accepts = self.word()?;
        b.heard = self.word()?;
        b.best.record = self.record()?;
        b.waiting = self.record()?;
        b.agreeing = self.record()?;
        b.peers = (0..sizes.n).map(|_| self.word()).collect::<Option<_>>()?;
        b.records = self.records(sizes.j)?;
        Some(b)
    }

    fn mail(&mut self, sizes: Sizes) -> Option<Mail> {
        let kind = *KINDS.get(self.word()?.checked_sub(1)? as usize)?;
        Some(Mail {
            kind,
            pn: self.word()?,
            last: self.word()?,
            first: if Mail::carries_first(kind) { self.word()? } else { 0 },
            unagreed_pn: self.word()?,
            records: self.records(sizes.j)?,
        })
    }

    /// The table of contents is passed over; the sizes behind it have to fit its bodies.
    pub fn sizes(&mut self) -> Option<Sizes> {
        let bodies = self.word().filter(|bodies| (3..=7).contains(bodies))?;
        for _ in 0..2 * bodies {
            self.word()?;
        }
        let sizes = Sizes { n: self.word()?, j: self.word()?, l: self.word()? };
        (sizes.n == bodies - 2 && sizes.in_range()).then_some(sizes)
    }

    fn site(&mut self) -> Option<Site> {
        let sizes = self.sizes()?;
        let mut site = Site::fresh(sizes);
        site.epoch = self.word()?;
        site.present = self.word()?;
        for c in site.numbers() {
            *site.at_mut(c) = self.camera(sizes)?;
        }
        for (a, b) in site.pairs() {
            for _ in 0..self.word().filter(|count| *count <= sizes.l)? {
                let mail = self.mail(sizes)?;
                site.link_mut(a, b).push_back(mail);
            }
        }
        Some(site)
    }
}

/// The site by form whose image this is. The table of contents is not looked at on the way:
/// one site has one image, so these bytes must be the site's own.
pub fn read(image: &[u8]) -> Option<Site> {
    let site = Rest(image).site()?;
    (site.by_form() && write(&site) == image).then_some(site)
}
