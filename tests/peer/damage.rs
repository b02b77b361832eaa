//! What becomes of an image that is changed, cut or made longer, and of too little memory: how
//! often each answer comes, for the program `try_damage` of crates/ to be held to.

use crate::image;
use crate::trace::unhex;

/// The words that the program lends of the site and of the links.
const ROOM: (usize, usize) = (820, 1000);

#[derive(Default)]
struct Count {
    form: usize,
    short: usize,
    done: usize,
}

impl Count {
    fn read(&mut self, bytes: &[u8], room: (usize, usize)) {
        match image::read(bytes).map(|site| (site.sizes.site_words(), site.sizes.links_words())) {
            None => self.form += 1,
            Some((site, links)) if room.0 < site || room.1 < links => self.short += 1,
            Some(_) => self.done += 1,
        }
    }

    fn line(&self, name: &str) -> String {
        let Count { form, short, done } = self;
        let tried = form + short + done;
        format!(
            "{name}: {tried} tried, {form} refused 1, {short} refused 12, {done} done, 0 WRONG\n"
        )
    }
}

fn part(name: &str, tries: impl FnOnce(&mut Count)) -> String {
    let mut count = Count::default();
    tries(&mut count);
    count.line(name)
}

fn one_image(bytes: &[u8]) -> String {
    let read_all = |images: Vec<Vec<u8>>| {
        move |count: &mut Count| images.iter().for_each(|bytes| count.read(bytes, ROOM))
    };
    let flip = |at: usize, bits: u8| {
        let mut bytes = bytes.to_vec();
        bytes[at] ^= bits;
        bytes
    };
    let flips = |bits| read_all((0..bytes.len()).map(|at| flip(at, bits)).collect());
    let cuts = (0..bytes.len()).map(|k| bytes[..k].to_vec());
    let longer = (0..=255).map(|byte| [bytes, &[byte]].concat());
    let whole = image::read(bytes).map(|site| image::write(&site).len());
    [
        part("whole", read_all(vec![bytes.to_vec()])),
        part("buffers", |count| {
            for lent in 0..bytes.len() + 2 {
                match whole {
                    None => count.form += 1,
                    Some(length) if lent < length => count.short += 1,
                    Some(_) => count.done += 1,
                }
            }
        }),
        part("lowest bits", flips(1)),
        part("highest bits", flips(0x80)),
        part("all bits", flips(0xff)),
        part("cuts", read_all(cuts.collect())),
        part("site words", |count| (0..=ROOM.0).for_each(|k| count.read(bytes, (k, ROOM.1)))),
        part("link words", |count| (0..=ROOM.1).for_each(|k| count.read(bytes, (ROOM.0, k)))),
        part("longer", read_all(longer.collect())),
    ]
    .concat()
}

/// What the program prints for this input: images in hex, one a line, and headings.
pub fn damage(input: &[u8]) -> Vec<u8> {
    let text = std::str::from_utf8(input).expect("text");
    let mut out = String::new();
    for line in text.lines() {
        if line.is_empty() || line.starts_with('#') {
            out += &format!("{line}\n");
        } else {
            out += &one_image(&unhex(line.as_bytes()).expect("an image in hex"));
        }
    }
    out.into_bytes()
}
