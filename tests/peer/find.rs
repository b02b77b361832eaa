//! which load has this frame? A full reading of the agreed records that a box keeps.

use crate::faults::Fault;
use crate::foreign::foreign;
use crate::image;
use crate::random::Random;
use crate::rules::*;
use crate::site::*;
use crate::texts::{damaged, reached, some_sizes, spoilt};
use crate::trace::hex;

/// The frame of a record that is asked for.
fn left(record: Record) -> u32 {
    (record >> 32) as u32
}

/// The smallest number that is agreed at box c, is kept there and has this left frame, of a site by
/// form: 2, then 10 for frame 0.
pub fn find(site: &Site, c: u32, asked: u32, fault: Fault) -> Result<Option<u32>, Refusal> {
    if !site.numbers().any(|k| k == c) {
        return Err(2);
    }
    if asked == 0 && fault != Fault::FrameZeroAsked {
        return Err(10);
    }
    let b = site.at(c);
    let held = b.records.len();
    let read = if fault == Fault::UnagreedFound { held } else { b.kept() };
    let has = |record: &Record| match fault {
        Fault::SlotFound => left(*record) % 64 == asked % 64,
        Fault::RightFound => *record as u32 == asked,
        _ => left(*record) == asked,
    };
    let mut places = (0..read).filter(|i| has(&b.records[*i]));
    let place = if fault == Fault::LargestFound { places.last() } else { places.next() };
    let first = if fault == Fault::FoundByPlace { 1 } else { b.first };
    Ok(place.map(|i| first + i as u32))
}

/// Left frames that are often equal, and often of one remainder by 64.
const LEFTS: [u32; 8] = [5, 69, 133, 5 + 64 * 67_108_863, 6, 64, 128, 1];

/// A line `IMAGE find c left` for `apply`, without its newline.
pub fn random_find(r: &mut Random) -> Vec<u8> {
    let sizes = some_sizes(r);
    let mut site = if r.percent(50) { reached(r, sizes) } else { foreign(r, sizes) };
    for c in site.numbers() {
        let few = r.percent(70);
        for record in site.at_mut(c).records.iter_mut().filter(|_| few) {
            *record = (r.pick(&LEFTS) as u64) << 32 | *record & 0xffff_ffff;
        }
    }
    let c = if r.percent(8) { r.pick(&[0, sizes.n + 1, u32::MAX]) } else { r.from(1, sizes.n) };
    let any = r.from(1, sizes.n);
    let of = if site.numbers().any(|k| k == c) && r.percent(90) { c } else { any };
    let records = &site.at(of).records;
    let asked = match r.below(20) {
        0..=12 if !records.is_empty() => left(records[r.below(records.len() as u32) as usize]),
        13..=17 => r.pick(&LEFTS),
        18 => 0,
        _ => r.pick(&[7, 70, u32::MAX]),
    };
    let mut image = image::write(&site);
    if r.percent(6) {
        image = damaged(image, r);
    }
    let mut words = format!("find {c} {asked}").into_bytes();
    if r.percent(3) {
        let bad = ["find", "find ", "find 1", "find 1 ", "find 1 2 3", "find 01 2", "find 1 02"];
        let worse = ["find  1 2", "find 1  2", "find 1 4294967296", "fund 1 2", "find -1 2", " "];
        let whole = String::from_utf8_lossy(&words).into_owned();
        words = match r.below(3) {
            0 => spoilt(&whole, r),
            1 => r.pick(&bad).into(),
            _ => r.pick(&worse).into(),
        };
        words.retain(|byte| *byte != b'\n');
    }
    [hex(&image).as_bytes(), b" ", &words].concat()
}
