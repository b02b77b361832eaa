//! Random input: traces for the replayer, images and a call for `apply`.

use crate::calls::*;
use crate::foreign::foreign;
use crate::image;
use crate::random::Random;
use crate::rules::*;
use crate::site::*;
use crate::trace::{call_text, hex};

/// A holds line, true or not.
fn holds_text(site: &Site, r: &mut Random, truly: bool) -> Option<String> {
    let c = r.from(1, site.sizes.n);
    let b = site.at(c);
    let Camera { first, last, .. } = *b;
    if truly {
        let k = if r.percent(30) { first } else { first + r.below(b.kept() as u32 + 1) };
        let record = b.record(k).filter(|_| k <= last)?;
        return Some(format!("holds {c} {k} {} {}", record >> 32, record as u32));
    }
    let k = r.pick(&[0, 1, first - 1, last, last + 1, u32::MAX]);
    Some(format!("holds {c} {k} {} {}", r.below(4), r.below(4)))
}

/// A line that differs from a readable one by a byte or two.
pub fn spoilt(line: &str, r: &mut Random) -> Vec<u8> {
    let mut line = line.as_bytes().to_vec();
    let at = r.below(line.len() as u32) as usize;
    match r.below(9) {
        0 => line.insert(at, b' '),
        1 => line.push(b' '),
        2 => line.push(b'\r'),
        3 => line.insert(0, b' '),
        4 => line[at] = r.next() as u8,
        5 => line = line.iter().map(|b| if *b == b' ' { b'\t' } else { *b }).collect(),
        6 => {
            let space = line.iter().position(|b| *b == b' ').unwrap_or(0);
            line.insert(space + 1, b'0');
        }
        7 => line.resize(r.from(63, 66) as usize, b'0'),
        _ => line = line.to_ascii_uppercase(),
    }
    line
}

/// A trace: calls that mostly go through, and a last line that mostly does not.
pub fn random_trace(r: &mut Random) -> Vec<u8> {
    let edge = r.percent(4);
    let sizes = Sizes {
        n: if edge { r.pick(&[0, 1, 5, 6]) } else { r.from(1, 5) },
        j: if edge { r.pick(&[0, 1, 32, 33]) } else { r.pick(&[1, 2, 4, 32]) },
        l: if edge { r.pick(&[0, 1, 8, 9]) } else { r.pick(&[1, 2, 3, 8]) },
    };
    let mut text = format!("site {} {} {}\n", sizes.n, sizes.j, sizes.l).into_bytes();
    if !sizes.in_range() {
        return text;
    }
    let mut site = Site::fresh(sizes);
    let style = if r.percent(20) { Style::laggard(r, sizes.n) } else { Style::any(r, sizes.n) };
    for frame in 1..=r.pick(&[3, 30, 100, 400, 400]) {
        let line = if r.percent(8) {
            holds_text(&site, r, true)
        } else {
            let call = likely_call(&site, r, &style, frame);
            step(&mut site, call).is_ok().then(|| call_text(call))
        };
        if let Some(line) = line {
            text.extend(line.bytes().chain([b'\n']));
        }
    }
    text.extend(ending(&mut site, r, &style));
    text
}

/// A repeat on a link with mail, or with any two numbers.
fn some_repeat(site: &Site, r: &mut Random) -> Call {
    let full = full_links(site);
    if full.is_empty() || r.percent(50) {
        let number = |r: &mut Random| r.from(0, site.sizes.n + 1);
        return Call::Repeat(number(r), number(r));
    }
    let (a, b) = r.pick(&full);
    Call::Repeat(a, b)
}

/// A trim at any box, of a number at the edges of what is kept.
fn edge_trim(site: &Site, r: &mut Random) -> Call {
    let c = r.from(0, site.sizes.n + 1);
    let (first, last) = match site.numbers().contains(&c) {
        true => (site.at(c).first, site.at(c).last),
        false => (1, 2),
    };
    Call::Trim(c, r.pick(&[0, first, first + 1, last, last + 1, last + 1]))
}

/// Calls up to a Lease that is repeated and answered until the next answer has no room.
fn unanswerable_lease(site: &mut Site, r: &mut Random, style: &Style) -> Vec<Call> {
    let head = |site: &Site, (a, b): (u32, u32)| site.link(a, b)[0].kind;
    let lease = |site: &Site| full_links(site).into_iter().find(|l| head(site, *l) == Kind::Lease);
    let mut made = vec![];
    let mut play = |site: &mut Site, call| {
        if step(site, call).is_ok() {
            made.push(call)
        }
    };
    for frame in 1000..1200 {
        if lease(site).is_some() {
            break;
        }
        let call = likely_call(site, r, style, frame);
        play(site, call);
    }
    if let Some((a, b)) = lease(site) {
        play(site, Call::Repeat(a, b));
        play(site, Call::Deliver(a, b));
        (0..site.sizes.l).for_each(|_| play(site, Call::Repeat(b, a)));
        made.push(Call::Deliver(a, b));
    }
    made
}

fn ending(site: &mut Site, r: &mut Random, style: &Style) -> Vec<u8> {
    let n = site.sizes.n;
    let line = |call| call_text(call) + "\n";
    match r.below(14) {
        0 => vec![],
        1 => [spoilt(&call_text(any_call(n, r)), r), b"\n".to_vec()].concat(),
        2 => (holds_text(site, r, false).unwrap() + "\n").into_bytes(),
        3 => call_text(likely_call(site, r, style, 1)).into_bytes(),
        4 => format!("site {} 1 1\n", r.below(7)).into_bytes(),
        5 => {
            let stops = (1..=n).filter(|c| step(site, Call::Stop(*c)).is_ok()).map(Call::Stop);
            stops
                .chain([Call::Return(n), Call::Elect(n)])
                .map(line)
                .collect::<String>()
                .into_bytes()
        }
        6 => line(leader_call(site, r, site.leader().unwrap_or(1), 1)).into_bytes(),
        7 => (0..20).map(|_| line(any_call(n, r))).collect::<String>().into_bytes(),
        8 => line(some_repeat(site, r)).repeat(site.sizes.l as usize).into_bytes(),
        9 => line(Call::Offer(r.from(0, n + 1), r.below(2), r.below(2))).into_bytes(),
        10 => line(edge_trim(site, r)).into_bytes(),
        11 => line(Call::Heard(r.from(0, n + 1))).into_bytes(),
        12 => {
            let calls = unanswerable_lease(site, r, style);
            calls.into_iter().map(line).collect::<String>().into_bytes()
        }
        _ => {
            let mut lines = String::new();
            for frame in 1000..1200 {
                let call = likely_call(site, r, style, frame);
                match step(site, call) {
                    Err(3) => continue,
                    _ => lines += &line(call),
                }
            }
            lines.into_bytes()
        }
    }
}

/// A site that the steps reach.
pub fn reached(r: &mut Random, sizes: Sizes) -> Site {
    let mut site = Site::fresh(sizes);
    let style = Style::any(r, sizes.n);
    for frame in 1..=r.pick(&[0, 10, 40, 200, 1000]) {
        let call = likely_call(&site, r, &style, frame);
        let _ = step(&mut site, call);
    }
    site
}

/// An image that is mostly no image any more.
pub fn damaged(mut image: Vec<u8>, r: &mut Random) -> Vec<u8> {
    let at = r.below(image.len() as u32) as usize;
    let word = at / 4 * 4;
    match r.below(8) {
        0 => image.truncate(at),
        1 => image.push(0),
        2 => image[at] ^= 1 << r.below(8),
        3 => image.extend([0; 8]),
        4 => drop(image.drain(word..word + 4)),
        5 => image.splice(word..word, [0; 4]).for_each(drop),
        _ => {
            let edges = [0, 1, 2, 3, 4, 5, 6, 7, 8, 15, 16, 31, 32, 4097, MOST, MOST + 1];
            let value = if r.percent(5) { u32::MAX - 1 } else { r.pick(&edges) };
            image[word..word + 4].copy_from_slice(&value.to_le_bytes());
        }
    }
    image
}

pub fn some_sizes(r: &mut Random) -> Sizes {
    let large = r.percent(3);
    Sizes {
        n: r.from(1, 5),
        j: if large { r.pick(&[33, 257, 4096]) } else { r.pick(&[1, 2, 3, 4]) },
        l: if large { r.pick(&[9, 16]) } else { r.pick(&[1, 2, 3]) },
    }
}

/// A call that has something to do with the site; of those whose condition fails, a few, trims, and
/// the leader's next, which may have to wait for others.
fn fitting_call(site: &Site, r: &mut Random) -> Call {
    if let Some(c) = site.leader().filter(|_| r.percent(10)) {
        return leader_call(site, r, c, 3);
    }
    if let Some(trim) = some_trim(site, r).filter(|_| r.percent(5)) {
        return trim;
    }
    let mut call = some_call(site, r);
    for _ in 0..12 {
        if step(&mut site.clone(), call) != Err(3) || r.percent(5) {
            break;
        }
        call = some_call(site, r);
    }
    call
}

fn some_call(site: &Site, r: &mut Random) -> Call {
    let mut full = full_links(site);
    if r.percent(40) {
        full.retain(|(_, b)| site.at(*b).leads);
    }
    if r.percent(50) && !full.is_empty() {
        let (a, b) = r.pick(&full);
        return if r.percent(5) { Call::Repeat(a, b) } else { Call::Deliver(a, b) };
    }
    let c = site.leader().unwrap_or(1);
    if r.percent(50) {
        return match r.below(8) {
            0 => Call::Recover(c),
            1 => Call::Collect(c),
            2 => Call::Ready(c),
            3 => Call::Offer(c, 3, 4),
            4 => Call::Propose(c),
            5 => Call::Agree(c),
            6 => Call::Finish(c),
            _ => Call::Heard(c),
        };
    }
    any_call(site.sizes.n, r)
}

/// A reached site just after an election, a little further, or with promises near the last number.
fn elected(r: &mut Random, sizes: Sizes) -> Site {
    let mut site = reached(r, sizes);
    if site.epoch % 2 == 0 {
        let present = site.numbers().find(|c| member(site.present, *c)).unwrap_or(1);
        let _ = step(&mut site, Call::Timeout(present));
    }
    for c in site.numbers().filter(|_| r.percent(30)).collect::<Vec<_>>() {
        let near = HIGHEST_PN - r.from(94, 99);
        site.at_mut(c).pn = r.pick(&[0, 7, 102, 305, 999_999_800, near]);
    }
    for _ in 0..10 {
        let c = r.from(1, sizes.n);
        if step(&mut site, Call::Elect(c)).is_ok() {
            break;
        }
        let _ = step(&mut site, Call::Return(c));
    }
    let style = Style::any(r, sizes.n);
    for frame in 1..=r.pick(&[0, 0, 3, 20]) {
        let call = likely_call(&site, r, &style, frame);
        let _ = step(&mut site, call);
    }
    site
}

/// A line `IMAGE run STEPS` for `apply`, without its newline.
pub fn random_run(r: &mut Random) -> Vec<u8> {
    let sizes = Sizes { l: r.pick(&[1, 2, 3, 8]), ..some_sizes(r) };
    let site = match r.below(10) {
        0..=2 => reached(r, sizes),
        3..=5 => elected(r, sizes),
        _ => foreign(r, sizes),
    };
    let mut image = image::write(&site);
    if r.percent(6) {
        image = damaged(image, r);
    }
    let any = r.below(60);
    let steps = r.pick(&[200, 200, 200, 200, 0, 1, 2, 3, any, any, u32::MAX]);
    let mut words = format!("run {steps}").into_bytes();
    if r.percent(3) {
        let bad = ["run", "run ", "run 01", "run 4294967296", "run 1 2", "run -1", "ran 1"];
        let whole = String::from_utf8_lossy(&words).into_owned();
        words = if r.percent(50) { spoilt(&whole, r) } else { r.pick(&bad).into() };
        words.retain(|byte| *byte != b'\n');
    }
    [hex(&image).as_bytes(), b" ", &words].concat()
}

/// Most random images are no longer.
pub const SHORT_IMAGE: usize = 65_536;

/// A line for `apply`, without its newline.
pub fn random_image_step(r: &mut Random) -> Vec<u8> {
    let sizes = some_sizes(r);
    let (mut image, mut words);
    loop {
        let site = if r.percent(40) { reached(r, sizes) } else { foreign(r, sizes) };
        image = image::write(&site);
        words = call_text(fitting_call(&site, r));
        if r.percent(5) {
            let truly = r.percent(50);
            words = holds_text(&site, r, truly).unwrap_or(words);
        }
        // most images shall be short
        if image.len() <= SHORT_IMAGE || r.percent(60) {
            break;
        }
    }
    if r.percent(12) {
        image = damaged(image, r);
    }
    let mut line = [hex(&image).as_bytes(), b" ", words.as_bytes()].concat();
    if r.percent(2) {
        line = match r.below(7) {
            0 => line.to_ascii_uppercase(),
            6 => [hex(&image).to_uppercase().as_bytes(), b" ", words.as_bytes()].concat(),
            1 => [b"0", &line[..]].concat(),
            2 => [b"- ", words.as_bytes()].concat(),
            3 => [b" ", words.as_bytes()].concat(),
            4 => [hex(&image).as_bytes(), b" ", &spoilt(&words, r)].concat(),
            _ => words.into_bytes(),
        };
        line.retain(|byte| *byte != b'\n');
    }
    line
}
