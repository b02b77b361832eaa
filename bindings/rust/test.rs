//! The binding's test: each function once where it is done and, where it can be, once refused.
mod journal;
use journal::*;

/// The desk, and a site of one box, which is active when it is elected.
fn desk() {
    let z = Sizes {
        boxes: 1,
        loads: 1,
        mails: 1,
    };
    let (site_words, links_words) = z.words().unwrap();
    let (mut site, mut links) = (vec![0u64; site_words], vec![0u64; links_words]);
    let mut s = Site::fresh(&mut site, &mut links, z).unwrap();
    let mut words = [0u64; 64];
    let mut d = Desk::of(&mut words[1..]);
    assert_eq!(d.left(0, 0), Err(Refusal::Buffer));
    assert_eq!(d.right(0, 0), Err(Refusal::Buffer));
    assert_eq!(d.withdraw_left(0), Err(Refusal::Buffer));
    assert_eq!(d.withdraw_right(0), Err(Refusal::Buffer));
    assert_eq!(d.pair(&mut s, 0), Err(Refusal::Buffer));
    let mut d = Desk::of(&mut words);
    assert_eq!(d.left(0, 0), Err(Refusal::Frame));
    assert_eq!(d.pair(&mut s, 7), Err(Refusal::Away));
    d.left(7, u32::MAX).unwrap();
    assert_eq!(d.left(7, 1), Err(Refusal::Waits));
    d.right(7, 40).unwrap();
    assert_eq!(d.pair(&mut s, 7), Err(Refusal::Far));
    d.withdraw_right(7).unwrap();
    assert_eq!(d.withdraw_right(7), Err(Refusal::Away));
    d.right(9, 39).unwrap();
    d.right(8, u32::MAX - 40).unwrap();
    assert_eq!(
        d.pair(&mut Site::of(&mut [], &mut []), 7),
        Err(Refusal::Form)
    );
    assert_eq!(d.pair(&mut s, 7), Err(Refusal::Condition));
    s.elect(1).unwrap();
    assert_eq!(d.pair(&mut s, 7), Ok(8));
    assert_eq!(d.withdraw_left(7), Err(Refusal::Away));
    d.left(7, 0).unwrap();
    assert_eq!(d.pair(&mut s, 7), Err(Refusal::Condition));
    d.withdraw_left(7).unwrap();
    s.propose(1).unwrap();
    s.agree(1).unwrap();
    s.holds(1, 1, 7, 8).unwrap();
    for frame in 10..41 {
        d.right(frame, 0).unwrap();
    }
    assert_eq!(d.right(7, 0), Err(Refusal::Full));
}

fn main() {
    let z = Sizes {
        boxes: 2,
        loads: 16,
        mails: 8,
    };
    assert_eq!(z.words(), Some((369, 356)));
    assert_eq!(
        Sizes {
            boxes: 1,
            loads: 4096,
            mails: 16
        }
        .words(),
        Some((8347, 0))
    );
    assert_eq!(Sizes { boxes: 6, ..z }.words(), None);
    let largest = Sizes {
        boxes: 5,
        loads: 4096,
        mails: 16,
    };
    assert_eq!(z.image_most(), Some(2928));
    assert_eq!(largest.image_most(), Some(10_657_940));
    assert_eq!(Sizes { loads: 0, ..z }.image_most(), None);
    let (mut site, mut links) = (vec![0u64; 369], vec![0u64; 356]);
    assert_eq!(Site::of(&mut site, &mut links).elect(1), Err(Refusal::Form));
    assert_eq!(Site::of(&mut [], &mut []).elect(1), Err(Refusal::Form));
    assert_eq!(
        Site::fresh(&mut site, &mut links, Sizes { loads: 0, ..z }).err(),
        Some(Refusal::Sizes)
    );
    assert_eq!(
        Site::fresh(&mut site[1..], &mut links, z).err(),
        Some(Refusal::Buffer)
    );
    let mut s = Site::fresh(&mut site, &mut links, z).unwrap();
    assert_eq!(s.elect(3), Err(Refusal::Box));
    assert_eq!(s.deliver(1, 2), Err(Refusal::Condition));
    s.elect(1).unwrap();
    s.recover(1).unwrap();
    s.collect(1).unwrap();
    assert_eq!(s.repeat(1, 1), Err(Refusal::Box));
    assert_eq!(s.repeat(2, 1), Err(Refusal::Condition));
    for _ in 1..8 {
        s.repeat(1, 2).unwrap();
    }
    assert_eq!(s.repeat(1, 2), Err(Refusal::Link));
    for _ in 0..8 {
        assert_eq!(s.deliver(1, 2), Ok(Mail::Taken));
        assert_eq!(s.deliver(2, 1), Ok(Mail::Taken));
    }
    assert_eq!(s.unheard(1), Err(Refusal::Condition));
    s.ready(1).unwrap();
    assert_eq!(s.unheard(3), Err(Refusal::Box));
    assert_eq!(s.unheard(1), Ok(2));
    assert_eq!(s.heard(1), Err(Refusal::Condition));
    assert_eq!(s.deliver(1, 2), Ok(Mail::Taken));
    assert_eq!(s.deliver(2, 1), Ok(Mail::Taken));
    assert_eq!(s.unheard(1), Ok(0));
    s.heard(1).unwrap();
    assert_eq!(s.offer(1, 0, 72), Err(Refusal::Frame));
    s.offer(1, 71, 72).unwrap();
    s.propose(1).unwrap();
    assert_eq!(s.deliver(1, 2), Ok(Mail::Taken));
    assert_eq!(s.deliver(2, 1), Ok(Mail::Taken));
    assert_eq!(s.find(1, 71), Ok(None));
    s.agree(1).unwrap();
    assert_eq!(s.find(1, 71), Ok(Some(1)));
    assert_eq!(s.find(2, 71), Ok(None));
    assert_eq!(s.find(1, 0), Err(Refusal::Frame));
    assert_eq!(s.find(3, 71), Err(Refusal::Box));
    s.finish(1).unwrap();
    assert_eq!(s.holds(2, 1, 71, 72), Err(Refusal::Untrue));
    s.lose(1, 2).unwrap();
    assert_eq!(s.deliver(1, 2), Ok(Mail::Discarded(Cause::Place)));
    s.timeout(1).unwrap();
    s.stop(2).unwrap();
    assert_eq!(s.elect(1), Err(Refusal::Majority));
    s.come_back(2).unwrap();
    s.holds(1, 1, 71, 72).unwrap();
    assert_eq!(s.agreed(3), Err(Refusal::Box));
    let (one, two) = (s.agreed(1).unwrap(), s.agreed(2).unwrap());
    assert_eq!(one, (1, &[71 << 32 | 72][..]));
    assert_eq!(two, (1, &[][..]));
    assert!(std::ptr::eq(longer(one.1, two.1).unwrap(), one.1));
    assert!(std::ptr::eq(longer(two.1, one.1).unwrap(), one.1));
    assert!(std::ptr::eq(
        longer(one.1, &[71 << 32 | 72]).unwrap(),
        one.1
    ));
    assert_eq!(longer(one.1, &[1, 2]), Err(Refusal::Differs));
    assert_eq!(from_first(&[7, 8, 9], 4, 6), [9]);
    assert_eq!(from_first(&[7, 8, 9], 4, 3), [7, 8, 9]);
    assert_eq!(from_first(&[7, 8, 9], 4, 8), []);
    assert_eq!(s.trim(3, 2), Err(Refusal::Box));
    assert_eq!(s.trim(1, 2), Err(Refusal::Condition));
    drop(s);
    assert_eq!(Site::of(&mut site, &mut links).holds(1, 1, 71, 72), Ok(()));

    // of two boxes, one with a load that the other has not: recover, collect, Collect, Last, Commit,
    // ready, Lease, LeaseAck, heard
    let mut s = Site::of(&mut site, &mut links);
    assert_eq!(s.run(200), Err(Refusal::Condition));
    s.elect(1).unwrap();
    assert_eq!(s.run(0), Ok(Run::Ran(0)));
    assert_eq!(s.run(4), Ok(Run::Ran(4)));
    assert_eq!(s.run(200), Ok(Run::Ran(5)));
    assert_eq!(s.run(200), Ok(Run::Ran(0)));
    s.holds(2, 1, 71, 72).unwrap();
    assert_eq!(s.rest(), Err(Refusal::Condition));
    s.timeout(1).unwrap();
    s.rest().unwrap();
    s.holds(2, 1, 71, 72).unwrap();
    s.elect(2).unwrap();
    drop(s);
    let promise = std::mem::replace(&mut site[5 + 182 + 3], 999_999_902);
    let mut s = Site::of(&mut site, &mut links);
    assert_eq!(s.run(200), Ok(Run::Stopped(Refusal::NewPn, 0)));
    drop(s);
    site[5 + 182 + 3] = promise;
    assert_eq!(Site::of(&mut [], &mut []).run(200), Err(Refusal::Form));

    desk();

    let s = Site::of(&mut site, &mut links);
    let length = s.image_length().unwrap();
    let mut image = vec![7u8; length + 1];
    assert_eq!(s.write(&mut image[..length - 1]), Err(Refusal::Buffer));
    assert_eq!(s.write(&mut image), Ok(length));
    assert_eq!(image[length], 7);
    let (mut site, mut links) = (vec![0u64; 369], vec![0u64; 356]);
    assert_eq!(
        Site::read(&image, &mut site, &mut links).err(),
        Some(Refusal::Form)
    );
    assert_eq!(
        Site::read(&image[..length], &mut site, &mut links[1..]).err(),
        Some(Refusal::Buffer)
    );
    let s = Site::read(&image[..length], &mut site, &mut links).unwrap();
    assert_eq!(s.holds(1, 1, 71, 72), Ok(()));
    let mut again = vec![0u8; length];
    assert_eq!(s.write(&mut again), Ok(length));
    assert_eq!(again, image[..length]);
    assert_eq!(Bodies::open(&image).err(), Some(Refusal::Form));
    assert_eq!(body(&image, 1), Err(Refusal::Form));
    let mut reader = Bodies::open(&again).unwrap();
    let all: Vec<&[u8]> = reader.by_ref().collect();
    assert_eq!((reader.next(), reader.next()), (None, None));
    assert_eq!((all.len(), all[0].len()), (4, 20));
    assert_eq!([&again[..36], &all.concat()].concat(), again);
    for (k, one) in (1..).zip(&all) {
        assert_eq!(body(&again, k), Ok(*one));
    }
    assert_eq!(body(&again, 0), Err(Refusal::Condition));
    assert_eq!(body(&again, 5), Err(Refusal::Condition));

    let (mut row, mut peer) = ([7u64; 158], [9u64; 158]);
    let (mut letter, mut out) = ([0u64; 10], [0u64; 10]);
    let sizes = Sizes {
        boxes: 2,
        loads: 4,
        mails: 2,
    };
    let own = Setting {
        sizes,
        epoch: 2,
        present: 3,
        me: 1,
    };
    let other = Setting { me: 2, ..own };
    assert_eq!(own_fresh(&mut row[1..], sizes), Err(Refusal::Buffer));
    assert_eq!(own_elected(&mut row, own, 1), Err(Refusal::Form));
    assert_eq!(own_fresh(&mut row, sizes), Ok(()));
    assert_eq!(own_fresh(&mut peer, sizes), Ok(()));
    assert_eq!(
        own_elected(&mut row, Setting { epoch: 1, ..own }, 1),
        Err(Refusal::Condition)
    );
    assert_eq!(own_elected(&mut row, own, 1), Ok(()));
    assert_eq!(own_elected(&mut peer, other, 1), Ok(()));
    assert_eq!((row[0], peer[0]), (1, 0));
    assert_eq!(
        own_act(&mut row, &mut out, Setting { me: 3, ..own }, Act::Recover),
        Err(Refusal::Box)
    );
    assert_eq!(own_act(&mut row, &mut out, own, Act::Recover), Ok(0));
    assert_eq!(
        own_act(&mut row, &mut out[1..], own, Act::Collect),
        Err(Refusal::Buffer)
    );
    assert_eq!(own_act(&mut row, &mut out, own, Act::Collect), Ok(2));
    letter.copy_from_slice(&out);
    assert_eq!(
        own_mail(&mut peer, &letter, &mut out, other, 1),
        Ok((Mail::Taken, 1))
    );
    letter.copy_from_slice(&out);
    assert_eq!(
        own_mail(&mut row, &letter, &mut out, own, 2),
        Ok((Mail::Taken, 0))
    );
    assert_eq!(own_act(&mut row, &mut out, own, Act::Ready), Ok(2));
    assert_eq!(own_unheard(&row, own), Ok(2));
    assert_eq!(own_unheard(&peer, other), Err(Refusal::Condition));
    assert_eq!(
        own_act(&mut row, &mut out, own, Act::Heard),
        Err(Refusal::Condition)
    );
    letter.copy_from_slice(&out);
    assert_eq!(
        own_mail(&mut peer, &letter, &mut out, other, 1),
        Ok((Mail::Taken, 1))
    );
    letter.copy_from_slice(&out);
    assert_eq!(
        own_mail(&mut row, &letter, &mut out, own, 2),
        Ok((Mail::Taken, 0))
    );
    assert_eq!(own_unheard(&row, own), Ok(0));
    assert_eq!(own_act(&mut row, &mut out, own, Act::Heard), Ok(0));
    assert_eq!(own_act(&mut row, &mut out, own, Act::Offer(7, 8)), Ok(0));
    assert_eq!(own_act(&mut row, &mut out, own, Act::Propose), Ok(2));
    letter.copy_from_slice(&out);
    assert_eq!(
        own_mail(&mut peer, &letter, &mut out, other, 1),
        Ok((Mail::Taken, 1))
    );
    letter.copy_from_slice(&out);
    assert_eq!(
        own_mail(&mut row, &letter, &mut out, own, 2),
        Ok((Mail::Taken, 0))
    );
    assert_eq!(own_holds(&row, own, 1, 7, 8), Err(Refusal::Untrue));
    assert_eq!(own_act(&mut row, &mut out, own, Act::Agree), Ok(2));
    assert_eq!(own_holds(&row, own, 1, 7, 8), Ok(()));
    assert_eq!(own_act(&mut row, &mut out, own, Act::Finish), Ok(2));
    assert_eq!(
        own_act(&mut row, &mut out, own, Act::Finish),
        Err(Refusal::Condition)
    );
    for act in [Act::Offer(9, 10), Act::Propose] {
        own_act(&mut row, &mut out, own, act).unwrap();
    }
    letter.copy_from_slice(&out);
    assert_eq!(
        own_mail(&mut peer, &letter, &mut out, other, 1),
        Ok((Mail::Discarded(Cause::Place), 0))
    );
    row[4] = 2; // load 2 counts as agreed, but is not in the index
    assert_eq!(
        own_act(&mut row, &mut out, own, Act::Trim(2)),
        Err(Refusal::Form)
    );
    // the only load of frames 9, 73, ..
    (row[26 + 9], row[26 + 64 + 9], row[26 + 128 + 1]) = (2, 2, 0);
    assert_eq!(
        own_act(&mut row, &mut out, own, Act::Trim(3)),
        Err(Refusal::Condition)
    );
    assert_eq!(own_act(&mut row, &mut out, own, Act::Trim(2)), Ok(0));
    assert_eq!(row[4..6], [2, 2]);
    assert_eq!(row[21..23], [1, 9 << 32 | 10]);
    assert_eq!(Refusal::Condition.to_string(), "refused 3");
    println!("Rust: the binding's test passes");
}
