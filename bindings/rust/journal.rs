//! The load journal for Rust: one file to take into a program that links libjournal.a (x86-64).
//!
//! The library takes every input and refuses what is not by form, so little is left to check here:
//! slices are never null, are aligned and do not overlap by Rust's own rules, and the sizes of a
//! slice are its own. What the types of C cannot say is said by types: a refusal is an `Err` with
//! its case, an answer to a mail is `Mail`, and a site is borrowed for as long as it is used.
//! include/journal.h is the manual of what each call does and answers.

use std::fmt;

/// Why a call is refused; the number of each is the paper's. Every word stays as it was. 9 is no
/// longer given and stays unused.
#[derive(Clone, Copy, Debug, PartialEq, Eq)]
#[repr(u32)]
pub enum Refusal {
    Sizes = 13,
    Form = 1,
    Box = 2,
    Frame = 10,
    Condition = 3,
    Majority = 4,
    Epoch = 5,
    NewPn = 6,
    Book = 7,
    Link = 8,
    Buffer = 12,
    Untrue = 14,
    /// Of `Desk` alone: that side already waits with this number.
    Waits = 19,
    /// Of `Desk` alone: that side is full.
    Full = 20,
    /// Of `Desk` alone: the named frame does not wait.
    Away = 23,
    /// Of `Desk::pair` alone: no waiting right frame is near enough.
    Far = 21,
    /// Of `longer` alone: a number that both lists hold differs.
    Differs = 22,
}

/// Why a mail is discarded.
#[derive(Clone, Copy, Debug, PartialEq, Eq)]
pub enum Cause {
    Role,
    Phase,
    Number,
    Place,
}

/// What became of a mail that was handed over.
#[derive(Clone, Copy, Debug, PartialEq, Eq)]
pub enum Mail {
    Taken,
    Discarded(Cause),
}

/// What became of a run that was not refused: it ended, or a step was refused, after so many steps.
#[derive(Clone, Copy, Debug, PartialEq, Eq)]
pub enum Run {
    Ran(u32),
    Stopped(Refusal, u32),
}

impl fmt::Display for Refusal {
    fn fmt(&self, f: &mut fmt::Formatter<'_>) -> fmt::Result {
        write!(f, "refused {}", *self as u32)
    }
}

impl std::error::Error for Refusal {}

const REFUSALS: [Refusal; 17] = [
    Refusal::Sizes,
    Refusal::Form,
    Refusal::Box,
    Refusal::Frame,
    Refusal::Condition,
    Refusal::Majority,
    Refusal::Epoch,
    Refusal::NewPn,
    Refusal::Book,
    Refusal::Link,
    Refusal::Buffer,
    Refusal::Untrue,
    Refusal::Waits,
    Refusal::Full,
    Refusal::Away,
    Refusal::Far,
    Refusal::Differs,
];

/// The library answers no other number than these; another would be another library's.
fn refusal(number: u32) -> Refusal {
    REFUSALS
        .into_iter()
        .find(|r| *r as u32 == number)
        .expect("libjournal.a answers a number that this binding does not know")
}

fn answered(number: u32) -> Result<Option<Mail>, Refusal> {
    match number {
        0 => Ok(None),
        100 => Ok(Some(Mail::Taken)),
        101 => Ok(Some(Mail::Discarded(Cause::Role))),
        102 => Ok(Some(Mail::Discarded(Cause::Phase))),
        103 => Ok(Some(Mail::Discarded(Cause::Number))),
        104 => Ok(Some(Mail::Discarded(Cause::Place))),
        _ => Err(refusal(number)),
    }
}

fn done(number: u32) -> Result<(), Refusal> {
    match answered(number)? {
        None => Ok(()),
        Some(mail) => panic!("a call answered as a mail does: {mail:?}"),
    }
}

fn mailed(number: u32) -> Result<Mail, Refusal> {
    Ok(answered(number)?.expect("a mail was neither taken nor discarded"))
}

mod c {
    extern "C" {
        pub fn journal_site_words(n: u32, j: u32, l: u32) -> usize;
        pub fn journal_links_words(n: u32, j: u32, l: u32) -> usize;
        pub fn journal_fresh(
            s: *mut u64,
            sn: usize,
            l: *mut u64,
            ln: usize,
            n: u32,
            j: u32,
            mails: u32,
        ) -> u32;
        pub fn journal_elect(s: *mut u64, sn: usize, l: *mut u64, ln: usize, c: u32) -> u32;
        pub fn journal_recover(s: *mut u64, sn: usize, l: *mut u64, ln: usize, c: u32) -> u32;
        pub fn journal_collect(s: *mut u64, sn: usize, l: *mut u64, ln: usize, c: u32) -> u32;
        pub fn journal_ready(s: *mut u64, sn: usize, l: *mut u64, ln: usize, c: u32) -> u32;
        pub fn journal_offer(
            s: *mut u64,
            sn: usize,
            l: *mut u64,
            ln: usize,
            c: u32,
            left: u32,
            right: u32,
        ) -> u32;
        pub fn journal_propose(s: *mut u64, sn: usize, l: *mut u64, ln: usize, c: u32) -> u32;
        pub fn journal_agree(s: *mut u64, sn: usize, l: *mut u64, ln: usize, c: u32) -> u32;
        pub fn journal_finish(s: *mut u64, sn: usize, l: *mut u64, ln: usize, c: u32) -> u32;
        pub fn journal_heard(s: *mut u64, sn: usize, l: *mut u64, ln: usize, c: u32) -> u32;
        pub fn journal_trim(s: *mut u64, sn: usize, l: *mut u64, ln: usize, c: u32, k: u32) -> u32;
        pub fn journal_stop(s: *mut u64, sn: usize, l: *mut u64, ln: usize, c: u32) -> u32;
        pub fn journal_return(s: *mut u64, sn: usize, l: *mut u64, ln: usize, c: u32) -> u32;
        pub fn journal_timeout(s: *mut u64, sn: usize, l: *mut u64, ln: usize, c: u32) -> u32;
        pub fn journal_lose(s: *mut u64, sn: usize, l: *mut u64, ln: usize, a: u32, b: u32) -> u32;
        pub fn journal_repeat(
            s: *mut u64,
            sn: usize,
            l: *mut u64,
            ln: usize,
            a: u32,
            b: u32,
        ) -> u32;
        pub fn journal_deliver(
            s: *mut u64,
            sn: usize,
            l: *mut u64,
            ln: usize,
            a: u32,
            b: u32,
        ) -> u32;
        pub fn journal_holds(
            s: *const u64,
            sn: usize,
            l: *const u64,
            ln: usize,
            c: u32,
            k: u32,
            left: u32,
            right: u32,
        ) -> u32;
        pub fn journal_find(
            s: *const u64,
            sn: usize,
            l: *const u64,
            ln: usize,
            c: u32,
            left: u32,
            number: *mut u32,
        ) -> u32;
        pub fn journal_unheard(
            s: *const u64,
            sn: usize,
            l: *const u64,
            ln: usize,
            c: u32,
            set: *mut u32,
        ) -> u32;
        pub fn journal_rest(s: *mut u64, sn: usize, l: *mut u64, ln: usize) -> u32;
        pub fn journal_run(
            s: *mut u64,
            sn: usize,
            l: *mut u64,
            ln: usize,
            steps: u32,
            used: *mut u32,
        ) -> u32;
        pub fn journal_agreed(
            s: *const u64,
            sn: usize,
            l: *const u64,
            ln: usize,
            c: u32,
            first: *mut u64,
            at: *mut usize,
            count: *mut usize,
        ) -> u32;
        pub fn journal_longer(
            first: *const u64,
            first_words: usize,
            second: *const u64,
            second_words: usize,
        ) -> u32;
        pub fn journal_desk_left(d: *mut u64, dn: usize, frame: u32, tick: u32) -> u32;
        pub fn journal_desk_right(d: *mut u64, dn: usize, frame: u32, tick: u32) -> u32;
        pub fn journal_desk_withdraw_left(d: *mut u64, dn: usize, frame: u32) -> u32;
        pub fn journal_desk_withdraw_right(d: *mut u64, dn: usize, frame: u32) -> u32;
        pub fn journal_desk_pair(
            d: *mut u64,
            dn: usize,
            s: *mut u64,
            sn: usize,
            l: *mut u64,
            ln: usize,
            left: u32,
            right: *mut u32,
        ) -> u32;
        pub fn journal_image_length(
            s: *const u64,
            sn: usize,
            l: *const u64,
            ln: usize,
            length: *mut usize,
        ) -> u32;
        pub fn journal_write(
            s: *const u64,
            sn: usize,
            l: *const u64,
            ln: usize,
            image: *mut u8,
            bytes: usize,
            length: *mut usize,
        ) -> u32;
        pub fn journal_read(
            image: *const u8,
            bytes: usize,
            s: *mut u64,
            sn: usize,
            l: *mut u64,
            ln: usize,
        ) -> u32;
        pub fn journal_body(
            image: *const u8,
            bytes: usize,
            begin: *mut usize,
            length: *mut usize,
            k: u32,
        ) -> u32;
        pub fn journal_named(
            image: *const u8,
            bytes: usize,
            begin: *mut usize,
            length: *mut usize,
            k: u32,
        ) -> u32;
        pub fn journal_own_recover(
            row: *mut u64,
            rn: usize,
            out: *mut u64,
            on: usize,
            to: *mut u32,
            n: u32,
            j: u32,
            l: u32,
            epoch: u32,
            present: u32,
            me: u32,
        ) -> u32;
        pub fn journal_own_collect(
            row: *mut u64,
            rn: usize,
            out: *mut u64,
            on: usize,
            to: *mut u32,
            n: u32,
            j: u32,
            l: u32,
            epoch: u32,
            present: u32,
            me: u32,
        ) -> u32;
        pub fn journal_own_ready(
            row: *mut u64,
            rn: usize,
            out: *mut u64,
            on: usize,
            to: *mut u32,
            n: u32,
            j: u32,
            l: u32,
            epoch: u32,
            present: u32,
            me: u32,
        ) -> u32;
        pub fn journal_own_offer(
            row: *mut u64,
            rn: usize,
            out: *mut u64,
            on: usize,
            to: *mut u32,
            n: u32,
            j: u32,
            l: u32,
            epoch: u32,
            present: u32,
            me: u32,
            left: u32,
            right: u32,
        ) -> u32;
        pub fn journal_own_propose(
            row: *mut u64,
            rn: usize,
            out: *mut u64,
            on: usize,
            to: *mut u32,
            n: u32,
            j: u32,
            l: u32,
            epoch: u32,
            present: u32,
            me: u32,
        ) -> u32;
        pub fn journal_own_agree(
            row: *mut u64,
            rn: usize,
            out: *mut u64,
            on: usize,
            to: *mut u32,
            n: u32,
            j: u32,
            l: u32,
            epoch: u32,
            present: u32,
            me: u32,
        ) -> u32;
        pub fn journal_own_finish(
            row: *mut u64,
            rn: usize,
            out: *mut u64,
            on: usize,
            to: *mut u32,
            n: u32,
            j: u32,
            l: u32,
            epoch: u32,
            present: u32,
            me: u32,
        ) -> u32;
        pub fn journal_own_heard(
            row: *mut u64,
            rn: usize,
            out: *mut u64,
            on: usize,
            to: *mut u32,
            n: u32,
            j: u32,
            l: u32,
            epoch: u32,
            present: u32,
            me: u32,
        ) -> u32;
        pub fn journal_own_trim(
            row: *mut u64,
            rn: usize,
            out: *mut u64,
            on: usize,
            to: *mut u32,
            n: u32,
            j: u32,
            l: u32,
            epoch: u32,
            present: u32,
            me: u32,
            k: u32,
        ) -> u32;
        pub fn journal_own_mail(
            row: *mut u64,
            rn: usize,
            letter: *const u64,
            len: usize,
            out: *mut u64,
            on: usize,
            to: *mut u32,
            n: u32,
            j: u32,
            l: u32,
            epoch: u32,
            present: u32,
            me: u32,
            sender: u32,
        ) -> u32;
        pub fn journal_own_fresh(row: *mut u64, rn: usize, n: u32, j: u32, l: u32) -> u32;
        pub fn journal_own_elected(
            row: *mut u64,
            rn: usize,
            n: u32,
            j: u32,
            l: u32,
            epoch: u32,
            present: u32,
            me: u32,
            c: u32,
        ) -> u32;
        pub fn journal_own_holds(
            row: *const u64,
            rn: usize,
            n: u32,
            j: u32,
            l: u32,
            epoch: u32,
            present: u32,
            me: u32,
            k: u32,
            left: u32,
            right: u32,
        ) -> u32;
        pub fn journal_own_unheard(
            row: *const u64,
            rn: usize,
            set: *mut u32,
            n: u32,
            j: u32,
            l: u32,
            epoch: u32,
            present: u32,
            me: u32,
        ) -> u32;
    }
}

/// How many boxes, records in a box, and mails on a link.
#[derive(Clone, Copy, Debug, PartialEq, Eq)]
pub struct Sizes {
    pub boxes: u32,
    pub loads: u32,
    pub mails: u32,
}

impl Sizes {
    /// The words that `site` and `links` need; `None` for sizes outside their ranges.
    pub fn words(self) -> Option<(usize, usize)> {
        // SAFETY: numbers in, a number out.
        let (site, links) = unsafe {
            (
                c::journal_site_words(self.boxes, self.loads, self.mails),
                c::journal_links_words(self.boxes, self.loads, self.mails),
            )
        };
        (site != 0).then_some((site, links))
    }

    /// The bytes of the longest image of a site of these sizes: with so many `write` is never
    /// refused with `Buffer`. `None` for sizes outside their ranges.
    pub fn image_most(self) -> Option<usize> {
        self.words()?;
        let (n, j, l) = (
            self.boxes as usize,
            self.loads as usize,
            self.mails as usize,
        );
        let links = n * (n - 1) * (4 + l * (24 + 8 * j));
        Some(4 + 8 * (n + 2) + 20 + n * (80 + 4 * n + 8 * j) + links)
    }
}

/// A site in lent words. Nobody else can read or write them while it is used.
pub struct Site<'a> {
    site: &'a mut [u64],
    links: &'a mut [u64],
}

/// Asks the library of the site's words, which it only reads; what else is given are numbers, numbers
/// to be set, or a slice with its own length.
macro_rules! ask {
    ($symbol:ident, $site:ident, $($more:expr),*) => {
        // SAFETY: the two slices have their own lengths and are only read, and nothing that is
        // written overlaps them: it is borrowed by itself.
        unsafe {
            c::$symbol(
                $site.site.as_ptr(), $site.site.len(),
                $site.links.as_ptr(), $site.links.len(), $($more),*
            )
        }
    };
}

/// Declares a call: its parts are the two slices and the numbers that follow.
macro_rules! calls {
    ($($(#[$doc:meta])* $name:ident = $symbol:ident($($x:ident),*) -> $answer:ty, $by:ident;)*) => {
        impl Site<'_> {
            $(
                $(#[$doc])*
                pub fn $name(&mut self, $($x: u32),*) -> Result<$answer, Refusal> {
                    // SAFETY: two slices, each with its own length, that do not overlap.
                    $by(unsafe {
                        c::$symbol(
                            self.site.as_mut_ptr(), self.site.len(),
                            self.links.as_mut_ptr(), self.links.len(), $($x),*
                        )
                    })
                }
            )*
        }
    };
}

calls! {
    /// c alone leads.
    elect = journal_elect(c) -> (), done;
    /// Leader c takes a new proposal number.
    recover = journal_recover(c) -> (), done;
    /// Leader c asks the others for what they hold.
    collect = journal_collect(c) -> (), done;
    /// All present have answered.
    ready = journal_ready(c) -> (), done;
    /// A pair of frames waits at leader c.
    offer = journal_offer(c, left, right) -> (), done;
    /// Leader c starts the waiting pair.
    propose = journal_propose(c) -> (), done;
    /// All present have accepted.
    agree = journal_agree(c) -> (), done;
    /// Leader c is active again, and leases.
    finish = journal_finish(c) -> (), done;
    /// All present have answered the lease of leader c.
    heard = journal_heard(c) -> (), done;
    /// Box c drops its agreed loads below k.
    trim = journal_trim(c, k) -> (), done;
    /// Box c is switched off.
    stop = journal_stop(c) -> (), done;
    /// Box c comes back. (`return` is a word of Rust.)
    come_back = journal_return(c) -> (), done;
    /// Box c misses its leader.
    timeout = journal_timeout(c) -> (), done;
    /// The head of the link from a to b is dropped.
    lose = journal_lose(a, b) -> (), done;
    /// The head of the link from a to b stands twice.
    repeat = journal_repeat(a, b) -> (), done;
    /// The head of the link from a to b is handed over.
    deliver = journal_deliver(a, b) -> Mail, mailed;
    /// In an odd epoch every box becomes as a fresh one, but for what outlives a stop.
    rest = journal_rest() -> (), done;
}

impl<'a> Site<'a> {
    /// A fresh site in words that may hold anything.
    pub fn fresh(site: &'a mut [u64], links: &'a mut [u64], z: Sizes) -> Result<Self, Refusal> {
        // SAFETY: two slices, each with its own length, that do not overlap.
        done(unsafe {
            c::journal_fresh(
                site.as_mut_ptr(),
                site.len(),
                links.as_mut_ptr(),
                links.len(),
                z.boxes,
                z.loads,
                z.mails,
            )
        })?;
        Ok(Site { site, links })
    }

    /// Words that hold a site already; where they do not, every call is refused with `Form`.
    pub fn of(site: &'a mut [u64], links: &'a mut [u64]) -> Self {
        Site { site, links }
    }

    /// Load k is agreed at box c with these frames, and kept. `Err(Untrue)` where it is not.
    pub fn holds(&self, c: u32, k: u32, left: u32, right: u32) -> Result<(), Refusal> {
        done(ask!(journal_holds, self, c, k, left, right))
    }

    /// The smallest number that is agreed at box c, is kept there and has this left frame; `None`
    /// where none has. `Err(Frame)` for frame 0.
    pub fn find(&self, c: u32, left: u32) -> Result<Option<u32>, Refusal> {
        let mut number = 0;
        done(ask!(journal_find, self, c, left, &mut number))?;
        Ok((number != 0).then_some(number))
    }

    /// The set of present boxes that have not answered the lease of leader c (box k as 2^(k−1)).
    /// `Err(Condition)` where none is out.
    pub fn unheard(&self, c: u32) -> Result<u32, Refusal> {
        let mut set = 0;
        done(ask!(journal_unheard, self, c, &mut set))?;
        Ok(set)
    }

    /// The first number that box c keeps, and the records of all that it keeps as agreed from it
    /// on: the site's own words, left × 2^32 + right each.
    pub fn agreed(&self, c: u32) -> Result<(u64, &[u64]), Refusal> {
        let (mut first, mut at, mut count) = (0, 0, 0);
        done(ask!(journal_agreed, self, c, &mut first, &mut at, &mut count))?;
        Ok((first, &self.site[at..at + count]))
    }
}

/// The longer of two lists of records from the same first number: one of the two itself, the first
/// on equal length, and the shorter is its beginning. `Err(Differs)` where a number that both hold
/// differs, which lists of two boxes of one site never do.
pub fn longer<'a>(first: &'a [u64], second: &'a [u64]) -> Result<&'a [u64], Refusal> {
    // SAFETY: two slices, each with its own length, that are only read.
    let which =
        unsafe { c::journal_longer(first.as_ptr(), first.len(), second.as_ptr(), second.len()) };
    match which {
        1 => Ok(first),
        2 => Ok(second),
        number => Err(answered(number).expect_err("journal_longer answers 1, 2 or 22")),
    }
}

/// The part of a list that begins with number `own`, from number `first` on: for two boxes that
/// keep different firsts, from the larger one on.
pub fn from_first(list: &[u64], own: u64, first: u64) -> &[u64] {
    let dropped = usize::try_from(first.saturating_sub(own)).unwrap_or(usize::MAX);
    list.get(dropped..).unwrap_or(&[])
}

impl Site<'_> {
    /// The run after an election: mails are handed over and the leader takes its own steps, at most
    /// so many. `Err(Condition)` in an odd epoch.
    pub fn run(&mut self, steps: u32) -> Result<Run, Refusal> {
        let mut used = 0;
        // SAFETY: two slices, each with its own length, and a number, that do not overlap.
        let number = unsafe {
            c::journal_run(
                self.site.as_mut_ptr(),
                self.site.len(),
                self.links.as_mut_ptr(),
                self.links.len(),
                steps,
                &mut used,
            )
        };
        match number.checked_sub(200) {
            Some(why) => Ok(Run::Stopped(refusal(why), used)),
            None => done(number).map(|()| Run::Ran(used)),
        }
    }
}

/// The pairing desk of the stereo gate in 64 lent words, where left and right frames wait with their
/// shutter ticks. Any 64 words are a desk, 64 zeros an empty one; with fewer every call is refused
/// with `Buffer`.
pub struct Desk<'a> {
    words: &'a mut [u64],
}

impl<'a> Desk<'a> {
    /// The desk of these words, with the frames that wait in them.
    pub fn of(words: &'a mut [u64]) -> Self {
        Desk { words }
    }

    /// Gives in a left frame.
    pub fn left(&mut self, frame: u32, tick: u32) -> Result<(), Refusal> {
        // SAFETY: a slice with its own length; so in the next three.
        done(unsafe {
            c::journal_desk_left(self.words.as_mut_ptr(), self.words.len(), frame, tick)
        })
    }

    /// Gives in a right frame. Left 7 and right 7 are different frames.
    pub fn right(&mut self, frame: u32, tick: u32) -> Result<(), Refusal> {
        done(unsafe {
            c::journal_desk_right(self.words.as_mut_ptr(), self.words.len(), frame, tick)
        })
    }

    /// Takes a waiting left frame from the desk.
    pub fn withdraw_left(&mut self, frame: u32) -> Result<(), Refusal> {
        done(unsafe {
            c::journal_desk_withdraw_left(self.words.as_mut_ptr(), self.words.len(), frame)
        })
    }

    /// Takes a waiting right frame from the desk.
    pub fn withdraw_right(&mut self, frame: u32) -> Result<(), Refusal> {
        done(unsafe {
            c::journal_desk_withdraw_right(self.words.as_mut_ptr(), self.words.len(), frame)
        })
    }

    /// Offers a waiting left frame to the site's leader with the nearest waiting right frame, whose
    /// number is the answer. The pair leaves the desk only so: a refused one stays.
    pub fn pair(&mut self, site: &mut Site<'_>, left: u32) -> Result<u32, Refusal> {
        let mut right = 0;
        // SAFETY: three slices, each with its own length, and a number, that do not overlap.
        done(unsafe {
            c::journal_desk_pair(
                self.words.as_mut_ptr(),
                self.words.len(),
                site.site.as_mut_ptr(),
                site.site.len(),
                site.links.as_mut_ptr(),
                site.links.len(),
                left,
                &mut right,
            )
        })?;
        Ok(right)
    }
}

impl<'a> Site<'a> {
    /// How many bytes the image has.
    pub fn image_length(&self) -> Result<usize, Refusal> {
        let mut length = 0;
        done(ask!(journal_image_length, self, &mut length))?;
        Ok(length)
    }

    /// Writes the image to the front of `image`: how many bytes it has.
    pub fn write(&self, image: &mut [u8]) -> Result<usize, Refusal> {
        let mut length = 0;
        done(ask!(journal_write, self, image.as_mut_ptr(), image.len(), &mut length))?;
        Ok(length)
    }

    /// The site of an image, in words that may hold anything.
    pub fn read(image: &[u8], site: &'a mut [u64], links: &'a mut [u64]) -> Result<Self, Refusal> {
        // SAFETY: three slices, each with its own length, that do not overlap.
        done(unsafe {
            c::journal_read(
                image.as_ptr(),
                image.len(),
                site.as_mut_ptr(),
                site.len(),
                links.as_mut_ptr(),
                links.len(),
            )
        })?;
        Ok(Site { site, links })
    }
}

/// What a box is told of its site: sizes, epoch, the present set (box k as 2^(k−1)), its own number.
#[derive(Clone, Copy, Debug, PartialEq, Eq)]
pub struct Setting {
    pub sizes: Sizes,
    pub epoch: u32,
    pub present: u32,
    pub me: u32,
}

/// A step that a box takes by itself: a leader, and for `Trim` any.
#[derive(Clone, Copy, Debug, PartialEq, Eq)]
pub enum Act {
    Recover,
    Collect,
    Ready,
    Offer(u32, u32),
    Propose,
    Agree,
    Finish,
    Heard,
    Trim(u32),
}

/// A box by itself: a step. The set that the letter in `out` goes to, 0 where there is none.
pub fn own_act(row: &mut [u64], out: &mut [u64], s: Setting, act: Act) -> Result<u32, Refusal> {
    let (r, rn, o, on) = (row.as_mut_ptr(), row.len(), out.as_mut_ptr(), out.len());
    let Setting {
        sizes: Sizes {
            boxes: n,
            loads: j,
            mails: l,
        },
        epoch,
        present,
        me,
    } = s;
    let mut set = 0u32;
    let to: *mut u32 = &mut set;
    // SAFETY: two slices, each with its own length, and a number, that do not overlap.
    done(unsafe {
        match act {
            Act::Recover => c::journal_own_recover(r, rn, o, on, to, n, j, l, epoch, present, me),
            Act::Collect => c::journal_own_collect(r, rn, o, on, to, n, j, l, epoch, present, me),
            Act::Ready => c::journal_own_ready(r, rn, o, on, to, n, j, l, epoch, present, me),
            Act::Offer(a, b) => {
                c::journal_own_offer(r, rn, o, on, to, n, j, l, epoch, present, me, a, b)
            }
            Act::Propose => c::journal_own_propose(r, rn, o, on, to, n, j, l, epoch, present, me),
            Act::Agree => c::journal_own_agree(r, rn, o, on, to, n, j, l, epoch, present, me),
            Act::Finish => c::journal_own_finish(r, rn, o, on, to, n, j, l, epoch, present, me),
            Act::Heard => c::journal_own_heard(r, rn, o, on, to, n, j, l, epoch, present, me),
            Act::Trim(k) => c::journal_own_trim(r, rn, o, on, to, n, j, l, epoch, present, me, k),
        }
    })?;
    Ok(set)
}

/// A box by itself: the letter of a sender. What became of it, and the set that `out` goes to.
pub fn own_mail(
    row: &mut [u64],
    letter: &[u64],
    out: &mut [u64],
    s: Setting,
    sender: u32,
) -> Result<(Mail, u32), Refusal> {
    let Setting {
        sizes: Sizes {
            boxes: n,
            loads: j,
            mails: l,
        },
        epoch,
        present,
        me,
    } = s;
    let mut set = 0u32;
    // SAFETY: three slices, each with its own length, and a number, that do not overlap.
    let mail = mailed(unsafe {
        c::journal_own_mail(
            row.as_mut_ptr(),
            row.len(),
            letter.as_ptr(),
            letter.len(),
            out.as_mut_ptr(),
            out.len(),
            &mut set,
            n,
            j,
            l,
            epoch,
            present,
            me,
            sender,
        )
    })?;
    Ok((mail, set))
}

/// A box by itself: the row becomes a fresh box, whatever its words were.
pub fn own_fresh(row: &mut [u64], sizes: Sizes) -> Result<(), Refusal> {
    let Sizes {
        boxes: n,
        loads: j,
        mails: l,
    } = sizes;
    // SAFETY: a slice with its own length.
    done(unsafe { c::journal_own_fresh(row.as_mut_ptr(), row.len(), n, j, l) })
}

/// A box by itself: box c is elected; `s` is what there is to know after it.
pub fn own_elected(row: &mut [u64], s: Setting, c: u32) -> Result<(), Refusal> {
    let Setting {
        sizes: Sizes {
            boxes: n,
            loads: j,
            mails: l,
        },
        epoch,
        present,
        me,
    } = s;
    // SAFETY: a slice with its own length.
    done(unsafe {
        c::journal_own_elected(row.as_mut_ptr(), row.len(), n, j, l, epoch, present, me, c)
    })
}

/// A box by itself: whether load k is agreed with these frames, as `Site::holds`.
pub fn own_holds(row: &[u64], s: Setting, k: u32, left: u32, right: u32) -> Result<(), Refusal> {
    let Setting {
        sizes: Sizes {
            boxes: n,
            loads: j,
            mails: l,
        },
        epoch,
        present,
        me,
    } = s;
    // SAFETY: a slice with its own length, that is only read.
    done(unsafe {
        c::journal_own_holds(
            row.as_ptr(),
            row.len(),
            n,
            j,
            l,
            epoch,
            present,
            me,
            k,
            left,
            right,
        )
    })
}

/// A box by itself: the present boxes that have not answered its lease, as `Site::unheard`.
pub fn own_unheard(row: &[u64], s: Setting) -> Result<u32, Refusal> {
    let Setting {
        sizes: Sizes {
            boxes: n,
            loads: j,
            mails: l,
        },
        epoch,
        present,
        me,
    } = s;
    let mut set = 0u32;
    // SAFETY: a slice with its own length, that is only read, and a number.
    done(unsafe {
        c::journal_own_unheard(
            row.as_ptr(),
            row.len(),
            &mut set,
            n,
            j,
            l,
            epoch,
            present,
            me,
        )
    })?;
    Ok(set)
}

/// The bodies of an image, in order and without copying: general, boxes 1 to n, mail. The image is
/// looked at once, when the reader is made.
#[derive(Clone, Debug)]
pub struct Bodies<'a> {
    image: &'a [u8],
    next: u32,
}

impl<'a> Bodies<'a> {
    /// A reader of these bytes: `Refusal::Form` where they are no site's image.
    pub fn open(image: &'a [u8]) -> Result<Self, Refusal> {
        body(image, 1)?;
        Ok(Bodies { image, next: 1 })
    }
}

impl<'a> Iterator for Bodies<'a> {
    type Item = &'a [u8];

    /// The next body; none after the last, each time.
    fn next(&mut self) -> Option<&'a [u8]> {
        let (mut begin, mut length) = (0, 0);
        let image = self.image;
        // SAFETY: the slice is the library's to read, and both numbers its to write.
        let number = unsafe {
            c::journal_named(
                image.as_ptr(),
                image.len(),
                &mut begin,
                &mut length,
                self.next,
            )
        };
        done(number).ok()?;
        self.next += 1;
        Some(&image[begin..begin + length])
    }
}

/// Body k of an image, from 1: `Refusal::Form` where the bytes are no site's image,
/// `Refusal::Condition` where k is no body's number.
pub fn body(image: &[u8], k: u32) -> Result<&[u8], Refusal> {
    let (mut begin, mut length) = (0, 0);
    // SAFETY: as above.
    let number = unsafe {
        c::journal_body(
            image.as_ptr(),
            image.len(),
            &mut begin,
            &mut length,
            k,
        )
    };
    done(number)?;
    Ok(&image[begin..begin + length])
}
