//! Another program, a shell command, on an input handed over in pieces: what it writes, and how it
//! ends. By the manuals 0 is read to its end and 1 is a line refused; any other end is a death.

use crate::trace::Said;
use std::fmt;
use std::io::{Read, Write};
use std::os::unix::process::CommandExt;
use std::process::{Child, Command, ExitStatus, Stdio};
use std::sync::mpsc;
use std::time::{Duration, Instant};

pub struct Other {
    pub command: String,
    /// How long a run may take.
    pub limit: Duration,
}

pub enum End {
    Ended(ExitStatus),
    NotWithin(Duration),
}

pub struct Run {
    pub text: Vec<u8>,
    pub end: End,
    /// Its standard error.
    pub said: Vec<u8>,
}

#[derive(Clone, Copy, PartialEq, Eq)]
pub enum Verdict {
    Same,
    Differs,
    Dies,
}

impl fmt::Display for End {
    fn fmt(&self, to: &mut fmt::Formatter) -> fmt::Result {
        match self {
            End::Ended(status) => write!(to, "{status}"),
            End::NotWithin(limit) => write!(to, "no end within {} s", limit.as_secs()),
        }
    }
}

impl fmt::Display for Verdict {
    fn fmt(&self, to: &mut fmt::Formatter) -> fmt::Result {
        to.write_str(match self {
            Verdict::Same => "is the same",
            Verdict::Differs => "differs",
            Verdict::Dies => "dies",
        })
    }
}

impl Run {
    pub fn hangs(&self) -> bool {
        matches!(self.end, End::NotWithin(_))
    }

    fn status(&self) -> Option<i32> {
        match self.end {
            End::Ended(status) => status.code(),
            End::NotWithin(_) => None,
        }
    }

    /// Every byte and the status must be the same.
    pub fn against(&self, expected: &Said) -> Verdict {
        match self.status() {
            Some(0 | 1) if self.text != expected.text => Verdict::Differs,
            Some(status @ (0 | 1)) if status != expected.status() => Verdict::Differs,
            Some(0 | 1) => Verdict::Same,
            _ => Verdict::Dies,
        }
    }
}

/// Reads to the end in a thread, and tells when that has come.
fn reader(mut pipe: impl Read + Send + 'static) -> mpsc::Receiver<Vec<u8>> {
    let (tell, told) = mpsc::channel();
    std::thread::spawn(move || {
        let mut bytes = vec![];
        // what was read before a failure counts
        let _ = pipe.read_to_end(&mut bytes);
        let _ = tell.send(bytes);
    });
    told
}

/// The status of a program that has closed its output or died; None where it goes on.
fn ended(child: &mut Child, until: Instant) -> Option<ExitStatus> {
    loop {
        match child.try_wait().expect("a child's status") {
            None if Instant::now() < until => std::thread::sleep(Duration::from_millis(1)),
            status => return status,
        }
    }
}

impl Other {
    /// For the search after a run that had no end: each try may be another.
    pub fn quicker(&self) -> Other {
        let limit = (self.limit / 30).max(Duration::from_secs(1));
        Other { command: self.command.clone(), limit }
    }

    pub fn run(&self, input: &[u8], piece: usize) -> Run {
        let fail = |e: std::io::Error| -> Child { panic!("{}: {e}", self.command) };
        let mut child = Command::new("sh")
            .args(["-c", &format!("exec {}", self.command)])
            .stdin(Stdio::piped())
            .stdout(Stdio::piped())
            .stderr(Stdio::piped())
            .process_group(0)
            .spawn()
            .unwrap_or_else(fail);
        let until = Instant::now() + self.limit;
        let (out, err) = (child.stdout.take().unwrap(), child.stderr.take().unwrap());
        let (out, err) = (reader(out), reader(err));
        let mut pipe = child.stdin.take().unwrap();
        let input = input.to_vec();
        // the other program may end before it has read everything
        std::thread::spawn(move || input.chunks(piece).try_for_each(|p| pipe.write_all(p)));
        let text = out.recv_timeout(self.limit).ok();
        let status = text.as_ref().and_then(|_| ended(&mut child, until));
        if status.is_none() {
            kill(&mut child);
        }
        // not for ever: something that it started may still hold a pipe
        let rest = |pipe: mpsc::Receiver<Vec<u8>>| pipe.recv_timeout(Duration::from_secs(5));
        Run {
            text: text.unwrap_or_else(|| rest(out).unwrap_or_default()),
            end: status.map_or(End::NotWithin(self.limit), End::Ended),
            said: rest(err).unwrap_or_default(),
        }
    }
}

/// Ends the child and what it has started.
fn kill(child: &mut Child) {
    let all = format!("kill -s KILL -- -{}", child.id());
    let _ = Command::new("sh").args(["-c", &all]).stderr(Stdio::null()).status();
    let _ = child.wait();
}
