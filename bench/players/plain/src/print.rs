//! Report and journal text.

use crate::hex;
use crate::journal::*;
use crate::play::Played;
use crate::session::*;
use crate::side::{Counts, Signal};
use std::io::{Result, Write};

#[inline]
pub fn number(out: &mut Vec<u8>, n: u64) {
    if n < 10 {
        out.push(b'0' + n as u8)
    } else {
        long_number(out, n)
    }
}

fn long_number(out: &mut Vec<u8>, n: u64) {
    let mut digits = [0; 20];
    let (mut at, mut rest) = (20, n);
    loop {
        at -= 1;
        digits[at] = b'0' + (rest % 10) as u8;
        rest /= 10;
        if rest == 0 {
            break;
        }
    }
    out.extend_from_slice(&digits[at..]);
}

/// The report goes out in pieces of about this size.
const PIECE: usize = 1 << 16;

/// Gives a full piece to the sink.
#[inline]
fn pass(out: &mut Vec<u8>, sink: &mut impl Write) -> Result<()> {
    if out.len() >= PIECE {
        sink.write_all(out)?;
        out.clear();
    }
    Ok(())
}

/// Appends text and numbers in turn.
macro_rules! say {
    ($out:expr, $($item:expr),* $(,)?) => {{ $( $item.say($out); )* }};
}

trait Say {
    fn say(&self, out: &mut Vec<u8>);
}

impl Say for &str {
    #[inline]
    fn say(&self, out: &mut Vec<u8>) {
        out.extend_from_slice(self.as_bytes());
    }
}

impl Say for &[u8] {
    #[inline]
    fn say(&self, out: &mut Vec<u8>) {
        out.extend_from_slice(self);
    }
}

impl Say for usize {
    #[inline]
    fn say(&self, out: &mut Vec<u8>) {
        number(out, *self as u64);
    }
}

impl Say for u32 {
    #[inline]
    fn say(&self, out: &mut Vec<u8>) {
        number(out, u64::from(*self));
    }
}

fn counts(out: &mut Vec<u8>, c: &Counts) {
    say!(
        out, "mark=", c.mark, " parity=", c.parity, " frame=", c.frame, " break=", c.breaks
    );
    say!(
        out, " cut=", c.cut, " echo=", c.echo, " pin=", c.pin, " pout=", c.pout
    );
    say!(out, " pbad=", c.pbad, " pfull=", c.pfull);
}

fn answer(out: &mut Vec<u8>, played: &Played, answer: &Answer) {
    let port = &played.port;
    match *answer {
        Answer::Done => say!(out, "ok"),
        Answer::Number(n) => say!(out, n),
        Answer::Got { len: 0, .. } => say!(out, "0"),
        Answer::Got { len, start } => {
            say!(out, u32::from(len), " ");
            hex::encode(&port.got[start as usize..][..len as usize], out);
        }
        Answer::Modes(at) => port.modes_seen[at as usize].print(out),
        Answer::Counts(at) => counts(out, &port.counts_seen[at as usize]),
        Answer::Refused(errno) => say!(out, errno.text()),
        Answer::Idle => say!(out, "idle"),
    }
}

fn calls(
    out: &mut Vec<u8>,
    sink: &mut impl Write,
    session: &Session,
    p: usize,
    played: &Played,
    answers: &[u32],
) -> Result<()> {
    let script = &session.ports[p];
    for block in script.phases.iter().flat_map(|phase| &phase.callers) {
        let name = name_of(&script.names[block.who as usize]);
        for (step, at) in (block.first_step..).zip(block.calls.range()) {
            say!(
                out,
                p,
                ".",
                name,
                ".",
                step,
                " ",
                session.calls[at].kind.verb(),
                " "
            );
            if let Event::Answer { answer: given, .. } =
                &played.port.journal[answers[at] as usize].event
            {
                answer(out, played, given);
            }
            say!(out, "\n");
            pass(out, sink)?;
        }
    }
    Ok(())
}

fn port(
    out: &mut Vec<u8>,
    sink: &mut impl Write,
    session: &Session,
    p: usize,
    played: &Played,
) -> Result<()> {
    let (port, receiver) = (&played.port, &played.receiver);
    say!(
        out,
        "port ",
        p,
        " line arrived=",
        receiver.arrived,
        " lost=",
        receiver.lost
    );
    say!(
        out,
        " sent=",
        port.flip.sent.len(),
        " overrun=",
        receiver.overruns.len()
    );
    if session.version == 2 {
        say!(out, " flip=", port.flip.capacity);
    }
    say!(out, "\nport ", p, " input taken=", taken(played));
    say!(out, " dropped=", port.dropped, "\nport ", p, " counts ");
    counts(out, &port.side.counts);
    say!(out, "\nport ", p, " signals ");
    if port.side.signals.is_empty() {
        say!(out, "-");
    }
    for (i, signal) in port.side.signals.iter().enumerate() {
        let name = match signal {
            Signal::Int => "INT",
            Signal::Quit => "QUIT",
            Signal::Susp => "SUSP",
        };
        say!(out, if i > 0 { " " } else { "" }, name);
    }
    say!(
        out,
        "\nport ",
        p,
        " generation ",
        port.generation,
        "\nport ",
        p,
        " wire "
    );
    if port.side.wire.wire.is_empty() {
        say!(out, "-");
    }
    for bytes in port.side.wire.wire.chunks(PIECE / 2) {
        hex::encode(bytes, out);
        pass(out, sink)?;
    }
    say!(out, "\n");
    Ok(())
}

/// The characters of the journal's Flush entries.
pub fn taken(played: &Played) -> usize {
    played.port.flip.taken - played.port.dropped
}

fn chars(out: &mut Vec<u8>, chars: &[Char]) {
    if chars.is_empty() {
        say!(out, "-");
    }
    for &c in chars {
        out.push(b"nbpfo"[usize::from(c >> 8)]);
        hex::encode(&[c as u8], out);
    }
}

fn journal(
    out: &mut Vec<u8>,
    sink: &mut impl Write,
    session: &Session,
    p: usize,
    played: &Played,
) -> Result<()> {
    let names = &session.ports[p].names;
    let receiver = &played.receiver;
    let mut rest = &played.port.flip.sent[..];
    let mut next = |n: u32| {
        let (now, after) = rest.split_at(n as usize);
        rest = after;
        now
    };
    say!(out, "journal ", p, " ", played.port.journal.len(), "\n");
    for entry in &played.port.journal {
        let who: &[u8] = match entry.who {
            FLUSHER => b"*flush",
            LINE => b"*line",
            CLOCK => b"*clock",
            SESSION => b"*session",
            caller => name_of(&names[caller as usize]),
        };
        say!(
            out,
            who,
            " ",
            entry.step,
            " ",
            entry.part,
            " ",
            entry.generation,
            " "
        );
        match entry.event {
            Event::Answer {
                answer: given,
                dropped,
            } => {
                say!(out, "answer ");
                answer(out, played, &given);
                if dropped > 0 {
                    say!(out, " drop ");
                    chars(out, next(dropped));
                }
            }
            Event::Part(n) => say!(out, "part ", n),
            Event::Wait => say!(out, "wait"),
            Event::Flush(n) => {
                say!(out, "flush ");
                chars(out, next(n));
            }
            Event::Tick => say!(out, "tick"),
            Event::LineEnd(n) => say!(out, "line_end ", n),
            Event::ClockEnd => say!(out, "clock_end"),
            Event::CallerEnd => say!(out, "caller_end"),
            Event::PhaseEnd => say!(out, "phase_end"),
            Event::Hangup(n) => {
                say!(out, "hangup ");
                chars(out, next(n));
            }
        }
        say!(out, "\n");
        pass(out, sink)?;
    }
    say!(out, "overruns ", p, " ", receiver.overruns.len(), "\n");
    for overrun in &receiver.overruns {
        say!(out, overrun.at, " ", overrun.sent, " ", overrun.seen, "\n");
        pass(out, sink)?;
    }
    say!(
        out,
        "line ",
        p,
        " ",
        receiver.arrived,
        " ",
        receiver.lost,
        " "
    );
    say!(out, played.port.flip.sent.len(), "\n");
    Ok(())
}

pub fn report(
    sink: &mut impl Write,
    session: &Session,
    runs: &[Played],
    answers: &[u32],
    journals: bool,
) -> Result<()> {
    let mut out = Vec::with_capacity(2 * PIECE);
    let out = &mut out;
    for (p, played) in runs.iter().enumerate() {
        calls(out, sink, session, p, played, answers)?;
    }
    for (p, played) in runs.iter().enumerate() {
        port(out, sink, session, p, played)?;
    }
    if journals {
        say!(out, "journals\n");
        for (p, played) in runs.iter().enumerate() {
            journal(out, sink, session, p, played)?;
        }
    }
    say!(out, "done\n");
    sink.write_all(out)
}

/// The summary of `gen N`.
pub fn summary(n: u32, session: &Session, runs: &[Played]) -> Vec<u8> {
    let sum = |of: fn(&Played) -> usize| runs.iter().map(of).sum::<usize>();
    let mut out = Vec::new();
    say!(&mut out, "gen ", n, "\ncalls ", session.calls.len());
    say!(
        &mut out,
        "\narrived ",
        sum(|r| r.receiver.arrived as usize),
        "\ntaken ",
        sum(taken)
    );
    say!(&mut out, "\nbytes ", sum(|r| r.port.got.len()));
    say!(
        &mut out,
        "\ngenerations ",
        sum(|r| r.port.generation as usize),
        "\ndone\n"
    );
    out
}
