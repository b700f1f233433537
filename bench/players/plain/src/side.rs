//! The port's side of a discipline: modes, wire, counts, signals; echo and pieces of a write.

use crate::modes::*;
use crate::output::{self, Wire};

#[derive(Clone, Copy, Default, Debug)]
pub struct Counts {
    pub mark: u32,
    pub parity: u32,
    pub frame: u32,
    pub breaks: u32,
    pub cut: u32,
    pub echo: u32,
    pub pin: u32,
    pub pout: u32,
    pub pbad: u32,
    pub pfull: u32,
}

#[derive(Clone, Copy, Debug)]
pub enum Signal {
    Int,
    Quit,
    Susp,
}

/// A byte of the input that a run must leave to the rules of a single character.
const INPUT: u8 = 1;
/// A byte of the output that is not posted as itself in one column.
const OUTPUT: u8 = 2;

pub struct Side {
    pub modes: Modes,
    class: [u8; 256],
    pub wire: Wire,
    pub counts: Counts,
    pub signals: Vec<Signal>,
}

impl Side {
    pub fn new() -> Side {
        let mut side = Side {
            modes: Modes::SANE,
            class: [0; 256],
            wire: Wire::default(),
            counts: Counts::default(),
            signals: Vec::new(),
        };
        side.set_modes(Modes::SANE);
        side
    }

    pub fn set_modes(&mut self, modes: Modes) {
        self.modes = modes;
        let has = |flag| modes.has(flag);
        let class = &mut self.class;
        class.fill(0);
        class[..32].fill(OUTPUT);
        class[127] = OUTPUT;
        if has(IUTF8) {
            class[0x80..0xc0].fill(OUTPUT);
        }
        if has(ECHO) {
            class.iter_mut().for_each(|c| *c |= *c >> 1);
        }
        let mut mark = |b: u8| class[b as usize] |= INPUT;
        let mut mark_cc = |wanted: u32, places: &[usize]| {
            if has(wanted) {
                places
                    .iter()
                    .filter(|&&p| modes.cc[p] != 0)
                    .for_each(|&p| mark(modes.cc[p]));
            }
        };
        mark_cc(IXON, &[START, STOP]);
        mark_cc(ISIG, &[INTR, QUIT, SUSP]);
        mark_cc(ICANON, &[ERASE, KILL, EOF, EOL]);
        if has(IEXTEN) {
            mark_cc(ICANON, &[WERASE, LNEXT, EOL2]);
        }
        if has(IGNCR | ICRNL) {
            mark(b'\r');
        }
        if has(INLCR | ICANON) {
            mark(b'\n');
        }
        if has(PARMRK) {
            mark(0xff);
        }
        if has(ISTRIP) {
            class[0x80..].iter_mut().for_each(|c| *c |= INPUT);
        }
    }

    #[inline]
    pub fn plain_input(&self, b: u8) -> bool {
        self.class[b as usize] & INPUT == 0
    }

    #[inline]
    fn plain_output(&self, b: u8) -> bool {
        self.class[b as usize] & OUTPUT == 0
    }

    fn plain_run(&self, bytes: &[u8]) -> usize {
        bytes
            .iter()
            .position(|&b| !self.plain_output(b))
            .unwrap_or(bytes.len())
    }

    /// Puts bytes out that nothing halts.
    pub fn post_all(&mut self, bytes: &[u8], column: &mut u32) {
        let flags = self.modes.flags;
        if flags & OPOST == 0 {
            self.wire.wire.extend_from_slice(bytes);
            *column = bytes
                .iter()
                .fold(*column, |at, &b| output::moved(at, b, flags));
            return;
        }
        let mut rest = bytes;
        while !rest.is_empty() {
            let n = self.plain_run(rest);
            self.wire.wire.extend_from_slice(&rest[..n]);
            *column += n as u32;
            rest = &rest[n..];
            if let Some((&b, after)) = rest.split_first() {
                output::post(b, flags, column, &mut self.wire.wire);
                rest = after;
            }
        }
    }

    /// Echoes: whole, or not at all and counted where it does not fit in the room.
    pub fn echo(&mut self, bytes: &[u8], column: &mut u32) {
        if !self.wire.halted() {
            return self.post_all(bytes, column);
        }
        let (before, mark) = (*column, self.wire.held.len());
        for &b in bytes {
            output::post(b, self.modes.flags, column, &mut self.wire.held);
        }
        let posted = self.wire.held.len() - mark;
        if posted > output::ROOM - mark {
            self.wire.held.truncate(mark);
            *column = before;
            self.counts.echo += posted as u32;
        }
    }

    /// One piece of a write: how many bytes of it were taken.
    pub fn write_piece(&mut self, bytes: &[u8], column: &mut u32) -> usize {
        let piece = &bytes[..bytes.len().min(64)];
        if !self.wire.halted() {
            self.post_all(piece, column);
            return piece.len();
        }
        let flags = self.modes.flags;
        let mut n = 0;
        loop {
            let plain = self.plain_run(&piece[n..]).min(self.wire.room());
            self.wire.held.extend_from_slice(&piece[n..n + plain]);
            *column += plain as u32;
            n += plain;
            match piece.get(n) {
                Some(&b) if output::posted_len(b, flags, *column) <= self.wire.room() => {
                    output::post(b, flags, column, &mut self.wire.held);
                    n += 1;
                }
                _ => return n,
            }
        }
    }

    /// The rule for IXOFF: STOP is sent as input fills, and START as it empties.
    #[inline]
    pub fn ixoff(&mut self, unread: usize, lines: usize) {
        if !self.wire.noted && !self.modes.has(IXOFF) {
            return;
        }
        if self.wire.noted {
            if unread <= 128 || !self.modes.has(IXOFF) {
                self.wire.urgent(self.modes.cc[START]);
                self.wire.noted = false;
            }
        } else if unread > 3_968
            && (!self.modes.has(ICANON) || lines > 0)
            && self.modes.cc[STOP] != 0
        {
            self.wire.urgent(self.modes.cc[STOP]);
            self.wire.noted = true;
        }
    }
}
