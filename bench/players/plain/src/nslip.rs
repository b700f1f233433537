//! N_SLIP.  Packets are decoded in place: the one that is being received stands in
//! the slot behind those that wait.

use crate::session::{BREAK, Char, FRAME, OVERRUN};
use crate::side::Side;

pub const END: u8 = 0xc0;
pub const ESC: u8 = 0xdb;
const ESC_END: u8 = 0xdc;
const ESC_ESC: u8 = 0xdd;

pub const MOST: usize = 1_006;
const WAITING: usize = 64;
const SLOTS: usize = WAITING + 1;

pub struct NSlip {
    /// Each with one byte more, where those of a too long piece go.
    slots: Vec<[u8; MOST + 1]>,
    lens: [u16; SLOTS],
    first: usize,
    waiting: usize,
    /// Length of the begun piece; it may count on past `MOST`.
    len: usize,
    escaped: bool,
    bad: bool,
}

impl NSlip {
    /// The slots are made at the first `renew`.
    pub fn new() -> NSlip {
        NSlip {
            slots: Vec::new(),
            lens: [0; SLOTS],
            first: 0,
            waiting: 0,
            len: 0,
            escaped: false,
            bad: false,
        }
    }

    pub fn renew(&mut self) {
        if self.slots.is_empty() {
            self.slots = vec![[0; MOST + 1]; SLOTS];
        }
        self.flush_in();
        self.begin();
    }

    fn begin(&mut self) {
        self.len = 0;
        self.escaped = false;
        self.bad = false;
    }

    fn tail(&self) -> usize {
        (self.first + self.waiting) % SLOTS
    }

    /// Empties the queue; a begun piece goes on.
    pub fn flush_in(&mut self) {
        self.first = self.tail();
        self.waiting = 0;
    }

    pub fn first_len(&self) -> usize {
        if self.waiting == 0 {
            0
        } else {
            self.lens[self.first] as usize
        }
    }

    pub fn take(&mut self) -> Option<&[u8]> {
        if self.waiting == 0 {
            return None;
        }
        let at = self.first;
        self.first = (at + 1) % SLOTS;
        self.waiting -= 1;
        Some(&self.slots[at][..self.lens[at] as usize])
    }

    pub fn receive_all(&mut self, chars: &[Char], side: &mut Side) {
        let mut rest = chars;
        loop {
            if !self.escaped {
                rest = &rest[self.add_plain(rest)..];
            }
            let Some((&c, after)) = rest.split_first() else {
                return;
            };
            rest = after;
            match c as u8 {
                _ if c > 0xff => self.flagged(c, side),
                END => self.finish(side),
                ESC if !self.escaped => self.escaped = true,
                b => {
                    self.escaped = false;
                    self.add(unescaped(b));
                }
            }
        }
    }

    fn add(&mut self, b: u8) {
        let at = self.tail();
        self.slots[at][self.len.min(MOST)] = b;
        self.len += 1;
    }

    /// Adds the good bytes without END and ESC that stand in front, and answers how many.
    #[inline]
    fn add_plain(&mut self, chars: &[Char]) -> usize {
        let at = self.tail();
        let slot = &mut self.slots[at];
        let start = self.len;
        for &c in chars {
            if c > 0xff || c == Char::from(END) || c == Char::from(ESC) {
                break;
            }
            slot[self.len.min(MOST)] = c as u8;
            self.len += 1;
        }
        self.len - start
    }

    fn flagged(&mut self, c: Char, side: &mut Side) {
        let counts = &mut side.counts;
        match c & 0xff00 {
            OVERRUN => counts.mark += 1,
            BREAK => counts.breaks += 1,
            FRAME => counts.frame += 1,
            _ => counts.parity += 1,
        }
        self.bad = true;
    }

    fn finish(&mut self, side: &mut Side) {
        if self.bad || self.len > MOST {
            side.counts.pbad += 1;
        } else if self.len > 0 {
            if self.waiting == WAITING {
                side.counts.pfull += 1;
            } else {
                let at = self.tail();
                self.lens[at] = self.len as u16;
                self.waiting += 1;
                side.counts.pin += 1;
            }
        }
        self.begin();
    }
}

/// The byte that ESC and this byte spell.
fn unescaped(b: u8) -> u8 {
    match b {
        ESC_END => END,
        ESC_ESC => ESC,
        b => b,
    }
}

/// Appends the packet's frame.
pub fn encode(packet: &[u8], out: &mut Vec<u8>) {
    out.push(END);
    for &b in packet {
        match b {
            END => out.extend_from_slice(&[ESC, ESC_END]),
            ESC => out.extend_from_slice(&[ESC, ESC_ESC]),
            b => out.push(b),
        }
    }
    out.push(END);
}

pub fn encoded_len(packet: &[u8]) -> usize {
    packet.len() + packet.iter().filter(|&&b| b == END || b == ESC).count() + 2
}
