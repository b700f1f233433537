//! N_TTY: the unread bytes with the edited line behind them in one ring, and reading.

use crate::modes::*;
use crate::side::Side;
use std::collections::VecDeque;

mod input;

const SIZE: usize = 4_096;
const MOST_LINE: usize = 4_095;
const MOST_ENDS: usize = 4_096;

/// Positions count all bytes ever stored.  `tail..canon` are complete pieces, or plain bytes
/// without icanon; `canon..head` is the edited line.
pub struct NTty {
    ring: Box<[u8; SIZE]>,
    tail: u32,
    canon: u32,
    head: u32,
    /// Where the complete pieces end.
    ends: VecDeque<u32>,
    quoted: bool,
    /// The edited line's start column.
    start: u32,
    pub column: u32,
    last: u32,
    echo: Vec<u8>,
}

impl NTty {
    pub fn new() -> NTty {
        NTty {
            ring: Box::new([0; SIZE]),
            tail: 0,
            canon: 0,
            head: 0,
            ends: VecDeque::new(),
            quoted: false,
            start: 0,
            column: 0,
            last: 0,
            echo: Vec::new(),
        }
    }

    /// A fresh discipline in the place of this one.
    pub fn renew(&mut self) {
        self.flush_in();
        self.column = 0;
    }

    /// Drops unread input, edited line and quoting mark.
    pub fn flush_in(&mut self) {
        self.tail = self.head;
        self.canon = self.head;
        self.ends.clear();
        self.quoted = false;
    }

    #[inline]
    pub fn unread(&self) -> usize {
        (self.head - self.tail) as usize
    }

    /// The most unread bytes with which a character is accepted by their number.
    #[inline]
    fn bound(modes: &Modes) -> usize {
        if modes.has(PARMRK) { 4_092 } else { 4_094 }
    }

    #[inline]
    pub fn accepts(&self, modes: &Modes) -> bool {
        self.ends.len() < MOST_ENDS
            && (self.unread() <= Self::bound(modes) || (modes.has(ICANON) && self.ends.is_empty()))
    }

    pub fn inq(&self) -> usize {
        (self.canon - self.tail) as usize
    }

    /// `since` is the tick of the Wait of a call on a blocking handle.
    pub fn ready(&self, n: u32, modes: &Modes, nonblock: bool, since: u32, now: u32) -> bool {
        if modes.has(ICANON) {
            return !self.ends.is_empty();
        }
        let unread = self.unread() as u32;
        let (min, time) = (u32::from(modes.cc[MIN]), u32::from(modes.cc[TIME]));
        if nonblock {
            return unread > 0 || (min == 0 && time == 0);
        }
        match (min, time) {
            (0, 0) => true,
            (_, 0) => unread >= min.min(n),
            (0, _) => unread > 0 || now - since >= time,
            _ => unread >= min.min(n) || (unread > 0 && now - since.max(self.last) >= time),
        }
    }

    /// A read that is ready; its bytes go to the end of `out`.
    pub fn read(&mut self, n: u32, modes: &Modes, out: &mut Vec<u8>) -> usize {
        let end = if modes.has(ICANON) {
            self.ends[0]
        } else {
            self.head
        };
        let have = end - self.tail;
        let n = have.min(n);
        let from = self.tail as usize % SIZE;
        let first = (n as usize).min(SIZE - from);
        out.extend_from_slice(&self.ring[from..from + first]);
        out.extend_from_slice(&self.ring[..n as usize - first]);
        self.tail += n;
        if modes.has(ICANON) {
            if n == have {
                self.ends.pop_front();
            }
        } else {
            self.canon = self.head;
        }
        n as usize
    }

    /// Modes have changed from `old` to `new`.
    pub fn recast(&mut self, old: &Modes, new: &Modes) {
        if old.has(ICANON) && !new.has(ICANON) {
            self.ends.clear();
            self.canon = self.head;
            self.quoted = false;
        } else if !old.has(ICANON) && new.has(ICANON) {
            if self.unread() > 0 {
                self.ends.push_back(self.head);
            }
            self.canon = self.head;
        }
    }

    pub fn ixoff(&self, side: &mut Side) {
        side.ixoff(self.unread(), self.ends.len());
    }

    fn line_len(&self) -> usize {
        (self.head - self.canon) as usize
    }

    fn at(&self, position: u32) -> u8 {
        self.ring[position as usize % SIZE]
    }

    #[inline]
    fn push(&mut self, b: u8) {
        self.ring[self.head as usize % SIZE] = b;
        self.head += 1;
    }

    fn push_all(&mut self, bytes: &[u8]) {
        let from = self.head as usize % SIZE;
        if let Some(to) = self.ring.get_mut(from..from + bytes.len()) {
            to.copy_from_slice(bytes);
        } else {
            let (first, second) = bytes.split_at(SIZE - from);
            self.ring[from..].copy_from_slice(first);
            self.ring[..second.len()].copy_from_slice(second);
        }
        self.head += bytes.len() as u32;
    }

    /// The width of the byte at a position of the edited line.
    fn width(&self, position: u32, modes: &Modes) -> u32 {
        let b = self.at(position);
        match b {
            0x80..=0xbf if modes.has(IUTF8) => 0,
            b'\n' => 0,
            b'\t' => {
                let (mut at, mut sum) = (position, 0);
                loop {
                    if at == self.canon {
                        sum += self.start;
                        break;
                    }
                    at -= 1;
                    if self.at(at) == b'\t' {
                        break;
                    }
                    sum += self.width(at, modes);
                }
                8 - sum % 8
            }
            0..=31 | 127 => {
                if modes.has(ECHOCTL) {
                    2
                } else {
                    0
                }
            }
            _ => 1,
        }
    }
}
