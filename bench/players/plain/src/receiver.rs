//! The 16550 receiver with its handler, and the flip buffer.
//!
//! The driver never changes IER, and a handler run leaves the FIFO empty.  So an interrupt is
//! pending exactly where the front is flagged, the trigger is reached, or four idle character
//! times have passed since the last arrival.

use crate::session::{Char, OVERRUN};

/// The flip buffer: of all characters sent, those from `taken` on are still in it.  The list
/// before `taken` is what the journal's entries took, so it is kept anyway.
pub struct Flip {
    pub sent: Vec<Char>,
    pub taken: usize,
    pub capacity: usize,
}

impl Flip {
    pub fn new(capacity: usize, chars: usize) -> Flip {
        Flip {
            sent: Vec::with_capacity(chars),
            taken: 0,
            capacity,
        }
    }

    #[inline]
    pub fn len(&self) -> usize {
        self.sent.len() - self.taken
    }

    #[inline]
    pub fn waiting(&self) -> &[Char] {
        &self.sent[self.taken..]
    }
}

pub struct Overrun {
    pub at: u32,
    pub sent: u32,
    pub seen: u32,
}

const FIFO: usize = 16;

pub struct Receiver {
    fifo: [Char; FIFO],
    count: usize,
    overrun: bool,
    idle: u32,
    trigger: usize,
    pub masked: bool,
    pub arrived: u32,
    pub lost: u32,
    handed: u32,
    pub overruns: Vec<Overrun>,
}

impl Receiver {
    pub fn new() -> Receiver {
        Receiver {
            fifo: [0; FIFO],
            count: 0,
            overrun: false,
            idle: 0,
            trigger: 8,
            masked: false,
            arrived: 0,
            lost: 0,
            handed: 0,
            overruns: Vec::new(),
        }
    }

    pub fn idle(&mut self, times: u32) {
        self.idle = self.idle.saturating_add(times);
    }

    pub fn trigger(&mut self, trigger: u8) {
        self.trigger = trigger as usize;
    }

    /// Takes arrivals with one flag from the front of `bytes`, at least one and no more than up
    /// to the next moment at which the handler may run, and answers how many.
    #[inline]
    pub fn arrive(&mut self, flag: Char, bytes: &[u8]) -> usize {
        self.idle = 0;
        let room = if self.masked {
            FIFO - self.count
        } else if flag != 0 && self.count == 0 {
            1
        } else {
            self.trigger - self.count
        };
        let n = if room == 0 {
            bytes.len()
        } else {
            room.min(bytes.len())
        };
        if room == 0 {
            self.overrun = true;
            self.lost += n as u32;
        } else {
            for (to, &b) in self.fifo[self.count..].iter_mut().zip(&bytes[..n]) {
                *to = flag | Char::from(b);
            }
            self.count += n;
        }
        self.arrived += n as u32;
        n
    }

    #[inline]
    pub fn pending(&self) -> bool {
        self.count > 0 && (self.count >= self.trigger || self.idle >= 4 || self.fifo[0] > 0xff)
    }

    /// One run of the handler: all of the FIFO goes to the flip buffer.
    #[inline]
    pub fn handle(&mut self, flip: &mut Flip) {
        let n = std::mem::take(&mut self.count);
        if std::mem::take(&mut self.overrun) {
            self.put(flip, 0, 1);
            self.put_one(flip, OVERRUN);
            self.put(flip, 1, n);
        } else {
            self.put(flip, 0, n);
        }
    }

    #[inline]
    fn put(&mut self, flip: &mut Flip, from: usize, to: usize) {
        if to - from <= flip.capacity - flip.len() {
            flip.sent.extend_from_slice(&self.fifo[from..to]);
            self.handed += (to - from) as u32;
        } else {
            for i in from..to {
                self.put_one(flip, self.fifo[i]);
            }
        }
    }

    fn put_one(&mut self, flip: &mut Flip, c: Char) {
        if flip.len() < flip.capacity {
            flip.sent.push(c);
        } else {
            let (sent, seen) = (flip.sent.len() as u32, flip.taken as u32);
            self.overruns.push(Overrun {
                at: self.handed,
                sent,
                seen,
            });
        }
        self.handed += 1;
    }
}
