//! A port: handles, discipline, journal, and what happens to it but for calls.

use crate::journal::*;
use crate::modes::Modes;
use crate::nslip::NSlip;
use crate::ntty::NTty;
use crate::receiver::Flip;
use crate::session::Access;
use crate::side::{Counts, Side};

mod calls;

#[derive(Clone, Copy)]
pub struct Handle {
    access: Access,
    nonblock: bool,
    live: bool,
}

/// The handle that a waiting call, or a write with parts, began with.
#[derive(Clone, Copy)]
struct Bound {
    handle: Handle,
    closed: bool,
}

/// A caller in its phase.
pub struct Caller {
    pub who: u16,
    pub step: u32,
    /// Place of its next call, and where its calls of this phase end.
    pub call: u32,
    pub end: u32,
    pub ended: bool,
    pub waits: bool,
    since: u32,
    parts: u32,
    written: usize,
    generation: u32,
    h: u8,
    bound: Option<Bound>,
}

impl Caller {
    pub fn new(script: &crate::session::Script) -> Caller {
        Caller {
            who: script.who,
            step: script.first_step,
            call: script.calls.start,
            end: script.calls.end,
            ended: false,
            waits: false,
            since: 0,
            parts: 0,
            written: 0,
            generation: 0,
            h: 0,
            bound: None,
        }
    }
}

pub struct Port {
    pub flip: Flip,
    pub side: Side,
    handles: [Option<Handle>; 32],
    live: usize,
    exclusive: bool,
    slip_on: bool,
    tty: NTty,
    slip: NSlip,
    pub generation: u32,
    tick: u32,
    runs: u32,
    /// How many characters answers and hangups have dropped.
    pub dropped: usize,
    pub journal: Vec<Entry>,
    pub got: Vec<u8>,
    pub modes_seen: Vec<Modes>,
    pub counts_seen: Vec<Counts>,
    /// The callers of this phase, in the text's order.
    pub callers: Vec<Caller>,
}

impl Port {
    pub fn new(capacity: usize, chars: usize) -> Port {
        Port {
            flip: Flip::new(capacity, chars),
            side: Side::new(),
            handles: [None; 32],
            live: 0,
            exclusive: false,
            slip_on: false,
            tty: NTty::new(),
            slip: NSlip::new(),
            generation: 0,
            tick: 0,
            runs: 0,
            dropped: 0,
            journal: Vec::new(),
            got: Vec::new(),
            modes_seen: Vec::new(),
            counts_seen: Vec::new(),
            callers: Vec::new(),
        }
    }

    #[inline]
    pub fn note(&mut self, who: u16, step: u32, part: u32, event: Event) {
        let generation = self.generation;
        self.journal.push(Entry {
            who,
            step,
            part,
            generation,
            event,
        });
    }

    #[inline]
    pub fn accepts(&self) -> bool {
        self.slip_on || self.tty.accepts(&self.side.modes)
    }

    /// A flush run, where one can be.
    #[inline]
    pub fn flush_run(&mut self) {
        if self.live == 0 || self.flip.len() == 0 || !self.accepts() {
            return;
        }
        let run = self.runs;
        self.runs += 1;
        let mut part = 0;
        loop {
            let chars = self.flip.waiting();
            let piece = &chars[..chars.len().min(64)];
            let n = if self.slip_on {
                self.slip.receive_all(piece, &mut self.side);
                piece.len()
            } else {
                self.tty.receive_all(piece, self.tick, &mut self.side)
            };
            self.flip.taken += n;
            self.note(FLUSHER, run, part, Event::Flush(n as u32));
            part += 1;
            if self.flip.len() == 0 || !self.accepts() {
                return;
            }
        }
    }

    pub fn clock_tick(&mut self, phase: u32) {
        self.note(CLOCK, phase, 0, Event::Tick);
        self.tick += 1;
    }

    pub fn last_hangup(&mut self, phases: u32) {
        let dropped = self.flip.len() as u32;
        self.note(SESSION, phases, 0, Event::Hangup(dropped));
        self.hangup();
    }

    /// Drops what stands in the flip buffer.
    fn drop_flip(&mut self) -> u32 {
        let dropped = self.flip.len();
        self.flip.taken += dropped;
        self.dropped += dropped;
        dropped as u32
    }

    fn install(&mut self, slip: bool) {
        self.slip_on = slip;
        if slip {
            self.slip.renew();
        } else {
            self.tty.renew();
        }
        self.generation += 1;
    }

    fn hangup(&mut self) -> u32 {
        for handle in self.handles.iter_mut().flatten() {
            handle.live = false;
        }
        for bound in self.callers.iter_mut().filter_map(|c| c.bound.as_mut()) {
            bound.handle.live = false;
        }
        self.live = 0;
        self.exclusive = false;
        self.side.wire.reset();
        self.install(false);
        self.drop_flip()
    }

    fn close(&mut self, h: u8) {
        let Some(handle) = self.handles[h as usize].take() else {
            return;
        };
        if !handle.live {
            return;
        }
        for caller in self.callers.iter_mut().filter(|c| c.h == h) {
            if let Some(bound) = &mut caller.bound {
                bound.closed |= bound.handle.live;
            }
        }
        self.live -= 1;
        if self.live == 0 {
            self.exclusive = false;
            self.side.wire.release();
            self.install(false);
        }
    }

    /// What `flush in` does.
    fn flush_in(&mut self) -> u32 {
        if self.slip_on {
            self.slip.flush_in();
        } else {
            self.tty.flush_in();
        }
        self.drop_flip()
    }

    fn set_modes(&mut self, new: Modes) {
        let old = self.side.modes;
        self.side.set_modes(new);
        if !self.slip_on {
            self.tty.recast(&old, &new);
        }
        if old.has(crate::modes::IXON) && !new.has(crate::modes::IXON) {
            self.side.wire.resume();
        }
    }

    fn ixoff(&mut self) {
        if self.slip_on {
            self.side.ixoff(0, 0);
        } else {
            self.tty.ixoff(&mut self.side);
        }
    }
}
