//! The calls of a port.

use super::{Bound, Handle, Port};
use crate::journal::*;
use crate::modes::{START, STOP, Word};
use crate::nslip;
use crate::output;
use crate::session::*;

enum Outcome {
    Answer(Answer),
    Dropped(u32),
    Part(usize),
    Wait,
}

use Outcome::{Dropped, Part, Wait};

const DONE: Outcome = Outcome::Answer(Answer::Done);

fn refused(errno: Errno) -> Outcome {
    Outcome::Answer(Answer::Refused(errno))
}

fn number(n: usize) -> Outcome {
    Outcome::Answer(Answer::Number(n as u32))
}

impl Port {
    /// Lets caller `i` go on with its call until it is answered or waits.  `answers` gets the
    /// place of each call's answer in the journal.
    pub fn go_on(&mut self, i: usize, session: &Session, answers: &mut [u32]) {
        let call = session.calls[self.callers[i].call as usize];
        loop {
            let generation = self.generation;
            let outcome = match call.kind {
                Kind::Write(bytes) => self.write(i, call.h, &session.data[bytes.range()]),
                _ => self.outcome(i, &call, session),
            };
            let caller = &mut self.callers[i];
            let (who, step, part) = (caller.who, caller.step, caller.parts);
            let event = match outcome {
                Outcome::Answer(answer) => Event::Answer { answer, dropped: 0 },
                Dropped(dropped) => Event::Answer {
                    answer: Answer::Done,
                    dropped,
                },
                Part(n) => {
                    caller.parts += 1;
                    caller.written += n;
                    caller.waits = false;
                    if part == 0 {
                        caller.generation = generation;
                    }
                    self.bind(i, call.h);
                    self.note(who, step, part, Event::Part(n as u32));
                    continue;
                }
                Wait => {
                    if !caller.waits {
                        caller.waits = true;
                        caller.since = self.tick;
                        self.bind(i, call.h);
                        self.note(who, step, part, Event::Wait);
                    }
                    return;
                }
            };
            answers[caller.call as usize] = self.journal.len() as u32;
            self.journal.push(Entry {
                who,
                step,
                part,
                generation,
                event,
            });
            self.next_call(i);
            return self.ixoff();
        }
    }

    pub fn answer_idle(&mut self, i: usize, answers: &mut [u32]) {
        let caller = &self.callers[i];
        let (who, step, part) = (caller.who, caller.step, caller.parts);
        answers[caller.call as usize] = self.journal.len() as u32;
        self.note(
            who,
            step,
            part,
            Event::Answer {
                answer: Answer::Idle,
                dropped: 0,
            },
        );
        self.next_call(i);
    }

    fn next_call(&mut self, i: usize) {
        let caller = &mut self.callers[i];
        caller.step += 1;
        caller.call += 1;
        caller.waits = false;
        caller.parts = 0;
        caller.written = 0;
        caller.bound = None;
    }

    fn bind(&mut self, i: usize, h: u8) {
        let caller = &mut self.callers[i];
        if let (None, Some(handle)) = (caller.bound, self.handles[h as usize]) {
            caller.h = h;
            caller.bound = Some(Bound {
                handle,
                closed: false,
            });
        }
    }

    #[inline]
    fn handle(&self, i: usize, h: u8) -> Option<Handle> {
        match self.callers[i].bound {
            None => self.handles[h as usize],
            Some(bound) if bound.closed => None,
            Some(bound) => Some(bound.handle),
        }
    }

    /// Whether the call of a waiting caller must still wait.
    pub fn must_wait(&self, i: usize, session: &Session) -> bool {
        let caller = &self.callers[i];
        let Some(bound) = caller.bound else {
            return false;
        };
        if bound.closed || !bound.handle.live {
            return false;
        }
        match session.calls[caller.call as usize].kind {
            Kind::Read(n) => {
                let nonblock = bound.handle.nonblock;
                !self.slip_on
                    && !self
                        .tty
                        .ready(n, &self.side.modes, nonblock, caller.since, self.tick)
            }
            Kind::Write(bytes) => {
                !self.slip_on
                    && (caller.parts == 0 || caller.generation == self.generation)
                    && self.side.wire.halted()
                    && output::posted_len(
                        session.data[bytes.start as usize + caller.written],
                        self.side.modes.flags,
                        self.tty.column,
                    ) > self.side.wire.room()
            }
            Kind::Drain | Kind::SetModes { .. } => !self.side.wire.held.is_empty(),
            _ => false,
        }
    }

    fn write(&mut self, i: usize, h: u8, bytes: &[u8]) -> Outcome {
        let caller = &self.callers[i];
        let (written, parts) = (caller.written, caller.parts);
        let (refusal, nonblock) = match self.handle(i, h) {
            Some(handle) if handle.access.writes() => (
                (!handle.live || self.slip_on).then_some(Errno::Eio),
                handle.nonblock,
            ),
            _ => (Some(Errno::Ebadf), false),
        };
        if parts > 0 && (refusal.is_some() || caller.generation != self.generation) {
            return number(written);
        }
        if let Some(errno) = refusal {
            return refused(errno);
        }
        let rest = &bytes[written..];
        let n = self.side.write_piece(rest, &mut self.tty.column);
        if n == rest.len() {
            number(bytes.len())
        } else if n > 0 {
            Part(n)
        } else if !nonblock {
            Wait
        } else if written > 0 {
            number(written)
        } else {
            refused(Errno::Eagain)
        }
    }

    fn read(&mut self, i: usize, n: u32, handle: Handle) -> Outcome {
        let start = self.got.len() as u32;
        if !handle.live {
            return Outcome::Answer(Answer::Got { len: 0, start });
        }
        if self.slip_on {
            return refused(Errno::Eio);
        }
        let caller = &self.callers[i];
        let since = if caller.waits {
            caller.since
        } else {
            self.tick
        };
        if !self
            .tty
            .ready(n, &self.side.modes, handle.nonblock, since, self.tick)
        {
            return if handle.nonblock {
                refused(Errno::Eagain)
            } else {
                Wait
            };
        }
        let len = self.tty.read(n, &self.side.modes, &mut self.got) as u16;
        Outcome::Answer(Answer::Got { len, start })
    }

    fn open(&mut self, h: u8, access: Access, nonblock: bool) -> Outcome {
        let place = &mut self.handles[h as usize];
        if place.is_some() {
            refused(Errno::Eexist)
        } else if self.exclusive {
            refused(Errno::Ebusy)
        } else {
            *place = Some(Handle {
                access,
                nonblock,
                live: true,
            });
            self.live += 1;
            DONE
        }
    }

    /// A call other than a write: its refusals in their order, then what it does.
    fn outcome(&mut self, i: usize, call: &Call, session: &Session) -> Outcome {
        if let Kind::Open { access, nonblock } = call.kind {
            return self.open(call.h, access, nonblock);
        }
        let Some(handle) = self.handle(i, call.h) else {
            return refused(Errno::Ebadf);
        };
        match call.kind {
            Kind::Close => {
                self.close(call.h);
                DONE
            }
            Kind::Read(_) | Kind::Take if !handle.access.reads() => refused(Errno::Ebadf),
            Kind::Send(_) if !handle.access.writes() => refused(Errno::Ebadf),
            Kind::Read(n) => self.read(i, n, handle),
            _ if !handle.live => refused(Errno::Eio),
            Kind::Send(_) | Kind::Take if !self.slip_on => refused(Errno::Enotty),
            _ => self.act(call, session),
        }
    }

    /// What a call does that nothing refuses by its handle.
    #[inline]
    fn act(&mut self, call: &Call, session: &Session) -> Outcome {
        let wire = &mut self.side.wire;
        match call.kind {
            Kind::GetModes => return self.tell_modes(),
            Kind::SetModes { when, words } => {
                return self.change_modes(when, &session.words[words.range()]);
            }
            Kind::GetDisc => return number(self.slip_on as usize),
            Kind::SetDisc(n) => return self.set_disc(n),
            Kind::Flush(queue) => {
                if queue != Queue::Input {
                    wire.held.clear();
                }
                return Dropped(if queue != Queue::Output {
                    self.flush_in()
                } else {
                    0
                });
            }
            Kind::Xonc(Act::Ooff) => wire.tco = true,
            Kind::Xonc(Act::Oon) => wire.tco_on(),
            Kind::Xonc(Act::Ioff) => wire.urgent(self.side.modes.cc[STOP]),
            Kind::Xonc(Act::Ion) => wire.urgent(self.side.modes.cc[START]),
            Kind::Inq if self.slip_on => return number(self.slip.first_len()),
            Kind::Inq => return number(self.tty.inq()),
            Kind::Outq => return number(wire.held.len()),
            Kind::Excl => self.exclusive = true,
            Kind::Nxcl => self.exclusive = false,
            Kind::Drain if !wire.held.is_empty() => return Wait,
            Kind::Drain => {}
            Kind::Counts => return self.tell_counts(),
            Kind::Vhangup => return Dropped(self.hangup()),
            Kind::Send(bytes) => return self.send(&session.data[bytes.range()]),
            Kind::Take => return self.take(),
            Kind::Open { .. } | Kind::Close | Kind::Read(_) | Kind::Write(_) => unreachable!(),
        }
        DONE
    }

    fn tell_modes(&mut self) -> Outcome {
        self.modes_seen.push(self.side.modes);
        Outcome::Answer(Answer::Modes(self.modes_seen.len() as u32 - 1))
    }

    fn tell_counts(&mut self) -> Outcome {
        self.counts_seen.push(self.side.counts);
        Outcome::Answer(Answer::Counts(self.counts_seen.len() as u32 - 1))
    }

    fn change_modes(&mut self, when: When, words: &[Word]) -> Outcome {
        if when != When::Now && !self.side.wire.held.is_empty() {
            return Wait;
        }
        let dropped = if when == When::Flush {
            self.flush_in()
        } else {
            0
        };
        let mut modes = self.side.modes;
        words.iter().for_each(|&word| modes.apply(word));
        self.set_modes(modes);
        Dropped(dropped)
    }

    fn set_disc(&mut self, n: u32) -> Outcome {
        if n > 1 {
            return refused(Errno::Einval);
        }
        if self.slip_on != (n == 1) {
            self.side.wire.resume();
            self.install(n == 1);
        }
        DONE
    }

    fn send(&mut self, packet: &[u8]) -> Outcome {
        let wire = &mut self.side.wire;
        if packet.len() > nslip::MOST {
            return refused(Errno::Emsgsize);
        }
        if wire.halted() && nslip::encoded_len(packet) > wire.room() {
            return refused(Errno::Eagain);
        }
        nslip::encode(packet, wire.sink());
        self.side.counts.pout += 1;
        DONE
    }

    fn take(&mut self) -> Outcome {
        let Some(packet) = self.slip.take() else {
            return refused(Errno::Eagain);
        };
        let start = self.got.len() as u32;
        self.got.extend_from_slice(packet);
        Outcome::Answer(Answer::Got {
            len: packet.len() as u16,
            start,
        })
    }
}
