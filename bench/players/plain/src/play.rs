//! The order of `--one`, for one port.

use crate::journal::*;
use crate::port::{Caller, Port};
use crate::receiver::Receiver;
use crate::session::*;

pub struct Played {
    pub port: Port,
    pub receiver: Receiver,
}

pub fn play(session: &Session, script: &PortScript, answers: &mut [u32]) -> Played {
    let mut port = Port::new(script.flip as usize, script.chars as usize);
    let mut receiver = Receiver::new();
    for (k, phase) in script.phases.iter().enumerate() {
        let k = k as u32;
        play_line(session, phase, &mut receiver, &mut port);
        port.note(LINE, k, 0, Event::LineEnd(port.flip.sent.len() as u32));
        play_rest(session, k, phase, &mut port, answers);
        port.note(SESSION, k, 0, Event::PhaseEnd);
    }
    port.last_hangup(script.phases.len() as u32);
    Played { port, receiver }
}

/// The handler and, after it, the flush run: nothing else in a line makes a flush possible.
#[inline]
fn interrupt(receiver: &mut Receiver, port: &mut Port) {
    if !receiver.masked && receiver.pending() {
        receiver.handle(&mut port.flip);
        port.flush_run();
    }
}

fn arrivals(receiver: &mut Receiver, port: &mut Port, flag: Char, bytes: &[u8]) {
    let mut rest = bytes;
    while !rest.is_empty() {
        let n = receiver.arrive(flag, rest);
        rest = &rest[n..];
        interrupt(receiver, port);
    }
}

fn play_line(session: &Session, phase: &PortPhase, receiver: &mut Receiver, port: &mut Port) {
    let steps = phase
        .line
        .map_or(&[][..], |line| &session.steps[line.range()]);
    for step in steps.iter().chain(&[LineStep::Unmask, LineStep::Idle(4)]) {
        match *step {
            LineStep::Rx { flag, bytes } => {
                arrivals(receiver, port, flag, &session.data[bytes.range()]);
                continue;
            }
            LineStep::Break => {
                arrivals(receiver, port, BREAK, &[0]);
                continue;
            }
            LineStep::Idle(times) => receiver.idle(times),
            LineStep::Mask => receiver.masked = true,
            LineStep::Unmask => receiver.masked = false,
            LineStep::Trigger(n) => receiver.trigger(n),
        }
        interrupt(receiver, port);
    }
}

fn play_rest(session: &Session, k: u32, phase: &PortPhase, port: &mut Port, answers: &mut [u32]) {
    port.callers.clear();
    port.callers.extend(phase.callers.iter().map(Caller::new));
    let mut ticks = phase.ticks.unwrap_or(0);
    let mut clock_ended = false;
    // The callers before this one have ended.
    let mut first = 0;
    loop {
        port.flush_run();
        let next = (first..port.callers.len()).find(|&i| {
            let caller = &port.callers[i];
            !caller.ended && (!caller.waits || !port.must_wait(i, session))
        });
        if let Some(i) = next {
            let caller = &mut port.callers[i];
            if caller.call < caller.end {
                port.go_on(i, session, answers);
            } else {
                caller.ended = true;
                let (who, step) = (caller.who, caller.step);
                port.note(who, step, 0, Event::CallerEnd);
                while port.callers.get(first).is_some_and(|c| c.ended) {
                    first += 1;
                }
            }
        } else if ticks > 0 {
            ticks -= 1;
            port.clock_tick(k);
        } else if !clock_ended {
            clock_ended = true;
            port.note(CLOCK, k, 0, Event::ClockEnd);
        } else if let Some(i) = port.callers.iter().position(|c| c.waits) {
            port.answer_idle(i, answers);
        } else {
            return;
        }
    }
}
