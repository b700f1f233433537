//! N_TTY's input.

use super::{MOST_LINE, NTty};
use crate::modes::*;
use crate::session::{BREAK, Char, FRAME, OVERRUN, PARITY};
use crate::side::{Side, Signal};

/// The byte as it is shown: itself, or `^` and the byte with bit 6 changed.
fn shown(b: u8, modes: &Modes, echo: &mut Vec<u8>) {
    let control = (b < 32 && b != b'\t' && b != b'\n') || b == 127;
    if control && modes.has(ECHOCTL) {
        echo.extend_from_slice(&[b'^', b ^ 0x40]);
    } else {
        echo.push(b);
    }
}

fn erased(b: u8, width: u32, echo: &mut Vec<u8>) {
    let step: &[u8] = if b == b'\t' { b"\x08" } else { b"\x08 \x08" };
    for _ in 0..width {
        echo.extend_from_slice(step);
    }
}

fn in_word(b: u8) -> bool {
    b.is_ascii_alphanumeric() || b == b'_'
}

impl NTty {
    /// Takes characters while it accepts them, and answers how many.
    pub fn receive_all(&mut self, chars: &[Char], now: u32, side: &mut Side) -> usize {
        let mut n = 0;
        while n < chars.len() && self.accepts(&side.modes) {
            let plain = self.receive_plain(&chars[n..], now, side);
            if plain == 0 {
                self.receive(chars[n], now, side);
                self.ixoff(side);
                n += 1;
            } else {
                n += plain;
            }
        }
        n
    }

    /// Takes good characters that nothing but storing and echoing as themselves is to be done
    /// with, up to 64; the discipline accepts.
    #[inline]
    fn receive_plain(&mut self, chars: &[Char], now: u32, side: &mut Side) -> usize {
        let modes = &side.modes;
        let (canon, echo) = (modes.has(ICANON), modes.has(ECHO));
        if self.quoted
            || modes.has(IXOFF)
            || side.wire.noted
            || (side.wire.halted() && (echo || modes.has(IXANY)))
        {
            return 0;
        }
        let by_bound = (Self::bound(modes) + 1).saturating_sub(self.unread());
        let most = match (canon, self.ends.is_empty()) {
            (false, _) => by_bound,
            (true, true) => MOST_LINE - self.line_len(),
            (true, false) => by_bound.min(MOST_LINE - self.line_len()),
        };
        let mut bytes = [0; 64];
        let mut n = 0;
        for (to, &c) in bytes.iter_mut().zip(&chars[..most.min(chars.len())]) {
            if c > 0xff || !side.plain_input(c as u8) {
                break;
            }
            *to = c as u8;
            n += 1;
        }
        if n == 0 {
            return 0;
        }
        let bytes = &bytes[..n];
        if canon && self.head == self.canon {
            self.start = self.column;
        }
        self.push_all(bytes);
        if !canon {
            self.canon = self.head;
        }
        self.last = now;
        if echo {
            side.wire.wire.extend_from_slice(bytes);
            self.column += n as u32;
        }
        n
    }

    fn receive(&mut self, c: Char, now: u32, side: &mut Side) {
        let b = c as u8;
        let modes = side.modes;
        let marked = [0xff, 0, b];
        let stored = if modes.has(PARMRK) { &marked[..] } else { &[0] };
        match c & 0xff00 {
            OVERRUN => side.counts.mark += 1,
            BREAK => {
                side.counts.breaks += 1;
                if modes.has(IGNBRK) {
                } else if modes.has(BRKINT) {
                    self.signal(Signal::Int, side);
                } else {
                    self.store(stored, now, side);
                }
            }
            flag @ (PARITY | FRAME) => {
                *(if flag == PARITY {
                    &mut side.counts.parity
                } else {
                    &mut side.counts.frame
                }) += 1;
                if !modes.has(INPCK) {
                    self.normal(b, now, side);
                } else if !modes.has(IGNPAR) {
                    self.store(stored, now, side);
                }
            }
            _ => self.normal(b, now, side),
        }
    }

    fn signal(&mut self, signal: Signal, side: &mut Side) {
        side.signals.push(signal);
        if !side.modes.has(NOFLSH) {
            self.flush_in();
            side.wire.held.clear();
        }
    }

    fn normal(&mut self, b: u8, now: u32, side: &mut Side) {
        let modes = side.modes;
        let has = |flag| modes.has(flag);
        let mut b = if has(ISTRIP) { b & 0x7f } else { b };
        if std::mem::take(&mut self.quoted) {
            return self.ordinary(b, now, side);
        }
        if has(IXON) {
            if modes.is(START, b) {
                return side.wire.resume();
            }
            if modes.is(STOP, b) {
                side.wire.stop = true;
                return;
            }
            if has(IXANY) {
                side.wire.resume();
            }
        }
        if has(ISIG) {
            let signals = [
                (INTR, Signal::Int),
                (QUIT, Signal::Quit),
                (SUSP, Signal::Susp),
            ];
            if let Some(&(_, signal)) = signals.iter().find(|(place, _)| modes.is(*place, b)) {
                self.signal(signal, side);
                if has(IXON) {
                    side.wire.resume();
                }
                return self.echo_shown(b, side);
            }
        }
        match b {
            b'\r' if has(IGNCR) => return,
            b'\r' if has(ICRNL) => b = b'\n',
            b'\n' if has(INLCR) => b = b'\r',
            _ => {}
        }
        if has(ICANON) {
            self.canonical(b, now, side);
        } else {
            self.ordinary(b, now, side);
        }
    }

    /// A byte in canonical mode, by the first role that fits.
    #[inline]
    fn canonical(&mut self, b: u8, now: u32, side: &mut Side) {
        let modes = side.modes;
        let has = |flag| modes.has(flag);
        let extended = |place| has(IEXTEN) && modes.is(place, b);
        if modes.is(ERASE, b) {
            self.erase(b, side);
        } else if modes.is(KILL, b) {
            self.kill(b, side);
        } else if extended(WERASE) {
            self.erase_word(side);
        } else if extended(LNEXT) {
            self.quoted = true;
            if has(ECHO) && has(ECHOCTL) {
                side.echo(b"^\x08", &mut self.column);
            }
        } else if b == b'\n' {
            self.delimiter(b, now);
            if has(ECHO) || has(ECHONL) {
                side.echo(b"\n", &mut self.column);
            }
        } else if modes.is(EOF, b) {
            self.end_piece();
        } else if modes.is(EOL, b) || extended(EOL2) {
            self.delimiter(b, now);
            self.echo_shown(b, side);
        } else {
            self.ordinary(b, now, side);
        }
    }

    fn echo_shown(&mut self, b: u8, side: &mut Side) {
        if side.modes.has(ECHO) {
            self.echo.clear();
            shown(b, &side.modes, &mut self.echo);
            side.echo(&self.echo, &mut self.column);
        }
    }

    fn ordinary(&mut self, b: u8, now: u32, side: &mut Side) {
        if b == 0xff && side.modes.has(PARMRK) && !side.modes.has(ISTRIP) {
            self.store(&[0xff, 0xff], now, side);
        } else {
            self.store(&[b], now, side);
        }
        self.echo_shown(b, side);
    }

    fn store(&mut self, bytes: &[u8], now: u32, side: &mut Side) {
        if side.modes.has(ICANON) {
            if self.line_len() + bytes.len() > MOST_LINE {
                side.counts.cut += 1;
                return;
            }
            if self.line_len() == 0 {
                self.start = self.column;
            }
            self.push_all(bytes);
        } else {
            self.push_all(bytes);
            self.canon = self.head;
        }
        self.last = now;
    }

    fn delimiter(&mut self, b: u8, now: u32) {
        self.push(b);
        self.last = now;
        self.end_piece();
    }

    fn end_piece(&mut self) {
        self.canon = self.head;
        self.ends.push_back(self.head);
    }

    /// Takes the last byte off the line, with its echo where it is to be shown as erased.
    fn rub_out(&mut self, side: &Side) {
        self.echo_rub(self.head - 1, side);
        self.head -= 1;
    }

    fn echo_rub(&mut self, position: u32, side: &Side) {
        if side.modes.has(ECHO) {
            let width = self.width(position, &side.modes);
            erased(self.at(position), width, &mut self.echo);
        }
    }

    fn erase(&mut self, b: u8, side: &mut Side) {
        let mut first = self.head;
        while first > self.canon {
            first -= 1;
            if !(side.modes.has(IUTF8) && matches!(self.at(first), 0x80..=0xbf)) {
                self.echo.clear();
                if side.modes.has(ECHOE) {
                    self.echo_rub(first, side);
                    side.echo(&self.echo, &mut self.column);
                } else {
                    self.echo_shown(b, side);
                }
                self.head = first;
                return;
            }
        }
    }

    fn erase_word(&mut self, side: &mut Side) {
        self.echo.clear();
        for word in [false, true] {
            while self.line_len() > 0 && in_word(self.at(self.head - 1)) == word {
                self.rub_out(side);
            }
        }
        side.echo(&self.echo, &mut self.column);
    }

    fn kill(&mut self, b: u8, side: &mut Side) {
        if self.line_len() == 0 {
            return;
        }
        self.echo.clear();
        let has = |flag| side.modes.has(flag);
        if has(ECHOE) && has(ECHOK) && has(ECHOKE) {
            while self.line_len() > 0 {
                self.rub_out(side);
            }
        } else {
            self.head = self.canon;
            if has(ECHO) {
                shown(b, &side.modes, &mut self.echo);
                if has(ECHOK) {
                    self.echo.push(b'\n');
                }
            }
        }
        side.echo(&self.echo, &mut self.column);
    }
}
