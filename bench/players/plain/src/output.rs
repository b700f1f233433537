//! Output: held bytes, halts, the column and output processing.

use crate::modes::*;

pub const ROOM: usize = 4_096;

#[derive(Default)]
pub struct Wire {
    pub wire: Vec<u8>,
    pub held: Vec<u8>,
    pub stop: bool,
    pub tco: bool,
    /// That STOP was sent for IXOFF.
    pub noted: bool,
}

impl Wire {
    #[inline]
    pub fn halted(&self) -> bool {
        self.stop | self.tco
    }

    pub fn room(&self) -> usize {
        ROOM - self.held.len()
    }

    /// Where bytes go now.
    #[inline]
    pub fn sink(&mut self) -> &mut Vec<u8> {
        if self.halted() {
            &mut self.held
        } else {
            &mut self.wire
        }
    }

    fn settle(&mut self) {
        if !self.halted() {
            self.wire.append(&mut self.held);
        }
    }

    /// Clears the STOP halt.
    pub fn resume(&mut self) {
        if self.stop {
            self.stop = false;
            self.settle();
        }
    }

    /// `xonc oon`.
    pub fn tco_on(&mut self) {
        if self.tco {
            self.release();
        }
    }

    pub fn release(&mut self) {
        self.stop = false;
        self.tco = false;
        self.settle();
    }

    /// A hangup.
    pub fn reset(&mut self) {
        self.held.clear();
        self.stop = false;
        self.tco = false;
        self.noted = false;
    }

    pub fn urgent(&mut self, b: u8) {
        if b != 0 {
            self.wire.push(b);
        }
    }
}

/// What a byte does to the column where it is posted as itself.
#[inline]
pub fn moved(column: u32, b: u8, flags: u32) -> u32 {
    match b {
        b'\r' => 0,
        b'\t' => (column | 7) + 1,
        8 => column.saturating_sub(1),
        0..=31 | 127 => column,
        0x80..=0xbf if flags & IUTF8 != 0 => column,
        _ => column + 1,
    }
}

/// Posts one byte (termios(3), OPOST).
#[inline]
pub fn post(b: u8, flags: u32, column: &mut u32, out: &mut Vec<u8>) {
    if flags & OPOST != 0 {
        match b {
            b'\n' if flags & ONLCR != 0 => {
                out.extend_from_slice(b"\r\n");
                *column = 0;
                return;
            }
            b'\r' if flags & ONOCR != 0 && *column == 0 => return,
            b'\r' if flags & OCRNL != 0 => {
                out.push(b'\n');
                return;
            }
            b'\t' if flags & TAB3 != 0 => {
                let n = 8 - (*column & 7);
                out.extend_from_slice(&b"        "[..n as usize]);
                *column += n;
                return;
            }
            _ => {}
        }
    }
    out.push(b);
    *column = moved(*column, b, flags);
}

/// How many bytes `post` would give.
pub fn posted_len(b: u8, flags: u32, column: u32) -> usize {
    if flags & OPOST == 0 {
        return 1;
    }
    match b {
        b'\n' if flags & ONLCR != 0 => 2,
        b'\r' if flags & ONOCR != 0 && column == 0 => 0,
        b'\t' if flags & TAB3 != 0 => 8 - (column & 7) as usize,
        _ => 1,
    }
}
