//! A parsed session: flat arenas with ranges into them.

use crate::modes::Word;
use std::ops::Range;

/// A range of an arena; arenas stay below 2^32 items.
#[derive(Clone, Copy, Debug, Default)]
pub struct Span {
    pub start: u32,
    pub end: u32,
}

impl Span {
    pub fn new(start: usize, end: usize) -> Span {
        Span {
            start: start as u32,
            end: end as u32,
        }
    }

    #[inline]
    pub fn range(self) -> Range<usize> {
        self.start as usize..self.end as usize
    }

    #[inline]
    pub fn len(self) -> usize {
        (self.end - self.start) as usize
    }
}

/// A received character: its flag in the high byte.
pub type Char = u16;
pub const BREAK: Char = 0x100;
pub const PARITY: Char = 0x200;
pub const FRAME: Char = 0x300;
pub const OVERRUN: Char = 0x400;

#[derive(Clone, Copy, Debug)]
pub enum LineStep {
    /// Bytes of the session's data, each an arrival with this flag.
    Rx {
        flag: Char,
        bytes: Span,
    },
    Break,
    Idle(u32),
    Mask,
    Unmask,
    Trigger(u8),
}

#[derive(Clone, Copy, PartialEq, Eq, Debug)]
pub enum Access {
    R,
    W,
    Rw,
}

impl Access {
    pub fn reads(self) -> bool {
        self != Access::W
    }

    pub fn writes(self) -> bool {
        self != Access::R
    }
}

#[derive(Clone, Copy, PartialEq, Eq, Debug)]
pub enum When {
    Now,
    Drain,
    Flush,
}

#[derive(Clone, Copy, PartialEq, Eq, Debug)]
pub enum Queue {
    Input,
    Output,
    Both,
}

#[derive(Clone, Copy, PartialEq, Eq, Debug)]
pub enum Act {
    Ooff,
    Oon,
    Ioff,
    Ion,
}

#[derive(Clone, Copy, Debug)]
pub enum Kind {
    Open { access: Access, nonblock: bool },
    Close,
    Read(u32),
    Write(Span),
    GetModes,
    SetModes { when: When, words: Span },
    GetDisc,
    SetDisc(u32),
    Flush(Queue),
    Xonc(Act),
    Inq,
    Outq,
    Excl,
    Nxcl,
    Drain,
    Counts,
    Vhangup,
    Send(Span),
    Take,
}

#[derive(Clone, Copy, Debug)]
pub struct Call {
    pub h: u8,
    pub kind: Kind,
}

impl Kind {
    pub fn verb(&self) -> &'static str {
        match self {
            Kind::Open { .. } => "open",
            Kind::Close => "close",
            Kind::Read(_) => "read",
            Kind::Write(_) => "write",
            Kind::GetModes => "getm",
            Kind::SetModes { .. } => "modes",
            Kind::GetDisc => "getd",
            Kind::SetDisc(_) => "setd",
            Kind::Flush(_) => "flush",
            Kind::Xonc(_) => "xonc",
            Kind::Inq => "inq",
            Kind::Outq => "outq",
            Kind::Excl => "excl",
            Kind::Nxcl => "nxcl",
            Kind::Drain => "drain",
            Kind::Counts => "counts",
            Kind::Vhangup => "vhangup",
            Kind::Send(_) => "send",
            Kind::Take => "take",
        }
    }
}

/// One caller's block of one phase and port.
#[derive(Clone, Copy, Debug)]
pub struct Script {
    pub who: u16,
    pub first_step: u32,
    pub calls: Span,
}

/// What one port does in one phase.
#[derive(Default, Debug)]
pub struct PortPhase {
    pub line: Option<Span>,
    pub ticks: Option<u32>,
    pub callers: Vec<Script>,
}

/// A caller's name, padded with zeros.
pub type Name = [u8; 16];

#[derive(Default, Debug)]
pub struct PortScript {
    pub flip: u32,
    pub names: Vec<Name>,
    pub chars: u32,
    pub ticks: u32,
    pub phases: Vec<PortPhase>,
}

#[derive(Default, Debug)]
pub struct Session {
    pub version: u8,
    pub ports: Vec<PortScript>,
    pub steps: Vec<LineStep>,
    pub calls: Vec<Call>,
    pub words: Vec<Word>,
    pub data: Vec<u8>,
}

pub fn name_of(name: &Name) -> &[u8] {
    let end = name.iter().position(|&b| b == 0).unwrap_or(16);
    &name[..end]
}
