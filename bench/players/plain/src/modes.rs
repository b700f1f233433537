//! Modes: flags and control characters.

use crate::parse::{key, number_of};

macro_rules! flags {
    ($($name:ident = $place:expr),* $(,)?) => { $(pub const $name: u32 = 1 << $place;)* };
}

flags! {
    IGNBRK = 0, BRKINT = 1, IGNPAR = 2, PARMRK = 3, INPCK = 4, ISTRIP = 5, INLCR = 6, IGNCR = 7,
    ICRNL = 8, IXON = 9, IXANY = 10, IXOFF = 11, OPOST = 12, ONLCR = 13, OCRNL = 14, ONOCR = 15,
    TAB3 = 16, ISIG = 17, ICANON = 18, ECHO = 19, ECHOE = 20, ECHOK = 21, ECHOKE = 22,
    ECHONL = 23, ECHOCTL = 24, NOFLSH = 25, IEXTEN = 26, IUTF8 = 27,
}

const FLAG_NAMES: [&str; 29] = [
    "ignbrk", "brkint", "ignpar", "parmrk", "inpck", "istrip", "inlcr", "igncr", "icrnl", "ixon",
    "ixany", "ixoff", "opost", "onlcr", "ocrnl", "onocr", "tab3", "isig", "icanon", "echo",
    "echoe", "echok", "echoke", "echonl", "echoctl", "noflsh", "iexten", "iutf8", "tostop",
];

const CC_NAMES: [&str; 15] = [
    "intr", "quit", "erase", "kill", "eof", "time", "min", "start", "stop", "susp", "eol",
    "reprint", "werase", "lnext", "eol2",
];

pub const INTR: usize = 0;
pub const QUIT: usize = 1;
pub const ERASE: usize = 2;
pub const KILL: usize = 3;
pub const EOF: usize = 4;
pub const TIME: usize = 5;
pub const MIN: usize = 6;
pub const START: usize = 7;
pub const STOP: usize = 8;
pub const SUSP: usize = 9;
pub const EOL: usize = 10;
pub const WERASE: usize = 12;
pub const LNEXT: usize = 13;
pub const EOL2: usize = 14;

const fn keys<const N: usize>(names: [&str; N]) -> [u64; N] {
    let mut keys = [0; N];
    let mut at = 0;
    while at < N {
        keys[at] = key(names[at].as_bytes());
        at += 1;
    }
    keys
}

static FLAG_KEYS: [u64; 29] = keys(FLAG_NAMES);
static CC_KEYS: [u64; 15] = keys(CC_NAMES);

const SANE_FLAGS: u32 =
    ICRNL | IXON | OPOST | ONLCR | ISIG | ICANON | ECHO | ECHOE | ECHOK | ECHOKE | ECHOCTL | IEXTEN;
const RAW_CLEARS: u32 = IGNBRK
    | BRKINT
    | PARMRK
    | ISTRIP
    | INLCR
    | IGNCR
    | ICRNL
    | IXON
    | OPOST
    | ECHO
    | ECHONL
    | ICANON
    | ISIG
    | IEXTEN;

#[derive(Clone, Copy, Debug)]
pub struct Modes {
    pub flags: u32,
    pub cc: [u8; 15],
}

#[derive(Clone, Copy, Debug)]
pub enum Word {
    On(u8),
    Off(u8),
    Cc(u8, u8),
    Raw,
    Sane,
}

impl Modes {
    pub const SANE: Modes = Modes {
        flags: SANE_FLAGS,
        cc: [3, 28, 127, 21, 4, 0, 1, 17, 19, 26, 0, 18, 23, 22, 0],
    };

    #[inline]
    pub fn has(&self, flag: u32) -> bool {
        self.flags & flag != 0
    }

    /// Whether `b` is this control character; one set to 0 matches nothing.
    #[inline]
    pub fn is(&self, place: usize, b: u8) -> bool {
        b != 0 && self.cc[place] == b
    }

    pub fn apply(&mut self, word: Word) {
        match word {
            Word::On(place) => self.flags |= 1 << place,
            Word::Off(place) => self.flags &= !(1 << place),
            Word::Cc(place, value) => self.cc[place as usize] = value,
            Word::Raw => self.flags &= !RAW_CLEARS,
            Word::Sane => *self = Modes::SANE,
        }
    }

    pub fn print(&self, out: &mut Vec<u8>) {
        for (place, name) in FLAG_NAMES.iter().enumerate() {
            if self.flags >> place & 1 != 0 {
                out.extend_from_slice(name.as_bytes());
                out.push(b' ');
            }
        }
        for (name, value) in CC_NAMES.iter().zip(self.cc) {
            out.extend_from_slice(name.as_bytes());
            out.push(b'=');
            crate::print::number(out, value as u64);
            out.push(b' ');
        }
        out.pop();
    }
}

fn place(keys: &[u64], name: &[u8]) -> Option<u8> {
    let key = key(name);
    keys.iter()
        .position(|&k| k == key && key != 0)
        .map(|p| p as u8)
}

/// A mode word, or None.
pub fn word(text: &[u8]) -> Option<Word> {
    if let Some(name) = text.strip_prefix(b"-") {
        return place(&FLAG_KEYS, name).map(Word::Off);
    }
    if let Some(at) = text.iter().position(|&b| b == b'=') {
        let place = place(&CC_KEYS, &text[..at])?;
        let value = number_of(&text[at + 1..])?;
        return u8::try_from(value).ok().map(|v| Word::Cc(place, v));
    }
    match text {
        b"raw" => Some(Word::Raw),
        b"sane" => Some(Word::Sane),
        _ => place(&FLAG_KEYS, text).map(Word::On),
    }
}
