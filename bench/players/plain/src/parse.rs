//! The session text: lines, words, places, arguments, totals.

use crate::modes;
use crate::session::*;
use std::collections::HashMap;

mod items;

#[derive(Clone, Copy, Debug, PartialEq, Eq)]
pub enum Reason {
    Header,
    Word,
    Number,
    Hex,
    Order,
    Limit,
}

impl Reason {
    pub fn text(self) -> &'static str {
        match self {
            Reason::Header => "header",
            Reason::Word => "word",
            Reason::Number => "number",
            Reason::Hex => "hex",
            Reason::Order => "order",
            Reason::Limit => "limit",
        }
    }
}

pub struct BadLine {
    pub line: usize,
    pub reason: Reason,
}

const MOST_STEPS: u32 = 65_536;
const MOST_CHARS: usize = 262_144;
const MOST_TICKS: u32 = 65_536;
const MOST_BYTES: usize = 65_536;
const MOST_PHASES: usize = 64;
const MOST_CALLERS: usize = 16;
const MOST_WORDS: usize = 64;

/// `0`, or 1 to 10 digits without a leading 0.
pub fn number_of(word: &[u8]) -> Option<u64> {
    let whole = match word {
        [b'0', _, ..] | [] => false,
        _ => word.len() <= 10 && word.iter().all(u8::is_ascii_digit),
    };
    whole.then(|| word.iter().fold(0, |n, d| n * 10 + u64::from(d - b'0')))
}

/// A word of at most 8 bytes, none of them 0, as one number, so that many words can be told apart
/// at once; 0 for another word.
pub const fn key(word: &[u8]) -> u64 {
    if word.len() > 8 {
        return 0;
    }
    let (mut key, mut at) = (0, word.len());
    while at > 0 {
        at -= 1;
        if word[at] == 0 {
            return 0;
        }
        key = key << 8 | word[at] as u64;
    }
    key
}

/// Makes a type of the items with their words, and the way from a word to its item.
macro_rules! items {
    ($($item:ident = $word:literal),* $(,)?) => {
        #[derive(Clone, Copy, PartialEq, Eq)]
        enum Item { TtySession, $($item),* }

        #[allow(non_upper_case_globals)]
        fn item_of(word: &[u8]) -> Option<Item> {
            $(const $item: u64 = key($word.as_bytes());)*
            match key(word) {
                0 => (word == b"tty-session").then_some(Item::TtySession),
                $($item => Some(Item::$item),)*
                _ => None,
            }
        }
    };
}

items! {
    Ports = "ports", Flip = "flip", Phase = "phase", Line = "line",
    Clock = "clock", Caller = "caller", End = "end", Rx = "rx", Rxp = "rxp", Rxf = "rxf",
    Break = "break", Mask = "mask", Unmask = "unmask", Idle = "idle", Trigger = "trigger",
    Tick = "tick", Open = "open", Close = "close", Read = "read", Write = "write",
    Getm = "getm", Modes = "modes", Getd = "getd", Setd = "setd", Flush = "flush", Xonc = "xonc",
    Inq = "inq", Outq = "outq", Excl = "excl", Nxcl = "nxcl", Drain = "drain",
    Counts = "counts", Vhangup = "vhangup", Send = "send", Take = "take",
}

fn number(word: &[u8], low: u64, high: u64) -> Result<u32, Reason> {
    match number_of(word) {
        None => Err(Reason::Number),
        Some(n) if n < low || n > high => Err(Reason::Limit),
        Some(n) => Ok(n as u32),
    }
}

fn name(word: &[u8]) -> Result<Name, Reason> {
    let fits = matches!(word.first(), Some(b'a'..=b'z'))
        && word.len() <= 16
        && word
            .iter()
            .all(|b| matches!(b, b'a'..=b'z' | b'0'..=b'9' | b'_'));
    if !fits {
        return Err(Reason::Word);
    }
    let mut name = [0; 16];
    name[..word.len()].copy_from_slice(word);
    Ok(name)
}

fn exactly(words: &[&[u8]], n: usize) -> Result<(), Reason> {
    if words.len() == n {
        Ok(())
    } else {
        Err(Reason::Word)
    }
}

#[derive(Clone, Copy, PartialEq, Eq)]
enum Place {
    Start,
    Header,
    Ports,
    Phase,
    Line(usize),
    Clock(usize),
    Caller(usize, u16),
    End,
}

struct Reader {
    session: Session,
    place: Place,
    steps: u32,
    flips: Vec<bool>,
    /// By port: the number of each name, each number's next step, and who has a block in this phase.
    callers: Vec<HashMap<Name, u16>>,
    next: Vec<Vec<u32>>,
    here: Vec<Vec<u16>>,
}

fn blank(b: u8) -> bool {
    matches!(b, b' ' | b'\t' | b'\r')
}

fn ends_word(b: u8) -> bool {
    b <= b' ' && (blank(b) || b == b'\n')
}

/// Where the word that begins at `from` ends; long words are looked through 32 bytes at once.
fn word_end(text: &[u8], from: usize) -> usize {
    let mut at = from;
    let short = text.len().min(from + 16);
    while at < short {
        if ends_word(text[at]) {
            return at;
        }
        at += 1;
    }
    for chunk in text[at..].chunks_exact(32) {
        if chunk.iter().fold(0, |any, &b| any | u8::from(b <= b' ')) != 0 {
            break;
        }
        at += 32;
    }
    while at < text.len() && !ends_word(text[at]) {
        at += 1;
    }
    at
}

/// Reads one line's words and answers where the next line begins.  Of a comment only the first
/// word is kept.
fn split<'a>(text: &'a [u8], from: usize, words: &mut Vec<&'a [u8]>) -> usize {
    words.clear();
    let mut at = from;
    loop {
        match text.get(at) {
            None => return at,
            Some(b'\n') => return at + 1,
            Some(&b) if blank(b) => at += 1,
            Some(b'#') if words.is_empty() => {
                words.push(&text[at..at + 1]);
                let rest = &text[at..];
                return at
                    + rest
                        .iter()
                        .position(|&b| b == b'\n')
                        .map_or(rest.len(), |n| n + 1);
            }
            Some(_) => {
                let end = word_end(text, at);
                words.push(&text[at..end]);
                at = end;
            }
        }
    }
}

pub fn parse(text: &[u8]) -> Result<Session, BadLine> {
    let mut reader = Reader {
        session: Session::default(),
        place: Place::Start,
        steps: 0,
        flips: Vec::new(),
        callers: Vec::new(),
        next: Vec::new(),
        here: Vec::new(),
    };
    reader.session.data.reserve(text.len() / 2);
    let mut words = Vec::with_capacity(MOST_WORDS + 8);
    let (mut at, mut line) = (0, 0);
    while at < text.len() {
        line += 1;
        at = split(text, at, &mut words);
        match words.first() {
            Some(first) if first[0] != b'#' => reader
                .item(&words)
                .map_err(|reason| BadLine { line, reason })?,
            _ => {}
        }
    }
    if reader.place != Place::End {
        return Err(BadLine {
            line: line + 1,
            reason: Reason::Order,
        });
    }
    Ok(reader.session)
}

impl Reader {
    fn item(&mut self, words: &[&[u8]]) -> Result<(), Reason> {
        if self.place == Place::Start {
            self.session.version = match words {
                [b"tty-session", b"1"] => 1,
                [b"tty-session", b"2"] => 2,
                _ => return Err(Reason::Header),
            };
            self.place = Place::Header;
            return Ok(());
        }
        let Some(item) = item_of(words[0]) else {
            return Err(Reason::Word);
        };
        match item {
            Item::Rx => self.rx(words, 0),
            Item::Rxp => self.rx(words, PARITY),
            Item::Rxf => self.rx(words, FRAME),
            Item::Break | Item::Mask | Item::Unmask | Item::Idle | Item::Trigger => {
                self.line_item(item, words)
            }
            Item::Tick => self.tick(words),
            Item::TtySession => Err(Reason::Order),
            Item::Ports => self.ports(words),
            Item::Flip if self.session.version == 1 => Err(Reason::Word),
            Item::Flip => self.flip(words),
            Item::Phase => self.phase(words),
            Item::Line => self.line(words),
            Item::Clock => self.clock(words),
            Item::Caller => self.caller(words),
            Item::End => match self.place {
                Place::Header | Place::End => Err(Reason::Order),
                _ => exactly(words, 1).map(|()| self.place = Place::End),
            },
            _ => self.call(item, words),
        }
    }

    fn in_phase(&self) -> Result<(), Reason> {
        match self.place {
            Place::Start | Place::Header | Place::Ports | Place::End => Err(Reason::Order),
            _ => Ok(()),
        }
    }

    fn port(&self, word: &[u8]) -> Result<usize, Reason> {
        number(word, 0, self.session.ports.len() as u64 - 1).map(|p| p as usize)
    }

    fn count_step(&mut self) -> Result<(), Reason> {
        self.steps += 1;
        if self.steps > MOST_STEPS {
            Err(Reason::Limit)
        } else {
            Ok(())
        }
    }

    fn ports(&mut self, words: &[&[u8]]) -> Result<(), Reason> {
        if self.place != Place::Header {
            return Err(Reason::Order);
        }
        exactly(words, 2)?;
        let n = number(words[1], 1, 8)? as usize;
        self.session.ports.resize_with(n, || PortScript {
            flip: 4_096,
            ..Default::default()
        });
        self.flips = vec![false; n];
        self.callers = vec![HashMap::new(); n];
        self.next = vec![Vec::new(); n];
        self.here = vec![Vec::new(); n];
        self.place = Place::Ports;
        Ok(())
    }

    fn flip(&mut self, words: &[&[u8]]) -> Result<(), Reason> {
        if self.place != Place::Ports {
            return Err(Reason::Order);
        }
        exactly(words, 3)?;
        let port = self.port(words[1])?;
        self.session.ports[port].flip = number(words[2], 64, 65_536)?;
        if std::mem::replace(&mut self.flips[port], true) {
            Err(Reason::Order)
        } else {
            Ok(())
        }
    }

    fn phase(&mut self, words: &[&[u8]]) -> Result<(), Reason> {
        if matches!(self.place, Place::Header | Place::End) {
            return Err(Reason::Order);
        }
        exactly(words, 1)?;
        for port in &mut self.session.ports {
            if port.phases.len() == MOST_PHASES {
                return Err(Reason::Limit);
            }
            port.phases.push(PortPhase::default());
        }
        self.here.iter_mut().for_each(Vec::clear);
        self.place = Place::Phase;
        Ok(())
    }

    fn last(&mut self, port: usize) -> &mut PortPhase {
        self.session.ports[port]
            .phases
            .last_mut()
            .expect("a phase is open")
    }

    fn line(&mut self, words: &[&[u8]]) -> Result<(), Reason> {
        self.in_phase()?;
        exactly(words, 2)?;
        let port = self.port(words[1])?;
        let at = self.session.steps.len();
        if self.last(port).line.replace(Span::new(at, at)).is_some() {
            return Err(Reason::Order);
        }
        self.place = Place::Line(port);
        Ok(())
    }

    fn clock(&mut self, words: &[&[u8]]) -> Result<(), Reason> {
        self.in_phase()?;
        exactly(words, 2)?;
        let port = self.port(words[1])?;
        if self.last(port).ticks.replace(0).is_some() {
            return Err(Reason::Order);
        }
        self.place = Place::Clock(port);
        Ok(())
    }

    fn add_step(&mut self, port: usize, step: LineStep, chars: usize) -> Result<(), Reason> {
        self.count_step()?;
        let script = &mut self.session.ports[port];
        script.chars = (script.chars as usize + chars).min(MOST_CHARS + 1) as u32;
        if script.chars as usize > MOST_CHARS {
            return Err(Reason::Limit);
        }
        self.session.steps.push(step);
        let end = self.session.steps.len() as u32;
        if let Some(line) = &mut self.last(port).line {
            line.end = end;
        }
        Ok(())
    }

    fn hex(&mut self, word: &[u8], most: usize) -> Result<Span, Reason> {
        let start = self.session.data.len();
        if !crate::hex::decode(word, &mut self.session.data) {
            return Err(Reason::Hex);
        }
        let end = self.session.data.len();
        if end - start > most {
            Err(Reason::Limit)
        } else {
            Ok(Span::new(start, end))
        }
    }
}
