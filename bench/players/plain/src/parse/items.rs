//! The items of line, clock and caller blocks.

use super::*;

impl Reader {
    pub(super) fn rx(&mut self, words: &[&[u8]], flag: Char) -> Result<(), Reason> {
        let Place::Line(port) = self.place else {
            return Err(Reason::Order);
        };
        exactly(words, 2)?;
        let bytes = self.hex(words[1], usize::MAX)?;
        self.add_step(port, LineStep::Rx { flag, bytes }, bytes.len())
    }

    pub(super) fn line_item(&mut self, item: Item, words: &[&[u8]]) -> Result<(), Reason> {
        let Place::Line(port) = self.place else {
            return Err(Reason::Order);
        };
        exactly(
            words,
            if matches!(item, Item::Idle | Item::Trigger) {
                2
            } else {
                1
            },
        )?;
        let step = match item {
            Item::Break => LineStep::Break,
            Item::Mask => LineStep::Mask,
            Item::Unmask => LineStep::Unmask,
            Item::Idle => LineStep::Idle(number(words[1], 1, 1_000)?),
            _ => match number(words[1], 1, 14)? {
                n @ (1 | 4 | 8 | 14) => LineStep::Trigger(n as u8),
                _ => return Err(Reason::Limit),
            },
        };
        let chars = matches!(step, LineStep::Break) as usize;
        self.add_step(port, step, chars)
    }

    pub(super) fn tick(&mut self, words: &[&[u8]]) -> Result<(), Reason> {
        let Place::Clock(port) = self.place else {
            return Err(Reason::Order);
        };
        exactly(words, 2)?;
        let ticks = number(words[1], 1, 65_536)?;
        self.count_step()?;
        let script = &mut self.session.ports[port];
        script.ticks += ticks;
        if script.ticks > MOST_TICKS {
            return Err(Reason::Limit);
        }
        if let Some(n) = &mut self.last(port).ticks {
            *n += ticks;
        }
        Ok(())
    }

    pub(super) fn caller(&mut self, words: &[&[u8]]) -> Result<(), Reason> {
        self.in_phase()?;
        exactly(words, 3)?;
        let name = name(words[1])?;
        let port = self.port(words[2])?;
        let known = self.callers[port].get(&name).copied();
        if known.is_some_and(|who| self.here[port].contains(&who)) {
            return Err(Reason::Order);
        }
        if self.here[port].len() == MOST_CALLERS {
            return Err(Reason::Limit);
        }
        let who = known.unwrap_or(self.next[port].len() as u16);
        if known.is_none() {
            self.callers[port].insert(name, who);
            self.next[port].push(0);
            self.session.ports[port].names.push(name);
        }
        self.here[port].push(who);
        let at = self.session.calls.len();
        let first_step = self.next[port][who as usize];
        self.last(port).callers.push(Script {
            who,
            first_step,
            calls: Span::new(at, at),
        });
        self.place = Place::Caller(port, who);
        Ok(())
    }

    pub(super) fn call(&mut self, item: Item, words: &[&[u8]]) -> Result<(), Reason> {
        let Place::Caller(port, who) = self.place else {
            return Err(Reason::Order);
        };
        let fits = match item {
            Item::Open => matches!(words.len(), 3 | 4),
            Item::Modes => words.len() >= 4,
            Item::Read | Item::Write | Item::Setd | Item::Flush | Item::Xonc | Item::Send => {
                words.len() == 3
            }
            _ => words.len() == 2,
        };
        if !fits {
            return Err(Reason::Word);
        }
        let h = number(words[1], 0, 31)? as u8;
        let kind = self.kind(item, words)?;
        self.count_step()?;
        self.session.calls.push(Call { h, kind });
        let end = self.session.calls.len() as u32;
        if let Some(script) = self.last(port).callers.last_mut() {
            script.calls.end = end;
        }
        self.next[port][who as usize] += 1;
        Ok(())
    }

    fn kind(&mut self, item: Item, words: &[&[u8]]) -> Result<Kind, Reason> {
        Ok(match item {
            Item::Open => {
                let access = match words[2] {
                    b"r" => Access::R,
                    b"w" => Access::W,
                    b"rw" => Access::Rw,
                    _ => return Err(Reason::Word),
                };
                let nonblock = words.len() == 4;
                if nonblock && words[3] != b"nonblock" {
                    return Err(Reason::Word);
                }
                Kind::Open { access, nonblock }
            }
            Item::Close => Kind::Close,
            Item::Read => Kind::Read(number(words[2], 1, MOST_BYTES as u64)?),
            Item::Write => Kind::Write(self.hex(words[2], MOST_BYTES)?),
            Item::Getm => Kind::GetModes,
            Item::Modes => {
                let when = match words[2] {
                    b"now" => When::Now,
                    b"drain" => When::Drain,
                    b"flush" => When::Flush,
                    _ => return Err(Reason::Word),
                };
                let start = self.session.words.len();
                for text in &words[3..] {
                    self.session
                        .words
                        .push(modes::word(text).ok_or(Reason::Word)?);
                }
                if words.len() - 3 > MOST_WORDS {
                    return Err(Reason::Limit);
                }
                Kind::SetModes {
                    when,
                    words: Span::new(start, self.session.words.len()),
                }
            }
            Item::Getd => Kind::GetDisc,
            Item::Setd => Kind::SetDisc(number(words[2], 0, u64::from(u32::MAX))?),
            Item::Flush => Kind::Flush(match words[2] {
                b"in" => Queue::Input,
                b"out" => Queue::Output,
                b"both" => Queue::Both,
                _ => return Err(Reason::Word),
            }),
            Item::Xonc => Kind::Xonc(match words[2] {
                b"ooff" => Act::Ooff,
                b"oon" => Act::Oon,
                b"ioff" => Act::Ioff,
                b"ion" => Act::Ion,
                _ => return Err(Reason::Word),
            }),
            Item::Inq => Kind::Inq,
            Item::Outq => Kind::Outq,
            Item::Excl => Kind::Excl,
            Item::Nxcl => Kind::Nxcl,
            Item::Drain => Kind::Drain,
            Item::Counts => Kind::Counts,
            Item::Vhangup => Kind::Vhangup,
            Item::Send => Kind::Send(self.hex(words[2], MOST_BYTES)?),
            _ => Kind::Take,
        })
    }
}
