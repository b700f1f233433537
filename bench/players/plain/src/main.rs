//! A player of terminal sessions on one thread, to measure beside: `run --one [--journal]` and `gen N`. Nothing of
//! it is proved.

mod gener;
mod hex;
mod journal;
mod modes;
mod nslip;
mod ntty;
mod output;
mod parse;
mod play;
mod port;
mod print;
mod receiver;
mod session;
mod side;

use std::io::{Read, Result, Write};

const MOST_INPUT: usize = 4_194_304;

enum Words {
    Run { journals: bool },
    Gen(u32),
}

/// The options follow `run` in any order, each at most once. Without `--one` a session is to be played on
/// threads, which this player does not do.
fn words(args: &[String]) -> Option<Words> {
    let args: Vec<&str> = args.iter().map(String::as_str).collect();
    match args[..] {
        ["run", "--one"] => Some(Words::Run { journals: false }),
        ["run", "--one", "--journal"] | ["run", "--journal", "--one"] => {
            Some(Words::Run { journals: true })
        }
        ["gen", n] => {
            let n = parse::number_of(n.as_bytes())?;
            u32::try_from(n).ok().map(Words::Gen)
        }
        _ => None,
    }
}

fn played(session: &session::Session) -> (Vec<play::Played>, Vec<u32>) {
    let mut answers = vec![0; session.calls.len()];
    let runs = session
        .ports
        .iter()
        .map(|s| play::play(session, s, &mut answers))
        .collect();
    (runs, answers)
}

fn run(journals: bool, sink: &mut impl Write) -> Result<u8> {
    let mut text = Vec::new();
    if std::io::stdin()
        .lock()
        .take(MOST_INPUT as u64 + 1)
        .read_to_end(&mut text)
        .is_err()
    {
        return sink.write_all(b"read fault\n").map(|()| 3);
    }
    if text.len() > MOST_INPUT {
        return sink.write_all(b"session too long\n").map(|()| 6);
    }
    match parse::parse(&text) {
        Err(bad) => {
            writeln!(sink, "bad session line {}: {}", bad.line, bad.reason.text()).map(|()| 1)
        }
        Ok(session) => {
            drop(text);
            let (runs, answers) = played(&session);
            print::report(sink, &session, &runs, &answers, journals).map(|()| 0)
        }
    }
}

fn main() {
    let args: Vec<String> = std::env::args_os()
        .skip(1)
        .map(|a| a.to_string_lossy().into_owned())
        .collect();
    let mut sink = std::io::stdout().lock();
    let status = match words(&args) {
        None => sink.write_all(b"bad words\n").map(|()| 2),
        Some(Words::Run { journals }) => run(journals, &mut sink),
        Some(Words::Gen(n)) => {
            let session = gener::make(n);
            let (runs, _) = played(&session);
            sink.write_all(&print::summary(n, &session, &runs))
                .map(|()| 0)
        }
    };
    let status = status
        .and_then(|status| sink.flush().map(|()| status))
        .unwrap_or(4);
    // The session and its runs need no taking apart.
    std::process::exit(status.into());
}
