//! The session of `gen N`.

use crate::modes;
use crate::session::*;

fn add_block(session: &mut Session, p: usize, first_step: u32, kinds: &[Kind]) {
    let start = session.calls.len();
    session
        .calls
        .extend(kinds.iter().map(|&kind| Call { h: 0, kind }));
    let calls = Span::new(start, session.calls.len());
    let phase = session.ports[p].phases.last_mut().expect("a phase is open");
    phase.callers.push(Script {
        who: 0,
        first_step,
        calls,
    });
}

pub fn make(n: u32) -> Session {
    let mut x = n;
    let mut session = Session {
        version: 1,
        ..Default::default()
    };
    session.words.push(modes::Word::Raw);
    session.ports.resize_with(4, || PortScript {
        flip: 4_096,
        ..Default::default()
    });
    let mut steps = [2; 4];
    for p in 0..4 {
        let port = &mut session.ports[p];
        port.names.push(*b"c\0\0\0\0\0\0\0\0\0\0\0\0\0\0\0");
        port.chars = 15 * 4_000;
        port.phases.push(PortPhase::default());
        let open = Kind::Open {
            access: Access::Rw,
            nonblock: true,
        };
        let raw = Kind::SetModes {
            when: When::Now,
            words: Span::new(0, 1),
        };
        add_block(&mut session, p, 0, &[open, raw]);
    }
    for k in 1..16u32 {
        for (p, step) in steps.iter_mut().enumerate() {
            let start = session.data.len();
            session.data.extend((0..4_000).map(|_| {
                x = x.wrapping_mul(1_664_525).wrapping_add(1_013_904_223);
                (x >> 24) as u8
            }));
            let bytes = Span::new(start, session.data.len());
            session.steps.push(LineStep::Rx { flag: 0, bytes });
            let at = session.steps.len();
            let line = Some(Span::new(at - 1, at));
            session.ports[p].phases.push(PortPhase {
                line,
                ..Default::default()
            });
            let kinds = [Kind::Read(4_000), Kind::SetDisc(1), Kind::SetDisc(0)];
            let changes = (u64::from(n) + u64::from(k) + p as u64).is_multiple_of(4);
            let kinds = if changes { &kinds[..] } else { &kinds[..1] };
            add_block(&mut session, p, *step, kinds);
            *step += kinds.len() as u32;
        }
    }
    session
}
