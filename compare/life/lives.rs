//! Random lives: each state is what the step before it left.

use crate::life::calls::Asked;
use crate::life::check::{ages, ask, SUPERFRAMES};
use crate::life::states::*;
use crate::shared::check::{Agreement, Check};
use crate::shared::moment_drafts::*;
use crate::shared::moments::{Moment, HALF, LONGEST_STEP};

/// The times of a life.
const PACE: Pace = Pace { at_limits: 6, leaps: 2 };

/// A fresh unit, or one that is made up, or now and then any bytes, and so many steps from there.
pub fn random_life(check: &mut Check, steps: u64) -> Agreement {
    let bytes = check.random.bytes(STATE_LENGTH);
    let mut state = match check.random.below(50) {
        0 => bytes,
        1..=15 => made_up(check),
        _ => {
            let time = start(&mut check.random);
            ask(check, &bytes, Asked::Fresh, time)?
        }
    };
    for _ in 0..steps {
        let superframe_ms = superframe(check);
        let stored = Stored::of(&state).expect("as many bytes as a state has");
        let time = time(check, stored, superframe_ms);
        let asked = asked(check, stored.kind, superframe_ms);
        let handed_in = if check.random.below(24) == 0 { damaged(check, stored) } else { stored };
        let left = ask(check, &handed_in.bytes(), asked, time)?;
        // A state that was damaged does not go on.
        if handed_in == stored {
            state = left;
        }
    }
    Ok(())
}

/// A state within rule whose times are in any order, but for the one that it acts on.
fn made_up(check: &mut Check) -> Vec<u8> {
    let (kind, last) = (check.random.one_of(&KINDS), start(&mut check.random));
    let ages: Vec<u32> = ages(superframe(check)).filter(|age| *age <= LONGEST_STEP).collect();
    let (age, long_ago) = (check.random.one_of(&ages), long_ago(&mut check.random));
    let acted_on = last - check.random.one_of(&[age, age, age, long_ago]);
    let (before, any) = (last - check.random.one_of(&ages), anywhere(&mut check.random));
    let other = check.random.one_of(&[before, last + 1, last + HALF, any]);
    let (entered, beacon) = if kind == Kind::Normal { (other, acted_on) } else { (acted_on, other) };
    Stored { kind: kind as u8, last, entered, beacon }.bytes()
}

/// A state with one of its times where it may not be, if it is one that counts.
fn damaged(check: &mut Check, stored: Stored) -> Stored {
    let late = stored_late(stored.last, &mut check.random);
    check.random.one_of(&[Stored { entered: late, ..stored }, Stored { beacon: late, ..stored }])
}

fn superframe(check: &mut Check) -> u32 {
    let any = check.random.draw() as u32;
    let limit = check.random.one_of(&SUPERFRAMES);
    check.random.one_of(&[1_000, 2_700, 10_000, 54_000, limit, any])
}

/// Mostly the last time or a little later, or at a limit from entry or from the last beacon; now and then earlier.
fn time(check: &mut Check, stored: Stored, superframe_ms: u32) -> Moment {
    let Stored { last, entered, beacon, .. } = stored;
    if check.random.below(20) == 0 {
        return earlier(last, &mut check.random);
    }
    let ages: Vec<u32> = ages(superframe_ms.min(LONGEST_SUPERFRAME_MS)).collect();
    let any_limit = check.random.one_of(&[entered, beacon]) + check.random.one_of(&ages);
    let silence = SUPERFRAMES_OF_SILENCE as u32 * superframe_ms.min(LONGEST_SUPERFRAME_MS);
    let own_limit = match KINDS.get(usize::from(stored.kind)) {
        Some(Kind::Discovery) => entered + DISCOVERY_MS,
        Some(Kind::Joining) => entered + JOINING_MS,
        Some(Kind::Normal) => beacon + silence,
        Some(Kind::Recovery) => entered + RECOVERY_MS,
        _ => any_limit,
    };
    let limit = check.random.one_of(&[any_limit, own_limit - 1, own_limit, own_limit + 1]);
    PACE.next(last, limit, &mut check.random)
}

/// Mostly an event that the paper lists for the kind, so that a life goes on.
fn asked(check: &mut Check, kind: u8, superframe_ms: u32) -> Asked {
    let any = check.random.below(EVENTS.len() + 1) as u8;
    let listed: &[Event] = match KINDS.get(usize::from(kind)) {
        Some(Kind::Initializing) => &[Event::Ready, Event::Ready, Event::Ready, Event::Failed],
        Some(Kind::Discovery) => &[Event::Beacon, Event::Beacon, Event::Fault],
        Some(Kind::Joining) => &[Event::Accepted, Event::Accepted, Event::Denied, Event::Beacon],
        Some(Kind::Normal) => &[Event::Beacon, Event::Beacon, Event::Elected],
        Some(Kind::Manager) => &[Event::RoleChange, Event::Fault],
        Some(Kind::Recovery) => &[Event::Recovered],
        Some(Kind::Stopped) | None => &EVENTS,
    };
    match check.random.below(10) {
        0 => Asked::Event(any),
        1..=5 => Asked::Tick(superframe_ms),
        _ => Asked::Event(check.random.one_of(listed) as u8),
    }
}
