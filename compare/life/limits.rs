//! Every kind with every event, every limit in turn, stored times at the limits of their order, and damaged states and
//! buffers.

use crate::life::calls::Asked;
use crate::life::check::{ages, ask, SUPERFRAMES};
use crate::life::states::{self, *};
use crate::shared::check::{Agreement, Check};
use crate::shared::moment_drafts::*;
use crate::shared::moments::{Moment, HALF, LONGEST_STEP};
use crate::shared::refusal::Refusal;

/// When calls come: far from the top, and at it and at the half of all times, so that all that was before them lies on
/// the other side.
const NOONS: [Moment; 3] = [NOON, TOP, Moment(HALF)];
const NOON: Moment = Moment(2_000_000_000);

/// A superframe that a unit would have.
const SUPERFRAME_MS: u32 = 2_700;

pub fn check(check: &mut Check) -> Agreement {
    every_kind_with_every_event(check)?;
    limits_of_the_paper(check)?;
    times_acted_on(check)?;
    ticks_at_limits(check)?;
    damaged_states(check)?;
    every_length(check)
}

/// Asks at the state's last time, and at the limits of the steps from it.
fn ask_around(check: &mut Check, stored: Stored, asked: Asked) -> Agreement {
    for step in [0, 1, LONGEST_STEP, HALF, u32::MAX] {
        ask(check, &stored.bytes(), asked, stored.last + step)?;
    }
    Ok(())
}

/// Listed or not, known or not; the times all differ, so that none passes for another.
fn every_kind_with_every_event(check: &mut Check) -> Agreement {
    for kind in 0..=0xFF {
        for number in 0..=0xFF {
            let known = usize::from(kind) < KINDS.len() && usize::from(number) < EVENTS.len();
            let noons = if known { &NOONS[..] } else { &[NOON] };
            for &noon in noons {
                let stored = Stored { kind, last: noon, entered: noon - 7_000, beacon: noon - 500 };
                for time in [noon - 1, noon, noon + 1_234] {
                    ask(check, &stored.bytes(), Asked::Event(number), time)?;
                }
            }
        }
    }
    Ok(())
}

/// "30,000 ms to Manager", "10,000 ms to Recovery", "60,000 ms to Stopped", "on a tick more than three superframes
/// after the last beacon, to Recovery": whatever the time is that the state does not act on.
fn limits_of_the_paper(check: &mut Check) -> Agreement {
    for (kind, limit, next) in [
        (Kind::Discovery, 30_000, Kind::Manager),
        (Kind::Joining, 10_000, Kind::Recovery),
        (Kind::Recovery, 60_000, Kind::Stopped),
        (Kind::Normal, 3 * SUPERFRAME_MS + 1, Kind::Recovery),
    ] {
        let across_the_top = [TOP - (limit - 1), TOP - limit, TOP - (limit + 1)];
        for start in STARTS.into_iter().chain(across_the_top) {
            for other in FORWARD.into_iter().chain(NOT_FORWARD).map(|age| start - age) {
                let (entered, beacon) = if kind == Kind::Normal { (other, start) } else { (start, other) };
                let stored = Stored { kind: kind as u8, last: start, entered, beacon };
                becomes(check, stored, start, kind)?;
                becomes(check, stored, start + (limit - 1), kind)?;
                becomes(check, stored, start + limit, next)?;
                becomes(check, stored, start + LONGEST_STEP, next)?;
            }
        }
    }
    Ok(())
}

/// A tick is accepted, and leaves a state of this kind.
fn becomes(check: &mut Check, stored: Stored, time: Moment, kind: Kind) -> Agreement {
    let next = Stored::of(&ask(check, &stored.bytes(), Asked::Tick(SUPERFRAME_MS), time)?);
    assert_eq!(next.map(|next| (next.kind, next.last)), Some((kind as u8, time)), "{:?}", stored);
    Ok(())
}

/// "The rule that a stored time may not be later than the last accepted one reads by the same difference, for the
/// times a state still acts on": that of entry in three kinds, that of the last beacon in one, and no other.
fn times_acted_on(check: &mut Check) -> Agreement {
    for start in STARTS {
        for kind in KINDS {
            for age in FORWARD.into_iter().chain(NOT_FORWARD) {
                let (late, time) = (age > LONGEST_STEP, start - age);
                let stored = Stored { kind: kind as u8, last: start, entered: start, beacon: start };
                let by_entry = [Kind::Discovery, Kind::Joining, Kind::Recovery].contains(&kind);
                let by_beacon = kind == Kind::Normal;
                is_judged(check, Stored { entered: time, ..stored }, late && by_entry)?;
                is_judged(check, Stored { beacon: time, ..stored }, late && by_beacon)?;
                is_judged(check, Stored { entered: time, beacon: time, ..stored }, late && (by_entry || by_beacon))?;
            }
        }
    }
    Ok(())
}

/// A state is 14 at every time, or a tick is accepted at a time that follows its last and is 8 at any other.
fn is_judged(check: &mut Check, stored: Stored, out_of_rule: bool) -> Agreement {
    let bytes = stored.bytes();
    for (steps, otherwise) in [(FORWARD, None), (NOT_FORWARD, Some(Refusal::Early))] {
        let expected = if out_of_rule { Some(Refusal::OutOfRule) } else { otherwise };
        for time in steps.map(|step| stored.last + step) {
            ask(check, &bytes, Asked::Tick(SUPERFRAME_MS), time)?;
            assert_eq!(states::tick(&bytes, SUPERFRAME_MS, time).err(), expected, "{:?}", stored);
            let event = check.random.one_of(&EVENTS);
            ask(check, &bytes, Asked::Event(event as u8), time)?;
        }
    }
    Ok(())
}

/// In every kind and for every superframe, at each pair of ages since entry and since the last beacon.
fn ticks_at_limits(check: &mut Check) -> Agreement {
    for noon in NOONS {
        for kind in (0..=KINDS.len() as u8).chain([0xFF]) {
            for superframe_ms in SUPERFRAMES {
                for entered in ages(superframe_ms).map(|age| noon - age) {
                    for beacon in ages(superframe_ms).map(|age| noon - age) {
                        for last in [entered, beacon, noon, noon + 1] {
                            let stored = Stored { kind, last, entered, beacon };
                            ask(check, &stored.bytes(), Asked::Tick(superframe_ms), noon)?;
                        }
                    }
                }
            }
        }
    }
    Ok(())
}

/// Times that are one or half of all times or both apart, in every order, alone and together with other faults.
fn damaged_states(check: &mut Check) -> Agreement {
    let times = [0, 1, HALF - 1, HALF, HALF + 1, u32::MAX - 1, u32::MAX].map(Moment);
    for kind in [0, 1, 2, 3, 4, 5, 6, 7, 8, 0x7F, 0x80, 0xFF] {
        for last in times {
            for entered in times {
                for beacon in times {
                    let stored = Stored { kind, last, entered, beacon };
                    let number = check.random.below(EVENTS.len() + 1) as u8;
                    let superframe_ms = check.random.one_of(&SUPERFRAMES);
                    ask_around(check, stored, Asked::Event(number))?;
                    ask_around(check, stored, Asked::Tick(superframe_ms))?;
                }
            }
        }
    }
    Ok(())
}

/// A buffer that is not a state's, empty or too long or too short, with good contents as far as it goes and with others.
fn every_length(check: &mut Check) -> Agreement {
    for length in 0..=STATE_LENGTH + 1 {
        for kind in 0..=KINDS.len() as u8 {
            let mut good = Stored { kind, last: NOON, entered: NOON, beacon: NOON }.bytes();
            good.resize(length, 0);
            for buffer in [good, check.random.bytes(length), vec![0; length]] {
                for asked in [Asked::Fresh, Asked::Event(0), Asked::Event(9), Asked::Tick(0), Asked::Tick(1_000)] {
                    for time in [TOP, NOON, TOP - 1] {
                        ask(check, &buffer, asked, time)?;
                    }
                }
            }
        }
    }
    Ok(())
}
