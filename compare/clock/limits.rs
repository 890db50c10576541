//! The paper's examples of drifts, every limit of a drift and of an offset, networks, and damaged beacons; each by either
//! kind of beacon.

use crate::clock::calls::Step;
use crate::clock::check::*;
use crate::frames::bodies::mended;
use crate::frames::drafts::Draft;
use crate::frames::kinds::{kind_of_type, BEACON, BEACONS, KINDS, LONGEST_FRAME, SHORT_BEACON};
use crate::shared::check::{Agreement, Check};
use crate::shared::hostile;
use crate::shared::lending::BOTH_WAYS;
use crate::shared::moment_drafts::{anywhere, STARTS, TOP};
use crate::shared::moments::Moment;

pub fn check(check: &mut Check) -> Agreement {
    other_kinds(check)?;
    for code in BEACONS {
        drifts_of_the_paper(check, code)?;
        every_drift(check, code)?;
        every_offset(check, code)?;
        networks(check, code)?;
        other_frames(check, code)?;
        every_byte_damaged(check, code)?;
        every_length(check, code)?;
    }
    Ok(())
}

/// When a beacon was sent first, and its delay since.
type Sent = (Moment, u32);

/// Steps by a beacon of this type and of the caller's own network.
fn step_by(check: &mut Check, code: u8, offset: u32, local_time: Moment, (original_time, delay): Sent) -> Offset {
    let draft = beacon(check, code, original_time, delay);
    step(check, offset, local_time, network_of(&draft), &draft.frame())
}

/// The offset with which these times drift so far.
fn offset_for(drift: i32, local_time: Moment, (original_time, delay): Sent) -> u32 {
    (original_time + delay + drift as u32).since(local_time)
}

/// "Drift 100 leaves 50; -51 leaves -26; 101 leaves 0." And half of all times, which is its own negative, leaves 0.
fn drifts_of_the_paper(check: &mut Check, code: u8) -> Agreement {
    let examples = [(100, 50), (-51, -26), (101, 0)];
    let others = [(50, 50), (-50, -50), (51, 26), (-100, -50), (-101, 0), (i32::MAX, 0), (i32::MIN, 0)];
    for (drift, left) in examples.into_iter().chain(others) {
        for local_time in STARTS {
            for original_time in STARTS {
                for delay in delays(code) {
                    let sent = (original_time, delay);
                    let offset = offset_for(drift, local_time, sent);
                    let next = step_by(check, code, offset, local_time, sent)?;
                    assert_eq!((local_time + next).ahead_of(original_time + delay), left, "drift {}", drift);
                }
            }
        }
    }
    Ok(())
}

/// At every corner of the three times.
fn every_drift(check: &mut Check, code: u8) -> Agreement {
    for local_time in CORNERS.map(Moment) {
        for original_time in CORNERS.map(Moment) {
            for sent in delays(code).map(|delay| (original_time, delay)) {
                for drift in (-NEAR..=NEAR).chain(FAR) {
                    let offset = offset_for(drift, local_time, sent);
                    step_by(check, code, offset, local_time, sent)?;
                }
            }
        }
    }
    Ok(())
}

fn every_offset(check: &mut Check, code: u8) -> Agreement {
    for offset in CORNERS {
        for local_time in CORNERS.map(Moment) {
            for original_time in CORNERS.map(Moment) {
                for delay in delays(code) {
                    step_by(check, code, offset, local_time, (original_time, delay))?;
                }
            }
        }
    }
    Ok(())
}

fn networks(check: &mut Check, code: u8) -> Agreement {
    let networks = [0, 1, 2, 0x100, 0x101, 0x7FFF, 0xFF00, 0xFFFE, 0xFFFF];
    for own in networks {
        for network in networks {
            let mut draft = beacon(check, code, Moment(5_000), 70);
            draft.set("network", u32::from(network));
            for offset in CORNERS {
                step(check, offset, Moment(5_000), own, &draft.frame())?;
            }
        }
    }
    Ok(())
}

/// A frame of every kind, with a good network and without.
fn other_kinds(check: &mut Check) -> Agreement {
    for kind in &KINDS {
        let frame = Draft::new(kind, &mut check.random).frame();
        damaged(check, &frame)?;
    }
    Ok(())
}

/// Every type on a beacon, and lengths that are not its own, the other kind's among them; each with a good network and
/// without.
fn other_frames(check: &mut Check, code: u8) -> Agreement {
    let draft = beacon(check, code, Moment(77), 5);
    for other in 0..=0xFF {
        let mut frame = draft.frame();
        frame[0] = other;
        damaged(check, &frame)?;
    }
    let most = kind_of_type(BEACON).frame_length(0) + 2;
    for length in (0..=most).chain([LONGEST_FRAME, LONGEST_FRAME + 1, 0x100 + draft.frame_length()]) {
        let mut frame = draft.frame();
        frame.resize(length, 0);
        damaged(check, &frame)?;
    }
    Ok(())
}

fn every_byte_damaged(check: &mut Check, code: u8) -> Agreement {
    for place in 0..kind_of_type(code).frame_length(0) {
        for change in [1, 2, 4, 8, 16, 32, 64, 128, 0xFF] {
            let mut frame = beacon(check, code, TOP - 100, 300).frame();
            frame[place] ^= change;
            damaged(check, &frame)?;
        }
    }
    Ok(())
}

fn every_length(check: &mut Check, code: u8) -> Agreement {
    let local_time = TOP - 100;
    let draft = beacon(check, code, local_time, 300);
    let network = network_of(&draft);
    for empty in BOTH_WAYS {
        for frame in hostile::every_length(&draft.frame(), &mut check.random) {
            check.put_lending(&Step { offset: 0, local_time, network, frame: &frame }, empty)?;
        }
    }
    Ok(())
}

/// Bytes as they are and with their checksum mended, for the network that stands in them, none and another.
fn damaged(check: &mut Check, frame: &[u8]) -> Agreement {
    let mended = mended(frame);
    let network_at = if frame.first() == Some(&SHORT_BEACON) { 3 } else { 6 };
    let own = frame.get(network_at..network_at + 2).map_or(1, |bytes| u16::from_le_bytes([bytes[0], bytes[1]]));
    for bytes in [frame, &mended] {
        for network in [own, 0, own ^ 0x101] {
            for offset in [40, u32::MAX - 40] {
                let local_time = anywhere(&mut check.random);
                step(check, offset, local_time, network, bytes)?;
            }
        }
    }
    Ok(())
}
