//! Hostile frames, each as the first and as the second: every kind of frame, and beacons with every type, every byte
//! damaged, and every length.

use crate::follow::calls::Follow;
use crate::follow::check::*;
use crate::follow::drafts::*;
use crate::frames::bodies::mended;
use crate::frames::drafts::Draft;
use crate::frames::kinds::{kind_of_type, BEACONS, KINDS, LONGEST_FRAME};
use crate::shared::check::{Agreement, Check};
use crate::shared::hostile;
use crate::shared::lending::BOTH_WAYS;

/// The hop of both beacons, so that a damaged one may be lower or higher, and the quality of the one beside it.
const HOP: u32 = 4;
const QUALITY: u8 = 100;

pub fn check(check: &mut Check) -> Agreement {
    every_kind(check)?;
    for code in BEACONS {
        every_type(check, code)?;
        every_byte_damaged(check, code)?;
        every_length(check, code)?;
    }
    Ok(())
}

fn every_kind(check: &mut Check) -> Agreement {
    for kind in &KINDS {
        let frame = Draft::new(kind, &mut check.random).frame();
        damaged(check, &frame)?;
    }
    Ok(())
}

fn every_type(check: &mut Check, code: u8) -> Agreement {
    for other in 0..=0xFF {
        let mut frame = ours(code, HOP, &mut check.random).frame();
        frame[0] = other;
        damaged(check, &frame)?;
    }
    Ok(())
}

fn every_byte_damaged(check: &mut Check, code: u8) -> Agreement {
    for place in 0..kind_of_type(code).frame_length(0) {
        for change in [1, 2, 4, 8, 16, 32, 64, 128, 0xFF] {
            let mut frame = ours(code, HOP, &mut check.random).frame();
            frame[place] ^= change;
            damaged(check, &frame)?;
        }
    }
    Ok(())
}

fn every_length(check: &mut Check, code: u8) -> Agreement {
    let good = ours(code, HOP, &mut check.random).frame();
    for frame in hostile::every_length(&good, &mut check.random) {
        beside_others(check, &frame)?;
    }
    for length in [LONGEST_FRAME, LONGEST_FRAME + 1, good.len() + 0x100, good.len() + 0x1_0000] {
        let mut frame = good.clone();
        frame.resize(length, 0);
        damaged(check, &frame)?;
    }
    Ok(())
}

/// Bytes as they are and with their checksum mended.
fn damaged(check: &mut Check, frame: &[u8]) -> Agreement {
    beside_others(check, frame)?;
    beside_others(check, &mended(frame))
}

/// Bytes beside a beacon of either kind that will do, beside one that will not, and beside none.
fn beside_others(check: &mut Check, frame: &[u8]) -> Agreement {
    put_beside(check, frame, &[])?;
    for code in BEACONS {
        let will_do = ours(code, HOP, &mut check.random);
        put_beside(check, frame, &will_do.frame())?;
        put_beside(check, frame, &with(&will_do, &[("network", 0)]).frame())?;
    }
    Ok(())
}

/// Both ways round, heard worse, as well and better, for our network, another one and none; with empty frames lent in
/// either way.
fn put_beside(check: &mut Check, frame: &[u8], other: &[u8]) -> Agreement {
    for network in [NETWORK, NETWORK ^ 0x101, 0] {
        for quality in [QUALITY - 1, QUALITY, QUALITY + 1] {
            let (one, other) = (heard(frame, quality), heard(other, QUALITY));
            for [first, second] in [[one, other], [other, one]] {
                for empty in BOTH_WAYS {
                    let which = check.random.one_of(&BEFORE);
                    check.put_lending(&Follow { first, second, network, which }, empty)?;
                }
            }
        }
    }
    Ok(())
}
