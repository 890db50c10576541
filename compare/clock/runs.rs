//! Random runs of a clock: each step with the offset that the one before it left.

use crate::clock::check::*;
use crate::frames::bodies::mended;
use crate::frames::kinds::{BEACONS, SHORT_BEACON};
use crate::shared::check::{Agreement, Check};
use crate::shared::moment_drafts::{start, Pace};
use crate::shared::moments::Moment;

/// The local times of a run.
const PACE: Pace = Pace { at_limits: 0, leaps: 4 };

/// So many beacons for one clock, while its local time goes on.
pub fn random_run(check: &mut Check, steps: u64) -> Agreement {
    let (mut offset, mut local_time) = (number(check), start(&mut check.random));
    for _ in 0..steps {
        local_time = PACE.next(local_time, local_time, &mut check.random);
        offset = random_step(check, offset, local_time)?;
    }
    Ok(())
}

/// A beacon of either kind as it should be, with a drift near a limit or anywhere; now and then a damaged one.
fn random_step(check: &mut Check, offset: u32, local_time: Moment) -> Offset {
    let near = check.random.below(2 * NEAR as usize + 1) as i32 - NEAR;
    let (far, any) = (check.random.one_of(&FAR), check.random.draw() as i32);
    let drift = check.random.one_of(&[near, near, near, near, near, far, any, any]);
    let code = check.random.one_of(&BEACONS);
    let delay = random_delay(check, code);
    let draft = beacon(check, code, local_time + offset - drift as u32 - delay, delay);
    let network = network_of(&draft);
    let mut frame = draft.frame();
    match check.random.below(8) {
        0 => {
            let place = check.random.below(frame.len());
            frame[place] ^= 1 + check.random.below(0xFF) as u8;
            if check.random.below(2) == 0 {
                frame = mended(&frame);
            }
            step(check, offset, local_time, network, &frame)
        }
        1 => {
            let other = random_network(check, network);
            step(check, offset, local_time, other, &frame)
        }
        _ => step(check, offset, local_time, network, &frame),
    }
}

fn random_delay(check: &mut Check, code: u8) -> u32 {
    match code {
        SHORT_BEACON => check.random.within(0, 0xFFFF),
        _ => number(check),
    }
}

fn random_network(check: &mut Check, own: u16) -> u16 {
    let other = check.random.draw() as u16;
    check.random.one_of(&[0, own, own ^ 1, other])
}

fn number(check: &mut Check) -> u32 {
    let (any, corner) = (check.random.draw() as u32, check.random.one_of(&CORNERS));
    check.random.one_of(&[any, any, any, corner])
}
