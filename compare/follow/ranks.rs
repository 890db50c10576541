//! Every rank of the request, for each kind of beacon beside each and both ways round: ours or not, then hop, then
//! quality, then the first.

use crate::follow::check::*;
use crate::follow::choice::Which;
use crate::follow::drafts::*;
use crate::frames::kinds::MOST_BEACON_HOPS;
use crate::shared::check::{Agreement, Check};

pub fn check(check: &mut Check) -> Agreement {
    two_forwarders(check)?;
    for codes in KINDS_OF_PAIRS {
        ours_over_any_other(check, codes)?;
        ranks_of_the_request(check, codes)?;
        every_hop_and_quality(check, codes)?;
    }
    Ok(())
}

/// Two forwarders at hop 1 in network 1, whose beacons are of either kind.
const FORWARDERS: [&[u8]; 2] = [
    &[
        0x46, 0xFF, 0xFF, 0x02, 0x02, 0x1B, 0x01, 0x00, // up to the network
        0x07, 0x00, 0x00, 0x00, 0xF0, 0xD2, 0x36, 0xE8, 0x03, 0x00, 0x00, 0x00, 0x01, 0x01, // up to the hop
        0x70, 0x11, 0x01, 0x00, 0x2C, 0x01, 0x00, 0x00, 0x03, 0x07, 0x00, 0xED,
    ],
    &[
        0x47, 0x01, 0x02, 0x01, 0x00, // up to the network
        0x36, 0xE8, 0x03, 0x01, // up to the hop
        0x70, 0x11, 0x01, 0x00, 0x2C, 0x01, 0x03, 0x07, 0x00, 0xD0,
    ],
];

/// "A unit with two antennas may hear two forwarders at the same hop": the one that it hears better, else the first.
fn two_forwarders(check: &mut Check) -> Agreement {
    for first in FORWARDERS {
        for second in FORWARDERS {
            for (quality, followed) in [(179, Which::First), (180, Which::First), (181, Which::Second)] {
                let pair = [heard(first, 180), heard(second, quality)];
                is_answered(check, Ok(followed), pair, 1, "two forwarders at the same hop")?;
            }
        }
    }
    Ok(())
}

/// "A readable beacon of our network over any other", even if the other is heard best and seems to be nearest.
fn ours_over_any_other(check: &mut Check, [code, other_code]: [u8; 2]) -> Agreement {
    for (reason, _, spoil) in reasons(other_code) {
        let good = ours(code, MOST_BEACON_HOPS, &mut check.random).frame();
        let other = spoil(&ours(other_code, 0, &mut check.random));
        let (good, other) = (heard(&good, 0), heard(&other, 255));
        is_answered(check, Ok(Which::First), [good, other], NETWORK, reason)?;
        is_answered(check, Ok(Which::Second), [other, good], NETWORK, reason)?;
    }
    Ok(())
}

/// "Then lower hop, then higher quality, then the first": hop and quality of each, and the one that is followed.
const RANKS: [([(u32, u8); 2], Which); 20] = [
    ([(0, 0), (1, 255)], Which::First),
    ([(1, 255), (0, 0)], Which::Second),
    ([(3, 100), (4, 100)], Which::First),
    ([(4, 100), (3, 100)], Which::Second),
    ([(9, 0), (10, 255)], Which::First),
    ([(10, 255), (9, 0)], Which::Second),
    ([(0, 0), (10, 255)], Which::First),
    ([(10, 255), (0, 0)], Which::Second),
    ([(0, 0), (0, 255)], Which::Second),
    ([(0, 255), (0, 0)], Which::First),
    ([(1, 0), (1, 1)], Which::Second),
    ([(1, 1), (1, 0)], Which::First),
    ([(5, 127), (5, 128)], Which::Second),
    ([(5, 128), (5, 127)], Which::First),
    ([(10, 254), (10, 255)], Which::Second),
    ([(10, 255), (10, 254)], Which::First),
    ([(0, 0), (0, 0)], Which::First),
    ([(0, 255), (0, 255)], Which::First),
    ([(5, 100), (5, 100)], Which::First),
    ([(10, 0), (10, 0)], Which::First),
];

fn ranks_of_the_request(check: &mut Check, [code, other_code]: [u8; 2]) -> Agreement {
    for ([(hop, quality), (other_hop, other_quality)], followed) in RANKS {
        let first = ours(code, hop, &mut check.random).frame();
        let second = ours(other_code, other_hop, &mut check.random).frame();
        let pair = [heard(&first, quality), heard(&second, other_quality)];
        let words = format!("hops {} and {}, qualities {} and {}", hop, other_hop, quality, other_quality);
        is_answered(check, Ok(followed), pair, NETWORK, &words)?;
    }
    Ok(())
}

/// Qualities at and next to their limits, to the least of a route and to half of the most.
const QUALITIES: [u8; 8] = [0, 1, 39, 40, 127, 128, 254, 255];

fn every_hop_and_quality(check: &mut Check, [code, other_code]: [u8; 2]) -> Agreement {
    for first in every_hop(check, code) {
        for second in every_hop(check, other_code) {
            for quality in QUALITIES {
                for other_quality in QUALITIES {
                    follow(check, [heard(&first, quality), heard(&second, other_quality)], NETWORK)?;
                }
            }
        }
    }
    Ok(())
}

/// Beacons of this type with every hop, each with the fewest max hops that it can have and with the most.
fn every_hop(check: &mut Check, code: u8) -> Vec<Vec<u8>> {
    let mut frames = Vec::new();
    for hop in 0..=MOST_BEACON_HOPS {
        for max_hops in [hop.max(1), MOST_BEACON_HOPS] {
            let draft = ours(code, hop, &mut check.random);
            frames.push(with(&draft, &[("max hops", max_hops)]).frame());
        }
    }
    frames
}
