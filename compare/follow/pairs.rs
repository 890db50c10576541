//! Random pairs: mostly beacons of either kind whose hops and qualities are equal or nearly so, and other frames.

use crate::follow::check::follow;
use crate::follow::drafts::*;
use crate::frames::drafts::{damaged, Draft};
use crate::frames::kinds::{BEACONS, KINDS, MOST_BEACON_HOPS};
use crate::shared::check::{Agreement, Check};
use crate::shared::random::Random;

pub fn random_pair(check: &mut Check) -> Agreement {
    let random = &mut check.random;
    let network = random.within(1, 0xFFFF) as u16;
    let (hop, quality) = (random.within(0, MOST_BEACON_HOPS), random.within(0, 255));
    let (other_hop, other_quality) = (near(hop, MOST_BEACON_HOPS, random), near(quality, 255, random));
    let (first, second) = (random_frame(network, hop, random), random_frame(network, other_hop, random));
    let own = if random.below(16) == 0 { 0 } else { network };
    follow(check, [heard(&first, quality as u8), heard(&second, other_quality as u8)], own)
}

/// Half the time the number itself, else one next to it, or any up to the most.
fn near(number: u32, most: u32, random: &mut Random) -> u32 {
    let (less, more) = (number.saturating_sub(1), most.min(number + 1));
    let any = random.within(0, most);
    random.one_of(&[number, number, number, number, less, more, any, any])
}

/// Mostly a beacon of this network with this hop.
fn random_frame(network: u16, hop: u32, random: &mut Random) -> Vec<u8> {
    let code = random.one_of(&BEACONS);
    let any = random.draw() as u16;
    let others = [network ^ 1, network ^ 0x100, network.swap_bytes(), any];
    let draft = ours(code, hop, random);
    match random.below(8) {
        0 | 1 => damaged(with(&draft, &[("network", network.into())]).frame(), random),
        2 => with(&draft, &[("network", random.one_of(&others).into())]).frame(),
        3 => Draft::new(&KINDS[random.below(KINDS.len())], random).frame(),
        _ => with(&draft, &[("network", network.into())]).frame(),
    }
}
