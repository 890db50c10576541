//! "The first frame's number if neither will do": each reason beside each, whichever comes first in the paper's order,
//! also for a caller without a network.

use crate::follow::check::*;
use crate::follow::drafts::*;
use crate::frames::drafts::Draft;
use crate::frames::kinds::MOST_BEACON_HOPS;
use crate::shared::check::{Agreement, Check};
use crate::shared::refusal::Refusal;

/// What a caller gives that has no network.
const NO_NETWORK: u16 = 0;

pub fn check(check: &mut Check) -> Agreement {
    for codes in KINDS_OF_PAIRS {
        every_pair_of_reasons(check, codes)?;
        readable_without_a_network(check, codes)?;
        every_network(check, codes)?;
    }
    Ok(())
}

fn every_pair_of_reasons(check: &mut Check, [code, other_code]: [u8; 2]) -> Agreement {
    for (reason, refusal, spoil) in reasons(code) {
        for (other_reason, _, spoil_other) in reasons(other_code) {
            let first = spoil(&any_of_ours(check, code));
            let second = spoil_other(&any_of_ours(check, other_code));
            let pair = [heard(&first, 0), heard(&second, 255)];
            let words = format!("{}, then {}", reason, other_reason);
            is_answered(check, Err(*refusal), pair, NETWORK, &words)?;
            is_answered(check, Err(without_a_network(*refusal)), pair, NO_NETWORK, &words)?;
        }
    }
    Ok(())
}

/// A caller without a network follows no readable beacon either: 4 if the first is one, else the first's own number.
fn readable_without_a_network(check: &mut Check, [code, other_code]: [u8; 2]) -> Agreement {
    let (one, another) = (any_of_ours(check, code).frame(), any_of_ours(check, other_code).frame());
    let pair = [heard(&one, 0), heard(&another, 255)];
    is_answered(check, Err(Refusal::Field), pair, NO_NETWORK, "two readable beacons")?;
    for (reason, refusal, spoil) in reasons(other_code) {
        let other = spoil(&any_of_ours(check, other_code));
        let (readable, other) = (heard(&one, 0), heard(&other, 255));
        is_answered(check, Err(Refusal::Field), [readable, other], NO_NETWORK, reason)?;
        is_answered(check, Err(without_a_network(*refusal)), [other, readable], NO_NETWORK, reason)?;
    }
    Ok(())
}

/// What a caller without a network is answered where another caller is refused with this.
fn without_a_network(refusal: Refusal) -> Refusal {
    match refusal {
        Refusal::Network => Refusal::Field,
        earlier => earlier,
    }
}

/// The caller's, and those in both frames.
fn every_network(check: &mut Check, [code, other_code]: [u8; 2]) -> Agreement {
    let networks = [0, 1, 2, 0x100, 0x101, 0x7FFF, 0xFF00, 0xFFFE, 0xFFFF];
    for own in networks {
        for network in networks {
            for other_network in networks {
                let first = with(&any_of_ours(check, code), &[("network", network.into())]).frame();
                let second = with(&any_of_ours(check, other_code), &[("network", other_network.into())]).frame();
                follow(check, [heard(&first, 100), heard(&second, 100)], own)?;
            }
        }
    }
    Ok(())
}

fn any_of_ours(check: &mut Check, code: u8) -> Draft {
    let hop = check.random.within(0, MOST_BEACON_HOPS);
    ours(code, hop, &mut check.random)
}
