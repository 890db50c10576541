//! The comparison of sheets: what the request says, case by case, each refusal, hostile buffers, small sites in full,
//! then random proposals.

use crate::shared::check::{Agreement, Check};
use crate::shared::lending::BOTH_WAYS;
use crate::shared::progress::Progress;
use crate::shared::refusal::{Refusal, ACCEPTED};
use crate::sheet::calls::CheckSheet;
use crate::sheet::play::first_meeting;
use crate::sheet::verdict::{Named, Proposal, Verdict};
use crate::sheet::{cases, hostile, limits, proposals, refusals, sweeps};
use crate::Options;

/// What the places for the answer hold before a call: what it may be, and what it is not.
const BEFORE: [Named; 4] = [
    Named { units: 0, lower: 0, higher: 0 },
    Named { units: 1, lower: 1, higher: 0 },
    Named { units: 2, lower: 0x0102, higher: 0xFFFE },
    Named { units: 0xFF, lower: 0xFFFF, higher: 0xA5C3 },
];

pub fn check(check: &mut Check, options: &Options, progress: &mut Progress) -> Agreement {
    cases::check(check)?;
    limits::check(check)?;
    refusals::check(check)?;
    hostile::check(check)?;
    sweeps::check(check)?;
    for done in 0..options.sheets {
        proposals::random_proposal(check)?;
        progress.step(done + 1, options.sheets);
    }
    Ok(())
}

/// Puts a proposal to both, with anything where the answer goes. If no unit on it offends by itself, the pair that is
/// named is the first that meets where its slots are played, and else none meets.
pub fn put(check: &mut Check, proposal: &Proposal) -> Agreement {
    let before = check.random.one_of(&BEFORE);
    let answer = check.put(&CheckSheet::new(proposal, before))?;
    let Named { units, lower, higher } = answer.left;
    if answer.is_accepted() && units != 1 {
        let pair = if units == 0 { None } else { Some((lower, higher)) };
        assert_eq!(first_meeting(proposal), pair, "the first pair that meets in a slot of {:x?}", proposal);
    }
    Ok(())
}

/// Puts a proposal to both, with anything where the answer goes and with empty buffers lent in either way.
pub fn put_both_ways(check: &mut Check, proposal: &Proposal) -> Agreement {
    for empty in BOTH_WAYS {
        let before = check.random.one_of(&BEFORE);
        check.put_lending(&CheckSheet::new(proposal, before), empty)?;
    }
    Ok(())
}

/// Puts a proposal to both, who are held to this answer, with each of these where it goes: a refusal leaves it there.
pub fn is_answered(
    check: &mut Check,
    expected: Result<Verdict, Refusal>,
    proposal: &Proposal,
    words: &str,
) -> Agreement {
    let mut call = CheckSheet::new(proposal, BEFORE[0]);
    let judged = call.judged.as_ref().map_err(|reasons| reasons[0].refusal()).copied();
    assert_eq!(judged, expected, "{}", words);
    for before in BEFORE {
        call.before = before;
        let answer = check.put(&call)?;
        let expected = match expected {
            Ok(verdict) => (ACCEPTED, verdict.named()),
            Err(refusal) => (refusal.number(), before),
        };
        assert_eq!((answer.status, answer.left), expected, "{}", words);
    }
    Ok(())
}
