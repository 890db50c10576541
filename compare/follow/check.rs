//! The comparison of following: every rank and every refusal of the request in turn, hostile frames, then random pairs.

use crate::follow::calls::Follow;
use crate::follow::choice::{Heard, Which};
use crate::follow::{hostile, pairs, ranks, refusals};
use crate::shared::check::{Agreement, Check};
use crate::shared::progress::Progress;
use crate::shared::refusal::{Refusal, ACCEPTED};
use crate::Options;

/// What `which` holds before a call: either answer, and what is none.
pub const BEFORE: [u8; 4] = [0, 1, 2, 0xFF];

pub fn check(check: &mut Check, options: &Options, progress: &mut Progress) -> Agreement {
    ranks::check(check)?;
    refusals::check(check)?;
    hostile::check(check)?;
    for done in 0..options.steps {
        pairs::random_pair(check)?;
        progress.step(done + 1, options.steps);
    }
    Ok(())
}

/// Puts a pair to both, with anything in `which`.
pub fn follow(check: &mut Check, [first, second]: [Heard; 2], network: u16) -> Agreement {
    let which = check.random.one_of(&BEFORE);
    check.put(&Follow { first, second, network, which }).map(drop)
}

/// Puts a pair to both, who are held to this answer, with each of these numbers in `which`: a refusal leaves it there.
pub fn is_answered(
    check: &mut Check,
    expected: Result<Which, Refusal>,
    [first, second]: [Heard; 2],
    network: u16,
    pair_in_words: &str,
) -> Agreement {
    for which in BEFORE {
        let answer = check.put(&Follow { first, second, network, which })?;
        let expected = match expected {
            Ok(followed) => (ACCEPTED, followed.number()),
            Err(refusal) => (refusal.number(), which),
        };
        assert_eq!((answer.status, answer.left.which), expected, "{}", pair_in_words);
    }
    Ok(())
}
