//! Hostile buffers: each buffer of a call at every length from 0 to one past what is right, with contents that are good
//! as far as they go, and with random ones; an empty buffer as NULL and with an address. What lies around each buffer
//! has to stay as it was (`lending::Lent`).

use crate::frames::bodies::mended;
use crate::shared::check::{Agreement, Call, Check};
use crate::shared::kept::{Ask, On};
use crate::shared::lending::BOTH_WAYS;
use crate::shared::random::Random;

/// At every length from 0 to one more than these bytes have: the bytes, and random ones; each as they are and like a
/// frame of the type that they begin with, whose checksum is right.
pub fn every_length(good: &[u8], random: &mut Random) -> Vec<Vec<u8>> {
    let mut versions = Vec::new();
    for length in 0..=good.len() + 1 {
        let mut cut = good.to_vec();
        cut.resize(length, 0);
        let any = random.bytes(length);
        let mut typed = any.clone();
        if let (Some(first), Some(code)) = (typed.first_mut(), good.first()) {
            *first = *code;
        }
        versions.extend([mended(&cut), mended(&typed), cut, any]);
    }
    versions
}

/// Puts a call that is accepted, and then with each of its buffers at every length.
pub fn every_buffer<A: Ask>(check: &mut Check, kept: &[u8], ask: &A) -> Agreement
where
    for<'a> On<'a, A>: Call,
{
    for empty in BOTH_WAYS {
        let answer = check.put_lending(&On { kept, ask }, empty)?;
        assert!(answer.is_accepted(), "a call with good buffers is accepted");
    }
    every_length_of_each(check, kept, ask)
}

/// Puts a call with each of its buffers at every length.
pub fn every_length_of_each<A: Ask>(check: &mut Check, kept: &[u8], ask: &A) -> Agreement
where
    for<'a> On<'a, A>: Call,
{
    for empty in BOTH_WAYS {
        for other in every_length(kept, &mut check.random) {
            check.put_lending(&On { kept: &other, ask }, empty)?;
        }
        let mut changed = ask.clone();
        let input = changed.lent().0.map_or(Vec::new(), |input| every_length(input, &mut check.random));
        for other in input {
            changed.lent().0.expect("the call has an input").clone_from(&other);
            check.put_lending(&On { kept, ask: &changed }, empty)?;
        }
        let mut changed = ask.clone();
        let most = changed.lent().1.map_or(0, |room| *room + 1);
        for other in 0..most {
            *changed.lent().1.expect("the call has an output") = other;
            check.put_lending(&On { kept, ask: &changed }, empty)?;
        }
    }
    Ok(())
}
