//! Cases of polls by name: what the request says of the winner, of later messages and of room. The independent poll is
//! held to its words here, and the library to the independent poll.

use crate::poll::calls::Ask;
use crate::poll::drafts::*;
use crate::poll::election::{Poll, MOST_OTHERS};
use crate::poll::story::*;
use crate::poll::{out_of_rule, refusals};
use crate::shared::check::{Agreement, Check};

pub fn check(check: &mut Check) -> Agreement {
    fresh_polls(check)?;
    bytes_of_a_poll(check)?;
    later_message_replaces(check)?;
    tie_goes_to_the_lower_address(check)?;
    oneself_wins(check)?;
    every_pair_of_priorities(check)?;
    every_place_wins(check)?;
    every_order(check)?;
    room_for_24(check)?;
    refusals::check(check)?;
    out_of_rule::check(check)
}

/// Nobody was heard, so oneself wins with any priority.
fn fresh_polls(check: &mut Check) -> Agreement {
    for own in [1, 2, 0x00FF, 0x0100, 0x7FFF, 0x8000, 0xFFFD, 0xFFFE] {
        for priority in [0, 1, 127, 128, 254, 255] {
            let mut story = Story::begin(check, (own, priority))?;
            story.holds((own, priority), &[]);
            story.names(own)?;
        }
    }
    Ok(())
}

/// Own, priority, then the others ascending by address, whenever they were heard, the lowest byte of each first.
fn bytes_of_a_poll(check: &mut Check) -> Agreement {
    let mut story = Story::begin(check, (OWN, 5))?;
    for said in [(HIGHER, 6), (HIGHEST, 0), (LOWER, 255)] {
        story.hears(said)?;
    }
    let written = [0x03, 0x02, 5, 0x04, 0x01, 255, 0x02, 0x03, 6, 0x01, 0x04, 0];
    let (front, past) = story.poll.split_at(written.len());
    assert_eq!((front, past), (&written[..], &[0; Poll::LENGTH - 12][..]), "the bytes of a poll");
    story.holds((OWN, 5), &[(LOWER, 255), (HIGHER, 6), (HIGHEST, 0)]);
    Ok(())
}

/// "A later message from one unit replaces its earlier one", be it higher, lower or the same.
fn later_message_replaces(check: &mut Check) -> Agreement {
    let mut story = Story::begin(check, (OWN, 5))?;
    for (priority, winner) in [(9, HIGHER), (3, OWN), (9, HIGHER), (9, HIGHER), (0, OWN), (255, HIGHER)] {
        story.hears((HIGHER, priority))?;
        story.holds((OWN, 5), &[(HIGHER, priority)]);
        story.names(winner)?;
    }
    for (said, winner) in [((LOWER, 255), LOWER), ((HIGHEST, 7), LOWER), ((LOWER, 6), HIGHER), ((HIGHER, 6), HIGHEST)] {
        story.hears(said)?;
        story.names(winner)?;
    }
    story.holds((OWN, 5), &[(LOWER, 6), (HIGHER, 6), (HIGHEST, 7)]);
    Ok(())
}

/// Among others and beside oneself, whoever was heard first.
fn tie_goes_to_the_lower_address(check: &mut Check) -> Agreement {
    for heard in [[LOWER, HIGHER, HIGHEST], [HIGHEST, HIGHER, LOWER]] {
        let mut story = Story::begin(check, (OWN, 7))?;
        for unit in heard {
            story.hears((unit, 7))?;
        }
        story.names(LOWER)?;
        story.hears((LOWER, 6))?;
        story.names(OWN)?;
        story.hears((HIGHER, 8))?;
        story.hears((HIGHEST, 8))?;
        story.names(HIGHER)?;
    }
    Ok(())
}

/// By priority over a lower address, by address in a tie, and with the lowest priority if all have it.
fn oneself_wins(check: &mut Check) -> Agreement {
    for (priority, heard) in
        [(9, [(LOWER, 8), (HIGHER, 8)]), (9, [(HIGHER, 9), (HIGHEST, 9)]), (0, [(HIGHER, 0), (HIGHEST, 0)])]
    {
        let mut story = Story::begin(check, (OWN, priority))?;
        for said in heard {
            story.hears(said)?;
            story.names(OWN)?;
        }
    }
    Ok(())
}

fn every_pair_of_priorities(check: &mut Check) -> Agreement {
    for own in 0..=255 {
        for other in 0..=255 {
            for unit in [LOWER, HIGHER] {
                let winner = if other > own || other == own && unit == LOWER { unit } else { OWN };
                let poll = poll_bytes((OWN, own), &[(unit, other)]);
                let answer = check.ask(&poll, &Ask::Winner { winner: 0 })?;
                assert_eq!(answer.left.winner, winner, "{} beside {} of {:#06x}", own, other, unit);
            }
        }
    }
    Ok(())
}

/// In polls of every size, each of the others by its priority.
fn every_place_wins(check: &mut Check) -> Agreement {
    for count in 1..=MOST_OTHERS {
        for place in 0..count {
            let mut heard = others_from(FIRST, count, 3);
            heard[place].1 = 4;
            let mut story = Story::begin(check, (OWN, 3))?;
            story.poll = poll_bytes((OWN, 3), &heard);
            story.names(heard[place].0)?;
        }
    }
    Ok(())
}

/// "In any order of arrival": four units, each of which hears the other three in every order, with messages before them
/// that they replace and with refused ones between them.
fn every_order(check: &mut Check) -> Agreement {
    let orders = [[0, 1, 2], [0, 2, 1], [1, 0, 2], [1, 2, 0], [2, 0, 1], [2, 1, 0]];
    for (priorities, winner) in
        [([1, 2, 3, 4], HIGHEST), ([4, 3, 2, 1], LOWER), ([2, 7, 7, 1], OWN), ([0, 3, 9, 9], HIGHER), ([5; 4], LOWER)]
    {
        let all: Vec<Said> = [LOWER, OWN, HIGHER, HIGHEST].into_iter().zip(priorities).collect();
        for &own in &all {
            let others: Vec<Said> = all.iter().copied().filter(|said| *said != own).collect();
            for order in orders {
                let mut story = Story::begin(check, own)?;
                for place in order {
                    story.hears((others[place].0, 255))?;
                    story.is_answered(6, hear(own.0, 255))?;
                }
                for place in order {
                    story.hears(others[place])?;
                    story.is_answered(4, hear(0, 255))?;
                }
                story.names(winner)?;
            }
        }
    }
    Ok(())
}

/// "12 when a 25th other unit is heard": below all, between any two, or above all. A known one is still heard.
fn room_for_24(check: &mut Check) -> Agreement {
    let mut story = Story::full(check, 3)?;
    story.holds((OWN, 3), &others_from(FIRST, MOST_OTHERS, 3));
    for stranger in (FIRST - 1..=LAST + 1).step_by(2).chain([1, OWN - 1, OWN + 1, 0xFFFE]) {
        for priority in [0, 3, 255] {
            story.is_answered(12, hear(stranger, priority))?;
        }
    }
    story.names(OWN)?;
    for unit in (FIRST..=LAST).step_by(2) {
        story.hears((unit, 4))?;
        story.names(unit)?;
        story.hears((unit, 2))?;
        story.names(OWN)?;
    }
    story.holds((OWN, 3), &others_from(FIRST, MOST_OTHERS, 2));
    Ok(())
}
