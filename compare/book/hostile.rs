//! Hostile buffers for the calls on plans and books.

use crate::book::calls::Ask;
use crate::book::drafts::{book_bytes, join_request, plan_bytes, slot_request, too_wide, widened, WIDE_NUMBERS};
use crate::book::members::Book;
use crate::book::site::Plan;
use crate::frames::kinds::BEACONS;
use crate::shared::check::{Agreement, Check};
use crate::shared::hostile::{every_buffer, every_length_of_each};
use crate::shared::moments::Moment;

const MANAGER: u16 = 0x0100;
const MEMBER: u16 = 0x0201;
const NETWORK: u16 = 1;
pub const NOW: Moment = Moment(1_000_000);

/// A site of four rows whose manager sends beacons of this type, with a member that holds three data slots.
pub fn site(beacon: u8) -> (Plan, Book) {
    let (max_hops, rows, data_slots) = (3, 4, 6);
    let plan = Plan { network: NETWORK, manager: MANAGER, max_hops, rows, data_slots, slot_ms: 1000, beacon };
    let mut book = Book::fresh(plan, NOW).expect("the plan is within rule");
    let joined = book.join(&join_request(MEMBER, 0, NETWORK, 4), NOW, &mut [0; 65]);
    assert_eq!(joined, Ok(52), "a control slot and three data slots");
    (plan, book)
}

pub fn check(check: &mut Check) -> Agreement {
    for beacon in BEACONS {
        plans_and_books(check, beacon)?;
    }
    Ok(())
}

fn plans_and_books(check: &mut Check, beacon: u8) -> Agreement {
    let (plan, book) = site(beacon);
    every_buffer(check, &[0; Plan::LENGTH], &Ask::Plan { wanted: plan.wanted() })?;
    every_buffer(check, &plan_bytes(plan), &Ask::Numbers { places: Plan::NUMBERS + 1 })?;
    every_length_of_each(check, &[0; Plan::LENGTH], &Ask::Numbers { places: Plan::NUMBERS })?;
    for place in 0..WIDE_NUMBERS {
        let wanted = too_wide(&mut check.random, &plan, place);
        every_length_of_each(check, &[0; Plan::LENGTH], &Ask::Plan { wanted })?;
    }
    for ask in [
        Ask::Fresh { plan: plan_bytes(plan), time: NOW },
        Ask::Join { frame: join_request(MEMBER, 0, NETWORK, 4), time: NOW, room: 53 },
        Ask::SlotRequest { frame: slot_request(MEMBER, 3, 0, 0), time: NOW, room: 53 },
        Ask::Heard { unit: MEMBER, time: NOW },
        Ask::Leave { unit: MEMBER, time: NOW },
        Ask::Schedule { unit: MEMBER, hop: 1, time: NOW, room: plan.slots() + 1 },
    ] {
        every_buffer(check, &book_bytes(&book), &ask)?;
    }
    for unit in [MANAGER, MEMBER] {
        let hop = widened(&mut check.random, u32::from(unit == MEMBER), 8);
        let ask = Ask::Schedule { unit, hop, time: NOW, room: plan.slots() + 1 };
        every_length_of_each(check, &book_bytes(&book), &ask)?;
    }
    Ok(())
}
