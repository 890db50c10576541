//! Cases of plans, books and schedules by name: what the paper says in examples and warnings, each refusal of each call,
//! and times at the limits of their order; each case of a book from every start that there is.
//! The independent book is held to the paper's words here, and the library to the independent book.

use crate::book::calls::Ask;
use crate::book::drafts::{book_bytes, plan_bytes};
use crate::book::members::*;
use crate::book::refusals::every_refusal;
use crate::book::site::*;
use crate::book::story::*;
use crate::frames::kinds::{BEACONS, SHORT_BEACON};
use crate::shared::check::{Agreement, Check};
use crate::shared::moment_drafts::{FORWARD, NOT_FORWARD, STARTS};
use crate::shared::moments::{Moment, LONGEST_STEP};
use crate::shared::refusal::ACCEPTED;

pub fn check(check: &mut Check) -> Agreement {
    plans_of_the_paper(check)?;
    plans_with_short_beacons(check)?;
    numbers_too_wide(check)?;
    numbers_of_the_paper(check)?;
    for start in STARTS {
        story_of_the_paper(check, start)?;
        schedules_of_the_paper(check, start)?;
        eight_unit_site(check, start)?;
        beacon_slots_of_every_hop(check, start)?;
        no_unit_is_granted_all_free_slots(check, start)?;
        live_up_to_its_age(check, start)?;
        silent_members_make_room(check, start)?;
        live_member_joins_a_full_book(check, start)?;
        highest_slots_are_released(check, start)?;
        manager_is_always_live(check, start)?;
        every_refusal(check, start)?;
        every_step(check, start)?;
        every_stored_time(check, start)?;
        any_time_of_the_manager(check, start)?;
        round_and_round(check, start)?;
    }
    Ok(())
}

/// "h 3, M 4, D 6: A 16, S 54. 1,213 ms fits, 1,214 is 14." and "h 3, M 20: D 21 gives A 50, S 100; D 22 is 14."
fn plans_of_the_paper(check: &mut Check) -> Agreement {
    let (small, large) = (site(3, 4, 6), site(3, 20, 21));
    assert_eq!((small.active(), small.slots(), small.discovery_slots()), (16, 54, 2));
    assert_eq!((large.active(), large.slots(), large.discovery_slots()), (50, 100, 5));
    let mut made = |plan: Plan, status: u8| made(check, plan.wanted(), status);
    made(Plan { slot_ms: 1213, ..small }, 0)?;
    made(Plan { slot_ms: 1214, ..small }, 14)?;
    made(large, 0)?;
    made(site(3, 20, 22), 14)?;
    // The most rows and the most data slots.
    made(site(1, 21, 22), 0)?;
    made(site(1, 22, 22), 14)?;
    made(site(1, 2, 44), 0)?;
    made(site(1, 2, 45), 14)
}

fn made(check: &mut Check, wanted: Wanted, status: u8) -> Agreement {
    check.is_answered(status, &[0xFF; Plan::LENGTH], &Ask::Plan { wanted }).map(drop)
}

/// "With h 1 and 8 data slots it has 70 slots of 1,000 ms": too many for beacons that say how long they are together.
fn eight_units() -> Plan {
    Plan { slot_ms: 1000, beacon: SHORT_BEACON, ..site(1, 8, 8) }
}

/// "With 0x47 the product rule of 65,535 ms is dropped and slot ms itself is at most 65,535." All other rules stay.
fn plans_with_short_beacons(check: &mut Check) -> Agreement {
    let eight = eight_units();
    assert_eq!((eight.active(), eight.slots(), eight.superframe_ms()), (21, 70, 70_000));
    let right = eight.wanted();
    let left = check.is_answered(ACCEPTED, &[0xFF; 10], &Ask::Plan { wanted: right })?.left;
    assert_eq!(left.book, [1, 0, 0, 1, 1, 8, 8, 0xE8, 3, 0x47], "the bytes of a plan");
    made(check, Wanted { beacon: 0x46, ..right }, 14)?;
    made(check, Wanted { beacon: 0x46, slot_ms: 936, ..right }, 0)?;
    made(check, Wanted { beacon: 0x46, slot_ms: 937, ..right }, 14)?;
    for (slot_ms, status) in [(0, 14), (1, 0), (936, 0), (937, 0), (65_534, 0), (65_535, 0), (65_536, 14)] {
        made(check, Wanted { slot_ms, ..right }, status)?;
    }
    for beacon in [0, 1, 0x45, 0x48, 0xFF, 0x100, 0x146, 0x147, 0x1_0046, 0x8000_0047, 0xFFFF_FF46, 0xFFFF_FFFF] {
        made(check, Wanted { beacon, ..right }, 14)?;
        made(check, Wanted { beacon, slot_ms: 1, ..right }, 14)?;
    }
    for (max_hops, rows, data_slots) in [(0, 8, 8), (11, 8, 8), (1, 1, 8), (1, 8, 7), (3, 20, 22)] {
        made(check, Wanted { max_hops, rows, data_slots, ..right }, 14)?;
    }
    made(check, Wanted { max_hops: 3, rows: 20, data_slots: 21, slot_ms: 65_535, ..right }, 0)?;
    made(check, Wanted { network: 0, ..right }, 14)?;
    made(check, Wanted { manager: 0xFFFF, ..right }, 14)
}

/// The two plans of the paper with slots as long as they may be. The first has four beacon slots, four of control, six of
/// data, from the manager's slot 8 on, and two of discovery.
fn numbers_of_the_paper(check: &mut Check) -> Agreement {
    let small = Plan { slot_ms: 1213, ..site(3, 4, 6) };
    tells(check, small, &[16, 54, 65_502, 4, 8, 14, 16])?;
    tells(check, Plan { slot_ms: 655, ..site(3, 20, 21) }, &[50, 100, 65_500, 4, 24, 45, 50])?;
    tells(check, eight_units(), &[21, 70, 70_000, 2, 10, 18, 21])?;
    let longest = Plan { slot_ms: 65_535, beacon: SHORT_BEACON, ..site(3, 20, 21) };
    tells(check, longest, &[50, 100, 6_553_500, 4, 24, 45, 50])?;
    // 14 before 5.
    let broken = plan_bytes(Plan { slot_ms: 1214, ..small });
    let (other, nine) = (plan_bytes(Plan { beacon: 0x48, ..small }), plan_bytes(small)[..9].to_vec());
    for bytes in [broken, other, nine] {
        check.is_answered(14, &bytes, &Ask::Numbers { places: 6 })?;
        check.is_answered(14, &bytes, &Ask::Numbers { places: 7 })?;
    }
    check.is_answered(5, &plan_bytes(small), &Ask::Numbers { places: 6 }).map(drop)
}

/// A plan tells exactly these numbers.
fn tells(check: &mut Check, plan: Plan, numbers: &[u32; Plan::NUMBERS]) -> Agreement {
    let answer = check.is_answered(ACCEPTED, &plan_bytes(plan), &Ask::Numbers { places: Plan::NUMBERS })?;
    assert_eq!(answer.left.numbers, numbers, "{:?}", plan);
    Ok(())
}

/// Of 260 rows a byte says 4, and so on: a number is refused, not cut.
fn numbers_too_wide(check: &mut Check) -> Agreement {
    for beacon in BEACONS {
        let right = Plan { slot_ms: 1000, beacon, ..site(3, 4, 6) }.wanted();
        made(check, right, 0)?;
        for more in (8..32).map(|bit| 1 << bit) {
            made(check, Wanted { max_hops: 3 + more, ..right }, 14)?;
            made(check, Wanted { rows: 4 + more, ..right }, 14)?;
            made(check, Wanted { data_slots: 6 + more, ..right }, 14)?;
            let longer = if beacon == SHORT_BEACON && more < 0x1_0000 { 0 } else { 14 };
            made(check, Wanted { slot_ms: 1000 + more, ..right }, longer)?;
            made(check, Wanted { beacon: right.beacon + more, ..right }, 14)?;
        }
    }
    Ok(())
}

/// "Manager 0x0100 holds slot 8. 0x0201 asks 4, gets 9 to 11. 0x0202 asks 2, gets 12. 0x0203 asks 0, gets 13. 0x0204 is
/// 12. 0x0201 leaves. 0x0202 asks 3, holds 9, 10, 12. 0x0204 asks 4, gets 11." The control slot comes before them.
fn story_of_the_paper(check: &mut Check, start: Moment) -> Agreement {
    let mut story = Story::begin(check, site(3, 4, 6), start)?;
    story.sends(MANAGER, 0, &[0, 4, 8, 14, 15])?;
    story.joins(FIRST, 4, start, &[5, 9, 10, 11])?;
    story.joins(SECOND, 2, start + 1, &[6, 12])?;
    story.joins(THIRD, 0, start + 1, &[7, 13])?;
    story.is_answered(12, join(FOURTH, 4, start + 1))?;
    story.change(Ask::Leave { unit: FIRST, time: start + 2 })?;
    story.requests(SECOND, 3, start + 3, &[6, 9, 10, 12])?;
    story.joins(FOURTH, 4, start + 4, &[5, 11])?;
    story.sends(MANAGER, 0, &[0, 4, 8, 14, 15])?;
    story.sends(SECOND, 2, &[2, 6, 9, 10, 12])?;
    story.sends(THIRD, 3, &[3, 7, 13])?;
    story.sends(FOURTH, 1, &[1, 5, 11])
}

/// The site whose schedules the paper prints.
fn schedules_of_the_paper(check: &mut Check, start: Moment) -> Agreement {
    let mut story = Story::begin(check, site(1, 2, 2), start)?;
    story.joins(FIRST, 4, start, &[3, 5])?;
    story.shows(MANAGER, 0, "B.CcTRDD...................")?;
    story.shows(FIRST, 1, "bBcCRTdd...................")
}

/// Eight units have a slot of control and one of data each, from the manager on, and a ninth finds no row.
fn eight_unit_site(check: &mut Check, start: Moment) -> Agreement {
    let mut story = Story::begin(check, eight_units(), start)?;
    assert_eq!((story.book.len(), story.book[9]), (308, SHORT_BEACON), "the bytes of a book");
    for (unit, place) in (FIRST..).zip(1..8) {
        story.joins(unit, 4, start + place, &[2 + place, 10 + place])?;
    }
    story.is_answered(12, join(FIRST + 7, 1, start + 7))?;
    story.requests(FIRST + 6, 4, start + 8, &[9, 17])?;
    assert_eq!((story.book.len(), story.book[9]), (308, SHORT_BEACON), "the plan stays");
    let sleep = ".".repeat(49);
    story.shows(MANAGER, 0, &format!("B.CcccccccTRRRRRRRDDD{}", sleep))?;
    story.shows(FIRST + 6, 1, &format!("bBcccccccCRRRRRRRTddd{}", sleep))
}

/// A unit hears slot 0 and the one before its own; slots of empty rows and of nobody are listened to.
fn beacon_slots_of_every_hop(check: &mut Check, start: Moment) -> Agreement {
    let mut story = Story::begin(check, site(3, 4, 6), start)?;
    story.joins(FIRST, 3, start, &[5, 9, 10, 11])?;
    let sleep = ".".repeat(38);
    story.shows(MANAGER, 0, &format!("B...CcccTRRRRRDD{}", sleep))?;
    story.shows(FIRST, 1, &format!("bB..cCccRTTTRRdd{}", sleep))?;
    story.shows(FIRST, 2, &format!("bbB.cCccRTTTRRdd{}", sleep))?;
    story.shows(FIRST, 3, &format!("b.bBcCccRTTTRRdd{}", sleep))
}

/// "Errors that look right: granting all free slots, so a later row has none."
fn no_unit_is_granted_all_free_slots(check: &mut Check, start: Moment) -> Agreement {
    let mut story = Story::begin(check, site(3, 4, 6), start)?;
    story.joins(FIRST, 255, start, &[5, 9, 10, 11])?;
    story.requests(FIRST, 255, start, &[5, 9, 10, 11])?;
    story.joins(SECOND, 255, start, &[6, 12])?;
    story.joins(THIRD, 255, start, &[7, 13])?;
    let mut story = Story::begin(check, site(1, 2, 44), start)?;
    story.joins(FIRST, 5, start, &[3, 5, 6, 7, 8])?;
    let mut story = Story::begin(check, site(10, 3, 3), start)?;
    story.joins(FIRST, 4, start, &[12, 15])?;
    story.joins(SECOND, 4, start, &[13, 16])
}

/// Live up to 300,000 ms after its last accepted call, and each call counts.
fn live_up_to_its_age(check: &mut Check, start: Moment) -> Agreement {
    let mut story = Story::begin(check, site(3, 4, 6), start)?;
    story.joins(FIRST, 1, start, &[5, 9])?;
    let mut last = start;
    for renewal in [
        Ask::Heard { unit: FIRST, time: start + LIVE_AGE },
        slots(FIRST, 1, start + 2 * LIVE_AGE),
        join(FIRST, 1, start + 3 * LIVE_AGE),
    ] {
        story.change(renewal)?;
        last = last + LIVE_AGE;
        let (live, silent) = (last + LIVE_AGE, last + LIVE_AGE + 1);
        story.is_accepted(schedule(FIRST, 1, live))?;
        story.is_accepted(Ask::Heard { unit: FIRST, time: live })?;
        story.is_accepted(Ask::Leave { unit: FIRST, time: live })?;
        story.is_accepted(slots(FIRST, 1, live))?;
        story.is_answered(13, schedule(FIRST, 1, silent))?;
        story.is_answered(13, Ask::Heard { unit: FIRST, time: silent })?;
        story.is_answered(13, Ask::Leave { unit: FIRST, time: silent })?;
        story.is_answered(13, slots(FIRST, 1, silent))?;
    }
    Ok(())
}

/// Silent members count as free, in rows and in slots; one of them that comes back is a newcomer.
fn silent_members_make_room(check: &mut Check, start: Moment) -> Agreement {
    let mut story = Story::begin(check, site(3, 4, 6), start)?;
    story.joins(FIRST, 4, start, &[5, 9, 10, 11])?;
    story.joins(SECOND, 4, start, &[6, 12])?;
    story.joins(THIRD, 1, start + 1, &[7, 13])?;
    story.is_answered(12, join(FOURTH, 4, start + LIVE_AGE))?;
    let later = start + LIVE_AGE + 1;
    story.is_accepted(slots(THIRD, 4, later))?;
    story.joins(SECOND, 4, later, &[5, 9, 10, 11])?;
    story.joins(FOURTH, 4, later, &[6, 12])?;
    story.joins(THIRD, 1, later, &[7, 13])?;
    story.is_answered(12, join(FIRST, 1, later))
}

fn live_member_joins_a_full_book(check: &mut Check, start: Moment) -> Agreement {
    let mut story = Story::begin(check, site(3, 2, 2), start)?;
    story.joins(FIRST, 4, start, &[5, 7])?;
    story.is_answered(12, join(SECOND, 1, start + 5))?;
    story.joins(FIRST, 0, start + 5, &[5, 7])?;
    story.is_answered(12, join(SECOND, 1, start + 5 + LIVE_AGE))?;
    story.joins(SECOND, 1, start + 6 + LIVE_AGE, &[5, 7])
}

fn highest_slots_are_released(check: &mut Check, start: Moment) -> Agreement {
    let mut story = Story::begin(check, site(1, 3, 9), start)?;
    story.joins(FIRST, 2, start, &[3, 6, 7])?;
    story.joins(SECOND, 3, start, &[4, 8, 9, 10])?;
    story.requests(FIRST, 4, start, &[3, 6, 7, 11, 12])?;
    story.requests(FIRST, 3, start, &[3, 6, 7, 11])?;
    story.requests(SECOND, 0, start, &[4, 8])?;
    story.requests(FIRST, 255, start, &[3, 6, 7, 9, 11])?;
    story.joins(FIRST, 1, start, &[3, 6, 7, 9, 11])?;
    story.requests(SECOND, 5, start, &[4, 8, 10, 12, 13])
}

fn manager_is_always_live(check: &mut Check, start: Moment) -> Agreement {
    let mut story = Story::begin(check, site(3, 2, 2), start)?;
    let time = start + LONGEST_STEP;
    story.is_accepted(schedule(MANAGER, 0, time))?;
    story.is_accepted(Ask::Heard { unit: MANAGER, time })?;
    story.joins(FIRST, 4, time, &[5, 7])?;
    story.is_answered(12, join(SECOND, 4, time))
}

/// "The step from the last accepted time to the call's time is their wrapped difference; below 2^31 it is forward,
/// otherwise 8."
fn every_step(check: &mut Check, start: Moment) -> Agreement {
    let mut story = Story::begin(check, site(3, 4, 6), start)?;
    story.joins(FIRST, 1, start, &[5, 9])?;
    for step in FORWARD {
        let live = if step <= LIVE_AGE { 0 } else { 13 };
        for (ask, status) in every_call(start + step).into_iter().zip([0, 0, 0, live, live, live, live]) {
            story.is_answered(status, ask)?;
        }
    }
    for step in NOT_FORWARD {
        for ask in every_call(start + step) {
            story.is_answered(8, ask)?;
        }
    }
    Ok(())
}

/// "The rule that a stored time may not be later than the last accepted one reads by the same difference, for members."
/// It is judged whatever the call's time is.
fn every_stored_time(check: &mut Check, start: Moment) -> Agreement {
    let mut story = Story::begin(check, site(3, 4, 6), start)?;
    let mut book = Book::fresh(site(3, 4, 6), start).expect("the plan is within rule");
    book.rows[2] = Row { unit: SECOND, slots: 0x20, time: start };
    for (place, other) in [(1, 3), (3, 1)] {
        book.rows[other] = Row::EMPTY;
        for age in FORWARD.into_iter().chain(NOT_FORWARD) {
            book.rows[place] = Row { unit: FIRST, slots: 0x10, time: start - age };
            story.book = book_bytes(&book);
            for step in [0, 1, LONGEST_STEP, u32::MAX] {
                story.is_judged(age <= LONGEST_STEP, start + step)?;
            }
        }
    }
    Ok(())
}

/// "For members but the manager": its time is under no rule, and being heard records it still.
fn any_time_of_the_manager(check: &mut Check, start: Moment) -> Agreement {
    let mut story = Story::begin(check, site(3, 4, 6), start)?;
    let mut book = Book::fresh(site(3, 4, 6), start).expect("the plan is within rule");
    book.rows[1] = Row { unit: FIRST, slots: 0x10, time: start };
    for age in FORWARD.into_iter().chain(NOT_FORWARD).chain([LIVE_AGE, LIVE_AGE + 1, start.0]) {
        book.rows[0].time = start - age;
        story.book = book_bytes(&book);
        for step in [0, 1, LIVE_AGE, LONGEST_STEP] {
            let time = start + step;
            story.is_judged(true, time)?;
            let heard = story.is_accepted(Ask::Heard { unit: MANAGER, time })?.book;
            assert_eq!(Book::from_bytes(&heard).map(|book| book.rows[0].time), Ok(time));
        }
        story.is_answered(8, Ask::Heard { unit: MANAGER, time: start - 1 })?;
    }
    Ok(())
}

/// A member that is heard in time keeps its slots, and one that comes as seldom as may be is a newcomer each time. Times
/// pass the top over and over.
fn round_and_round(check: &mut Check, start: Moment) -> Agreement {
    let mut story = Story::begin(check, site(3, 4, 6), start)?;
    story.joins(FIRST, 2, start, &[5, 9, 10])?;
    let mut time = start;
    for _ in 0..6 {
        time = time + 250_000;
        story.change(Ask::Heard { unit: FIRST, time })?;
        story.sends(FIRST, 1, &[1, 5, 9, 10])?;
    }
    for _ in 0..6 {
        time = time + LONGEST_STEP;
        story.is_answered(13, Ask::Heard { unit: FIRST, time })?;
        story.joins(FIRST, 1, time, &[5, 9])?;
        story.is_answered(8, schedule(FIRST, 1, time - 1))?;
        story.is_accepted(schedule(FIRST, 1, time + LIVE_AGE))?;
        story.is_answered(13, schedule(FIRST, 1, time + LIVE_AGE + 1))?;
    }
    Ok(())
}
