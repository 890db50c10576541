//! Site plans and books at every limit in turn: plans of all numbers up to their limits and past them, every site filled
//! with members, and books that keep all rules but one.

use crate::book::calls::Ask;
use crate::book::drafts::{book_bytes, join_request, longest_slot_ms, plan_bytes, too_wide, WIDE_NUMBERS};
use crate::book::members::*;
use crate::book::site::*;
use crate::frames::kinds::{BEACON, BEACONS, SHORT_BEACON};
use crate::shared::check::{Agreement, Check};
use crate::shared::moment_drafts::STARTS;
use crate::shared::moments::{Moment, HALF, LONGEST_STEP};
use crate::shared::refusal::ACCEPTED;

const NETWORK: u16 = 0x0102;
const MANAGER: u16 = 0x0100;
const START: Moment = Moment(1_000_000);

/// The rules' numbers, and what is small only modulo 256.
const HOPS: [u8; 16] = [0, 1, 2, 3, 4, 5, 6, 7, 8, 9, 10, 11, 12, 127, 254, 255];
const MOST_TRIED_ROWS: u8 = 24;
const MOST_TRIED_DATA_SLOTS: u8 = 47;
const HIGH: [u8; 6] = [64, 127, 128, 206, 254, 255];

pub fn check(check: &mut Check) -> Agreement {
    every_plan(check)?;
    every_kind_of_beacons(check)?;
    addresses_and_networks(check)?;
    every_length(check)?;
    books_with_one_rule_broken(check)
}

fn plan(max_hops: u8, rows: u8, data_slots: u8) -> Plan {
    Plan { network: NETWORK, manager: MANAGER, max_hops, rows, data_slots, slot_ms: 1, beacon: BEACON }
}

/// All hops, rows and data slots, with either kind of beacons.
fn every_plan(check: &mut Check) -> Agreement {
    for max_hops in HOPS {
        for rows in (0..=MOST_TRIED_ROWS).chain(HIGH) {
            for data_slots in (0..=MOST_TRIED_DATA_SLOTS).chain(HIGH) {
                for beacon in BEACONS {
                    every_slot_length(check, Plan { beacon, ..plan(max_hops, rows, data_slots) })?;
                }
            }
        }
    }
    Ok(())
}

/// A plan with slots as long as they may be and longer, which may be too long for a plan's bytes; one that is within
/// rule is also filled.
fn every_slot_length(check: &mut Check, plan: Plan) -> Agreement {
    let longest = u32::from(longest_slot_ms(&plan));
    let other = check.random.one_of(&[0, 1, 0x8000, 0xFFFF]);
    for slot_ms in [longest, longest + 1, other] {
        let wanted = Wanted { slot_ms, ..plan.wanted() };
        check.ask(&[0xFF; Plan::LENGTH], &Ask::Plan { wanted })?;
        if let Ok(slot_ms) = u16::try_from(slot_ms) {
            check.ask(&plan_bytes(Plan { slot_ms, ..plan }), &Ask::Numbers { places: Plan::NUMBERS })?;
        }
    }
    if plan.checked().is_ok() {
        too_wide_at_every_place(check, plan)?;
        filled_site(check, plan)?;
    }
    Ok(())
}

/// Every type that a plan's bytes can say, and wider ones, with slots as long as each kind allows.
fn every_kind_of_beacons(check: &mut Check) -> Agreement {
    let right = plan(1, 8, 8);
    for slot_ms in [1, 936, 937, 0xFFFF] {
        for beacon in 0..=0xFF {
            let plan = Plan { slot_ms, beacon, ..right };
            check.ask(&plan_bytes(plan), &Ask::Numbers { places: Plan::NUMBERS })?;
            check.ask(&[0; Book::LENGTH], &Ask::Fresh { plan: plan_bytes(plan), time: START })?;
        }
        for beacon in (0..=0x1FF).chain(BEACONS.iter().flat_map(|code| wider(*code))) {
            let wanted = Wanted { slot_ms: slot_ms.into(), beacon, ..right.wanted() };
            let fits = beacon == u32::from(BEACON) && slot_ms <= 936 || beacon == u32::from(SHORT_BEACON);
            let status = if fits { ACCEPTED } else { 14 };
            check.is_answered(status, &[0xFF; Plan::LENGTH], &Ask::Plan { wanted })?;
        }
    }
    Ok(())
}

/// Numbers that this byte is the lowest of.
fn wider(byte: u8) -> impl Iterator<Item = u32> {
    (8..32).map(|bit| 1 << bit).chain([0xFFFF_FF00]).map(move |above| above | u32::from(byte))
}

/// A plan within rule but for one number, which a byte or two would cut to the right one.
fn too_wide_at_every_place(check: &mut Check, plan: Plan) -> Agreement {
    for place in 0..WIDE_NUMBERS {
        let wanted = too_wide(&mut check.random, &plan, place);
        check.is_answered(14, &[0xFF; Plan::LENGTH], &Ask::Plan { wanted })?;
    }
    Ok(())
}

/// Every row finds a data slot, whatever the ones before it asked for; one unit more finds no row.
fn filled_site(check: &mut Check, plan: Plan) -> Agreement {
    let mut book = check.ask(&[0xFF; Book::LENGTH], &Ask::Fresh { plan: plan_bytes(plan), time: START })?.left.book;
    let units: Vec<u16> = (MANAGER + 1..).take(plan.rows.into()).collect();
    for (row, unit) in (1..).zip(&units) {
        let asked = check.random.one_of(&[0, 1, 4, 5, 255]);
        let frame = join_request(*unit, 0, NETWORK, asked);
        let answer = check.ask(&book, &Ask::Join { frame, time: START, room: 65 })?;
        assert_eq!(answer.status, if row < plan.rows { ACCEPTED } else { 12 }, "row {} of {:?}", row, plan);
        book = answer.left.book;
    }
    let room = plan.slots();
    check.ask(&book, &Ask::Schedule { unit: MANAGER, hop: 0, time: START, room })?;
    for unit in units {
        let hop = check.random.within(1, plan.max_hops.into());
        check.ask(&book, &Ask::Schedule { unit, hop, time: START, room })?;
    }
    Ok(())
}

fn addresses_and_networks(check: &mut Check) -> Agreement {
    let limits = [0, 1, 2, 0x00FF, 0x0100, 0x7FFF, 0x8000, 0xFFFD, 0xFFFE, 0xFFFF];
    for network in limits {
        for manager in limits {
            for rows in [1, 2, 3] {
                let plan = Plan { network, manager, ..plan(1, rows, 3) };
                check.ask(&[0; Plan::LENGTH], &Ask::Plan { wanted: plan.wanted() })?;
                check.ask(&[0; Book::LENGTH], &Ask::Fresh { plan: plan_bytes(plan), time: START })?;
            }
        }
    }
    Ok(())
}

/// Buffers of other lengths, with good contents as far as they go.
fn every_length(check: &mut Check) -> Agreement {
    let plan = plan(3, 4, 6);
    let asks = [Ask::Fresh { plan: plan_bytes(plan), time: START }, Ask::Heard { unit: MANAGER, time: START }];
    let good = book_bytes(&Book::fresh(plan, START).expect("the plan is within rule"));
    for length in 0..=Book::LENGTH + 2 {
        let mut buffer = good.clone();
        buffer.resize(length, 0);
        check.ask(&buffer, &Ask::Plan { wanted: plan.wanted() })?;
        check.ask(&good, &Ask::Fresh { plan: buffer[..length.min(40)].to_vec(), time: START })?;
        for ask in &asks {
            check.ask(&buffer, ask)?;
        }
    }
    Ok(())
}

/// A change of a book, in words.
type Change = (&'static str, fn(&mut Book));

/// Changes after which `spread_book` is still within rule.
const ALLOWED: [Change; 13] = [
    ("none", |_| {}),
    ("short beacons", |book| book.plan.beacon = SHORT_BEACON),
    ("slots as long as beacons can tell of", |book| book.plan.slot_ms = LONGEST_SLOT_MS),
    ("short beacons and the longest slots", |book| {
        book.plan.beacon = SHORT_BEACON;
        book.plan.slot_ms = u16::MAX;
    }),
    ("the manager holds the highest four", |book| book.rows[0].slots = 0xF00),
    ("the manager's time is long past", |book| book.rows[0].time = book.time - LONGEST_STEP),
    ("the manager's time is half of all times away", |book| book.rows[0].time = book.time - HALF),
    ("the manager's time is after the last", |book| book.rows[0].time = book.time + 1),
    ("a member is silent", |book| book.rows[1].time = book.time - (LIVE_AGE + 1)),
    ("a member is silent for as long as may be", |book| book.rows[1].time = book.time - LONGEST_STEP),
    ("a member is in another row", |book| book.rows.swap(1, 2)),
    ("one slot is left for one row", |book| {
        book.rows[0].slots = 0xF;
        book.rows[1].slots = 0xF0;
        book.rows[3].slots = 0x700;
    }),
    ("units are at their limits", |book| {
        book.rows[1].unit = 0xFFFE;
        book.rows[3].unit = 1;
    }),
];

/// Changes after which it breaks one rule.
const BROKEN: [Change; 29] = [
    ("no beacons", |book| book.plan.beacon = 0),
    ("a type before beacons", |book| book.plan.beacon = BEACON - 1),
    ("a type behind beacons", |book| book.plan.beacon = SHORT_BEACON + 1),
    ("slots longer than beacons can tell of", |book| book.plan.slot_ms = LONGEST_SLOT_MS + 1),
    ("short beacons and slots of no time", |book| {
        book.plan.beacon = SHORT_BEACON;
        book.plan.slot_ms = 0;
    }),
    ("short beacons and no hops", |book| {
        book.plan.beacon = SHORT_BEACON;
        book.plan.max_hops = 0;
    }),
    ("no network", |book| book.plan.network = 0),
    ("another manager", |book| book.plan.manager += 0x50),
    ("no hops", |book| book.plan.max_hops = 0),
    ("a row past those of the plan", |book| book.plan.rows = 3),
    ("a unit past the rows", |book| book.rows.swap(3, 4)),
    ("slots past the rows", |book| book.rows[20].slots = 0x10),
    ("a time past the rows", |book| book.rows[20].time = Moment(1)),
    ("slots of no time", |book| book.plan.slot_ms = 0),
    ("no manager", |book| book.rows[0] = Row::EMPTY),
    ("the manager in another row", |book| book.rows.swap(0, 1)),
    ("the manager twice", |book| book.rows[3].unit = MANAGER),
    ("a unit twice", |book| book.rows[3].unit = book.rows[1].unit),
    ("a unit that is none", |book| book.rows[1].unit = 0xFFFF),
    ("slots and no unit", |book| book.rows[1] = Row { unit: 0, time: Moment(0), ..book.rows[1] }),
    ("a time and no unit", |book| book.rows[2].time = Moment(1)),
    ("a unit and no slots", |book| book.rows[1].slots = 0),
    ("five slots", |book| book.rows[1].slots = 0x76),
    ("a slot twice", |book| book.rows[3].slots |= 0x1),
    ("the first slot that there is not", |book| book.rows[3].slots = 0x1000),
    ("the last slot of a set", |book| book.rows[3].slots = 1 << 63),
    ("no slot left for a row", |book| {
        book.rows[0].slots = 0xF;
        book.rows[1].slots = 0xF0;
        book.rows[3].slots = 0xF00;
    }),
    ("a member after the last time", |book| book.rows[3].time = book.time + 1),
    ("a member half of all times away", |book| book.rows[3].time = book.time - HALF),
];

/// Of `spread_book`, which has 74 slots.
const LONGEST_SLOT_MS: u16 = 885;

/// Twelve data slots and four rows, of which the third is empty.
fn spread_book(start: Moment) -> Book {
    let mut book = Book::fresh(plan(3, 4, 12), start).expect("the plan is within rule");
    book.rows[1] = Row { unit: 0x0201, slots: 0x6, time: start - 1 };
    book.rows[3] = Row { unit: 0x0203, slots: 0x8, time: start };
    book
}

/// `spread_book` of every start after each of those changes: the change in words, the book, and what calls on it are
/// answered.
pub fn books_by_rule() -> impl Iterator<Item = (&'static str, Book, u8)> {
    let changes = ALLOWED.iter().map(|change| (change, ACCEPTED)).chain(BROKEN.iter().map(|change| (change, 14)));
    changes.flat_map(|((words, change), status)| {
        STARTS.into_iter().map(move |start| {
            let mut book = spread_book(start);
            change(&mut book);
            (*words, book, status)
        })
    })
}

fn books_with_one_rule_broken(check: &mut Check) -> Agreement {
    for (words, book, status) in books_by_rule() {
        let bytes = book_bytes(&book);
        let (time, room) = (book.time, 100);
        let asks = [
            Ask::Join { frame: join_request(0x0204, 0, NETWORK, 1), time, room },
            Ask::Heard { unit: MANAGER, time },
            Ask::Schedule { unit: MANAGER, hop: 0, time, room },
        ];
        for ask in asks {
            assert_eq!(check.ask(&bytes, &ask)?.status, status, "{}: {:?}", words, ask);
        }
    }
    Ok(())
}
