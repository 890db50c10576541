//! What is measured: each case has its buffers, its call by the library and by the independent implementation, and the
//! number that both answer.

use crate::bench::calls::{independent, library, Buffers, NETWORK, NOW};
use crate::book::drafts::{book_bytes, join_request};
use crate::book::members::Row as Member;
use crate::frames::kinds::{kind_of_type, BEACON, DATA, MOST_BEACON_HOPS, SHORT_BEACON};
use crate::image::files::full_book;
use crate::poll::drafts::{election, others_from, poll_bytes};
use crate::poll::election::MOST_OTHERS;
use crate::routes::drafts::{beacon, data, update, Entry};
use crate::routes::table::{Row, Table, MOST_ROWS};
use crate::shared::random::Random;
use crate::shared::refusal::{Refusal, ACCEPTED};
use crate::sheet::drafts::{complete, largest_plan, line, links_of, proposal, Places};
use crate::sheet::verdict::ROW_LENGTH;

/// A call by the library, which answers its status, and by the independent implementation.
pub struct Call {
    pub library: fn(&mut Buffers) -> u8,
    pub independent: fn(&mut Buffers) -> Result<(), Refusal>,
}

pub struct Case {
    pub name: &'static str,
    pub call: Call,
    pub buffers: fn() -> Buffers,
    /// The number that the call answers.
    pub answer: u8,
}

const NO_ROUTE: u8 = Refusal::NoRoute as u8;
const BAD_FIELD: u8 = Refusal::Field as u8;

const RELAY: Call = Call { library: library::relay, independent: independent::relay };
const TRUSTING: Call = Call { library: library::relay, independent: independent::relay_trusting };
const LOOKUP: Call = Call { library: library::lookup, independent: independent::lookup };
const MERGE: Call = Call { library: library::merge, independent: independent::merge };
const PAGE: Call = Call { library: library::page, independent: independent::page };
const FORGET: Call = Call { library: library::forget, independent: independent::forget };
const FORWARD: Call = Call { library: library::forward, independent: independent::forward };
const FOLLOW: Call = Call { library: library::follow, independent: independent::follow };
const HEAR: Call = Call { library: library::hear, independent: independent::hear };
const WINNER: Call = Call { library: library::winner, independent: independent::winner };
const JOIN: Call = Call { library: library::join, independent: independent::join };
const SCHEDULE: Call = Call { library: library::schedule, independent: independent::schedule };
const IMAGE: Call = Call { library: library::image, independent: independent::image };
const RESTORE: Call = Call { library: library::restore, independent: independent::restore };
const SHEET: Call = Call { library: library::check_sheet, independent: independent::check_sheet };

/// Tables are full where the name does not end in their rows, and polls and sheets are full. With `compared` in it, it
/// ends in how many rows are compared. With `trusting`, the library judges the table as always, and Rust does not. The
/// number behind `sheet` is that of the links, and a word behind it says what is found where the sheet is not fine.
pub const CASES: [Case; 38] = [
    Case { name: "relay-10", call: RELAY, buffers: || relaying(10, MOST_ROWS), answer: ACCEPTED },
    Case { name: "relay-100", call: RELAY, buffers: || relaying(100, MOST_ROWS), answer: ACCEPTED },
    Case { name: "relay-255", call: RELAY, buffers: || relaying(255, MOST_ROWS), answer: ACCEPTED },
    Case { name: "relay-100-least", call: RELAY, buffers: relaying_with_least, answer: ACCEPTED },
    Case { name: "lookup", call: LOOKUP, buffers: || looking_up(MOST_ROWS), answer: ACCEPTED },
    Case { name: "merge", call: MERGE, buffers: || merging(MOST_ROWS), answer: ACCEPTED },
    Case { name: "page", call: PAGE, buffers: || Buffers::new(table(MOST_ROWS), Vec::new(), OWN), answer: ACCEPTED },
    Case { name: "forget", call: FORGET, buffers: || forgetting(STRANGER), answer: ACCEPTED },
    Case { name: "forget-all", call: FORGET, buffers: || forgetting(NEIGHBOUR), answer: ACCEPTED },
    Case { name: "forward", call: FORWARD, buffers: || forwarding(BEACON), answer: ACCEPTED },
    Case { name: "forward-short", call: FORWARD, buffers: || forwarding(SHORT_BEACON), answer: ACCEPTED },
    Case { name: "follow", call: FOLLOW, buffers: following, answer: ACCEPTED },
    Case { name: "hear", call: HEAR, buffers: polling, answer: ACCEPTED },
    Case { name: "winner", call: WINNER, buffers: polling, answer: ACCEPTED },
    Case { name: "relay-100-0", call: RELAY, buffers: || relaying(100, 0), answer: NO_ROUTE },
    Case { name: "relay-100-12", call: RELAY, buffers: || relaying(100, 12), answer: ACCEPTED },
    Case { name: "relay-100-24", call: RELAY, buffers: || relaying(100, 24), answer: ACCEPTED },
    Case { name: "lookup-0", call: LOOKUP, buffers: || looking_up(0), answer: NO_ROUTE },
    Case { name: "lookup-12", call: LOOKUP, buffers: || looking_up(12), answer: ACCEPTED },
    Case { name: "lookup-24", call: LOOKUP, buffers: || looking_up(24), answer: ACCEPTED },
    Case { name: "merge-0", call: MERGE, buffers: || merging(0), answer: ACCEPTED },
    Case { name: "merge-12", call: MERGE, buffers: || merging(12), answer: ACCEPTED },
    Case { name: "merge-24", call: MERGE, buffers: || merging(24), answer: ACCEPTED },
    Case { name: "merge-compared-25", call: MERGE, buffers: || comparing(0), answer: ACCEPTED },
    Case { name: "merge-compared-600", call: MERGE, buffers: || comparing(23), answer: ACCEPTED },
    Case { name: "merge-compared-1200", call: MERGE, buffers: || comparing(MOST_ROWS), answer: ACCEPTED },
    Case { name: "join", call: JOIN, buffers: joining, answer: ACCEPTED },
    Case { name: "schedule", call: SCHEDULE, buffers: scheduling, answer: ACCEPTED },
    Case { name: "image", call: IMAGE, buffers: storing, answer: ACCEPTED },
    Case { name: "restore", call: RESTORE, buffers: restoring, answer: ACCEPTED },
    Case { name: "sheet-20", call: SHEET, buffers: checking_a_line, answer: ACCEPTED },
    Case { name: "sheet-60", call: SHEET, buffers: checking_60_links, answer: ACCEPTED },
    Case { name: "sheet-210", call: SHEET, buffers: checking_all_links, answer: ACCEPTED },
    Case { name: "sheet-210-pair", call: SHEET, buffers: checking_a_pair, answer: ACCEPTED },
    Case { name: "sheet-60-refused", call: SHEET, buffers: checking_an_address, answer: BAD_FIELD },
    Case { name: "relay-10-trusting", call: TRUSTING, buffers: || relaying(10, MOST_ROWS), answer: ACCEPTED },
    Case { name: "relay-100-trusting", call: TRUSTING, buffers: || relaying(100, MOST_ROWS), answer: ACCEPTED },
    Case { name: "relay-255-trusting", call: TRUSTING, buffers: || relaying(255, MOST_ROWS), answer: ACCEPTED },
];

const OWN: u16 = 0x0100;
const FIRST: u16 = 0x0201;
const LAST: u16 = destination(MOST_ROWS - 1);
const NEIGHBOUR: u16 = destination(MOST_ROWS / 2);
/// A unit that no row goes to or through: it stands between two rows.
const STRANGER: u16 = FIRST + 1;
/// How many entries a full update has.
const ENTRIES: usize = 24;
/// How far apart two rows are that have the strangers of an update between them.
const ROOM_FOR_STRANGERS: u16 = 0x0100;
/// The hops of every row.
const HOPS: u8 = 3;
/// The priority of every unit in a poll but the last.
const PRIORITY: u8 = 100;
/// What a beacon holds besides the fields that are set does not matter, but is always the same.
const BEACON_SEED: u64 = 1;
/// Which slots are drawn does not matter much either.
const SLOTS_SEED: u64 = 1;

/// A site of 20 rows with 100 slots, and room for a newcomer to be granted all four that it asks for.
const SITE: (u8, u8, u8) = (1, 20, 23);
const MEMBERS: usize = 10;
const NEWCOMER: u16 = 0x0300;

/// The units of a sheet, as many as the largest plan has rows, and how many data slots that has.
const SHEET_UNITS: usize = 21;
const SHEET_SLOTS: usize = 22;

/// The destination of the row at a place.
const fn destination(place: usize) -> u16 {
    FIRST + 2 * place as u16
}

/// The destination of the last of so many rows, or one that has none if there are none.
fn last_of(rows: usize) -> u16 {
    destination(rows.saturating_sub(1))
}

/// A table of so many rows, all through one neighbour, which has a row in the middle of a full table.
fn table(rows: usize) -> Vec<u8> {
    table_to((0..rows).map(destination))
}

/// A table with rows to these units, which ascend, all through one neighbour.
fn table_to(units: impl Iterator<Item = u16>) -> Vec<u8> {
    let mut table = Table::fresh(OWN, NOW).expect("this unit has an address");
    for (row, destination) in table.rows.iter_mut().zip(units) {
        let next_hop = NEIGHBOUR;
        *row = Row { destination, next_hop, hops: HOPS, quality: 100, time: NOW - 1000, withdrawn: false };
    }
    let mut bytes = vec![0; Table::LENGTH];
    table.to_bytes(&mut bytes);
    bytes
}

/// A data frame of this length to the unit in the last row.
fn relaying(length: usize, rows: usize) -> Buffers {
    let shortest = kind_of_type(DATA).frame_length(0);
    let payload: Vec<u8> = (0..(length - shortest) as u8).collect();
    let unit = last_of(rows);
    Buffers::new(table(rows), data(NEIGHBOUR, unit, 10, 7, &payload), unit)
}

/// A frame of 100 bytes, given a smallest time of a second: its route was heard of a second ago, and has far more left.
fn relaying_with_least() -> Buffers {
    Buffers { least_left: 1_000, ..relaying(100, MOST_ROWS) }
}

fn looking_up(rows: usize) -> Buffers {
    Buffers::new(table(rows), Vec::new(), last_of(rows))
}

/// A full update, one entry for every second row of a full table. There each replaces its row, the next time too; a
/// smaller table gets new rows.
fn merging(rows: usize) -> Buffers {
    let others = (FIRST + 2..=LAST).step_by(4);
    let entries: Vec<Entry> = others.map(|destination| (destination, 2, 150, destination, NOW)).collect();
    let buffers = Buffers::new(table(rows), update(NEIGHBOUR, NOW, &entries), OWN);
    match rows < MOST_ROWS {
        true => buffers.reset_each_time(),
        false => buffers,
    }
}

/// A full update that finds a full table, from a stranger and of strangers: so many rows are lower than each of the 25,
/// and the others are higher. There is room for none of the 25, so that nothing differs but the rows compared: 25 if
/// none is lower, because each candidate compares one, 600 if 23 are, and 1,200 if all are.
fn comparing(lower: usize) -> Buffers {
    let row = |place| destination(place) + if place < lower { 0 } else { ROOM_FOR_STRANGERS };
    let origin = destination(lower);
    let others = (origin + 1..).take(ENTRIES);
    let entries: Vec<Entry> = others.map(|stranger| (stranger, 2, 150, stranger, NOW)).collect();
    Buffers::new(table_to((0..MOST_ROWS).map(row)), update(origin, NOW, &entries), OWN)
}

/// A stranger leaves every row as it is; the neighbour takes all of them along.
fn forgetting(unit: u16) -> Buffers {
    let buffers = Buffers::new(table(MOST_ROWS), Vec::new(), unit);
    match unit == STRANGER {
        true => buffers,
        false => buffers.reset_each_time(),
    }
}

/// A beacon of this type that a neighbour forwarded, of the unit in the last row and one hop nearer to it.
fn forwarded(code: u8) -> Vec<u8> {
    let fields = [
        ("source", u32::from(NEIGHBOUR)),
        ("network", u32::from(NETWORK)),
        ("original source", u32::from(LAST)),
        ("hop", u32::from(HOPS) - 1),
        ("max hops", MOST_BEACON_HOPS),
        ("delay", 1000),
    ];
    beacon(code, &fields, &mut Random::new(BEACON_SEED))
}

/// Once forwarded, a beacon would not be forwarded again.
fn forwarding(code: u8) -> Buffers {
    Buffers::new(table(MOST_ROWS), forwarded(code), LAST).reset_each_time()
}

/// Two beacons of the same hop: only their qualities differ.
fn following() -> Buffers {
    let frame = forwarded(BEACON);
    Buffers { second: frame.clone(), ..Buffers::new(Vec::new(), frame, OWN) }
}

/// A full poll, and the message of the unit in its last place, which is in it already and wins.
fn polling() -> Buffers {
    let mut others = others_from(FIRST, MOST_OTHERS, PRIORITY);
    let last = &mut others[MOST_OTHERS - 1];
    last.1 += 1;
    let frame = election(last.0, last.1);
    Buffers::new(poll_bytes((OWN, PRIORITY), &others), frame, OWN)
}

/// A newcomer, to a site where half of the rows are taken.
fn joining() -> Buffers {
    let (max_hops, rows, data_slots) = SITE;
    let mut book = full_book(max_hops, rows, data_slots);
    book.rows[1 + MEMBERS..].fill(Member::EMPTY);
    Buffers::new(book_bytes(&book), join_request(NEWCOMER, 0, NETWORK, 4), NEWCOMER).reset_each_time()
}

/// The member in the last row.
fn scheduling() -> Buffers {
    let (max_hops, rows, data_slots) = SITE;
    let book = full_book(max_hops, rows, data_slots);
    let member = book.rows[usize::from(rows) - 1].unit;
    Buffers::new(book_bytes(&book), Vec::new(), member)
}

fn storing() -> Buffers {
    let (max_hops, rows, data_slots) = SITE;
    Buffers::new(book_bytes(&full_book(max_hops, rows, data_slots)), Vec::new(), OWN)
}

/// Into the buffer of another book.
fn restoring() -> Buffers {
    let (max_hops, rows, data_slots) = SITE;
    Buffers::new(joining().kept, full_book(max_hops, rows, data_slots).to_image(), OWN)
}

/// A sheet of 21 units, ascending, with these links, where the unit at a place has these slots.
fn checking(shape: &[Places], slots: impl Fn(usize) -> u64) -> Buffers {
    let units: Vec<u16> = (0..SHEET_UNITS).map(destination).collect();
    let rows: Vec<(u16, u64)> = units.iter().enumerate().map(|(place, unit)| (*unit, slots(place))).collect();
    let proposal = proposal(largest_plan(), &links_of(&units, shape), &rows);
    Buffers { second: proposal.sheet, ..Buffers::new(proposal.plan, proposal.links, OWN) }
}

/// So many slots, each as far from the next.
fn every(step: usize, first: usize, count: usize) -> u64 {
    (0..count).fold(0, |slots, place| slots | 1 << (first + step * place))
}

/// The units of a line: every third one has the same four slots, and the sheet is fine.
fn checking_a_line() -> Buffers {
    checking(&line(SHEET_UNITS), |place| every(3, place % 3, 4))
}

/// Each unit is linked to the next three, and three units also to the fourth: 60 links. Every eleventh has the same two
/// slots, and the sheet is fine.
fn checking_60_links() -> Buffers {
    let nearest = complete(SHEET_UNITS).into_iter().filter(|(lower, higher)| higher - lower <= 3);
    let shape: Vec<Places> = nearest.chain((0..3).map(|place| (place, place + 4))).collect();
    assert_eq!(shape.len(), 60, "the links of a sheet");
    checking(&shape, |place| every(11, place % 11, 2))
}

/// Each unit is linked to each and has a slot of its own, so that all pairs are looked at and the sheet is fine.
fn checking_all_links() -> Buffers {
    checking(&complete(SHEET_UNITS), |place| 1 << place)
}

/// Each unit is linked to each and has any four slots.
fn checking_a_pair() -> Buffers {
    let mut random = Random::new(SLOTS_SEED);
    let slots = (0..SHEET_UNITS).map(|_| {
        let any = random.shuffled((0..SHEET_SLOTS).collect());
        any[..4].iter().fold(0, |slots, slot| slots | 1 << slot)
    });
    let slots: Vec<u64> = slots.collect();
    checking(&complete(SHEET_UNITS), |place| slots[place])
}

/// The last unit's address is none.
fn checking_an_address() -> Buffers {
    let mut buffers = checking_60_links();
    let last = buffers.second.len() - ROW_LENGTH;
    buffers.second[last..last + 2].fill(0xFF);
    buffers
}
