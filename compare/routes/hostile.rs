//! Hostile buffers for the calls on a table.

use crate::frames::kinds::BEACONS;
use crate::routes::calls::{Ask, Forward, Relay};
use crate::routes::drafts::{beacon, data, update, Entry, LEFT_BEFORE};
use crate::routes::table::{Merged, Table};
use crate::shared::check::{Agreement, Check};
use crate::shared::hostile::{every_buffer, every_length_of_each};
use crate::shared::moments::Moment;

const OWN: u16 = 0x0100;
const NEAR: u16 = 0x0201;
const FAR: u16 = 0x0301;
const NETWORK: u16 = 1;
const NOW: Moment = Moment(1_000_000);

/// A table of 25 rows, and a frame of each kind that a table takes, as long as there are.
pub fn check(check: &mut Check) -> Agreement {
    let entries: Vec<Entry> = (FAR..).take(24).map(|unit| (unit, 2, 150, unit, NOW)).collect();
    let news = update(NEAR, NOW, &entries);
    let mut table = Table::fresh(OWN, NOW).expect("this unit has an address");
    let merged = Merged { skipped: 0, compared: 300 };
    assert_eq!(table.merge(&news, 200, NOW), Ok(merged), "there is room for 25 rows, each above those before it");
    let mut kept = [0; Table::LENGTH];
    table.to_bytes(&mut kept);
    let fields = [("source", NEAR), ("network", NETWORK), ("original source", NEAR), ("hop", 0), ("delay", 0)];
    let fields = fields.map(|(name, number)| (name, number.into()));
    for frame in BEACONS.map(|code| beacon(code, &fields, &mut check.random)) {
        let room = frame.len() + 1;
        let forward = Forward { network: NETWORK, manager: NEAR, frame, delay: 5, time: NOW, room };
        every_buffer(check, &kept, &Ask::Forward(forward))?;
    }
    for ask in [
        Ask::Fresh { own: OWN, time: NOW },
        Ask::Forget { unit: NEAR, time: NOW },
        Ask::Merge { frame: news, quality: 200, time: NOW },
        Ask::Page { page: 0, time: NOW, room: 250 },
    ] {
        every_buffer(check, &kept, &ask)?;
    }
    for left in LEFT_BEFORE {
        time_left(check, &kept, left)?;
    }
    full_table(check, table)
}

/// What is merged into this table once 23 more rows fill it: all of it is above every row.
fn full_table(check: &mut Check, mut table: Table) -> Agreement {
    let news = |origin: u16| {
        let entries: Vec<Entry> = (origin + 1..).take(24).map(|unit| (unit, 2, 150, unit, NOW)).collect();
        update(origin, NOW, &entries)
    };
    let merged = Merged { skipped: 2, compared: 924 };
    assert_eq!(table.merge(&news(FAR + 24), 200, NOW), Ok(merged), "there is room for 23 more rows");
    let mut kept = [0; Table::LENGTH];
    table.to_bytes(&mut kept);
    every_buffer(check, &kept, &Ask::Merge { frame: news(FAR + 0x0100), quality: 200, time: NOW })
}

/// The calls that answer how long a route has left, with this where they write it: on rows that are new, that are as
/// old as is usable, and older.
fn time_left(check: &mut Check, kept: &[u8], left: u32) -> Agreement {
    for (age, most) in [(0, 300_000), (299_999, 1), (300_000, 0)] {
        let time = NOW + age;
        every_buffer(check, kept, &Ask::Lookup { destination: FAR, time, left })?;
        let frame = data(NEAR, FAR, 9, 7, &[5; 245]);
        let onward = Relay { frame, time, least_left: most, room: 256, left };
        every_buffer(check, kept, &Ask::Relay(onward.clone()))?;
        every_length_of_each(check, kept, &Ask::Relay(Relay { least_left: most + 1, ..onward.clone() }))?;
        let frame = data(NEAR, OWN, 9, 7, &[5; 245]);
        every_buffer(check, kept, &Ask::Relay(Relay { frame, least_left: u32::MAX, ..onward }))?;
    }
    let (frame, time) = (data(NEAR, FAR, 9, 7, &[5; 245]), NOW + 300_001);
    every_length_of_each(check, kept, &Ask::Lookup { destination: FAR, time, left })?;
    every_length_of_each(check, kept, &Ask::Relay(Relay { frame, time, least_left: 0, room: 256, left }))
}
