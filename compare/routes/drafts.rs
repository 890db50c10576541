//! What the routes check asks: who takes part in a history, and random calls at and around every limit, some of them
//! with damaged tables and frames.

use crate::frames::drafts::{damaged, Draft};
use crate::frames::kinds::{
    checksum, kind_of_type, BEACON, BEACONS, DATA, ENTRY_LENGTH, MOST_SLOTS, ROUTING_UPDATE, SHORT_BEACON,
};
use crate::routes::calls::{Ask, Forward, Relay};
use crate::routes::table::*;
use crate::shared::moment_drafts::{anywhere, earlier, long_ago, start, stored_late, Pace};
use crate::shared::moments::Moment;
use crate::shared::numbers::is_unit;
use crate::shared::random::Random;

/// One entry of an update: destination, hops, quality, next hop, timestamp.
pub type Entry = (u16, u8, u8, u16, Moment);

pub fn update(origin: u16, time: Moment, entries: &[Entry]) -> Vec<u8> {
    let mut frame = Vec::with_capacity(SHORTEST_UPDATE + entries.len() * ENTRY_LENGTH);
    frame.push(ROUTING_UPDATE);
    frame.extend(origin.to_le_bytes());
    frame.push(entries.len() as u8);
    frame.extend(time.0.to_le_bytes());
    for (destination, hops, quality, next_hop, timestamp) in entries {
        frame.extend(destination.to_le_bytes());
        frame.extend([*hops, *quality]);
        frame.extend(next_hop.to_le_bytes());
        frame.extend(timestamp.0.to_le_bytes());
    }
    frame.push(checksum(&frame));
    frame
}

pub fn data(source: u16, destination: u16, ttl: u8, sequence: u16, payload: &[u8]) -> Vec<u8> {
    let numbers = [DATA.into(), source.into(), destination.into(), ttl.into(), sequence.into(), payload.len() as u32];
    kind_of_type(DATA).assemble(&numbers, payload)
}

/// What a short beacon does not say: its original source is the manager that a call names.
const NOT_IN_SHORT: [&str; 2] = ["original source", "superframe ms"];

/// A beacon of this type with the fields that forwarding looks at, of those that it has, and any others.
pub fn beacon(code: u8, fields: &[(&str, u32)], random: &mut Random) -> Vec<u8> {
    let mut draft = Draft::new(kind_of_type(code), random);
    for (name, number) in fields {
        if code == BEACON || !NOT_IN_SHORT.contains(name) {
            draft.set(name, *number);
        }
    }
    draft.frame()
}

/// The longest delay that a beacon of this type can tell of.
pub fn longest_delay(code: u8) -> u32 {
    match code {
        SHORT_BEACON => 0xFFFF,
        _ => 0xFFFF_FFFF,
    }
}

/// What the place for the time left holds before a call: also what calls at the limits of an age leave there.
pub const LEFT_BEFORE: [u32; 7] = [0, 1, USABLE_AGE - 1, USABLE_AGE, USABLE_AGE + 1, 0xA5C3_96E1, u32::MAX];

/// The smallest times that a relay is given when its route has so many ms left: none, the least, those at and next to
/// what is left and to the most that can be, and the largest number.
pub fn smallest_times(left: u32) -> [u32; 9] {
    [0, 1, left.saturating_sub(1), left, left + 1, USABLE_AGE - 1, USABLE_AGE, USABLE_AGE + 1, u32::MAX]
}

/// Who takes part in a history, and how fast its time goes.
pub struct Scene {
    pub own: u16,
    pub network: u16,
    /// Who sends updates.
    neighbours: Vec<u16>,
    /// All units, this one among them.
    units: Vec<u16>,
    /// How changing calls follow each other.
    pace: Pace,
}

impl Scene {
    pub fn new(random: &mut Random) -> Scene {
        let others = match random.below(4) {
            0 | 1 => 2 + random.below(5),
            2 => MOST_ROWS - 1 + random.below(3),
            _ => 60 + random.below(30),
        };
        let mut units = vec![];
        while units.len() < others + 1 {
            let anyone = random.within(1, 0xFFFE) as u16;
            let unit = random.one_of(&[anyone, anyone, 1, 2, 0xFF, 0x100, 0x0101, 0x0201, 0xFFFD, 0xFFFE]);
            if !units.contains(&unit) {
                units.push(unit);
            }
        }
        let neighbours = units[1..].iter().copied().take(1 + random.below(4)).collect();
        let network = random.within(1, 0xFFFF) as u16;
        let pace = Pace { at_limits: random.one_of(&[0, 1, 1, 4]), leaps: random.one_of(&[0, 0, 1, 4]) };
        Scene { own: units[0], network, neighbours, units, pace }
    }

    /// A table within rule, mostly one that no history leads to: its rows may be gone, or go through anyone.
    pub fn table(&self, random: &mut Random) -> Table {
        let mut units = self.units[1..].to_vec();
        units.sort_unstable();
        units.truncate(random.one_of(&[MOST_ROWS, MOST_ROWS, MOST_ROWS - 1, 3]));
        let last = start(random);
        let mut rows = [Row::UNUSED; MOST_ROWS];
        for (row, destination) in rows.iter_mut().zip(units) {
            let next_hop = random.one_of(&self.units[1..]);
            let (hops, quality) = (random.within(1, 16) as u8, random.within(40, 255) as u8);
            let (limit, long_ago) = (random_limit(random), long_ago(random));
            let time = last - random.one_of(&[0, 1, 1, limit, limit, limit, limit, long_ago]);
            *row = Row { destination, next_hop, hops, quality, time, withdrawn: random.below(4) == 0 };
        }
        let origin = random.one_of(&self.units);
        let pair = Pair { origin, sequence: random.below(3) as u16 };
        let pair = random.one_of(&[None, Some(pair)]);
        Table { own: self.own, time: last, pair, rows }
    }
}

/// An age at a limit, or one less or more.
fn random_limit(random: &mut Random) -> u32 {
    random.one_of(&[WITHDRAWN_AGE, USABLE_AGE, STANDING_AGE]) - 1 + random.below(3) as u32
}

/// The drawing of one call.
pub struct Drawing<'a> {
    pub random: &'a mut Random,
    pub scene: &'a Scene,
    pub table: &'a Table,
    /// Of 24 arguments, how many are wrong.
    pub slips: usize,
}

/// The calls.
impl Drawing<'_> {
    pub fn ask(&mut self) -> Ask {
        match self.random.below(32) {
            0 => Ask::Fresh { own: self.unit(), time: start(self.random) },
            1..=5 => self.lookup(),
            6 | 7 => Ask::Forget { unit: self.unit(), time: self.changing_time() },
            8..=17 => self.merge(),
            18..=21 => self.page(),
            22..=26 => self.relay(),
            _ => self.forward(),
        }
    }

    fn lookup(&mut self) -> Ask {
        let usual = (self.unit(), self.reading_time());
        let (destination, time) = self.perhaps_at_a_limit(usual);
        Ask::Lookup { destination, time, left: self.random.one_of(&LEFT_BEFORE) }
    }

    fn merge(&mut self) -> Ask {
        let good = self.random.within(40, 255) as u8;
        let quality = match self.slip() {
            true => self.random.one_of(&[0, 38, 39]),
            false => self.random.one_of(&[good, good, 40, 41, 80, 81, 255]),
        };
        let origin = match self.slip() {
            true => self.scene.own,
            false => self.random.one_of(&self.scene.neighbours),
        };
        let count = self.random.one_of(&[0, 1, 2, 5, 12, 23, 24, 24, 24]);
        let entries: Vec<Entry> = (0..count).map(|_| self.entry(quality)).collect();
        let frame = update(origin, anywhere(self.random), &entries);
        Ask::Merge { frame: self.perhaps_damaged(frame), quality, time: self.changing_time() }
    }

    /// An entry whose quality is often one that makes a mean next to the least.
    fn entry(&mut self, link: u8) -> Entry {
        let (any_hops, any_quality) = (self.random.within(1, 16) as u8, self.random.draw() as u8);
        let hops = self.random.one_of(&[1, 1, 2, 2, 3, 9, 10, 14, 15, 16, UNREACHABLE, any_hops]);
        let least = 80u8.saturating_sub(link);
        let near = self.random.one_of(&[least.saturating_sub(1), least, least + 1, least + 2]);
        let quality = self.random.one_of(&[near, near, 0, 39, 40, 100, 101, 255, any_quality]);
        let (destination, next_hop) = (self.random.one_of(&self.scene.units), self.random.one_of(&self.scene.units));
        (destination, hops, quality, next_hop, anywhere(self.random))
    }

    fn page(&mut self) -> Ask {
        let time = self.reading_time();
        // The last three are small modulo 2^32 when they are multiplied by 24.
        let page = match self.slip() {
            true => self.random.one_of(&[2, 3, 0xFFFF_FFFF, 0x2000_0000, 0x0AAA_AAAB, 0x1555_5556]),
            false => self.random.one_of(&[0, 0, 0, 1, 1, 2]),
        };
        let needed = self.table.page(page, time, &mut [0; 255]).unwrap_or(SHORTEST_UPDATE);
        Ask::Page { page, time, room: self.room(needed) }
    }

    fn relay(&mut self) -> Ask {
        let own = self.scene.own;
        let source = if self.slip() { own } else { self.random.one_of(&self.scene.units[1..]) };
        let anyone = self.random.one_of(&self.scene.units);
        let usual = (self.random.one_of(&[anyone, anyone, anyone, own]), self.reading_time());
        let (destination, time) = self.perhaps_at_a_limit(usual);
        let length = self.random.one_of(&[0, 1, 2, 20, 20, 244, 245]);
        let ttl = if self.slip() { self.random.below(2) } else { self.random.one_of(&[1, 2, 2, 3, 255]) };
        let frame = data(source, destination, ttl as u8, self.random.draw() as u16, &self.random.bytes(length));
        let room = self.room(frame.len());
        let least_left = self.least_left(destination, time);
        let left = self.random.one_of(&LEFT_BEFORE);
        Ask::Relay(Relay { frame: self.perhaps_damaged(frame), time, least_left, room, left })
    }

    /// Half of all relays name no time.
    fn least_left(&mut self, destination: u16, time: Moment) -> u32 {
        let left = self.table.lookup(destination, time).map_or(0, |route| route.left);
        let named = self.random.one_of(&smallest_times(left));
        self.random.one_of(&[0, named])
    }

    fn forward(&mut self) -> Ask {
        let (time, code) = (self.changing_time(), self.random.one_of(&BEACONS));
        let row = self.random.one_of(&self.table.rows).destination;
        let anyone = self.random.one_of(&self.scene.units);
        let origin = if is_unit(row) { self.random.one_of(&[row, row, row, anyone]) } else { anyone };
        // The hop is the one that is forwarded, if there is a route; else and at times any.
        let own_hop = self.table.lookup(origin, time).map_or(1, |route| u32::from(route.hops));
        let any_hop = self.random.within(0, 10);
        let hop = if self.slip() { any_hop } else { (own_hop - 1).min(10) };
        let longest = longest_delay(code);
        let delay = if self.slip() { self.random.within(longest, 0xFFFF_FFFF) } else { self.random.within(0, longest) };
        let frame = self.beacon(code, origin, hop, delay);
        let (room, network, manager) = (self.room(frame.len()), self.network(), self.manager(code, origin));
        Ask::Forward(Forward { network, manager, frame: self.perhaps_damaged(frame), delay, time, room })
    }

    /// The network of the scene, unless by a slip.
    fn network(&mut self) -> u16 {
        let network = self.scene.network;
        match self.slip() {
            true => self.random.one_of(&[0, 0, network ^ 1, network ^ 0x100]),
            false => network,
        }
    }

    /// Who sent a short beacon first, unless by a slip. Another beacon names its original source, and the manager is
    /// anyone.
    fn manager(&mut self, code: u8, origin: u16) -> u16 {
        let anyone = self.random.one_of(&self.scene.units);
        match self.slip() {
            true => self.random.one_of(&[0, 0xFFFF, self.scene.own, anyone]),
            false if code == SHORT_BEACON => origin,
            false => self.random.one_of(&[origin, anyone]),
        }
    }

    /// A beacon whose delay and the given one mostly fit into what it can tell of, often just so.
    fn beacon(&mut self, code: u8, origin: u16, hop: u32, given: u32) -> Vec<u8> {
        let longest = longest_delay(code);
        let most = longest.saturating_sub(given);
        let delay = match self.slip() {
            true => self.random.one_of(&[most.saturating_add(1).min(longest), longest]),
            false => self.random.one_of(&[0, most, most / 2]),
        };
        let source = if self.slip() { self.scene.own } else { self.random.one_of(&self.scene.units[1..]) };
        let mut fields = vec![
            ("source", u32::from(source)),
            ("network", u32::from(self.scene.network)),
            ("original source", u32::from(origin)),
            ("hop", hop),
            ("max hops", self.random.within(hop.max(1), 10)),
            ("sequence", self.random.below(3) as u32),
            ("delay", delay),
        ];
        if self.slip() {
            fields.extend(self.one_slot_too_many());
        }
        beacon(code, &fields, self.random)
    }

    /// In a superframe that is said to be as long as its slots, so that nothing else is wrong with it.
    fn one_slot_too_many(&mut self) -> [(&'static str, u32); 3] {
        let slots = MOST_SLOTS + 1;
        let slot_ms = self.random.within(1, 0xFFFF / slots);
        [("total slots", slots), ("slot ms", slot_ms), ("superframe ms", slots * slot_ms)]
    }
}

/// The arguments.
impl Drawing<'_> {
    fn slip(&mut self) -> bool {
        self.random.below(24) < self.slips
    }

    fn unit(&mut self) -> u16 {
        match self.slip() {
            true => self.random.one_of(&[0, 0xFFFF, self.scene.own]),
            false => self.random.one_of(&self.scene.units[1..]),
        }
    }

    /// A reading call moves no time on, so it is often far ahead.
    fn reading_time(&mut self) -> Moment {
        self.time(Pace::READING)
    }

    fn changing_time(&mut self) -> Moment {
        self.time(self.scene.pace)
    }

    /// A time that follows the last accepted one, unless by a slip; at times at a limit of some row's age.
    fn time(&mut self, pace: Pace) -> Moment {
        let last = self.table.time;
        if self.slip() {
            return earlier(last, self.random);
        }
        let row = self.random.one_of(&self.table.rows);
        let from = if row == Row::UNUSED { last } else { row.time };
        let limit = from + random_limit(self.random);
        pace.next(last, limit, self.random)
    }

    /// Half the time the destination of a row, when that is new or at the limit of being usable, if this is to come;
    /// else the usual.
    fn perhaps_at_a_limit(&mut self, usual: (u16, Moment)) -> (u16, Moment) {
        let used = self.used_rows();
        if used == 0 || self.random.below(2) == 0 {
            return usual;
        }
        let row = self.table.rows[self.random.below(used)];
        let time = row.time + self.random.one_of(&[0, 1, USABLE_AGE - 1, USABLE_AGE, USABLE_AGE + 1]);
        match time.follows(self.table.time) {
            true => (row.destination, time),
            false => usual,
        }
    }

    fn used_rows(&self) -> usize {
        self.table.rows.iter().take_while(|row| **row != Row::UNUSED).count()
    }

    /// The length of an output buffer: what is needed or more, unless by a slip.
    fn room(&mut self, needed: usize) -> usize {
        let less = self.random.below(needed);
        match self.slip() {
            true => self.random.one_of(&[needed - 1, less]),
            false => needed + self.random.one_of(&[0, 0, 1, 9]),
        }
    }
}

/// The damage.
impl Drawing<'_> {
    fn perhaps_damaged(&mut self, frame: Vec<u8>) -> Vec<u8> {
        match self.slip() {
            true => damaged(frame, self.random),
            false => frame,
        }
    }

    /// The bytes of the table, whole unless by a slip.
    pub fn table_bytes(&mut self, bytes: &[u8]) -> Vec<u8> {
        match self.slip() {
            true => self.damaged_table(bytes.to_vec()),
            false => bytes.to_vec(),
        }
    }

    fn damaged_table(&mut self, mut bytes: Vec<u8>) -> Vec<u8> {
        // One of the used rows, or the first that is not used.
        let place = self.random.below((self.used_rows() + 1).min(MOST_ROWS));
        let row = Table::HEAD_LENGTH + Table::ROW_LENGTH * place;
        let limit = self.random.one_of(&[0, 1, 2, 16, 17, 39, 40, 254, 255]);
        match self.random.below(8) {
            0 => bytes.resize(self.random.one_of(&[0, 1, 538, 540, 600]), 0),
            1 => bytes[self.random.below(Table::HEAD_LENGTH)] = limit,
            2 => bytes[self.random.below(Table::LENGTH)] ^= 1 << self.random.below(8),
            3 => bytes[self.random.one_of(&[6, row + 10])] = limit,
            4 => bytes.copy_within(0..2, self.random.one_of(&[row, row + 2])),
            5 => bytes[row..row + Table::ROW_LENGTH].fill(0),
            6 => {
                let time = stored_late(self.table.time, self.random);
                bytes[row + 6..row + 10].copy_from_slice(&time.0.to_le_bytes());
            }
            _ => bytes[row + self.random.below(Table::ROW_LENGTH)] = limit,
        }
        bytes
    }
}
