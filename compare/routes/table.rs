//! The independent table of routes, from the paper's section on routes and requests 102 and 110 alone: its rows and
//! their ages, looking up, forgetting and merging. It works in place, and is also what the library's merge is measured
//! against.

use crate::frames::bodies::body_of;
use crate::frames::kinds::{ENTRY_LENGTH, ROUTING_UPDATE};
use crate::shared::moments::{accept, Moment};
use crate::shared::numbers::{is_unit, long, word};
use crate::shared::refusal::Refusal;

pub const MOST_ROWS: usize = 48;
pub const MOST_HOPS: u8 = 16;
pub const UNREACHABLE: u8 = 255;
pub const LEAST_QUALITY: u8 = 40;

/// The greatest ages, in ms: of a row that is usable, of one that is not gone, and of a withdrawn one that is not gone.
pub const USABLE_AGE: u32 = 300_000;
pub const STANDING_AGE: u32 = 360_000;
pub const WITHDRAWN_AGE: u32 = 60_000;

/// Where an update says how many entries it has.
const UPDATE_COUNT: usize = 3;
/// What stands before the entries of an update: type, origin, count and time.
pub const UPDATE_HEAD: usize = 8;
/// An update with no entries: the head and the checksum.
pub const SHORTEST_UPDATE: usize = UPDATE_HEAD + 1;

#[derive(Clone, Copy, Debug, PartialEq, Eq)]
pub struct Row {
    pub destination: u16,
    pub next_hop: u16,
    pub hops: u8,
    pub quality: u8,
    pub time: Moment,
    pub withdrawn: bool,
}

impl Row {
    pub const UNUSED: Row = Row { destination: 0, next_hop: 0, hops: 0, quality: 0, time: Moment(0), withdrawn: false };

    pub fn is_usable(&self, time: Moment) -> bool {
        !self.withdrawn && time.since(self.time) <= USABLE_AGE
    }

    /// For how many more ms a usable row stays so.
    fn left(&self, time: Moment) -> u32 {
        USABLE_AGE - time.since(self.time)
    }

    pub fn is_gone(&self, time: Moment) -> bool {
        let limit = if self.withdrawn { WITHDRAWN_AGE } else { STANDING_AGE };
        time.since(self.time) > limit
    }

    fn withdraw(&mut self, time: Moment) {
        self.time = time;
        self.withdrawn = true;
    }

    /// Whether this good candidate takes the place of a row for its destination.
    fn replaces(&self, row: &Row) -> bool {
        !row.is_usable(self.time)
            || row.next_hop == self.next_hop
            || row.hops > self.hops
            || row.hops == self.hops && row.quality < self.quality
    }
}

/// The pair that a forwarded beacon is known by.
#[derive(Clone, Copy, Debug, PartialEq, Eq)]
pub struct Pair {
    pub origin: u16,
    pub sequence: u16,
}

/// A unit's table. Used rows come first, ascending by destination.
#[derive(Clone, Debug, PartialEq, Eq)]
pub struct Table {
    pub own: u16,
    pub time: Moment,
    pub pair: Option<Pair>,
    pub rows: [Row; MOST_ROWS],
}

/// What a lookup answers.
#[derive(Clone, Copy, Debug, PartialEq, Eq)]
pub struct Route {
    pub next_hop: u16,
    pub hops: u8,
    /// For how many more ms it stays usable.
    pub left: u32,
}

/// What a merge answers.
#[derive(Clone, Copy, Debug, PartialEq, Eq)]
pub struct Merged {
    /// How many good candidates found no room.
    pub skipped: u8,
    /// How many rows the searches for all candidates compared.
    pub compared: u16,
}

/// The calls.
impl Table {
    #[inline(never)]
    pub fn fresh(own: u16, time: Moment) -> Result<Table, Refusal> {
        if !is_unit(own) {
            return Err(Refusal::Field);
        }
        Ok(Table { own, time, pair: None, rows: [Row::UNUSED; MOST_ROWS] })
    }

    #[inline(never)]
    pub fn lookup(&self, destination: u16, time: Moment) -> Result<Route, Refusal> {
        let used = self.used_rows()?;
        if !is_unit(destination) {
            return Err(Refusal::Field);
        }
        accept(self.time, time)?;
        self.route(used, destination, time)
    }

    #[inline(never)]
    pub fn forget(&mut self, unit: u16, time: Moment) -> Result<(), Refusal> {
        let used = self.used_rows()?;
        if !is_unit(unit) {
            return Err(Refusal::Field);
        }
        if unit == self.own {
            return Err(Refusal::Own);
        }
        accept(self.time, time)?;
        let used = self.begin_change(used, time);
        for row in &mut self.rows[..used] {
            if (row.destination == unit || row.next_hop == unit) && row.is_usable(time) {
                row.withdraw(time);
            }
        }
        Ok(())
    }

    /// Merges an update heard with this link quality.
    #[inline(never)]
    pub fn merge(&mut self, frame: &[u8], quality: u8, time: Moment) -> Result<Merged, Refusal> {
        let used = self.used_rows()?;
        let update = Update::read(frame)?;
        let origin = update.origin;
        if origin == self.own {
            return Err(Refusal::Own);
        }
        accept(self.time, time)?;
        if quality < LEAST_QUALITY {
            return Err(Refusal::Quality);
        }
        let mut used = self.begin_change(used, time);
        let neighbour = Row { destination: origin, next_hop: origin, hops: 1, quality, time, withdrawn: false };
        let (place, mut compared) = self.search(used, origin);
        let mut skipped = u8::from(!self.learn(&mut used, place, neighbour));
        for bytes in update.entries.chunks_exact(ENTRY_LENGTH) {
            let entry = Entry::read(bytes);
            if [self.own, origin].contains(&entry.destination) || entry.next_hop == self.own {
                continue;
            }
            let (place, more) = self.search(used, entry.destination);
            compared += more;
            match entry.candidate(origin, quality, time) {
                Some(candidate) => skipped += u8::from(!self.learn(&mut used, place, candidate)),
                None => self.unlearn(used, place, entry.destination, origin, time),
            }
        }
        Ok(Merged { skipped, compared })
    }
}

/// What the calls are made of. `used` is how many rows are used.
impl Table {
    /// How many rows are used, if the table is within rule.
    pub(crate) fn used_rows(&self) -> Result<usize, Refusal> {
        if !is_unit(self.own) || !self.pair.map_or(true, |pair| is_unit(pair.origin)) {
            return Err(Refusal::OutOfRule);
        }
        let mut used = 0;
        let mut lower = 0;
        for row in &self.rows {
            if row.destination <= lower {
                break;
            }
            if !self.allows(row) {
                return Err(Refusal::OutOfRule);
            }
            lower = row.destination;
            used += 1;
        }
        match self.rows[used..].iter().all(|row| *row == Row::UNUSED) {
            true => Ok(used),
            false => Err(Refusal::OutOfRule),
        }
    }

    fn allows(&self, row: &Row) -> bool {
        is_unit(row.destination)
            && is_unit(row.next_hop)
            && row.destination != self.own
            && row.next_hop != self.own
            && (1..=MOST_HOPS).contains(&row.hops)
            && row.quality >= LEAST_QUALITY
            && self.time.follows(row.time)
    }

    /// Goes up from the first row to the first that is not lower than this destination. Answers its place, and how many
    /// rows were compared.
    fn search(&self, used: usize, destination: u16) -> (usize, u16) {
        let mut compared = 0;
        for (place, row) in self.rows[..used].iter().enumerate() {
            compared += 1;
            if row.destination >= destination {
                return (place, compared);
            }
        }
        (used, compared)
    }

    /// The usable route to a destination.
    pub(crate) fn route(&self, used: usize, destination: u16, time: Moment) -> Result<Route, Refusal> {
        let (place, _) = self.search(used, destination);
        match self.rows[..used].get(place) {
            Some(row) if row.destination == destination && row.is_usable(time) => {
                Ok(Route { next_hop: row.next_hop, hops: row.hops, left: row.left(time) })
            }
            _ => Err(Refusal::NoRoute),
        }
    }

    /// Records the time of an accepted call and drops the rows that are gone. Answers how many are used then.
    pub(crate) fn begin_change(&mut self, used: usize, time: Moment) -> usize {
        self.time = time;
        let first = match self.rows[..used].iter().position(|row| row.is_gone(time)) {
            Some(first) => first,
            None => return used,
        };
        let mut kept = first;
        for place in first + 1..used {
            if !self.rows[place].is_gone(time) {
                self.rows[kept] = self.rows[place];
                kept += 1;
            }
        }
        self.rows[kept..used].fill(Row::UNUSED);
        kept
    }

    /// Takes a good candidate in at its place, if it is better than what is there. False if there is no room for it.
    fn learn(&mut self, used: &mut usize, place: usize, candidate: Row) -> bool {
        match self.rows[..*used].get_mut(place) {
            Some(row) if row.destination == candidate.destination => {
                if candidate.replaces(row) {
                    *row = candidate;
                }
                true
            }
            _ if *used == MOST_ROWS => false,
            _ => {
                self.rows.copy_within(place..*used, place + 1);
                self.rows[place] = candidate;
                *used += 1;
                true
            }
        }
    }

    /// Withdraws the usable row to a destination, whose place this is, through this neighbour.
    fn unlearn(&mut self, used: usize, place: usize, destination: u16, neighbour: u16, time: Moment) {
        if let Some(row) = self.rows[..used].get_mut(place) {
            if row.destination == destination && row.next_hop == neighbour && row.is_usable(time) {
                row.withdraw(time);
            }
        }
    }
}

/// A routing update within every rule, over the caller's bytes.
struct Update<'a> {
    origin: u16,
    entries: &'a [u8],
}

impl<'a> Update<'a> {
    fn read(frame: &'a [u8]) -> Result<Update<'a>, Refusal> {
        let entries_length = |frame: &[u8]| ENTRY_LENGTH * usize::from(frame[UPDATE_COUNT]);
        let body = body_of(frame, ROUTING_UPDATE, SHORTEST_UPDATE, entries_length)?;
        let update = Update { origin: word(body, 1), entries: &body[UPDATE_HEAD..] };
        let mut entries = update.entries.chunks_exact(ENTRY_LENGTH);
        match is_unit(update.origin) && entries.all(|bytes| Entry::read(bytes).is_in_rule()) {
            true => Ok(update),
            false => Err(Refusal::Field),
        }
    }
}

/// What a merge needs of an entry.
struct Entry {
    destination: u16,
    hops: u8,
    quality: u8,
    next_hop: u16,
}

impl Entry {
    #[inline(always)]
    fn read(bytes: &[u8]) -> Entry {
        Entry { destination: word(bytes, 0), hops: bytes[2], quality: bytes[3], next_hop: word(bytes, 4) }
    }

    fn is_in_rule(&self) -> bool {
        let hops_are = (1..=MOST_HOPS).contains(&self.hops) || self.hops == UNREACHABLE;
        is_unit(self.destination) && is_unit(self.next_hop) && hops_are
    }

    /// The row that this entry offers through its sender, unless it is bad.
    fn candidate(&self, sender: u16, link: u8, time: Moment) -> Option<Row> {
        // Unreachable is more than the most hops as well.
        if self.hops >= MOST_HOPS {
            return None;
        }
        let quality = ((u16::from(self.quality) + u16::from(link)) / 2) as u8;
        if quality < LEAST_QUALITY {
            return None;
        }
        let (destination, hops) = (self.destination, self.hops + 1);
        Some(Row { destination, next_hop: sender, hops, quality, time, withdrawn: false })
    }
}

/// The bytes that a table is at the boundary.
impl Table {
    pub const HEAD_LENGTH: usize = 11;
    pub const ROW_LENGTH: usize = 11;
    pub const LENGTH: usize = Table::HEAD_LENGTH + MOST_ROWS * Table::ROW_LENGTH;

    /// The table of these bytes, within rule or not; but there is none for another length or with a flag that is
    /// neither 0 nor 1, nor for a pair's numbers without a pair.
    #[inline(never)]
    pub fn from_bytes(bytes: &[u8]) -> Result<Table, Refusal> {
        if bytes.len() != Table::LENGTH {
            return Err(Refusal::OutOfRule);
        }
        let (head, rows) = bytes.split_at(Table::HEAD_LENGTH);
        let pair = Pair { origin: word(head, 7), sequence: word(head, 9) };
        let pair = match (flag(head[6])?, pair) {
            (true, pair) => Some(pair),
            (false, Pair { origin: 0, sequence: 0 }) => None,
            _ => return Err(Refusal::OutOfRule),
        };
        let mut table = Table { own: word(head, 0), time: Moment(long(head, 2)), pair, rows: [Row::UNUSED; MOST_ROWS] };
        for (row, bytes) in table.rows.iter_mut().zip(rows.chunks_exact(Table::ROW_LENGTH)) {
            *row = Row {
                destination: word(bytes, 0),
                next_hop: word(bytes, 2),
                hops: bytes[4],
                quality: bytes[5],
                time: Moment(long(bytes, 6)),
                withdrawn: flag(bytes[10])?,
            };
        }
        Ok(table)
    }

    #[inline(never)]
    pub fn to_bytes(&self, bytes: &mut [u8]) {
        let (head, rows) = bytes.split_at_mut(Table::HEAD_LENGTH);
        let pair = self.pair.unwrap_or(Pair { origin: 0, sequence: 0 });
        head[0..2].copy_from_slice(&self.own.to_le_bytes());
        head[2..6].copy_from_slice(&self.time.0.to_le_bytes());
        head[6] = u8::from(self.pair.is_some());
        head[7..9].copy_from_slice(&pair.origin.to_le_bytes());
        head[9..11].copy_from_slice(&pair.sequence.to_le_bytes());
        for (row, bytes) in self.rows.iter().zip(rows.chunks_exact_mut(Table::ROW_LENGTH)) {
            bytes[0..2].copy_from_slice(&row.destination.to_le_bytes());
            bytes[2..4].copy_from_slice(&row.next_hop.to_le_bytes());
            bytes[4] = row.hops;
            bytes[5] = row.quality;
            bytes[6..10].copy_from_slice(&row.time.0.to_le_bytes());
            bytes[10] = u8::from(row.withdrawn);
        }
    }
}

fn flag(byte: u8) -> Result<bool, Refusal> {
    match byte {
        0 => Ok(false),
        1 => Ok(true),
        _ => Err(Refusal::OutOfRule),
    }
}
