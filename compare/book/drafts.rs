//! What the book check asks: sites and who is at them, and random calls at and around every limit, some of them with
//! damaged books, plans and frames.

use crate::book::calls::Ask;
use crate::book::members::*;
use crate::book::site::*;
use crate::frames::drafts::damaged;
use crate::frames::kinds::{kind_of_type, BEACON, BEACONS, JOIN_REQUEST, SHORT_BEACON, SLOT_REQUEST};
use crate::shared::moment_drafts::{anywhere, earlier, long_ago, start, stored_late, Pace};
use crate::shared::moments::Moment;
use crate::shared::random::Random;

pub fn join_request(node: u16, capabilities: u8, network: u16, slots: u8) -> Vec<u8> {
    let numbers = [JOIN_REQUEST.into(), node.into(), capabilities.into(), network.into(), slots.into()];
    kind_of_type(JOIN_REQUEST).assemble(&numbers, &[])
}

pub fn slot_request(node: u16, slots: u8, priority: u8, reason: u8) -> Vec<u8> {
    let numbers = [SLOT_REQUEST.into(), node.into(), slots.into(), priority.into(), reason.into()];
    kind_of_type(SLOT_REQUEST).assemble(&numbers, &[])
}

pub fn plan_bytes(plan: Plan) -> Vec<u8> {
    let mut bytes = vec![0; Plan::LENGTH];
    plan.to_bytes(&mut bytes);
    bytes
}

pub fn book_bytes(book: &Book) -> Vec<u8> {
    let mut bytes = vec![0; Book::LENGTH];
    book.to_bytes(&mut bytes);
    bytes
}

/// The longest slots that the numbers beside them allow.
pub fn longest_slot_ms(plan: &Plan) -> u16 {
    match plan.beacon {
        SHORT_BEACON => u16::MAX,
        _ => (LONGEST_SUPERFRAME_MS / plan.slots()) as u16,
    }
}

/// The most data slots beside these hops and rows.
fn most_data_slots(max_hops: u8, rows: u8) -> u8 {
    let without = Plan { network: 1, manager: 1, max_hops, rows, data_slots: 0, slot_ms: 1, beacon: BEACON };
    MOST_ACTIVE.saturating_sub(without.active()) as u8
}

/// A plan within rule whose manager sends such beacons, small or full as often as any other.
pub fn random_plan(beacon: u8, random: &mut Random) -> Plan {
    let any_hops = random.within(1, 10) as u8;
    let mut most_rows = LEAST_ROWS;
    while most_data_slots(any_hops, most_rows + 1) > most_rows {
        most_rows += 1;
    }
    let any_rows = random.within(LEAST_ROWS.into(), most_rows.into()) as u8;
    let most = most_data_slots(any_hops, any_rows);
    let any_data_slots = random.within(any_rows.into(), most.into()) as u8;
    let few = any_rows.min(4);
    let (max_hops, rows, data_slots) = random.one_of(&[
        (any_hops, 2, 2),
        (any_hops, 2, 3),
        (any_hops, few, few + 2),
        (1, 21, 22),
        (1, 2, 44),
        (any_hops, any_rows, any_rows),
        (any_hops, any_rows, most),
        (any_hops, any_rows, any_data_slots),
    ]);
    let (network, manager) = (random.within(1, 0xFFFF) as u16, random_unit(random));
    let mut plan = Plan { network, manager, max_hops, rows, data_slots, slot_ms: 1, beacon };
    plan.slot_ms = random.within(1, longest_slot_ms(&plan).into()) as u16;
    plan
}

fn random_unit(random: &mut Random) -> u16 {
    let anyone = random.within(1, 0xFFFE) as u16;
    random.one_of(&[anyone, anyone, 1, 2, 0xFF, 0x100, 0x0101, 0x0201, 0xFFFD, 0xFFFE])
}

/// A number whose lowest bits say the given one, which fits into them: larger by what a cut to them would take away.
pub fn widened(random: &mut Random, number: u32, bits: usize) -> u32 {
    let above = u32::MAX << bits;
    let (one, any) = (1 << (bits + random.below(32 - bits)), random.draw() as u32 & above);
    number | random.one_of(&[one, one, one | any, above])
}

/// How many numbers a plan is asked for with that can be too wide for it.
pub const WIDE_NUMBERS: usize = 5;

/// What a plan is asked for with, of which the one of these numbers at a place is too wide.
pub fn too_wide(random: &mut Random, plan: &Plan, place: usize) -> Wanted {
    let mut wanted = plan.wanted();
    let Wanted { max_hops, rows, data_slots, slot_ms, beacon, .. } = &mut wanted;
    let numbers: [(&mut u32, usize); WIDE_NUMBERS] =
        [(max_hops, 8), (rows, 8), (data_slots, 8), (slot_ms, 16), (beacon, 8)];
    let (number, bits) = numbers.into_iter().nth(place).unwrap();
    *number = widened(random, *number, bits);
    wanted
}

/// An age at the limit, or one less or more.
fn random_limit(random: &mut Random) -> u32 {
    LIVE_AGE - 1 + random.below(3) as u32
}

/// A site, who is at it, and how fast its time goes.
pub struct Scene {
    pub plan: Plan,
    /// All but the manager.
    units: Vec<u16>,
    /// How changing calls follow each other.
    pace: Pace,
}

impl Scene {
    pub fn new(random: &mut Random) -> Scene {
        let beacon = random.one_of(&BEACONS);
        Scene::with_beacons(beacon, random)
    }

    /// A site whose manager sends beacons of this type.
    pub fn with_beacons(beacon: u8, random: &mut Random) -> Scene {
        let plan = random_plan(beacon, random);
        let rows = usize::from(plan.rows);
        // As many as there are rows beside the manager's, fewer, or more.
        let others = random.one_of(&[1, 2, 3, rows - 1, rows, rows + 2]);
        let mut units = vec![];
        while units.len() < others {
            let unit = random_unit(random);
            if unit != plan.manager && !units.contains(&unit) {
                units.push(unit);
            }
        }
        let pace = Pace { at_limits: random.one_of(&[0, 0, 1, 4]), leaps: random.one_of(&[0, 0, 1, 4]) };
        Scene { plan, units, pace }
    }

    /// A book within rule, mostly one that no history leads to: rows are empty between used ones, slots in any order, and
    /// the manager's time is any.
    pub fn book(&self, random: &mut Random) -> Book {
        let (last, mut units) = (start(random), self.units.clone());
        let mut free: Vec<u8> = (0..self.plan.data_slots).collect();
        let mut spare = u32::from(self.plan.data_slots - self.plan.rows);
        let empty = random.one_of(&[0, 1, 2]);
        let mut rows = [Row::EMPTY; MOST_ROWS];
        for (place, row) in rows.iter_mut().enumerate().take(self.plan.rows.into()) {
            if place > 0 && (units.is_empty() || random.below(4) < empty) {
                continue;
            }
            let unit = if place == 0 { self.plan.manager } else { units.swap_remove(random.below(units.len())) };
            let more = random.within(0, spare.min(MOST_HELD - 1));
            spare -= more;
            let slots = (0..=more).fold(0, |slots, _| slots | 1 << free.swap_remove(random.below(free.len())));
            let (limit, long_ago) = (random_limit(random), long_ago(random));
            let time = last - random.one_of(&[0, 1, 1000, limit, limit, long_ago]);
            *row = Row { unit, slots, time };
        }
        let (late, any) = (stored_late(last, random), anywhere(random));
        rows[0].time = random.one_of(&[rows[0].time, late, any]);
        Book { plan: self.plan, time: last, rows }
    }
}

/// The drawing of one call.
pub struct Drawing<'a> {
    pub random: &'a mut Random,
    pub scene: &'a Scene,
    pub book: &'a Book,
    /// Of 24 arguments, how many are wrong.
    pub slips: usize,
}

/// The calls.
impl Drawing<'_> {
    /// A call and the buffer that it is handed: the book with these bytes, a plan, or room for one.
    pub fn call(&mut self, bytes: &[u8]) -> (Vec<u8>, Ask) {
        match self.random.below(32) {
            0 => (self.random.bytes(Plan::LENGTH), self.plan()),
            1 => (self.plan_bytes(), Ask::Numbers { places: self.room(Plan::NUMBERS) }),
            _ => (self.book_bytes(bytes), self.ask()),
        }
    }

    fn ask(&mut self) -> Ask {
        match self.random.below(32) {
            0 => self.fresh(),
            1..=11 => self.join(),
            12..=18 => self.slot_request(),
            19..=21 => Ask::Heard { unit: self.unit(), time: self.changing_time() },
            22 | 23 => Ask::Leave { unit: self.unit(), time: self.changing_time() },
            _ => {
                let unit = self.unit();
                let time = self.reading_time();
                self.schedule(unit, time)
            }
        }
    }

    /// The scene's plan, of which by a slip one number is too wide, or the kind of beacons another or none.
    fn plan(&mut self) -> Ask {
        let (plan, place) = (self.scene.plan, self.random.below(WIDE_NUMBERS + 1));
        let beacon = self.beacon();
        let wanted = match self.slip() {
            true if place == WIDE_NUMBERS => Plan { beacon, ..plan }.wanted(),
            true => too_wide(self.random, &plan, place),
            false => plan.wanted(),
        };
        Ask::Plan { wanted }
    }

    fn fresh(&mut self) -> Ask {
        Ask::Fresh { plan: self.plan_bytes(), time: start(self.random) }
    }

    fn join(&mut self) -> Ask {
        let time = self.changing_time();
        let node = self.sender();
        let own = self.scene.plan.network;
        let network = match self.slip() {
            true => self.random.one_of(&[own ^ 1, own ^ 0x100, !own]),
            false => self.random.one_of(&[own, own, 0]),
        };
        let frame = join_request(node, self.random.draw() as u8, network, self.asked());
        // The room is right for what is granted, if anything is.
        let needed = self.book.clone().join(&frame, time, &mut [0; 65]).unwrap_or(RESPONSE_LENGTH);
        Ask::Join { room: self.room(needed), frame: self.perhaps_damaged(frame), time }
    }

    fn slot_request(&mut self) -> Ask {
        let time = self.changing_time();
        let node = self.sender();
        let asked = self.asked();
        let frame = slot_request(node, asked, self.random.draw() as u8, self.random.draw() as u8);
        let needed = self.book.clone().slot_request(&frame, time, &mut [0; 65]).unwrap_or(RESPONSE_LENGTH);
        Ask::SlotRequest { room: self.room(needed), frame: self.perhaps_damaged(frame), time }
    }

    /// A schedule of this unit, at a hop that it may have unless by a slip.
    pub fn schedule(&mut self, unit: u16, time: Moment) -> Ask {
        let most = u32::from(self.scene.plan.max_hops);
        let own = if unit == self.scene.plan.manager { 0 } else { self.random.within(1, most) };
        let wide = widened(self.random, own, 8);
        let hop = match self.slip() {
            true => self.random.one_of(&[0, 1, most, most + 1, 255, wide, wide]),
            false => own,
        };
        Ask::Schedule { unit, hop, time, room: self.room(self.scene.plan.slots()) }
    }
}

/// The arguments.
impl Drawing<'_> {
    pub fn slip(&mut self) -> bool {
        self.random.below(24) < self.slips
    }

    fn sender(&mut self) -> u16 {
        match self.slip() {
            true => self.random.one_of(&[0, 0xFFFF, self.scene.plan.manager, self.scene.plan.manager]),
            false => self.random.one_of(&self.scene.units),
        }
    }

    fn unit(&mut self) -> u16 {
        let (other, stranger) = (self.random.one_of(&self.scene.units), random_unit(self.random));
        match self.slip() {
            true => self.random.one_of(&[0, 0xFFFF, stranger]),
            false => self.random.one_of(&[other, other, other, other, other, self.scene.plan.manager]),
        }
    }

    fn asked(&mut self) -> u8 {
        self.random.one_of(&[0, 1, 2, 3, 4, 4, 5, 255])
    }

    /// A reading call moves no time on, so it is often far ahead.
    pub fn reading_time(&mut self) -> Moment {
        self.time(Pace::READING)
    }

    fn changing_time(&mut self) -> Moment {
        self.time(self.scene.pace)
    }

    /// A time that follows the last accepted one, unless by a slip; at times at the limit of some member's age.
    fn time(&mut self, pace: Pace) -> Moment {
        let last = self.book.time;
        if self.slip() {
            return earlier(last, self.random);
        }
        let row = self.random.one_of(&self.book.rows[..self.scene.plan.rows.into()]);
        // The manager's time may be after the last one.
        let from = if row == Row::EMPTY || !last.follows(row.time) { last } else { row.time };
        let limit = from + random_limit(self.random);
        pace.next(last, limit, self.random)
    }

    /// The length of an output buffer: what is needed or more, unless by a slip.
    pub fn room(&mut self, needed: usize) -> usize {
        let less = self.random.below(needed);
        match self.slip() {
            true => self.random.one_of(&[needed - 1, needed - 1, less]),
            false => needed + self.random.one_of(&[0, 0, 1, 13]),
        }
    }
}

/// The damage.
impl Drawing<'_> {
    fn perhaps_damaged(&mut self, frame: Vec<u8>) -> Vec<u8> {
        match self.slip() {
            true => damaged(frame, self.random),
            false => frame,
        }
    }

    /// A type that is that of a beacon or next to it, or none.
    fn beacon(&mut self) -> u8 {
        self.random.one_of(&[BEACON, SHORT_BEACON, BEACON - 1, SHORT_BEACON + 1, 0])
    }

    /// The bytes of the scene's plan, whole unless by a slip.
    fn plan_bytes(&mut self) -> Vec<u8> {
        let mut plan = plan_bytes(self.scene.plan);
        if self.slip() {
            match self.random.below(4) {
                0 => plan.resize(self.random.one_of(&[0, 1, 9, 11, 308]), 0),
                1 => plan[self.random.below(Plan::LENGTH)] ^= 1 << self.random.below(8),
                2 => plan[Plan::LENGTH - 1] = self.beacon(),
                _ => plan[self.random.below(Plan::LENGTH)] = self.random.one_of(&[0, 1, 2, 11, 22, 45, 255]),
            }
        }
        plan
    }

    /// The bytes of the book, whole unless by a slip.
    pub fn book_bytes(&mut self, bytes: &[u8]) -> Vec<u8> {
        match self.slip() {
            true => self.damaged_book(bytes.to_vec()),
            false => bytes.to_vec(),
        }
    }

    fn damaged_book(&mut self, mut bytes: Vec<u8>) -> Vec<u8> {
        // One of the plan's rows, or the first past them.
        let rows = (usize::from(self.scene.plan.rows) + 1).min(MOST_ROWS);
        let place = |row: usize| Book::HEAD_LENGTH + Book::ROW_LENGTH * row;
        let (row, other) = (place(self.random.below(rows)), place(self.random.below(rows)));
        let limit = self.random.one_of(&[0, 1, 2, 3, 11, 16, 22, 45, 254, 255]);
        match self.random.below(11) {
            0 => bytes.resize(self.random.one_of(&[0, 1, 307, 309, 600]), 0),
            1 => bytes[self.random.below(Plan::LENGTH)] = limit,
            2 => bytes[self.random.below(Book::LENGTH)] ^= 1 << self.random.below(8),
            3 => bytes.copy_within(row..row + 2, other),
            4 => bytes.copy_within(row + 2..row + 10, other + 2),
            5 => bytes[row..row + Book::ROW_LENGTH].fill(0),
            6 => {
                let time = stored_late(self.book.time, self.random);
                bytes[row + 10..row + 14].copy_from_slice(&time.0.to_le_bytes());
            }
            7 => {
                let slot = usize::from(self.scene.plan.data_slots) - 1 + self.random.below(2);
                bytes[row + 2 + slot / 8] ^= 1 << (slot % 8);
            }
            8 => bytes.copy_within(row..row + Book::ROW_LENGTH, other),
            9 => bytes[Plan::LENGTH - 1] = self.beacon(),
            _ => bytes[row + self.random.below(Book::ROW_LENGTH)] = limit,
        }
        bytes
    }
}
