//! Drafts of frames: the numbers and the part that a frame is made of. They start within every rule, random or at the
//! limits, and the frames check then changes them as it likes. The other checks have whole frames damaged here.

use crate::frames::bodies::mended;
use crate::frames::kinds::*;
use crate::shared::random::Random;

/// Numbers at and next to every limit that the paper gives to a field, and to the widths of fields.
pub const LIMITS: [u32; 33] = [
    0, 1, 2, 9, 10, 11, 15, 16, 17, 23, 24, 25, 26, 27, 28, 98, 99, 100, 101, 244, 245, 246, 254, 255, 256, 257,
    0xFFFD, 0xFFFE, 0xFFFF, 0x1_0000, 0x1_0001, 0xFFFFFFFE, 0xFFFFFFFF,
];

#[derive(Clone)]
pub struct Draft {
    pub kind: &'static Kind,
    pub numbers: Vec<u32>,
    pub part: Vec<u8>,
}

impl Draft {
    /// A draft within every rule.
    pub fn new(kind: &'static Kind, random: &mut Random) -> Draft {
        let most = kind.part.as_ref().map_or(0, |part| part.most);
        let count = random.within(0, most as u32);
        Draft::with_count(kind, count, random)
    }

    /// A draft within every rule, if a frame can hold so many items.
    pub fn with_count(kind: &'static Kind, count: u32, random: &mut Random) -> Draft {
        let part = match kind.code {
            DATA => random.bytes(count as usize),
            ROUTING_UPDATE => (0..count).flat_map(|_| entry(random)).collect(),
            _ => Vec::new(),
        };
        Draft { kind, numbers: numbers(kind, count, random), part }
    }

    pub fn set(&mut self, name: &str, number: u32) {
        self.numbers[self.kind.place(name)] = number;
    }

    /// The frame that these numbers make, each cut to the width of its field.
    pub fn frame(&self) -> Vec<u8> {
        self.kind.assemble(&self.numbers, &self.part)
    }

    pub fn frame_length(&self) -> usize {
        self.kind.frame_length(self.part.len())
    }
}

/// A frame within every rule, damaged in one way. Most get the checksum that they need to be looked at any further.
pub fn damaged(mut frame: Vec<u8>, random: &mut Random) -> Vec<u8> {
    let place = random.below(frame.len());
    match random.below(9) {
        0 => return Vec::new(),
        1 => frame.truncate(place),
        2 => frame.resize(random.one_of(&[frame.len() + 1, 255, 256, 300]), 0),
        3 => frame = Draft::new(&KINDS[random.below(KINDS.len())], random).frame(),
        4 => frame[0] = random.draw() as u8,
        5 => frame[place] ^= 1 << random.below(8),
        _ => change_field(&mut frame, random),
    }
    match random.below(4) {
        0 => frame,
        _ => mended(&frame),
    }
}

/// One field of the frame, or of one of its entries, goes to a limit.
fn change_field(frame: &mut [u8], random: &mut Random) {
    let kind = kind_of_type(frame[0]);
    let entries = if kind.code == ROUTING_UPDATE { usize::from(frame[3]) } else { 0 };
    let (from, fields) = match random.below(entries + 1) {
        0 => (0, kind.fields),
        // Counted from the last, which stands before the checksum.
        entry => (frame.len() - 1 - entry * ENTRY_LENGTH, &ENTRY[..]),
    };
    let chosen = random.below(fields.len());
    let place = from + fields[..chosen].iter().map(|field| field.width).sum::<usize>();
    let width = fields[chosen].width;
    frame[place..place + width].copy_from_slice(&random.one_of(&LIMITS).to_le_bytes()[..width]);
}

fn numbers(kind: &Kind, count: u32, random: &mut Random) -> Vec<u32> {
    let code = u32::from(kind.code);
    match kind.code {
        DATA => vec![code, unit(random), unit(random), byte(random), word(random), count],
        JOIN_REQUEST => vec![code, unit(random), byte(random), word(random), byte(random)],
        JOIN_RESPONSE => {
            let accepted = (ACCEPTED, random.within(0, MOST_SLOTS - 1));
            let (status, slot) = random.one_of(&[accepted, (DENIED, NO_SLOT)]);
            vec![code, unit(random), status, slot, long(random), network(random)]
        }
        SLOT_REQUEST | DISCOVERY_REQUEST => vec![code, unit(random), byte(random), byte(random), byte(random)],
        DISCOVERY_RESPONSE => {
            vec![code, unit(random), network(random), byte(random), byte(random), byte(random), long(random)]
        }
        ELECTION => vec![code, unit(random), byte(random)],
        ROUTING_UPDATE => vec![code, unit(random), count, long(random)],
        BEACON => beacon(random),
        _ => short_beacon(random),
    }
}

fn beacon(random: &mut Random) -> Vec<u32> {
    let total_slots = random.within(1, MOST_SLOTS);
    let slot_ms = random.within(1, 0xFFFF / total_slots);
    let max_hops = random.within(1, MOST_BEACON_HOPS);
    let hop = random.within(0, max_hops);
    vec![
        u32::from(BEACON),
        EVERY_UNIT,
        unit(random),
        BEACON_SIZE,
        network(random),
        long(random),
        total_slots * slot_ms,
        total_slots,
        slot_ms,
        unit(random),
        hop,
        long(random),
        long(random),
        max_hops,
        word(random),
    ]
}

/// Its slots and their ms are any, whatever they make together.
fn short_beacon(random: &mut Random) -> Vec<u32> {
    let max_hops = random.within(1, MOST_BEACON_HOPS);
    vec![
        u32::from(SHORT_BEACON),
        unit(random),
        network(random),
        random.within(1, MOST_SLOTS),
        random.within(1, 0xFFFF),
        random.within(0, max_hops),
        long(random),
        word(random),
        max_hops,
        word(random),
    ]
}

fn entry(random: &mut Random) -> Vec<u8> {
    let reachable = random.within(1, MOST_ROUTE_HOPS);
    let hops = random.one_of(&[reachable, reachable, reachable, UNREACHABLE]);
    bytes_of(&ENTRY, &[unit(random), hops, byte(random), unit(random), long(random)])
}

fn unit(random: &mut Random) -> u32 {
    random.within(FIRST_UNIT, LAST_UNIT)
}

fn network(random: &mut Random) -> u32 {
    random.within(1, 0xFFFF)
}

fn byte(random: &mut Random) -> u32 {
    random.within(0, 0xFF)
}

fn word(random: &mut Random) -> u32 {
    random.within(0, 0xFFFF)
}

fn long(random: &mut Random) -> u32 {
    random.within(0, 0xFFFF_FFFF)
}
