//! The ten kinds of frames, eight from the paper's table, the short beacon from request 101 of document 02 and the
//! election message from its request 109: their fields, their variable parts, and how both lie in bytes.

use crate::frames::rules::*;

pub const LONGEST_FRAME: usize = 255;

pub const DATA: u8 = 0x11;
pub const JOIN_REQUEST: u8 = 0x21;
pub const JOIN_RESPONSE: u8 = 0x22;
pub const SLOT_REQUEST: u8 = 0x23;
pub const DISCOVERY_REQUEST: u8 = 0x24;
pub const DISCOVERY_RESPONSE: u8 = 0x25;
pub const ELECTION: u8 = 0x26;
pub const ROUTING_UPDATE: u8 = 0x31;
pub const BEACON: u8 = 0x46;
pub const SHORT_BEACON: u8 = 0x47;

/// Both kinds of beacons: what takes one takes the other.
pub const BEACONS: [u8; 2] = [BEACON, SHORT_BEACON];

pub const FIRST_UNIT: u32 = 1;
pub const LAST_UNIT: u32 = 0xFFFE;
pub const EVERY_UNIT: u32 = 0xFFFF;

pub const ACCEPTED: u32 = 0;
pub const DENIED: u32 = 1;
pub const NO_SLOT: u32 = 0xFFFF;
pub const MOST_SLOTS: u32 = 100;

pub const MOST_ROUTE_HOPS: u32 = 16;
pub const UNREACHABLE: u32 = 255;

pub const BEACON_SIZE: u32 = 27;
pub const MOST_BEACON_HOPS: u32 = 10;

pub const CHECKSUM_LENGTH: usize = 1;

/// A number of a frame, `width` bytes wide, little-endian.
pub struct Field {
    pub name: &'static str,
    pub width: usize,
}

/// What stands between the fields of a frame and its checksum: as many items as the field named `count` says. More
/// than `most` of them would make the frame too long.
pub struct Part {
    pub count: &'static str,
    pub most: usize,
    pub item_length: usize,
    rule: fn(&[u8]) -> bool,
}

/// One kind of frame: its type, its fields (the type byte is the first), and the rule that their numbers keep.
pub struct Kind {
    pub code: u8,
    pub fields: &'static [Field],
    pub part: Option<Part>,
    rule: fn(&[u32]) -> bool,
}

/// The ten kinds, ascending by type, as the paper has its own.
pub static KINDS: [Kind; 10] = [
    Kind {
        code: DATA,
        fields: &[
            TYPE,
            field("source", 2),
            field("destination", 2),
            field("ttl", 1),
            field("sequence", 2),
            field("n", 1),
        ],
        part: Some(Part { count: "n", most: 245, item_length: 1, rule: any_payload }),
        rule: data_rule,
    },
    Kind {
        code: JOIN_REQUEST,
        fields: &[TYPE, field("node", 2), field("capabilities", 1), field("network", 2), field("slots", 1)],
        part: None,
        rule: join_request_rule,
    },
    Kind {
        code: JOIN_RESPONSE,
        fields: &[
            TYPE,
            field("node", 2),
            field("status", 1),
            field("slot", 2),
            field("superframe time", 4),
            field("network", 2),
        ],
        part: None,
        rule: join_response_rule,
    },
    Kind {
        code: SLOT_REQUEST,
        fields: &[TYPE, field("node", 2), field("slots", 1), field("priority", 1), field("reason", 1)],
        part: None,
        rule: slot_request_rule,
    },
    Kind {
        code: DISCOVERY_REQUEST,
        fields: &[TYPE, field("node", 2), field("capabilities", 1), field("role", 1), field("max hops", 1)],
        part: None,
        rule: discovery_request_rule,
    },
    Kind {
        code: DISCOVERY_RESPONSE,
        fields: &[
            TYPE,
            field("manager", 2),
            field("network", 2),
            field("size", 1),
            field("free", 1),
            field("quality", 1),
            field("uptime", 4),
        ],
        part: None,
        rule: discovery_response_rule,
    },
    Kind { code: ELECTION, fields: &[TYPE, field("node", 2), field("priority", 1)], part: None, rule: election_rule },
    Kind {
        code: ROUTING_UPDATE,
        fields: &[TYPE, field("origin", 2), field("k", 1), field("time", 4)],
        part: Some(Part { count: "k", most: 24, item_length: ENTRY_LENGTH, rule: every_entry_rule }),
        rule: routing_update_rule,
    },
    Kind {
        code: BEACON,
        fields: &[
            TYPE,
            field("destination", 2),
            field("source", 2),
            field("size", 1),
            field("network", 2),
            field("superframe number", 4),
            field("superframe ms", 2),
            field("total slots", 1),
            field("slot ms", 4),
            field("original source", 2),
            field("hop", 1),
            field("original time", 4),
            field("delay", 4),
            field("max hops", 1),
            field("sequence", 2),
        ],
        part: None,
        rule: beacon_rule,
    },
    Kind {
        code: SHORT_BEACON,
        fields: &[
            TYPE,
            field("source", 2),
            field("network", 2),
            field("total slots", 1),
            field("slot ms", 2),
            field("hop", 1),
            field("original time", 4),
            field("delay", 2),
            field("max hops", 1),
            field("sequence", 2),
        ],
        part: None,
        rule: short_beacon_rule,
    },
];

/// One entry of a routing update.
pub static ENTRY: [Field; 5] =
    [field("destination", 2), field("hops", 1), field("quality", 1), field("next hop", 2), field("timestamp", 4)];
pub const ENTRY_LENGTH: usize = 10;

const TYPE: Field = field("type", 1);

const fn field(name: &'static str, width: usize) -> Field {
    Field { name, width }
}

/// The kind with this type, if there is one.
pub fn kind_of(code: u32) -> Option<&'static Kind> {
    KINDS.iter().find(|kind| u32::from(kind.code) == code)
}

/// The kind with this type, which is one of the ten.
pub fn kind_of_type(code: u8) -> &'static Kind {
    kind_of(u32::from(code)).expect("one of the ten kinds")
}

impl Kind {
    /// How many bytes the fields take: there the variable part starts, or else the checksum.
    pub fn header_length(&self) -> usize {
        self.fields.iter().map(|field| field.width).sum()
    }

    /// How long a frame with a variable part of this length is.
    pub fn frame_length(&self, part_length: usize) -> usize {
        self.header_length() + part_length + CHECKSUM_LENGTH
    }

    /// The length that the count among these numbers gives to the variable part; a missing count counts as 0.
    pub fn part_length(&self, numbers: &[u32]) -> u64 {
        match &self.part {
            Some(part) => {
                let count = numbers.get(self.place(part.count)).copied().unwrap_or(0);
                u64::from(count) * part.item_length as u64
            }
            None => 0,
        }
    }

    /// The place of a field among the numbers.
    pub fn place(&self, name: &str) -> usize {
        let place = self.fields.iter().position(|field| field.name == name);
        place.expect("the kind has a field of this name")
    }

    pub fn has_width_for(&self, numbers: &[u32]) -> bool {
        self.fields.iter().zip(numbers).all(|(field, &number)| u64::from(number) < 1 << (8 * field.width))
    }

    pub fn keeps_rules(&self, numbers: &[u32], part: &[u8]) -> bool {
        let part_keeps_them = match &self.part {
            Some(counted) => (counted.rule)(part),
            None => true,
        };
        (self.rule)(numbers) && part_keeps_them
    }

    /// The frame of these numbers and this part with its checksum, whether it keeps the rules or not.
    pub fn assemble(&self, numbers: &[u32], part: &[u8]) -> Vec<u8> {
        let mut frame = bytes_of(self.fields, numbers);
        frame.extend(part);
        frame.push(checksum(&frame));
        frame
    }
}

/// The XOR of all bytes.
pub fn checksum(bytes: &[u8]) -> u8 {
    bytes.iter().fold(0, |sum, byte| sum ^ byte)
}

/// The numbers at the start of these bytes, one for each field.
pub fn numbers_in(fields: &[Field], bytes: &[u8]) -> Vec<u32> {
    let mut numbers = Vec::with_capacity(fields.len());
    let mut rest = bytes;
    for field in fields {
        let (own, after) = rest.split_at(field.width);
        numbers.push(own.iter().rev().fold(0, |number, &byte| number << 8 | u32::from(byte)));
        rest = after;
    }
    numbers
}

/// The bytes of these numbers, each cut to the width of its field.
pub fn bytes_of(fields: &[Field], numbers: &[u32]) -> Vec<u8> {
    let mut bytes = Vec::with_capacity(LONGEST_FRAME);
    for (field, number) in fields.iter().zip(numbers) {
        bytes.extend(&number.to_le_bytes()[..field.width]);
    }
    bytes
}
