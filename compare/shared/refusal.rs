//! The paper's refusal numbers, one for all subjects.

/// What a call is answered with that is not refused.
pub const ACCEPTED: u8 = 0;

/// Why a call is refused. The library answers with the number alone.
#[derive(Clone, Copy, Debug, PartialEq, Eq)]
pub enum Refusal {
    /// The frame is empty, over 255 bytes, or not as long as its type and count give.
    Length = 1,
    /// The type is unknown, or not one that the call wants.
    Type = 2,
    /// The last byte is not the XOR of all before it.
    Checksum = 3,
    /// A field rule is broken, or a beacon's delay sum is too large.
    Field = 4,
    /// The output buffer is shorter than what would be written.
    Room = 5,
    /// The frame's sender, or the unit to forget, is this unit.
    Own = 6,
    /// The event is not allowed in this state.
    Event = 7,
    /// The time is earlier than the last accepted one: the step from that to this is not forward.
    Early = 8,
    /// The link quality is under 40.
    Quality = 9,
    /// The ttl is used up, and the frame is not for this unit.
    Ttl = 10,
    /// There is no usable route, or it has less time left than the caller names.
    NoRoute = 11,
    /// Every member row is live, or a poll has no room for another unit.
    Full = 12,
    /// The unit is not a live member, or is the manager and asked to leave.
    NotMember = 13,
    /// A plan, sheet, image, page, hop or superframe's length, or a table, book, state or poll handed in, is out of
    /// rule; or the plan has no image.
    OutOfRule = 14,
    /// The network is not the book's or the caller's.
    Network = 15,
    /// The beacon is not this unit's to forward.
    NotOurs = 16,
}

impl Refusal {
    pub fn number(self) -> u8 {
        self as u8
    }
}
