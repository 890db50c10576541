//! Numbers in bytes, little-endian, and those that are a unit's address.

pub fn is_unit(number: u16) -> bool {
    number != 0 && number != 0xFFFF
}

#[inline(always)]
pub fn word(bytes: &[u8], place: usize) -> u16 {
    u16::from_le_bytes([bytes[place], bytes[place + 1]])
}

#[inline(always)]
pub fn long(bytes: &[u8], place: usize) -> u32 {
    u32::from_le_bytes([bytes[place], bytes[place + 1], bytes[place + 2], bytes[place + 3]])
}
