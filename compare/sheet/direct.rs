//! The check of a sheet on the caller's bytes, which the library's is measured against: rows and links are read where
//! they lie, the units stand ascending in arrays, and neighbours are masks by their places. It allocates nothing. It
//! answers as the independent check does, and is held to that wherever that one answers.

use crate::book::members::MOST_HELD;
use crate::book::site::{Plan, MOST_ROWS};
use crate::shared::numbers::{is_unit, long, word};
use crate::shared::refusal::Refusal;
use crate::sheet::verdict::{Named, LINK_LENGTH, ROW_LENGTH};

/// Where the slots of a row stand, and the second address of a link.
const SLOTS: usize = 2;
const OTHER: usize = 2;

/// Places for addresses: a power of two, so that a search halves them each time.
const PLACES: usize = 32;
/// What stands behind the last address is higher than any.
const NO_ADDRESS: u16 = 0xFFFF;

#[inline(never)]
pub fn check(plan: &[u8], links: &[u8], sheet: &[u8]) -> Result<Named, Refusal> {
    if plan.len() != Plan::LENGTH || links.len() % LINK_LENGTH != 0 || sheet.len() % ROW_LENGTH != 0 {
        return Err(Refusal::OutOfRule);
    }
    let (rows, links) = (sheet.chunks_exact(ROW_LENGTH), links.chunks_exact(LINK_LENGTH));
    let all_units = rows.clone().all(|row| is_unit(word(row, 0)))
        && links.clone().all(|link| is_unit(word(link, 0)) && is_unit(word(link, OTHER)));
    if !all_units {
        return Err(Refusal::Field);
    }
    let plan = Plan::from_bytes(plan)?.checked()?;
    if rows.len() > usize::from(plan.rows) {
        return Err(Refusal::OutOfRule);
    }
    let mut units = Units::NONE;
    for row in rows {
        let slots = u64::from(long(row, SLOTS)) | u64::from(long(row, SLOTS + 4)) << 32;
        units.add(word(row, 0), slots)?;
    }
    for link in links {
        units.link(word(link, 0), word(link, OTHER))?;
    }
    Ok(units.offending_unit(plan.data_slots).or_else(|| units.offending_pair()).unwrap_or_default())
}

/// The units of a sheet, ascending by address.
struct Units {
    count: usize,
    addresses: [u16; PLACES],
    slots: [u64; MOST_ROWS],
    /// Bit i is the unit at place i.
    neighbours: [u32; MOST_ROWS],
}

impl Units {
    const NONE: Units =
        Units { count: 0, addresses: [NO_ADDRESS; PLACES], slots: [0; MOST_ROWS], neighbours: [0; MOST_ROWS] };

    /// Moves the units above it up by one. Planners list units in ascending order, so that mostly there is none.
    #[inline(always)]
    fn add(&mut self, address: u16, slots: u64) -> Result<(), Refusal> {
        let mut place = self.count;
        while place > 0 && self.addresses[place - 1] > address {
            self.addresses[place] = self.addresses[place - 1];
            self.slots[place] = self.slots[place - 1];
            place -= 1;
        }
        if place > 0 && self.addresses[place - 1] == address {
            return Err(Refusal::OutOfRule);
        }
        self.addresses[place] = address;
        self.slots[place] = slots;
        self.count += 1;
        Ok(())
    }

    #[inline(always)]
    fn link(&mut self, one: u16, other: u16) -> Result<(), Refusal> {
        let (one, other) = (self.place_of(one)?, self.place_of(other)?);
        if one == other {
            return Err(Refusal::OutOfRule);
        }
        self.neighbours[one] |= 1 << other;
        self.neighbours[other] |= 1 << one;
        Ok(())
    }

    /// Half of what is left is passed by at each step, with no branch. With `binary_search` a sheet with all links
    /// takes twice as long.
    #[inline(always)]
    fn place_of(&self, address: u16) -> Result<usize, Refusal> {
        let mut place = 0;
        for half in [16, 8, 4, 2, 1] {
            if self.addresses[place + half] <= address {
                place += half;
            }
        }
        match self.addresses[place] == address {
            true => Ok(place),
            false => Err(Refusal::OutOfRule),
        }
    }

    #[inline(always)]
    fn offending_unit(&self, data_slots: u8) -> Option<Named> {
        let is_lawful = |slots: u64| (1..=MOST_HELD).contains(&slots.count_ones()) && slots >> data_slots == 0;
        let place = self.slots[..self.count].iter().position(|slots| !is_lawful(*slots))?;
        Some(Named { units: 1, lower: self.addresses[place], higher: 0 })
    }

    #[inline(always)]
    fn offending_pair(&self) -> Option<Named> {
        for place in 0..self.count {
            for higher in places(self.within_two_links(place) & above(place)) {
                if self.slots[place] & self.slots[higher] != 0 {
                    return Some(Named { units: 2, lower: self.addresses[place], higher: self.addresses[higher] });
                }
            }
        }
        None
    }

    #[inline(always)]
    fn within_two_links(&self, place: usize) -> u32 {
        places(self.neighbours[place]).fold(self.neighbours[place], |near, place| near | self.neighbours[place])
    }
}

/// The mask of all places above this one.
#[inline(always)]
fn above(place: usize) -> u32 {
    u32::MAX << 1 << place
}

/// The places in a mask, ascending.
#[inline(always)]
fn places(mut mask: u32) -> impl Iterator<Item = usize> {
    std::iter::from_fn(move || {
        if mask == 0 {
            return None;
        }
        let place = mask.trailing_zeros() as usize;
        mask &= mask - 1;
        Some(place)
    })
}
