//! Plans, links and sheets that the checks make up, and the shapes of sites that have a name.

use crate::book::drafts::plan_bytes;
use crate::book::site::Plan;
use crate::frames::kinds::BEACON;
use crate::sheet::verdict::Proposal;

/// A unit of a sheet: its address, and its slots as a mask.
pub type Row = (u16, u64);
/// Two units that hear each other.
pub type Link = (u16, u16);
/// Two places among the units of a site.
pub type Places = (usize, usize);

pub fn plan(max_hops: u8, rows: u8, data_slots: u8) -> Plan {
    Plan { network: 1, manager: 0x0100, max_hops, rows, data_slots, slot_ms: 1, beacon: BEACON }
}

/// The most rows that there are, with the most data slots beside them.
pub fn largest_plan() -> Plan {
    plan(1, 21, 22)
}

pub fn proposal(plan: Plan, links: &[Link], rows: &[Row]) -> Proposal {
    Proposal { plan: plan_bytes(plan), links: link_bytes(links), sheet: sheet_bytes(rows) }
}

pub fn sheet_bytes(rows: &[Row]) -> Vec<u8> {
    rows.iter().flat_map(|(unit, slots)| unit.to_le_bytes().into_iter().chain(slots.to_le_bytes())).collect()
}

pub fn link_bytes(links: &[Link]) -> Vec<u8> {
    links.iter().flat_map(|(one, other)| one.to_le_bytes().into_iter().chain(other.to_le_bytes())).collect()
}

/// The mask of these slots.
pub fn slots(slots: &[u8]) -> u64 {
    slots.iter().fold(0, |mask, slot| mask | 1 << slot)
}

/// Each of these units with its slots.
pub fn rows_of(units: &[u16], masks: &[u64]) -> Vec<Row> {
    assert_eq!(units.len(), masks.len(), "each unit has slots");
    units.iter().copied().zip(masks.iter().copied()).collect()
}

/// The links between the units at these places.
pub fn links_of(units: &[u16], shape: &[Places]) -> Vec<Link> {
    shape.iter().map(|(one, other)| (units[*one], units[*other])).collect()
}

/// Each is linked to the next.
pub fn line(count: usize) -> Vec<Places> {
    (1..count).map(|place| (place - 1, place)).collect()
}

/// A line whose ends are linked.
pub fn ring(count: usize) -> Vec<Places> {
    let ends = if count > 2 { vec![(count - 1, 0)] } else { Vec::new() };
    [line(count), ends].concat()
}

/// All are linked to the first.
pub fn star(count: usize) -> Vec<Places> {
    (1..count).map(|place| (0, place)).collect()
}

/// Each is linked to each.
pub fn complete(count: usize) -> Vec<Places> {
    (0..count).flat_map(|higher| (0..higher).map(move |lower| (lower, higher))).collect()
}
