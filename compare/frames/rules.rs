//! The rules that the numbers of each kind of frame keep, from the papers alone.

use crate::frames::kinds::*;

fn is_unit(number: u32) -> bool {
    (FIRST_UNIT..=LAST_UNIT).contains(&number)
}

fn is_network(number: u32) -> bool {
    number != 0
}

pub fn data_rule(numbers: &[u32]) -> bool {
    match *numbers {
        [_type, source, destination, _ttl, _sequence, _n] => is_unit(source) && is_unit(destination),
        _ => false,
    }
}

pub fn any_payload(_payload: &[u8]) -> bool {
    true
}

/// The network may be 0 here: it means any.
pub fn join_request_rule(numbers: &[u32]) -> bool {
    match *numbers {
        [_type, node, _capabilities, _network, _slots] => is_unit(node),
        _ => false,
    }
}

pub fn join_response_rule(numbers: &[u32]) -> bool {
    match *numbers {
        [_type, node, status, slot, _superframe_time, network] => {
            let accepted = status == ACCEPTED && slot < MOST_SLOTS;
            let denied = status == DENIED && slot == NO_SLOT;
            is_unit(node) && is_network(network) && (accepted || denied)
        }
        _ => false,
    }
}

pub fn slot_request_rule(numbers: &[u32]) -> bool {
    match *numbers {
        [_type, node, _slots, _priority, _reason] => is_unit(node),
        _ => false,
    }
}

pub fn discovery_request_rule(numbers: &[u32]) -> bool {
    match *numbers {
        [_type, node, _capabilities, _role, _max_hops] => is_unit(node),
        _ => false,
    }
}

pub fn discovery_response_rule(numbers: &[u32]) -> bool {
    match *numbers {
        [_type, manager, network, _size, _free, _quality, _uptime] => is_unit(manager) && is_network(network),
        _ => false,
    }
}

/// Any priority will do.
pub fn election_rule(numbers: &[u32]) -> bool {
    match *numbers {
        [_type, node, _priority] => is_unit(node),
        _ => false,
    }
}

pub fn routing_update_rule(numbers: &[u32]) -> bool {
    match *numbers {
        [_type, origin, _k, _time] => is_unit(origin),
        _ => false,
    }
}

pub fn every_entry_rule(entries: &[u8]) -> bool {
    entries.chunks(ENTRY_LENGTH).all(|entry| entry_rule(&numbers_in(&ENTRY, entry)))
}

fn entry_rule(numbers: &[u32]) -> bool {
    match *numbers {
        [destination, hops, _quality, next_hop, _timestamp] => {
            let reachable = (1..=MOST_ROUTE_HOPS).contains(&hops);
            is_unit(destination) && is_unit(next_hop) && (reachable || hops == UNREACHABLE)
        }
        _ => false,
    }
}

#[rustfmt::skip] // It would put all the names on one line.
pub fn beacon_rule(numbers: &[u32]) -> bool {
    match *numbers {
        [_type, destination, source, size, network, _superframe_number, superframe_ms, total_slots, slot_ms,
         original_source, hop, _original_time, _delay, max_hops, _sequence] => {
            destination == EVERY_UNIT
                && is_unit(source)
                && size == BEACON_SIZE
                && is_network(network)
                && is_unit(original_source)
                && (1..=MOST_BEACON_HOPS).contains(&max_hops)
                && hop <= max_hops
                && (1..=MOST_SLOTS).contains(&total_slots)
                && slot_ms >= 1
                && u64::from(superframe_ms) == u64::from(total_slots) * u64::from(slot_ms)
        }
        _ => false,
    }
}

/// The fields that it shares with the other beacon keep their rules. It says no superframe ms, so none have to agree.
#[rustfmt::skip] // It would put all the names on one line.
pub fn short_beacon_rule(numbers: &[u32]) -> bool {
    match *numbers {
        [_type, source, network, total_slots, slot_ms,
         hop, _original_time, _delay, max_hops, _sequence] => {
            is_unit(source)
                && is_network(network)
                && (1..=MOST_SLOTS).contains(&total_slots)
                && slot_ms >= 1
                && (1..=MOST_BEACON_HOPS).contains(&max_hops)
                && hop <= max_hops
        }
        _ => false,
    }
}
