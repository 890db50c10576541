//! Every limit that the papers give to frames, in turn: types, lengths, rooms, fields, counts, entries and positions.

use crate::frames::calls::{Entry, Write};
use crate::frames::check::*;
use crate::frames::drafts::{Draft, LIMITS};
use crate::frames::independent;
use crate::frames::kinds::*;
use crate::shared::check::{Agreement, Check};
use crate::shared::hostile::every_length;
use crate::shared::lending::BOTH_WAYS;
use crate::shared::refusal::Refusal;

/// Longer than the longest frame of a fixed length.
const SHORT_INPUT: usize = 40;

/// How many drafts of each kind meet every length of an output buffer.
const DRAFTS_FOR_EVERY_ROOM: usize = 4;

pub fn check(check: &mut Check) -> Agreement {
    example_of_the_paper(check)?;
    example_of_a_short_beacon(check)?;
    example_of_an_election_message(check)?;
    short_inputs_of_every_type(check)?;
    no_numbers(check)?;
    for kind in &KINDS {
        every_type_on(check, kind)?;
        every_room_for(check, kind)?;
        every_length_of(check, kind)?;
        surplus_numbers(check, kind)?;
        every_field_at_limits(check, kind)?;
        over_long_inputs(check, kind)?;
        counts_beside_parts(check, kind)?;
    }
    status_with_slot(check)?;
    hop_with_max_hops(check)?;
    superframe_with_slots(check)?;
    slots_of_any_length(check)?;
    entries_at_limits(check)?;
    every_position(check)
}

fn example_of_the_paper(check: &mut Check) -> Agreement {
    let numbers = [0x21, 0x0201, 0, 1, 4];
    let frame = [0x21, 0x01, 0x02, 0x00, 0x01, 0x00, 0x04, 0x27];
    assert_eq!(independent::write(&numbers, &[], frame.len()).as_deref(), Ok(&frame[..]), "the paper's join request");
    read(check, &frame, numbers.len())
}

/// Of the eight-unit site of request 101, whose 70 slots of 1,000 ms no other beacon can tell of: 19 bytes.
fn example_of_a_short_beacon(check: &mut Check) -> Agreement {
    let numbers = [0x47, 0x0100, 1, 70, 1_000, 0, 70_000, 300, 1, 7];
    let frame = [
        0x47, 0x00, 0x01, 0x01, 0x00, 0x46, 0xE8, 0x03, 0x00, // up to the hop
        0x70, 0x11, 0x01, 0x00, 0x2C, 0x01, 0x01, 0x07, 0x00, 0xA1,
    ];
    assert_eq!(independent::write(&numbers, &[], 19).as_deref(), Ok(&frame[..]), "a short beacon");
    assert_eq!(independent::write(&numbers, &[], 18), Err(Refusal::Room), "it has 19 bytes");
    read(check, &frame, numbers.len())
}

/// "Use type 0x26 with node 2, priority 1, checksum, 5 bytes": the node's low byte comes first.
fn example_of_an_election_message(check: &mut Check) -> Agreement {
    let numbers = [0x26, 0x0201, 7];
    let frame = [0x26, 0x01, 0x02, 0x07, 0x22];
    assert_eq!(independent::write(&numbers, &[], 5).as_deref(), Ok(&frame[..]), "an election message");
    assert_eq!(independent::write(&numbers, &[], 4), Err(Refusal::Room), "it has 5 bytes");
    read(check, &frame, numbers.len())
}

fn short_inputs_of_every_type(check: &mut Check) -> Agreement {
    read(check, &[], 0)?;
    read(check, &[], KINDS[0].fields.len())?;
    for code in 0..=0xFF {
        let kind = kind_of(u32::from(code)).unwrap_or(&KINDS[0]);
        for length in (1..=SHORT_INPUT).chain([LONGEST_FRAME, LONGEST_FRAME + 1]) {
            let mut frame = check.random.bytes(length);
            frame[0] = code;
            read_damaged(check, kind, &frame)?;
        }
    }
    Ok(())
}

/// No numbers are an empty frame, whatever stands behind them and whatever room there is.
fn no_numbers(check: &mut Check) -> Agreement {
    assert_eq!(independent::write(&[], &[], 0), Err(Refusal::Length), "an empty frame is refused with 1");
    for empty in BOTH_WAYS {
        for part in [0, 1, ENTRY_LENGTH, LONGEST_FRAME + 1].map(|length| vec![0; length]) {
            for room in [0, 1, LONGEST_FRAME] {
                check.put_lending(&Write { fields: &[], part: &part, room }, empty)?;
            }
        }
    }
    Ok(())
}

/// A frame of this kind with each other type in its place; in writing also with types that are no byte.
fn every_type_on(check: &mut Check, kind: &'static Kind) -> Agreement {
    let mut draft = Draft::new(kind, &mut check.random);
    let mut frame = draft.frame();
    for code in 0..=0xFF {
        frame[0] = code;
        read_damaged(check, kind, &frame)?;
    }
    let low_byte_right = [0x1_0000, 0x100_0000, 0xFFFF_FF00].map(|high| high | u32::from(kind.code));
    for code in (0..=0x1FF).chain(low_byte_right) {
        draft.numbers[0] = code;
        write_damaged(check, &draft)?;
    }
    write(check, &[], &draft.part, frame.len())
}

fn every_room_for(check: &mut Check, kind: &'static Kind) -> Agreement {
    for _ in 0..DRAFTS_FOR_EVERY_ROOM {
        let draft = Draft::new(kind, &mut check.random);
        let frame = draft.frame();
        for places in 0..=draft.numbers.len() + 1 {
            read(check, &frame, places)?;
        }
        for room in 0..=frame.len() + 1 {
            write(check, &draft.numbers, &draft.part, room)?;
        }
    }
    Ok(())
}

/// The longest frame of a kind at every length, and what it is written from.
fn every_length_of(check: &mut Check, kind: &'static Kind) -> Agreement {
    let most = kind.part.as_ref().map_or(0, |part| part.most);
    let Draft { mut numbers, part, .. } = Draft::with_count(kind, most as u32, &mut check.random);
    let frame = kind.assemble(&numbers, &part);
    for empty in BOTH_WAYS {
        for bytes in every_length(&frame, &mut check.random) {
            read_lending(check, &bytes, numbers.len(), empty)?;
            check.put_lending(&Entry { frame: &bytes, position: 0, places: ENTRY.len() }, empty)?;
        }
        read_lending(check, &frame, 0, empty)?;
        check.put_lending(&Entry { frame: &frame, position: 0, places: 0 }, empty)?;
        for bytes in every_length(&part, &mut check.random) {
            check.put_lending(&Write { fields: &numbers, part: &bytes, room: frame.len() }, empty)?;
        }
        check.put_lending(&Write { fields: &numbers, part: &part, room: 0 }, empty)?;
    }
    numbers.push(0);
    for count in 0..=numbers.len() {
        for empty in BOTH_WAYS {
            check.put_lending(&Write { fields: &numbers[..count], part: &part, room: frame.len() }, empty)?;
        }
    }
    Ok(())
}

/// Numbers behind those of a kind are not looked at, whatever they are.
fn surplus_numbers(check: &mut Check, kind: &'static Kind) -> Agreement {
    let Draft { mut numbers, part, .. } = Draft::new(kind, &mut check.random);
    for surplus in LIMITS {
        numbers.push(surplus);
        write(check, &numbers, &part, kind.frame_length(part.len()))?;
    }
    Ok(())
}

fn every_field_at_limits(check: &mut Check, kind: &'static Kind) -> Agreement {
    let draft = Draft::new(kind, &mut check.random);
    for place in 1..draft.numbers.len() {
        for limit in LIMITS {
            let mut changed = draft.clone();
            changed.numbers[place] = limit;
            read_and_write(check, &changed)?;
        }
    }
    Ok(())
}

/// Lengths that are right if only their low bytes are looked at.
fn over_long_inputs(check: &mut Check, kind: &'static Kind) -> Agreement {
    let draft = Draft::new(kind, &mut check.random);
    for more in [0x100, 0x200, 0x1_0000] {
        let mut frame = draft.frame();
        frame.resize(frame.len() + more, 0);
        read_damaged(check, kind, &frame)?;
        let mut part = draft.part.clone();
        part.resize(part.len() + more, 0);
        write(check, &draft.numbers, &part, LONGEST_FRAME)?;
    }
    Ok(())
}

/// Counts that give the part's length, nearly give it, or give it if only their low bits are looked at.
fn counts_beside_parts(check: &mut Check, kind: &'static Kind) -> Agreement {
    let part = match &kind.part {
        Some(part) => part,
        None => return Ok(()),
    };
    let most = part.most as u32;
    for items in [0, 1, 2, most - 1, most, most + 1, most + 2, 0xFF, 0x100, 0x101] {
        let draft = Draft::with_count(kind, items, &mut check.random);
        for more in [0, 1, 0xFF, 0x100, 0x1_0000, 0x8000_0000, 0xFFFF_FFFF] {
            for missing in [0, 1, part.item_length - 1] {
                let mut changed = draft.clone();
                changed.set(part.count, items.wrapping_add(more));
                changed.part.truncate(draft.part.len().saturating_sub(missing));
                read_and_write(check, &changed)?;
            }
        }
    }
    Ok(())
}

fn status_with_slot(check: &mut Check) -> Agreement {
    let slots = [0, 1, 98, 99, 100, 101, 0xFFFE, 0xFFFF, 0x1_0000, 0x1_FFFF];
    every_pair(check, JOIN_RESPONSE, ("status", &[0, 1, 2, 0xFF, 0x100, 0x101]), ("slot", &slots))
}

fn hop_with_max_hops(check: &mut Check) -> Agreement {
    let hops = [0, 1, 2, 9, 10, 11, 16, 17, 254, 255, 256];
    for code in BEACONS {
        every_pair(check, code, ("hop", &hops), ("max hops", &hops))?;
    }
    Ok(())
}

fn every_pair(check: &mut Check, code: u8, first: (&str, &[u32]), second: (&str, &[u32])) -> Agreement {
    let mut draft = Draft::new(kind_of_type(code), &mut check.random);
    for &one in first.1 {
        for &other in second.1 {
            draft.set(first.0, one);
            draft.set(second.0, other);
            read_and_write(check, &draft)?;
        }
    }
    Ok(())
}

/// The superframe is slots times slot: neither one off, nor so only modulo a power of two.
fn superframe_with_slots(check: &mut Check) -> Agreement {
    let mut draft = Draft::new(kind_of_type(BEACON), &mut check.random);
    for total_slots in [0u32, 1, 2, 64, 99, 100, 101, 255, 256] {
        for slot_ms in [0u32, 1, 2, 655, 656, 0xFFFF, 0x1_0000, 42_949_673, 0x400_0000, 0xFFFF_FFFF] {
            draft.set("total slots", total_slots);
            draft.set("slot ms", slot_ms);
            let product = total_slots.wrapping_mul(slot_ms);
            for superframe_ms in [product, product & 0xFFFF, product.wrapping_add(1), product.wrapping_sub(1)] {
                draft.set("superframe ms", superframe_ms);
                read_and_write(check, &draft)?;
            }
        }
    }
    Ok(())
}

/// A short beacon's slots make a superframe of any length together.
fn slots_of_any_length(check: &mut Check) -> Agreement {
    let total_slots = [0, 1, 2, 64, 70, 99, 100, 101, 255, 256];
    let slot_ms = [0, 1, 2, 655, 656, 936, 937, 1_000, 0x7FFF, 0x8000, 0xFFFE, 0xFFFF, 0x1_0000, 0x1_0001, 0xFFFF_FFFF];
    every_pair(check, SHORT_BEACON, ("total slots", &total_slots), ("slot ms", &slot_ms))
}

/// Each field of the first and of the last entry.
fn entries_at_limits(check: &mut Check) -> Agreement {
    for count in [1, 2, 24] {
        let draft = Draft::with_count(kind_of_type(ROUTING_UPDATE), count, &mut check.random);
        for entry_place in [0, draft.part.len() - ENTRY_LENGTH] {
            let mut place = entry_place;
            for field in &ENTRY {
                for limit in LIMITS {
                    let mut changed = draft.clone();
                    changed.part[place..place + field.width].copy_from_slice(&limit.to_le_bytes()[..field.width]);
                    read_and_write(check, &changed)?;
                    step_somewhere(check, &changed.frame())?;
                }
                place += field.width;
            }
        }
    }
    Ok(())
}

/// Every position of updates of every length, and far ones, with every number of places.
fn every_position(check: &mut Check) -> Agreement {
    for count in 0..=24 {
        let frame = Draft::with_count(kind_of_type(ROUTING_UPDATE), count, &mut check.random).frame();
        for position in (0..=count + 1).chain(FAR_POSITIONS) {
            for places in 0..=ENTRY.len() + 1 {
                step(check, &frame, position, places)?;
            }
        }
    }
    Ok(())
}
