//! What a unit may hear in a slot: beacons of its network, and frames that will not do, each for a reason.

use crate::follow::choice::Heard;
use crate::frames::bodies::mended;
use crate::frames::drafts::Draft;
use crate::frames::kinds::*;
use crate::shared::random::Random;
use crate::shared::refusal::Refusal;

/// The caller's network. Its bytes differ, so that their order counts.
pub const NETWORK: u16 = 0x0102;
const NEXT_NETWORK: u32 = 0x0103;

/// Each kind of beacon beside each.
pub const KINDS_OF_PAIRS: [[u8; 2]; 4] =
    [[BEACON, BEACON], [BEACON, SHORT_BEACON], [SHORT_BEACON, BEACON], [SHORT_BEACON, SHORT_BEACON]];

pub fn heard(frame: &[u8], quality: u8) -> Heard<'_> {
    Heard { frame, quality }
}

/// A beacon of this type and of the caller's network, within every rule.
pub fn ours(code: u8, hop: u32, random: &mut Random) -> Draft {
    let max_hops = random.within(hop.max(1), MOST_BEACON_HOPS);
    let draft = Draft::new(kind_of_type(code), random);
    with(&draft, &[("network", NETWORK.into()), ("hop", hop), ("max hops", max_hops)])
}

/// A draft with these numbers in those of the fields that its kind has.
pub fn with(draft: &Draft, fields: &[(&str, u32)]) -> Draft {
    let mut changed = draft.clone();
    for (name, number) in fields {
        if draft.kind.fields.iter().any(|field| field.name == *name) {
            changed.set(name, *number);
        }
    }
    changed
}

/// Why a frame will not do, in words and as a number, and such a frame, made of a beacon that would.
type Reason = (&'static str, Refusal, fn(&Draft) -> Vec<u8>);

/// The reasons for which what is made of a beacon of this type will not do.
pub fn reasons(code: u8) -> impl Iterator<Item = &'static Reason> {
    let of_its_kind = if code == BEACON { &OF_LONG_BEACONS[..] } else { &[] };
    OF_FRAMES.iter().chain(&OF_BEACONS).chain(of_its_kind)
}

/// A type that the paper calls unknown.
const UNKNOWN: u8 = 0x41;

/// Reasons that show before any field is looked at.
const OF_FRAMES: [Reason; 16] = [
    ("no bytes", Refusal::Length, |_| Vec::new()),
    ("256 bytes", Refusal::Length, |draft| resized(draft, 256)),
    ("256 bytes too many", Refusal::Length, |draft| resized(draft, draft.frame_length() + 256)),
    ("256 bytes of an unknown type", Refusal::Length, |_| vec![UNKNOWN; 256]),
    ("an unknown type", Refusal::Type, |draft| retyped(draft, UNKNOWN)),
    ("an unknown type alone", Refusal::Type, |_| vec![UNKNOWN]),
    ("a type before beacons", Refusal::Type, |draft| retyped(draft, BEACON - 1)),
    ("a type behind beacons", Refusal::Type, |draft| retyped(draft, SHORT_BEACON + 1)),
    ("an unwanted type, of our network", Refusal::Type, |_| discovery_response()),
    ("an unwanted type, of a wrong length", Refusal::Type, |draft| retyped(draft, DISCOVERY_RESPONSE)),
    ("a type alone", Refusal::Length, |draft| vec![draft.kind.code]),
    ("a byte missing", Refusal::Length, |draft| resized(draft, draft.frame_length() - 1)),
    ("a byte too many", Refusal::Length, |draft| resized(draft, draft.frame_length() + 1)),
    ("the other kind's type", Refusal::Length, |draft| retyped(draft, BEACON ^ SHORT_BEACON ^ draft.kind.code)),
    ("a wrong checksum", Refusal::Checksum, |draft| unsealed(draft.frame())),
    ("a wrong checksum and a broken rule", Refusal::Checksum, |draft| unsealed(changed(draft, &[("max hops", 0)]))),
];

/// Reasons in fields that both kinds have. Those about slots break no other rule of the long kind.
const OF_BEACONS: [Reason; 15] = [
    ("a network of 0", Refusal::Field, |draft| changed(draft, &[("network", 0)])),
    ("a source of 0", Refusal::Field, |draft| changed(draft, &[("source", 0)])),
    ("a source that is every unit", Refusal::Field, |draft| changed(draft, &[("source", EVERY_UNIT)])),
    ("no slots", Refusal::Field, |draft| changed(draft, &slots(0, 1))),
    ("101 slots", Refusal::Field, |draft| changed(draft, &slots(101, 1))),
    ("slots of no time", Refusal::Field, |draft| changed(draft, &slots(1, 0))),
    ("no max hops", Refusal::Field, |draft| changed(draft, &[("hop", 0), ("max hops", 0)])),
    ("max hops of 11", Refusal::Field, |draft| changed(draft, &[("max hops", 11)])),
    ("a hop one over max hops", Refusal::Field, |draft| changed(draft, &[("hop", 4), ("max hops", 3)])),
    ("the next network and no max hops", Refusal::Field, |draft| {
        changed(draft, &[("network", NEXT_NETWORK), ("max hops", 0)])
    }),
    ("the next network", Refusal::Network, |draft| changed(draft, &[("network", NEXT_NETWORK)])),
    ("a network with our low byte", Refusal::Network, |draft| changed(draft, &[("network", 0x0002)])),
    ("a network with our high byte", Refusal::Network, |draft| changed(draft, &[("network", 0x0100)])),
    ("a network with our bytes swapped", Refusal::Network, |draft| changed(draft, &[("network", 0x0201)])),
    ("the last network", Refusal::Network, |draft| changed(draft, &[("network", 0xFFFF)])),
];

const OF_LONG_BEACONS: [Reason; 5] = [
    ("a destination", Refusal::Field, |draft| changed(draft, &[("destination", LAST_UNIT)])),
    ("a size of 28", Refusal::Field, |draft| changed(draft, &[("size", 28)])),
    ("an original source of 0", Refusal::Field, |draft| changed(draft, &[("original source", 0)])),
    ("a superframe ms too long", Refusal::Field, |draft| {
        changed(draft, &[("total slots", 2), ("slot ms", 1_000), ("superframe ms", 2_001)])
    }),
    ("a superframe that is right modulo 2^16 only", Refusal::Field, |draft| changed(draft, &slots(64, 1_025))),
];

/// So many slots of so many ms, and what they make together.
fn slots(total_slots: u32, slot_ms: u32) -> [(&'static str, u32); 3] {
    [("total slots", total_slots), ("slot ms", slot_ms), ("superframe ms", total_slots * slot_ms)]
}

fn changed(draft: &Draft, fields: &[(&str, u32)]) -> Vec<u8> {
    with(draft, fields).frame()
}

/// Cut or extended, with the checksum of that length.
fn resized(draft: &Draft, length: usize) -> Vec<u8> {
    let mut frame = draft.frame();
    frame.resize(length, 0);
    mended(&frame)
}

fn retyped(draft: &Draft, code: u8) -> Vec<u8> {
    let mut frame = draft.frame();
    frame[0] = code;
    mended(&frame)
}

fn unsealed(mut frame: Vec<u8>) -> Vec<u8> {
    let last = frame.len() - 1;
    frame[last] ^= 1;
    frame
}

/// Within every rule, and of the caller's network.
fn discovery_response() -> Vec<u8> {
    let numbers = [DISCOVERY_RESPONSE.into(), 0x0100, NETWORK.into(), 4, 2, 200, 70_000];
    kind_of_type(DISCOVERY_RESPONSE).assemble(&numbers, &[])
}
