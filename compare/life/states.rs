//! The independent implementation of a unit's states, from the paper's list of them. The library is held to
//! what these functions answer.

use crate::shared::moments::{accept, Moment};
use crate::shared::numbers::long;
use crate::shared::refusal::Refusal;

/// A stored state: the kind, then the last accepted time, the time of entry and that of the last beacon.
pub const STATE_LENGTH: usize = 13;

pub const DISCOVERY_MS: u32 = 30_000;
pub const JOINING_MS: u32 = 10_000;
pub const RECOVERY_MS: u32 = 60_000;
pub const LONGEST_SUPERFRAME_MS: u32 = 6_553_500;
pub const SUPERFRAMES_OF_SILENCE: u64 = 3;

#[derive(Clone, Copy, Debug, PartialEq, Eq)]
pub enum Kind {
    Initializing,
    Discovery,
    Joining,
    Normal,
    Manager,
    Recovery,
    Stopped,
}

/// The kinds by their numbers.
pub const KINDS: [Kind; 7] =
    [Kind::Initializing, Kind::Discovery, Kind::Joining, Kind::Normal, Kind::Manager, Kind::Recovery, Kind::Stopped];

#[derive(Clone, Copy, Debug, PartialEq, Eq)]
pub enum Event {
    Ready,
    Failed,
    Beacon,
    Accepted,
    Denied,
    Fault,
    Elected,
    RoleChange,
    Recovered,
}

/// The events by their numbers.
pub const EVENTS: [Event; 9] = [
    Event::Ready,
    Event::Failed,
    Event::Beacon,
    Event::Accepted,
    Event::Denied,
    Event::Fault,
    Event::Elected,
    Event::RoleChange,
    Event::Recovered,
];

/// The numbers of a stored state, whatever they are.
#[derive(Clone, Copy, Debug, PartialEq, Eq)]
pub struct Stored {
    pub kind: u8,
    pub last: Moment,
    pub entered: Moment,
    pub beacon: Moment,
}

impl Stored {
    pub fn bytes(self) -> Vec<u8> {
        let mut bytes = vec![self.kind];
        for time in [self.last, self.entered, self.beacon] {
            bytes.extend(time.0.to_le_bytes());
        }
        bytes
    }

    pub fn of(bytes: &[u8]) -> Option<Stored> {
        let bytes: &[u8; STATE_LENGTH] = bytes.try_into().ok()?;
        let time = |place: usize| Moment(long(bytes, place));
        Some(Stored { kind: bytes[0], last: time(1), entered: time(5), beacon: time(9) })
    }
}

/// A state within rule.
struct Unit {
    kind: Kind,
    last: Moment,
    entered: Moment,
    beacon: Moment,
}

/// The state of a unit that begins.
pub fn fresh(buffer: &[u8], time: Moment) -> Result<Vec<u8>, Refusal> {
    if buffer.len() != STATE_LENGTH {
        return Err(Refusal::OutOfRule);
    }
    Ok(Unit { kind: Kind::Initializing, last: time, entered: time, beacon: time }.bytes())
}

/// The state after the event with this number.
pub fn event(buffer: &[u8], number: u8, time: Moment) -> Result<Vec<u8>, Refusal> {
    let mut unit = Unit::at(buffer, time)?;
    let event = EVENTS.get(usize::from(number)).ok_or(Refusal::Event)?;
    match (unit.kind, event) {
        (Kind::Initializing, Event::Ready) => unit.enter(Kind::Discovery, time),
        (Kind::Initializing, Event::Failed) => unit.enter(Kind::Stopped, time),
        (Kind::Discovery, Event::Beacon) => unit.enter(Kind::Joining, time),
        (Kind::Discovery, Event::Fault) => unit.enter(Kind::Recovery, time),
        (Kind::Joining, Event::Accepted) => unit.enter(Kind::Normal, time),
        (Kind::Joining, Event::Denied) => unit.enter(Kind::Discovery, time),
        (Kind::Normal, Event::Elected) => unit.enter(Kind::Manager, time),
        (Kind::Manager, Event::RoleChange) => unit.enter(Kind::Normal, time),
        (Kind::Manager, Event::Fault) => unit.enter(Kind::Recovery, time),
        (Kind::Recovery, Event::Recovered) => unit.enter(Kind::Discovery, time),
        (Kind::Joining | Kind::Normal, Event::Beacon) => unit.beacon = time,
        _ => return Err(Refusal::Event),
    }
    unit.last = time;
    Ok(unit.bytes())
}

/// The state after a tick, where a superframe takes so many ms.
pub fn tick(buffer: &[u8], superframe_ms: u32, time: Moment) -> Result<Vec<u8>, Refusal> {
    let mut unit = Unit::at(buffer, time)?;
    if !(1..=LONGEST_SUPERFRAME_MS).contains(&superframe_ms) {
        return Err(Refusal::OutOfRule);
    }
    let since_entry = time.since(unit.entered);
    let silence = u64::from(time.since(unit.beacon));
    match unit.kind {
        Kind::Discovery if since_entry >= DISCOVERY_MS => unit.enter(Kind::Manager, time),
        Kind::Joining if since_entry >= JOINING_MS => unit.enter(Kind::Recovery, time),
        Kind::Normal if silence > SUPERFRAMES_OF_SILENCE * u64::from(superframe_ms) => unit.enter(Kind::Recovery, time),
        Kind::Recovery if since_entry >= RECOVERY_MS => unit.enter(Kind::Stopped, time),
        _ => {}
    }
    unit.last = time;
    Ok(unit.bytes())
}

impl Unit {
    /// The state in a buffer, if it is one within rule and the time follows its last one.
    fn at(buffer: &[u8], time: Moment) -> Result<Unit, Refusal> {
        let stored = Stored::of(buffer).ok_or(Refusal::OutOfRule)?;
        let kind = *KINDS.get(usize::from(stored.kind)).ok_or(Refusal::OutOfRule)?;
        let acted_on = match kind {
            Kind::Discovery | Kind::Joining | Kind::Recovery => Some(stored.entered),
            Kind::Normal => Some(stored.beacon),
            Kind::Initializing | Kind::Manager | Kind::Stopped => None,
        };
        if acted_on.map_or(false, |moment| !stored.last.follows(moment)) {
            return Err(Refusal::OutOfRule);
        }
        accept(stored.last, time)?;
        Ok(Unit { kind, last: stored.last, entered: stored.entered, beacon: stored.beacon })
    }

    /// To enter Normal is to hear a beacon.
    fn enter(&mut self, kind: Kind, time: Moment) {
        self.kind = kind;
        self.entered = time;
        if kind == Kind::Normal {
            self.beacon = time;
        }
    }

    fn bytes(&self) -> Vec<u8> {
        Stored { kind: self.kind as u8, last: self.last, entered: self.entered, beacon: self.beacon }.bytes()
    }
}
