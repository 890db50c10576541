//! The library's calls on tables of routes, each with a safe wrapper. All their unsafe code is here, but for the
//! benchmark's.
//!
//! They are one kind of value: a table's bytes, and what is asked of it. The answer has every place that any of them
//! can write to, so that a call is also held to leaving the others alone.

use crate::frames::kinds::SHORT_BEACON;
use crate::routes::direct;
use crate::routes::relays::Relayed;
use crate::routes::table::Table;
use crate::shared::check::{Answer, Call};
use crate::shared::kept::{self, On};
use crate::shared::lending::{filler, names_of, Empty, Filler, Lent};
use crate::shared::moments::Moment;
use crate::shared::printing::{buffer_shown, input_shown, number_shown};
use crate::shared::refusal::Refusal;
use std::fmt;

extern "C" {
    fn braidlark_table_fresh(table: *mut u8, table_length: usize, own: u16, time: Moment) -> u8;

    pub fn braidlark_lookup(
        table: *const u8,
        table_length: usize,
        destination: u16,
        time: Moment,
        next_hop: *mut u16,
        hops: *mut u8,
        left: *mut u32,
    ) -> u8;

    pub fn braidlark_forget(table: *mut u8, table_length: usize, unit: u16, time: Moment) -> u8;

    pub fn braidlark_merge(
        table: *mut u8,
        table_length: usize,
        frame: *const u8,
        frame_length: usize,
        quality: u8,
        time: Moment,
        skipped: *mut u8,
        compared: *mut u16,
    ) -> u8;

    pub fn braidlark_page(
        table: *const u8,
        table_length: usize,
        page: u32,
        time: Moment,
        out: *mut u8,
        out_length: usize,
        written: *mut u32,
    ) -> u8;

    pub fn braidlark_relay(
        table: *const u8,
        table_length: usize,
        frame: *const u8,
        frame_length: usize,
        time: Moment,
        least_left: u32,
        out: *mut u8,
        out_length: usize,
        next_hop: *mut u16,
        place: *mut u32,
        length: *mut u32,
        left: *mut u32,
    ) -> u8;

    pub fn braidlark_forward(
        table: *mut u8,
        table_length: usize,
        network: u16,
        manager: u16,
        frame: *const u8,
        frame_length: usize,
        delay: u32,
        time: Moment,
        out: *mut u8,
        out_length: usize,
        written: *mut u32,
    ) -> u8;
}

/// What is asked of a table; `room` is the length of the output buffer, and `left` what the place for the time left
/// holds before the call.
#[derive(Clone, Debug)]
pub enum Ask {
    Fresh { own: u16, time: Moment },
    Lookup { destination: u16, time: Moment, left: u32 },
    Forget { unit: u16, time: Moment },
    Merge { frame: Vec<u8>, quality: u8, time: Moment },
    Page { page: u32, time: Moment, room: usize },
    Relay(Relay),
    Forward(Forward),
}

/// What a data frame is to be relayed with.
#[derive(Clone, Debug)]
pub struct Relay {
    pub frame: Vec<u8>,
    pub time: Moment,
    pub least_left: u32,
    pub room: usize,
    pub left: u32,
}

/// What a beacon is to be forwarded with.
#[derive(Clone, Debug)]
pub struct Forward {
    pub network: u16,
    pub manager: u16,
    pub frame: Vec<u8>,
    pub delay: u32,
    pub time: Moment,
    pub room: usize,
}

impl Forward {
    fn is_of_a_short_beacon(&self) -> bool {
        self.frame.first() == Some(&SHORT_BEACON)
    }
}

/// The calls by name, in the order of `Ask`, each with the numbers that it is answered with. Forwards of frames with the
/// type of a short beacon are counted apart.
pub const CALLS: [(&str, &[u8]); 8] = [
    ("fresh", &[0, 14, 4]),
    ("lookup", &[0, 14, 4, 8, 11]),
    ("forget", &[0, 14, 4, 6, 8]),
    ("merge", &[0, 14, 1, 2, 3, 4, 6, 8, 9]),
    ("page", &[0, 14, 8, 5]),
    ("relay", &[0, 14, 1, 2, 3, 4, 6, 8, 10, 11, 5]),
    ("forward", &[0, 14, 1, 2, 3, 4, 6, 15, 8, 11, 16, 5]),
    ("short forward", &[0, 14, 1, 3, 4, 6, 15, 8, 11, 16, 5]),
];

impl Ask {
    fn frame(&self) -> &[u8] {
        match self {
            Ask::Merge { frame, .. } => frame,
            Ask::Relay(Relay { frame, .. }) | Ask::Forward(Forward { frame, .. }) => frame,
            _ => &[],
        }
    }

    fn room(&self) -> usize {
        match *self {
            Ask::Page { room, .. } => room,
            Ask::Relay(Relay { room, .. }) | Ask::Forward(Forward { room, .. }) => room,
            _ => 0,
        }
    }

    fn left(&self) -> u32 {
        match *self {
            Ask::Lookup { left, .. } | Ask::Relay(Relay { left, .. }) => left,
            _ => u32::FILLER[0],
        }
    }
}

impl kept::Ask for Ask {
    fn lent(&mut self) -> (Option<&mut Vec<u8>>, Option<&mut usize>) {
        match self {
            Ask::Merge { frame, .. } => (Some(frame), None),
            Ask::Page { room, .. } => (None, Some(room)),
            Ask::Relay(Relay { frame, room, .. }) => (Some(frame), Some(room)),
            Ask::Forward(Forward { frame, room, .. }) => (Some(frame), Some(room)),
            Ask::Fresh { .. } | Ask::Lookup { .. } | Ask::Forget { .. } => (None, None),
        }
    }
}

/// A call of the library with the bytes of its table.
type TableCall<'a> = On<'a, Ask>;

/// Relaying on the bytes of a table: with them, the frame, the time, the smallest time left and the output buffer.
type Relaying = fn(&[u8], &[u8], Moment, u32, &mut [u8]) -> Result<Relayed, Refusal>;

/// What there is after a call. Places that it did not write to hold their filler.
#[derive(PartialEq, Eq)]
pub struct TableLeft {
    pub table: Vec<u8>,
    pub out: Vec<u8>,
    pub next_hop: u16,
    pub hops: u8,
    pub skipped: u8,
    pub compared: u16,
    pub place: u32,
    /// What is called `written` where there is no `place`.
    pub length: u32,
    pub left: u32,
}

/// The buffers of one call, each lent with filler around it.
struct Lending {
    table: Lent<u8>,
    frame: Lent<u8>,
    out: Lent<u8>,
    next_hop: Lent<u16>,
    hops: Lent<u8>,
    skipped: Lent<u8>,
    compared: Lent<u16>,
    place: Lent<u32>,
    length: Lent<u32>,
    left: Lent<u32>,
}

impl Lending {
    fn new(call: &TableCall) -> Lending {
        Lending {
            table: Lent::input(call.kept),
            frame: Lent::input(call.ask.frame()),
            out: Lent::output(call.ask.room()),
            next_hop: Lent::output(1),
            hops: Lent::output(1),
            skipped: Lent::output(1),
            compared: Lent::output(1),
            place: Lent::output(1),
            length: Lent::output(1),
            left: Lent::input(&[call.ask.left()]),
        }
    }

    #[rustfmt::skip] // It would give each argument a line.
    fn status(&mut self, call: &TableCall, empty: Empty) -> u8 {
        let (table, table_length) = (self.table.address(empty), call.kept.len());
        let (frame, frame_length) = (self.frame.address(empty), call.ask.frame().len());
        let (out, out_length) = (self.out.address(empty), call.ask.room());
        let (next_hop, hops) = (self.next_hop.address(empty), self.hops.address(empty));
        let (place, length) = (self.place.address(empty), self.length.address(empty));
        let (skipped, compared) = (self.skipped.address(empty), self.compared.address(empty));
        let left = self.left.address(empty);
        // SAFETY: each address is that of a live buffer of the length given with it, or NULL with length 0.
        unsafe {
            match *call.ask {
                Ask::Fresh { own, time } => braidlark_table_fresh(table, table_length, own, time),
                Ask::Lookup { destination, time, .. } =>
                    braidlark_lookup(table, table_length, destination, time, next_hop, hops, left),
                Ask::Forget { unit, time } => braidlark_forget(table, table_length, unit, time),
                Ask::Merge { quality, time, .. } =>
                    braidlark_merge(table, table_length, frame, frame_length, quality, time, skipped, compared),
                Ask::Page { page, time, .. } =>
                    braidlark_page(table, table_length, page, time, out, out_length, length),
                Ask::Relay(Relay { time, least_left, .. }) => braidlark_relay(
                    table, table_length, frame, frame_length, time, least_left, out, out_length,
                    next_hop, place, length, left,
                ),
                Ask::Forward(Forward { network, manager, delay, time, .. }) => braidlark_forward(
                    table, table_length, network, manager, frame, frame_length, delay, time, out, out_length, length,
                ),
            }
        }
    }

    fn disturbed(&self, call: &TableCall) -> Vec<&'static str> {
        names_of(&[
            ("around table", self.table.is_overrun()),
            ("frame", self.frame.is_changed(call.ask.frame())),
            ("around out", self.out.is_overrun()),
            ("around next_hop", self.next_hop.is_overrun()),
            ("around hops", self.hops.is_overrun()),
            ("around skipped", self.skipped.is_overrun()),
            ("around compared", self.compared.is_overrun()),
            ("around place", self.place.is_overrun()),
            ("around length", self.length.is_overrun()),
            ("around left", self.left.is_overrun()),
        ])
    }
}

/// What the independent implementation answers.
impl TableCall<'_> {
    /// Lets the independent table answer.
    fn ask_table(&self, left: &mut TableLeft) -> Result<(), Refusal> {
        let mut table = match *self.ask {
            // What the buffer holds does not matter, but its length does.
            Ask::Fresh { own, time } if self.kept.len() == Table::LENGTH => Table::fresh(own, time)?,
            _ => Table::from_bytes(self.kept)?,
        };
        match self.ask {
            Ask::Fresh { .. } => {}
            Ask::Lookup { destination, time, .. } => {
                let route = table.lookup(*destination, *time)?;
                (left.next_hop, left.hops, left.left) = (route.next_hop, route.hops, route.left);
            }
            Ask::Forget { unit, time } => table.forget(*unit, *time)?,
            Ask::Merge { frame, quality, time } => {
                let merged = table.merge(frame, *quality, *time)?;
                (left.skipped, left.compared) = (merged.skipped, merged.compared);
            }
            Ask::Page { page, time, .. } => left.length = table.page(*page, *time, &mut left.out)? as u32,
            Ask::Relay(Relay { frame, time, least_left, .. }) => {
                let relayed = table.relay(frame, *time, *least_left, &mut left.out)?;
                (left.next_hop, left.place, left.length, left.left) = relayed.numbers();
            }
            Ask::Forward(Forward { network, manager, frame, delay, time, .. }) => {
                left.length = table.forward(*network, *manager, frame, *delay, *time, &mut left.out)? as u32;
            }
        }
        table.to_bytes(&mut left.table);
        Ok(())
    }

    /// Holds relaying on the bytes themselves to what the table answered and left.
    fn hold(&self, name: &str, peer: Relaying, relay: &Relay, result: Result<(), Refusal>, left: &TableLeft) {
        let mut own = self.untouched();
        let relayed = peer(self.kept, &relay.frame, relay.time, relay.least_left, &mut own.out);
        let own_result = relayed.map(|relayed| {
            (own.next_hop, own.place, own.length, own.left) = relayed.numbers();
        });
        assert_eq!(own_result, result, "{} differs from the table: {}", name, self);
        assert!(own == *left, "{} differs from the table: {}\n  it:    {}\n  table: {}", name, self, own, left);
    }
}

impl Call for TableCall<'_> {
    type Left = TableLeft;

    fn name(&self) -> &'static str {
        CALLS[self.kind()].0
    }

    fn kind(&self) -> usize {
        match self.ask {
            Ask::Fresh { .. } => 0,
            Ask::Lookup { .. } => 1,
            Ask::Forget { .. } => 2,
            Ask::Merge { .. } => 3,
            Ask::Page { .. } => 4,
            Ask::Relay(_) => 5,
            Ask::Forward(forward) => 6 + usize::from(forward.is_of_a_short_beacon()),
        }
    }

    fn untouched(&self) -> TableLeft {
        TableLeft {
            table: self.kept.to_vec(),
            out: filler(self.ask.room()),
            next_hop: u16::FILLER[0],
            hops: u8::FILLER[0],
            skipped: u8::FILLER[0],
            compared: u16::FILLER[0],
            place: u32::FILLER[0],
            length: u32::FILLER[0],
            left: self.ask.left(),
        }
    }

    fn carry_out(&self, left: &mut TableLeft) -> Result<(), Refusal> {
        let result = self.ask_table(left);
        if let Ask::Relay(relay) = self.ask {
            self.hold("direct::relay", direct::relay, relay, result, left);
            if result.is_ok() {
                self.hold("direct::relay_trusting", direct::relay_trusting, relay, result, left);
            }
        }
        result
    }

    fn make(&self, empty: Empty) -> Answer<TableLeft> {
        let mut lending = Lending::new(self);
        let status = lending.status(self, empty);
        let left = TableLeft {
            table: lending.table.contents().to_vec(),
            out: lending.out.contents().to_vec(),
            next_hop: lending.next_hop.contents()[0],
            hops: lending.hops.contents()[0],
            skipped: lending.skipped.contents()[0],
            compared: lending.compared.contents()[0],
            place: lending.place.contents()[0],
            length: lending.length.contents()[0],
            left: lending.left.contents()[0],
        };
        Answer { status, left, disturbed: lending.disturbed(self) }
    }
}

impl fmt::Display for TableCall<'_> {
    fn fmt(&self, text: &mut fmt::Formatter) -> fmt::Result {
        write!(text, "table: {}; ", input_shown(self.kept))?;
        match self.ask {
            Ask::Fresh { own, time } => write!(text, "own: {:#06x}; time: {}", own, time),
            Ask::Lookup { destination, time, left } => {
                write!(text, "destination: {:#06x}; time: {}; left: {}", destination, time, left)
            }
            Ask::Forget { unit, time } => write!(text, "unit: {:#06x}; time: {}", unit, time),
            Ask::Merge { frame, quality, time } => {
                write!(text, "frame: {}; quality: {}; time: {}", input_shown(frame), quality, time)
            }
            Ask::Page { page, time, room } => write!(text, "page: {}; time: {}; out: {} bytes", page, time, room),
            Ask::Relay(Relay { frame, time, least_left, room, left }) => {
                write!(text, "frame: {}; time: {}; least_left: {}; ", input_shown(frame), time, least_left)?;
                write!(text, "out: {} bytes; left: {}", room, left)
            }
            Ask::Forward(Forward { network, manager, frame, delay, time, room }) => {
                write!(text, "network: {:#06x}; manager: {:#06x}; frame: {}; ", network, manager, input_shown(frame))?;
                write!(text, "delay: {}; time: {}; out: {} bytes", delay, time, room)
            }
        }
    }
}

impl fmt::Display for TableLeft {
    fn fmt(&self, text: &mut fmt::Formatter) -> fmt::Result {
        write!(text, "table: {}; out: {}", input_shown(&self.table), buffer_shown(&self.out))?;
        write!(text, "; next_hop: {}; hops: {}", number_shown(self.next_hop), number_shown(self.hops))?;
        write!(text, "; skipped: {}; compared: {}", number_shown(self.skipped), number_shown(self.compared))?;
        write!(text, "; place: {}; length: {}", number_shown(self.place), number_shown(self.length))?;
        write!(text, "; left: {}", self.left)
    }
}
