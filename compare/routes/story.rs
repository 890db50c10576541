//! A table and what is told of it, call by call, by the cases that have a name.

use crate::frames::kinds::BEACONS;
use crate::routes::calls::{Ask, Forward, Relay, TableLeft};
use crate::routes::drafts::{beacon, data, update, Entry};
use crate::routes::table::Table;
use crate::shared::check::{Agreement, Check, Difference};
use crate::shared::lending::Filler;
use crate::shared::moments::Moment;
use crate::shared::refusal::ACCEPTED;

pub const OWN: u16 = 0x0100;
pub const NEAR: u16 = 0x0201;
pub const OTHER: u16 = 0x0202;
pub const FAR: u16 = 0x0301;
pub const NETWORK: u16 = 7;
/// The times in an update are its sender's, and are not judged.
pub const SENT: Moment = Moment(0);

pub fn lookup(destination: u16, time: Moment) -> Ask {
    Ask::Lookup { destination, time, left: u32::FILLER[0] }
}

/// The relay of a data frame with a payload of three bytes. It names no smallest time.
pub fn relay(source: u16, destination: u16, ttl: u8, time: Moment) -> Relay {
    let frame = data(source, destination, ttl, 7, &[1, 2, 3]);
    Relay { room: frame.len(), frame, time, least_left: 0, left: u32::FILLER[0] }
}

/// A table and what is told of it.
pub struct Story<'a> {
    pub check: &'a mut Check,
    pub table: Vec<u8>,
    /// When it was made.
    pub start: Moment,
}

impl Story<'_> {
    pub fn begin(check: &mut Check, start: Moment) -> Result<Story<'_>, Difference> {
        let mut story = Story { check, table: vec![0xFF; Table::LENGTH], start };
        story.change(Ask::Fresh { own: OWN, time: start })?;
        Ok(story)
    }

    /// A table with a route to `NEAR`, and one over it to `FAR`, which is two hops away.
    pub fn with_routes(check: &mut Check, start: Moment) -> Result<Story<'_>, Difference> {
        let mut story = Story::begin(check, start)?;
        story.hear(NEAR, 200, &[(FAR, 1, 200, OTHER, SENT)], start)?;
        Ok(story)
    }

    /// The forward of a beacon of this type and with these fields, whose original source is the manager. If that is `FAR`,
    /// a beacon with no other fields given is ours to forward.
    pub fn forward(&mut self, code: u8, origin: u16, fields: &[(&str, u32)]) -> Forward {
        let ours = [("source", NEAR), ("network", NETWORK), ("original source", origin), ("hop", 1), ("max hops", 2)];
        let ours = ours.map(|(name, number)| (name, u32::from(number)));
        let fields = [&ours[..], &[("sequence", 5), ("delay", 0)], fields].concat();
        let frame = beacon(code, &fields, &mut self.check.random);
        Forward { network: NETWORK, manager: origin, room: frame.len(), frame, delay: 0, time: self.start }
    }

    /// Every call that takes a table: three that need no route, and then four that need one to `FAR`.
    pub fn every_call(&mut self, time: Moment) -> [Ask; 7] {
        let forwards = BEACONS.map(|code| Forward { time, ..self.forward(code, FAR, &[]) });
        let [forward, forward_short] = forwards.map(Ask::Forward);
        [
            Ask::Forget { unit: NEAR, time },
            Ask::Merge { frame: update(NEAR, SENT, &[]), quality: 40, time },
            Ask::Page { page: 0, time, room: 100 },
            lookup(FAR, time),
            Ask::Relay(relay(OTHER, FAR, 2, time)),
            forward,
            forward_short,
        ]
    }

    /// Every call finds the table within rule, or refuses it with 14.
    pub fn is_judged(&mut self, in_rule: bool, time: Moment) -> Agreement {
        for ask in self.every_call(time) {
            let answer = self.check.ask(&self.table, &ask)?;
            assert_eq!(answer.status != 14, in_rule, "{:?}", ask);
        }
        Ok(())
    }

    /// A call that is accepted and leaves its table to the ones after it.
    pub fn change(&mut self, ask: Ask) -> Result<TableLeft, Difference> {
        let left = self.check.is_answered(ACCEPTED, &self.table, &ask)?.left;
        self.table.clone_from(&left.table);
        Ok(left)
    }

    pub fn hear(&mut self, origin: u16, quality: u8, entries: &[Entry], time: Moment) -> Result<TableLeft, Difference> {
        self.change(Ask::Merge { frame: update(origin, time, entries), quality, time })
    }

    /// A lookup answers this next hop with these hops and so many ms left, or 11.
    pub fn finds(&mut self, destination: u16, time: Moment, route: Option<(u16, u8, u32)>) -> Agreement {
        let status = if route.is_some() { ACCEPTED } else { 11 };
        let left = self.check.is_answered(status, &self.table, &lookup(destination, time))?.left;
        if let Some(route) = route {
            assert_eq!((left.next_hop, left.hops, left.left), route);
        }
        Ok(())
    }

    /// Page 0 has exactly these entries.
    pub fn shows(&mut self, time: Moment, entries: &[Entry]) -> Agreement {
        let page = update(OWN, time, entries);
        let ask = Ask::Page { page: 0, time, room: page.len() };
        assert_eq!(self.check.is_answered(ACCEPTED, &self.table, &ask)?.left.out, page);
        Ok(())
    }

    pub fn is_answered(&mut self, status: u8, ask: Ask) -> Agreement {
        self.check.is_answered(status, &self.table, &ask).map(drop)
    }

    /// Refused on a table that is a byte short, and accepted on the whole one.
    pub fn needs_a_table(&mut self, ask: Ask) -> Agreement {
        self.check.is_answered(ACCEPTED, &self.table, &ask)?;
        self.check.is_answered(14, &self.table[1..], &ask).map(drop)
    }
}
