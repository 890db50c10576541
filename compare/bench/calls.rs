//! The calls that are measured, each by the library and by the independent implementation. The same buffers go in and
//! come out: both have to judge and write the same bytes, and both refuse what is to be refused. Only a relay that trusts
//! its table judges less.

use crate::shared::moments::Moment;
use crate::shared::refusal::Refusal;
use crate::sheet::verdict::Named;

/// When every call comes.
pub const NOW: Moment = Moment(100_000);
/// The network of every site and beacon.
pub const NETWORK: u16 = 0x0102;
/// How well an update was heard, or the first of two frames.
const QUALITY: u8 = 200;
/// How well the second of two frames was heard.
const BETTER_QUALITY: u8 = 201;
/// The page of an update that is asked for.
const PAGE: u32 = 0;
/// How much later than it was heard a beacon goes on, in ms.
const DELAY: u32 = 5;
/// The hop of a unit that asks for its schedule.
const HOP: u32 = 1;

/// What one call is given and what it leaves; each call uses its part of it.
#[derive(Clone, Debug, Default, PartialEq, Eq)]
pub struct Buffers {
    /// The bytes of a table, of a book, of a poll or of a plan.
    pub kept: Vec<u8>,
    /// What `kept` has to be before each call, where one call would make the next another. The copy is measured with it.
    pub before: Option<Vec<u8>>,
    /// The bytes of a frame, of an image or of links.
    pub input: Vec<u8>,
    /// The bytes of the second frame, where there are two, or of a sheet.
    pub second: Vec<u8>,
    /// Whom a lookup or a schedule is for, who is forgotten, or the manager that a beacon is forwarded with.
    pub unit: u16,
    /// The smallest time that a relay is given.
    pub least_left: u32,
    pub out: Vec<u8>,
    pub next_hop: u16,
    pub hops: u8,
    pub skipped: u8,
    pub compared: u16,
    pub which: u8,
    pub winner: u16,
    pub named: Named,
    pub place: u32,
    pub length: u32,
    pub left: u32,
}

impl Buffers {
    pub fn new(kept: Vec<u8>, input: Vec<u8>, unit: u16) -> Buffers {
        Buffers { kept, input, unit, out: vec![0; 255], ..Buffers::default() }
    }

    /// These buffers, of which `kept` is to be as it is now before each call.
    pub fn reset_each_time(self) -> Buffers {
        Buffers { before: Some(self.kept.clone()), ..self }
    }
}

/// Each answers its status. In every call each address is that of a live buffer of the length given with it.
#[rustfmt::skip] // It would give each argument a line.
pub mod library {
    use super::*;
    use crate::book::calls::{braidlark_join, braidlark_schedule};
    use crate::follow::calls::braidlark_follow;
    use crate::image::calls::{braidlark_image, braidlark_restore};
    use crate::poll::calls::{braidlark_poll_hear, braidlark_poll_winner};
    use crate::routes::calls::{
        braidlark_forget, braidlark_forward, braidlark_lookup, braidlark_merge, braidlark_page, braidlark_relay,
    };
    use crate::sheet::calls::braidlark_check_sheet;

    pub fn relay(buffers: &mut Buffers) -> u8 {
        let Buffers { kept, input, least_left, out, next_hop, place, length, left, .. } = buffers;
        // SAFETY: as above.
        unsafe {
            braidlark_relay(kept.as_ptr(), kept.len(), input.as_ptr(), input.len(), NOW, *least_left, out.as_mut_ptr(),
                            out.len(), next_hop, place, length, left)
        }
    }

    pub fn lookup(buffers: &mut Buffers) -> u8 {
        let Buffers { kept, unit, next_hop, hops, left, .. } = buffers;
        // SAFETY: as above.
        unsafe { braidlark_lookup(kept.as_ptr(), kept.len(), *unit, NOW, next_hop, hops, left) }
    }

    pub fn merge(buffers: &mut Buffers) -> u8 {
        let Buffers { kept, input, skipped, compared, .. } = buffers;
        // SAFETY: as above.
        unsafe {
            braidlark_merge(kept.as_mut_ptr(), kept.len(), input.as_ptr(), input.len(), QUALITY, NOW, skipped, compared)
        }
    }

    pub fn page(buffers: &mut Buffers) -> u8 {
        let Buffers { kept, out, length, .. } = buffers;
        // SAFETY: as above.
        unsafe { braidlark_page(kept.as_ptr(), kept.len(), PAGE, NOW, out.as_mut_ptr(), out.len(), length) }
    }

    pub fn forget(buffers: &mut Buffers) -> u8 {
        let Buffers { kept, unit, .. } = buffers;
        // SAFETY: as above.
        unsafe { braidlark_forget(kept.as_mut_ptr(), kept.len(), *unit, NOW) }
    }

    pub fn forward(buffers: &mut Buffers) -> u8 {
        let Buffers { kept, input, unit, out, length, .. } = buffers;
        // SAFETY: as above.
        unsafe {
            braidlark_forward(kept.as_mut_ptr(), kept.len(), NETWORK, *unit, input.as_ptr(), input.len(), DELAY, NOW,
                              out.as_mut_ptr(), out.len(), length)
        }
    }

    pub fn follow(buffers: &mut Buffers) -> u8 {
        let Buffers { input, second, which, .. } = buffers;
        // SAFETY: as above.
        unsafe {
            braidlark_follow(input.as_ptr(), input.len(), QUALITY, second.as_ptr(), second.len(), BETTER_QUALITY,
                             NETWORK, which)
        }
    }

    pub fn hear(buffers: &mut Buffers) -> u8 {
        let Buffers { kept, input, .. } = buffers;
        // SAFETY: as above.
        unsafe { braidlark_poll_hear(kept.as_mut_ptr(), kept.len(), input.as_ptr(), input.len()) }
    }

    pub fn winner(buffers: &mut Buffers) -> u8 {
        let Buffers { kept, winner, .. } = buffers;
        // SAFETY: as above.
        unsafe { braidlark_poll_winner(kept.as_ptr(), kept.len(), winner) }
    }

    pub fn join(buffers: &mut Buffers) -> u8 {
        let Buffers { kept, input, out, length, .. } = buffers;
        // SAFETY: as above.
        unsafe {
            braidlark_join(kept.as_mut_ptr(), kept.len(), input.as_ptr(), input.len(), NOW, out.as_mut_ptr(), out.len(),
                           length)
        }
    }

    pub fn schedule(buffers: &mut Buffers) -> u8 {
        let Buffers { kept, unit, out, length, .. } = buffers;
        // SAFETY: as above.
        unsafe { braidlark_schedule(kept.as_ptr(), kept.len(), *unit, HOP, NOW, out.as_mut_ptr(), out.len(), length) }
    }

    pub fn image(buffers: &mut Buffers) -> u8 {
        let Buffers { kept, out, length, .. } = buffers;
        // SAFETY: as above.
        unsafe { braidlark_image(kept.as_ptr(), kept.len(), NOW, out.as_mut_ptr(), out.len(), length) }
    }

    pub fn restore(buffers: &mut Buffers) -> u8 {
        let Buffers { kept, input, .. } = buffers;
        // SAFETY: as above.
        unsafe { braidlark_restore(kept.as_mut_ptr(), kept.len(), input.as_ptr(), input.len(), NOW) }
    }

    pub fn check_sheet(buffers: &mut Buffers) -> u8 {
        let Buffers { kept, input, second, named: Named { units, lower, higher }, .. } = buffers;
        // SAFETY: as above.
        unsafe {
            braidlark_check_sheet(kept.as_ptr(), kept.len(), input.as_ptr(), input.len(), second.as_ptr(), second.len(),
                                  units, lower, higher)
        }
    }
}

pub mod independent {
    use super::*;
    use crate::book::members::Book;
    use crate::follow::choice::{self, Heard};
    use crate::poll::election::Poll;
    use crate::routes::direct;
    use crate::routes::table::Table;
    use crate::sheet;

    pub fn relay(buffers: &mut Buffers) -> Result<(), Refusal> {
        let Buffers { kept, input, least_left, out, .. } = buffers;
        let relayed = direct::relay(kept, input, NOW, *least_left, out)?;
        (buffers.next_hop, buffers.place, buffers.length, buffers.left) = relayed.numbers();
        Ok(())
    }

    pub fn relay_trusting(buffers: &mut Buffers) -> Result<(), Refusal> {
        let Buffers { kept, input, least_left, out, .. } = buffers;
        let relayed = direct::relay_trusting(kept, input, NOW, *least_left, out)?;
        (buffers.next_hop, buffers.place, buffers.length, buffers.left) = relayed.numbers();
        Ok(())
    }

    pub fn lookup(buffers: &mut Buffers) -> Result<(), Refusal> {
        let route = Table::from_bytes(&buffers.kept)?.lookup(buffers.unit, NOW)?;
        buffers.next_hop = route.next_hop;
        buffers.hops = route.hops;
        buffers.left = route.left;
        Ok(())
    }

    pub fn merge(buffers: &mut Buffers) -> Result<(), Refusal> {
        let mut table = Table::from_bytes(&buffers.kept)?;
        let merged = table.merge(&buffers.input, QUALITY, NOW)?;
        (buffers.skipped, buffers.compared) = (merged.skipped, merged.compared);
        table.to_bytes(&mut buffers.kept);
        Ok(())
    }

    pub fn page(buffers: &mut Buffers) -> Result<(), Refusal> {
        let table = Table::from_bytes(&buffers.kept)?;
        buffers.length = table.page(PAGE, NOW, &mut buffers.out)? as u32;
        Ok(())
    }

    pub fn forget(buffers: &mut Buffers) -> Result<(), Refusal> {
        let mut table = Table::from_bytes(&buffers.kept)?;
        table.forget(buffers.unit, NOW)?;
        table.to_bytes(&mut buffers.kept);
        Ok(())
    }

    pub fn forward(buffers: &mut Buffers) -> Result<(), Refusal> {
        let mut table = Table::from_bytes(&buffers.kept)?;
        let Buffers { input, unit, out, .. } = buffers;
        buffers.length = table.forward(NETWORK, *unit, input, DELAY, NOW, out)? as u32;
        table.to_bytes(&mut buffers.kept);
        Ok(())
    }

    pub fn follow(buffers: &mut Buffers) -> Result<(), Refusal> {
        let first = Heard { frame: &buffers.input, quality: QUALITY };
        let second = Heard { frame: &buffers.second, quality: BETTER_QUALITY };
        buffers.which = choice::follow(first, second, NETWORK)?.number();
        Ok(())
    }

    pub fn hear(buffers: &mut Buffers) -> Result<(), Refusal> {
        let mut poll = Poll::from_bytes(&buffers.kept)?;
        poll.hear(&buffers.input)?;
        poll.to_bytes(&mut buffers.kept);
        Ok(())
    }

    pub fn winner(buffers: &mut Buffers) -> Result<(), Refusal> {
        buffers.winner = Poll::from_bytes(&buffers.kept)?.winner();
        Ok(())
    }

    pub fn join(buffers: &mut Buffers) -> Result<(), Refusal> {
        let mut book = Book::from_bytes(&buffers.kept)?;
        buffers.length = book.join(&buffers.input, NOW, &mut buffers.out)? as u32;
        book.to_bytes(&mut buffers.kept);
        Ok(())
    }

    pub fn schedule(buffers: &mut Buffers) -> Result<(), Refusal> {
        let book = Book::from_bytes(&buffers.kept)?;
        buffers.length = book.schedule(buffers.unit, HOP, NOW, &mut buffers.out)? as u32;
        Ok(())
    }

    pub fn image(buffers: &mut Buffers) -> Result<(), Refusal> {
        let book = Book::from_bytes(&buffers.kept)?;
        buffers.length = book.write_image(NOW, &mut buffers.out)? as u32;
        Ok(())
    }

    /// What the buffer of the book holds does not matter, but its length does.
    pub fn restore(buffers: &mut Buffers) -> Result<(), Refusal> {
        if buffers.kept.len() != Book::LENGTH {
            return Err(Refusal::OutOfRule);
        }
        Book::restore(&buffers.input, NOW)?.to_bytes(&mut buffers.kept);
        Ok(())
    }

    pub fn check_sheet(buffers: &mut Buffers) -> Result<(), Refusal> {
        buffers.named = sheet::direct::check(&buffers.kept, &buffers.input, &buffers.second)?;
        Ok(())
    }
}
