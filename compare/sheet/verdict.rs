//! The independent check of a sheet, from request 114 of document 02 alone: why a proposal is refused, and else which
//! unit or pair on its sheet offends. Units, slots and neighbours are sets here, in ascending order, and a pair is
//! looked for among all of them. The library is held to what it answers.

use crate::book::members::MOST_HELD;
use crate::book::site::Plan;
use crate::shared::numbers::{is_unit, word};
use crate::shared::refusal::Refusal;
use std::collections::{BTreeMap, BTreeSet};

/// A unit on a sheet: its address, and eight bytes of slots.
pub const ROW_LENGTH: usize = 10;
/// A link: two addresses.
pub const LINK_LENGTH: usize = 4;

/// What planners hand in: the bytes of a plan, of the links between units, and of the sheet.
#[derive(Clone, Debug)]
pub struct Proposal {
    pub plan: Vec<u8>,
    pub links: Vec<u8>,
    pub sheet: Vec<u8>,
}

/// What is found of a sheet that is not refused. The lower unit of a pair comes first.
#[derive(Clone, Copy, Debug, PartialEq, Eq)]
pub enum Verdict {
    Fine,
    Unit(u16),
    Linked(u16, u16),
    /// They are not linked, but have a common neighbour.
    Neighbours(u16, u16),
}

/// How a verdict is told: how many units it names, and which. What names nobody is 0.
#[derive(Clone, Copy, Debug, Default, PartialEq, Eq)]
pub struct Named {
    pub units: u8,
    pub lower: u16,
    pub higher: u16,
}

impl Verdict {
    pub fn named(self) -> Named {
        match self {
            Verdict::Fine => Named { units: 0, lower: 0, higher: 0 },
            Verdict::Unit(unit) => Named { units: 1, lower: unit, higher: 0 },
            Verdict::Linked(lower, higher) | Verdict::Neighbours(lower, higher) => Named { units: 2, lower, higher },
        }
    }
}

/// Why a proposal is refused.
#[derive(Clone, Copy, Debug, PartialEq, Eq, PartialOrd, Ord)]
pub enum Reason {
    PlanLength,
    LinksLength,
    SheetLength,
    AddressOnSheet,
    AddressInLink,
    Plan,
    TooManyUnits,
    UnitTwice,
    LinkOfStranger,
    LinkOfOneUnit,
}

impl Reason {
    /// Of those that hold, the first gives the number.
    const IN_ORDER: [Reason; 10] = [
        Reason::PlanLength,
        Reason::LinksLength,
        Reason::SheetLength,
        Reason::AddressOnSheet,
        Reason::AddressInLink,
        Reason::Plan,
        Reason::TooManyUnits,
        Reason::UnitTwice,
        Reason::LinkOfStranger,
        Reason::LinkOfOneUnit,
    ];

    pub fn refusal(self) -> Refusal {
        match self {
            Reason::AddressOnSheet | Reason::AddressInLink => Refusal::Field,
            _ => Refusal::OutOfRule,
        }
    }
}

/// The verdict on a proposal, or all reasons that refuse it, in order.
pub fn judge(proposal: &Proposal) -> Result<Verdict, Vec<Reason>> {
    let read = Read::of(proposal);
    let reasons: Vec<Reason> = Reason::IN_ORDER.into_iter().filter(|reason| read.has(*reason)).collect();
    match (read.plan, reasons.is_empty()) {
        (Some(plan), true) => Ok(read.verdict(plan)),
        _ => Err(reasons),
    }
}

type Slots = BTreeSet<usize>;

/// What the bytes of a proposal say, as far as they are whole.
struct Read<'a> {
    proposal: &'a Proposal,
    /// If it has the length of one.
    plan: Option<Plan>,
    rows: Vec<(u16, Slots)>,
    links: Vec<(u16, u16)>,
}

impl Read<'_> {
    fn of(proposal: &Proposal) -> Read<'_> {
        let row = |bytes: &[u8]| (word(bytes, 0), slots_in(&bytes[2..]));
        let link = |bytes: &[u8]| (word(bytes, 0), word(bytes, 2));
        Read {
            proposal,
            plan: Plan::from_bytes(&proposal.plan).ok(),
            rows: proposal.sheet.chunks_exact(ROW_LENGTH).map(row).collect(),
            links: proposal.links.chunks_exact(LINK_LENGTH).map(link).collect(),
        }
    }

    fn has(&self, reason: Reason) -> bool {
        let Read { proposal, plan, rows, links } = self;
        match reason {
            Reason::PlanLength => proposal.plan.len() != Plan::LENGTH,
            Reason::LinksLength => proposal.links.len() % LINK_LENGTH != 0,
            Reason::SheetLength => proposal.sheet.len() % ROW_LENGTH != 0,
            Reason::AddressOnSheet => rows.iter().any(|(unit, _)| !is_unit(*unit)),
            Reason::AddressInLink => links.iter().any(|(one, other)| !is_unit(*one) || !is_unit(*other)),
            Reason::Plan => plan.map_or(false, |plan| plan.checked().is_err()),
            Reason::TooManyUnits => plan.map_or(false, |plan| rows.len() > usize::from(plan.rows)),
            Reason::UnitTwice => self.units().len() < rows.len(),
            Reason::LinkOfStranger => {
                let units = self.units();
                let is_stranger = |address: &u16| is_unit(*address) && !units.contains(address);
                links.iter().any(|(one, other)| is_stranger(one) || is_stranger(other))
            }
            Reason::LinkOfOneUnit => links.iter().any(|(one, other)| one == other),
        }
    }

    fn units(&self) -> BTreeSet<u16> {
        self.rows.iter().map(|(unit, _)| *unit).collect()
    }

    /// Units first; then pairs, by the lower unit and by the higher one.
    fn verdict(&self, plan: Plan) -> Verdict {
        let slots: BTreeMap<u16, &Slots> = self.rows.iter().map(|(unit, slots)| (*unit, slots)).collect();
        if let Some((unit, _)) = slots.iter().find(|(_, slots)| !are_lawful(slots, plan)) {
            return Verdict::Unit(*unit);
        }
        let neighbours = self.neighbours();
        for (lower, held) in &slots {
            for (higher, also_held) in slots.range(lower + 1..) {
                if held.is_disjoint(also_held) {
                    continue;
                }
                if neighbours[lower].contains(higher) {
                    return Verdict::Linked(*lower, *higher);
                }
                if !neighbours[lower].is_disjoint(&neighbours[higher]) {
                    return Verdict::Neighbours(*lower, *higher);
                }
            }
        }
        Verdict::Fine
    }

    /// Whom each unit is linked to, whichever end a link names first.
    fn neighbours(&self) -> BTreeMap<u16, BTreeSet<u16>> {
        let mut neighbours: BTreeMap<u16, BTreeSet<u16>> =
            self.units().into_iter().map(|unit| (unit, BTreeSet::new())).collect();
        for (one, other) in &self.links {
            neighbours.entry(*one).or_default().insert(*other);
            neighbours.entry(*other).or_default().insert(*one);
        }
        neighbours
    }
}

/// Bit i of these bytes, the lowest first, is data slot i.
fn slots_in(bytes: &[u8]) -> Slots {
    (0..8 * bytes.len()).filter(|slot| bytes[slot / 8] >> (slot % 8) & 1 == 1).collect()
}

/// "1 to 4 slots within D."
fn are_lawful(slots: &Slots, plan: Plan) -> bool {
    (1..=MOST_HELD).contains(&(slots.len() as u32)) && slots.iter().all(|slot| *slot < usize::from(plan.data_slots))
}
