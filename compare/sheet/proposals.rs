//! Random proposals: sites of many shapes, sheets that reuse slots as far as they may and some that go too far, and
//! damage of every sort.

use crate::book::drafts::{plan_bytes, random_plan};
use crate::book::site::Plan;
use crate::frames::kinds::BEACONS;
use crate::shared::check::{Agreement, Check};
use crate::shared::random::Random;
use crate::shared::units::different_units;
use crate::sheet::check::put;
use crate::sheet::drafts::*;
use crate::sheet::verdict::Proposal;

/// The most slots that there are bits for.
const BITS: usize = 64;

pub fn random_proposal(check: &mut Check) -> Agreement {
    let slips = check.slips();
    let proposal = Drawing { random: &mut check.random, slips }.proposal();
    put(check, &proposal)
}

/// The drawing of one proposal.
struct Drawing<'a> {
    random: &'a mut Random,
    /// Of 24 things, how many are wrong.
    slips: usize,
}

impl Drawing<'_> {
    fn slip(&mut self) -> bool {
        self.random.below(24) < self.slips
    }

    fn proposal(&mut self) -> Proposal {
        let beacon = self.random.one_of(&BEACONS);
        let plan = random_plan(beacon, self.random);
        let count = self.count(usize::from(plan.rows));
        let units = different_units(count, self.random);
        let shape = self.shape(count);
        let mut masks = self.reuse(count, &shape, plan);
        for _ in 0..self.random.one_of(&[0, 0, 1, 1, 2]) {
            self.overdo(&mut masks, plan);
        }
        let mut rows = rows_of(&units, &masks);
        let mut links = self.told(links_of(&units, &shape));
        self.confuse(&mut rows, &mut links);
        let rows = self.ordered(rows);
        self.damaged(Proposal { plan: plan_bytes(plan), links: link_bytes(&links), sheet: sheet_bytes(&rows) })
    }

    /// How many units there are, up to the plan's rows unless by a slip.
    fn count(&mut self, rows: usize) -> usize {
        let (any, more) = (self.random.below(rows + 1), 1 + self.random.below(8));
        match self.slip() {
            true => rows + self.random.one_of(&[1, 1, more]),
            false => self.random.one_of(&[rows, rows, rows, rows - 1, any, any]),
        }
    }
}

/// Sites.
impl Drawing<'_> {
    fn shape(&mut self, count: usize) -> Vec<Places> {
        match self.random.below(10) {
            0 => Vec::new(),
            1 => line(count),
            2 => ring(count),
            3 => star(count),
            4 => complete(count),
            5 | 6 => self.tree(count),
            _ => self.any_links(count),
        }
    }

    /// Each is linked to one before it, often to one of the last.
    fn tree(&mut self, count: usize) -> Vec<Places> {
        let mut parent = |place: usize| place - 1 - self.random.below(place.min(3));
        (1..count).map(|place| (parent(place), place)).collect()
    }

    /// Of all links, about as many as there are units, fewer, or more.
    fn any_links(&mut self, count: usize) -> Vec<Places> {
        let (all, share) = (complete(count), self.random.one_of(&[1, 2, 3, 6]));
        all.into_iter().filter(|_| self.random.below(2 * count) < share).collect()
    }

    /// The links as they are told: in any order and from either end, some of them twice.
    fn told(&mut self, mut links: Vec<Link>) -> Vec<Link> {
        for _ in 0..self.random.one_of(&[0, 0, 1, links.len()]) {
            if !links.is_empty() {
                links.push(self.random.one_of(&links));
            }
        }
        let ends = |(one, other): Link| if self.random.below(2) == 0 { (one, other) } else { (other, one) };
        let links = links.into_iter().map(ends).collect();
        self.random.shuffled(links)
    }

    /// The rows ascending, descending, or in any order.
    fn ordered(&mut self, mut rows: Vec<Row>) -> Vec<Row> {
        rows.sort_unstable();
        match self.random.below(4) {
            0 => rows,
            1 => rows.into_iter().rev().collect(),
            _ => self.random.shuffled(rows),
        }
    }
}

/// Slots.
impl Drawing<'_> {
    /// Slots for each unit that none within two links of it has, the lowest ones or any, as long as there are such.
    fn reuse(&mut self, count: usize, shape: &[Places], plan: Plan) -> Vec<u64> {
        let (most, lowest) = (self.random.one_of(&[1, 1, 2, 3, 4]), self.random.below(2) == 0);
        let near = within_two_links(count, shape);
        let mut masks = vec![0; count];
        for place in 0..count {
            let taken = (0..count).filter(|other| near[place][*other]).fold(0, |taken, other| taken | masks[other]);
            let mut free: Vec<u8> = (0..plan.data_slots).filter(|slot| taken >> slot & 1 == 0).collect();
            if !lowest {
                free = self.random.shuffled(free);
            }
            free.truncate(1 + self.random.below(most));
            masks[place] = if free.is_empty() { 1 } else { slots(&free) };
        }
        masks
    }

    /// A unit takes a slot of another one, which may be far or near; at times its slots are too many or none, or one is
    /// past the plan's.
    fn overdo(&mut self, masks: &mut [u64], plan: Plan) {
        if masks.is_empty() {
            return;
        }
        let (place, other) = (self.random.below(masks.len()), self.random.below(masks.len()));
        let past = usize::from(plan.data_slots);
        let (any, any_past) = (self.random.draw(), past + self.random.below(BITS - past));
        masks[place] = match self.random.below(16) {
            0 => 0,
            1 => 1 << past,
            2 => masks[place] | 1 << any_past,
            3 => masks[place] | 1 << (BITS - 1),
            4 => (1 << self.random.one_of(&[4, 5])) - 1,
            5 => any,
            6 => masks[place] | masks[other],
            _ => masks[other] & masks[other].wrapping_neg(),
        };
    }
}

/// Damage.
impl Drawing<'_> {
    /// By slips: an address that is none on the sheet or in a link, a unit twice, a link of a stranger or of one unit.
    fn confuse(&mut self, rows: &mut [Row], links: &mut Vec<Link>) {
        let nobody = self.random.one_of(&[0, 0xFFFF]);
        let stranger = self.random.within(1, 0xFFFE) as u16;
        let known = if rows.is_empty() { stranger } else { self.random.one_of(rows).0 };
        for link in [(known, stranger), (stranger, known), (known, known), (known, nobody), (nobody, known)] {
            if self.random.below(2) == 0 && self.slip() {
                let place = self.random.below(links.len() + 1);
                links.insert(place, link);
            }
        }
        for unit in [known, nobody] {
            if self.slip() && !rows.is_empty() {
                let place = self.random.below(rows.len());
                rows[place].0 = unit;
            }
        }
    }

    /// By slips: a buffer of another length, a broken plan, or a bit that is another one.
    fn damaged(&mut self, mut proposal: Proposal) -> Proposal {
        let Proposal { plan, links, sheet } = &mut proposal;
        if self.slip() {
            plan[self.random.below(Plan::LENGTH)] = self.random.one_of(&[0, 1, 2, 11, 22, 45, 255]);
        }
        for bytes in [&mut *links, &mut *sheet] {
            if self.random.below(4) == 0 && self.slip() && !bytes.is_empty() {
                let place = self.random.below(bytes.len());
                bytes[place] ^= 1 << self.random.below(8);
            }
        }
        for bytes in [plan, links, sheet] {
            if self.random.below(2) == 0 && self.slip() {
                let length = self.random.one_of(&[bytes.len() + 1, bytes.len() + 2, bytes.len().saturating_sub(1), 0]);
                bytes.resize(length, 1);
            }
        }
        proposal
    }
}

/// For each place, whether each other one is linked to it, or to one that is.
fn within_two_links(count: usize, shape: &[Places]) -> Vec<Vec<bool>> {
    let mut linked = vec![vec![false; count]; count];
    for (one, other) in shape {
        linked[*one][*other] = true;
        linked[*other][*one] = true;
    }
    let near =
        |one: usize, other: usize| linked[one][other] || (0..count).any(|by| linked[one][by] && linked[by][other]);
    (0..count).map(|one| (0..count).map(|other| one != other && near(one, other)).collect()).collect()
}
