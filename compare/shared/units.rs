//! The addresses of units that the checks choose.

use crate::shared::numbers::is_unit;
use crate::shared::random::Random;

/// So many addresses, often next to each other or at a limit.
pub fn different_units(count: usize, random: &mut Random) -> Vec<u16> {
    let near = random.within(1, 0xFF00) as u16;
    let mut units = Vec::new();
    while units.len() < count {
        let (anyone, neighbour) = (random.within(1, 0xFFFE) as u16, near + random.below(0x40) as u16);
        let unit = random.one_of(&[anyone, neighbour, neighbour, neighbour, near ^ 0x8000, 0x0100, 0x00FF]);
        if is_unit(unit) && !units.contains(&unit) {
            units.push(unit);
        }
    }
    units
}
