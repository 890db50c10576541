//! Cases by name of the rows that a merge compares: "per candidate, the rows lower than its destination plus one if a
//! row remains". Each asserts the number.

use crate::routes::calls::Ask;
use crate::routes::drafts::{update, Entry};
use crate::routes::story::*;
use crate::routes::table::{Row, Table, LEAST_QUALITY, MOST_ROWS, UNREACHABLE};
use crate::shared::check::{Agreement, Check, Difference};
use crate::shared::moments::Moment;
use crate::shared::refusal::ACCEPTED;

/// A unit above every row of a full table, as are the ones after it.
const ABOVE: u16 = unit_at(MOST_ROWS);

pub fn check(check: &mut Check, start: Moment) -> Agreement {
    empty_table(check, start)?;
    few_rows(check, start)?;
    every_place_of_a_full_table(check, start)?;
    most_that_can_be(check, start)?;
    passed_over_entries_count_nothing(check, start)?;
    bad_candidates_count(check, start)?;
    repeated_destinations_count_again(check, start)?;
    gone_rows_do_not_count(check, start)
}

/// The unit in the row at a place: `NEAR` and `OTHER` are lower than all, and one unit is between any two.
const fn unit_at(place: usize) -> u16 {
    FAR + 2 * place as u16
}

/// A good entry for this unit.
fn good(unit: u16) -> Entry {
    (unit, 1, 200, unit, SENT)
}

/// A bad entry for this unit, of each sort.
fn bad(unit: u16) -> [Entry; 3] {
    [(unit, UNREACHABLE, 200, unit, SENT), (unit, 16, 200, unit, SENT), (unit, 1, 39, unit, SENT)]
}

/// Good entries for 24 units from this one up.
fn good_from(first: u16) -> Vec<Entry> {
    (first..).take(24).map(good).collect()
}

impl Story<'_> {
    /// A table of so many rows, all through `OTHER`.
    fn with_rows(check: &mut Check, start: Moment, rows: usize) -> Result<Story<'_>, Difference> {
        let mut story = Story::begin(check, start)?;
        let mut table = Table::fresh(OWN, start).expect("this unit has an address");
        for (place, row) in table.rows[..rows].iter_mut().enumerate() {
            let destination = unit_at(place);
            *row = Row { destination, next_hop: OTHER, hops: 2, quality: 200, time: start, withdrawn: false };
        }
        table.to_bytes(&mut story.table);
        Ok(story)
    }

    /// An update from this neighbour reports so many rows compared, and so many candidates skipped. The next one finds
    /// the table as it was.
    fn reports(&mut self, numbers: (u16, u8), origin: u16, entries: &[Entry], time: Moment) -> Agreement {
        let ask = Ask::Merge { frame: update(origin, time, entries), quality: LEAST_QUALITY, time };
        let left = self.check.is_answered(ACCEPTED, &self.table, &ask)?.left;
        assert_eq!((left.compared, left.skipped), numbers, "{:?}", ask);
        Ok(())
    }
}

/// The neighbour finds no row; what follows finds the rows of those before it.
fn empty_table(check: &mut Check, start: Moment) -> Agreement {
    let mut story = Story::begin(check, start)?;
    story.reports((0, 0), NEAR, &[], start)?;
    story.reports((1, 0), NEAR, &[good(FAR)], start)?;
    story.reports((1, 0), FAR, &[good(NEAR)], start)?;
    let mut entries = good_from(FAR);
    story.reports((300, 0), NEAR, &entries, start)?;
    entries.reverse();
    // The first compares the neighbour's row, and each other one the next row too, where it stops.
    story.reports((1 + 23 * 2, 0), NEAR, &entries, start)?;
    story.reports((24, 0), ABOVE, &entries, start)
}

/// One row that is above, equal or below is compared; of two rows, the second only if the first is lower.
fn few_rows(check: &mut Check, start: Moment) -> Agreement {
    let (first, second) = (unit_at(0), unit_at(1));
    let mut story = Story::with_rows(check, start, 1)?;
    for origin in [first - 1, first, first + 1] {
        story.reports((1, 0), origin, &[], start)?;
    }
    let mut story = Story::with_rows(check, start, 2)?;
    let compared = [(first - 1, 1), (first, 1), (first + 1, 2), (second, 2), (second + 1, 2)];
    for (origin, compared) in compared {
        story.reports((compared, 0), origin, &[], start)?;
    }
    Ok(())
}

/// A unit of a row and the one below it compare the rows up to that row, as neighbours and as entries.
fn every_place_of_a_full_table(check: &mut Check, start: Moment) -> Agreement {
    let mut story = Story::with_rows(check, start, MOST_ROWS)?;
    for place in 0..MOST_ROWS {
        let (unit, compared) = (unit_at(place), place as u16 + 1);
        story.reports((compared, 0), unit, &[], start)?;
        story.reports((compared, 1), unit - 1, &[], start)?;
        story.reports((1 + compared, 1), NEAR, &[good(unit)], start)?;
        story.reports((1 + compared, 2), NEAR, &[good(unit - 1)], start)?;
    }
    story.reports((48, 1), ABOVE, &[], start)
}

/// "At most 48 for each candidate, 1,200 for a full update."
fn most_that_can_be(check: &mut Check, start: Moment) -> Agreement {
    let mut story = Story::with_rows(check, start, MOST_ROWS)?;
    let last = unit_at(MOST_ROWS - 1);
    story.reports((1_200, 25), ABOVE, &good_from(ABOVE + 1), start)?;
    story.reports((1_200, 24), last, &good_from(ABOVE), start)?;
    story.reports((1_200, 0), last, &[bad(ABOVE)[0]; 24], start)?;
    story.reports((1_200, 25), ABOVE, &[good(ABOVE + 1); 24], start)?;
    story.reports((25, 25), NEAR, &[good(NEAR + 1); 24], start)
}

/// Those for this unit, for the neighbour itself, and through this unit; bad or not.
fn passed_over_entries_count_nothing(check: &mut Check, start: Moment) -> Agreement {
    for rows in [0, 1, MOST_ROWS] {
        let mut story = Story::with_rows(check, start, rows)?;
        let (most, skipped) = (rows as u16, u8::from(rows == MOST_ROWS));
        // The good candidate finds the neighbour's row too, if there was room for it.
        let with_good = (most + (most + 1).min(48), 2 * skipped);
        for hops in [1, 16, UNREACHABLE] {
            for (unit, next_hop) in [(OWN, FAR), (ABOVE, FAR), (ABOVE + 2, OWN)] {
                let passed_over = (unit, hops, 200, next_hop, SENT);
                story.reports((most, skipped), ABOVE, &[passed_over], start)?;
                story.reports((most, skipped), ABOVE, &[passed_over; 24], start)?;
                story.reports(with_good, ABOVE, &[passed_over, good(ABOVE + 1), passed_over], start)?;
            }
        }
    }
    Ok(())
}

/// A bad candidate is searched for like a good one, but adds no row to those that the next one finds.
fn bad_candidates_count(check: &mut Check, start: Moment) -> Agreement {
    let mut story = Story::with_rows(check, start, 2)?;
    let (first, second) = (unit_at(0), unit_at(1));
    // The neighbour compares one row, and its own is the first of three then.
    let compared = [(first - 1, 2), (first, 2), (first + 1, 3), (second, 3), (second + 1, 3)];
    for (unit, compared) in compared {
        for entry in bad(unit) {
            story.reports((1 + compared, 0), NEAR, &[entry], start)?;
            story.reports((1 + compared + 3, 0), NEAR, &[entry, good(ABOVE)], start)?;
        }
    }
    story.reports((1 + 3 + 4, 0), NEAR, &[good(first + 1), good(ABOVE)], start)
}

/// The second time, it finds the row that the first one added, if it was good and there was room.
fn repeated_destinations_count_again(check: &mut Check, start: Moment) -> Agreement {
    let mut story = Story::begin(check, start)?;
    story.reports((1 + 2, 0), NEAR, &[good(FAR); 2], start)?;
    story.reports((1 + 2 * 23, 0), NEAR, &[good(FAR); 24], start)?;
    for entry in bad(FAR) {
        story.reports((1 + 1, 0), NEAR, &[entry; 2], start)?;
        story.reports((1 + 1 + 2, 0), NEAR, &[entry, good(FAR), entry], start)?;
    }
    let mut story = Story::with_rows(check, start, MOST_ROWS)?;
    story.reports((1 + 48 + 48, 3), NEAR, &[good(ABOVE); 2], start)
}

/// Dead and withdrawn rows are compared until they are gone.
fn gone_rows_do_not_count(check: &mut Check, start: Moment) -> Agreement {
    let mut story = Story::with_rows(check, start, 3)?;
    story.change(Ask::Forget { unit: unit_at(1), time: start })?;
    for (age, standing) in [(0, 3), (60_000, 3), (60_001, 2), (300_001, 2), (360_000, 2), (360_001, 0)] {
        story.reports((standing, 0), ABOVE, &[], start + age)?;
    }
    let mut story = Story::with_rows(check, start, MOST_ROWS)?;
    let entries = good_from(ABOVE + 1);
    story.reports((1_200, 25), ABOVE, &entries, start + 360_000)?;
    story.reports((300, 0), ABOVE, &entries, start + 360_001)
}
