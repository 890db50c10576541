//! The independent stored image, from the paper's section on it and request 101 of document 02 alone: the image of a
//! book, the book that an image restores, and the text that draws an image. It does not say the kind of beacons, because
//! only one kind has images.

use crate::book::members::{Book, Row};
use crate::book::site::{letters, Plan, MOST_ROWS};
use crate::frames::kinds::BEACON;
use crate::shared::moments::{accept, Moment};
use crate::shared::numbers::{long, word};
use crate::shared::refusal::Refusal;

/// Where the plan and the rows begin. The plan is all of its bytes but the last, the kind of beacons.
pub const PLAN_AT: usize = 11;
pub const ROWS_AT: usize = 20;
const IMAGE_PLAN_LENGTH: usize = ROWS_AT - PLAN_AT;
pub const IMAGE_ROW_LENGTH: usize = 10;
/// No image is longer.
pub const LONGEST_IMAGE: usize = ROWS_AT + IMAGE_ROW_LENGTH * MOST_ROWS;

impl Book {
    /// Writes the image of the live members, and answers its length.
    #[inline(never)]
    pub fn write_image(&self, time: Moment, out: &mut [u8]) -> Result<usize, Refusal> {
        self.check()?;
        accept(self.time, time)?;
        if self.plan.beacon != BEACON {
            return Err(Refusal::OutOfRule);
        }
        let length = image_length(self.plan.rows);
        let image = out.get_mut(..length).ok_or(Refusal::Room)?;
        self.put_image(|place| self.is_live(place, time), image);
        Ok(length)
    }

    /// The bytes of the plan and of all its rows, within rule or not, and whatever the beacons are.
    pub fn to_image(&self) -> Vec<u8> {
        let mut image = vec![0; image_length(self.plan.rows)];
        self.put_image(|_| true, &mut image);
        image
    }

    /// Fills an image's bytes; rows that are not kept, and those past the last, are empty.
    fn put_image(&self, is_kept: impl Fn(usize) -> bool, image: &mut [u8]) {
        let (head, rest) = image.split_at_mut(ROWS_AT);
        head[..PLAN_AT].copy_from_slice(&contents(self.plan.rows));
        let mut plan = [0; Plan::LENGTH];
        self.plan.to_bytes(&mut plan);
        head[PLAN_AT..].copy_from_slice(&plan[..IMAGE_PLAN_LENGTH]);
        for (place, bytes) in rest.chunks_exact_mut(IMAGE_ROW_LENGTH).enumerate() {
            let row = match self.rows.get(place) {
                Some(row) if is_kept(place) => row,
                _ => &Row::EMPTY,
            };
            bytes[..2].copy_from_slice(&row.unit.to_le_bytes());
            bytes[2..].copy_from_slice(&row.slots.to_le_bytes());
        }
    }

    /// The book that an image holds, all its members heard at this time.
    #[inline(never)]
    pub fn restore(image: &[u8], time: Moment) -> Result<Book, Refusal> {
        let head = image.get(..ROWS_AT).ok_or(Refusal::OutOfRule)?;
        let mut plan = [BEACON; Plan::LENGTH];
        plan[..IMAGE_PLAN_LENGTH].copy_from_slice(&head[PLAN_AT..]);
        let plan = Plan::from_bytes(&plan)?.checked()?;
        if head[..PLAN_AT] != contents(plan.rows) || image.len() != image_length(plan.rows) {
            return Err(Refusal::OutOfRule);
        }
        let mut rows = [Row::EMPTY; MOST_ROWS];
        for (row, bytes) in rows.iter_mut().zip(image[ROWS_AT..].chunks_exact(IMAGE_ROW_LENGTH)) {
            let slots = u64::from(long(bytes, 2)) | u64::from(long(bytes, 6)) << 32;
            *row = match (word(bytes, 0), slots) {
                (0, 0) => Row::EMPTY,
                (unit, slots) => Row { unit, slots, time },
            };
        }
        let book = Book { plan, time, rows };
        book.check().map(|()| book)
    }
}

/// How long an image of so many rows is.
fn image_length(rows: u8) -> usize {
    ROWS_AT + IMAGE_ROW_LENGTH * usize::from(rows)
}

/// What an image of so many rows begins with: how many bodies it has, then the number, place and length of each.
fn contents(rows: u8) -> [u8; PLAN_AT] {
    let [low, high] = (IMAGE_ROW_LENGTH as u16 * u16::from(rows)).to_le_bytes();
    [2, 1, PLAN_AT as u8, 0, IMAGE_PLAN_LENGTH as u8, 0, 2, ROWS_AT as u8, 0, low, high]
}

/// What the program `slotview` prints for these bytes.
pub fn drawing(image: &[u8]) -> String {
    // All members are live at the time of the restore, whichever it is.
    let Book { plan, rows, .. } = match Book::restore(image, Moment(0)) {
        Ok(book) => book,
        Err(refusal) => return format!("refused {}\n", refusal.number()),
    };
    let mut text = format!("slots {} active {}\n", plan.slots(), plan.active());
    let mut kinds = vec![0; plan.slots()];
    for (place, row) in rows.iter().enumerate().filter(|(_, row)| **row != Row::EMPTY) {
        let hop = if place == 0 { 0 } else { 1 };
        plan.write_schedule(place, row.slots, hop, &mut kinds);
        text += &format!("{:04X} {}\n", row.unit, letters(&kinds));
    }
    text
}
