//! What the image check asks: images of random books, and images that are damaged in every way, so that about one in
//! four of them is still within rule.

use crate::book::drafts::Drawing;
use crate::image::calls::Ask;
use crate::image::stored::{IMAGE_ROW_LENGTH, PLAN_AT, ROWS_AT};
use crate::shared::moment_drafts::start;
use crate::shared::random::Random;

impl Drawing<'_> {
    /// The image of the book, at any time that it may have.
    pub fn image(&mut self) -> Ask {
        let length = ROWS_AT + IMAGE_ROW_LENGTH * usize::from(self.scene.plan.rows);
        Ask::Image { time: self.reading_time(), room: self.room(length) }
    }

    /// An image that is much like that of the book.
    pub fn restore(&mut self) -> Ask {
        let mut image = self.book.to_image();
        for _ in 0..self.random.one_of(&[1, 1, 1, 2]) {
            damage(&mut image, self.random);
        }
        Ask::Restore { image, time: start(self.random) }
    }

    /// A buffer for a restored book, of the right length unless by a slip; what it holds is no matter.
    pub fn buffer(&mut self, bytes: &[u8]) -> Vec<u8> {
        let mut buffer = match self.random.below(3) {
            0 => bytes.to_vec(),
            1 => vec![0; bytes.len()],
            _ => vec![0xFF; bytes.len()],
        };
        if self.slip() {
            buffer.resize(self.random.one_of(&[0, 1, 230, 307, 309, 616]), 0);
        }
        buffer
    }
}

/// Damages an image in one way.
fn damage(image: &mut Vec<u8>, random: &mut Random) {
    let rows = image.len().saturating_sub(ROWS_AT) / IMAGE_ROW_LENGTH;
    if rows < 2 {
        return image.push(0);
    }
    let place = |row: usize| ROWS_AT + IMAGE_ROW_LENGTH * row;
    let (row, other) = (place(random.below(rows)), place(random.below(rows)));
    let limit = random.one_of(&[0, 1, 2, 3, 9, 10, 11, 12, 16, 20, 22, 45, 254, 255]);
    let bit = 1 << random.below(8);
    match random.below(13) {
        0 => resize(image, random),
        1 => image[random.below(PLAN_AT)] ^= bit,
        2 => image[random.below(PLAN_AT)] = limit,
        3 => image[PLAN_AT + random.below(ROWS_AT - PLAN_AT)] ^= bit,
        4 => image[PLAN_AT + random.below(ROWS_AT - PLAN_AT)] = limit,
        5 => image[row + random.below(IMAGE_ROW_LENGTH)] ^= bit,
        6 => image[row + random.below(IMAGE_ROW_LENGTH)] = limit,
        7 => image.copy_within(row..row + 2, other),
        8 => image.copy_within(row + 2..row + IMAGE_ROW_LENGTH, other + 2),
        9 => image[row..row + IMAGE_ROW_LENGTH].fill(0),
        10 => exchange(image, row, other, random.one_of(&[2, IMAGE_ROW_LENGTH])),
        11 => toggle_slot(image, row, random),
        _ => change_rows(image, random),
    }
}

/// The length becomes another one, most often by one byte or one row.
fn resize(image: &mut Vec<u8>, random: &mut Random) {
    let length = image.len();
    let shorter = random.below(length);
    let lengths = [length - 1, length + 1, length - 10, length + 10, shorter, 0, 230, 231, length + 256];
    image.resize(random.one_of(&lengths), 0);
}

/// Two units, or two whole rows, change places.
fn exchange(image: &mut [u8], row: usize, other: usize, length: usize) {
    for step in 0..length {
        image.swap(row + step, other + step);
    }
}

/// A slot is taken or given back: any, the last one, or the first that there is not.
fn toggle_slot(image: &mut [u8], row: usize, random: &mut Random) {
    let data_slots = usize::from(image[PLAN_AT + 6]).clamp(1, 63);
    let any = random.below(data_slots);
    let slot = random.one_of(&[any, data_slots - 1, data_slots]);
    image[row + 2 + slot / 8] ^= 1 << (slot % 8);
}

/// A row more or less, with contents and plan that say so; at times the data slots go with it.
fn change_rows(image: &mut Vec<u8>, random: &mut Random) {
    let (rows, data_slots) = (image[PLAN_AT + 5], image[PLAN_AT + 6]);
    let more = random.below(2) == 0;
    let rows = if more { rows.saturating_add(1) } else { rows.saturating_sub(1) };
    image.resize(ROWS_AT + IMAGE_ROW_LENGTH * usize::from(rows), 0);
    image[9..11].copy_from_slice(&(IMAGE_ROW_LENGTH as u16 * u16::from(rows)).to_le_bytes());
    image[PLAN_AT + 5] = rows;
    if more && random.below(2) == 0 {
        image[PLAN_AT + 6] = data_slots.saturating_add(1);
    }
}
