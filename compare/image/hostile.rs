//! Hostile buffers for the calls on images.

use crate::book::drafts::book_bytes;
use crate::book::hostile::{site, NOW};
use crate::frames::kinds::{BEACON, SHORT_BEACON};
use crate::image::calls::Ask;
use crate::shared::check::{Agreement, Check};
use crate::shared::hostile::{every_buffer, every_length_of_each};

pub fn check(check: &mut Check) -> Agreement {
    let (_, book) = site(BEACON);
    let image = book.to_image();
    let (_, short) = site(SHORT_BEACON);
    every_length_of_each(check, &book_bytes(&short), &Ask::Image { time: NOW, room: image.len() + 1 })?;
    every_buffer(check, &book_bytes(&book), &Ask::Image { time: NOW, room: image.len() + 1 })?;
    every_buffer(check, &book_bytes(&short), &Ask::Restore { image: image.clone(), time: NOW })?;
    every_buffer(check, &book_bytes(&book), &Ask::Restore { image, time: NOW })
}
