//! The comparison of stored images: the paper's example and each rule by itself, then images of random books, written,
//! restored and written again, and damaged ones.

use crate::book::drafts::{book_bytes, Drawing, Scene};
use crate::book::members::{Book, Row, LIVE_AGE};
use crate::frames::kinds::{BEACON, SHORT_BEACON};
use crate::image::calls::Ask;
use crate::image::{cases, hostile};
use crate::shared::check::{Agreement, Check};
use crate::shared::moment_drafts::start;
use crate::shared::moments::Moment;
use crate::shared::progress::Progress;
use crate::shared::refusal::ACCEPTED;
use crate::Options;

/// The most images of one site.
const MOST_IMAGES: usize = 40;

pub fn check(check: &mut Check, options: &Options, progress: &mut Progress) -> Agreement {
    cases::check(check)?;
    hostile::check(check)?;
    check.runs(options.images, MOST_IMAGES, progress, site)
}

/// So many books of one site, each of them written as an image, and then a damaged one restored. Few sites have short
/// beacons, and with them no image.
fn site(check: &mut Check, images: u64) -> Agreement {
    let beacon = if check.random.below(8) == 0 { SHORT_BEACON } else { BEACON };
    let scene = Scene::with_beacons(beacon, &mut check.random);
    for _ in 0..images {
        let book = scene.book(&mut check.random);
        let bytes = book_bytes(&book);
        let slips = check.slips();
        let mut drawing = Drawing { random: &mut check.random, scene: &scene, book: &book, slips };
        let (handed_in, image) = (drawing.book_bytes(&bytes), drawing.image());
        let (buffer, restore) = (drawing.buffer(&bytes), drawing.restore());
        let answer = check.ask(&handed_in, &image)?;
        if let (ACCEPTED, Ask::Image { time, .. }) = (answer.status, image) {
            let written = &answer.left.out[..answer.left.written as usize];
            round_trip(check, &handed_in, time, written)?;
        }
        let answer = check.ask(&buffer, &restore)?;
        if answer.is_accepted() {
            is_rewritten(check, &answer.left.book, restore.input())?;
        }
    }
    Ok(())
}

/// What was written at this time restores the book, but for who was silent then and when the others were heard.
pub fn round_trip(check: &mut Check, book: &[u8], time: Moment, image: &[u8]) -> Agreement {
    let new_time = start(&mut check.random);
    let answer = check.is_answered(ACCEPTED, book, &Ask::Restore { image: image.to_vec(), time: new_time })?;
    let mut expected = Book::from_bytes(book).expect("an image of it was written");
    for (place, row) in expected.rows.iter_mut().enumerate().filter(|(_, row)| row.unit != 0) {
        match place > 0 && time.since(row.time) > LIVE_AGE {
            true => *row = Row::EMPTY,
            false => row.time = new_time,
        }
    }
    expected.time = new_time;
    assert_eq!(answer.left.book, book_bytes(&expected));
    is_rewritten(check, &answer.left.book, image)
}

/// A restored book, at the time of its restore, is written as the image that it was restored from.
fn is_rewritten(check: &mut Check, book: &[u8], image: &[u8]) -> Agreement {
    let time = Book::from_bytes(book).expect("the restore left a book").time;
    let answer = check.is_answered(ACCEPTED, book, &Ask::Image { time, room: image.len() })?;
    assert_eq!(answer.left.out, image);
    Ok(())
}
