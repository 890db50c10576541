//! Cases of stored images by name: the paper's example, who is written and what is restored, each refusal of each call,
//! each from every start that there is; and images with each byte, each length and each rule changed alone.

use crate::book::drafts::{book_bytes, join_request};
use crate::book::members::{Book, Row, LIVE_AGE};
use crate::book::site::Plan;
use crate::book::sweeps;
use crate::frames::kinds::{BEACON, SHORT_BEACON};
use crate::image::calls::Ask;
use crate::image::check::round_trip;
use crate::image::files::{named_images, spread_book, PAPER};
use crate::image::stored::drawing;
use crate::shared::check::{Agreement, Check, Difference};
use crate::shared::moment_drafts::{FORWARD, NOT_FORWARD, STARTS};
use crate::shared::moments::{Moment, LONGEST_STEP};
use crate::shared::refusal::ACCEPTED;

const START: Moment = Moment(1_000_000);
/// Room for every image.
const ROOM: usize = 300;
/// What a restore overwrites.
const BUFFER: [u8; Book::LENGTH] = [0xFF; Book::LENGTH];

pub fn check(check: &mut Check) -> Agreement {
    drawing_of_the_paper();
    drawing_of_four_rows();
    for start in STARTS {
        image_of_the_paper(check, start)?;
        live_members_are_written(check, start)?;
        manager_is_always_written(check, start)?;
        restore_renews_every_member(check, start)?;
        image_refusals(check, start)?;
        short_beacons_have_no_image(check, start)?;
        every_step(check, start)?;
        every_stored_time(check, start)?;
    }
    restore_refusals(check)?;
    books_with_one_rule_broken(check)?;
    named(check)?;
    every_byte(check)?;
    every_length(check)
}

/// The book that the paper's image holds, as a fresh one and a join make it.
fn book_of_the_paper(start: Moment) -> Book {
    let (max_hops, rows, data_slots, slot_ms, beacon) = (1, 2, 2, 1000, BEACON);
    let plan = Plan { network: 1, manager: 0x0100, max_hops, rows, data_slots, slot_ms, beacon };
    let mut book = Book::fresh(plan, start).expect("the plan is within rule");
    book.join(&join_request(0x0201, 0, 1, 4), start, &mut [0; 65]).expect("a row is free");
    book
}

/// The same book, but that its manager sends short beacons, with slots of this length.
fn short_book(start: Moment, slot_ms: u16) -> Book {
    let mut book = book_of_the_paper(start);
    book.plan.beacon = SHORT_BEACON;
    book.plan.slot_ms = slot_ms;
    book
}

fn image_of_the_paper(check: &mut Check, start: Moment) -> Agreement {
    let book = book_bytes(&book_of_the_paper(start));
    let left = check.is_answered(ACCEPTED, &book, &Ask::Image { time: start, room: PAPER.len() })?.left;
    assert_eq!((left.written as usize, &left.out[..]), (PAPER.len(), &PAPER[..]));
    let answer = check.is_answered(ACCEPTED, &BUFFER, &Ask::Restore { image: PAPER.to_vec(), time: start })?;
    assert_eq!(answer.left.book, book);
    Ok(())
}

fn drawing_of_the_paper() {
    let text = "slots 27 active 8\n0100 B.CcTRDD...................\n0201 bBcCRTdd...................\n";
    assert_eq!(drawing(&PAPER), text);
}

/// At hop 1 of three; an empty row has no line, and its slot of control is listened to.
fn drawing_of_four_rows() {
    let members = ["0100 B...CcccTRRRRRRRRRRRDD", "0201 bB..cCccRTTRRRRRRRRRdd", "0203 bB..cccCRRRTRRRRRRRRdd"];
    let lines: String = members.iter().map(|member| format!("{}{}\n", member, ".".repeat(52))).collect();
    assert_eq!(drawing(&spread_book().to_image()), format!("slots 74 active 22\n{}", lines));
    assert_eq!(drawing(&[]), "refused 14\n");
}

/// The image that is written of a book at a time.
fn written(check: &mut Check, book: &Book, time: Moment) -> Result<Vec<u8>, Difference> {
    let bytes = book_bytes(book);
    let left = check.is_answered(ACCEPTED, &bytes, &Ask::Image { time, room: ROOM })?.left;
    let image = left.out[..left.written as usize].to_vec();
    round_trip(check, &bytes, time, &image)?;
    Ok(image)
}

/// A member is written up to its age, and then its row is zeros.
fn live_members_are_written(check: &mut Check, start: Moment) -> Agreement {
    let book = book_of_the_paper(start);
    assert_eq!(written(check, &book, start + LIVE_AGE)?, PAPER);
    let mut alone = PAPER.to_vec();
    alone[30..40].fill(0);
    assert_eq!(written(check, &book, start + LIVE_AGE + 1)?, alone);
    assert_eq!(drawing(&alone), "slots 27 active 8\n0100 B.CcTRDD...................\n");
    Ok(())
}

/// Whatever its time is.
fn manager_is_always_written(check: &mut Check, start: Moment) -> Agreement {
    let mut book = book_of_the_paper(start);
    book.rows[1] = Row::EMPTY;
    for age in FORWARD.into_iter().chain(NOT_FORWARD) {
        book.rows[0].time = start - age;
        for time in [start, start + LIVE_AGE + 1, start + LONGEST_STEP] {
            assert_eq!(written(check, &book, time)?[20..30], PAPER[20..30]);
        }
    }
    Ok(())
}

/// All are live from the time of the restore on, be it earlier than any time before, and the beacons are those of an
/// image, whatever those before were.
fn restore_renews_every_member(check: &mut Check, time: Moment) -> Agreement {
    let (later, short) = (book_of_the_paper(time + 1), short_book(time + 1, u16::MAX));
    for buffer in [BUFFER.to_vec(), book_bytes(&later), book_bytes(&short)] {
        let answer = check.ask(&buffer, &Ask::Restore { image: PAPER.to_vec(), time })?;
        let book = Book::from_bytes(&answer.left.book).expect("the restore left a book");
        assert_eq!((book.time, book.rows[0].time, book.rows[1].time), (time, time, time));
        assert_eq!(book.plan.beacon, 0x46);
        assert_eq!(written(check, &book, time + LIVE_AGE)?, PAPER);
    }
    Ok(())
}

/// Where several refusals apply, the first is given.
fn image_refusals(check: &mut Check, start: Moment) -> Agreement {
    let good = book_bytes(&book_of_the_paper(start));
    let mut bad = good.clone();
    bad[Book::HEAD_LENGTH] ^= 1;
    let longer = [&good[..], &[0]].concat();
    let room = PAPER.len();
    let cases: [(&[u8], Moment, usize, u8); 11] = [
        (&[], start, room, 14),
        (&good[1..], start, room, 14),
        (&good[..Book::LENGTH - 1], start - 1, 0, 14),
        (&longer, start - 1, 0, 14),
        (&bad, start - 1, 0, 14),
        (&good, start - 1, room, 8),
        (&good, start - 1, 0, 8),
        (&good, start, room - 1, 5),
        (&good, start, 0, 5),
        // Nobody's row is shorter for being empty.
        (&good, start + LIVE_AGE + 1, room - 1, 5),
        (&good, start, room + 1, ACCEPTED),
    ];
    for (book, time, room, status) in cases {
        check.is_answered(status, book, &Ask::Image { time, room })?;
    }
    Ok(())
}

/// "14 for an image write of a 0x47 plan", also where form 1 could hold all its numbers: behind 8, and before 5.
fn short_beacons_have_no_image(check: &mut Check, start: Moment) -> Agreement {
    for slot_ms in [1, 1000, u16::MAX] {
        let book = book_bytes(&short_book(start, slot_ms));
        for room in 0..=PAPER.len() + 1 {
            check.is_answered(14, &book, &Ask::Image { time: start, room })?;
            check.is_answered(8, &book, &Ask::Image { time: start - 1, room })?;
        }
        check.is_answered(14, &book, &Ask::Image { time: start + LIVE_AGE + 1, room: ROOM })?;
    }
    Ok(())
}

/// "Below 2^31 it is forward, otherwise 8."
fn every_step(check: &mut Check, start: Moment) -> Agreement {
    let book = book_bytes(&book_of_the_paper(start));
    for (steps, status) in [(FORWARD, ACCEPTED), (NOT_FORWARD, 8)] {
        for step in steps {
            check.is_answered(status, &book, &Ask::Image { time: start + step, room: ROOM })?;
        }
    }
    Ok(())
}

/// A member's time is judged by the same difference, whatever the call's time is.
fn every_stored_time(check: &mut Check, start: Moment) -> Agreement {
    let mut book = book_of_the_paper(start);
    for (ages, status) in [(FORWARD, ACCEPTED), (NOT_FORWARD, 14)] {
        for age in ages {
            book.rows[1].time = start - age;
            for time in [start, start + LONGEST_STEP] {
                let answer = check.ask(&book_bytes(&book), &Ask::Image { time, room: ROOM })?;
                assert_eq!(answer.status, status, "a member heard {} ms before", age);
            }
        }
    }
    Ok(())
}

fn restore_refusals(check: &mut Check) -> Agreement {
    let restore = |image: &[u8]| Ask::Restore { image: image.to_vec(), time: START };
    for length in (0..=Book::LENGTH + 2).chain([4000]) {
        let buffer = vec![0xFF; length];
        let status = if length == Book::LENGTH { ACCEPTED } else { 14 };
        assert_eq!(check.ask(&buffer, &restore(&PAPER))?.status, status, "a buffer of {}", length);
        check.is_answered(14, &buffer, &restore(&[]))?;
    }
    Ok(())
}

/// A book that another call refuses has no image, nor has one with short beacons.
fn books_with_one_rule_broken(check: &mut Check) -> Agreement {
    for (words, book, status) in sweeps::books_by_rule() {
        let status = if book.plan.beacon == SHORT_BEACON { 14 } else { status };
        let bytes = book_bytes(&book);
        let answer = check.ask(&bytes, &Ask::Image { time: book.time, room: ROOM })?;
        assert_eq!(answer.status, status, "{}", words);
        if answer.is_accepted() {
            round_trip(check, &bytes, book.time, &answer.left.out[..answer.left.written as usize])?;
        }
    }
    Ok(())
}

fn named(check: &mut Check) -> Agreement {
    for case in named_images() {
        let status = if case.in_rule { ACCEPTED } else { 14 };
        let answer = check.ask(&BUFFER, &Ask::Restore { image: case.image.clone(), time: START })?;
        assert_eq!(answer.status, status, "{}", case.name);
        assert_eq!(drawing(&case.image) == "refused 14\n", !case.in_rule, "{}", case.name);
    }
    Ok(())
}

/// Each byte of each image within rule as each other byte.
fn every_byte(check: &mut Check) -> Agreement {
    for case in named_images().into_iter().filter(|case| case.in_rule) {
        for place in 0..case.image.len() {
            for byte in 0..=255 {
                let mut image = case.image.clone();
                image[place] = byte;
                check.ask(&BUFFER, &Ask::Restore { image, time: START })?;
            }
        }
    }
    Ok(())
}

/// Each image within rule at each length, cut off or with bytes behind it.
fn every_length(check: &mut Check) -> Agreement {
    for case in named_images().into_iter().filter(|case| case.in_rule) {
        for length in 0..=ROOM {
            for more in [0, 0xFF] {
                let mut image = case.image.clone();
                image.resize(length, more);
                let answer = check.ask(&BUFFER, &Ask::Restore { image, time: START })?;
                assert_eq!(answer.is_accepted(), length == case.image.len(), "{} at {}", case.name, length);
            }
        }
    }
    Ok(())
}
