//! The comparison of site plans and member books: the paper's examples and each refusal by itself, every site, then
//! random histories of calls, each on the book that the ones before it left.

use crate::book::calls::Ask;
use crate::book::drafts::{book_bytes, plan_bytes, Drawing, Scene};
use crate::book::members::{Book, Row};
use crate::book::{cases, hostile, sweeps};
use crate::shared::check::{Agreement, Check};
use crate::shared::moment_drafts::start;
use crate::shared::progress::Progress;
use crate::Options;

/// The longest history.
const MOST_CALLS: usize = 400;

/// Of so many calls in a history, one is followed by the schedules of all members.
const CALLS_TO_A_LOOK: usize = 50;

pub fn check(check: &mut Check, options: &Options, progress: &mut Progress) -> Agreement {
    cases::check(check)?;
    sweeps::check(check)?;
    hostile::check(check)?;
    check.runs(options.books, MOST_CALLS, progress, history)
}

/// A fresh book, or often one that is made up, and then so many calls less one.
fn history(check: &mut Check, calls: u64) -> Agreement {
    let scene = Scene::new(&mut check.random);
    let fresh = Ask::Fresh { plan: plan_bytes(scene.plan), time: start(&mut check.random) };
    let mut bytes = check.ask(&[0; Book::LENGTH], &fresh)?.left.book;
    if check.random.below(3) == 0 {
        bytes = book_bytes(&scene.book(&mut check.random));
    }
    let mut book = book_in(&bytes);
    for _ in 1..calls {
        let slips = check.slips();
        let mut drawing = Drawing { random: &mut check.random, scene: &scene, book: &book, slips };
        let (handed_in, ask) = drawing.call(&bytes);
        let answer = check.ask(&handed_in, &ask)?;
        // A book that was damaged, or made fresh, does not go on.
        if handed_in == bytes && answer.left.book != bytes && ask.takes_a_book() {
            bytes = answer.left.book;
            book = book_in(&bytes);
        }
        if check.random.below(CALLS_TO_A_LOOK) == 0 {
            every_schedule(check, &scene, &bytes, &book)?;
        }
    }
    Ok(())
}

/// The schedules of all who are in a book, at one time.
fn every_schedule(check: &mut Check, scene: &Scene, bytes: &[u8], book: &Book) -> Agreement {
    let time = Drawing { random: &mut check.random, scene, book, slips: 0 }.reading_time();
    for row in book.rows.iter().filter(|row| **row != Row::EMPTY) {
        let ask = Drawing { random: &mut check.random, scene, book, slips: 0 }.schedule(row.unit, time);
        check.ask(bytes, &ask)?;
    }
    Ok(())
}

/// The book that a call left, or that was made up.
fn book_in(bytes: &[u8]) -> Book {
    let book = Book::from_bytes(bytes).expect("the independent book wrote these bytes");
    assert_eq!(book.check(), Ok(()), "every accepted call leaves a book within rule: {:?}", book);
    book
}
