//! `compare` puts the same calls to the library and to an implementation written from the paper, subject by
//! subject, and stops at the first difference. This file is the command line and the order of the subjects.
//!
//! The paper is document 01, with beacons, plans and images as request 101 of document 02 has them, what lookups and
//! relays say and ask of a route's time as its request 102, times and the clock as its request 104 (`shared::moments`),
//! and what a merge reports as its request 110. Following is its request 112, polls are its request 109, sheets its
//! request 114, and `routes::direct` is the relay that its request 111 has the library measured against.

#![deny(warnings)]

mod bench;
mod book;
mod clock;
mod follow;
mod frames;
mod image;
mod life;
mod poll;
mod routes;
mod shared;
mod sheet;

use shared::check::{Agreement, Check, Kinds};
use shared::progress::Progress;
use std::process::ExitCode;

const USAGE: &str = "\
usage: compare [--seed N] [--frames N] [--routes N] [--steps N] [--books N]
               [--images N] [--sheets N] [--times N] [--quiet] [--help]
       compare bench [names | CASE WHO TIMES]
       compare images FOLDER

Compares the library, call by call, with an independent implementation.

  --seed N    start of the random numbers, decimal or 0x and hex (1)
  --frames N  random frames to compare, each in several calls (300000)
  --routes N  random calls on tables of routes to compare (2100000)
  --steps N   random steps of a unit's state, as many of its clock, as many pairs
              of frames of which it follows one, and as many steps of units that
              hear each other's election messages (1000000)
  --books N   random calls on member books to compare (2100000)
  --images N  random stored images to compare, each in several calls (520000)
  --sheets N  random sheets of planners to compare (300000)
  --times N   each of these numbers so many times as large (1)
  --quiet     no progress on standard error
  --help      this text

Prints the counts of each subject. Exits with 0 if every call agrees, 1 at the
first difference (seed, call and both answers on standard error), 2 if used wrongly.

bench prints how long calls take, the library beside the independent
implementation. bench names prints the cases. With a CASE, library or rust for
WHO, and TIMES, that call is made so many times, for an instruction counter.
compare/measure does all of this, in a build of its own.

images writes stored images into a folder that is there, and the drawing of each:
NAME.image and NAME.text. compare/slotview puts them to the program slotview.";

const AGREED: u8 = 0;
const DIFFERED: u8 = 1;
const USED_WRONGLY: u8 = 2;

/// What the command line asks for.
pub struct Options {
    pub seed: u64,
    pub frames: u64,
    pub routes: u64,
    pub steps: u64,
    pub books: u64,
    pub images: u64,
    pub sheets: u64,
    pub quiet: bool,
    pub help: bool,
}

/// A part of the library with a folder of its own.
struct Subject {
    name: &'static str,
    calls: Kinds,
    check: fn(&mut Check, &Options, &mut Progress) -> Agreement,
}

const SUBJECTS: &[Subject] = &[
    Subject { name: "frames", calls: &frames::calls::CALLS, check: frames::check::check },
    Subject { name: "routes", calls: &routes::calls::CALLS, check: routes::check::check },
    Subject { name: "life", calls: &life::calls::CALLS, check: life::check::check },
    Subject { name: "clock", calls: &clock::calls::CALLS, check: clock::check::check },
    Subject { name: "following", calls: &follow::calls::CALLS, check: follow::check::check },
    Subject { name: "polls", calls: &poll::calls::CALLS, check: poll::check::check },
    Subject { name: "books", calls: &book::calls::CALLS, check: book::check::check },
    Subject { name: "images", calls: &image::calls::CALLS, check: image::check::check },
    Subject { name: "sheets", calls: &sheet::calls::CALLS, check: sheet::check::check },
];

fn main() -> ExitCode {
    let arguments: Vec<String> =
        std::env::args_os().skip(1).map(|argument| argument.to_string_lossy().into_owned()).collect();
    let result = match arguments.split_first() {
        Some((first, rest)) if first == "bench" => bench::run(rest).map(|()| AGREED),
        Some((first, rest)) if first == "images" => image::files::run(rest).map(|()| AGREED),
        _ => parse(arguments.into_iter()).map(|options| obey(&options)),
    };
    ExitCode::from(result.unwrap_or_else(|message| {
        eprintln!("compare: {}; see compare --help", message);
        USED_WRONGLY
    }))
}

fn obey(options: &Options) -> u8 {
    match options.help {
        true => {
            println!("{}", USAGE);
            AGREED
        }
        false => compare(options),
    }
}

fn parse(mut arguments: impl Iterator<Item = String>) -> Result<Options, String> {
    let (frames, routes, steps) = (300_000, 2_100_000, 1_000_000);
    let (books, images, sheets) = (2_100_000, 520_000, 300_000);
    let mut options = Options { seed: 1, frames, routes, steps, books, images, sheets, quiet: false, help: false };
    let mut times: u64 = 1;
    while let Some(argument) = arguments.next() {
        match argument.as_str() {
            "--seed" => options.seed = number(&argument, arguments.next())?,
            "--frames" => options.frames = number(&argument, arguments.next())?,
            "--routes" => options.routes = number(&argument, arguments.next())?,
            "--steps" => options.steps = number(&argument, arguments.next())?,
            "--books" => options.books = number(&argument, arguments.next())?,
            "--images" => options.images = number(&argument, arguments.next())?,
            "--sheets" => options.sheets = number(&argument, arguments.next())?,
            "--times" => times = number(&argument, arguments.next())?,
            "--quiet" => options.quiet = true,
            "--help" => options.help = true,
            _ => return Err(format!("unknown argument '{}'", argument)),
        }
    }
    let Options { frames, routes, steps, books, images, sheets, .. } = &mut options;
    for count in [frames, routes, steps, books, images, sheets] {
        *count = count.saturating_mul(times);
    }
    Ok(options)
}

fn number(option: &str, value: Option<String>) -> Result<u64, String> {
    let value = value.ok_or_else(|| format!("{} needs a number", option))?;
    let parsed = match value.strip_prefix("0x") {
        Some(digits) => u64::from_str_radix(digits, 16),
        None => value.parse(),
    };
    parsed.map_err(|_| format!("{} needs a number, not '{}'", option, value))
}

fn compare(options: &Options) -> u8 {
    for subject in SUBJECTS {
        let mut progress = Progress::new(subject.name, options.quiet);
        let mut check = Check::new(options.seed, subject.calls);
        let result = (subject.check)(&mut check, options, &mut progress);
        progress.end();
        match result {
            Ok(()) => println!("{}: {}", subject.name, check.tally()),
            Err(difference) => {
                let name = subject.name;
                eprintln!("{}: the library differs, seed {:#x} (contents in hex)\n{}", name, options.seed, difference);
                return DIFFERED;
            }
        }
    }
    AGREED
}
