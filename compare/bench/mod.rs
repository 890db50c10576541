//! The benchmark: the library through its C boundary against the independent implementation, with the same buffers and
//! in the same run.
//!
//! `bench CASE WHO TIMES` is for an instruction counter: run with two numbers of times, what the program does besides is
//! the same in both, and the difference is that of the calls alone.

mod calls;
mod cases;

use crate::bench::calls::Buffers;
use crate::bench::cases::{Case, CASES};
use crate::shared::refusal::{Refusal, ACCEPTED};
use std::time::Instant;

/// How often both take their turn at a case.
const TURNS: usize = 1001;
/// How long a turn is to take, about: much less than what a busy machine lets a program run for, so that most turns are
/// left in peace.
const TURN_NANOSECONDS: f64 = 100_000.0;
const TIMES_AT_FIRST: u64 = 200;

#[derive(Clone, Copy)]
enum Who {
    Library,
    Independent,
}

/// `bench`, `bench names` or `bench CASE WHO TIMES`.
pub fn run(arguments: &[String]) -> Result<(), String> {
    let words: Vec<&str> = arguments.iter().map(String::as_str).collect();
    match words[..] {
        [] => print_table(),
        ["names"] => CASES.iter().for_each(|case| println!("{}", case.name)),
        [name, who, times] => {
            let case = CASES.iter().find(|case| case.name == name).ok_or(format!("no case is '{}'", name))?;
            let times = times.parse().map_err(|_| format!("bench needs a number of times, not '{}'", times))?;
            repeat(case, who_is(who)?, times, &mut (case.buffers)());
        }
        _ => return Err("bench takes nothing, 'names', or a case, who and how often".to_string()),
    }
    Ok(())
}

fn who_is(name: &str) -> Result<Who, String> {
    match name {
        "library" => Ok(Who::Library),
        "rust" => Ok(Who::Independent),
        _ => Err(format!("who is library or rust, not '{}'", name)),
    }
}

fn print_table() {
    println!("| call | library, ns | Rust, ns | ratio |");
    println!("|---|---|---|---|");
    for case in &CASES {
        let turns = take_turns(case);
        let library = median(&turns, |(library, _)| library);
        let independent = median(&turns, |(_, independent)| independent);
        // Of the two next to each other, which the machine treats most alike.
        let ratio = median(&turns, |(library, independent)| library / independent);
        println!("| {} | {:.0} | {:.0} | {:.2} |", case.name, library, independent, ratio);
    }
}

/// The times of one call by the library and by the independent implementation, in ns. What else the machine does slows
/// both down.
fn take_turns(case: &Case) -> Vec<(f64, f64)> {
    let (mut ours, mut theirs) = ((case.buffers)(), (case.buffers)());
    let first = [
        time_of(case, Who::Library, TIMES_AT_FIRST, &mut ours),
        time_of(case, Who::Independent, TIMES_AT_FIRST, &mut theirs),
    ];
    assert_eq!(ours, theirs, "both leave the same: {}", case.name);
    let times = first.map(|each| 1 + (TURN_NANOSECONDS / each) as u64);
    let mut turn = || {
        let library = time_of(case, Who::Library, times[0], &mut ours);
        (library, time_of(case, Who::Independent, times[1], &mut theirs))
    };
    (0..TURNS).map(|_| turn()).collect()
}

fn time_of(case: &Case, who: Who, times: u64, buffers: &mut Buffers) -> f64 {
    let begin = Instant::now();
    repeat(case, who, times, buffers);
    begin.elapsed().as_nanos() as f64 / times as f64
}

fn median(turns: &[(f64, f64)], value: fn((f64, f64)) -> f64) -> f64 {
    let mut values: Vec<f64> = turns.iter().map(|turn| value(*turn)).collect();
    values.sort_by(f64::total_cmp);
    values[values.len() / 2]
}

/// Makes a call so many times.
fn repeat(case: &Case, who: Who, times: u64, buffers: &mut Buffers) {
    for _ in 0..times {
        if let Some(before) = &buffers.before {
            buffers.kept.copy_from_slice(before);
        }
        let answer = match who {
            Who::Library => (case.call.library)(buffers),
            Who::Independent => (case.call.independent)(buffers).map_or_else(Refusal::number, |()| ACCEPTED),
        };
        assert_eq!(answer, case.answer, "{}", case.name);
    }
}
