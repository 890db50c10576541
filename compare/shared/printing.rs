//! How the arguments of a call and what it left are printed.

use crate::shared::lending::Filler;
use std::fmt;

/// An input in hex, with its length.
pub fn input_shown<T: fmt::LowerHex>(values: &[T]) -> String {
    format!("{} length {}", hex(values), values.len())
}

/// An output in hex, up to the last place that does not hold its filler any more.
pub fn buffer_shown<T: Filler>(values: &[T]) -> String {
    let untouched = values.iter().zip(T::FILLER).rev().take_while(|(value, filler)| value == filler).count();
    let (touched, _) = values.split_at(values.len() - untouched);
    match untouched {
        0 => hex(touched),
        _ => format!("{} and {} places untouched", hex(touched), untouched),
    }
}

/// A number that was given back.
pub fn number_shown<T: Filler + fmt::Display>(value: T) -> String {
    match value == T::FILLER[0] {
        true => "untouched".to_string(),
        false => value.to_string(),
    }
}

pub fn hex<T: fmt::LowerHex>(values: &[T]) -> String {
    let digits: Vec<String> = values.iter().map(|value| format!("{:02x}", value)).collect();
    format!("[{}]", digits.join(" "))
}
