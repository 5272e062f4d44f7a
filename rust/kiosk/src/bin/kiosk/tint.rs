//! A tint on the command line: an option for its kind, and three numbers with commas between them.

use kiosk::Tint;
use std::fmt::Display;
use std::str::FromStr;

/// The kinds, by their options.
pub const OPTIONS: [&str; 3] = ["--code", "--nonlinear", "--light"];

/// The tint that an option and its value give, or what is wrong with the value.
pub fn parsed(option: &str, value: &str) -> Result<Tint, String> {
    match option {
        "--code" => three(value, "a whole number from 0 to 255").map(Tint::Code),
        "--nonlinear" => three(value, "a number").map(Tint::Nonlinear),
        _ => three(value, "a number").map(Tint::Light),
    }
}

/// Three numbers. Of doubles each is the nearest to what is written, and "nan" and "inf" are read too: the library says
/// what it thinks of them.
fn three<T: FromStr>(value: &str, wanted: impl Display) -> Result<[T; 3], String> {
    let words: Vec<&str> = value.split(',').map(str::trim).collect();
    let numbers: Vec<T> = words
        .iter()
        .map(|word| {
            word.parse()
                .map_err(|_| format!("{word:?} is not {wanted}"))
        })
        .collect::<Result<_, _>>()?;
    numbers
        .try_into()
        .map_err(|_| format!("{} numbers, where a tint has three", words.len()))
}
