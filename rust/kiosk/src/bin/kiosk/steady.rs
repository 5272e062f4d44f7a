//! A picture of codes through light that is moved up and down, and which channels come back (rule 6.12).

use crate::compare::Tally;
use crate::form::{self, Form};
use crate::text;
use kiosk::{Refusal, STEADY};

/// How many channels come back when all light is moved by so much, up or down.
fn tally(depth: u32, codes: &[u8], step: i32) -> Result<Tally, Refusal> {
    let moves = vec![step; codes.len() / 2];
    let (mut light, mut back) = (vec![0; moves.len()], vec![0; codes.len()]);
    kiosk::through_light(depth, codes, &moves, &mut light, &mut back)?;
    Ok(Tally::of(codes, &back, 2))
}

/// The comparison in words, at the picture's own depth, or at each depth that light has codes at. Light is moved by
/// `millionths`, or else by as much as every code keeps. A code that both ends of a range of light have, all light
/// between them has too, so that all up and all down are enough.
pub fn report(from: Form, pixels: &[u8], millionths: Option<i32>) -> Result<String, Refusal> {
    let own = |&(depth, _): &(u32, i32)| from.depth() == Some(depth);
    let mut depths: Vec<(u32, i32)> = STEADY.into_iter().filter(own).collect();
    if depths.is_empty() {
        depths = STEADY.to_vec();
    }
    let mut report = String::new();
    for (depth, most) in depths {
        let codes = form::codes(from, depth, pixels)?;
        let by = millionths.unwrap_or(most);
        for (way, step) in [("up", by), ("down", -by)] {
            report += &format!(
                "{depth} bits, light moved {way} by {}: {} channels: {}\n",
                text::counted(by as usize, "millionth"),
                codes.len() / 2,
                tally(depth, &codes, step)?
            );
        }
    }
    Ok(report)
}
