//! Over and under ("Over and under"): the letters along steps and ribbons, and which weaves are plain.

use crate::check::check;
use crate::faces::Faces;
use crate::refusal::Refusal;
use crate::table::*;
use crate::trace::{named_step, walk_from, Step};

#[derive(Clone, Copy, Debug, PartialEq, Eq)]
pub enum Letter {
    O,
    U,
}

/// The letters of one step, in order of travel. "An edge with turns k has |k| crossings. Along a step the type flips
/// at each one. With positive k the strand goes over (O) where the type goes from 0 to 1, else under (U); with
/// negative k the letters are exchanged." The dart plays no part: "the hand stays".
pub fn crossings(k: i32, t: u8) -> Vec<Letter> {
    let mut t = t;
    let mut letters = Vec::new();
    for _ in 0..k.abs() {
        let from_0_to_1 = t == 0;
        letters.push(if from_0_to_1 == (k > 0) { Letter::O } else { Letter::U });
        t = 1 - t;
    }
    letters
}

pub fn step_letters(table: &[u16], s: Step) -> Vec<Letter> {
    crossings(turns(table, s.edge()), s.t)
}

pub fn letters_along(table: &[u16], steps: &[Step]) -> Vec<Letter> {
    steps.iter().flat_map(|&s| step_letters(table, s)).collect()
}

/// How many of the letters are this one.
pub fn count(letters: &[Letter], letter: Letter) -> u32 {
    letters.iter().filter(|&&l| l == letter).count() as u32
}

/// "It alternates if cyclic neighbours among its letters differ; none counts as alternating."
pub fn alternate(letters: &[Letter]) -> bool {
    (0..letters.len()).all(|i| letters[i] != letters[(i + 1) % letters.len()])
}

/// The letters of the ribbon through a step, from there on.
pub fn ribbon_letters(table: &[u16], dart: u16, t: u16) -> Result<Vec<Letter>, Refusal> {
    let start = named_step(table, dart, t)?;
    Ok(letters_along(table, &walk_from(table, start)))
}

/// Whether the ribbon through a step alternates.
pub fn ribbon_alternates(table: &[u16], dart: u16, t: u16) -> Result<bool, Refusal> {
    Ok(alternate(&ribbon_letters(table, dart, t)?))
}

/// "A weave is plain if all its ribbons alternate."
pub fn plain(table: &[u16]) -> Result<bool, Refusal> {
    check(table)?;
    Ok(Faces::of(table).walks.iter().all(|walk| alternate(&letters_along(table, walk.steps()))))
}
