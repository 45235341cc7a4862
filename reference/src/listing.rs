//! The listing as words.

use crate::check::check;
use crate::faces::{Faces, Walk, VERTEX_CORNER};
use crate::refusal::{decline_if, Refusal};

/// "for each walk its number of steps, then 2d+t for each step; an empty walk is 0, then 32,768+v"
pub fn words(faces: &Faces) -> Vec<u16> {
    let mut words = Vec::new();
    for walk in &faces.walks {
        words.push(walk.steps().len() as u16);
        match walk {
            Walk::Ribbon(steps) => words.extend(steps.iter().map(|s| s.word())),
            Walk::Empty(v) => words.push(VERTEX_CORNER + v),
        }
    }
    words
}

/// Write the listing and answer its exact size. "An accepted call changes nothing past its output's exact size."
pub fn listing(table: &[u16], out: &mut [u16]) -> Result<usize, Refusal> {
    check(table)?;
    let words = words(&Faces::of(table));
    decline_if(out.len() < words.len(), Refusal::ShortSlice)?;
    out[..words.len()].copy_from_slice(&words);
    Ok(words.len())
}
