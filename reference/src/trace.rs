//! Steps and walks ("Corners and walks"), over a good table.

use crate::check::check;
use crate::refusal::{decline_if, Refusal};
use crate::table::*;

/// "A step is a dart d with a trace type t, 0 or 1."
#[derive(Clone, Copy, Debug, PartialEq, Eq)]
pub struct Step {
    pub dart: Dart,
    pub t: u8,
}

pub fn step(dart: Dart, t: u8) -> Step {
    Step { dart, t }
}

impl Step {
    pub fn edge(self) -> Edge {
        edge_of(self.dart)
    }

    /// "2d+t for each step"
    pub fn word(self) -> u16 {
        2 * self.dart + self.t as u16
    }
}

/// The step that a caller names. All calls on one ribbon begin so.
pub fn named_step(table: &[u16], dart: u16, t: u16) -> Result<Step, Refusal> {
    named_steps(table, &[(dart, t)])?;
    Ok(step(dart, t as u8))
}

/// Torn, then a name past its range or a type above 1, then a dart that is not there. Where several steps are named,
/// 2 for any of them goes before 4 for any.
pub fn named_steps(table: &[u16], named: &[(u16, u16)]) -> Result<(), Refusal> {
    check(table)?;
    decline_if(named.iter().any(|&(dart, t)| dart as usize >= DARTS || t > 1), Refusal::NoSuchName)?;
    decline_if(named.iter().any(|&(dart, _)| !dart_is_live(table, dart)), Refusal::Absent)
}

/// "let t' be t plus the turns of d's edge, mod 2; go to the next dart after the reverse of d if t' is 0, to the one
/// before it if t' is 1; the new type is t'."
pub fn step_after(table: &[u16], s: Step) -> Step {
    let t = (s.t as i32 + turns(table, s.edge())).rem_euclid(2) as u8;
    let arrived = reverse(s.dart);
    if t == 0 {
        step(next(table, arrived), t)
    } else {
        step(previous(table, arrived), t)
    }
}

/// The steps from a start until the walk ends: "when both dart and type are those of its start".
pub fn walk_from(table: &[u16], start: Step) -> Vec<Step> {
    let mut walk = vec![start];
    loop {
        let s = step_after(table, walk[walk.len() - 1]);
        if s == start {
            return walk;
        }
        walk.push(s);
    }
}

/// "Step (d, 0) meets corner d; step (d, 1) meets the corner of the dart next after d."
pub fn corner_met(table: &[u16], s: Step) -> Dart {
    if s.t == 0 {
        s.dart
    } else {
        next(table, s.dart)
    }
}

/// "Every face is traced in two senses": the step of the other sense that meets the same corner.
pub fn other_sense(table: &[u16], s: Step) -> Step {
    if s.t == 0 {
        step(previous(table, s.dart), 1)
    } else {
        step(next(table, s.dart), 0)
    }
}
