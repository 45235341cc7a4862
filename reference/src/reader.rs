//! The walk reader, and the tally that its steps bring forward.

use crate::length::{LAP, PER_OVER};
use crate::refusal::Refusal;
use crate::table::length;
use crate::trace::{named_step, named_steps, step_after, Step};
use crate::weave::{count, step_letters, Letter};

/// "steps, overs, unders, length", each of 32 bits.
#[derive(Clone, Copy, Debug, Default, PartialEq, Eq)]
pub struct Tally {
    pub steps: u32,
    pub overs: u32,
    pub unders: u32,
    pub length: u32,
}

/// A step as it is handed out, with "whether the walk ends there".
#[derive(Clone, Copy, Debug, PartialEq, Eq)]
pub struct Read {
    pub step: Step,
    pub ends: bool,
}

/// "A walk reader stands over the lent table and hands out one step at a time." It begins with the step it was made
/// at, and stands at the one that it hands out next.
#[derive(Clone, Copy, Debug)]
pub struct Reader<'a> {
    table: &'a [u16],
    start: Step,
    at: Step,
}

impl<'a> Reader<'a> {
    pub fn new(table: &'a [u16], dart: u16, t: u16) -> Result<Reader<'a>, Refusal> {
        let start = named_step(table, dart, t)?;
        Ok(Reader { table, start, at: start })
    }

    /// "after a declined step the reader has not moved"
    pub fn step(&mut self, tally: &mut Tally) -> Result<Read, Refusal> {
        let read = read_step(self.table, self.start, self.at, tally)?;
        self.at = step_after(self.table, self.at);
        Ok(read)
    }
}

/// One step of a reader that was made at `start` and stands at `at`; a host that holds the two itself may have edited
/// the table since. "Every step declines as the making of the reader would"; then "a tally that a step would carry past
/// 32 bits is declined with 6".
pub fn read_step(table: &[u16], start: Step, at: Step, tally: &mut Tally) -> Result<Read, Refusal> {
    named_steps(table, &[start, at].map(|s| (s.dart, s.t as u16)))?;
    let edge = u32::from(length(table, at.edge()));
    let ends = step_after(table, at) == start;
    *tally = brought_forward(*tally, &step_letters(table, at), edge, ends).ok_or(Refusal::Overturned)?;
    Ok(Read { step: at, ends })
}

/// The tally with one step more, if no field passes 32 bits. Its length goes by the rule of document 02, request d: the
/// edge's length, 8 for each O of the step, and "the lap enters the tally with the walk's last step".
fn brought_forward(tally: Tally, letters: &[Letter], edge: u32, ends: bool) -> Option<Tally> {
    let (overs, unders) = (count(letters, Letter::O), count(letters, Letter::U));
    let lap = if ends { LAP } else { 0 };
    Some(Tally {
        steps: tally.steps.checked_add(1)?,
        overs: tally.overs.checked_add(overs)?,
        unders: tally.unders.checked_add(unders)?,
        length: tally.length.checked_add(edge + PER_OVER * overs + lap)?,
    })
}
