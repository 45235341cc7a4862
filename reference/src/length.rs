//! Cut length of a ribbon, by the rule of document 02, request d, over the table's own lengths (request g).

use crate::refusal::Refusal;
use crate::table::length;
use crate::trace::{named_step, walk_from, Step};
use crate::weave::{count, letters_along, Letter};

/// "plus 8 sixteenths for each O on the ribbon"
pub const PER_OVER: u32 = 8;
/// "plus 320 for the lap": "a ribbon is closed with a lap of 20 mm".
pub const LAP: u32 = 320;

/// The cut length of the ribbon "named by any step on it".
pub fn cut_length(table: &[u16], dart: u16, t: u16) -> Result<u32, Refusal> {
    let start = named_step(table, dart, t)?;
    Ok(ribbon_length(table, &walk_from(table, start)))
}

/// "cut length is the sum of edge lengths, plus 8 sixteenths for each O on the ribbon, plus 320 for the lap." A ribbon has
/// at most 2,048 steps with at most 99 letters each, so the sum fits.
pub fn ribbon_length(table: &[u16], ribbon: &[Step]) -> u32 {
    let edges: u32 = ribbon.iter().map(|s| u32::from(length(table, s.edge()))).sum();
    let overs = count(&letters_along(table, ribbon), Letter::O);
    edges + PER_OVER * overs + LAP
}
