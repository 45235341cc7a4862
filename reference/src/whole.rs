//! The whole path of a ribbon (document 02, request e): its points in whole sixteenths, on edges of any turns.

use crate::path::{is_far, three, LIFTS, POINTS};
use crate::refusal::{decline_if, Refusal};
use crate::table::*;
use crate::trace::{named_step, walk_from, Step};
use crate::weave::{step_letters, Letter};

/// A whole number of sixteenths, and what is left of the division that gave it.
#[derive(Clone, Copy, Debug, PartialEq, Eq)]
pub struct Place {
    pub whole: i64,
    pub remainder: i64,
}

/// A piece with its place along each of the three axes.
#[derive(Clone, Copy, Debug, PartialEq, Eq)]
pub enum WholePiece {
    Flat([Place; 3]),
    Over([Place; 3]),
    Under([Place; 3]),
    Close,
}

impl WholePiece {
    /// "written as the float path is": 0 Flat, 1 Over, 2 Under, 3 Close.
    fn word(self) -> u16 {
        match self {
            WholePiece::Flat(_) => 0,
            WholePiece::Over(_) => 1,
            WholePiece::Under(_) => 2,
            WholePiece::Close => 3,
        }
    }

    /// "zeros for Close"
    fn places(self) -> [Place; 3] {
        match self {
            WholePiece::Flat(places) | WholePiece::Over(places) | WholePiece::Under(places) => places,
            WholePiece::Close => [Place { whole: 0, remainder: 0 }; 3],
        }
    }
}

/// The three outputs that a caller lends.
pub struct Outputs<'a> {
    pub kinds: &'a mut [u16],
    pub coords: &'a mut [i32],
    pub remainders: &'a mut [u16],
}

/// Write the whole path through a step into three lent slices, and answer its number of pieces. "declines with 1, 2,
/// 4, 7 and 9 as the float path does, never with 8"
pub fn whole_path(
    table: &[u16],
    dart: u16,
    t: u16,
    points: &[i32],
    lifts: &[i32],
    out: Outputs,
) -> Result<usize, Refusal> {
    let walk = walk_from(table, named_step(table, dart, t)?);
    let pieces = pieces_of(table, &walk);
    decline_if(points.len() < POINTS || lifts.len() < LIFTS, Refusal::ShortSlice)?;
    decline_if(out.kinds.len() < pieces, Refusal::ShortSlice)?;
    decline_if(out.coords.len() < 3 * pieces || out.remainders.len() < 3 * pieces, Refusal::ShortSlice)?;
    decline_if(walk.iter().any(|s| is_far(table, s.edge(), points, lifts)), Refusal::Far)?;
    let along = walk.iter().flat_map(|&s| pieces_along(table, s, points, lifts));
    for (i, piece) in along.chain([WholePiece::Close]).enumerate() {
        out.kinds[i] = piece.word();
        for (axis, place) in piece.places().into_iter().enumerate() {
            out.coords[3 * i + axis] = place.whole as i32;
            out.remainders[3 * i + axis] = place.remainder as u16;
        }
    }
    Ok(pieces)
}

/// "one per crossing or flat edge, then Close"
pub fn pieces_of(table: &[u16], walk: &[Step]) -> usize {
    walk.iter().map(|s| turns(table, s.edge()).unsigned_abs().max(1) as usize).sum::<usize>() + 1
}

/// The pieces of one step, in the order of travel.
fn pieces_along(table: &[u16], s: Step, points: &[i32], lifts: &[i32]) -> Vec<WholePiece> {
    let [a, b] = darts_of(s.edge()).map(|d| three(points, leaves(table, d)));
    let lift = three(lifts, s.edge());
    let sits = |n: usize, j: usize| [0, 1, 2].map(|axis| crossing(a[axis], b[axis], n, j));
    let letters = step_letters(table, s);
    // "An edge without turns gives one flat point by the same formula with n = 1 and j = 0."
    if letters.is_empty() {
        return vec![WholePiece::Flat(sits(1, 0))];
    }
    let (n, from_first) = (letters.len(), s.dart == darts_of(s.edge())[0]);
    let along = letters.into_iter().enumerate().map(|(i, letter)| {
        // "Travelled from the second end, crossings come in falling j."
        let places = sits(n, if from_first { i } else { n - 1 - i });
        match letter {
            Letter::O => WholePiece::Over(lifted(places, lift, 1)),
            Letter::U => WholePiece::Under(lifted(places, lift, -1)),
        }
    });
    along.collect()
}

/// "The lift is then added over and taken off under."
fn lifted(places: [Place; 3], lift: [i32; 3], times: i64) -> [Place; 3] {
    let whole = |axis: usize| places[axis].whole + times * i64::from(lift[axis]);
    [0, 1, 2].map(|axis| Place { whole: whole(axis), ..places[axis] })
}

/// "With n crossings on an edge, crossing j (0 to n-1, counted from the first end) sits, per coordinate with ends a and
/// b, at a plus (2j+1)(b-a)/(2n), rounded towards minus infinity, and the remainder, 0 to 2n-1, is given with it."
pub fn crossing(a: i32, b: i32, n: usize, j: usize) -> Place {
    let (a, b, n, j) = (i64::from(a), i64::from(b), n as i64, j as i64);
    let (dividend, divisor) = ((2 * j + 1) * (b - a), 2 * n);
    // The divisor is above 0, so Euclid's division is the one that rounds towards minus infinity.
    Place { whole: a + dividend.div_euclid(divisor), remainder: dividend.rem_euclid(divisor) }
}
