//! The float path of a ribbon, worked out in whole numbers.

use crate::refusal::{decline_if, Refusal};
use crate::table::*;
use crate::trace::{named_step, walk_from, Step};
use crate::weave::{step_letters, Letter};

/// "three signed 32-bit words per vertex", "three per edge"
pub const POINTS: usize = 3 * VERTICES;
pub const LIFTS: usize = 3 * EDGES;
/// "Points lie within 65,536 either way, lifts within 4,096", in sixteenths of a millimetre.
pub const FARTHEST_POINT: u32 = 65_536;
pub const FARTHEST_LIFT: u32 = 4_096;

/// "three 32-bit floats in millimetres"
#[derive(Clone, Copy, Debug, PartialEq)]
pub struct Point {
    pub x: f32,
    pub y: f32,
    pub z: f32,
}

#[derive(Clone, Copy, Debug, PartialEq)]
pub enum Piece {
    Flat(Point),
    Over(Point),
    Under(Point),
    Close,
}

impl Piece {
    /// "a word per piece (0 Flat, 1 Over, 2 Under, 3 Close)"
    pub fn word(self) -> u16 {
        match self {
            Piece::Flat(_) => 0,
            Piece::Over(_) => 1,
            Piece::Under(_) => 2,
            Piece::Close => 3,
        }
    }

    /// "three floats per piece, zeros for Close"
    pub fn floats(self) -> [f32; 3] {
        match self {
            Piece::Flat(p) | Piece::Over(p) | Piece::Under(p) => [p.x, p.y, p.z],
            Piece::Close => [0.0; 3],
        }
    }
}

/// Write the float path through a step into two lent slices, and answer its number of pieces.
pub fn float_path(
    table: &[u16],
    dart: u16,
    t: u16,
    points: &[i32],
    lifts: &[i32],
    words: &mut [u16],
    floats: &mut [f32],
) -> Result<usize, Refusal> {
    let walk = walk_from(table, named_step(table, dart, t)?);
    let pieces = walk.len() + 1;
    decline_if(points.len() < POINTS || lifts.len() < LIFTS, Refusal::ShortSlice)?;
    decline_if(words.len() < pieces || floats.len() < 3 * pieces, Refusal::ShortSlice)?;
    let path = pieces_along(table, &walk, points, lifts)?;
    for (i, piece) in path.iter().enumerate() {
        words[i] = piece.word();
        floats[3 * i..3 * i + 3].copy_from_slice(&piece.floats());
    }
    Ok(pieces)
}

/// "begins there and has one piece per step, then Close"
fn pieces_along(table: &[u16], walk: &[Step], points: &[i32], lifts: &[i32]) -> Result<Vec<Piece>, Refusal> {
    decline_if(walk.iter().any(|s| turns(table, s.edge()).abs() > 1), Refusal::ManyTurns)?;
    decline_if(walk.iter().any(|s| is_far(table, s.edge(), points, lifts)), Refusal::Far)?;
    let mut path: Vec<Piece> = walk.iter().map(|&s| piece(table, s, points, lifts)).collect();
    path.push(Piece::Close);
    Ok(path)
}

/// "point or lift out of range on an edge of the walk", the lift of a flat edge included.
pub(crate) fn is_far(table: &[u16], e: Edge, points: &[i32], lifts: &[i32]) -> bool {
    let past = |words: [i32; 3], farthest: u32| words.iter().any(|w| w.unsigned_abs() > farthest);
    let ends = darts_of(e).map(|d| three(points, leaves(table, d)));
    ends.into_iter().any(|end| past(end, FARTHEST_POINT)) || past(three(lifts, e), FARTHEST_LIFT)
}

pub(crate) fn three(words: &[i32], name: u16) -> [i32; 3] {
    let i = 3 * name as usize;
    [words[i], words[i + 1], words[i + 2]]
}

/// "a coordinate times 32 is exactly a+b+2l over, a+b-2l under, a+b flat"
fn piece(table: &[u16], s: Step, points: &[i32], lifts: &[i32]) -> Piece {
    let [a, b] = darts_of(s.edge()).map(|d| three(points, leaves(table, d)));
    let lift = three(lifts, s.edge());
    let point = |times: i32| {
        let coordinate = |i: usize| thirty_seconds(a[i] + b[i] + times * lift[i]);
        Point { x: coordinate(0), y: coordinate(1), z: coordinate(2) }
    };
    match step_letters(table, s).first() {
        None => Piece::Flat(point(0)),
        Some(Letter::O) => Piece::Over(point(2)),
        Some(Letter::U) => Piece::Under(point(-2)),
    }
}

/// The float that is exactly n/32, from its sign, exponent and fraction. n has at most 24 bits, so nothing is rounded;
/// "zero is positive zero".
fn thirty_seconds(n: i32) -> f32 {
    const FRACTION_BITS: u32 = 23;
    const EXPONENT_OF_ONE: u32 = 127;
    const POWER_OF_32: u32 = 5;
    if n == 0 {
        return f32::from_bits(0);
    }
    let size = n.unsigned_abs();
    let top = size.ilog2();
    let sign = u32::from(n < 0);
    let exponent = EXPONENT_OF_ONE + top - POWER_OF_32;
    let fraction = (size - (1 << top)) << (FRACTION_BITS - top);
    f32::from_bits(sign << 31 | exponent << FRACTION_BITS | fraction)
}
