//! Document 000's two rotations of the complete graph with four vertices, as tables.

use super::tables::Mesh;
use crate::job::PLAIN_LENGTH;
use crate::table::Dart;

pub const SPHERE: [[usize; 3]; 4] = [[1, 3, 2], [0, 2, 3], [0, 3, 1], [0, 1, 2]];
pub const TORUS: [[usize; 3]; 4] = [[1, 2, 3], [0, 3, 2], [0, 1, 3], [0, 1, 2]];

/// The edges, named in this order; the dart that leaves the smaller end is the first.
const EDGES: [(usize, usize); 6] = [(0, 1), (0, 2), (0, 3), (1, 2), (1, 3), (2, 3)];

pub fn dart(from: usize, to: usize) -> Dart {
    let ends = (from.min(to), from.max(to));
    let e = EDGES.iter().position(|&edge| edge == ends).unwrap() as Dart;
    2 * e + Dart::from(from > to)
}

/// The table in which vertex v has its neighbours in this order, with the lengths that a plain IE writes.
pub fn k4(neighbours: [[usize; 3]; 4], turns: i32) -> Vec<u16> {
    let rotation = |v: usize| neighbours[v].map(|u| dart(v, u)).to_vec();
    let rotations = (0..4).map(|v| (v as u16, rotation(v))).collect();
    Mesh { rotations, edges: (0..6).map(|e| (e, turns, PLAIN_LENGTH)).collect() }.written()
}
