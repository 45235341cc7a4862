//! The Platonic solids, their rotations read off the corner points in space. Flat they have their faces; with all
//! turns 1 the cube and the octahedron give four walks of 6 steps, the other two six walks of 10: great circles.

use crate::*;
use reference::counts::counts;
use reference::trial::solids::{cube, dodecahedron, icosahedron, octahedron, solid, Space};
use reference::weave::plain;

/// Flat: V, E, F and the steps of every face, on a sphere. All turns 1: so many ribbons of so many steps, plain.
fn try_solid(corners: &[Space], v: usize, e: usize, faces: (usize, usize), ribbons: (usize, usize)) {
    let flat = solid(corners, 0);
    let c = counts(&flat).unwrap();
    assert_eq!((c.vertices, c.edges, c.parts.len(), c.euler()), (v, e, 1, 2));
    assert_eq!(walk_sizes(&flat), vec![faces.1; faces.0]);
    let woven = solid(corners, 1);
    assert_eq!(walk_sizes(&woven), vec![ribbons.1; ribbons.0]);
    assert_eq!(plain(&woven), Ok(true));
    assert_eq!(plain(&flat), Ok(true));
}

#[test]
fn the_cube() {
    try_solid(&cube(), 8, 12, (6, 4), (4, 6));
}

#[test]
fn the_octahedron() {
    try_solid(&octahedron(), 6, 12, (8, 3), (4, 6));
}

#[test]
fn the_icosahedron() {
    try_solid(&icosahedron(), 12, 30, (20, 3), (6, 10));
}

#[test]
fn the_dodecahedron() {
    try_solid(&dodecahedron(), 20, 30, (12, 5), (6, 10));
}
