//! The Platonic solids as tables, their rotations read off the corner points in space.

use super::tables::Mesh;
use crate::job::PLAIN_LENGTH;

pub type Space = [f64; 3];

fn dot(a: Space, b: Space) -> f64 {
    a[0] * b[0] + a[1] * b[1] + a[2] * b[2]
}

fn cross(a: Space, b: Space) -> Space {
    [a[1] * b[2] - a[2] * b[1], a[2] * b[0] - a[0] * b[2], a[0] * b[1] - a[1] * b[0]]
}

fn minus(a: Space, b: Space) -> Space {
    [a[0] - b[0], a[1] - b[1], a[2] - b[2]]
}

/// The mesh of a solid about the origin whose edges are its closest pairs of corner points: around each corner, the
/// edges by their angle as seen from outside. The lengths are those that a plain IE writes.
pub fn solid(corners: &[Space], turns: i32) -> Vec<u16> {
    let apart = |a: usize, b: usize| dot(minus(corners[a], corners[b]), minus(corners[a], corners[b]));
    let pairs: Vec<(usize, usize)> =
        (0..corners.len()).flat_map(|a| (a + 1..corners.len()).map(move |b| (a, b))).collect();
    let closest = pairs.iter().map(|&(a, b)| apart(a, b)).fold(f64::MAX, f64::min);
    let edges: Vec<(usize, usize)> = pairs.into_iter().filter(|&(a, b)| apart(a, b) < closest + 1e-6).collect();
    let rotation = |v: usize| {
        let mut darts: Vec<(u16, usize)> = Vec::new();
        for (e, &(a, b)) in edges.iter().enumerate() {
            if a == v {
                darts.push((2 * e as u16, b));
            } else if b == v {
                darts.push((2 * e as u16 + 1, a));
            }
        }
        let across = cross(corners[v], corners[darts[0].1]);
        let up = cross(across, corners[v]);
        let outward = dot(corners[v], corners[v]).sqrt();
        let angle = |u: usize| (dot(corners[u], across) * outward).atan2(dot(corners[u], up));
        darts.sort_by(|x, y| angle(x.1).total_cmp(&angle(y.1)));
        darts.into_iter().map(|(d, _)| d).collect()
    };
    let rotations = (0..corners.len()).map(|v| (v as u16, rotation(v))).collect();
    Mesh { rotations, edges: (0..edges.len()).map(|e| (e as u16, turns, PLAIN_LENGTH)).collect() }.written()
}

/// All signs of a point, each once, in the three cyclic orders of its coordinates.
fn all_of(point: Space) -> Vec<Space> {
    let mut points: Vec<Space> = Vec::new();
    for signs in 0..8 {
        for shift in 0..3 {
            let mut p = [0, 1, 2].map(|i| if signs >> i & 1 == 1 { -point[i] } else { point[i] });
            p.rotate_left(shift);
            if !points.contains(&p) {
                points.push(p);
            }
        }
    }
    points
}

fn golden() -> f64 {
    (1.0 + 5f64.sqrt()) / 2.0
}

pub fn cube() -> Vec<Space> {
    all_of([1.0, 1.0, 1.0])
}

pub fn octahedron() -> Vec<Space> {
    all_of([0.0, 0.0, 1.0])
}

pub fn icosahedron() -> Vec<Space> {
    all_of([0.0, 1.0, golden()])
}

pub fn dodecahedron() -> Vec<Space> {
    let mut corners = cube();
    corners.extend(all_of([0.0, 1.0 / golden(), golden()]));
    corners
}
