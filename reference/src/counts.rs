//! Counts ("Counts"): V, E, F, connected parts, Euler numbers, and which parts are orientable.

use crate::check::check;
use crate::faces::{Faces, Walk};
use crate::refusal::Refusal;
use crate::table::*;

/// A connected part, named by its smallest vertex.
#[derive(Clone, Debug, PartialEq, Eq)]
pub struct Part {
    pub smallest: Vertex,
    pub vertices: usize,
    pub edges: usize,
    pub faces: usize,
    pub orientable: bool,
}

impl Part {
    pub fn euler(&self) -> i64 {
        euler(self.vertices, self.edges, self.faces)
    }
}

/// The counts of the mesh, and of its parts upward by smallest vertex.
#[derive(Clone, Debug, PartialEq, Eq)]
pub struct Counts {
    pub vertices: usize,
    pub edges: usize,
    pub faces: usize,
    pub parts: Vec<Part>,
}

impl Counts {
    pub fn euler(&self) -> i64 {
        euler(self.vertices, self.edges, self.faces)
    }
}

/// "The Euler number is V-E+F, signed"
fn euler(vertices: usize, edges: usize, faces: usize) -> i64 {
    vertices as i64 - edges as i64 + faces as i64
}

pub fn counts(table: &[u16]) -> Result<Counts, Refusal> {
    check(table)?;
    let faces = Faces::of(table);
    Ok(Counts {
        vertices: live_vertices(table).count(),
        edges: live_edges(table).count(),
        faces: faces.count(),
        parts: parts(table, &faces),
    })
}

fn parts(table: &[u16], faces: &Faces) -> Vec<Part> {
    let ends = ends_by_vertex(table);
    let mut part_of = vec![None; VERTICES];
    let mut parts = Vec::new();
    for v in live_vertices(table) {
        if part_of[v as usize].is_none() {
            let reached = reach(v, parts.len(), &ends, &mut part_of);
            let orientable = has_marks(table, &reached, &ends);
            parts.push(Part { smallest: v, vertices: reached.len(), edges: 0, faces: 0, orientable });
        }
    }
    let part = |v: Vertex| part_of[v as usize].expect("a live vertex is in a part");
    for e in live_edges(table) {
        parts[part(leaves(table, 2 * e))].edges += 1;
    }
    for walk in &faces.walks {
        parts[part(a_vertex_of(table, walk))].faces += 1;
    }
    parts
}

/// For each vertex the edges at it, each with the vertex at the other end. A loop stands there twice.
fn ends_by_vertex(table: &[u16]) -> Vec<Vec<(Edge, Vertex)>> {
    let mut ends = vec![Vec::new(); VERTICES];
    for d in live_darts(table) {
        ends[leaves(table, d) as usize].push((edge_of(d), leaves(table, reverse(d))));
    }
    ends
}

/// "Live vertices are in one connected part if a chain of live edges joins them": all that chains from `start` reach.
fn reach(start: Vertex, part: usize, ends: &[Vec<(Edge, Vertex)>], part_of: &mut [Option<usize>]) -> Vec<Vertex> {
    let mut reached = vec![start];
    part_of[start as usize] = Some(part);
    let mut looked_at = 0;
    while looked_at < reached.len() {
        for &(_, u) in &ends[reached[looked_at] as usize] {
            if part_of[u as usize].is_none() {
                part_of[u as usize] = Some(part);
                reached.push(u);
            }
        }
        looked_at += 1;
    }
    reached
}

/// "A part is orientable if its vertices can be marked 0 or 1 so that each edge's turns are even exactly when its
/// ends' marks agree." The first vertex may have mark 0, since exchanging all marks changes nothing; each edge then
/// forces the mark at its other end. The part's vertices come in an order in which each, after the first, is joined
/// to one before it.
fn has_marks(table: &[u16], reached: &[Vertex], ends: &[Vec<(Edge, Vertex)>]) -> bool {
    let mut marks: Vec<Option<i32>> = vec![None; VERTICES];
    marks[reached[0] as usize] = Some(0);
    for &v in reached {
        let mark = marks[v as usize].expect("joined to a marked vertex");
        for &(e, u) in &ends[v as usize] {
            let forced = (mark + turns(table, e)).rem_euclid(2);
            if *marks[u as usize].get_or_insert(forced) != forced {
                return false;
            }
        }
    }
    true
}

/// "A walk is in the part whose corners it meets."
fn a_vertex_of(table: &[u16], walk: &Walk) -> Vertex {
    match walk {
        Walk::Ribbon(steps) => leaves(table, steps[0].dart),
        Walk::Empty(v) => *v,
    }
}
