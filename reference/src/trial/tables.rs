//! Good tables, written straight from rotations and by no edit.

use super::random::Random;
use crate::job::PLAIN_LENGTH;
use crate::table::*;

/// A mesh as it is said in words: at each live vertex its darts counterclockwise, and each live edge with its turns and
/// its length.
#[derive(Clone, Debug, Default)]
pub struct Mesh {
    pub rotations: Vec<(Vertex, Vec<Dart>)>,
    pub edges: Vec<(Edge, i32, u16)>,
}

impl Mesh {
    /// The table of this mesh.
    pub fn written(&self) -> Vec<u16> {
        let mut table = empty_mesh();
        for &(e, turns, length) in &self.edges {
            set_turns(&mut table, e, turns);
            set_length(&mut table, e, length);
        }
        for (v, rotation) in &self.rotations {
            set_vertex_word(&mut table, *v, rotation.iter().copied().min().unwrap_or(ISOLATED));
            for (i, &d) in rotation.iter().enumerate() {
                set_neighbours(&mut table, d, rotation[(i + 1) % rotation.len()]);
                set_leaves(&mut table, d, *v);
            }
        }
        table
    }
}

/// How the turns of a random mesh are drawn.
#[derive(Clone, Copy, Debug, PartialEq, Eq)]
pub enum Turns {
    Flat,
    Ones,
    OneHand,
    Small,
    Any,
}

const ALL_TURNS: [Turns; 5] = [Turns::Flat, Turns::Ones, Turns::OneHand, Turns::Small, Turns::Any];

impl Turns {
    fn draw(self, random: &mut Random) -> i32 {
        match self {
            Turns::Flat => 0,
            Turns::Ones => 1,
            Turns::OneHand => random.between(0, MOST_TURNS),
            Turns::Small => random.between(-2, 2),
            Turns::Any => random.between(-MOST_TURNS, MOST_TURNS),
        }
    }
}

/// The length of a live edge: at times the shortest, that of a plain IE or the longest, else anything between.
pub fn random_length(random: &mut Random) -> u16 {
    match random.below(8) {
        0 => 1,
        1..=3 => PLAIN_LENGTH,
        4 => u16::MAX,
        _ => 1 + random.below(65_535) as u16,
    }
}

/// The same table with these lengths on its live edges.
pub fn with_lengths(table: &[u16], mut of: impl FnMut(Edge) -> u16) -> Vec<u16> {
    let mut table = table.to_vec();
    for e in live_edges(&table).collect::<Vec<_>>() {
        set_length(&mut table, e, of(e));
    }
    table
}

/// A mesh of so many vertices and edges with names from the whole range. A drawn share of the vertices stays
/// isolated, and a drawn share of the edges are loops within one corner, which make many faces.
pub fn random_mesh(random: &mut Random, vertices: usize, edges: usize) -> Mesh {
    let names = random.names(vertices, VERTICES);
    let mut rotations: Vec<(Vertex, Vec<Dart>)> = names.into_iter().map(|v| (v, Vec::new())).collect();
    let mut strips = Vec::new();
    if vertices > 0 {
        let joined = 1 + random.below(vertices);
        let loops = random.pick(&[1, 2, 10, 1_000_000]);
        let kind = random.pick(&ALL_TURNS);
        for e in random.names(edges, EDGES) {
            strips.push((e, kind.draw(random), random_length(random)));
            let first = put(random, &mut rotations[..joined], 2 * e);
            if random.once_in(loops) {
                rotations[first.0].1.insert(first.1 + 1, 2 * e + 1);
            } else {
                put(random, &mut rotations[..joined], 2 * e + 1);
            }
        }
    }
    Mesh { rotations, edges: strips }
}

/// Put a dart anywhere among the rotations and answer where.
fn put(random: &mut Random, rotations: &mut [(Vertex, Vec<Dart>)], d: Dart) -> (usize, usize) {
    let v = random.below(rotations.len());
    let place = random.below(rotations[v].1.len() + 1);
    rotations[v].1.insert(place, d);
    (v, place)
}

/// A table of any size: often small, often full, else anything between.
pub fn random_table(random: &mut Random) -> Vec<u16> {
    let (most_vertices, most_edges) =
        random.pick(&[(4, 6), (12, 20), (60, 120), (VERTICES, EDGES), (VERTICES, EDGES), (1, EDGES), (VERTICES, 3)]);
    let full = random.once_in(4);
    let vertices = if full { most_vertices } else { random.below(most_vertices + 1) };
    let edges = if full { most_edges } else { random.below(most_edges + 1) };
    let edges = if vertices == 0 { 0 } else { edges };
    random_mesh(random, vertices, edges).written()
}
