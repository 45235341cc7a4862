//! The words of the table ("The table"): their layout, their accessors and the empty mesh.
//!
//! The layout stands here alone. The accessors read and write; whether a table is good is `check`'s matter.

use crate::refusal::{decline_if, Refusal};

pub type Vertex = u16;
pub type Edge = u16;
pub type Dart = u16;

pub const VERTICES: usize = 512;
pub const EDGES: usize = 1_024;
pub const DARTS: usize = 2 * EDGES;

/// Where each kind of word begins, in the order of document 01's list. "The table grows at its end by 1,024 words to
/// 8,704: for each edge its length" (document 02, request g).
pub const NEXT: usize = 0;
pub const PREVIOUS: usize = NEXT + DARTS;
pub const LEAVES: usize = PREVIOUS + DARTS;
pub const TURNS: usize = LEAVES + DARTS;
pub const VERTEX: usize = TURNS + EDGES;
pub const LENGTH: usize = VERTEX + VERTICES;
pub const WORDS: usize = LENGTH + EDGES;

/// A word of a dart or a vertex that is not live.
pub const NOT_LIVE: u16 = 65_535;
/// The word of a vertex that is live and isolated.
pub const ISOLATED: u16 = 65_534;
/// The word of an edge that is not live.
pub const NO_EDGE: u16 = 0;
/// The length of an edge that is not live: "1 to 65,535 if live, 0 if not".
pub const NO_LENGTH: u16 = 0;
/// What is added to an edge's turns to make its word.
pub const TURNS_PLUS: i32 = 100;
/// "turns run from -99 to 99"
pub const MOST_TURNS: i32 = 99;

/// "One call fills the slice with the empty mesh." A fresh fill tests only the size.
pub fn empty(table: &mut [u16]) -> Result<(), Refusal> {
    decline_if(table.len() != WORDS, Refusal::Torn)?;
    table.fill(NOT_LIVE);
    table[TURNS..VERTEX].fill(NO_EDGE);
    table[LENGTH..].fill(NO_LENGTH);
    Ok(())
}

/// The empty mesh in a slice of its own.
pub fn empty_mesh() -> Vec<u16> {
    let mut table = vec![0; WORDS];
    empty(&mut table).expect("the slice has the table's size");
    table
}

/// "2e leaves its first end, 2e+1 its second"
pub fn darts_of(e: Edge) -> [Dart; 2] {
    [2 * e, 2 * e + 1]
}

/// "the reverse of d is the other one"
pub fn reverse(d: Dart) -> Dart {
    let [first, second] = darts_of(edge_of(d));
    if d == first {
        second
    } else {
        first
    }
}

pub fn edge_of(d: Dart) -> Edge {
    d / 2
}

pub fn next(table: &[u16], d: Dart) -> Dart {
    table[NEXT + d as usize]
}

pub fn previous(table: &[u16], d: Dart) -> Dart {
    table[PREVIOUS + d as usize]
}

/// The vertex that d leaves.
pub fn leaves(table: &[u16], d: Dart) -> Vertex {
    table[LEAVES + d as usize]
}

pub fn edge_word(table: &[u16], e: Edge) -> u16 {
    table[TURNS + e as usize]
}

pub fn vertex_word(table: &[u16], v: Vertex) -> u16 {
    table[VERTEX + v as usize]
}

pub fn edge_is_live(table: &[u16], e: Edge) -> bool {
    edge_word(table, e) != NO_EDGE
}

/// "A dart is live if its edge is."
pub fn dart_is_live(table: &[u16], d: Dart) -> bool {
    edge_is_live(table, edge_of(d))
}

pub fn vertex_is_live(table: &[u16], v: Vertex) -> bool {
    vertex_word(table, v) != NOT_LIVE
}

pub fn vertex_is_isolated(table: &[u16], v: Vertex) -> bool {
    vertex_word(table, v) == ISOLATED
}

/// The turns of a live edge.
pub fn turns(table: &[u16], e: Edge) -> i32 {
    edge_word(table, e) as i32 - TURNS_PLUS
}

/// The length of an edge, in sixteenths of a millimetre.
pub fn length(table: &[u16], e: Edge) -> u16 {
    table[LENGTH + e as usize]
}

pub fn vertices() -> impl Iterator<Item = Vertex> {
    0..VERTICES as Vertex
}

pub fn edges() -> impl Iterator<Item = Edge> {
    0..EDGES as Edge
}

pub fn darts() -> impl Iterator<Item = Dart> {
    0..DARTS as Dart
}

pub fn live_vertices(table: &[u16]) -> impl Iterator<Item = Vertex> + '_ {
    vertices().filter(|&v| vertex_is_live(table, v))
}

pub fn isolated_vertices(table: &[u16]) -> impl Iterator<Item = Vertex> + '_ {
    vertices().filter(|&v| vertex_is_isolated(table, v))
}

pub fn live_edges(table: &[u16]) -> impl Iterator<Item = Edge> + '_ {
    edges().filter(|&e| edge_is_live(table, e))
}

pub fn live_darts(table: &[u16]) -> impl Iterator<Item = Dart> + '_ {
    darts().filter(|&d| dart_is_live(table, d))
}

/// Write `after` as the dart next after `before`, and `before` as the one previous to `after`.
pub fn set_neighbours(table: &mut [u16], before: Dart, after: Dart) {
    table[NEXT + before as usize] = after;
    table[PREVIOUS + after as usize] = before;
}

pub fn set_leaves(table: &mut [u16], d: Dart, v: Vertex) {
    table[LEAVES + d as usize] = v;
}

/// "The three words of a dart that is not live are 65,535."
pub fn clear_dart(table: &mut [u16], d: Dart) {
    for part in [NEXT, PREVIOUS, LEAVES] {
        table[part + d as usize] = NOT_LIVE;
    }
}

pub fn set_turns(table: &mut [u16], e: Edge, turns: i32) {
    table[TURNS + e as usize] = (turns + TURNS_PLUS) as u16;
}

pub fn set_length(table: &mut [u16], e: Edge, length: u16) {
    table[LENGTH + e as usize] = length;
}

/// The two words of an edge that is not live.
pub fn clear_edge(table: &mut [u16], e: Edge) {
    table[TURNS + e as usize] = NO_EDGE;
    table[LENGTH + e as usize] = NO_LENGTH;
}

pub fn set_vertex_word(table: &mut [u16], v: Vertex, word: u16) {
    table[VERTEX + v as usize] = word;
}
