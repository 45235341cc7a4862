//! Edits with arguments of every kind: right, absent, taken, malformed, past the range, overturned, without a length.

use super::random::Random;
use super::tables::random_length;
use crate::edit::Edit;
use crate::faces::VERTEX_CORNER;
use crate::table::*;

/// Where most names are drawn from. A narrow window makes edits meet each other often.
#[derive(Clone, Copy, Debug)]
pub struct Window {
    pub vertices: usize,
    pub edges: usize,
}

pub const WINDOWS: [Window; 5] = [
    Window { vertices: 3, edges: 5 },
    Window { vertices: 8, edges: 12 },
    Window { vertices: 40, edges: 90 },
    Window { vertices: VERTICES, edges: EDGES },
    Window { vertices: 2, edges: EDGES },
];

/// An edit for the table as it is. Most are accepted; `growth`, 0 to 10, says how far insertions outnumber deletions.
pub fn random_edit(random: &mut Random, table: &[u16], window: Window, growth: usize) -> Edit {
    let insertions = 25 + 5 * growth;
    match random.below(100 + insertions) {
        0..=14 => Edit::AddVertex { v: random_vertex(random, window, |v| !vertex_is_live(table, v)) },
        15..=22 => Edit::RemoveVertex { v: random_vertex(random, window, |v| vertex_is_isolated(table, v)) },
        23..=64 => Edit::TurnEdge { e: random_live_edge(random, table, window), amount: random_turns(random) },
        65..=99 => Edit::DeleteEdge { e: random_live_edge(random, table, window) },
        _ => random_insertion(random, table, window),
    }
}

/// The same, an insertion, a deletion or a turn: what has a forecast.
pub fn random_edge_edit(random: &mut Random, table: &[u16], window: Window, growth: usize) -> Edit {
    loop {
        let change = random_edit(random, table, window, growth);
        if !matches!(change, Edit::AddVertex { .. } | Edit::RemoveVertex { .. }) {
            return change;
        }
    }
}

fn random_insertion(random: &mut Random, table: &[u16], window: Window) -> Edit {
    let e = random_name(random, window.edges, EDGES, |e| !edge_is_live(table, e));
    let c1 = random_corner(random, table, window);
    let c2 = if random.once_in(4) { c1 } else { random_corner(random, table, window) };
    let k = random_turns(random);
    let length = if random.once_in(12) { NO_LENGTH } else { random_length(random) };
    Edit::InsertEdge { e, c1, c2, k, length }
}

fn random_vertex(random: &mut Random, window: Window, right: impl Fn(Vertex) -> bool) -> u16 {
    random_name(random, window.vertices, VERTICES, right)
}

fn random_live_edge(random: &mut Random, table: &[u16], window: Window) -> u16 {
    random_name(random, window.edges, EDGES, |e| edge_is_live(table, e))
}

/// A name in the window, mostly one that is right; once in thirty anything: the ends of the range and past it.
fn random_name(random: &mut Random, window: usize, range: usize, right: impl Fn(u16) -> bool) -> u16 {
    if random.once_in(30) {
        let past = range as u16;
        let word = random.word();
        return random.pick(&[0, past - 1, past, past + 1, 32_767, 32_768, 65_534, 65_535, word]);
    }
    let names: Vec<u16> = (0..window as u16).filter(|&name| right(name)).collect();
    if names.is_empty() || random.once_in(6) {
        random.below(window) as u16
    } else {
        random.pick(&names)
    }
}

/// Turns or an amount of turns: mostly small, at times at the limits and past them.
pub fn random_turns(random: &mut Random) -> i16 {
    const LIMITS: [i16; 14] = [98, 99, 100, 101, -98, -99, -100, -101, 198, -198, 199, -199, i16::MAX, i16::MIN];
    match random.below(20) {
        0 => random.pick(&LIMITS),
        1 => random.word() as i16,
        2 => random.between(-MOST_TURNS, MOST_TURNS) as i16,
        _ => random.between(-3, 3) as i16,
    }
}

/// A corner word: mostly one that is there; else absent, or malformed.
pub fn random_corner(random: &mut Random, table: &[u16], window: Window) -> u16 {
    match random.below(40) {
        0 => random_malformed(random),
        1 => random.below(DARTS) as u16,
        2 => VERTEX_CORNER + random.below(VERTICES) as u16,
        3 => random.below(2 * window.edges) as u16,
        4 => VERTEX_CORNER + random.below(window.vertices) as u16,
        _ => random_right_corner(random, table).unwrap_or(VERTEX_CORNER),
    }
}

fn random_malformed(random: &mut Random) -> u16 {
    let between = random.between(DARTS as i32, VERTEX_CORNER as i32 - 1) as u16;
    let above = random.between(VERTEX_CORNER as i32 + VERTICES as i32, 65_535) as u16;
    random.pick(&[2_048, 2_049, 32_767, 33_280, 33_281, 65_534, 65_535, between, above])
}

/// A corner that is there, if any is.
fn random_right_corner(random: &mut Random, table: &[u16]) -> Option<u16> {
    let around = isolated_vertices(table).map(|v| VERTEX_CORNER + v);
    let corners: Vec<u16> = live_darts(table).chain(around).collect();
    (!corners.is_empty()).then(|| random.pick(&corners))
}

/// The kind of an edit, for counting how often each came up.
pub fn kind(change: Edit) -> &'static str {
    match change {
        Edit::AddVertex { .. } => "add",
        Edit::RemoveVertex { .. } => "remove",
        Edit::InsertEdge { .. } => "insert",
        Edit::DeleteEdge { .. } => "delete",
        Edit::TurnEdge { .. } => "turn",
    }
}
