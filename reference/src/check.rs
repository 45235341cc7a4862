//! Good or torn ("A good table keeps these rules ... Anything else is torn").
//!
//! The rules are tested one after the other, each over the whole table, in the order in which document 01 gives them,
//! and then the rule of document 02, request g: "a good table keeps that too".
//! A rule may rely on those before it. All of it is linear in the size of the table.

use crate::refusal::{decline_if, Refusal};
use crate::table::*;

/// Decline with 1 a slice that is not 8,704 words, "or not a good table".
pub fn check(table: &[u16]) -> Result<(), Refusal> {
    decline_if(!is_good(table), Refusal::Torn)
}

pub fn is_good(table: &[u16]) -> bool {
    table.len() == WORDS
        && edge_words_are_turns(table)
        && dead_darts_are_clear(table)
        && live_darts_leave_live_vertices(table)
        && next_and_previous_undo_each_other(table)
        && each_vertex_has_one_cycle(table)
        && vertex_words_are_right(table)
        && lengths_are_right(table)
}

/// "for each edge, 0 if not live, else its turns plus 100; turns run from -99 to 99"
fn edge_words_are_turns(table: &[u16]) -> bool {
    live_edges(table).all(|e| turns(table, e).abs() <= MOST_TURNS)
}

/// "The three words of a dart that is not live are 65,535."
fn dead_darts_are_clear(table: &[u16]) -> bool {
    darts()
        .filter(|&d| !dart_is_live(table, d))
        .all(|d| next(table, d) == NOT_LIVE && previous(table, d) == NOT_LIVE && leaves(table, d) == NOT_LIVE)
}

/// "every live dart leaves a live vertex"
fn live_darts_leave_live_vertices(table: &[u16]) -> bool {
    live_darts(table).all(|d| {
        let v = leaves(table, d);
        (v as usize) < VERTICES && vertex_is_live(table, v)
    })
}

/// "'next' and 'previous' undo each other on live darts": both lead from live darts to live darts, and back.
fn next_and_previous_undo_each_other(table: &[u16]) -> bool {
    let is_live = |word: u16| (word as usize) < DARTS && dart_is_live(table, word);
    live_darts(table).all(|d| {
        let (after, before) = (next(table, d), previous(table, d));
        is_live(after) && is_live(before) && previous(table, after) == d && next(table, before) == d
    })
}

/// "the live darts leaving a vertex form one cycle of 'next'": go round from the smallest dart of each vertex; no
/// dart on the way leaves another vertex, and in the end no live dart is left out.
fn each_vertex_has_one_cycle(table: &[u16]) -> bool {
    let mut seen = vec![false; DARTS];
    for first in smallest_darts(table).into_iter().flatten() {
        let mut d = first;
        loop {
            if leaves(table, d) != leaves(table, first) {
                return false;
            }
            seen[d as usize] = true;
            d = next(table, d);
            if d == first {
                break;
            }
        }
    }
    live_darts(table).all(|d| seen[d as usize])
}

/// "for each vertex, 65,535 if not live, 65,534 if live and isolated, else its smallest live dart". Which vertices
/// are live is free, but that no dart leaves one that is not.
fn vertex_words_are_right(table: &[u16]) -> bool {
    let smallest = smallest_darts(table);
    live_vertices(table).all(|v| vertex_word(table, v) == smallest[v as usize].unwrap_or(ISOLATED))
}

/// "for each edge its length, 1 to 65,535 if live, 0 if not". No word is above 65,535.
fn lengths_are_right(table: &[u16]) -> bool {
    edges().all(|e| (length(table, e) != NO_LENGTH) == edge_is_live(table, e))
}

/// For each vertex the smallest live dart that leaves it, if any does.
fn smallest_darts(table: &[u16]) -> Vec<Option<Dart>> {
    let mut smallest = vec![None; VERTICES];
    for d in live_darts(table) {
        smallest[leaves(table, d) as usize].get_or_insert(d);
    }
    smallest
}
