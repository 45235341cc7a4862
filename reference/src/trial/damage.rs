//! Damage to good tables: single words, and changes that keep most rules and break one. Some leave the table good.

use super::random::Random;
use super::tables::random_length;
use crate::table::*;

/// Change a good table of the right size in one way.
pub fn damage(random: &mut Random, table: &mut [u16]) {
    match random.below(18) {
        0 => one_word(random, table, NEXT, DARTS),
        1 => one_word(random, table, PREVIOUS, DARTS),
        2 => one_word(random, table, LEAVES, DARTS),
        3 => one_word(random, table, TURNS, EDGES),
        4 => one_word(random, table, VERTEX, VERTICES),
        5 => one_word(random, table, LENGTH, EDGES),
        6 => one_word(random, table, 0, WORDS),
        7 => swap_words(random, table),
        8 => swap_rotations(random, table),
        9 => exchange_next(random, table),
        10 => move_cycle(random, table),
        11 => name_another_dart(random, table),
        12 => change_live_mark(random, table),
        13 => change_length(random, table),
        14 => clear_live_dart(random, table),
        15 => move_dart(random, table),
        16 => change_vertex_mark(random, table),
        _ => turn_rotation_round(random, table),
    }
}

/// One word of a kind: a near value, a value of another word, a limit, or anything.
fn one_word(random: &mut Random, table: &mut [u16], from: usize, count: usize) {
    const LIMITS: [u16; 16] =
        [0, 1, 99, 100, 199, 200, 511, 512, 1_023, 1_024, 2_047, 2_048, 32_768, 65_533, ISOLATED, NOT_LIVE];
    let place = match (random.once_in(2), random_live_dart(random, table)) {
        (true, Some(d)) => place_of_live(table, d, from),
        _ => from + random.below(count),
    };
    let old = table[place];
    table[place] = match random.below(5) {
        0 => old.wrapping_add(1),
        1 => old.wrapping_sub(1),
        2 => random.pick(&LIMITS),
        3 => table[from + random.below(count)],
        _ => random.word(),
    };
}

/// Where the word of this kind for a live dart, its edge or its vertex stands.
fn place_of_live(table: &[u16], d: Dart, from: usize) -> usize {
    match from {
        TURNS => TURNS + edge_of(d) as usize,
        LENGTH => LENGTH + edge_of(d) as usize,
        VERTEX => VERTEX + leaves(table, d) as usize % VERTICES,
        _ => from + d as usize,
    }
}

fn random_live_dart(random: &mut Random, table: &[u16]) -> Option<Dart> {
    let darts: Vec<Dart> = live_darts(table).collect();
    (!darts.is_empty()).then(|| random.pick(&darts))
}

fn random_live_vertex(random: &mut Random, table: &[u16]) -> Option<Vertex> {
    let vertices: Vec<Vertex> = live_vertices(table).collect();
    (!vertices.is_empty()).then(|| random.pick(&vertices))
}

fn swap_words(random: &mut Random, table: &mut [u16]) {
    let (from, count) = random.pick(&[
        (NEXT, DARTS),
        (PREVIOUS, DARTS),
        (LEAVES, DARTS),
        (TURNS, EDGES),
        (VERTEX, VERTICES),
        (LENGTH, EDGES),
        (NEXT, 2 * DARTS),
        (NEXT, WORDS),
    ]);
    table.swap(from + random.below(count), from + random.below(count));
}

/// "Next" and "previous" of one dart exchanged.
fn swap_rotations(random: &mut Random, table: &mut [u16]) {
    if let Some(d) = random_live_dart(random, table) {
        table.swap(NEXT + d as usize, PREVIOUS + d as usize);
    }
}

/// Two darts exchange what is next after them, and "previous" follows: at one vertex this splits the cycle, at two
/// vertices it joins them, and the two kinds of words still undo each other.
fn exchange_next(random: &mut Random, table: &mut [u16]) {
    let (Some(a), Some(b)) = (random_live_dart(random, table), random_live_dart(random, table)) else {
        return;
    };
    let b = if random.once_in(2) { next_but(random, table, a) } else { b };
    let (after_a, after_b) = (next(table, a), next(table, b));
    if (after_a as usize) < DARTS && (after_b as usize) < DARTS {
        set_neighbours(table, a, after_b);
        set_neighbours(table, b, after_a);
    }
}

/// A dart a few places further round.
fn next_but(random: &mut Random, table: &[u16], d: Dart) -> Dart {
    let mut d = d;
    for _ in 0..random.below(4) {
        if (d as usize) < DARTS {
            d = next(table, d);
        }
    }
    if (d as usize) < DARTS {
        d
    } else {
        0
    }
}

/// All darts of one vertex leave another from now on, vertex words set right: two cycles at one vertex.
fn move_cycle(random: &mut Random, table: &mut [u16]) {
    let (Some(d), Some(to)) = (random_live_dart(random, table), random_live_vertex(random, table)) else {
        return;
    };
    let from = leaves(table, d);
    if (from as usize) < VERTICES && from != to {
        for d in darts().filter(|&d| dart_is_live(table, d)).collect::<Vec<_>>() {
            if leaves(table, d) == from {
                set_leaves(table, d, to);
            }
        }
        let smallest = vertex_word(table, from).min(vertex_word(table, to));
        set_vertex_word(table, to, smallest);
        set_vertex_word(table, from, random.pick(&[ISOLATED, ISOLATED, NOT_LIVE]));
    }
}

/// A vertex names a dart that leaves it but need not be its smallest.
fn name_another_dart(random: &mut Random, table: &mut [u16]) {
    if let Some(d) = random_live_dart(random, table) {
        let v = leaves(table, d);
        if (v as usize) < VERTICES {
            set_vertex_word(table, v, d);
        }
    }
}

/// An edge, every second time one that is live if any is.
fn random_edge(random: &mut Random, table: &[u16]) -> Edge {
    match random_live_dart(random, table) {
        Some(d) if random.once_in(2) => edge_of(d),
        _ => random.below(EDGES) as Edge,
    }
}

/// An edge word from live to not live, the darts kept, or the other way; the length with it, or as it was.
fn change_live_mark(random: &mut Random, table: &mut [u16]) {
    let e = random_edge(random, table);
    let before = length(table, e);
    if edge_is_live(table, e) {
        clear_edge(table, e);
    } else {
        set_turns(table, e, random.between(-MOST_TURNS, MOST_TURNS));
        set_length(table, e, random_length(random));
    }
    if random.once_in(2) {
        set_length(table, e, before);
    }
}

/// An edge gets another length, which is good if it is live, or none, which is good if it is not.
fn change_length(random: &mut Random, table: &mut [u16]) {
    let e = random_edge(random, table);
    let length = if random.once_in(2) { NO_LENGTH } else { random_length(random) };
    set_length(table, e, length);
}

/// One, two or three words of a live dart are those of a dart that is not live.
fn clear_live_dart(random: &mut Random, table: &mut [u16]) {
    if let Some(d) = random_live_dart(random, table) {
        if random.once_in(2) {
            clear_dart(table, d);
        } else {
            table[random.pick(&[NEXT, PREVIOUS, LEAVES]) + d as usize] = NOT_LIVE;
        }
    }
}

/// One dart leaves another vertex, and stays in its old cycle.
fn move_dart(random: &mut Random, table: &mut [u16]) {
    let v = random_live_vertex(random, table).unwrap_or(0);
    if let Some(d) = random_live_dart(random, table) {
        set_leaves(table, d, v);
        if random.once_in(2) {
            set_vertex_word(table, v, vertex_word(table, v).min(d));
        }
    }
}

/// A vertex word becomes one of the two marks.
fn change_vertex_mark(random: &mut Random, table: &mut [u16]) {
    let v = match random_live_vertex(random, table) {
        Some(v) if random.once_in(2) => v,
        _ => random.below(VERTICES) as Vertex,
    };
    set_vertex_word(table, v, random.pick(&[ISOLATED, NOT_LIVE]));
}

/// "Next" and "previous" exchanged at every live dart of one vertex, or at all: the mirror image, which is good.
fn turn_rotation_round(random: &mut Random, table: &mut [u16]) {
    let only = if random.once_in(3) { None } else { random_live_vertex(random, table) };
    for d in live_darts(table).collect::<Vec<_>>() {
        if only.is_none() || only == Some(leaves(table, d)) {
            table.swap(NEXT + d as usize, PREVIOUS + d as usize);
        }
    }
}
