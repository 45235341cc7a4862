//! Long random runs of the five edits with arguments of every kind: each answer and every word of the table compared
//! with the reference's after each edit, and the guard words beside the slice.

use host::compare::{Seen, Twins};
use host::planner;
use reference::edit::Edit;
use reference::table::{empty_mesh, EDGES, VERTICES, WORDS};
use reference::trial::damage::damage;
use reference::trial::edits::{random_edit, Window, WINDOWS};
use reference::trial::random::Random;
use reference::trial::tables::{random_mesh, random_table};

const KINDS: [&str; 5] = ["add", "remove", "insert", "delete", "turn"];

/// A run of so many edits from this table. How fast it grows changes on the way, so that it fills and empties.
fn run(random: &mut Random, table: &[u16], window: Window, edits: usize, seen: &mut Seen) {
    let mut twins = Twins::new(table);
    let mut growth = 10;
    for step in 0..edits {
        if step % 1_000 == 999 {
            growth = random.pick(&[10, 10, 10, 5, 0]);
        }
        let change = random_edit(random, twins.words(), window, growth);
        let answer = twins.edit(change);
        seen.note(change, answer);
    }
}

/// Small meshes: edits meet each other all the time.
#[test]
fn long_runs_in_narrow_windows() {
    let mut seen = Seen::default();
    for seed in 0..4 {
        let mut random = Random::new(0x5000 + seed);
        for window in &WINDOWS[..3] {
            run(&mut random, &empty_mesh(), *window, 10_000, &mut seen);
        }
    }
    seen.assert_all(&KINDS, 100);
}

#[test]
fn a_long_run_over_the_whole_range() {
    let mut seen = Seen::default();
    let mut random = Random::new(0x6000);
    run(&mut random, &empty_mesh(), Window { vertices: VERTICES, edges: EDGES }, 12_000, &mut seen);
    seen.assert_all(&KINDS, 5);
}

#[test]
fn runs_from_random_and_full_tables() {
    let mut seen = Seen::default();
    let mut random = Random::new(0x7000);
    for round in 0..40 {
        let full = round % 4 == 0;
        let table = if full { random_mesh(&mut random, VERTICES, EDGES).written() } else { random_table(&mut random) };
        let window = random.pick(&WINDOWS);
        run(&mut random, &table, window, 300, &mut seen);
    }
    seen.assert_all(&KINDS, 5);
}

/// Few vertices and many edges: long rotations and many corners at one vertex.
#[test]
fn runs_with_long_rotations() {
    let mut seen = Seen::default();
    for seed in 0..2 {
        let mut random = Random::new(0x8000 + seed);
        run(&mut random, &empty_mesh(), WINDOWS[4], 4_000, &mut seen);
    }
    seen.assert_all(&["insert", "delete", "turn"], 10);
}

#[test]
fn torn_tables_are_declined_and_kept() {
    let mut random = Random::new(0x9000);
    let (mut torn, mut good) = (0, 0);
    for _ in 0..5_000 {
        let mut table = random_table(&mut random);
        let window = random.pick(&WINDOWS);
        let change = random_edit(&mut random, &table, window, 5);
        damage(&mut random, &mut table);
        match Twins::new(&table).edit(change) {
            -1 => torn += 1,
            _ => good += 1,
        }
    }
    assert!(torn > 2_000 && good > 1_000, "{torn} torn, {good} good");
}

#[test]
fn other_sizes_are_declined_and_kept() {
    let mut random = Random::new(0xa000);
    let long = [random_table(&mut random), empty_mesh()].concat();
    let edits = [
        Edit::AddVertex { v: 0 },
        Edit::RemoveVertex { v: 600 },
        Edit::InsertEdge { e: 0, c1: 0, c2: 2_048, k: 100, length: 0 },
        Edit::DeleteEdge { e: 0 },
        Edit::TurnEdge { e: 1_024, amount: 1 },
    ];
    for change in edits {
        for size in [0, 1, 511, 7_680, WORDS - 1, WORDS + 1, 2 * WORDS] {
            assert_eq!(Twins::new(&long[..size]).edit(change), -1, "{change:?} over {size} words");
        }
        assert_eq!(planner::edit_null(change), -1, "{change:?}");
    }
}
