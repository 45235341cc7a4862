//! planner_ask_insert_edge, planner_ask_delete_edge, planner_ask_turn_edge: the edit's own refusals, else the rule and the face
//! count before and after; nothing is written.

use host::compare::{Seen, Twins};
use host::planner::{self, A, B1, B2, BEFORE, E};
use reference::edit::Edit;
use reference::faces::face_count;
use reference::table::{empty_mesh, live_darts, live_edges, live_vertices, EDGES, VERTICES, WORDS};
use reference::trial::damage::damage;
use reference::trial::edits::{random_edge_edit, WINDOWS};
use reference::trial::random::Random;
use reference::trial::tables::{random_mesh, random_table};

const KINDS: [&str; 3] = ["insert", "delete", "turn"];

/// An insertion with the length that a plain IE writes.
fn insert(e: u16, c1: u16, c2: u16, k: i16) -> Edit {
    insert_long(e, c1, c2, k, 16)
}

fn insert_long(e: u16, c1: u16, c2: u16, k: i16, length: u16) -> Edit {
    Edit::InsertEdge { e, c1, c2, k, length }
}

/// `Twins::with_edge` has three faces with a flat loop, two with a turned one, one with an edge between its vertices.
#[test]
fn each_rule() {
    let asked = |c1, c2, k, change| Twins::with_edge(c1, c2, k).ask(change);
    let delete = Edit::DeleteEdge { e: 0 };
    assert_eq!(asked(32_768, 32_768, 0, delete), 3 * BEFORE + A + 2);
    assert_eq!(asked(32_768, 32_769, 0, delete), BEFORE + B1 + 2);
    assert_eq!(asked(32_768, 32_769, 1, delete), BEFORE + B1 + 2);
    assert_eq!(asked(32_768, 32_768, 1, delete), 2 * BEFORE + B2 + 2);
    for odd in [1, -1, 3, -99] {
        let turn = Edit::TurnEdge { e: 0, amount: odd };
        assert_eq!(asked(32_768, 32_768, 0, turn), 3 * BEFORE + A + 2);
        assert_eq!(asked(32_768, 32_768, 1, turn), 2 * BEFORE + B1 + 3);
        assert_eq!(asked(32_768, 32_769, 0, turn), BEFORE + B2 + 1);
    }
    for even in [0, 2, -2, 98, -98] {
        let turn = Edit::TurnEdge { e: 0, amount: even };
        assert_eq!(asked(32_768, 32_768, 0, turn), 3 * BEFORE + E + 3, "before and after are the same");
        assert_eq!(asked(32_768, 32_768, 1, turn), 2 * BEFORE + E + 2);
        assert_eq!(asked(32_768, 32_769, 0, turn), BEFORE + E + 1);
    }
    // The flat loop's corners are on two faces; both of the turned loop's are on one, with types 0 and 1.
    assert_eq!(asked(32_768, 32_768, 0, insert(1, 0, 1, 0)), 3 * BEFORE + A + 2);
    assert_eq!(asked(32_768, 32_768, 0, insert(1, 0, 32_769, 7)), 3 * BEFORE + A + 2);
    assert_eq!(asked(32_768, 32_768, 1, insert(1, 0, 1, 1)), 2 * BEFORE + B1 + 3);
    assert_eq!(asked(32_768, 32_768, 1, insert(1, 0, 1, 0)), 2 * BEFORE + B2 + 2);
    assert_eq!(asked(32_768, 32_768, 1, insert(1, 32_769, 32_769, 0)), 2 * BEFORE + B1 + 3);
}

/// On a full table of 512 vertices and 1,023 flat loops, each of which adds a face, the counts are 1,535 and 1,536.
#[test]
fn the_largest_counts() {
    let mut twins = Twins::new(&empty_mesh());
    for v in 0..VERTICES as u16 {
        twins.edit(Edit::AddVertex { v });
    }
    for e in 0..EDGES as u16 - 1 {
        let corner = if e == 0 { 32_768 } else { 0 };
        assert_eq!(twins.edit(insert(e, corner, corner, 0)), i64::from(e) + 513 + B1);
    }
    assert_eq!(twins.ask(insert(1_023, 0, 0, 0)), 1_535 * BEFORE + B1 + 1_536);
    assert_eq!(twins.edit(insert(1_023, 0, 0, 0)), B1 + 1_536);
    assert_eq!(twins.ask(Edit::DeleteEdge { e: 1_023 }), 1_536 * BEFORE + A + 1_535);
    assert_eq!(twins.ask(Edit::TurnEdge { e: 1_023, amount: 2 }), 1_536 * BEFORE + E + 1_536);
}

/// What the plain edit then answers, with the count of faces before it.
#[test]
fn the_edit_then_does_what_was_foretold() {
    let mut random = Random::new(0xa1);
    let mut seen = Seen::default();
    for round in 0..120 {
        let mut twins = Twins::new(&random_table(&mut random));
        for _ in 0..60 {
            let change = random_edge_edit(&mut random, twins.words(), WINDOWS[round % WINDOWS.len()], 5);
            let before = face_count(twins.words()) as i64;
            let (forecast, again) = (twins.ask(change), twins.ask(change));
            let answer = twins.edit(change);
            assert_eq!(forecast, again, "asked twice");
            assert_eq!(forecast, if answer < 0 { answer } else { answer + before * BEFORE }, "{change:?}");
            seen.note(change, forecast);
        }
    }
    seen.assert_all(&KINDS, 20);
}

#[test]
fn every_name_on_random_tables() {
    let mut random = Random::new(0xa2);
    let mut seen = Seen::default();
    for _ in 0..6 {
        let mut twins = Twins::new(&random_table(&mut random));
        for e in (0..EDGES as u16 + 2).chain([2_048, 32_768, 65_534, 65_535]) {
            let amount = random.pick(&[0, 1, -1, 2, 98, 99, -99, 100, 198, -198, 199, 32_767, -32_768]);
            for change in [Edit::DeleteEdge { e }, Edit::TurnEdge { e, amount }] {
                seen.note(change, twins.ask(change));
            }
        }
    }
    seen.assert_all(&["delete", "turn"], 20);
}

/// The forecast of an insertion is the same for every length but 0, for which it is 9, after all of the edit's other
/// numbers.
#[test]
fn every_length() {
    let mut twins = Twins::with_edge(32_768, 32_768, 1);
    for length in 1..=u16::MAX {
        assert_eq!(twins.ask(insert_long(1, 0, 1, 1, length)), 2 * BEFORE + B1 + 3, "length {length}");
    }
    assert_eq!(twins.ask(insert_long(1, 0, 1, 1, 0)), -9);
    for (e, c1, c2, k, own) in [
        (1_024, 0, 1, 1, -2),
        (1, 2_048, 1, 1, -2),
        (1, 0, 33_280, 1, -2),
        (0, 0, 1, 1, -3),
        (1, 2, 1, 1, -4),
        (1, 0, 32_768, 1, -4),
        (1, 0, 1, 100, -6),
        (1, 32_769, 32_769, -100, -6),
    ] {
        for length in [0, 1, 16, 65_535] {
            assert_eq!(twins.ask(insert_long(e, c1, c2, k, length)), own, "{e} {c1} {c2} {k} {length}");
        }
    }
}

/// Corners that are there, absent and malformed, two by two, with names, turns and lengths of every kind.
#[test]
fn every_pair_of_corners() {
    let mut random = Random::new(0xa3);
    let mut seen = Seen::default();
    for _ in 0..40 {
        let (vertices, edges) = (1 + random.below(4), random.below(4));
        let mut twins = Twins::new(&random_mesh(&mut random, vertices, edges).written());
        let mut corners: Vec<u16> = live_darts(twins.words()).collect();
        corners.extend(live_vertices(twins.words()).map(|v| 32_768 + v));
        corners.extend([2_047, 2_048, 32_767, 33_279, 33_280, 65_535]);
        let live = live_edges(twins.words()).next().unwrap_or(0);
        for &c1 in &corners {
            for &c2 in &corners {
                let any = random.below(EDGES) as u16;
                let e = random.pick(&[live, any, 1_024]);
                let k = random.pick(&[0, 1, -1, 2, 99, -99, 100, -100, 32_767, -32_768]);
                let change = insert_long(e, c1, c2, k, random.pick(&[0, 1, 16, 65_534, 65_535]));
                seen.note(change, twins.ask(change));
            }
        }
    }
    seen.assert_all(&["insert"], 20);
}

/// Every second table is damaged, and every twentieth is cut short.
#[test]
fn torn_tables() {
    let mut random = Random::new(0xa4);
    let (mut torn, mut good) = (0, 0);
    for round in 0..2_000 {
        let mut table = random_table(&mut random);
        let change = random_edge_edit(&mut random, &table, WINDOWS[round % WINDOWS.len()], 5);
        if round % 2 == 0 {
            damage(&mut random, &mut table);
        }
        if round % 20 == 0 {
            table.truncate(random.below(WORDS));
        }
        match Twins::new(&table).ask(change) {
            -1 => torn += 1,
            _ => good += 1,
        }
    }
    assert!(torn > 400 && good > 800, "{torn} torn, {good} good");
}

/// In each, names that do not exist, an edge that is live or absent, and turns past 99: 1 goes first.
#[test]
fn other_sizes() {
    let mut random = Random::new(0xa5);
    let long = [random_table(&mut random), empty_mesh()].concat();
    let asked = [insert_long(0, 0, 2_048, 100, 0), Edit::DeleteEdge { e: 1_024 }, Edit::TurnEdge { e: 0, amount: 200 }];
    for change in asked {
        for size in [0, 1, 511, 7_680, WORDS - 1, WORDS + 1, 2 * WORDS] {
            assert_eq!(Twins::new(&long[..size]).ask(change), -1, "{change:?} over {size} words");
        }
        assert_eq!(planner::ask_null(change), -1, "{change:?}");
    }
}
