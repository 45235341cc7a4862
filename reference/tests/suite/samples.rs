//! Document 01's samples 1 to 6; sample 7 stands in `k4`.

use crate::*;
use reference::counts::counts;
use reference::edit::verdict;
use reference::refusal::Refusal;
use reference::table::turns;
use reference::weave::plain;

/// V, E, F, Euler number, and whether the only part is orientable.
fn facts(table: &[u16]) -> (usize, usize, usize, i64, bool) {
    let c = counts(table).unwrap();
    assert_eq!(c.parts.len(), 1);
    assert_eq!(c.parts[0].euler(), c.euler(), "the mesh is its only part");
    (c.vertices, c.edges, c.faces, c.euler(), c.parts[0].orientable)
}

#[test]
fn sample_1_no_vertex() {
    let c = counts(&empty_mesh()).unwrap();
    assert_eq!((c.vertices, c.edges, c.faces, c.parts.len(), c.euler()), (0, 0, 0, 0, 0));
    assert_eq!(plain(&empty_mesh()), Ok(true));
}

#[test]
fn sample_1_one_vertex() {
    for v in [0, 1, 511] {
        assert_eq!(facts(&made(&[add(v)])), (1, 0, 1, 2, true));
    }
}

#[test]
fn sample_2_two_vertices_one_edge() {
    for k in [0, 1] {
        let table = made(&[add(0), add(1), insert(0, around(0), around(1), k)]);
        assert_eq!(facts(&table), (2, 1, 1, 2, true));
    }
}

#[test]
fn sample_3_one_loop() {
    let one_loop = |k| made(&[add(0), insert(0, around(0), around(0), k)]);
    assert_eq!(facts(&one_loop(0)), (1, 1, 2, 2, true));
    assert_eq!(facts(&one_loop(1)), (1, 1, 1, 1, false));
}

/// A loop, then a second edge between corners 0 and 1.
fn two_loops(k0: i16, k1: i16) -> Vec<u16> {
    made(&[add(0), insert(0, around(0), around(0), k0), insert(1, 0, 1, k1)])
}

#[test]
fn sample_4_example_7_1() {
    assert_eq!(facts(&two_loops(1, 0)), (1, 2, 1, 0, false));
}

#[test]
fn sample_5_the_same_with_other_turns() {
    assert_eq!(facts(&two_loops(0, 0)), (1, 2, 1, 0, true));
    let both = two_loops(1, 1);
    assert_eq!(facts(&both), (1, 2, 2, 1, false));
    assert_eq!(walk_sizes(&both), [2, 2]);
    assert_eq!(plain(&both), Ok(true));
    assert_eq!(plain(&two_loops(1, -1)), Ok(false));
}

#[test]
fn sample_6_turning_at_the_limit() {
    let mut table = made(&[add(0), insert(0, around(0), around(0), 99)]);
    let before = table.clone();
    assert_eq!(edit(&mut table, turn(0, 1)), Err(Refusal::Overturned));
    assert_eq!(table, before);
    assert!(edit(&mut table, turn(0, -198)).is_ok());
    assert_eq!(turns(&table, 0), -99);
    assert_eq!(verdict(&table, turn(0, -1)), Err(Refusal::Overturned));
}

#[test]
fn a_second_dart_in_the_same_corner_stands_before_the_dart_that_names_it() {
    // "With c1 = c2 the order is old, 2e, 2e+1, d": old is 1 and d is 0.
    let table = made(&[add(0), insert(0, around(0), around(0), 0), insert(5, 0, 0, 0)]);
    let after = |d| reference::table::next(&table, d);
    assert_eq!([after(1), after(10), after(11), after(0)], [10, 11, 0, 1]);
}

#[test]
fn deletion_leaves_isolated_vertices_and_the_smallest_dart() {
    let mut table = made(&[add(0), add(1), insert(4, around(0), around(1), 0), insert(2, 8, 9, 0), insert(7, 8, 8, 3)]);
    let smallest = |table: &[u16], v| reference::table::vertex_word(table, v);
    assert_eq!([smallest(&table, 0), smallest(&table, 1)], [4, 5]);
    edit(&mut table, delete(2)).unwrap();
    assert_eq!([smallest(&table, 0), smallest(&table, 1)], [8, 9]);
    edit(&mut table, delete(4)).unwrap();
    assert_eq!([smallest(&table, 0), smallest(&table, 1)], [14, 65_534]);
    edit(&mut table, delete(7)).unwrap();
    assert_eq!(table, made(&[add(0), add(1)]));
}
