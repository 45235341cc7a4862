//! Sample 7 and document 000's facts on the complete graph with four vertices.

use crate::*;
use reference::counts::counts;
use reference::table::Dart;
use reference::trial::k4::{dart, k4, SPHERE, TORUS};
use reference::weave::plain;

/// The darts along a closed walk through these vertices, from its smallest dart on.
fn walk_through(vertices: &[usize]) -> Vec<Dart> {
    let n = vertices.len();
    from_smallest((0..n).map(|i| dart(vertices[i], vertices[(i + 1) % n])).collect())
}

fn from_smallest(mut darts: Vec<Dart>) -> Vec<Dart> {
    let place = (0..darts.len()).min_by_key(|&i| darts[i]).unwrap();
    darts.rotate_left(place);
    darts
}

/// The listed walks as darts; with no turns, each starts at its smallest dart and has type 0 throughout.
fn flat_walks(table: &[u16]) -> Vec<Vec<Dart>> {
    let ribbons = ribbons(table);
    assert!(ribbons.iter().flatten().all(|s| s.t == 0));
    ribbons.iter().map(|steps| steps.iter().map(|s| s.dart).collect()).collect()
}

fn sorted(mut walks: Vec<Vec<Dart>>) -> Vec<Vec<Dart>> {
    walks.sort();
    walks
}

#[test]
fn the_first_rotation_has_the_printed_walks() {
    let printed: [&[usize]; 4] = [&[0, 1, 2], &[0, 2, 3], &[0, 3, 1], &[1, 3, 2]];
    assert_eq!(flat_walks(&k4(SPHERE, 0)), sorted(printed.iter().map(|w| walk_through(w)).collect()));
    assert_eq!(walk_sizes(&k4(SPHERE, 0)), [3, 3, 3, 3]);
}

#[test]
fn the_second_rotation_has_the_printed_walks() {
    let printed: [&[usize]; 2] = [&[0, 1, 3, 2, 0, 3, 1, 2, 3], &[0, 2, 1]];
    assert_eq!(flat_walks(&k4(TORUS, 0)), sorted(printed.iter().map(|w| walk_through(w)).collect()));
    assert_eq!(walk_sizes(&k4(TORUS, 0)), [9, 3]);
}

#[test]
fn the_first_rotation_with_all_turns_1() {
    let table = k4(SPHERE, 1);
    assert_eq!(walk_sizes(&table), [4, 4, 4]);
    assert_eq!(counts(&table).unwrap().euler(), 1);
    assert_eq!(plain(&table), Ok(true));
}

#[test]
fn the_sixteen_rotations_of_example_3_1() {
    let mut found = [0; 3];
    for which in 0..16 {
        let mut neighbours = [[1, 2, 3], [0, 2, 3], [0, 1, 3], [0, 1, 2]];
        for (v, list) in neighbours.iter_mut().enumerate() {
            if which >> v & 1 == 1 {
                list.swap(1, 2);
            }
        }
        match walk_sizes(&k4(neighbours, 0))[..] {
            [3, 3, 3, 3] => found[0] += 1,
            [9, 3] => found[1] += 1,
            [8, 4] => found[2] += 1,
            ref other => panic!("{other:?}"),
        }
    }
    assert_eq!(found, [2, 8, 6]);
}

#[test]
fn the_edits_that_make_it_leave_the_same_table() {
    // Edge by edge, each dart before the one that follows it in the finished rotation, as far as that is there.
    let mut edits: Vec<Edit> = (0..4).map(add).collect();
    edits.push(insert(0, around(0), around(1), 0));
    edits.push(insert(1, 0, around(2), 0)); // 0: 01 02         2: 20
    edits.push(insert(2, dart(0, 2), around(3), 0)); // 0: 01 03 02   3: 30
    edits.push(insert(3, dart(1, 0), dart(2, 0), 0)); // 1: 10 12     2: 20 21
    edits.push(insert(4, dart(1, 0), dart(3, 0), 0)); // 1: 10 12 13  3: 30 31
    edits.push(insert(5, dart(2, 1), dart(3, 0), 0)); // 2: 20 23 21  3: 30 31 32
    assert_eq!(made(&edits), k4(SPHERE, 0));
}
