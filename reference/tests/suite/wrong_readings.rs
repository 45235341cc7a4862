//! Document 01's "Wrong readings", each with a mesh on which it would answer otherwise.

use crate::*;
use reference::counts::counts;
use reference::trace::step;
use reference::weave::{ribbon_letters, Letter};

#[test]
fn a_walk_does_not_end_at_its_starting_dart_with_the_other_type() {
    let table = made(&[add(0), insert(0, around(0), around(0), 1)]);
    assert_eq!(ribbons(&table), [[step(0, 0), step(0, 1)]]);
}

#[test]
fn a_part_may_be_orientable_with_a_twisted_edge() {
    let table = made(&[add(0), add(1), insert(0, around(0), around(1), 1)]);
    assert!(counts(&table).unwrap().parts[0].orientable);
    // A second edge of the same kind agrees, one without turns does not.
    let two = |k| made(&[add(0), add(1), insert(0, around(0), around(1), 1), insert(1, 0, 1, k)]);
    assert!(counts(&two(-3)).unwrap().parts[0].orientable);
    assert!(!counts(&two(2)).unwrap().parts[0].orientable);
}

#[test]
fn a_twisted_loop_is_not_orientable_though_it_is_on_no_simple_path() {
    let table = made(&[add(0), add(1), insert(0, around(0), around(1), 0), insert(1, 0, 0, 1)]);
    assert!(!counts(&table).unwrap().parts[0].orientable);
}

#[test]
fn an_insertion_within_a_face_need_not_split_it() {
    let mut table = made(&[add(0), insert(0, around(0), around(0), 1)]);
    assert_eq!(edit(&mut table, insert(1, 0, 1, 0)), met(1, Rule::B2));
}

#[test]
fn the_hand_stays_when_an_edge_is_travelled_backwards() {
    let table = made(&[add(0), add(1), insert(0, around(0), around(1), 1)]);
    assert_eq!(ribbons(&table), [[step(0, 0), step(1, 1)]]);
    assert_eq!(ribbon_letters(&table, 0, 0), Ok(vec![Letter::O, Letter::U]));
    assert_eq!(ribbon_letters(&table, 1, 0), Ok(vec![Letter::O, Letter::U]));
}
