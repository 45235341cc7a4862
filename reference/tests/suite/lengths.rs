//! Lengths in the table (document 02, request g): which edits write one, and what they leave alone. The check's two
//! rules stand in `good`, the refusals in `refusals` and `forecasts`, the records in `job`, cut lengths and tallies
//! in `ribbons` and `reader`.

use crate::*;
use reference::check::is_good;
use reference::forecast::{ask, commit};
use reference::run::{run, run_calls, Call};
use reference::table::*;
use reference::trial::edits::{random_edit, WINDOWS};
use reference::trial::random::Random;
use reference::trial::tables::{random_length, random_table, with_lengths};
use std::collections::BTreeMap;

/// The places of the words in which two tables differ.
fn differ(a: &[u16], b: &[u16]) -> Vec<usize> {
    (0..WORDS).filter(|&place| a[place] != b[place]).collect()
}

/// "Insertion takes a length, one 16-bit word, and deletion sets it to 0": one loop, its eight words and its
/// vertex's. Dart 2e stands at words 2e, 2,048 + 2e and 4,096 + 2e, the edge at 6,144 + e and 7,680 + e, vertex 5 at
/// 7,173.
#[test]
fn one_edge_word_by_word() {
    let before = made(&[add(5)]);
    for e in [0, 1, 2, 511, 512, 1_022, 1_023] {
        for length in [1, 2, 15, 16, 17, 32_768, 65_534, 65_535] {
            let mut table = before.clone();
            assert_eq!(edit(&mut table, insert_long(e, around(5), around(5), 1, length)), met(1, Rule::B2));
            let (at, d) = (usize::from(e), 2 * usize::from(e));
            let darts = [d, d + 1, 2_048 + d, 2_049 + d, 4_096 + d, 4_097 + d];
            assert_eq!(differ(&before, &table), [&darts[..], &[6_144 + at, 7_173, 7_680 + at]].concat());
            assert_eq!((table[6_144 + at], table[7_680 + at]), (101, length), "edge {e}");
            assert_eq!(edit(&mut table, delete(e)), met(1, Rule::B2));
            assert_eq!(table, before, "edge {e} of length {length}");
        }
    }
}

/// The same edge again with another length: nothing is left of the first.
#[test]
fn the_last_insertion_counts() {
    let mut table = made(&[add(0), insert_long(9, around(0), around(0), 3, 65_535)]);
    edit(&mut table, delete(9)).unwrap();
    assert_eq!(length(&table, 9), 0);
    edit(&mut table, insert_long(9, around(0), around(0), 3, 1)).unwrap();
    assert_eq!(table, made(&[add(0), insert_long(9, around(0), around(0), 3, 1)]));
}

/// A declined insertion of a live edge leaves it its length.
#[test]
fn a_declined_edit_alters_no_length() {
    let table = made(&[add(0), insert_long(9, around(0), around(0), 3, 700)]);
    for change in [insert_long(9, 18, 18, 0, 1), insert_long(9, 18, 18, 0, 0), turn(9, 97), delete(8), remove(0)] {
        let mut now = table.clone();
        assert!(edit(&mut now, change).is_err(), "{change:?}");
        assert_eq!(now, table, "{change:?}");
    }
}

/// "no other edit alters one": turns and vertices on random tables, accepted or not.
#[test]
fn turns_and_vertices_alter_no_length() {
    let mut random = Random::new(0x91);
    let mut accepted = [0; 3];
    for round in 0..200 {
        let mut table = random_table(&mut random);
        let lengths = table[LENGTH..].to_vec();
        for _ in 0..30 {
            let change = random_edit(&mut random, &table, WINDOWS[round % WINDOWS.len()], 0);
            let kind = match change {
                Edit::AddVertex { .. } => 0,
                Edit::RemoveVertex { .. } => 1,
                Edit::TurnEdge { .. } => 2,
                _ => continue,
            };
            accepted[kind] += usize::from(edit(&mut table, change).is_ok());
            assert_eq!(table[LENGTH..], lengths, "{change:?}");
        }
    }
    assert!(accepted.iter().all(|&n| n > 200), "{accepted:?}");
}

/// After a run the lengths are those of the accepted insertions that no accepted deletion came after: kept here
/// beside the table, in a list that begins with the lengths of the first table.
#[test]
fn lengths_after_a_run() {
    let mut random = Random::new(0x92);
    let (mut inserted, mut deleted) = (0, 0);
    for round in 0..200 {
        let mut table = if round % 2 == 0 { empty_mesh() } else { random_table(&mut random) };
        let mut kept: BTreeMap<Edge, u16> = live_edges(&table).map(|e| (e, length(&table, e))).collect();
        for _ in 0..60 {
            let change = random_edit(&mut random, &table, WINDOWS[round % WINDOWS.len()], 5);
            match (change, edit(&mut table, change)) {
                (Edit::InsertEdge { e, length, .. }, Ok(_)) => {
                    assert_eq!(kept.insert(e, length), None);
                    inserted += 1;
                }
                (Edit::DeleteEdge { e }, Ok(_)) => {
                    assert!(kept.remove(&e).is_some());
                    deleted += 1;
                }
                _ => {}
            }
        }
        assert!(edges().all(|e| length(&table, e) == kept.get(&e).copied().unwrap_or(0)));
        assert!(kept.values().all(|&length| length > 0) && is_good(&table));
    }
    assert!(inserted > 1_000 && deleted > 500, "{inserted} inserted, {deleted} deleted");
}

/// The edit with another length, if it has one that is not 0.
fn relengthened(random: &mut Random, change: Edit) -> Edit {
    match change {
        Edit::InsertEdge { e, c1, c2, k, length } if length > 0 => insert_long(e, c1, c2, k, random_length(random)),
        other => other,
    }
}

/// A length decides nothing but itself: a run over the same mesh with other lengths has the same answers and leaves the
/// same other words.
#[test]
fn other_lengths_other_words_the_same() {
    let mut random = Random::new(0x93);
    for round in 0..200 {
        let mut table = random_table(&mut random);
        let mut other = with_lengths(&table, |_| random_length(&mut random));
        let mut now = table.clone();
        let edits: Vec<Edit> = (0..40)
            .map(|_| {
                let change = random_edit(&mut random, &now, WINDOWS[round % WINDOWS.len()], 5);
                let _ = edit(&mut now, change);
                change
            })
            .collect();
        let others: Vec<Edit> = edits.iter().map(|&change| relengthened(&mut random, change)).collect();
        let (first, second) = (run(&mut table, &edits), run(&mut other, &others));
        assert_eq!((first.answers, first.changes), (second.answers, second.changes));
        assert_eq!(table[..LENGTH], other[..LENGTH]);
    }
}

/// A commit writes the length of the edit that it is given; the forecast says nothing of it.
#[test]
fn a_commit_writes_its_own_length() {
    let mut table = made(&[add(0), add(1)]);
    let asked = insert_long(0, around(0), around(1), 1, 40);
    let foretold = ask(&table, asked).unwrap();
    assert_eq!(ask(&table, insert_long(0, around(0), around(1), 1, 65_535)), Ok(foretold));
    let committed = insert_long(0, around(0), around(1), 1, 41);
    assert_eq!(commit(&mut table, committed, foretold), met(1, Rule::A));
    assert_eq!(table[7_680], 41);
    let calls = [Call::Plain(delete(0)), Call::Commit(asked, foretold)];
    assert!(run_calls(&mut table, &calls).answers.iter().all(Result::is_ok));
    assert_eq!(table[7_680], 40);
}
