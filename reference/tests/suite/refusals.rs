//! Every refusal of every edit and of the listing, the order where several hold, and that nothing is written.

use crate::*;
use reference::faces::face_count;
use reference::listing::listing;
use reference::refusal::Refusal::{self, *};
use reference::table::WORDS;

/// Vertex 0 with a loop of turns 99, vertex 1 isolated; vertex 2 is not there.
fn sample() -> Vec<u16> {
    made(&[add(0), add(1), insert(0, around(0), around(0), 99)])
}

/// The edit declines with this number and leaves the table as it was.
fn declines(change: Edit, refusal: Refusal) {
    let mut table = sample();
    assert_eq!(edit(&mut table, change), Err(refusal), "{change:?}");
    assert_eq!(table, sample(), "{change:?}");
}

fn accepts(change: Edit) {
    let mut table = sample();
    let faces = edit(&mut table, change).map(|answer| answer.faces);
    assert_eq!(faces, Ok(face_count(&table)), "{change:?}");
    assert!(reference::check::is_good(&table), "{change:?}");
}

#[test]
fn the_numbers_are_the_documents() {
    let of_01 = [Torn, NoSuchName, Taken, Absent, Joined, Overturned, ShortSlice, ManyTurns, Far, BadMark, CutRecord];
    assert_eq!(of_01.map(Refusal::number), [1, 2, 3, 4, 5, 6, 7, 8, 9, 10, 11]);
    assert_eq!([StaleForecast.number(), ManyEdges.number()], [12, 13]);
}

#[test]
fn torn_goes_before_everything() {
    let all = [
        add(2),
        add(512),
        add(0),
        remove(1),
        remove(600),
        remove(0),
        insert(1, 0, 1, 0),
        insert(0, 0, 0, 100),
        insert(2_000, 3_000, 9, 100),
        insert_long(1, 0, 1, 0, 0),
        delete(0),
        delete(9),
        delete(1_024),
        turn(0, 0),
        turn(9, 0),
        turn(0, 1),
    ];
    for change in all {
        let mut torn = sample();
        torn[7_000] = 200;
        let before = torn.clone();
        assert_eq!(edit(&mut torn, change), Err(Torn));
        assert_eq!(torn, before);
        assert_eq!(edit(&mut torn[..8_703], change), Err(Torn));
        assert_eq!(edit(&mut sample()[..7_680], change), Err(Torn), "the words of document 01 alone");
        assert_eq!(edit(&mut [], change), Err(Torn));
    }
}

#[test]
fn adding_a_vertex() {
    declines(add(512), NoSuchName);
    declines(add(65_535), NoSuchName);
    declines(add(0), Taken);
    declines(add(1), Taken);
    accepts(add(2));
    accepts(add(511));
}

#[test]
fn removing_a_vertex() {
    declines(remove(512), NoSuchName);
    declines(remove(32_769), NoSuchName);
    declines(remove(2), Absent);
    declines(remove(511), Absent);
    declines(remove(0), Joined);
    accepts(remove(1));
}

#[test]
fn inserting_an_edge() {
    accepts(insert(1, 0, 1, -99));
    accepts(insert(1_023, around(1), 1, 99));
    accepts(insert(1, around(1), around(1), 0));
    declines(insert(1_024, 0, 0, 0), NoSuchName);
    for malformed in [2_048, 32_767, 33_280, 65_535] {
        declines(insert(1, malformed, 0, 0), NoSuchName);
        declines(insert(1, 0, malformed, 0), NoSuchName);
    }
    declines(insert(0, 0, 1, 0), Taken);
    for absent in [2, 2_047, around(0), around(2), around(511)] {
        declines(insert(1, absent, 0, 0), Absent);
        declines(insert(1, 0, absent, 0), Absent);
    }
    declines(insert(1, 2, 0, 0), Absent);
    for k in [100, -100, 32_767, -32_768] {
        declines(insert(1, 0, 1, k), Overturned);
    }
    for length in [1, 2, 15, 17, 32_767, 32_768, 65_534, 65_535] {
        accepts(insert_long(1, 0, 1, -99, length));
    }
    for (e, c1, c2, k) in [(1, 0, 1, 0), (1, 0, 0, 99), (1_023, around(1), 1, -99), (7, around(1), around(1), 1)] {
        declines(insert_long(e, c1, c2, k, 0), Far);
    }
}

#[test]
fn inserting_an_edge_for_more_than_one_reason() {
    declines(insert(1_024, 5, 5, 100), NoSuchName);
    declines(insert(0, 5, 2_048, 100), NoSuchName);
    declines(insert(0, 33_280, 5, 100), NoSuchName);
    declines(insert(0, 5, 0, 100), Taken);
    declines(insert(0, 0, 0, 100), Taken);
    declines(insert(1, 5, 0, 100), Absent);
    declines(insert(1, 0, around(0), -100), Absent);
    // "A length of 0 on insertion is 9, the last of the edit's own numbers."
    declines(insert_long(1_024, 0, 1, 0, 0), NoSuchName);
    declines(insert_long(1, 0, 2_048, 0, 0), NoSuchName);
    declines(insert_long(0, 0, 1, 0, 0), Taken);
    declines(insert_long(1, 5, 0, 0, 0), Absent);
    declines(insert_long(1, 0, around(2), 0, 0), Absent);
    declines(insert_long(1, 0, 1, 100, 0), Overturned);
    declines(insert_long(1, 0, 1, -100, 0), Overturned);
    declines(insert_long(1_024, 2_048, 5, 100, 0), NoSuchName);
}

#[test]
fn deleting_an_edge() {
    declines(delete(1_024), NoSuchName);
    declines(delete(65_535), NoSuchName);
    declines(delete(1), Absent);
    declines(delete(1_023), Absent);
    accepts(delete(0));
}

#[test]
fn turning_an_edge() {
    declines(turn(1_024, 0), NoSuchName);
    declines(turn(1_024, 1), NoSuchName);
    declines(turn(1, 0), Absent);
    declines(turn(1, 32_767), Absent);
    for amount in [1, 2, 32_767, -32_768, -199] {
        declines(turn(0, amount), Overturned);
    }
    for amount in [0, -1, -198] {
        accepts(turn(0, amount));
    }
}

#[test]
fn the_listing() {
    let table = sample();
    let mut out = [7; 9];
    // One walk of two steps, then the isolated vertex 1.
    assert_eq!(listing(&table, &mut out), Ok(5));
    assert_eq!(out, [2, 0, 1, 0, 32_769, 7, 7, 7, 7], "nothing past the exact size");
    let mut exact = [7; 5];
    assert_eq!(listing(&table, &mut exact), Ok(5));
    assert_eq!(exact, out[..5]);
    for size in 0..5 {
        let mut short = [7; 5];
        assert_eq!(listing(&table, &mut short[..size]), Err(ShortSlice));
        assert_eq!(short, [7; 5]);
    }
    assert_eq!(listing(&vec![0; WORDS - 1], &mut []), Err(Torn), "torn before short");
    assert_eq!(listing(&empty_mesh(), &mut []), Ok(0));
}
