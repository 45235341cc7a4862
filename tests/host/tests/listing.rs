//! planner_listing: the reference's words in outputs of the exact size and longer ones, 7 for shorter ones, and
//! nothing written but the listing.

use host::guarded::Guarded;
use host::planner;
use reference::edit::edit;
use reference::faces::Faces;
use reference::listing::words;
use reference::table::{empty_mesh, DARTS, EDGES, VERTICES, WORDS};
use reference::trial::damage::damage;
use reference::trial::edits::{random_edit, WINDOWS};
use reference::trial::random::Random;
use reference::trial::tables::{random_mesh, random_table};

const GUARD: u16 = 0xa5c3;

/// One listing into so many words: the answer, and what the output then holds. The table and the guards are kept.
fn listed(table: &[u16], out_words: usize) -> (i64, Vec<u16>) {
    let lent = Guarded::new(table, GUARD);
    let mut out = Guarded::new(&vec![GUARD; out_words], GUARD);
    let answer = planner::listing(lent.slice(), out.slice_mut());
    assert_eq!(lent.slice(), table, "the table is only read");
    lent.assert_guards();
    out.assert_guards();
    (answer, out.slice().to_vec())
}

/// Outputs of the exact size, longer and shorter.
fn compare(random: &mut Random, table: &[u16]) {
    let expected = words(&Faces::of(table));
    let exact = expected.len();
    assert_eq!(listed(table, exact), (exact as i64, expected.clone()));

    let more = 1 + random.below(40);
    let (answer, out) = listed(table, exact + more);
    assert_eq!(answer, exact as i64);
    assert_eq!(out[..exact], expected);
    assert!(out[exact..].iter().all(|&word| word == GUARD), "nothing past the exact size");

    if exact > 0 {
        for size in [exact - 1, random.below(exact), 0] {
            assert_eq!(listed(table, size), (-7, vec![GUARD; size]));
        }
        assert_eq!(planner::listing_to_null(table), -7);
    }
}

#[test]
fn the_printed_samples() {
    let mut table = empty_mesh();
    assert_eq!(listed(&table, 0), (0, vec![]));
    assert_eq!(planner::listing_to_null(&table), 0);
    // Document 01's job: vertex 0, then a loop of turns 1. One walk: 0/0, then 0/1.
    table[7_168] = 65_534;
    assert_eq!(listed(&table, 2), (2, vec![0, 32_768]));
    (table[0], table[1], table[2_048], table[2_049], table[4_096], table[4_097]) = (1, 0, 1, 0, 0, 0);
    (table[6_144], table[7_168], table[7_680]) = (101, 0, 16);
    assert_eq!(listed(&table, 3), (3, vec![2, 0, 1]));
    // Without turns it has two walks of one step.
    table[6_144] = 100;
    assert_eq!(listed(&table, 4), (4, vec![1, 0, 1, 2]));
    table[7_168 + 511] = 65_534;
    assert_eq!(listed(&table, 6), (6, vec![1, 0, 1, 2, 0, 33_279]));
}

#[test]
fn tables_of_all_sizes() {
    let mut random = Random::new(0x11);
    for _ in 0..1_000 {
        let table = random_table(&mut random);
        compare(&mut random, &table);
    }
}

#[test]
fn full_tables() {
    let mut random = Random::new(0x12);
    let mut most = 0;
    for _ in 0..150 {
        let table = random_mesh(&mut random, VERTICES, EDGES).written();
        compare(&mut random, &table);
        most = most.max(words(&Faces::of(&table)).len());
    }
    assert!(most > DARTS + 800, "a listing with many walks was among them: {most} words");
}

#[test]
fn tables_made_by_edits() {
    let mut random = Random::new(0x13);
    for round in 0..60 {
        let mut table = empty_mesh();
        for step in 0..150 {
            let change = random_edit(&mut random, &table, WINDOWS[round % WINDOWS.len()], 8);
            let _ = edit(&mut table, change);
            if step % 10 == 0 {
                compare(&mut random, &table);
            }
        }
    }
}

#[test]
fn torn_goes_before_short() {
    let mut random = Random::new(0x14);
    let (mut torn, mut good) = (0, 0);
    for _ in 0..3_000 {
        let mut table = random_table(&mut random);
        damage(&mut random, &mut table);
        if reference::check::is_good(&table) {
            good += 1;
            continue;
        }
        torn += 1;
        for size in [0, 1, 5_000] {
            assert_eq!(listed(&table, size), (-1, vec![GUARD; size]));
        }
    }
    assert!(torn > 1_000 && good > 100, "{torn} torn, {good} good");
    let long = vec![random_table(&mut random), empty_mesh()].concat();
    for size in [0, 1, 7_680, WORDS - 1, WORDS + 1] {
        assert_eq!(listed(&long[..size], 5_000).0, -1);
        assert_eq!(listed(&long[..size], 0).0, -1);
    }
}
