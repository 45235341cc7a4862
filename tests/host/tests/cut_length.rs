//! planner_cut_length: the reference's answers on whole, damaged and short tables, over the lengths that the table
//! itself has; sums by hand of edges, O's and lap; every step that names a ribbon, in both senses; each edge's length
//! and no other's.

use host::guarded::Guarded;
use host::planner;
use host::tables::{any_step, crossed_loops, loops_in_a_row, strip, whole_or_damaged};
use reference::edit::Edit;
use reference::faces::{Faces, VERTEX_CORNER};
use reference::length::cut_length;
use reference::table::{isolated_vertices, length, live_edges, turns, DARTS, EDGES, LENGTH, VERTICES};
use reference::trace::{other_sense, walk_from, Step};
use reference::trial::random::Random;
use reference::trial::solids::{cube, solid};
use reference::trial::tables::{random_mesh, random_table, with_lengths};
use std::collections::{BTreeMap, BTreeSet};

const GUARD: u16 = 0xa5c3;

/// Both answers, which agree; the table is only read.
fn compare(table: &[u16], dart: u16, kind: u16) -> i64 {
    let lent = Guarded::new(table, GUARD);
    let answer = planner::cut_length(lent.slice(), dart, kind);
    assert_eq!(answer, planner::as_number(cut_length(table, dart, kind).map(|sum| sum as usize)));
    assert_eq!(lent.slice(), table);
    lent.assert_guards();
    answer
}

/// What the library answers for each of these steps.
fn answers(table: &[u16], steps: &[Step]) -> BTreeSet<i64> {
    steps.iter().map(|s| planner::cut_length(table, s.dart, u16::from(s.t))).collect()
}

/// The steps of every ribbon.
fn ribbons(table: &[u16]) -> Vec<Vec<Step>> {
    let walks = Faces::of(table).walks;
    walks.iter().map(|walk| walk.steps().to_vec()).filter(|steps| !steps.is_empty()).collect()
}

/// The table with one length on all its edges.
fn all_of(table: &[u16], length: u16) -> Vec<u16> {
    with_lengths(table, |_| length)
}

/// The table with 1,000 on edge 0 and 70 on edge 1, which are all that it has.
fn with_1000_and_70(table: &[u16]) -> Vec<u16> {
    with_lengths(table, |e| [1_000, 70][usize::from(e)])
}

#[test]
fn a_cube_by_hand() {
    // All turns 1: four ribbons of six steps, each over six different edges, three times over and three times under.
    let table = all_of(&solid(&cube(), 1), 1_000);
    assert_eq!(compare(&table, 0, 0), 6_000 + 3 * 8 + 320);
    assert_eq!(compare(&all_of(&table, 65_535), 0, 0), 6 * 65_535 + 3 * 8 + 320);
    assert_eq!(compare(&all_of(&table, 1), 0, 0), 6 + 3 * 8 + 320);
    assert_eq!(compare(&all_of(&table, 0), 0, 0), -1, "a live edge without a length");
    assert_eq!(compare(&table, 24, 0), -4);
    assert_eq!(compare(&table, 24, 2), -2);
    assert_eq!(compare(&table[1..], 24, 2), -1);
    assert_eq!(compare(&table[..LENGTH], 0, 0), -1);
    // No turns: six faces of four steps, without a letter.
    assert_eq!(compare(&all_of(&solid(&cube(), 0), 1_000), 0, 0), 4_000 + 320);
}

/// Turns of both hands, none and many: 8 for each letter O, not for each edge or step.
#[test]
fn letters_by_hand() {
    // Both sides of one edge: at each crossing the ribbon goes over once and under once.
    for (turns, overs) in [(0, 0), (1, 1), (-1, 1), (2, 2), (-2, 2), (3, 3), (-3, 3), (98, 98), (99, 99), (-99, 99)] {
        assert_eq!(compare(&all_of(&strip(turns), 1_000), 0, 0), 2_000 + 8 * overs + 320, "{turns} turns");
    }
    // One side of a loop of even turns: half of the letters.
    for (turns, overs) in [(0, 0), (2, 1), (-2, 1), (98, 49), (-98, 49)] {
        for (dart, kind) in [(0, 0), (1, 0), (0, 1), (1, 1)] {
            let table = all_of(&loops_in_a_row(1, turns), 1_000);
            assert_eq!(compare(&table, dart, kind), 1_000 + 8 * overs + 320, "{turns} turns");
        }
    }
    // One side of each of two loops of odd turns. (1, 0) and (2, 1): of 99 turns 50 O's, of -3 OUO. (0, 1) and (2, 0): 49, and UOU.
    let table = with_1000_and_70(&crossed_loops(99, -3));
    assert_eq!(compare(&table, 1, 0), 1_070 + 8 * (50 + 2) + 320);
    assert_eq!(compare(&table, 0, 1), 1_070 + 8 * (49 + 1) + 320);
    // The other hands: 49 and UOU, 50 and OUO.
    let table = with_1000_and_70(&crossed_loops(-99, 3));
    assert_eq!(compare(&table, 1, 0), 1_070 + 8 * (49 + 1) + 320);
    assert_eq!(compare(&table, 0, 1), 1_070 + 8 * (50 + 2) + 320);
    // One turn each, of either hand: O and U, so one; then O and O; then none.
    assert_eq!(compare(&with_1000_and_70(&crossed_loops(1, 1)), 1, 0), 1_070 + 8 + 320);
    assert_eq!(compare(&with_1000_and_70(&crossed_loops(1, -1)), 1, 0), 1_070 + 16 + 320);
    assert_eq!(compare(&with_1000_and_70(&crossed_loops(1, -1)), 0, 1), 1_070 + 320);
}

/// 1,024 flat loops in a row, each of another length. The odd dart of each has a walk of its own, which tells that
/// edge's length and no other's: it is the word of the edge, not of the dart.
#[test]
fn every_edge_has_its_own_length() {
    let own = |e: u16| 3 * e + 7;
    let table = with_lengths(&loops_in_a_row(EDGES as u16, 0), own);
    for e in 0..EDGES as u16 {
        assert_eq!(compare(&table, 2 * e + 1, 0), i64::from(own(e)) + 320, "edge {e}");
    }
    // The even darts are in one walk: 3 times 523,776, which is the sum of the numbers below 1,024, and 1,024 times 7.
    assert_eq!(compare(&table, 0, 0), 1_571_328 + 7_168 + 320);
}

/// One edge's length alone is changed: just the ribbons that it is on change, by the difference for each of their
/// steps on it.
#[test]
fn one_length_at_a_time() {
    let mut random = Random::new(0x0e1);
    let (mut on_it, mut off_it) = (0, 0);
    for _ in 0..40 {
        let table = random_table(&mut random);
        let edges: Vec<u16> = live_edges(&table).collect();
        if edges.is_empty() {
            continue;
        }
        let (e, new) = (random.pick(&edges), random.pick(&[1, 16, 65_535]));
        let other = with_lengths(&table, |of| if of == e { new } else { length(&table, of) });
        for ribbon in ribbons(&table) {
            let sides = ribbon.iter().filter(|s| s.edge() == e).count() as i64;
            let (dart, kind) = (ribbon[0].dart, u16::from(ribbon[0].t));
            let difference = compare(&other, dart, kind) - compare(&table, dart, kind);
            assert_eq!(difference, sides * (i64::from(new) - i64::from(length(&table, e))));
            on_it += usize::from(sides > 0);
            off_it += usize::from(sides == 0);
        }
    }
    assert!(on_it > 30 && off_it > 500, "{on_it} on it, {off_it} off it");
}

/// One ribbon over both sides of 1,024 edges, each of them as long and as often turned as can be.
#[test]
fn the_largest_cut_length() {
    for turns in [99, -99] {
        let table = loops_in_a_row(EDGES as u16, turns);
        assert_eq!(walk_from(&table, Step { dart: 0, t: 0 }).len(), DARTS);
        // 2,048 steps, and 99 O's on the two sides of each edge: 134,215,680 + 811,008 + 320.
        assert_eq!(compare(&all_of(&table, 65_535), 0, 0), 135_027_008);
        assert_eq!(compare(&all_of(&table, 1), 2_046, 1), 2_048 + 811_008 + 320);
    }
}

/// Long sums on random tables: their ribbons have other letters on each edge.
#[test]
fn long_sums() {
    let mut random = Random::new(0x1a26e);
    let mut most = 0;
    for _ in 0..60 {
        let table = random_mesh(&mut random, 2, EDGES).written();
        most = most.max(compare(&all_of(&table, 65_535), 0, 0));
    }
    assert!(most > 1_000 * 65_535, "{most}");
}

/// The O's that planner_letters writes for the ribbon through the step.
fn overs(table: &[u16], s: Step, out: &mut [u8]) -> u32 {
    let n = planner::letters(table, s.dart, u16::from(s.t), out);
    out[..n as usize].iter().filter(|&&letter| letter == b'O').count() as u32
}

/// Every step names its ribbon's one cut length, and so does every step of the other sense of its face. In all
/// ribbons together each edge is twice, and each of its crossings has one O.
#[test]
fn every_step_of_both_senses() {
    let mut random = Random::new(0xb07_5e5);
    let mut letters = vec![0; DARTS * 99];
    let mut seen: BTreeMap<&str, usize> = BTreeMap::new();
    for _ in 0..40 {
        let table = random_table(&mut random);
        let mut all = 0;
        for ribbon in ribbons(&table) {
            let mirrored = ribbon.iter().map(|&s| other_sense(&table, s));
            let names: Vec<Step> = ribbon.iter().copied().chain(mirrored).collect();
            assert_eq!(names.iter().map(|s| s.word()).collect::<BTreeSet<_>>().len(), 2 * ribbon.len());
            let edges: u32 = ribbon.iter().map(|s| u32::from(length(&table, s.edge()))).sum();
            let overs = overs(&table, ribbon[0], &mut letters);
            let expected = i64::from(edges + 8 * overs + 320);
            assert_eq!(compare(&table, ribbon[0].dart, u16::from(ribbon[0].t)), expected);
            assert_eq!(answers(&table, &names), BTreeSet::from([expected]));
            all += expected - 320;

            let hands: Vec<i32> = ribbon.iter().map(|s| turns(&table, s.edge())).collect();
            let both_hands = hands.iter().any(|&k| k > 0) && hands.iter().any(|&k| k < 0);
            for (what, is_so) in [
                ("of both hands", both_hands),
                ("with many turns", hands.iter().any(|&k| k.abs() > 3)),
                ("without a letter", hands.iter().all(|&k| k == 0)),
                ("of one step", ribbon.len() == 1),
                ("of more than 100 steps", ribbon.len() > 100),
            ] {
                *seen.entry(what).or_insert(0) += usize::from(is_so);
            }
        }
        let sides = |e: u16| 2 * i64::from(length(&table, e)) + 8 * i64::from(turns(&table, e).abs());
        assert_eq!(all, live_edges(&table).map(sides).sum::<i64>());
    }
    assert!(seen.len() == 5 && seen.values().all(|&times| times > 10), "{seen:?}");
}

/// The walk of an isolated vertex has no step, so nothing names it, and it has no cut length; the ribbons beside it keep theirs.
#[test]
fn an_isolated_vertex_yields_no_ribbon() {
    let mut random = Random::new(0x150_1a7e);
    let mut alone = 0;
    for _ in 0..60 {
        let mut table = random_table(&mut random);
        let cuts = |table: &[u16]| -> Vec<i64> {
            let answer = |ribbon: &Vec<Step>| compare(table, ribbon[0].dart, u16::from(ribbon[0].t));
            ribbons(table).iter().map(answer).collect()
        };
        let before = cuts(&table);
        let more = random.below(40);
        for v in random.names(more, VERTICES) {
            planner::edit(&mut table, Edit::AddVertex { v });
        }
        assert_eq!(cuts(&table), before);
        for v in isolated_vertices(&table) {
            for kind in [0, 1] {
                assert_eq!(compare(&table, VERTEX_CORNER + v, kind), -2);
            }
            alone += 1;
        }
    }
    assert!(alone > 500, "{alone}");
}

/// Neither 7 nor 9 comes up: a table whose lengths are amiss is torn.
#[test]
fn random_tables_whole_and_damaged() {
    let mut random = Random::new(0x1e2617);
    let mut seen: BTreeMap<i64, usize> = BTreeMap::new();
    for round in 0..2_000 {
        let table = whole_or_damaged(&mut random, round);
        for _ in 0..4 {
            let (dart, kind) = any_step(&mut random, DARTS);
            *seen.entry(compare(&table, dart, kind).min(0)).or_insert(0) += 1;
        }
    }
    assert!(seen.keys().eq(&[-4, -2, -1, 0]) && seen.values().all(|&times| times > 200), "{seen:?}");
}

/// A length of a live edge that is 0, or one of another edge that is not, on the ribbon or off it.
#[test]
fn lengths_that_tear_the_table() {
    let mut random = Random::new(0x1e2618);
    let mut torn = 0;
    for _ in 0..60 {
        let mut table = random_table(&mut random);
        let Some(ribbon) = ribbons(&table).pop() else { continue };
        let (dart, kind) = (ribbon[0].dart, u16::from(ribbon[0].t));
        for _ in 0..20 {
            let e = if random.once_in(2) { random.pick(&ribbon).edge() } else { random.below(EDGES) as u16 };
            let place = LENGTH + usize::from(e);
            let before = std::mem::replace(&mut table[place], 0);
            table[place] = if before == 0 { random.pick(&[1, 16, 65_535]) } else { 0 };
            assert_eq!(compare(&table, dart, kind), -1, "edge {e}");
            assert_eq!(compare(&table, 2_048, 2), -1, "edge {e}");
            table[place] = before;
            torn += 1;
        }
    }
    assert!(torn > 800, "{torn}");
}
