//! planner_float_path: the reference's kinds and floats, bit by bit, on whole, damaged and short slices, at the limits of points
//! and lifts, and nothing written but the path.

use host::guarded::Guarded;
use host::planner;
use host::tables::{any_step, whole_or_damaged};
use reference::path::{float_path, LIFTS, POINTS};
use reference::table::{DARTS, WORDS};
use reference::trial::random::Random;
use reference::trial::solids::{cube, dodecahedron, solid};
use std::collections::BTreeMap;

const WORD_GUARD: u16 = 0xa5c3;
const FLOAT_GUARD: f32 = 0.15625;

/// What is lent beside the table, and the sizes of the two outputs.
struct Lent {
    points: Vec<i32>,
    lifts: Vec<i32>,
    kinds: usize,
    coords: usize,
}

fn bits(floats: &[f32]) -> Vec<u32> {
    floats.iter().map(|float| float.to_bits()).collect()
}

/// Both sides, which agree in the answer and in every word and float of the outputs.
fn compare(table: &[u16], dart: u16, kind: u16, lent: &Lent) -> i64 {
    let (mut words, mut floats) = (vec![WORD_GUARD; lent.kinds], vec![FLOAT_GUARD; lent.coords]);
    let (points, lifts) = (Guarded::new(&lent.points, 99), Guarded::new(&lent.lifts, 99));
    let mut kinds = Guarded::new(&words, WORD_GUARD);
    let mut coords = Guarded::new(&floats, FLOAT_GUARD);
    let (to_kinds, to_coords) = (kinds.slice_mut(), coords.slice_mut());
    let answer = planner::float_path(table, (dart, kind), points.slice(), lifts.slice(), to_kinds, to_coords);
    let expected = float_path(table, dart, kind, &lent.points, &lent.lifts, &mut words, &mut floats);
    assert_eq!(answer, planner::as_number(expected));
    assert_eq!(kinds.slice(), words);
    assert_eq!(bits(coords.slice()), bits(&floats));
    kinds.assert_guards();
    coords.assert_guards();
    answer
}

fn roomy(points: Vec<i32>, lifts: Vec<i32>) -> Lent {
    Lent { points, lifts, kinds: 2_100, coords: 6_300 }
}

#[test]
fn every_exact_size_and_one_less() {
    let table = solid(&cube(), 1);
    let lent = |kinds, coords, points, lifts| Lent { points: vec![1; points], lifts: vec![1; lifts], kinds, coords };
    assert_eq!(compare(&table, 0, 0, &lent(7, 21, POINTS, LIFTS)), 7);
    assert_eq!(compare(&table, 0, 0, &lent(8, 22, POINTS + 1, LIFTS + 1)), 7);
    for short in [
        lent(6, 21, POINTS, LIFTS),
        lent(7, 20, POINTS, LIFTS),
        lent(7, 21, POINTS - 1, LIFTS),
        lent(7, 21, POINTS, LIFTS - 1),
    ] {
        assert_eq!(compare(&table, 0, 0, &short), -7);
    }
    // 7 before 8 and 9, 8 before 9.
    let far = |kinds| Lent { points: vec![65_537; POINTS], lifts: vec![4_097; LIFTS], kinds, coords: 21 };
    let double = solid(&cube(), 2);
    assert_eq!(compare(&double, 0, 0, &far(4)), -7);
    assert_eq!(compare(&double, 0, 0, &far(7)), -8);
    assert_eq!(compare(&table, 0, 0, &far(7)), -9);
    assert_eq!(compare(&table, 24, 0, &far(0)), -4);
    assert_eq!(compare(&table, 0, 2, &far(0)), -2);
    assert_eq!(compare(&table[1..], 0, 2, &far(0)), -1);
}

#[test]
fn extreme_points_and_lifts() {
    let tables = [solid(&dodecahedron(), 1), solid(&dodecahedron(), -1), solid(&dodecahedron(), 0)];
    let most = 65_536;
    for table in &tables {
        for (point, lift) in [(most, 4_096), (-most, -4_096), (most, -4_096), (-most, 4_096), (0, 0), (1, 0), (-1, 1)] {
            let answer = compare(table, 0, 0, &roomy(vec![point; POINTS], vec![lift; LIFTS]));
            assert!(answer > 0);
        }
        for (point, lift) in
            [(most + 1, 0), (-most - 1, 0), (0, 4_097), (0, -4_097), (i32::MAX, 0), (0, i32::MIN), (i32::MIN, 0)]
        {
            assert_eq!(compare(table, 0, 0, &roomy(vec![point; POINTS], vec![lift; LIFTS])), -9);
        }
    }
}

/// A zero is positive zero, however it comes about.
#[test]
fn zeros_are_positive() {
    let table = solid(&cube(), 1);
    for lift in [0, 5, -5] {
        let mut kinds = [9; 7];
        let mut coords = [FLOAT_GUARD; 21];
        // Each coordinate of an over piece is a + b + 2l, with a = b = -l.
        let answer = planner::float_path(&table, (0, 0), &[-lift; POINTS], &[lift; LIFTS], &mut kinds, &mut coords);
        assert_eq!(answer, 7);
        for (i, kind) in kinds.iter().enumerate() {
            if *kind != 2 {
                assert_eq!(bits(&coords[3 * i..3 * i + 3]), [0; 3], "piece {i} of kind {kind}");
            }
        }
    }
}

/// Words in range, at times at its end, and now and then one just past it.
fn random_words(random: &mut Random, count: usize, most: i32, past: bool) -> Vec<i32> {
    let mut words: Vec<i32> = (0..count)
        .map(|_| match random.below(10) {
            0 => most,
            1 => -most,
            2 => 0,
            _ => random.between(-most, most),
        })
        .collect();
    if past {
        words[random.below(count)] = random.pick(&[most + 1, -most - 1, i32::MAX, i32::MIN]);
    }
    words
}

/// At most one turn on most edges, so that paths are not all declined with 8.
fn calm(random: &mut Random, table: &mut [u16]) {
    for word in table.iter_mut().skip(6_144).take(1_024) {
        if *word != 0 && !random.once_in(400) {
            *word = random.pick(&[99, 100, 101]);
        }
    }
}

#[test]
fn random_tables_whole_and_damaged() {
    let mut random = Random::new(0xf10a7);
    let mut seen: BTreeMap<i64, usize> = BTreeMap::new();
    for round in 0..1_500 {
        let mut table = whole_or_damaged(&mut random, round);
        if table.len() == WORDS {
            calm(&mut random, &mut table);
        }
        for _ in 0..4 {
            let (dart, kind) = any_step(&mut random, DARTS);
            let (far_point, far_lift) = (random.once_in(3), random.once_in(3));
            let points = random_words(&mut random, POINTS, 65_536, far_point);
            let lifts = random_words(&mut random, LIFTS, 4_096, far_lift);
            let mut lent = roomy(points, lifts);
            match random.below(20) {
                0 => lent.points.truncate(random.below(POINTS)),
                1 => lent.lifts.truncate(random.below(LIFTS)),
                2 => lent.kinds = random.below(30),
                3 => lent.coords = random.below(90),
                _ => {}
            }
            *seen.entry(compare(&table, dart, kind, &lent).min(0)).or_insert(0) += 1;
        }
    }
    for outcome in [0, -1, -2, -4, -7, -8, -9] {
        assert!(seen.get(&outcome).copied().unwrap_or(0) > 20, "{outcome} in {seen:?}");
    }
}
