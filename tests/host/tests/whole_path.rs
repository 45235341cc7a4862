//! planner_whole_path: the reference's kinds, words and remainders on whole, damaged and short slices, at the limits of points, lifts and
//! turns, and nothing written but the path; sums by hand; and what the path has to do with the letters, the other sense and the float path.

use host::guarded::Guarded;
use host::planner;
use host::tables::{any_step, crossed_loops, loops_in_a_row, strip, whole_or_damaged};
use reference::path::{LIFTS, POINTS};
use reference::table::*;
use reference::trace::{named_step, other_sense, step, walk_from, Step};
use reference::trial::random::Random;
use reference::trial::solids::{cube, dodecahedron, icosahedron, octahedron, solid};
use reference::trial::tables::{random_mesh, random_table, Mesh};
use reference::whole::{pieces_of, whole_path, Outputs};
use std::collections::BTreeMap;

const KIND_GUARD: u16 = 0xa5c3;
const WORD_GUARD: i32 = 0x5a5a_5a5a;
const REMAINDER_GUARD: u16 = 0xc35a;

/// What is lent beside the table, and the sizes of the three outputs.
struct Lent {
    points: Vec<i32>,
    lifts: Vec<i32>,
    kinds: usize,
    coords: usize,
    remainders: usize,
}

/// How many pieces the path of the ribbon through a step has; 1 if no ribbon is there.
fn pieces(table: &[u16], dart: u16, kind: u16) -> usize {
    named_step(table, dart, kind).map_or(1, |start| pieces_of(table, &walk_from(table, start)))
}

/// Outputs of the exact size for this many pieces.
fn exact(points: &[i32], lifts: &[i32], pieces: usize) -> Lent {
    let (points, lifts) = (points.to_vec(), lifts.to_vec());
    Lent { points, lifts, kinds: pieces, coords: 3 * pieces, remainders: 3 * pieces }
}

/// What the library answers and leaves in its three outputs. It has written nothing outside them, and nothing that it is lent to read.
struct Called {
    answer: i64,
    kinds: Vec<u16>,
    coords: Vec<i32>,
    remainders: Vec<u16>,
}

fn call(table: &[u16], dart: u16, kind: u16, lent: &Lent) -> Called {
    let (mesh, points) = (Guarded::new(table, KIND_GUARD), Guarded::new(&lent.points, WORD_GUARD));
    let lifts = Guarded::new(&lent.lifts, WORD_GUARD);
    let mut kinds = Guarded::new(&vec![KIND_GUARD; lent.kinds], KIND_GUARD);
    let mut coords = Guarded::new(&vec![WORD_GUARD; lent.coords], WORD_GUARD);
    let mut remainders = Guarded::new(&vec![REMAINDER_GUARD; lent.remainders], REMAINDER_GUARD);
    let out = Outputs { kinds: kinds.slice_mut(), coords: coords.slice_mut(), remainders: remainders.slice_mut() };
    let answer = planner::whole_path(mesh.slice(), (dart, kind), points.slice(), lifts.slice(), out);
    kinds.assert_guards();
    coords.assert_guards();
    remainders.assert_guards();
    assert!(mesh.slice() == table && points.slice() == lent.points && lifts.slice() == lent.lifts, "it is only read");
    let (kinds, coords) = (kinds.slice().to_vec(), coords.slice().to_vec());
    Called { answer, kinds, coords, remainders: remainders.slice().to_vec() }
}

/// Both sides, which agree in the answer and in every word of the outputs, those past the exact size too.
fn compare(table: &[u16], dart: u16, kind: u16, lent: &Lent) -> i64 {
    let called = call(table, dart, kind, lent);
    let mut kinds = vec![KIND_GUARD; lent.kinds];
    let mut coords = vec![WORD_GUARD; lent.coords];
    let mut remainders = vec![REMAINDER_GUARD; lent.remainders];
    let out = Outputs { kinds: &mut kinds, coords: &mut coords, remainders: &mut remainders };
    let expected = whole_path(table, dart, kind, &lent.points, &lent.lifts, out);
    assert_eq!(called.answer, planner::as_number(expected), "step {dart}/{kind}");
    assert!(called.kinds == kinds, "the kinds differ");
    assert!(called.coords == coords, "the words differ");
    assert!(called.remainders == remainders, "the remainders differ");
    called.answer
}

/// A path as the library writes it: for each piece its kind, its three words and its three remainders.
type Piece = (u16, [i32; 3], [u16; 3]);

const CLOSE: Piece = (3, [0; 3], [0; 3]);

fn three<T: Copy>(words: &[T], i: usize) -> [T; 3] {
    [words[3 * i], words[3 * i + 1], words[3 * i + 2]]
}

/// The library's path of the ribbon through a step, into outputs of the exact size.
fn path(table: &[u16], s: Step, points: &[i32], lifts: &[i32]) -> Vec<Piece> {
    let p = pieces(table, s.dart, u16::from(s.t));
    let called = call(table, s.dart, u16::from(s.t), &exact(points, lifts, p));
    assert_eq!(called.answer, p as i64);
    (0..p).map(|i| (called.kinds[i], three(&called.coords, i), three(&called.remainders, i))).collect()
}

/// Points or lifts that begin with these words and are zeros from there on.
fn padded(words: &[i32], size: usize) -> Vec<i32> {
    [words, &vec![0; size - words.len()]].concat()
}

/// Points and lifts in range; every tenth word at either end of it, and some near each other, so that the way between is short.
fn drawn(random: &mut Random, count: usize, most: i32) -> Vec<i32> {
    let draw = |random: &mut Random| match random.below(20) {
        0 => most,
        1 => -most,
        2..=7 => random.between(-9, 9),
        _ => random.between(-most, most),
    };
    (0..count).map(|_| draw(random)).collect()
}

fn drawn_points(random: &mut Random) -> Vec<i32> {
    drawn(random, POINTS, 65_536)
}

fn drawn_lifts(random: &mut Random) -> Vec<i32> {
    drawn(random, LIFTS, 4_096)
}

/// The four steps of an edge by each dart in each type, where its walk may begin.
fn steps_on(e: Edge) -> [Step; 4] {
    let [first, second] = darts_of(e);
    [step(first, 0), step(first, 1), step(second, 0), step(second, 1)]
}

/// Ends (100, 7, -5) and (90, 7, 6), three turns, lift (1000, 200, -30). By 6, along x: -10 is -2 and 2 left, -30 is -5, -50 is -9 and 4
/// left; along y nothing; along z: 11 is 1 and 5 left, 33 is 5 and 3 left, 55 is 9 and 1 left.
#[test]
fn three_turns_by_hand() {
    let (points, lifts) = (padded(&[100, 7, -5, 90, 7, 6], POINTS), padded(&[1_000, 200, -30], LIFTS));
    let remainders = [[2, 0, 5], [0, 0, 3], [4, 0, 1]];
    let o = |j: usize| (1, [[1_098, 207, -34], [1_095, 207, -30], [1_091, 207, -26]][j], remainders[j]);
    let u = |j: usize| (2, [[-902, -193, 26], [-905, -193, 30], [-909, -193, 34]][j], remainders[j]);
    let table = strip(3);
    // (0, 0) is O U O from the first end, then (1, 1) U O U from the second.
    let expected = [o(0), u(1), o(2), u(2), o(1), u(0), CLOSE];
    assert_eq!(path(&table, step(0, 0), &points, &lifts), expected);
    // From (1, 1) on.
    assert_eq!(path(&table, step(1, 1), &points, &lifts), [u(2), o(1), u(0), o(0), u(1), o(2), CLOSE]);
    // The other sense: (1, 0) is O U O from the second end, then (0, 1) U O U from the first.
    assert_eq!(path(&table, step(1, 0), &points, &lifts), [o(2), u(1), o(0), u(0), o(1), u(2), CLOSE]);
    // The other hand.
    assert_eq!(path(&strip(-3), step(0, 0), &points, &lifts), [u(0), o(1), u(2), o(2), u(1), o(0), CLOSE]);
}

/// The same ends with two turns, one and none. By 4, along x: -10 is -3 and 2 left, -30 is -8 and 2 left; along z: 11 is 2 and 3 left, 33 is
/// 8 and 1 left. By 2: -10 is -5; 11 is 5 and 1 left.
#[test]
fn few_turns_by_hand() {
    let (points, lifts) = (padded(&[100, 7, -5, 90, 7, 6], POINTS), padded(&[1_000, 200, -30], LIFTS));
    let o = |j: usize| (1, [[1_097, 207, -33], [1_092, 207, -27]][j], [[2, 0, 3], [2, 0, 1]][j]);
    let u = |j: usize| (2, [[-903, -193, 27], [-908, -193, 33]][j], [[2, 0, 3], [2, 0, 1]][j]);
    // An even number of turns: (0, 0) and (1, 0), O U each.
    assert_eq!(path(&strip(2), step(0, 0), &points, &lifts), [o(0), u(1), o(1), u(0), CLOSE]);
    assert_eq!(path(&strip(-2), step(1, 0), &points, &lifts), [u(1), o(0), u(0), o(1), CLOSE]);
    let (over, under) = ((1, [1_095, 207, -30], [0, 0, 1]), (2, [-905, -193, 30], [0, 0, 1]));
    assert_eq!(path(&strip(1), step(0, 0), &points, &lifts), [over, under, CLOSE]);
    // Flat: no lift.
    let flat = (0, [95, 7, 0], [0, 0, 1]);
    assert_eq!(path(&strip(0), step(1, 0), &points, &lifts), [flat, flat, CLOSE]);
}

/// An edge between two vertices, of 3 turns, and another without turns: around both is an odd number of turns. The walk (0, 0), (3, 1),
/// (0, 1), (3, 0) passes each of them twice in the same direction. From 0 to 7, by 6: 7 is 1 and 1 left, 21 is 3 and 3 left, 35 is 5 and 5
/// left; by 2: 7 is 3 and 1 left.
#[test]
fn twice_in_the_same_direction() {
    let edges = vec![(0, 3, 16), (1, 0, 16)];
    let table = Mesh { rotations: vec![(0, vec![0, 2]), (1, vec![1, 3])], edges }.written();
    assert_eq!(walk_from(&table, step(0, 0)), [step(0, 0), step(3, 1), step(0, 1), step(3, 0)]);
    let (points, lifts) = (padded(&[0, 0, 0, 7, 7, 7], POINTS), padded(&[10; 6], LIFTS));
    let (o, u) = (
        |j: usize| (1, [11 + 2 * j as i32; 3], [1 + 2 * j as u16; 3]),
        |j: usize| (2, [-9 + 2 * j as i32; 3], [1 + 2 * j as u16; 3]),
    );
    let flat = (0, [3; 3], [1; 3]);
    let expected = [o(0), u(1), o(2), flat, u(0), o(1), u(2), flat, CLOSE];
    assert_eq!(path(&table, step(0, 0), &points, &lifts), expected);
}

/// Every slice exact, one shorter and longer, and the refusals in their order, two and more at once.
#[test]
fn every_exact_size_and_one_less() {
    // All turns 2: a ribbon follows a face of the cube, so four steps of two crossings, and Close.
    let table = solid(&cube(), 2);
    let lent = |kinds, coords, remainders, points, lifts| Lent {
        points: vec![1; points],
        lifts: vec![1; lifts],
        kinds,
        coords,
        remainders,
    };
    assert_eq!(compare(&table, 0, 0, &lent(9, 27, 27, POINTS, LIFTS)), 9);
    for longer in [
        lent(10, 27, 27, POINTS, LIFTS),
        lent(9, 28, 27, POINTS, LIFTS),
        lent(9, 27, 28, POINTS, LIFTS),
        lent(9, 27, 27, POINTS + 1, LIFTS),
        lent(9, 27, 27, POINTS, LIFTS + 1),
        lent(50, 150, 150, LIFTS, 2 * LIFTS),
    ] {
        assert_eq!(compare(&table, 0, 0, &longer), 9);
    }
    for short in [
        lent(8, 27, 27, POINTS, LIFTS),
        lent(9, 26, 27, POINTS, LIFTS),
        lent(9, 27, 26, POINTS, LIFTS),
        lent(9, 27, 27, POINTS - 1, LIFTS),
        lent(9, 27, 27, POINTS, LIFTS - 1),
        lent(0, 27, 27, POINTS, LIFTS),
        lent(9, 0, 27, POINTS, LIFTS),
        lent(9, 27, 0, POINTS, LIFTS),
        lent(9, 27, 27, 0, LIFTS),
        lent(9, 27, 27, POINTS, 0),
        lent(0, 0, 0, 0, 0),
    ] {
        assert_eq!(compare(&table, 0, 0, &short), -7);
    }
    // 1, 2, 4, 7, 9: each with all that come after it. 24 is no dart of the cube.
    let far = |kinds, coords, remainders| Lent {
        points: vec![65_537; POINTS],
        lifts: vec![4_097; LIFTS],
        kinds,
        coords,
        remainders,
    };
    assert_eq!(compare(&table, 0, 0, &far(9, 27, 27)), -9);
    for short in [far(8, 27, 27), far(9, 26, 27), far(9, 27, 26)] {
        assert_eq!(compare(&table, 0, 0, &short), -7);
        assert_eq!(compare(&table, 24, 0, &short), -4);
        assert_eq!(compare(&table, 24, 2, &short), -2);
        assert_eq!(compare(&table, 2_048, 0, &short), -2);
        assert_eq!(compare(&table[1..], 24, 2, &short), -1);
    }
    let mut short = far(9, 27, 27);
    short.points.pop();
    assert_eq!(compare(&table, 0, 0, &short), -7);
    let mut short = far(9, 27, 27);
    short.lifts.pop();
    assert_eq!(compare(&table, 0, 0, &short), -7);
    // No slices at all.
    assert_eq!(planner::whole_path_of_nulls(&table, (0, 0)), -7);
    assert_eq!(planner::whole_path_of_nulls(&table, (24, 0)), -4);
    assert_eq!(planner::whole_path_of_nulls(&table, (0, 2)), -2);
    assert_eq!(planner::whole_path_of_nulls(&[], (0, 2)), -1);
}

/// Every word of a ribbon's ends and lifts, at the ends of its range and just past them; words that are not on the ribbon are not looked at.
#[test]
fn far_words_one_by_one() {
    // Edge 0 of 2 turns from 0 to 1, edge 1 without turns from there to 2, edge 2 of -1 turns from 3 to 4.
    let rotations = vec![(0, vec![0]), (1, vec![1, 2]), (2, vec![3]), (3, vec![4]), (4, vec![5])];
    let table = Mesh { rotations, edges: vec![(0, 2, 16), (1, 0, 16), (2, -1, 16)] }.written();
    assert_eq!(walk_from(&table, step(0, 0)), [step(0, 0), step(2, 0), step(3, 0), step(1, 0)]);
    let (points, lifts) = (vec![3; POINTS], vec![5; LIFTS]);
    let answer = |points: &[i32], lifts: &[i32]| compare(&table, 0, 0, &exact(points, lifts, 7));
    for place in 0..12 {
        let on_ribbon = place < 9;
        for (word, inside) in [(65_536, true), (-65_536, true), (65_537, false), (-65_537, false), (i32::MIN, false)] {
            let mut points = points.clone();
            points[place] = word;
            assert_eq!(answer(&points, &lifts), if on_ribbon && !inside { -9 } else { 7 }, "point {place}: {word}");
        }
        let on_ribbon = place < 6;
        for (word, inside) in [(4_096, true), (-4_096, true), (4_097, false), (-4_097, false), (i32::MAX, false)] {
            let mut lifts = lifts.clone();
            lifts[place] = word;
            assert_eq!(answer(&points, &lifts), if on_ribbon && !inside { -9 } else { 7 }, "lift {place}: {word}");
        }
    }
}

/// From end to end of the range: ways of 131,072 either way, and the lift past the ends.
#[test]
fn extreme_points_and_lifts() {
    let most = 65_536;
    for turns in [0, 1, -1, 2, 3, 98, 99, -99] {
        for (a, b) in [(most, -most), (-most, most), (most, most), (-most, most - 1), (most - 1, -most), (-1, 0)] {
            for lift in [4_096, -4_096, 0] {
                let points = padded(&[a, b, a, b, a, b], POINTS);
                for s in steps_on(0) {
                    let lent = exact(&points, &vec![lift; LIFTS], pieces(&strip(turns), s.dart, u16::from(s.t)));
                    assert!(compare(&strip(turns), s.dart, u16::from(s.t), &lent) > 0);
                }
            }
        }
    }
    // 99 turns, 131,072 by 198: 661 and 194 left; the last crossing, 197 times 131,072: 130,410 and 4 left. Backwards -662 and 4 left, -130,411
    // and 194 left.
    let points = padded(&[-most, most, 0, most, -most, 0], POINTS);
    let path = path(&strip(99), step(0, 0), &points, &vec![4_096; LIFTS]);
    assert_eq!(path[0], (1, [-60_779, 68_970, 4_096], [194, 4, 0]));
    assert_eq!(path[98], (1, [68_970, -60_779, 4_096], [4, 194, 0]));
    assert_eq!(path[99], (2, [60_778, -68_971, -4_096], [4, 194, 0]));
    for table in [solid(&dodecahedron(), 3), solid(&icosahedron(), -2), solid(&octahedron(), 0)] {
        let p = pieces(&table, 0, 0);
        for (point, lift) in [(most, 4_096), (-most, -4_096)] {
            assert!(compare(&table, 0, 0, &exact(&vec![point; POINTS], &vec![lift; LIFTS], p)) > 0);
        }
        for (point, lift) in [(most + 1, 0), (-most - 1, 0), (0, 4_097), (0, -4_097), (i32::MAX, 0), (0, i32::MIN)] {
            assert_eq!(compare(&table, 0, 0, &exact(&vec![point; POINTS], &vec![lift; LIFTS], p)), -9);
        }
    }
}

/// All turns there are, on an edge and on loops, from every step.
#[test]
fn every_number_of_turns() {
    let mut random = Random::new(0x3e01);
    for turns in -99..=99 {
        let crossed = if turns % 2 == 0 { loops_in_a_row(2, turns) } else { crossed_loops(turns, -turns) };
        for table in [strip(turns), loops_in_a_row(1, turns), crossed] {
            let (points, lifts) = (drawn_points(&mut random), drawn_lifts(&mut random));
            for s in steps_on(0) {
                let p = pieces(&table, s.dart, u16::from(s.t));
                assert_eq!(compare(&table, s.dart, u16::from(s.t), &exact(&points, &lifts, p)), p as i64);
            }
        }
    }
}

/// One ribbon over both sides of 1,024 edges of 99 turns: 2,048 steps of 99 crossings, and Close.
#[test]
fn the_largest_path() {
    let mut random = Random::new(0x3e02);
    let most = 202_753;
    for turns in [99, -99] {
        let table = loops_in_a_row(EDGES as u16, turns);
        let lent = exact(&drawn_points(&mut random), &drawn_lifts(&mut random), most);
        assert_eq!(compare(&table, 0, 0, &lent), most as i64);
        assert_eq!(compare(&table, 2_046, 1, &lent), most as i64);
        assert_eq!(compare(&table, 0, 0, &Lent { kinds: most - 1, ..exact(&lent.points, &lent.lifts, most) }), -7);
        assert_eq!(compare(&table, 0, 0, &Lent { coords: 3 * most - 1, ..exact(&lent.points, &lent.lifts, most) }), -7);
        let short = Lent { remainders: 3 * most - 1, ..exact(&lent.points, &lent.lifts, most) };
        assert_eq!(compare(&table, 0, 0, &short), -7);
    }
    // Long ribbons whose edges join different vertices.
    let mut longest = 0;
    for _ in 0..40 {
        let table = random_mesh(&mut random, 40, EDGES).written();
        let p = pieces(&table, 0, 0);
        assert!(compare(&table, 0, 0, &exact(&drawn_points(&mut random), &drawn_lifts(&mut random), p)) > 0);
        longest = longest.max(p);
    }
    assert!(longest > 30_000, "{longest}");
}

/// Each size of the outputs: exact, longer, one shorter, or much shorter.
fn with_sizes(random: &mut Random, mut lent: Lent) -> Lent {
    match random.below(14) {
        0 => lent.points.truncate(random.below(POINTS)),
        1 => lent.lifts.truncate(random.below(LIFTS)),
        2 => lent.kinds -= 1,
        3 => lent.coords -= 1 + random.below(3),
        4 => lent.remainders -= 1 + random.below(3),
        5 => lent.kinds = random.below(lent.kinds),
        6 => {
            lent.kinds += random.below(9);
            lent.coords += random.below(9);
            lent.remainders += random.below(9);
        }
        7 => {
            lent.points.push(65_537);
            lent.lifts.push(4_097);
        }
        _ => {}
    }
    lent
}

#[test]
fn random_tables_whole_and_damaged() {
    let mut random = Random::new(0x3e03);
    let mut seen: BTreeMap<i64, usize> = BTreeMap::new();
    for round in 0..1_000 {
        let table = whole_or_damaged(&mut random, round);
        for _ in 0..4 {
            let (dart, kind) = any_step(&mut random, DARTS);
            let (mut points, mut lifts) = (drawn_points(&mut random), drawn_lifts(&mut random));
            if random.once_in(3) {
                points[random.below(POINTS)] = random.pick(&[65_537, -65_537, i32::MAX, i32::MIN]);
            }
            if random.once_in(3) {
                lifts[random.below(LIFTS)] = random.pick(&[4_097, -4_097, i32::MAX, i32::MIN]);
            }
            let lent = with_sizes(&mut random, exact(&points, &lifts, pieces(&table, dart, kind)));
            *seen.entry(compare(&table, dart, kind, &lent).min(0)).or_insert(0) += 1;
        }
    }
    assert_eq!(seen.keys().copied().collect::<Vec<i64>>(), [-9, -7, -4, -2, -1, 0], "{seen:?}");
    assert!(seen.values().all(|&times| times > 20), "{seen:?}");
}

/// Points and lifts of any 32 bits, which are far nearly always; declined without a sum that overflows.
#[test]
fn any_words() {
    let mut random = Random::new(0x3e04);
    let mut far = 0;
    for _ in 0..200 {
        let table = random_table(&mut random);
        let points: Vec<i32> = (0..POINTS).map(|_| random.draw() as i32).collect();
        let lifts: Vec<i32> = (0..LIFTS).map(|_| random.draw() as i32).collect();
        for start in live_darts(&table).take(4) {
            far += usize::from(compare(&table, start, 0, &exact(&points, &lifts, pieces(&table, start, 0))) == -9);
        }
    }
    assert!(far > 400, "{far}");
}

/// The ribbons of random tables, each from a drawn step of it, with points and lifts in range.
fn for_ribbons(seed: u64, tables: usize, mut claim: impl FnMut(&mut Random, &[u16], Step, &[i32], &[i32])) {
    let mut random = Random::new(seed);
    for _ in 0..tables {
        let table = random_table(&mut random);
        let (points, lifts) = (drawn_points(&mut random), drawn_lifts(&mut random));
        let darts: Vec<Dart> = live_darts(&table).collect();
        for _ in 0..6.min(darts.len()) {
            let start = step(random.pick(&darts), random.below(2) as u8);
            claim(&mut random, &table, start, &points, &lifts);
        }
    }
}

/// The kinds are the letters that planner_letters writes, with Flat where a step has none, and Close.
#[test]
fn the_kinds_are_the_letters() {
    let mut letters = vec![0; DARTS * 99];
    let mut seen = [0; 4];
    for_ribbons(0x3e05, 150, |_, table, s, points, lifts| {
        let n = planner::letters(table, s.dart, u16::from(s.t), &mut letters);
        let mut rest = letters[..n as usize].iter();
        let mut expected = Vec::new();
        for along in walk_from(table, s) {
            match turns(table, along.edge()).abs() {
                0 => expected.push(0),
                n => expected.extend(rest.by_ref().take(n as usize).map(|&l| if l == b'O' { 1 } else { 2 })),
            }
        }
        expected.push(3);
        let kinds: Vec<u16> = path(table, s, points, lifts).iter().map(|piece| piece.0).collect();
        assert_eq!(kinds, expected);
        kinds.iter().for_each(|&kind| seen[usize::from(kind)] += 1);
    });
    assert!(seen.iter().all(|&times| times > 300), "{seen:?}");
}

/// Each word, its lift taken away, is the largest whole number not above the crossing's place, and the remainder is what is left: 2n times
/// the word less a, and the remainder, are (2j+1)(b-a). Places that are negative and not whole, where towards zero is another number, are many.
#[test]
fn words_and_remainders_make_up_the_place() {
    let (mut by_first, mut by_second, mut rounded_down) = (0, 0, 0);
    for_ribbons(0x3e06, 150, |_, table, s, points, lifts| {
        let path = path(table, s, points, lifts);
        let mut pieces = path.iter();
        for along in walk_from(table, s) {
            let e = along.edge();
            let n = turns(table, e).abs().max(1);
            let [a, b] = darts_of(e).map(|d| three(points, usize::from(leaves(table, d))));
            let lift = three(lifts, usize::from(e));
            let from_first = along.dart % 2 == 0;
            for met in 0..n {
                let j = if from_first { met } else { n - 1 - met };
                let &(kind, words, remainders) = pieces.next().unwrap();
                for axis in 0..3 {
                    let unlifted = words[axis] - [0, 1, -1][usize::from(kind)] * lift[axis];
                    let (rest, place) = (i32::from(remainders[axis]), (2 * j + 1) * (b[axis] - a[axis]));
                    assert!(rest < 2 * n);
                    assert_eq!(2 * n * (unlifted - a[axis]) + rest, place, "crossing {j} of {n} on edge {e}");
                    rounded_down += usize::from(place < 0 && rest > 0);
                }
            }
            *(if from_first { &mut by_first } else { &mut by_second }) += n;
        }
        assert_eq!(pieces.as_slice(), [CLOSE]);
    });
    assert!(by_first > 10_000 && by_second > 10_000 && rounded_down > 10_000, "{by_first} {by_second} {rounded_down}");
}

/// The ribbon in its other sense has the same pieces, last first: the same words and remainders, over and under as they were.
#[test]
fn the_other_sense_is_the_path_reversed() {
    let mut written = 0;
    for_ribbons(0x3e07, 150, |_, table, s, points, lifts| {
        let mut expected = path(table, s, points, lifts);
        let close = expected.pop();
        expected.reverse();
        expected.extend(close);
        assert!(path(table, other_sense(table, s), points, lifts) == expected);
        written += expected.len();
    });
    assert!(written > 100_000, "{written}");
}

/// Another step of the ribbon gives the same round, from there on.
#[test]
fn every_step_begins_the_same_round() {
    let mut written = 0;
    for_ribbons(0x3e08, 150, |random, table, s, points, lifts| {
        let walk = walk_from(table, s);
        let ahead = random.below(walk.len());
        let mut expected = path(table, s, points, lifts);
        let round = expected.len() - 1;
        expected[..round].rotate_left(pieces_of(table, &walk[..ahead]) - 1);
        assert!(path(table, walk[ahead], points, lifts) == expected);
        written += round;
    });
    assert!(written > 100_000, "{written}");
}

/// What planner_float_path answers, and its outputs.
fn float_path(table: &[u16], s: Step, points: &[i32], lifts: &[i32]) -> (i64, Vec<u16>, Vec<f32>) {
    let (mut kinds, mut coords) = (vec![KIND_GUARD; DARTS + 1], vec![0.5; 3 * (DARTS + 1)]);
    let answer = planner::float_path(table, (s.dart, u16::from(s.t)), points, lifts, &mut kinds, &mut coords);
    (answer, kinds, coords)
}

/// Where the float path is accepted, the kinds are the same and its coordinate times 32 is twice the word and the remainder; where it declines
/// with 8, the whole path is there.
#[test]
fn beside_the_float_path() {
    let (mut accepted, mut many_turns) = (0, 0);
    for_ribbons(0x3e09, 300, |_, table, s, points, lifts| {
        let whole = path(table, s, points, lifts);
        let (answer, kinds, coords) = float_path(table, s, points, lifts);
        if answer == -8 {
            many_turns += 1;
            return;
        }
        assert_eq!(answer, whole.len() as i64);
        for (i, (kind, words, remainders)) in whole.into_iter().enumerate() {
            assert_eq!(kind, kinds[i]);
            for axis in 0..3 {
                let twice = 2 * words[axis] + i32::from(remainders[axis]);
                assert_eq!(f64::from(coords[3 * i + axis]) * 32.0, f64::from(twice));
            }
        }
        accepted += 1;
    });
    assert!(accepted > 100 && many_turns > 100, "{accepted} {many_turns}");
}

/// Where the float path declines with 8 and a word is far as well, the whole path declines with 9.
#[test]
fn nine_where_the_float_path_says_eight() {
    let mut nines = 0;
    for_ribbons(0x3e0a, 100, |random, table, s, points, lifts| {
        let (mut points, mut lifts) = (points.to_vec(), lifts.to_vec());
        let on: Step = random.pick(&walk_from(table, s));
        if random.once_in(2) {
            points[3 * usize::from(leaves(table, on.dart)) + random.below(3)] = random.pick(&[65_537, -65_537]);
        } else {
            lifts[3 * usize::from(on.edge()) + random.below(3)] = random.pick(&[4_097, -4_097]);
        }
        let lent = exact(&points, &lifts, pieces(table, s.dart, u16::from(s.t)));
        assert_eq!(compare(table, s.dart, u16::from(s.t), &lent), -9);
        nines += usize::from(float_path(table, s, &points, &lifts).0 == -8);
    });
    assert!(nines > 50, "{nines}");
}
