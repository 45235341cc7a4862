//! The whole path: points in sixteenths and their remainders, on edges of any turns.

use crate::*;
use reference::path::float_path;
use reference::table::*;
use reference::trace::{other_sense, step, walk_from};
use reference::trial::random::Random;
use reference::trial::tables::random_table;
use reference::weave::{ribbon_letters, Letter};
use reference::whole::{crossing, pieces_of, whole_path, Outputs, Place};

/// A path as it is written: for each piece its kind, its three words and its three remainders.
type Piece = (u16, [i32; 3], [u16; 3]);

const CLOSE: Piece = (3, [0; 3], [0; 3]);

/// The whole path with room to spare; what is written, and that nothing past it is.
fn path(table: &[u16], dart: u16, t: u16, points: &[i32], lifts: &[i32]) -> Result<Vec<Piece>, Refusal> {
    const ROOM: usize = 2_048 * 99 + 2;
    let (mut kinds, mut coords, mut remainders) = (vec![77; ROOM], vec![7_777_777; 3 * ROOM], vec![777; 3 * ROOM]);
    let out = Outputs { kinds: &mut kinds, coords: &mut coords, remainders: &mut remainders };
    let answer = whole_path(table, dart, t, points, lifts, out);
    let written = *answer.as_ref().unwrap_or(&0);
    assert!(kinds[written..].iter().all(|&w| w == 77));
    assert!(coords[3 * written..].iter().all(|&w| w == 7_777_777));
    assert!(remainders[3 * written..].iter().all(|&w| w == 777));
    let of = |i: usize| {
        let at = 3 * i;
        (
            kinds[i],
            [coords[at], coords[at + 1], coords[at + 2]],
            [remainders[at], remainders[at + 1], remainders[at + 2]],
        )
    };
    answer.map(|pieces| (0..pieces).map(of).collect())
}

/// Points and lifts that begin with these and are zeros from there on.
fn lent(points: &[i32], lifts: &[i32]) -> (Vec<i32>, Vec<i32>) {
    let padded = |words: &[i32], size: usize| [words, &vec![0; size - words.len()]].concat();
    (padded(points, 1_536), padded(lifts, 3_072))
}

/// Two vertices, 0 and 1, and an edge of k turns from 0 to 1.
fn strip(k: i16) -> Vec<u16> {
    made(&[add(0), add(1), insert(0, around(0), around(1), k)])
}

fn at(a: i32, b: i32, n: usize, j: usize) -> (i64, i64) {
    let Place { whole, remainder } = crossing(a, b, n, j);
    (whole, remainder)
}

#[test]
fn places_by_hand() {
    // A sixth of the way from 0 to 10, half of it, five sixths: 10/6, 30/6, 50/6.
    assert_eq!([0, 1, 2].map(|j| at(0, 10, 3, j)), [(1, 4), (5, 0), (8, 2)]);
    // Backwards: -10/6 is -2 and 2/6, -30/6 is -5, -50/6 is -9 and 4/6.
    assert_eq!([0, 1, 2].map(|j| at(10, 0, 3, j)), [(8, 2), (5, 0), (1, 4)]);
    assert_eq!([0, 1, 2].map(|j| at(0, -10, 3, j)), [(-2, 2), (-5, 0), (-9, 4)]);
    // A quarter of 7 and three quarters: 1 and 3/4, 5 and 1/4; backwards -2 and 1/4, -6 and 3/4.
    assert_eq!([0, 1].map(|j| at(-3, 4, 2, j)), [(-2, 3), (2, 1)]);
    assert_eq!([0, 1].map(|j| at(4, -3, 2, j)), [(2, 1), (-2, 3)]);
    // One crossing or none: the middle, rounded down.
    assert_eq!([at(0, 5, 1, 0), at(5, 0, 1, 0), at(0, -5, 1, 0), at(-1, 0, 1, 0)], [(2, 1), (2, 1), (-3, 1), (-1, 1)]);
    // 99 crossings from end to end: 131072 by 198 is 661 and 194 left; 197 times 131072 by 198 is 130410 and 4 left.
    assert_eq!([at(-65_536, 65_536, 99, 0), at(-65_536, 65_536, 99, 98)], [(-64_875, 194), (64_874, 4)]);
    assert_eq!([at(65_536, -65_536, 99, 0), at(65_536, -65_536, 99, 98)], [(64_874, 4), (-64_875, 194)]);
    assert_eq!(at(-65_536, 65_536, 99, 49), (0, 0), "the middle");
    assert_eq!(at(9, 9, 99, 7), (9, 0), "a loop's ends are one vertex");
}

/// Ends (0, 10, -7) and (9, -10, 0), three turns, lift (2, -3, 100). By 6: x 9, 27, 45; y -20, -60, -100; z 7, 21, 35.
#[test]
fn an_edge_of_three_turns_by_hand() {
    let (points, lifts) = lent(&[0, 10, -7, 9, -10, 0], &[2, -3, 100]);
    let remainders = [[3, 4, 1], [3, 0, 3], [3, 2, 5]];
    // Without the lift: (1, 6, -6), (4, 0, -4), (7, -7, -2).
    let over = [[3, 3, 94], [6, -3, 96], [9, -10, 98]];
    let under = [[-1, 9, -106], [2, 3, -104], [5, -4, -102]];
    let (o, u) = (|j: usize| (1, over[j], remainders[j]), |j: usize| (2, under[j], remainders[j]));
    // (0, 0) goes O U O from the first end on, (1, 1) U O U from the second.
    assert_eq!(path(&strip(3), 0, 0, &points, &lifts).unwrap(), [o(0), u(1), o(2), u(2), o(1), u(0), CLOSE]);
    assert_eq!(path(&strip(3), 1, 1, &points, &lifts).unwrap(), [u(2), o(1), u(0), o(0), u(1), o(2), CLOSE]);
    // The other sense: (1, 0) goes O U O, (0, 1) U O U.
    assert_eq!(path(&strip(3), 1, 0, &points, &lifts).unwrap(), [o(2), u(1), o(0), u(0), o(1), u(2), CLOSE]);
    // The other hand exchanges over and under.
    assert_eq!(path(&strip(-3), 0, 0, &points, &lifts).unwrap(), [u(0), o(1), u(2), o(2), u(1), o(0), CLOSE]);
}

/// An even number of turns leaves the type as it was: (0, 0) and (1, 0), both O U. By 4: x 9, 27; y -20, -60; z 7, 21.
#[test]
fn an_edge_of_two_turns_by_hand() {
    let (points, lifts) = lent(&[0, 10, -7, 9, -10, 0], &[2, -3, 100]);
    let first_over = (1, [4, 2, 94], [1, 0, 3]);
    let first_under = (2, [0, 8, -106], [1, 0, 3]);
    let second_over = (1, [8, -8, 98], [3, 0, 1]);
    let second_under = (2, [4, -2, -102], [3, 0, 1]);
    let expected = [first_over, second_under, second_over, first_under, CLOSE];
    assert_eq!(path(&strip(2), 0, 0, &points, &lifts).unwrap(), expected);
}

/// A flat edge has the middle of its ends, rounded down, and no lift: (0+9)/2, (10-10)/2, (-7+0)/2.
#[test]
fn a_flat_edge_by_hand() {
    let (points, lifts) = lent(&[0, 10, -7, 9, -10, 0], &[2, -3, 100]);
    let flat = (0, [4, 0, -4], [1, 0, 1]);
    assert_eq!(path(&strip(0), 0, 0, &points, &lifts).unwrap(), [flat, flat, CLOSE]);
}

/// Edge 0 of three turns and edge 1 without, both from 0 to 1: around them once is an odd number of turns. From (0,0) the
/// type is 1, and 3 is before 1; from (3,1) it stays, and 0 is before 2; from (0,1) it is 0, and 3 comes next after 1; from
/// (3,0) 0 comes next after 2. So edge 0 is passed twice from its first end, edge 1 twice from its second.
#[test]
fn an_edge_passed_twice_the_same_way() {
    let table = made(&[add(0), add(1), insert(0, around(0), around(1), 3), insert(1, 0, 1, 0)]);
    assert_eq!(walk_from(&table, step(0, 0)), [step(0, 0), step(3, 1), step(0, 1), step(3, 0)]);
    let (points, lifts) = lent(&[0, 0, 0, 6, 60, 7], &[1, 1, 1, 4_096, -4_096, 4_096]);
    // By 6: x 6, 18, 30; y 60, 180, 300; z 7, 21, 35.
    let rests = [[0, 0, 1], [0, 0, 3], [0, 0, 5]];
    let o = |j: usize| (1, [[2, 11, 2], [4, 31, 4], [6, 51, 6]][j], rests[j]);
    let u = |j: usize| (2, [[0, 9, 0], [2, 29, 2], [4, 49, 4]][j], rests[j]);
    let flat = (0, [3, 30, 3], [0, 0, 1]);
    let expected = [o(0), u(1), o(2), flat, u(0), o(1), u(2), flat, CLOSE];
    assert_eq!(path(&table, 0, 0, &points, &lifts).unwrap(), expected);
}

/// A loop of two turns at a vertex: each crossing sits at the vertex, and only the lift moves it.
#[test]
fn a_loop_by_hand() {
    let table = made(&[add(0), insert(0, around(0), around(0), 2)]);
    let (points, lifts) = lent(&[-65_536, 65_536, -1], &[-4_096, 4_096, 1]);
    let over = (1, [-69_632, 69_632, 0], [0; 3]);
    let under = (2, [-61_440, 61_440, -2], [0; 3]);
    assert_eq!(path(&table, 0, 0, &points, &lifts).unwrap(), [over, under, CLOSE]);
}

/// Edge 0 of two turns from 0 to 1, and a flat loop at 0: the walk (0,0), (1,0), (2,0), and (3,0) by itself.
fn sample() -> Vec<u16> {
    made(&[add(0), add(1), insert(0, around(0), around(1), 2), insert(1, 0, 0, 0)])
}

#[test]
fn a_whole_path_declines() {
    let (points, lifts) = lent(&[], &[]);
    assert_eq!(path(&sample(), 0, 0, &points, &lifts).unwrap().len(), 6, "never 8");
    declines_as_a_path(&sample(), &points, &lifts, path);
    // The other ribbon is of dart 3 alone.
    let (mut far_points, mut far_lifts) = (points.clone(), lifts.clone());
    (far_points[3], far_lifts[2]) = (65_537, 4_097);
    assert!(path(&sample(), 3, 0, &far_points, &far_lifts).is_ok(), "neither vertex 1 nor edge 0 is on it");
    (far_points[2], far_lifts[3]) = (65_537, 4_097);
    assert_eq!(path(&sample(), 3, 0, &far_points, &lifts), Err(Refusal::Far));
    assert_eq!(path(&sample(), 3, 0, &points, &far_lifts), Err(Refusal::Far));
}

#[test]
fn a_whole_path_needs_its_exact_size() {
    let (points, lifts) = lent(&[], &[]);
    let call = |kinds: usize, coords: usize, remainders: usize| {
        let (mut k, mut c, mut r) = (vec![77; kinds], vec![77; coords], vec![77; remainders]);
        let out = Outputs { kinds: &mut k, coords: &mut c, remainders: &mut r };
        let answer = whole_path(&sample(), 0, 0, &points, &lifts, out);
        let kept = k == vec![77; kinds] && c == vec![77; coords] && r == vec![77; remainders];
        assert_ne!(answer.is_ok(), kept);
        answer
    };
    // Two crossings, passed twice; the loop; Close.
    assert_eq!(call(6, 18, 18), Ok(6));
    assert_eq!(call(5, 18, 18), Err(Refusal::ShortSlice));
    assert_eq!(call(6, 17, 18), Err(Refusal::ShortSlice));
    assert_eq!(call(6, 18, 17), Err(Refusal::ShortSlice));
    assert_eq!(call(0, 0, 0), Err(Refusal::ShortSlice));
}

/// The longest path there is: 1,024 loops of 99 turns beside each other, in one ribbon of 2,048 steps.
#[test]
fn the_largest_whole_path() {
    let mut edits = vec![add(0), insert(0, around(0), around(0), 99)];
    edits.extend((1..1_024).map(|e| insert(e, 0, 0, 99)));
    let table = made(&edits);
    let (points, lifts) = lent(&[5, -5, 65_536], &[4_096, -1, 0]);
    let path = path(&table, 0, 0, &points, &lifts).unwrap();
    assert_eq!(path.len(), 202_753);
    assert_eq!((path[0], path[1]), ((1, [4_101, -6, 65_536], [0; 3]), (2, [-4_091, -4, 65_536], [0; 3])));
    assert_eq!(path[202_752], CLOSE);
}

fn drawn(random: &mut Random) -> (Vec<i32>, Vec<i32>) {
    let points = (0..1_536).map(|_| random.between(-65_536, 65_536)).collect();
    let lifts = (0..3_072).map(|_| random.between(-4_096, 4_096)).collect();
    (points, lifts)
}

/// Each piece by the sentence itself: the whole number is the largest one not above the place, and the remainder is what is
/// missing, both times 2n; the kinds are the letters with Flat between.
#[test]
fn every_piece_is_where_document_02_says() {
    let mut random = Random::new(0x0e01e);
    let (mut pieces, mut rounded_down) = (0, 0);
    for _ in 0..60 {
        let table = random_table(&mut random);
        let (points, lifts) = drawn(&mut random);
        for start in live_darts(&table).take(8) {
            let walk = walk_from(&table, step(start, 1));
            let path = path(&table, start, 1, &points, &lifts).unwrap();
            assert_eq!(path.len(), pieces_of(&table, &walk));
            let mut at = 0;
            for s in walk {
                let n = turns(&table, s.edge()).abs().max(1);
                for i in 0..n {
                    let j = if s.dart % 2 == 0 { i } else { n - 1 - i };
                    let (kind, words, remainders) = path[at];
                    for axis in 0..3 {
                        let end = |d: Dart| points[3 * leaves(&table, d) as usize + axis];
                        let (a, b) = (end(2 * s.edge()), end(2 * s.edge() + 1));
                        let lift = [0, 1, -1][kind as usize] * lifts[3 * s.edge() as usize + axis];
                        let sat = words[axis] - lift;
                        let (whole, place) = (2 * n * (sat - a), (2 * j + 1) * (b - a));
                        assert!(
                            whole <= place && place < whole + 2 * n,
                            "{sat} at crossing {j} of {n} from {a} to {b}"
                        );
                        assert_eq!(whole + i32::from(remainders[axis]), place);
                        rounded_down += usize::from(place < 0 && whole < place);
                    }
                    at += 1;
                }
                pieces += n;
            }
            assert_eq!(&path[at..], [CLOSE]);
            let letters = ribbon_letters(&table, start, 1).unwrap();
            let written: Vec<u16> = path[..at].iter().map(|piece| piece.0).filter(|&kind| kind != 0).collect();
            assert_eq!(written, letters.iter().map(|&l| if l == Letter::O { 1 } else { 2 }).collect::<Vec<u16>>());
        }
    }
    assert!(pieces > 100_000 && rounded_down > 100_000, "{pieces} {rounded_down}");
}

/// The ribbon in its other sense: the same pieces, last first.
#[test]
fn the_other_sense_is_the_path_reversed() {
    let mut random = Random::new(0x0e02e);
    let mut pieces = 0;
    for _ in 0..60 {
        let table = random_table(&mut random);
        let (points, lifts) = drawn(&mut random);
        for start in live_darts(&table).take(8) {
            let back = other_sense(&table, step(start, 0));
            let mut path_on = path(&table, start, 0, &points, &lifts).unwrap();
            let path_back = path(&table, back.dart, back.t as u16, &points, &lifts).unwrap();
            path_on.pop();
            path_on.reverse();
            path_on.push(CLOSE);
            assert_eq!(path_on, path_back);
            pieces += path_on.len();
        }
    }
    assert!(pieces > 100_000, "{pieces}");
}

/// Where no edge has more than one turn, a coordinate of the float path times 32 is twice the word and the remainder.
#[test]
fn beside_the_float_path() {
    let mut random = Random::new(0x0e03e);
    let (mut both, mut whole_alone) = (0, 0);
    for _ in 0..100 {
        let table = random_table(&mut random);
        let (points, lifts) = drawn(&mut random);
        for start in live_darts(&table).take(8) {
            let (mut kinds, mut floats) = (vec![0; 2_049], vec![0.0; 6_147]);
            let whole = path(&table, start, 0, &points, &lifts).unwrap();
            match float_path(&table, start, 0, &points, &lifts, &mut kinds, &mut floats) {
                Ok(pieces) => {
                    assert_eq!(pieces, whole.len());
                    for (i, (kind, words, remainders)) in whole.into_iter().enumerate() {
                        assert_eq!(kind, kinds[i]);
                        for axis in 0..3 {
                            let twice = 2 * words[axis] + i32::from(remainders[axis]);
                            assert_eq!(f64::from(floats[3 * i + axis]) * 32.0, f64::from(twice));
                        }
                    }
                    both += 1;
                }
                Err(refusal) => {
                    assert_eq!(refusal, Refusal::ManyTurns);
                    whole_alone += 1;
                }
            }
        }
    }
    assert!(both > 50 && whole_alone > 50, "{both} {whole_alone}");
}
