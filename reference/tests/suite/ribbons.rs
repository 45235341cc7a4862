//! One ribbon: its letters, its cut length, its float path.

use crate::*;
use reference::length::cut_length;
use reference::path::float_path;
use reference::refusal::Refusal;
use reference::table::*;
use reference::trace::{corner_met, other_sense, step, walk_from, Step};
use reference::trial::random::Random;
use reference::trial::tables::{random_table, with_lengths};
use reference::weave::{alternate, count, crossings, ribbon_alternates, ribbon_letters, Letter::*};

#[test]
fn letters_of_a_step() {
    assert_eq!(crossings(0, 0), []);
    assert_eq!(crossings(1, 0), [O]);
    assert_eq!(crossings(1, 1), [U]);
    assert_eq!(crossings(-1, 0), [U]);
    assert_eq!(crossings(-1, 1), [O]);
    assert_eq!(crossings(3, 0), [O, U, O]);
    assert_eq!(crossings(-3, 0), [U, O, U]);
    assert_eq!(crossings(2, 1), [U, O]);
    assert_eq!(crossings(-99, 1).len(), 99);
}

#[test]
fn alternating_letters() {
    assert!(alternate(&[]));
    assert!(alternate(&[O, U]) && alternate(&[U, O, U, O]));
    assert!(!alternate(&[O, O]) && !alternate(&[O, U, U, O]) && !alternate(&[O, U, O]), "neighbours cyclically");
    assert!(!alternate(&[O]), "its own neighbour");
}

/// Two vertices, 0 and 1, an edge of turns 1 between them and a loop without turns at 0: one walk from (0,0) passes
/// darts 0, 1 and one of the loop's.
fn sample() -> Vec<u16> {
    made(&[add(0), add(1), insert(0, around(0), around(1), 1), insert(1, 0, 0, 0)])
}

#[test]
fn letters_of_a_ribbon_decline_as_they_should() {
    let table = sample();
    assert_eq!(ribbon_letters(&table, 2_048, 0), Err(Refusal::NoSuchName));
    assert_eq!(ribbon_letters(&table, 0, 2), Err(Refusal::NoSuchName));
    assert_eq!(ribbon_letters(&table, 9, 2), Err(Refusal::NoSuchName));
    assert_eq!(ribbon_letters(&table, 4, 0), Err(Refusal::Absent));
    assert_eq!(ribbon_letters(&table[1..], 2_048, 0), Err(Refusal::Torn));
    assert_eq!(ribbon_alternates(&table, 0, 0), Ok(true));
}

/// The sample with these lengths.
fn sample_of(first: u16, second: u16) -> Vec<u16> {
    with_lengths(&sample(), |e| if e == 0 { first } else { second })
}

/// The ribbon (0,0), (1,1), (2,0) has the letters O and U, the one of step (3,0) has none.
#[test]
fn a_cut_length_is_edges_overs_and_the_lap() {
    let table = sample_of(1_000, 65_535);
    // Cycle at 0: 0, 2, 3. From (0,0) the type is 1 at the far end, the only dart there is 1; back over edge 0 the
    // type is 0 again, and next after dart 0 comes dart 2; its reverse is 3, and next after that is 0.
    assert_eq!(walk_from(&table, step(0, 0)), [step(0, 0), step(1, 1), step(2, 0)]);
    for (dart, t) in [(0, 0), (1, 1), (2, 0)] {
        assert_eq!(cut_length(&table, dart, t), Ok(1_000 + 1_000 + 65_535 + 8 + 320));
    }
    assert_eq!(cut_length(&table, 3, 0), Ok(65_535 + 320), "no letters, and yet a lap");
    // What the insertions wrote: three edges of 16, one O, the lap.
    assert_eq!(cut_length(&sample(), 0, 0), Ok(48 + 8 + 320));
}

/// An edge of turns k between two vertices: its ribbon passes both sides, so at each crossing it is over once.
#[test]
fn eight_for_each_letter_o() {
    for (k, overs) in [(0, 0), (1, 1), (-1, 1), (2, 2), (-3, 3), (99, 99), (-99, 99)] {
        let table = made(&[add(0), add(1), insert_long(0, around(0), around(1), k, 1_000)]);
        assert_eq!(cut_length(&table, 0, 0), Ok(2_000 + 8 * overs + 320), "{k} turns");
    }
}

/// Two loops with the darts 0, 3, 1, 2 around their vertex, of 99 and -3 turns. From (1,0) the type is 1 and dart 2 is
/// before 0; from (2,1) it is 0 again, and dart 1 comes next after 3. From (0,1) likewise (2,0) and back.
/// O's: (1,0) 50 of 99, (2,1) OUO two; (0,1) 49 of 99, (2,0) UOU one.
#[test]
fn each_side_has_its_own_overs() {
    let table = made(&[add(0), insert_long(0, around(0), around(0), 99, 1_000), insert_long(1, 0, 1, -3, 70)]);
    assert_eq!(walk_from(&table, step(1, 0)), [step(1, 0), step(2, 1)]);
    assert_eq!(walk_from(&table, step(0, 1)), [step(0, 1), step(2, 0)]);
    assert_eq!(cut_length(&table, 1, 0), Ok(1_000 + 70 + 8 * 52 + 320));
    assert_eq!(cut_length(&table, 0, 1), Ok(1_000 + 70 + 8 * 50 + 320));
}

/// "An isolated vertex still yields no ribbon": no step names its empty walk, and the ribbons beside it stay.
#[test]
fn an_isolated_vertex_has_no_cut_length() {
    let alone = made(&[add(7)]);
    assert_eq!(cut_length(&alone, around(7), 0), Err(Refusal::NoSuchName));
    assert_eq!(cut_length(&alone, 7, 0), Err(Refusal::Absent));
    let mut table = sample_of(1, 1);
    edit(&mut table, add(7)).unwrap();
    assert_eq!(cut_length(&table, around(7), 0), Err(Refusal::NoSuchName));
    assert_eq!(cut_length(&table, 0, 0), Ok(3 + 8 + 320));
}

/// A ribbon is "named by any step on it", in either sense.
#[test]
fn every_step_names_the_same_cut_length() {
    let mut random = Random::new(0xc07);
    let mut named = 0;
    for _ in 0..30 {
        let table = random_table(&mut random);
        for ribbon in ribbons(&table).iter().filter(|ribbon| ribbon.len() < 300).take(8) {
            let mut names: Vec<Step> = ribbon.clone();
            names.extend(ribbon.iter().map(|&s| other_sense(&table, s)));
            assert!(ribbon.iter().all(|&s| corner_met(&table, s) == corner_met(&table, other_sense(&table, s))));
            assert_eq!(walk_from(&table, names[ribbon.len()]).len(), ribbon.len());
            let mut answers: Vec<_> = names.iter().map(|s| cut_length(&table, s.dart, s.t as u16)).collect();
            answers.dedup();
            let letters = ribbon_letters(&table, ribbon[0].dart, ribbon[0].t as u16).unwrap();
            // Word 7,680 + e, whichever of the edge's darts the step is on.
            let edges: u32 = ribbon.iter().map(|s| u32::from(table[7_680 + s.dart as usize / 2])).sum();
            assert_eq!(answers, [Ok(edges + 8 * count(&letters, O) + 320)]);
            named += names.len();
        }
    }
    assert!(named > 3_000, "{named}");
}

/// The longest ribbon there is: 1,024 loops of 99 turns beside each other. From (0,0) the type is 1, and dart 0 is before
/// dart 1; from (0,1) it is 0, and dart 2 comes next after dart 1; and so on over all of them.
#[test]
fn the_largest_cut_length() {
    let mut edits = vec![add(0), insert_long(0, around(0), around(0), 99, 65_535)];
    edits.extend((1..1_024).map(|e| insert_long(e, 0, 0, 99, 65_535)));
    let table = made(&edits);
    assert_eq!(walk_sizes(&table), [2_048]);
    // 134,215,680 for the edges; (2e,0) has 50 O's and (2e,1) has 49: 811,008 for the O's; and the lap.
    assert_eq!(cut_length(&table, 0, 0), Ok(2_048 * 65_535 + 8 * 1_024 * 99 + 320));
    assert_eq!(cut_length(&table, 0, 0), Ok(135_027_008));
}

/// "no longer answer 7 or 9": a length that is none is a torn table, wherever it stands.
#[test]
fn a_cut_length_declines() {
    let table = sample_of(1, 1);
    // Three edges of 1, one O, the lap; the other ribbon has one edge and no O.
    assert_eq!((cut_length(&table, 0, 0), cut_length(&table, 3, 0)), (Ok(331), Ok(321)));
    assert_eq!(cut_length(&table, 4, 0), Err(Refusal::Absent));
    assert_eq!(cut_length(&table, 4, 2), Err(Refusal::NoSuchName));
    assert_eq!(cut_length(&table, 2_048, 0), Err(Refusal::NoSuchName));
    assert_eq!(cut_length(&[], 4, 2), Err(Refusal::Torn));
    for torn in [sample_of(0, 1), sample_of(1, 0), table[..7_680].to_vec(), table[..8_703].to_vec()] {
        assert_eq!(cut_length(&torn, 3, 0), Err(Refusal::Torn));
    }
}

/// The float path with room to spare; what is written, and that nothing past it is.
fn path(table: &[u16], dart: u16, t: u16, points: &[i32], lifts: &[i32]) -> Result<(Vec<u16>, Vec<f32>), Refusal> {
    let (mut words, mut floats) = (vec![77; 2_100], vec![0.5; 6_300]);
    let answer = float_path(table, dart, t, points, lifts, &mut words, &mut floats);
    let written = *answer.as_ref().unwrap_or(&0);
    assert!(words[written..].iter().all(|&w| w == 77) && floats[3 * written..].iter().all(|&f| f == 0.5));
    words.truncate(written);
    floats.truncate(3 * written);
    answer.map(|_| (words, floats))
}

fn places() -> (Vec<i32>, Vec<i32>) {
    let (mut points, mut lifts) = (vec![0; 1_536], vec![0; 3_072]);
    points[..6].copy_from_slice(&[16, -32, 65_536, 48, 32, 65_535]);
    lifts[..6].copy_from_slice(&[8, 1, -4_096, 4_096, 7, 9]);
    (points, lifts)
}

#[test]
fn a_float_path_by_hand() {
    let (points, lifts) = places();
    // Over: (16+48+16)/32, (-32+32+2)/32, (131071-8192)/32. Under: the lift taken off. Flat loop: the vertex itself.
    let over = [2.5, 0.0625, 122_879.0 / 32.0];
    let under = [1.5, -0.0625, 139_263.0 / 32.0];
    let flat = [1.0, -2.0, 4_096.0];
    let (words, floats) = path(&sample(), 0, 0, &points, &lifts).unwrap();
    assert_eq!(words, [1, 2, 0, 3]);
    assert_eq!(floats, [over, under, flat, [0.0; 3]].concat());
    let (words, floats) = path(&sample(), 2, 0, &points, &lifts).unwrap();
    assert_eq!(words, [0, 1, 2, 3], "it begins at the step that names it");
    assert_eq!(floats, [flat, over, under, [0.0; 3]].concat());
}

#[test]
fn a_negative_hand_exchanges_over_and_under() {
    let mut table = sample();
    edit(&mut table, turn(0, -2)).unwrap();
    let (points, lifts) = places();
    assert_eq!(path(&table, 0, 0, &points, &lifts).unwrap().0, [2, 1, 0, 3]);
}

#[test]
fn zero_is_positive_zero() {
    let (mut points, lifts) = (vec![0; 1_536], vec![0; 3_072]);
    (points[0], points[3]) = (-5, 5);
    let (_, floats) = path(&sample(), 0, 0, &points, &lifts).unwrap();
    assert_eq!(floats[0].to_bits(), 0);
    assert_eq!(floats[6], -10.0 / 32.0, "the loop's two ends are one vertex");
    assert!(floats[9..].iter().all(|f| f.to_bits() == 0), "Close");
}

#[test]
fn a_float_path_declines() {
    let (points, lifts) = places();
    declines_as_a_path(&sample(), &points, &lifts, path);
    let mut many = sample();
    edit(&mut many, turn(0, 1)).unwrap();
    assert_eq!(path(&many, 0, 0, &points[..9], &lifts), Err(Refusal::ShortSlice));
    assert_eq!(path(&many, 0, 0, &points, &lifts), Err(Refusal::ManyTurns));
    let far = vec![65_537; 1_536];
    assert_eq!(path(&many, 0, 0, &far, &lifts), Err(Refusal::ManyTurns));
    assert!(path(&many, 3, 0, &points, &lifts).is_ok(), "edge 0 is not on that ribbon");
}

#[test]
fn a_float_path_needs_its_exact_size() {
    let (points, lifts) = places();
    let call = |words: usize, floats: usize| {
        let (mut w, mut f) = (vec![77; words], vec![0.5; floats]);
        let answer = float_path(&sample(), 0, 0, &points, &lifts, &mut w, &mut f);
        assert!(answer.is_ok() || w == vec![77; words] && f == vec![0.5; floats]);
        answer
    };
    assert_eq!(call(4, 12), Ok(4));
    assert_eq!(call(3, 12), Err(Refusal::ShortSlice));
    assert_eq!(call(4, 11), Err(Refusal::ShortSlice));
    assert_eq!(call(0, 0), Err(Refusal::ShortSlice));
}

/// Each coordinate times 32, in 64-bit floats where all is exact, is the whole number of document 01's rule.
#[test]
fn nothing_is_rounded() {
    let mut random = Random::new(0xf10a);
    let mut pieces = 0;
    for _ in 0..400 {
        let table = random_table(&mut random);
        let points: Vec<i32> = (0..1_536).map(|_| random.between(-65_536, 65_536)).collect();
        let lifts: Vec<i32> = (0..3_072).map(|_| random.between(-4_096, 4_096)).collect();
        let starts: Vec<Dart> = live_darts(&table).take(40).collect();
        for start in starts {
            let walk = walk_from(&table, step(start, 0));
            match path(&table, start, 0, &points, &lifts) {
                Err(refusal) => {
                    assert_eq!(refusal, Refusal::ManyTurns);
                    assert!(walk.iter().any(|s| turns(&table, s.edge()).abs() > 1));
                }
                Ok((words, floats)) => {
                    assert_eq!(words.len(), walk.len() + 1);
                    for (i, s) in walk.iter().enumerate() {
                        let times = [0, 2, -2][words[i] as usize];
                        for axis in 0..3 {
                            let end = |d: Dart| points[3 * leaves(&table, d) as usize + axis];
                            let lift = lifts[3 * s.edge() as usize + axis];
                            let whole = end(s.dart) + end(reverse(s.dart)) + times * lift;
                            assert_eq!(f64::from(floats[3 * i + axis]) * 32.0, f64::from(whole));
                        }
                        pieces += 1;
                    }
                }
            }
        }
    }
    assert!(pieces > 10_000, "{pieces}");
}
