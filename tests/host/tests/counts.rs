//! planner_counts and planner_parts: the reference's numbers on whole, damaged and short slices, outputs of the exact
//! size, longer and shorter, and nothing written but the counts.

use host::guarded::Guarded;
use host::planner::{self, as_counts, as_parts};
use host::tables::whole_or_damaged;
use reference::counts::counts;
use reference::table::empty_mesh;
use reference::trial::k4::{k4, SPHERE, TORUS};
use reference::trial::random::Random;
use reference::trial::solids::{cube, dodecahedron, solid};

const GUARD: u16 = 0xa5c3;
const OUT_GUARD: i32 = -1_234_567;

type Call = fn(&[u16], &mut [i32]) -> i64;

/// What a call writes into so many words: the answer, and what the output then holds.
fn written(call: Call, table: &[u16], words: usize) -> (i64, Vec<i32>) {
    let lent = Guarded::new(table, GUARD);
    let mut out = Guarded::new(&vec![OUT_GUARD; words], OUT_GUARD);
    let answer = call(lent.slice(), out.slice_mut());
    assert_eq!(lent.slice(), table, "the table is only read");
    lent.assert_guards();
    out.assert_guards();
    (answer, out.slice().to_vec())
}

/// One call, into the exact size, more and less.
fn compare(random: &mut Random, call: Call, table: &[u16], expected: &[i32]) {
    let exact = expected.len();
    assert_eq!(written(call, table, exact), (exact as i64, expected.to_vec()));
    let (answer, out) = written(call, table, exact + 1 + random.below(40));
    assert_eq!((answer, &out[..exact]), (exact as i64, expected));
    assert!(out[exact..].iter().all(|&word| word == OUT_GUARD), "nothing past the exact size");
    for size in [exact.saturating_sub(1), random.below(exact + 1), 0] {
        if size < exact {
            assert_eq!(written(call, table, size), (-7, vec![OUT_GUARD; size]));
        }
    }
}

fn declines_as_torn(random: &mut Random, table: &[u16]) {
    for call in [planner::counts as Call, planner::parts] {
        let size = random.below(50);
        assert_eq!(written(call, table, size), (-1, vec![OUT_GUARD; size]));
    }
}

#[test]
fn meshes_whose_counts_are_known() {
    let told = |table: &[u16]| (written(planner::counts, table, 5).1, written(planner::parts, table, 6).1);
    assert_eq!(written(planner::counts, &empty_mesh(), 5), (5, vec![0; 5]));
    assert_eq!(written(planner::parts, &empty_mesh(), 0), (0, vec![]));
    assert_eq!(told(&k4(SPHERE, 0)), (vec![4, 6, 4, 1, 2], vec![0, 4, 6, 4, 2, 1]));
    assert_eq!(told(&k4(TORUS, 0)), (vec![4, 6, 2, 1, 0], vec![0, 4, 6, 2, 0, 1]));
    assert_eq!(told(&k4(SPHERE, 1)), (vec![4, 6, 3, 1, 1], vec![0, 4, 6, 3, 1, 0]));
    assert_eq!(told(&solid(&cube(), 0)), (vec![8, 12, 6, 1, 2], vec![0, 8, 12, 6, 2, 1]));
    // All turns 1: a part without odd circuits, as the cube's, stays orientable; one with pentagons does not.
    assert_eq!(told(&solid(&cube(), 1)), (vec![8, 12, 4, 1, 0], vec![0, 8, 12, 4, 0, 1]));
    assert_eq!(told(&solid(&dodecahedron(), 1)), (vec![20, 30, 6, 1, -4], vec![0, 20, 30, 6, -4, 0]));
}

#[test]
fn random_tables_whole_and_damaged() {
    let mut random = Random::new(0xc0e27);
    let (mut torn, mut many_parts, mut orientable, mut not) = (0, 0, 0, 0);
    for round in 0..1_500 {
        let table = whole_or_damaged(&mut random, round);
        match counts(&table) {
            Err(refusal) => {
                assert_eq!(refusal.number(), 1);
                declines_as_torn(&mut random, &table);
                torn += 1;
            }
            Ok(expected) => {
                compare(&mut random, planner::counts, &table, &as_counts(&expected));
                compare(&mut random, planner::parts, &table, &as_parts(&expected));
                many_parts += usize::from(expected.parts.len() > 1);
                orientable += expected.parts.iter().filter(|part| part.orientable && part.edges > 0).count();
                not += expected.parts.iter().filter(|part| !part.orientable).count();
            }
        }
    }
    let seen = [torn, many_parts, orientable, not];
    assert!(seen.iter().all(|&n| n > 100), "{seen:?}");
}
