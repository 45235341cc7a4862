//! planner_letters, planner_alternates and planner_plain: the reference's answers on whole, damaged and short slices,
//! outputs of the exact size, longer and shorter, and nothing written but the letters.

use host::guarded::Guarded;
use host::planner;
use host::tables::{any_step, whole_or_damaged};
use reference::table::{empty_mesh, DARTS};
use reference::trial::random::Random;
use reference::weave::{plain, ribbon_alternates, ribbon_letters, Letter};

const GUARD: u16 = 0xa5c3;
const BYTE_GUARD: u8 = 0x5a;

fn spelt(letters: &[Letter]) -> Vec<u8> {
    letters.iter().map(|letter| if *letter == Letter::O { b'O' } else { b'U' }).collect()
}

/// The letters into so many bytes: the answer, and what the output then holds.
fn written(table: &[u16], dart: u16, kind: u16, bytes: usize) -> (i64, Vec<u8>) {
    let lent = Guarded::new(table, GUARD);
    let mut out = Guarded::new(&vec![BYTE_GUARD; bytes], BYTE_GUARD);
    let answer = planner::letters(lent.slice(), dart, kind, out.slice_mut());
    assert_eq!(lent.slice(), table, "the table is only read");
    lent.assert_guards();
    out.assert_guards();
    (answer, out.slice().to_vec())
}

/// One step of one table; tells whether it was answered, and whether the ribbon alternates.
fn compare(random: &mut Random, table: &[u16], dart: u16, kind: u16) -> Option<bool> {
    let expected = planner::as_number(ribbon_alternates(table, dart, kind).map(usize::from));
    assert_eq!(planner::alternates(table, dart, kind), expected);
    match ribbon_letters(table, dart, kind) {
        Err(refusal) => {
            let size = random.below(50);
            let declined = (-i64::from(refusal.number()), vec![BYTE_GUARD; size]);
            assert_eq!(written(table, dart, kind, size), declined);
            None
        }
        Ok(letters) => {
            let letters = spelt(&letters);
            let exact = letters.len();
            assert_eq!(written(table, dart, kind, exact), (exact as i64, letters.clone()));
            let more = 1 + random.below(40);
            let (answer, out) = written(table, dart, kind, exact + more);
            assert_eq!((answer, &out[..exact]), (exact as i64, &letters[..]));
            assert!(out[exact..].iter().all(|&byte| byte == BYTE_GUARD), "nothing past the exact size");
            if exact > 0 {
                for size in [exact - 1, random.below(exact)] {
                    assert_eq!(written(table, dart, kind, size), (-7, vec![BYTE_GUARD; size]));
                }
            }
            Some(expected == 1)
        }
    }
}

#[test]
fn document_01s_samples() {
    // One vertex with a loop of turns 1: one ribbon, over and under.
    let mut table = empty_mesh();
    (table[0], table[1], table[2_048], table[2_049], table[4_096], table[4_097]) = (1, 0, 1, 0, 0, 0);
    (table[6_144], table[7_168], table[7_680]) = (101, 0, 16);
    assert_eq!(written(&table, 0, 0, 2), (2, b"OU".to_vec()));
    assert_eq!(written(&table, 0, 1, 2), (2, b"UO".to_vec()));
    // Travelled backwards the letters are not exchanged: the hand stays.
    assert_eq!(written(&table, 1, 0, 2), (2, b"OU".to_vec()));
    assert_eq!((planner::alternates(&table, 0, 0), planner::plain(&table)), (1, 1));
    // Turns -1: under first.
    table[6_144] = 99;
    assert_eq!(written(&table, 0, 0, 2), (2, b"UO".to_vec()));
    // No turns, no letters; no vertex, a plain weave.
    table[6_144] = 100;
    assert_eq!(written(&table, 0, 0, 0), (0, vec![]));
    assert_eq!((planner::alternates(&table, 0, 0), planner::plain(&table), planner::plain(&empty_mesh())), (1, 1, 1));
}

#[test]
fn random_tables_whole_and_damaged() {
    let mut random = Random::new(0x1e77e5);
    let (mut mixed, mut alternating, mut declined, mut plain_weaves) = (0, 0, 0, 0);
    for round in 0..400 {
        let table = whole_or_damaged(&mut random, round);
        let expected = planner::as_number(plain(&table).map(usize::from));
        assert_eq!(planner::plain(&table), expected);
        plain_weaves += usize::from(expected == 1);
        for _ in 0..12 {
            let (dart, kind) = any_step(&mut random, DARTS);
            match compare(&mut random, &table, dart, kind) {
                None => declined += 1,
                Some(true) => alternating += 1,
                Some(false) => mixed += 1,
            }
        }
    }
    assert!(mixed > 100 && alternating > 100 && declined > 100, "{mixed} {alternating} {declined}");
    assert!(plain_weaves > 5, "{plain_weaves}");
}
