//! Good and torn tables: each rule broken by hand, and a second way to tell on thousands of damaged tables.

use crate::*;
use reference::check::{check, is_good};
use reference::refusal::Refusal;
use reference::table::*;
use reference::trial::damage::damage;
use reference::trial::random::Random;
use reference::trial::tables::{random_table, Mesh};

/// Two vertices joined by an edge of length 700, a loop of turns -4 and length 16 at the first, an isolated vertex.
fn sample() -> Vec<u16> {
    let edits = [add(0), add(1), add(9), insert_long(3, around(0), around(1), 2, 700), insert(5, 6, 6, -4)];
    made(&edits)
}

#[test]
fn the_layout_is_the_documents() {
    assert_eq!((NEXT, PREVIOUS, LEAVES, TURNS, VERTEX), (0, 2_048, 4_096, 6_144, 7_168));
    assert_eq!((LENGTH, WORDS), (7_680, 8_704));
    let table = sample();
    assert_eq!([table[6], table[10], table[11], table[7]], [10, 11, 6, 7], "next");
    assert_eq!([table[2_048 + 6], table[2_048 + 10], table[2_048 + 11], table[2_048 + 7]], [11, 6, 10, 7], "previous");
    assert_eq!([table[4_096 + 6], table[4_096 + 7], table[4_096 + 10], table[4_096 + 11]], [0, 1, 0, 0], "leaves");
    assert_eq!([table[6_144 + 3], table[6_144 + 5], table[6_144]], [102, 96, 0], "turns plus 100");
    assert_eq!([table[7_168], table[7_169], table[7_168 + 9], table[7_168 + 2]], [6, 7, 65_534, 65_535], "vertices");
    assert_eq!([table[7_680 + 3], table[7_680 + 5], table[7_680 + 4]], [700, 16, 0], "lengths");
}

#[test]
fn the_empty_mesh_is_good() {
    let table = empty_mesh();
    assert_eq!(check(&table), Ok(()));
    assert!(table[..6_144].iter().all(|&w| w == 65_535));
    assert!(table[6_144..7_168].iter().all(|&w| w == 0));
    assert!(table[7_168..7_680].iter().all(|&w| w == 65_535));
    assert!(table[7_680..].iter().all(|&w| w == 0));
}

#[test]
fn a_fresh_fill_tests_only_the_size() {
    for size in [0, 1, 7_679, 7_680, 7_681, 8_703, 8_705] {
        let mut slice = vec![7; size];
        assert_eq!(empty(&mut slice), Err(Refusal::Torn));
        assert_eq!(slice, vec![7; size]);
    }
    let mut slice = vec![7; 8_704];
    assert_eq!(empty(&mut slice), Ok(()));
    assert_eq!(slice, empty_mesh());
}

#[test]
fn another_size_is_torn() {
    let table = sample();
    assert!(is_good(&table));
    assert!(!is_good(&table[..8_703]));
    assert!(!is_good(&table[..7_680]), "the words of document 01 alone");
    assert!(!is_good(&[]));
    let mut longer = table.clone();
    longer.push(0);
    assert!(!is_good(&longer));
}

/// The sample with some words changed.
fn with(words: &[(usize, u16)]) -> bool {
    let mut table = sample();
    for &(place, word) in words {
        assert_ne!(table[place], word, "a change");
        table[place] = word;
    }
    is_good(&table)
}

#[test]
fn changes_that_keep_a_table_good() {
    assert!(with(&[(TURNS + 3, 1)]), "turns -99");
    assert!(with(&[(TURNS + 3, 199)]), "turns 99");
    assert!(with(&[(VERTEX + 9, NOT_LIVE)]), "an isolated vertex removed");
    assert!(with(&[(VERTEX + 2, ISOLATED)]), "a vertex added");
    for length in [1, 2, 15, 17, 99, 100, 32_768, 65_534, 65_535] {
        assert!(with(&[(LENGTH + 3, length)]) && with(&[(LENGTH + 5, length)]), "a live edge of length {length}");
    }
    assert!(
        with(&[(6, 11), (11, 10), (10, 6), (2_048 + 11, 6), (2_048 + 10, 11), (2_048 + 6, 10)]),
        "another rotation"
    );
}

#[test]
fn each_rule_broken() {
    assert!(!with(&[(TURNS + 3, 200)]), "turns 100");
    assert!(!with(&[(TURNS + 3, 65_535)]), "turns far too many");
    assert!(!with(&[(TURNS + 3, 0)]), "darts of an edge that is not live");
    assert!(!with(&[(TURNS, 100)]), "an edge without darts");
    assert!(!with(&[(NEXT, 0)]) && !with(&[(PREVIOUS, 0)]) && !with(&[(LEAVES, 0)]), "a word of a dead dart");
    assert!(!with(&[(VERTEX, NOT_LIVE)]), "a dart that leaves a vertex that is not live");
    assert!(!with(&[(LEAVES + 6, 512)]) && !with(&[(LEAVES + 6, NOT_LIVE)]), "a dart that leaves no vertex");
    assert!(!with(&[(LEAVES + 10, 1)]), "a cycle of two vertices");
    assert!(!with(&[(NEXT + 7, 6)]) && !with(&[(PREVIOUS + 7, 6)]), "next and previous do not undo each other");
    assert!(!with(&[(NEXT + 7, 2_048)]) && !with(&[(NEXT + 7, 0)]), "next is no live dart");
    assert!(!with(&[(VERTEX, 10)]) && !with(&[(VERTEX, ISOLATED)]), "not the smallest dart");
    assert!(!with(&[(VERTEX + 9, 6)]) && !with(&[(VERTEX + 9, 0)]), "an isolated vertex with a dart");
    assert!(!with(&[(LENGTH + 3, 0)]) && !with(&[(LENGTH + 5, 0)]), "a live edge without a length");
    assert!(!with(&[(LENGTH + 3, 0), (LENGTH + 4, 700)]), "another edge has its length");
    assert!(!with(&[(VERTEX + 2, 65_533)]) && !with(&[(VERTEX + 2, 2_048)]), "a vertex word that says nothing");
}

/// "1 to 65,535 if live, 0 if not": each of the 1,024 words, where every second edge is live, the last one too.
#[test]
fn the_length_of_every_edge() {
    let live = |e: Edge| e % 2 == 1;
    let mut edits = vec![add(7), insert(1, around(7), around(7), 0)];
    edits.extend((3..1_024).step_by(2).map(|e| insert(e, 2, 2, 0)));
    let mut table = made(&edits);
    for e in edges() {
        let own = table[LENGTH + e as usize];
        assert_eq!(own, if live(e) { 16 } else { 0 });
        for length in [0, 1, 2, 16, 99, 100, 32_768, 65_534, 65_535] {
            table[LENGTH + e as usize] = length;
            assert_eq!(is_good(&table), (length > 0) == live(e), "edge {e}, length {length}");
        }
        table[LENGTH + e as usize] = own;
    }
    assert!(is_good(&table));
}

#[test]
fn two_cycles_at_one_vertex_are_torn() {
    assert!(!with(&[(LEAVES + 7, 0), (VERTEX + 1, ISOLATED)]), "both ends at vertex 0, rotations apart");
    assert!(!with(&[(6, 6), (2_048 + 6, 6), (11, 10), (2_048 + 10, 11)]), "dart 6 taken out of the cycle of vertex 0");
}

/// Good a second way: read the rotations off the table; they hold each live dart once, and writing them out again
/// gives the table back.
fn can_be_written(table: &[u16]) -> bool {
    table.len() == WORDS && read(table).is_some_and(|mesh| mesh.written() == table)
}

fn read(table: &[u16]) -> Option<Mesh> {
    let mut mesh = Mesh::default();
    for e in live_edges(table) {
        let (turns, length) = (turns(table, e), length(table, e));
        if turns.abs() > 99 || length == 0 {
            return None;
        }
        mesh.edges.push((e, turns, length));
    }
    for v in live_vertices(table) {
        let mut rotation = Vec::new();
        let mut d = vertex_word(table, v);
        while d != ISOLATED && !rotation.contains(&d) {
            if d as usize >= DARTS {
                return None;
            }
            rotation.push(d);
            d = next(table, d);
        }
        mesh.rotations.push((v, rotation));
    }
    let mut all: Vec<Dart> = mesh.rotations.iter().flat_map(|(_, rotation)| rotation.clone()).collect();
    all.sort();
    (all == live_darts(table).collect::<Vec<_>>()).then_some(mesh)
}

#[test]
fn both_ways_agree_on_damaged_tables() {
    let mut random = Random::new(0x6006);
    let mut seen = [0; 2];
    for _ in 0..300 {
        let table = random_table(&mut random);
        assert!(is_good(&table));
        for _ in 0..40 {
            let mut damaged = table.clone();
            for _ in 0..1 + random.below(2) {
                damage(&mut random, &mut damaged);
            }
            let good = is_good(&damaged);
            assert_eq!(good, can_be_written(&damaged));
            seen[usize::from(good)] += 1;
        }
    }
    assert!(seen[0] > 4_000 && seen[1] > 1_000, "{seen:?}");
}
