//! planner_delete_edge: 2, 4, else the table without the edge and its length, the face count after its rule, and the
//! rule.

use host::compare::{Seen, Twins};
use host::planner::{A, B1, B2};
use reference::edit::Edit;
use reference::table::{length, live_edges, EDGES, LENGTH};
use reference::trial::random::Random;
use reference::trial::tables::random_table;

#[test]
fn each_rule() {
    let deleted = |c1, c2, k| Twins::with_edge(c1, c2, k).edit(Edit::DeleteEdge { e: 0 });
    assert_eq!(deleted(32_768, 32_768, 0), 2 + A, "its sides are on different faces");
    assert_eq!(deleted(32_768, 32_769, 0), 2 + B1, "its walk passes by both darts");
    assert_eq!(deleted(32_768, 32_769, 1), 2 + B1, "its walk passes by both darts");
    assert_eq!(deleted(32_768, 32_768, 1), 2 + B2, "its walk passes by dart 0 twice");
}

#[test]
fn every_name_on_random_tables() {
    let mut random = Random::new(0xd1);
    let mut seen = Seen::default();
    for _ in 0..12 {
        let table = random_table(&mut random);
        for e in (0..EDGES as u16 + 2).chain([2_048, 32_768, 65_534, 65_535]) {
            let change = Edit::DeleteEdge { e };
            seen.note(change, Twins::new(&table).edit(change));
        }
    }
    seen.assert_all(&["delete"], 50);
}

/// Of the 1,024 lengths exactly the deleted edge's is set to 0.
#[test]
fn just_its_own_length_goes() {
    let mut random = Random::new(0xd3);
    let mut deleted = 0;
    for _ in 0..12 {
        let table = random_table(&mut random);
        for e in live_edges(&table).take(200) {
            let mut twins = Twins::new(&table);
            assert!(twins.edit(Edit::DeleteEdge { e }) >= 0);
            let mut lengths = table[LENGTH..].to_vec();
            assert_ne!(std::mem::replace(&mut lengths[usize::from(e)], 0), 0);
            assert_eq!(twins.words()[LENGTH..], lengths, "edge {e}");
            deleted += 1;
        }
    }
    assert!(deleted > 500, "{deleted}");
}

#[test]
fn emptied_in_a_drawn_order() {
    let mut random = Random::new(0xd2);
    for _ in 0..12 {
        let mut twins = Twins::new(&random_table(&mut random));
        let mut edges: Vec<u16> = live_edges(twins.words()).collect();
        random.shuffle(&mut edges);
        for e in edges {
            assert!(twins.edit(Edit::DeleteEdge { e }) >= 0);
            assert_eq!(length(twins.words(), e), 0);
            assert_eq!(twins.edit(Edit::DeleteEdge { e }), -4);
        }
        assert_eq!(live_edges(twins.words()).count(), 0);
        assert!(twins.words()[LENGTH..].iter().all(|&length| length == 0));
    }
}
