//! planner_insert_edge: 2, 3, 4, 6, 9, else the edge between its corners with its length, the face count after its
//! rule, and the rule.

use host::compare::{Seen, Twins};
use host::planner::{A, B1, B2};
use reference::edit::Edit;
use reference::table::*;
use reference::trial::random::Random;
use reference::trial::tables::{random_length, random_mesh, random_table};

/// An insertion with the length that a plain IE writes.
fn insert(e: u16, c1: u16, c2: u16, k: i16) -> Edit {
    insert_long(e, c1, c2, k, 16)
}

fn insert_long(e: u16, c1: u16, c2: u16, k: i16, length: u16) -> Edit {
    Edit::InsertEdge { e, c1, c2, k, length }
}

fn one_vertex() -> Twins {
    let mut twins = Twins::new(&empty_mesh());
    twins.edit(Edit::AddVertex { v: 0 });
    twins
}

/// A loop at vertex 0 into the empty mesh.
fn with_loop(k: i16) -> Twins {
    let mut twins = one_vertex();
    twins.edit(insert(0, 32_768, 32_768, k));
    twins
}

/// Samples 2 to 5 with their rules. A flat loop has corners 0 and 1 on two faces; one with a turn has both on one face, with
/// types 0 and 1.
#[test]
fn the_documents_samples() {
    for k in [0, 1] {
        let mut two = Twins::new(&empty_mesh());
        assert_eq!(two.edit(Edit::AddVertex { v: 0 }), 1, "a vertex has no rule");
        assert_eq!(two.edit(Edit::AddVertex { v: 1 }), 2);
        assert_eq!(two.edit(insert(0, 32_768, 32_769, k)), 1 + A, "sample 2");
    }
    assert_eq!(one_vertex().edit(insert(0, 32_768, 32_768, 0)), 2 + B1, "sample 3");
    assert_eq!(one_vertex().edit(insert(0, 32_768, 32_768, 1)), 1 + B2, "sample 3");
    assert_eq!(with_loop(0).edit(insert(9, 2, 2, 0)), -4);
    assert_eq!(with_loop(1).edit(insert(1, 0, 1, 0)), 1 + B2, "sample 4, document 000's example 7.1");
    assert_eq!(with_loop(0).edit(insert(1, 0, 1, 0)), 1 + A, "sample 5");
    assert_eq!(with_loop(1).edit(insert(1, 0, 1, 1)), 2 + B1, "sample 5");
    assert_eq!(with_loop(1).edit(insert(1, 0, 1, -1)), 2 + B1, "sample 5");
}

/// Every pair of corners of a small mesh, absent and malformed ones among them, with turns and lengths at the limits.
#[test]
fn every_pair_of_corners() {
    let mut random = Random::new(0x1e);
    let mut seen = Seen::default();
    for _ in 0..60 {
        let (vertices, edges) = (1 + random.below(4), random.below(4));
        let table = random_mesh(&mut random, vertices, edges).written();
        let dead_dart = darts().find(|&d| !dart_is_live(&table, d)).unwrap();
        let mut corners: Vec<u16> = live_darts(&table).collect();
        corners.extend(live_vertices(&table).map(|v| 32_768 + v));
        corners.extend([dead_dart, 2_047, 2_048, 32_767, 33_279, 33_280, 65_535]);
        let names: Vec<u16> = live_edges(&table).take(1).chain([random.below(EDGES) as u16, 1_024]).collect();
        for &c1 in &corners {
            for &c2 in &corners {
                let e = random.pick(&names);
                let k = random.pick(&[0, 1, -1, 2, 99, -99, 100, -100, 32_767, -32_768]);
                let change = insert_long(e, c1, c2, k, random.pick(&[0, 1, 16, 65_534, 65_535]));
                seen.note(change, Twins::new(&table).edit(change));
            }
        }
    }
    seen.assert_all(&["insert"], 20);
}

/// A table filled to the last edge, each in a drawn pair of corners.
#[test]
fn filled_to_the_last_edge() {
    let mut random = Random::new(0x1f);
    for mut twins in [with_loop(0), Twins::new(&random_table(&mut random)), Twins::new(&random_table(&mut random))] {
        for e in (0..EDGES as u16).rev() {
            let corners: Vec<u16> =
                live_darts(twins.words()).chain(isolated_vertices(twins.words()).map(|v| 32_768 + v)).collect();
            if !corners.is_empty() {
                let (c1, c2) = (random.pick(&corners), random.pick(&corners));
                twins.edit(insert_long(e, c1, c2, random.between(-99, 99) as i16, random_length(&mut random)));
            }
        }
    }
}

/// Every length of 16 bits at the first edge, and lengths around the limits at others: exactly 0 is declined, with 9,
/// and any other is the edge's word, among no other words than it writes with another length.
#[test]
fn every_length() {
    let start = one_vertex();
    let with_1 = |e: u16| {
        let mut twins = Twins::new(start.words());
        twins.edit(insert_long(e, 32_768, 32_768, 2, 1));
        twins.words().to_vec()
    };
    let first = (0..=u16::MAX).map(|length| (0, length));
    let others = [1, 511, 1_022, 1_023].iter().flat_map(|&e| [0, 1, 2, 16, 255, 256, 32_768, 65_535].map(|l| (e, l)));
    let mut expected = with_1(0);
    for (e, length) in first.chain(others) {
        if e != 0 {
            expected = with_1(e);
        }
        let mut twins = Twins::new(start.words());
        let answer = twins.edit(insert_long(e, 32_768, 32_768, 2, length));
        if length == 0 {
            assert_eq!((answer, twins.words()), (-9, start.words()));
        } else {
            expected[LENGTH + usize::from(e)] = length;
            assert_eq!((answer, twins.words()), (2 + B1, &expected[..]), "edge {e} of length {length}");
        }
    }
}

/// A length of 0 comes after every other refusal: 2 (of each of the three names), 3, 4 (of each corner) and 6, one at
/// a time and all at once; the words stay. With a length each of them is answered just the same.
#[test]
fn a_length_of_0_is_the_last_refusal() {
    // Vertex 0 with a loop, vertex 1 isolated; vertex 2 and edge 1 are not there.
    let start = Twins::with_edge(32_768, 32_768, 99);
    for (e, c1, c2, k, own) in [
        (1_024, 0, 1, 0, -2),
        (1, 2_048, 1, 0, -2),
        (1, 0, 33_280, 0, -2),
        (0, 0, 1, 0, -3),
        (1, 2, 1, 0, -4),
        (1, 0, 32_768, 0, -4),
        (1, 32_770, 32_769, 0, -4),
        (1, 0, 1, 100, -6),
        (1, 32_769, 32_769, -100, -6),
        (1, 0, 1, -32_768, -6),
        (1_024, 2_048, 2, 100, -2),
        (0, 2, 2, 100, -3),
        (1, 2, 0, 100, -4),
    ] {
        for length in [0, 1, 16, 65_535] {
            let mut twins = Twins::new(start.words());
            assert_eq!(twins.edit(insert_long(e, c1, c2, k, length)), own, "{e} {c1} {c2} {k} {length}");
            assert_eq!(twins.words(), start.words());
        }
    }
    for (e, c1, c2, k) in [(1, 0, 1, 99), (1_023, 0, 0, -99), (1, 32_769, 1, 0), (1, 32_769, 32_769, 1)] {
        let mut twins = Twins::new(start.words());
        assert_eq!(twins.edit(insert_long(e, c1, c2, k, 0)), -9, "{e} {c1} {c2} {k}");
        assert_eq!(twins.words(), start.words());
    }
    let mut torn = start.words().to_vec();
    torn[LENGTH] = 0;
    assert_eq!(Twins::new(&torn).edit(insert_long(1, 0, 1, 0, 0)), -1, "1 comes first: edge 0 has no length");
}

/// A deletion that undoes an insertion undoes what the insertion's rule did, and gives the table back word for word.
#[test]
fn inserted_and_deleted() {
    let mut random = Random::new(0x20);
    let mut tried = 0;
    for _ in 0..20 {
        let mut twins = Twins::new(&random_table(&mut random));
        let Some(e) = edges().find(|&e| !edge_is_live(twins.words(), e)) else { continue };
        let corners: Vec<u16> = live_darts(twins.words()).collect();
        for _ in 0..corners.len().min(40) {
            let before = twins.words().to_vec();
            let (c1, c2, length) = (random.pick(&corners), random.pick(&corners), random_length(&mut random));
            let there = twins.edit(insert_long(e, c1, c2, random.pick(&[0, 1, -1, 2]), length));
            assert_eq!(twins.words()[LENGTH + usize::from(e)], length);
            let back = twins.edit(Edit::DeleteEdge { e });
            let rules = (there & !0xffff, back & !0xffff);
            assert!([(A, B1), (B1, A), (B2, B2)].contains(&rules), "{there} and {back}");
            assert_eq!(twins.words(), before);
            tried += 1;
        }
    }
    assert!(tried > 100, "{tried}");
}
