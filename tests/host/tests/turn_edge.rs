//! planner_turn_edge: 2, 4, 6, else the turns alone changed, the face count after its rule, and the rule.

use host::compare::{Seen, Twins};
use host::planner::{A, B1, B2, E};
use reference::edit::Edit;
use reference::table::{empty_mesh, live_edges, turns, EDGES, LENGTH};
use reference::trial::random::Random;
use reference::trial::tables::random_table;

/// Sample 6: "turns 99, turn by 1: 6; by -198: -99".
#[test]
fn the_documents_sample() {
    let mut twins = Twins::new(&empty_mesh());
    twins.edit(Edit::AddVertex { v: 0 });
    twins.edit(Edit::InsertEdge { e: 0, c1: 32_768, c2: 32_768, k: 99, length: 16 });
    assert_eq!(twins.edit(Edit::TurnEdge { e: 0, amount: 1 }), -6);
    assert_eq!(twins.edit(Edit::TurnEdge { e: 0, amount: -198 }), 1 + E);
    assert_eq!(turns(twins.words(), 0), -99);
    assert_eq!(twins.edit(Edit::TurnEdge { e: 0, amount: -1 }), -6);
}

#[test]
fn each_rule() {
    let turned = |c1, c2, k, amount| Twins::with_edge(c1, c2, k).edit(Edit::TurnEdge { e: 0, amount });
    for odd in [1, -1, 3, -99] {
        assert_eq!(turned(32_768, 32_768, 0, odd), 2 + A, "its sides are on different faces");
        assert_eq!(turned(32_768, 32_768, 1, odd), 3 + B1, "its walk passes by dart 0 twice");
        assert_eq!(turned(32_768, 32_769, 0, odd), 1 + B2, "its walk passes by both darts");
        assert_eq!(turned(32_768, 32_769, 1, odd), 1 + B2, "its walk passes by both darts");
    }
    for even in [0, 2, -2, 98, -98] {
        assert_eq!(turned(32_768, 32_768, 0, even), 3 + E);
        assert_eq!(turned(32_768, 32_768, 1, even), 2 + E);
        assert_eq!(turned(32_768, 32_769, 0, even), 1 + E);
    }
    for (k, even) in [(99, 2), (98, 2), (0, 100), (-98, -2), (1, -32_768)] {
        assert_eq!(turned(32_768, 32_768, k, even), -6, "6 is tested for even amounts too");
    }
}

/// Every amount of 16 bits at one edge, from each of some turns.
#[test]
fn every_amount() {
    for k in [-99, -98, -1, 0, 1, 50, 99] {
        let mut start = Twins::new(&empty_mesh());
        start.edit(Edit::AddVertex { v: 0 });
        start.edit(Edit::InsertEdge { e: 0, c1: 32_768, c2: 32_768, k, length: 16 });
        let around_limits = (-300..=300).chain(-32_768..=-32_700).chain(32_700..=32_767);
        for amount in around_limits.chain((-32_768..=32_767).step_by(997)) {
            let answer = Twins::new(start.words()).edit(Edit::TurnEdge { e: 0, amount: amount as i16 });
            let within = (i32::from(k) + amount).abs() <= 99;
            assert_eq!(answer >= 0, within, "{k} turned by {amount}");
        }
    }
}

#[test]
fn every_name_on_random_tables() {
    let mut random = Random::new(0x71);
    let mut seen = Seen::default();
    for _ in 0..12 {
        let mut twins = Twins::new(&random_table(&mut random));
        let lengths = twins.words()[LENGTH..].to_vec();
        for e in (0..EDGES as u16 + 2).chain([2_048, 32_768, 65_534, 65_535]) {
            let amount = random.pick(&[0, 1, -1, 2, -2, 3, 98, 99, -99, 100, -100, 198, -198, 199, 32_767, -32_768]);
            let change = Edit::TurnEdge { e, amount };
            seen.note(change, twins.edit(change));
        }
        assert_eq!(twins.words()[LENGTH..], lengths, "a turn alters no length");
    }
    seen.assert_all(&["turn"], 50);
}

/// An odd turn there and back: the same table and the same face count, the second rule undoing the first.
#[test]
fn there_and_back() {
    let mut random = Random::new(0x72);
    for _ in 0..20 {
        let mut twins = Twins::new(&random_table(&mut random));
        for e in live_edges(&twins.words().to_vec()).take(60) {
            let before = twins.words().to_vec();
            let there = if turns(&before, e) > 0 { -1 } else { 1 };
            let first = twins.edit(Edit::TurnEdge { e, amount: there });
            let second = twins.edit(Edit::TurnEdge { e, amount: -there });
            assert_eq!(twins.words(), before);
            let rules = (first & !0xffff, second & !0xffff);
            assert!([(A, B1), (B1, A), (B2, B2)].contains(&rules), "{first} and {second}");
        }
    }
}
