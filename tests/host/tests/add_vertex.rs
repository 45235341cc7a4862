//! planner_add_vertex: 2, then 3, else one isolated vertex more.

use host::compare::{vertex_names, Twins};
use reference::edit::Edit;
use reference::table::{empty_mesh, LENGTH, VERTICES};
use reference::trial::random::Random;
use reference::trial::tables::random_table;

#[test]
fn every_vertex_upward_and_again() {
    let mut twins = Twins::new(&empty_mesh());
    for v in 0..VERTICES as u16 {
        assert_eq!(twins.edit(Edit::AddVertex { v }), i64::from(v) + 1);
        assert_eq!(twins.edit(Edit::AddVertex { v }), -3);
    }
    assert_eq!(twins.edit(Edit::AddVertex { v: 512 }), -2);
}

#[test]
fn every_name_on_random_tables() {
    let mut random = Random::new(0xa1);
    let mut seen = [0; 4];
    for _ in 0..40 {
        let table = random_table(&mut random);
        for v in vertex_names() {
            let mut twins = Twins::new(&table);
            let answer = twins.edit(Edit::AddVertex { v });
            assert_eq!(twins.words()[LENGTH..], table[LENGTH..], "no length is altered");
            seen[(-answer).max(0) as usize] += 1;
        }
    }
    assert!(seen[0] > 1_000 && seen[2] > 100 && seen[3] > 1_000, "{seen:?}");
}
