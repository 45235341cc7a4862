//! planner_remove_vertex: 2, 4, 5, else one isolated vertex less.

use host::compare::{vertex_names, Twins};
use reference::edit::Edit;
use reference::table::LENGTH;
use reference::trial::random::Random;
use reference::trial::tables::random_table;

#[test]
fn every_name_on_random_tables() {
    let mut random = Random::new(0xb1);
    let mut seen = [0; 6];
    for _ in 0..40 {
        let table = random_table(&mut random);
        for v in vertex_names() {
            let mut twins = Twins::new(&table);
            let answer = twins.edit(Edit::RemoveVertex { v });
            assert_eq!(twins.words()[LENGTH..], table[LENGTH..], "no length is altered");
            seen[(-answer).max(0) as usize] += 1;
        }
    }
    assert!(seen[0] > 500 && seen[2] > 100 && seen[4] > 1_000 && seen[5] > 500, "{seen:?}");
}

#[test]
fn all_of_them_one_after_the_other() {
    let mut random = Random::new(0xb2);
    for _ in 0..10 {
        let mut twins = Twins::new(&random_table(&mut random));
        for v in vertex_names() {
            let answer = twins.edit(Edit::RemoveVertex { v });
            if answer >= 0 {
                assert_eq!(twins.edit(Edit::RemoveVertex { v }), -4);
            }
        }
    }
}
