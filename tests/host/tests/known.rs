//! planner_listing and planner_plain on meshes whose walks are known: document 000's rotations of the complete graph with
//! four vertices, and the Platonic solids, flat and with all turns 1.

use host::planner;
use reference::trial::k4::{k4, SPHERE, TORUS};
use reference::trial::solids::{cube, dodecahedron, icosahedron, octahedron, solid};

/// The numbers of steps of the listed walks, in rising order.
fn walk_sizes(table: &[u16]) -> Vec<u16> {
    let mut out = vec![0; 5_000];
    let words = usize::try_from(planner::listing(table, &mut out)).unwrap();
    let (mut sizes, mut at) = (Vec::new(), 0);
    while at < words {
        sizes.push(out[at]);
        at += 1 + usize::from(out[at]).max(usize::from(out[at] == 0));
    }
    sizes.sort_unstable();
    sizes
}

#[test]
fn the_complete_graph_with_four_vertices() {
    assert_eq!(walk_sizes(&k4(SPHERE, 0)), [3, 3, 3, 3]);
    assert_eq!(walk_sizes(&k4(TORUS, 0)), [3, 9]);
    assert_eq!(walk_sizes(&k4(SPHERE, 1)), [4, 4, 4]);
    assert_eq!(planner::plain(&k4(SPHERE, 1)), 1);
}

#[test]
fn the_solids_with_all_turns_1() {
    for corners in [cube(), octahedron()] {
        let table = solid(&corners, 1);
        assert_eq!((walk_sizes(&table), planner::plain(&table)), (vec![6; 4], 1));
    }
    for corners in [icosahedron(), dodecahedron()] {
        let table = solid(&corners, 1);
        assert_eq!((walk_sizes(&table), planner::plain(&table)), (vec![10; 6], 1));
    }
}
