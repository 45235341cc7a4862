//! Faces a second way: as the boundary circles of the band decomposition. Each live vertex is a disc, each live edge a
//! band glued to its ends' discs. A band's end at a dart has two sides; along a disc's rim the far side of a dart is
//! joined to the near side of the next one, and along a band the sides are joined across, or straight if it is turned
//! an odd number of times. The circles are the classes of sides so joined; an untouched disc has one circle.

use reference::faces::face_count;
use reference::table::*;
use reference::trial::random::Random;
use reference::trial::tables::random_table;

fn near(d: Dart) -> usize {
    2 * d as usize
}

fn far(d: Dart) -> usize {
    2 * d as usize + 1
}

pub fn boundary_circles(table: &[u16]) -> usize {
    let mut classes = Classes::new(2 * DARTS);
    for d in live_darts(table) {
        classes.join(far(d), near(next(table, d)));
        if turns(table, edge_of(d)) % 2 == 0 {
            classes.join(near(d), far(reverse(d)));
        } else {
            classes.join(near(d), near(reverse(d)));
            classes.join(far(d), far(reverse(d)));
        }
    }
    let sides = live_darts(table).flat_map(|d| [near(d), far(d)]);
    let circles = sides.filter(|&side| classes.parent[side] == side).count();
    circles + isolated_vertices(table).count()
}

/// Classes of numbers, each a tree whose root stands for it.
struct Classes {
    parent: Vec<usize>,
}

impl Classes {
    fn new(n: usize) -> Classes {
        Classes { parent: (0..n).collect() }
    }

    fn root(&mut self, mut x: usize) -> usize {
        while self.parent[x] != x {
            self.parent[x] = self.parent[self.parent[x]];
            x = self.parent[x];
        }
        x
    }

    fn join(&mut self, x: usize, y: usize) {
        let (x, y) = (self.root(x), self.root(y));
        self.parent[x] = y;
    }
}

#[test]
fn circles_and_traced_faces_are_equally_many() {
    let mut random = Random::new(0x0b1d);
    let mut most = 0;
    for _ in 0..3_000 {
        let table = random_table(&mut random);
        let faces = face_count(&table);
        assert_eq!(boundary_circles(&table), faces);
        most = most.max(faces);
    }
    assert!(most > 1_000, "tables with many faces were among them");
}
