//! Tables to try a call on: good ones, and now and then a damaged or a short one; and small ones whose walks are told here.
//! Their edges have the length that a plain IE writes.

use reference::job::PLAIN_LENGTH;
use reference::table::WORDS;
use reference::trial::damage::damage;
use reference::trial::random::Random;
use reference::trial::tables::{random_table, Mesh};

/// A random table of this round: every fifth is damaged, and every fiftieth is cut short.
pub fn whole_or_damaged(random: &mut Random, round: usize) -> Vec<u16> {
    let mut table = random_table(random);
    if round % 5 == 0 {
        damage(random, &mut table);
    }
    if round % 50 == 0 {
        table.truncate(random.below(WORDS));
    }
    table
}

/// A step's dart and type: mostly in range, at times anything.
pub fn any_step(random: &mut Random, darts: usize) -> (u16, u16) {
    let dart = if random.once_in(15) { random.word() } else { random.below(darts) as u16 };
    let kind = if random.once_in(15) { random.word() } else { random.below(2) as u16 };
    (dart, kind)
}

/// An edge between two vertices. Its one walk passes it both ways: (0, 0), then (1, 0), or (1, 1) if its turns are odd.
pub fn strip(turns: i32) -> Vec<u16> {
    Mesh { rotations: vec![(0, vec![0]), (1, vec![1])], edges: vec![(0, turns, PLAIN_LENGTH)] }.written()
}

/// Two loops of odd turns, their darts around the vertex being 0, 3, 1, 2. From (1, 0) the type is 1 and dart 2 is before 0; from (2, 1) it is
/// 0 again and dart 1 comes after 3: a walk of two steps. From (0, 1) dart 2 comes after 1, and from (2, 0) dart 0 is before 3: another one.
pub fn crossed_loops(first: i32, second: i32) -> Vec<u16> {
    let edges = vec![(0, first, PLAIN_LENGTH), (1, second, PLAIN_LENGTH)];
    Mesh { rotations: vec![(0, vec![0, 3, 1, 2])], edges }.written()
}

/// Loops beside each other, their darts around the vertex being 0, 1, 2 and so on. With odd turns the type is 1 after (0, 0), and dart 0 is
/// before 1; after (0, 1) it is 0, and dart 2 comes after 1: one walk over all of them, two steps on each. With even turns a walk goes along
/// their even darts, and each odd one has a walk of its own, of one step; one loop alone has two such walks.
pub fn loops_in_a_row(loops: u16, turns: i32) -> Vec<u16> {
    let edges = (0..loops).map(|e| (e, turns, PLAIN_LENGTH)).collect();
    Mesh { rotations: vec![(0, (0..2 * loops).collect())], edges }.written()
}
