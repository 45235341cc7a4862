//! Good tables whose live names lie at the ends of blocks of 32. The library goes over names by such blocks and passes over those that
//! are not in use, of which a caller shall see nothing.

use reference::table::{darts_of, Dart, Vertex};
use reference::trial::random::Random;
use reference::trial::tables::{random_length, Mesh};
use std::ops::Range;

pub const BLOCK: usize = 32;

/// The blocks of the names below a limit.
pub fn blocks(names: usize) -> impl Iterator<Item = Range<u16>> {
    (0..names).step_by(BLOCK).map(|first| first as u16..(first + BLOCK) as u16)
}

/// The first and the last name of a block.
pub fn ends(block: &Range<u16>) -> [u16; 2] {
    [block.start, block.end - 1]
}

fn drawn(random: &mut Random, block: &Range<u16>) -> u16 {
    block.start + random.below(BLOCK) as u16
}

/// Sets of the names below a limit: in one block (its first, its last, both, a drawn one, all), on both sides of a border, one in every
/// block, all in every second block, in all blocks but one, and all.
pub fn name_sets(random: &mut Random, names: usize) -> Vec<Vec<u16>> {
    let all: Vec<Range<u16>> = blocks(names).collect();
    let mut sets = Vec::new();
    for block in &all {
        let [first, last] = ends(block);
        let between = drawn(random, block);
        sets.extend([vec![first], vec![last], vec![first, last], vec![between], block.clone().collect()]);
        let others = all.iter().filter(|other| *other != block);
        sets.push(others.map(|other| drawn(random, other)).collect());
    }
    sets.extend(all.windows(2).map(|pair| vec![pair[0].end - 1, pair[1].start]));
    sets.push(one_in_each(random, names));
    sets.push(all.iter().map(|block| ends(block)[0]).collect());
    sets.push(all.iter().map(|block| ends(block)[1]).collect());
    sets.push(all.iter().step_by(2).cloned().flatten().collect());
    sets.push(all.iter().skip(1).step_by(2).cloned().flatten().collect());
    sets.push((0..names as u16).collect());
    sets
}

/// A drawn name in every block.
pub fn one_in_each(random: &mut Random, names: usize) -> Vec<u16> {
    blocks(names).map(|block| drawn(random, &block)).collect()
}

/// How a table's edges lie: as loops within one corner, of which each flat one has a walk of its own, or each dart anywhere.
#[derive(Clone, Copy, Debug, PartialEq, Eq)]
pub enum Lie {
    Loops,
    Anywhere,
}

/// Turns whose words have one bit, and few turns.
const SAME: [i32; 11] = [-99, -98, -96, -92, -84, -68, -36, 28, -1, 0, 1];

/// A table of just these names. Each vertex to be joined has a dart, as long as there are any. In every second table all edges have the
/// same turns: their words share bits, and cancel in pairs.
pub fn table_on(random: &mut Random, lie: Lie, edges: &[u16], joined: &[Vertex], isolated: &[Vertex]) -> Vec<u16> {
    let darts_put_together = |e: u16| match lie {
        Lie::Loops => vec![darts_of(e).to_vec()],
        Lie::Anywhere => darts_of(e).map(|d| vec![d]).to_vec(),
    };
    let mut dealt: Vec<Vec<Dart>> = edges.iter().flat_map(|&e| darts_put_together(e)).collect();
    random.shuffle(&mut dealt);
    let mut rotations: Vec<(Vertex, Vec<Dart>)> = joined.iter().map(|&v| (v, Vec::new())).collect();
    for (i, darts) in dealt.into_iter().enumerate() {
        let at = if i < joined.len() { i } else { random.below(joined.len()) };
        rotations[at].1.extend(darts);
    }
    rotations.extend(isolated.iter().map(|&v| (v, Vec::new())));
    let same = random.once_in(2).then(|| random.pick(&SAME));
    let mut drawn = |e: u16| {
        let turns = same.unwrap_or_else(|| random.between(-3, 3));
        (e, turns, random_length(random))
    };
    Mesh { rotations, edges: edges.iter().map(|&e| drawn(e)).collect() }.written()
}
