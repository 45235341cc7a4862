//! Tables whose live edges and vertices lie at the ends of blocks of 32 names, in one block, in some or in all: what the calls that go
//! over names by blocks answer is what the reference answers, and edits by which a block comes into use or goes out of it leave the same
//! words.

use host::blocks::{blocks, ends, name_sets, one_in_each, table_on, Lie, BLOCK};
use host::compare::Twins;
use host::planner::{self, as_counts, as_number, as_parts};
use reference::check::check;
use reference::counts::counts;
use reference::edit::Edit;
use reference::faces::Faces;
use reference::listing::words;
use reference::price::price_sheet;
use reference::table::*;
use reference::trial::random::Random;
use reference::trial::tables::random_length;
use reference::weave::plain;

const GUARD: u16 = 0xa5c3;
const LIES: [Lie; 2] = [Lie::Loops, Lie::Anywhere];

/// Check, listing, counts, parts, whether the weave is plain, and the price sheet, of a good table.
fn compare(table: &[u16]) {
    assert_eq!(check(table), Ok(()));
    assert_eq!(planner::check(table), 0);
    let listing = words(&Faces::of(table));
    let mut out = vec![GUARD; listing.len() + 1];
    assert_eq!(planner::listing(table, &mut out), as_number(Ok(listing.len())));
    assert_eq!(out.split_last(), Some((&GUARD, &listing[..])));
    assert_eq!(planner::plain(table), as_number(plain(table).map(usize::from)));
    let (mut sheet, mut expected) = (vec![u32::MAX; 8_192], vec![u32::MAX; 8_192]);
    let sum = price_sheet(table, 180, 300, &mut expected);
    assert_eq!(planner::price_sheet(table, (180, 300), &mut sheet), as_number(sum.map(|sum| sum as usize)));
    assert_eq!(sheet, expected);
    let counts = counts(table).unwrap();
    for (call, expected) in
        [(planner::counts as fn(&[u16], &mut [i32]) -> i64, as_counts(&counts)), (planner::parts, as_parts(&counts))]
    {
        let mut out = vec![0; expected.len()];
        assert_eq!(call(table, &mut out), as_number(Ok(expected.len())));
        assert_eq!(out, expected);
    }
}

/// The corners that are there.
fn corners(table: &[u16]) -> Vec<u16> {
    live_darts(table).chain(isolated_vertices(table).map(|v| 32_768 + v)).collect()
}

/// Edge e between two drawn corners, at times one and the same.
fn insertion(random: &mut Random, table: &[u16], e: u16) -> Edit {
    let corners = corners(table);
    let c1 = random.pick(&corners);
    let c2 = if random.once_in(4) { c1 } else { random.pick(&corners) };
    let k = random.between(-2, 2) as i16;
    Edit::InsertEdge { e, c1, c2, k, length: random_length(random) }
}

/// Ask, then the edit, which is accepted, then every count of the table that it leaves.
fn ask_and_edit(twins: &mut Twins, change: Edit) {
    assert!(twins.ask(change) >= 0, "{change:?}");
    assert!(twins.edit(change) >= 0, "{change:?}");
    compare(twins.words());
}

/// The ends of a list.
fn first_and_last<T: Copy>(list: impl Iterator<Item = T>) -> Vec<T> {
    let list: Vec<T> = list.collect();
    let mut ends: Vec<T> = list.first().into_iter().chain(list.last()).copied().collect();
    ends.truncate(list.len());
    ends
}

/// Its counts, and the edits of its first and last live edge, and insertions of the first and the last edge that is not live.
fn compare_with_edits(random: &mut Random, table: &[u16]) {
    compare(table);
    for e in first_and_last(live_edges(table)) {
        for amount in [1, 2] {
            ask_and_edit(&mut Twins::new(table), Edit::TurnEdge { e, amount });
        }
        ask_and_edit(&mut Twins::new(table), Edit::DeleteEdge { e });
    }
    if !corners(table).is_empty() {
        for e in first_and_last(edges().filter(|&e| !edge_is_live(table, e))) {
            ask_and_edit(&mut Twins::new(table), insertion(random, table, e));
        }
    }
}

/// Two to four vertices at the ends of drawn blocks, the last vertex at times among them.
fn some_vertices(random: &mut Random) -> Vec<u16> {
    let wanted = 2 + random.below(3);
    let mut some: Vec<u16> = Vec::new();
    while some.len() < wanted {
        let block = random.below(VERTICES / BLOCK);
        let v = random.pick(&[31, 32, 511, (BLOCK * block) as u16, (BLOCK * block + BLOCK - 1) as u16]);
        if !some.contains(&v) {
            some.push(v);
        }
    }
    some
}

#[test]
fn live_edges_of_some_blocks() {
    let mut random = Random::new(0xb1);
    for set in name_sets(&mut random, EDGES) {
        for lie in LIES {
            let vertices = some_vertices(&mut random);
            let (joined, isolated) = vertices.split_at(1 + random.below(vertices.len()));
            let table = table_on(&mut random, lie, &set, joined, isolated);
            assert!(live_edges(&table).eq(set.iter().copied()), "just these edges");
            compare_with_edits(&mut random, &table);
        }
    }
}

/// All of them isolated, all joined, or some, by edges of drawn names.
#[test]
fn live_vertices_of_some_blocks() {
    let mut random = Random::new(0xb2);
    for set in name_sets(&mut random, VERTICES) {
        let some = random.below(set.len() + 1);
        for joined in [0, some, set.len()] {
            let mut vertices = set.clone();
            random.shuffle(&mut vertices);
            let (joined, isolated) = vertices.split_at(joined);
            let edges = random.names(joined.len(), EDGES);
            let lie = random.pick(&LIES);
            let table = table_on(&mut random, lie, &edges, joined, isolated);
            assert!(live_vertices(&table).eq(set.iter().copied()), "just these vertices");
            assert_eq!(isolated_vertices(&table).count(), isolated.len());
            compare_with_edits(&mut random, &table);
        }
    }
}

/// The first and the last edge of each block put in and taken out, both orders, where the block has no other edge: the first one in brings
/// the block into use, the last one out ends that.
#[test]
fn a_block_of_edges_comes_into_use_and_goes_out() {
    let mut random = Random::new(0xb3);
    for block in blocks(EDGES) {
        let apart = |set: Vec<u16>| set.into_iter().filter(|e| !block.contains(e)).collect::<Vec<u16>>();
        let sparse = apart(one_in_each(&mut random, EDGES));
        for others in [vec![], sparse, apart(edges().collect())] {
            let vertices = some_vertices(&mut random);
            let (joined, isolated) = vertices.split_at(1);
            let table = table_on(&mut random, Lie::Loops, &others, joined, isolated);
            let mut twins = Twins::new(&table);
            let [first, last] = ends(&block);
            for (there, back) in [([first, last], [first, last]), ([last, first], [first, last])] {
                for e in there {
                    let change = insertion(&mut random, twins.words(), e);
                    ask_and_edit(&mut twins, change);
                }
                for e in back {
                    ask_and_edit(&mut twins, Edit::TurnEdge { e, amount: 1 });
                    ask_and_edit(&mut twins, Edit::DeleteEdge { e });
                }
                assert_eq!(twins.words(), table, "all taken out again");
            }
        }
    }
}

/// The first and the last vertex of each block added, joined to another, left and removed, where the block has no other vertex: its words
/// lead a cycle from the first join to the last parting.
#[test]
fn a_block_of_vertices_comes_into_use_and_goes_out() {
    let mut random = Random::new(0xb4);
    for block in blocks(VERTICES) {
        let sparse: Vec<u16> = one_in_each(&mut random, VERTICES).into_iter().filter(|v| !block.contains(v)).collect();
        for lie in LIES {
            let names = random.names(40, EDGES);
            let (own, others) = names.split_at(3);
            let table = table_on(&mut random, lie, others, &sparse[1..], &sparse[..1]);
            let mut twins = Twins::new(&table);
            for v in ends(&block) {
                assert!(twins.edit(Edit::AddVertex { v }) >= 0);
                compare(twins.words());
            }
            let [first, last] = ends(&block).map(|v| 32_768 + v);
            let elsewhere = random.pick(&corners(&table));
            // An edge out of the block, one within it, and a loop.
            for (e, c1, c2) in
                [(own[0], first, elsewhere), (own[1], last, 2 * own[0]), (own[2], 2 * own[1], 2 * own[1])]
            {
                ask_and_edit(&mut twins, Edit::InsertEdge { e, c1, c2, k: 1, length: e + 1 });
            }
            for &e in own {
                ask_and_edit(&mut twins, Edit::DeleteEdge { e });
            }
            for v in ends(&block) {
                assert!(twins.edit(Edit::RemoveVertex { v }) >= 0);
                compare(twins.words());
            }
            assert_eq!(twins.words(), table, "all taken out again");
        }
    }
}
