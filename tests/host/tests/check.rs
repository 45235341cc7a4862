//! planner_check: its verdict is the reference's on good tables, damaged ones, other sizes and random words, and it
//! writes nothing.

use host::blocks::{blocks, ends, one_in_each, table_on, Lie, BLOCK};
use host::guarded::Guarded;
use host::planner;
use reference::check::{check, is_good};
use reference::edit::{edit, Edit};
use reference::table::*;
use reference::trial::damage::damage;
use reference::trial::edits::{random_edit, WINDOWS};
use reference::trial::random::Random;
use reference::trial::tables::{random_mesh, random_table};

const GUARD: u16 = 0xa5c3;

/// How often each verdict came up.
#[derive(Default)]
struct Seen {
    good: usize,
    torn: usize,
}

impl Seen {
    /// Compare the two verdicts on a slice.
    fn compare(&mut self, table: &[u16]) {
        let expected = check(table);
        assert_eq!(planner::check(table), planner::as_number(expected.map(|()| 0)));
        match expected {
            Ok(()) => self.good += 1,
            Err(_) => self.torn += 1,
        }
    }

    /// Compare on a copy with these words written over.
    fn compare_changed(&mut self, table: &[u16], words: &[(usize, u16)]) {
        let mut changed = table.to_vec();
        for &(place, word) in words {
            changed[place] = word;
        }
        self.compare(&changed);
    }

    /// Compare on each of many damaged copies.
    fn compare_damaged(&mut self, random: &mut Random, table: &[u16], copies: usize) {
        let mut damaged = table.to_vec();
        for _ in 0..copies {
            damaged.copy_from_slice(table);
            for _ in 0..1 + random.below(2) {
                damage(random, &mut damaged);
            }
            self.compare(&damaged);
        }
    }
}

/// The table after a random run of edits from the empty mesh.
fn edited(random: &mut Random, edits: usize) -> Vec<u16> {
    let mut table = empty_mesh();
    let (window, growth) = (random.pick(&WINDOWS), random.below(11));
    for _ in 0..edits {
        let change = random_edit(random, &table, window, growth);
        let _ = edit(&mut table, change);
    }
    table
}

/// The empty mesh, one live edge in a middle block, an edge and a vertex in every block, and a full table.
fn tables_by_blocks(random: &mut Random) -> [Vec<u16>; 4] {
    let (some_edges, some_vertices) = (one_in_each(random, EDGES), one_in_each(random, VERTICES));
    let (all_edges, all_vertices): (Vec<u16>, Vec<u16>) = (edges().collect(), vertices().collect());
    [
        empty_mesh(),
        table_on(random, Lie::Anywhere, &[527], &[63, 256], &[255, 320]),
        table_on(random, Lie::Anywhere, &some_edges, &some_vertices[4..], &some_vertices[..4]),
        table_on(random, Lie::Anywhere, &all_edges, &all_vertices, &[]),
    ]
}

#[test]
fn tables_made_by_edits_and_damaged() {
    let mut random = Random::new(0xc1);
    let mut seen = Seen::default();
    for _ in 0..300 {
        let edits = random.below(150);
        let table = edited(&mut random, edits);
        seen.compare(&table);
        seen.compare_damaged(&mut random, &table, 200);
    }
    assert!(seen.good > 10_000 && seen.torn > 20_000, "{} good, {} torn", seen.good, seen.torn);
}

#[test]
fn tables_of_all_sizes_and_damaged() {
    let mut random = Random::new(0xc2);
    let mut seen = Seen::default();
    for _ in 0..400 {
        let table = random_table(&mut random);
        seen.compare(&table);
        seen.compare_damaged(&mut random, &table, 150);
    }
    assert!(seen.good > 10_000 && seen.torn > 20_000, "{} good, {} torn", seen.good, seen.torn);
}

#[test]
fn good_tables_are_good_the_full_one_too() {
    let mut random = Random::new(0xc3);
    let full = random_mesh(&mut random, VERTICES, EDGES).written();
    assert_eq!(planner::check(&full), 0);
    assert_eq!(planner::check(&empty_mesh()), 0);
    for _ in 0..500 {
        assert_eq!(planner::check(&random_table(&mut random)), 0);
    }
}

/// Every word of a small table and of a full one set to values around each limit.
#[test]
fn every_word_at_the_limits() {
    const VALUES: [u16; 14] = [0, 1, 2, 99, 100, 199, 200, 511, 512, 2_047, 2_048, 65_533, 65_534, 65_535];
    let mut random = Random::new(0xc4);
    let mut seen = Seen::default();
    let small = random_mesh(&mut random, 5, 8).written();
    let full = random_mesh(&mut random, VERTICES, EDGES).written();
    for (table, stride) in [(small, 5), (full, 7)] {
        let mut changed = table.clone();
        for place in (0..WORDS).step_by(stride).chain(live_places(&table).take(100)) {
            for value in VALUES {
                changed[place] = value;
                seen.compare(&changed);
            }
            changed[place] = table[place];
        }
        assert_eq!(changed, table);
    }
    assert!(seen.good > 2_000 && seen.torn > 10_000, "{} good, {} torn", seen.good, seen.torn);
}

/// The places of the words that say something of a live dart, edge or vertex.
fn live_places(table: &[u16]) -> impl Iterator<Item = usize> + '_ {
    let of_an_edge = |place: usize| (TURNS..VERTEX).contains(&place) || place >= LENGTH;
    (0..WORDS).filter(move |&place| table[place] != if of_an_edge(place) { 0 } else { NOT_LIVE })
}

/// Two words of each kind exchanged.
#[test]
fn words_exchanged() {
    let mut random = Random::new(0xc5);
    let mut seen = Seen::default();
    for round in 0..200 {
        let table = if round % 2 == 0 { random_mesh(&mut random, 6, 9).written() } else { random_table(&mut random) };
        let places: Vec<usize> = live_places(&table).collect();
        let mut changed = table.clone();
        for _ in 0..50 {
            let (a, b) = match places.len() {
                0 => (random.below(WORDS), random.below(WORDS)),
                n => (places[random.below(n)], places[random.below(n)]),
            };
            changed.swap(a, b);
            seen.compare(&changed);
            changed.swap(a, b);
        }
    }
    assert!(seen.good > 100 && seen.torn > 5_000, "{} good, {} torn", seen.good, seen.torn);
}

#[test]
fn other_sizes_are_torn() {
    let mut random = Random::new(0xc6);
    let mut long = empty_mesh();
    long.extend(random_table(&mut random));
    for size in (0..WORDS).step_by(13).chain([7_680, WORDS - 1, WORDS + 1, 2 * WORDS]) {
        assert_eq!(planner::check(&long[..size]), -1, "{size} words");
    }
    assert_eq!(planner::check(&long[..WORDS]), 0);
    assert_eq!(planner::check(&long[WORDS..]), 0);
    assert_eq!(planner::check(&long[1..WORDS + 1]), -1, "shifted by a word");
    assert_eq!(planner::check_null(), -1);
}

/// A good table without its last words, and one with more after it.
#[test]
fn good_tables_cut_and_extended_are_torn() {
    let mut random = Random::new(0xcb);
    for table in tables_by_blocks(&mut random) {
        for more in [table.clone(), empty_mesh(), vec![0; WORDS], vec![NOT_LIVE; WORDS]] {
            let long = [table.clone(), more].concat();
            for size in [0, 1, 7_679, 7_680, 7_681, 8_703, 8_705] {
                let lent = Guarded::new(&long[..size], GUARD);
                assert_eq!(planner::check(lent.slice()), -1, "{size} words");
                assert_eq!(lent.slice(), &long[..size]);
                lent.assert_guards();
            }
        }
    }
}

#[test]
fn random_words_are_torn() {
    let mut random = Random::new(0xc7);
    for round in 0..2_000 {
        let most = [65_536, 2_048, 512, 200, 2][round % 5];
        let table: Vec<u16> = (0..WORDS).map(|_| random.below(most) as u16).collect();
        assert!(!is_good(&table));
        assert_eq!(planner::check(&table), -1);
    }
    for word in [0, 1, 100, u16::MAX] {
        assert_eq!(planner::check(&vec![word; WORDS]), -1, "all {word}");
    }
}

/// Random rotations with no regard to vertices: "next" and "previous" undo each other, the rest is by chance.
#[test]
fn permutations_that_are_no_rotations() {
    let mut random = Random::new(0xc8);
    let mut seen = Seen::default();
    for _ in 0..4_000 {
        let edges = 1 + random.below(3);
        let mut table = random_mesh(&mut random, 2, edges).written();
        let live: Vec<u16> = (0..2 * EDGES as u16).filter(|&d| table[TURNS + d as usize / 2] != 0).collect();
        let mut image = live.clone();
        random.shuffle(&mut image);
        for (&d, &after) in live.iter().zip(&image) {
            table[NEXT + d as usize] = after;
            table[PREVIOUS + after as usize] = d;
        }
        seen.compare(&table);
    }
    assert!(seen.good > 500 && seen.torn > 500, "{} good, {} torn", seen.good, seen.torn);
}

/// Any vertex for each dart, and the vertex words right for that: good exactly if the cycles happen to agree.
#[test]
fn cycles_shared_and_split_between_vertices() {
    let mut random = Random::new(0xc9);
    let mut seen = Seen::default();
    for _ in 0..4_000 {
        let edges = 1 + random.below(2);
        let mut table = random_mesh(&mut random, 2, edges).written();
        let live: Vec<usize> = (0..2 * EDGES).filter(|&d| table[TURNS + d / 2] != 0).collect();
        let vertices: Vec<u16> = (0..VERTICES as u16).filter(|&v| table[VERTEX + v as usize] != u16::MAX).collect();
        for &d in &live {
            table[LEAVES + d] = random.pick(&vertices);
        }
        for &v in &vertices {
            let smallest = live.iter().find(|&&d| table[LEAVES + d] == v);
            table[VERTEX + v as usize] = smallest.map_or(65_534, |&d| d as u16);
        }
        seen.compare(&table);
    }
    assert!(seen.good > 500 && seen.torn > 500, "{} good, {} torn", seen.good, seen.torn);
}

#[test]
fn nothing_is_written() {
    let mut random = Random::new(0xca);
    for round in 0..1_000 {
        let mut content = random_table(&mut random);
        if round % 2 == 1 {
            damage(&mut random, &mut content);
        }
        if round % 10 == 9 {
            content.truncate(random.below(WORDS + 1));
        }
        let lent = Guarded::new(&content, GUARD);
        planner::check(lent.slice());
        assert_eq!(lent.slice(), content);
        lent.assert_guards();
    }
}

/// Each of the 8,704 words at the limits, beside its own value, at a dart, and at a drawn one.
#[test]
fn every_word_of_every_block() {
    let mut random = Random::new(0xcc);
    for table in tables_by_blocks(&mut random) {
        let mut seen = Seen::default();
        let mut lent = Guarded::new(&table, GUARD);
        for place in 0..WORDS {
            let (own, dart) = (table[place], random.below(DARTS) as u16);
            let beside = [own.wrapping_sub(1), own.wrapping_add(1)];
            for value in [0, 1, 65_533, 65_534, 65_535, beside[0], beside[1], dart, random.word()] {
                lent.slice_mut()[place] = value;
                seen.compare(lent.slice());
                assert_eq!(lent.slice()[place], value, "word {place} is only read");
            }
            lent.slice_mut()[place] = own;
            assert_eq!(lent.slice(), table, "the table is only read");
        }
        lent.assert_guards();
        assert!(seen.good > 2_000 && seen.torn > 50_000, "{} good, {} torn", seen.good, seen.torn);
    }
}

/// Each of the 1,024 lengths, on a table without edges, on one with an edge in every block, on a full one and on a
/// drawn one: "1 to 65,535 if live, 0 if not", whatever stood there before.
#[test]
fn every_length_of_every_block() {
    let mut random = Random::new(0xd1);
    let [empty, _, some, full] = tables_by_blocks(&mut random);
    let mixed = random_mesh(&mut random, VERTICES / 2, EDGES / 2).written();
    for (table, live) in [(empty, 0), (some, EDGES / BLOCK), (full, EDGES), (mixed, EDGES / 2)] {
        assert_eq!(live_edges(&table).count(), live);
        let mut lent = Guarded::new(&table, GUARD);
        let mut seen = Seen::default();
        for e in edges() {
            let (place, own) = (LENGTH + e as usize, length(&table, e));
            let beside = [own.wrapping_sub(1), own.wrapping_add(1)];
            for value in [0, 1, 16, 65_535, own, beside[0], beside[1], random.word()] {
                lent.slice_mut()[place] = value;
                seen.compare(lent.slice());
                assert_eq!(is_good(lent.slice()), (value > 0) == edge_is_live(&table, e), "edge {e}: {value}");
                assert_eq!(lent.slice()[place], value, "word {place} is only read");
            }
            lent.slice_mut()[place] = own;
            assert_eq!(lent.slice(), table, "the table is only read");
        }
        lent.assert_guards();
        // Of the eight values of an edge that is not live two are 0; of a live edge's 0 is one, and 1, 16 and 65,535
        // are not.
        assert!(seen.good >= 2 * EDGES && seen.torn >= EDGES, "{} good, {} torn", seen.good, seen.torn);
    }
}

/// Two lengths exchanged: good if both edges are live or neither is; else the length has moved from a live edge to one
/// that is not.
#[test]
fn lengths_exchanged() {
    let mut random = Random::new(0xd2);
    let mut seen = Seen::default();
    for _ in 0..60 {
        let table = random_mesh(&mut random, 8, EDGES / 2).written();
        for _ in 0..60 {
            let [a, b] = [(); 2].map(|()| random.below(EDGES) as u16);
            let (of_a, of_b) = (length(&table, a), length(&table, b));
            seen.compare_changed(&table, &[(LENGTH + a as usize, of_b), (LENGTH + b as usize, of_a)]);
        }
    }
    assert!(seen.good > 1_000 && seen.torn > 1_000, "{} good, {} torn", seen.good, seen.torn);
}

/// An edge whose word says that it is live and whose length says that it is not, or the other way, and its darts as
/// one of the two says.
#[test]
fn edge_words_and_lengths_that_disagree() {
    let mut random = Random::new(0xd3);
    let mut seen = Seen::default();
    for block in blocks(EDGES) {
        for e in ends(&block) {
            let with = table_on(&mut random, Lie::Anywhere, &[e, (e + 512) % EDGES as u16], &[31, 32], &[]);
            let mut without = with.clone();
            edit(&mut without, Edit::DeleteEdge { e }).unwrap();
            let (word, length) = (TURNS + e as usize, LENGTH + e as usize);
            for table in [&with, &without] {
                seen.compare(table);
                for (turns, long) in [(0, 0), (0, 16), (0, 65_535), (100, 0), (1, 0), (100, 16), (199, 1)] {
                    seen.compare_changed(table, &[(word, turns), (length, long)]);
                }
            }
        }
    }
    // Both tables as they are; with its darts the last two of the seven, without them the first.
    assert_eq!((seen.good, seen.torn), (64 * (2 + 2 + 1), 64 * (5 + 6)));
}

/// Where the words of each block begin, and how many there are of a kind: next, previous and leaves of its darts, its
/// edges, vertices, lengths.
fn runs_of_words() -> Vec<(usize, usize)> {
    let darts = [NEXT, PREVIOUS, LEAVES].into_iter().flat_map(|kind| runs_from(kind, EDGES, 2));
    let edges = [TURNS, LENGTH].into_iter().flat_map(|kind| runs_from(kind, EDGES, 1));
    darts.chain(edges).chain(runs_from(VERTEX, VERTICES, 1)).collect()
}

fn runs_from(kind: usize, names: usize, words_each: usize) -> impl Iterator<Item = (usize, usize)> {
    blocks(names).map(move |block| (kind + words_each * block.start as usize, words_each * BLOCK))
}

/// All words of one kind in a block at one value, and two of them at values that a sum, a difference or a parity would not show.
#[test]
fn many_words_of_a_block() {
    const VALUES: [u16; 12] = [0, 1, 2, 100, 255, 256, 32_767, 32_768, 65_280, 65_533, 65_534, 65_535];
    let mut random = Random::new(0xcd);
    let mut seen = Seen::default();
    for table in tables_by_blocks(&mut random) {
        for (from, count) in runs_of_words() {
            for value in VALUES {
                let all: Vec<(usize, u16)> = (from..from + count).map(|place| (place, value)).collect();
                seen.compare_changed(&table, &all);
                for other in [value, value.wrapping_neg(), !value, random.word()] {
                    let two: Vec<usize> = random.names(2, count).into_iter().map(|at| from + at as usize).collect();
                    seen.compare_changed(&table, &[(two[0], value), (two[1], other)]);
                }
            }
        }
    }
    assert!(seen.good > 1_000 && seen.torn > 20_000, "{} good, {} torn", seen.good, seen.torn);
}

/// One vertex with the edges on both sides of a border between blocks, and every way to write the "next" and the "previous" words of its four
/// darts with these darts. Each of the 3 * 2 * 1 cycles of "next" is good with the one "previous" that undoes it.
#[test]
fn every_next_and_previous_of_four_darts() {
    let mut random = Random::new(0xce);
    let mut seen = Seen::default();
    let mut table = table_on(&mut random, Lie::Anywhere, &[511, 512], &[255], &[]);
    let darts: Vec<u16> = live_darts(&table).collect();
    let places: Vec<usize> =
        [NEXT, PREVIOUS].iter().flat_map(|kind| darts.iter().map(move |&d| kind + d as usize)).collect();
    for way in 0..1usize << (2 * places.len()) {
        for (i, &place) in places.iter().enumerate() {
            table[place] = darts[way >> (2 * i) & 3];
        }
        seen.compare(&table);
    }
    assert_eq!((seen.good, seen.torn), (6, 65_530));
}

/// "Previous" words, or "next" words, that no longer fit the other kind: one at another dart, two at one dart, two exchanged, three in
/// turn, any two; or one that does fit, but not what stood there before.
#[test]
fn next_and_previous_that_undo_each_other_at_most_darts() {
    let mut random = Random::new(0xcf);
    let mut seen = Seen::default();
    for round in 0..30 {
        let edges = random.names(6, if round % 2 == 0 { BLOCK } else { EDGES });
        let vertices = random.names(1 + round % 3, VERTICES);
        let table = table_on(&mut random, Lie::Anywhere, &edges, &vertices, &[]);
        let live: Vec<u16> = live_darts(&table).collect();
        for (kind, other_kind) in [(NEXT, PREVIOUS), (PREVIOUS, NEXT)] {
            for (&a, &b) in live.iter().flat_map(|a| live.iter().map(move |b| (a, b))) {
                let [x, y, z] = [a, b, random.pick(&live)].map(|d| kind + d as usize);
                seen.compare_changed(&table, &[(x, b)]);
                seen.compare_changed(&table, &[(x, table[y])]);
                seen.compare_changed(&table, &[(x, table[y]), (y, table[x])]);
                seen.compare_changed(&table, &[(x, table[y]), (y, table[z]), (z, table[x])]);
                seen.compare_changed(&table, &[(x, random.pick(&live)), (y, random.pick(&live))]);
                seen.compare_changed(&table, &[(x, b), (other_kind + b as usize, a)]);
            }
        }
    }
    assert!(seen.good > 1_000 && seen.torn > 20_000, "{} good, {} torn", seen.good, seen.torn);
}

/// An edge's darts stand in their cycles, and the edge's word says that it is not live; or one of the darts alone stands there. With both
/// darts and a word of turns the table is good.
#[test]
fn darts_of_an_edge_that_is_not_live() {
    let mut random = Random::new(0xd0);
    let mut seen = Seen::default();
    for block in blocks(EDGES) {
        for e in ends(&block) {
            // Another edge in its block, or in another one.
            for other in [e ^ 1, (e + 512) % EDGES as u16] {
                let whole = table_on(&mut random, Lie::Anywhere, &[e, other], &[31, 32], &[]);
                let mut without = whole.clone();
                clear_edge(&mut without, e);
                seen.compare(&without);
                for d in darts_of(e) {
                    for table in [&whole, &without] {
                        let mut changed = table.clone();
                        clear_dart(&mut changed, d);
                        seen.compare(&changed);
                        // Its neighbours close up.
                        let (before, after) = (previous(table, d), next(table, d));
                        if after != d {
                            set_neighbours(&mut changed, before, after);
                            seen.compare(&changed);
                        }
                    }
                }
                seen.compare(&whole);
            }
        }
    }
    assert!(seen.good == 32 * 2 * 2 && seen.torn > 600, "{} good, {} torn", seen.good, seen.torn);
}
