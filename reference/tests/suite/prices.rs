//! The price sheet (document 02, request h). A flat loop at a vertex of its own has two ribbons of its length and the
//! lap, 320 sixteenths; a strip between two vertices has one, twice its length, 8 for each crossing, and the lap.

use crate::*;
use reference::length::cut_length;
use reference::price::{price_sheet, rows, Row};
use reference::table::{length, live_edges, turns};
use reference::trial::random::Random;
use reference::trial::tables::random_table;

/// The sheet with room to spare: the sum, the four numbers of each ribbon, and that nothing past them is written.
fn sheet(table: &[u16], p: u16, m: u16) -> (u64, Vec<[u32; 4]>) {
    let mut out = vec![77; 8_200];
    let sum = price_sheet(table, p, m, &mut out).unwrap();
    let ribbons = ribbons(table).len();
    assert!(out[4 * ribbons..].iter().all(|&word| word == 77));
    (sum, out[..4 * ribbons].chunks(4).map(|row| [row[0], row[1], row[2], row[3]]).collect())
}

/// A flat strip between two vertices: its ribbon is twice its length and the lap.
fn strip(length: u16) -> Vec<u16> {
    made(&[add(0), add(1), insert_long(0, around(0), around(1), 0, length)])
}

/// A flat loop: two ribbons, each of its length and the lap.
fn flat_loop(length: u16) -> Vec<u16> {
    made(&[add(0), insert_long(0, around(0), around(0), 0, length)])
}

/// A loop of 600 mm and a strip of 250 mm, each with one turn: 19,200 and 8 and 320 are 1,220.5 mm, 8,000 and 8 and 320 are
/// 520.5 mm. At 180 cents a metre and 300 at least the one costs its two metres, the other 300.
#[test]
fn a_quotation_by_hand() {
    let vertices = [add(0), add(1), add(2)];
    let edges = [insert_long(0, around(0), around(0), 1, 9_600), insert_long(1, around(1), around(2), 1, 4_000)];
    let table = made(&[&vertices[..], &edges].concat());
    let (sum, rows) = sheet(&table, 180, 300);
    assert_eq!(rows, [[19_528, 2, 12_472, 360], [8_328, 1, 7_672, 300]]);
    assert_eq!(sum, 660);
    // In millimetres.
    assert_eq!([19_528, 12_472, 8_328, 7_672].map(|n| f64::from(n) / 16.0), [1_220.5, 779.5, 520.5, 479.5]);
}

/// "for each metre started": an exact multiple of 16,000 leaves nothing unused and starts no other metre; one sixteenth
/// more does, and leaves all of it but one.
#[test]
fn around_a_whole_number_of_metres() {
    for (metres, length) in [(1, 15_680), (2, 31_680), (3, 47_680), (4, 63_680)] {
        let whole = 16_000 * metres;
        let expected = [
            (length - 1, [whole - 1, metres, 1, 100 * metres]),
            (length, [whole, metres, 0, 100 * metres]),
            (length + 1, [whole + 1, metres + 1, 15_999, 100 * (metres + 1)]),
        ];
        for (length, row) in expected {
            let (sum, rows) = sheet(&flat_loop(length), 100, 7);
            assert_eq!(rows, [row, row], "length {length}");
            assert_eq!(sum, 2 * u64::from(row[3]));
        }
    }
    // Twice 7,840 and 320 are 16,000; twice 7,839 are two less.
    assert_eq!(sheet(&strip(7_840), 100, 7), (100, vec![[16_000, 1, 0, 100]]));
    assert_eq!(sheet(&strip(7_839), 100, 7), (100, vec![[15_998, 1, 2, 100]]));
    assert_eq!(sheet(&strip(7_841), 100, 7), (200, vec![[16_002, 2, 15_998, 200]]));
}

/// The shortest ribbon, a loop of 1, and the row of any length.
#[test]
fn the_shortest_ribbon() {
    assert_eq!(sheet(&flat_loop(1), 5, 0), (10, vec![[321, 1, 15_679, 5]; 2]));
    assert_eq!(Row::of(1, 5, 0).words(), [1, 1, 15_999, 5]);
    assert_eq!(Row::of(16_000, 5, 0).words(), [16_000, 1, 0, 5]);
}

/// "p cents for each metre started, or m cents where that is more", on a ribbon of two metres: the larger of 2p and m,
/// and never both.
#[test]
fn the_larger_of_two() {
    let price = |p, m| sheet(&strip(10_000), p, m);
    for (p, m, cents) in [
        (0, 0, 0),
        (0, 1, 1),
        (0, 65_535, 65_535),
        (1, 0, 2),
        (1, 1, 2),
        (1, 2, 2),
        (1, 3, 3),
        (32_767, 65_535, 65_535),
        (32_768, 65_535, 65_536),
        (65_535, 0, 131_070),
        (65_535, 65_535, 131_070),
    ] {
        assert_eq!(price(p, m), (u64::from(cents), vec![[20_320, 2, 11_680, cents]]), "p {p}, m {m}");
    }
}

/// "A ribbon is a walk with at least one step": nothing is written for isolated vertices, and they cost nothing.
#[test]
fn isolated_vertices_have_no_row() {
    for edits in [vec![], vec![add(0)], vec![add(3), add(0), add(511)]] {
        let table = made(&edits);
        assert_eq!(price_sheet(&table, 65_535, 65_535, &mut []), Ok(0));
        let mut out = [77; 12];
        assert_eq!((price_sheet(&table, 1, 9, &mut out), out), (Ok(0), [77; 12]));
    }
    let beside = made(&[add(0), add(9), add(8), insert_long(5, around(8), around(8), 0, 100), add(511)]);
    assert_eq!(sheet(&beside, 10, 20), (40, vec![[420, 1, 15_580, 20]; 2]));
}

/// Loops 0 and 1 of one turn at vertex 0 and edge 2 of turns -2 to vertex 1; around vertex 0 stand 0, 3, 1, 4, 2. From
/// (0,0) the type is 1 and dart 3 is before 1; from (3,1) it is 0 and dart 0 comes after 2. The corners 0 and 1 are met, 2
/// is not: from (2,0) come (0,1), (4,0), (5,0). O's: (0,0) has one, (3,1) none; (2,0) one, (0,1) none, (4,0) and (5,0) one
/// each, UO.
#[test]
fn two_ribbons_in_listing_order() {
    let table = made(&[
        add(0),
        add(1),
        insert_long(0, around(0), around(0), 1, 5_000),
        insert_long(1, 0, 1, 1, 11_000),
        insert_long(2, 2, around(1), -2, 20_000),
    ]);
    let starts: Vec<(u16, u8)> = ribbons(&table).iter().map(|steps| (steps[0].dart, steps[0].t)).collect();
    assert_eq!(starts, [(0, 0), (2, 0)]);
    // 5,000 and 11,000; those and twice 20,000.
    let first = [16_000 + 8 + 320, 2, 32_000 - 16_328, 400];
    let second = [56_000 + 3 * 8 + 320, 4, 64_000 - 56_344, 600];
    assert_eq!(sheet(&table, 150, 400), (1_000, vec![first, second]));
}

/// The longest ribbon has 135,027,008 sixteenths (`ribbons`), 8,439 metres and 3,008 more.
#[test]
fn the_dearest_ribbon() {
    let mut edits = vec![add(0), insert_long(0, around(0), around(0), 99, 65_535)];
    edits.extend((1..1_024).map(|e| insert_long(e, 0, 0, 99, 65_535)));
    let row = [135_027_008, 8_440, 16_000 - 3_008, 553_115_400];
    assert_eq!(sheet(&made(&edits), 65_535, 65_535), (553_115_400, vec![row]));
}

#[test]
fn a_price_sheet_declines() {
    let table = flat_loop(100);
    let answer = |table: &[u16], words: usize| {
        let mut out = vec![77; words];
        let answer = price_sheet(table, 1, 1, &mut out);
        assert!(answer.is_ok() || out == vec![77; words], "a declined call writes nothing");
        answer
    };
    assert_eq!(answer(&table, 8), Ok(2));
    for words in [0, 1, 3, 4, 5, 7] {
        assert_eq!(answer(&table, words), Err(Refusal::ShortSlice), "{words} words");
    }
    for torn in [&flat_loop_without_length()[..], &table[..7_680], &table[..8_703], &[]] {
        for words in [0, 7, 8, 9] {
            assert_eq!(answer(torn, words), Err(Refusal::Torn), "{words} words");
        }
    }
}

fn flat_loop_without_length() -> Vec<u16> {
    let mut table = flat_loop(100);
    table[7_680] = 0;
    table
}

/// What holds of every sheet: a row's length is its ribbon's cut length; the last metre is used in part, and what is unused
/// makes the length whole; the price is one of two numbers, and neither is more; "the sum is exactly that of the prices
/// shown"; all lengths together are twice the edges', 8 for each crossing and a lap for each ribbon.
#[test]
fn sheets_of_random_tables() {
    let mut random = Random::new(0x9_71ce);
    let mut seen = 0;
    for _ in 0..120 {
        let table = random_table(&mut random);
        let (p, m) = (random.pick(&[0, 1, 180, 65_535]), random.pick(&[0, 1, 300, 65_535]));
        let (sum, sheet) = sheet(&table, p, m);
        assert_eq!(sheet, rows(&table, p, m).iter().map(|row| row.words()).collect::<Vec<_>>());
        let ribbons = ribbons(&table);
        for ([long, metres, unused, price], steps) in sheet.iter().copied().zip(&ribbons) {
            assert_eq!(Ok(long), cut_length(&table, steps[0].dart, u16::from(steps[0].t)));
            assert!(unused < 16_000 && long + unused == 16_000 * metres);
            let two = [u32::from(p) * metres, u32::from(m)];
            assert!(two.contains(&price) && two.iter().all(|&cents| cents <= price));
        }
        assert_eq!(sum, sheet.iter().map(|row| u64::from(row[3])).sum::<u64>());
        let sides = |e| 2 * u64::from(length(&table, e)) + 8 * u64::from(turns(&table, e).unsigned_abs());
        let strips: u64 = live_edges(&table).map(sides).sum();
        assert_eq!(sheet.iter().map(|row| u64::from(row[0])).sum::<u64>(), strips + 320 * ribbons.len() as u64);
        seen += ribbons.len();
    }
    assert!(seen > 1_000, "{seen}");
}
