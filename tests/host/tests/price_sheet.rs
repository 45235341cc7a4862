//! planner_price_sheet: the reference's rows and sum on whole and damaged tables at prices of every size; outputs of the
//! exact size, longer and shorter; by hand every whole number of metres that loops can have, and a sixteenth more and less, the
//! longest ribbon and the most ribbons; and what the sheet has in common with the listing, the counts and the cut lengths.

use host::compare::Twins;
use host::guarded::Guarded;
use host::planner::{self, as_number};
use host::tables::{loops_in_a_row, strip, whole_or_damaged};
use reference::check::is_good;
use reference::edit::Edit;
use reference::price::{price_sheet, rows};
use reference::table::{empty_mesh, length, live_edges, turns, EDGES, VERTICES, WORDS};
use reference::trial::damage::damage;
use reference::trial::edits::{random_edit, WINDOWS};
use reference::trial::random::Random;
use reference::trial::solids::{cube, solid};
use reference::trial::tables::{random_mesh, random_table, with_lengths, Mesh};
use std::collections::BTreeMap;

const GUARD: u16 = 0xa5c3;
const OUT_GUARD: u32 = 0xa5c3_3c5a;

/// Cents for each metre started, and cents at least.
type Prices = (u16, u16);

const METRE: u32 = 16_000;

/// As many words as any sheet has: no two ribbons are listed from one dart.
const ENOUGH: usize = 4 * 2_048;

/// One sheet into so many words: the answer, and what the output then holds. The table and the guards are kept.
fn written(table: &[u16], prices: Prices, out_words: usize) -> (i64, Vec<u32>) {
    let lent = Guarded::new(table, GUARD);
    let mut out = Guarded::new(&vec![OUT_GUARD; out_words], OUT_GUARD);
    let answer = planner::price_sheet(lent.slice(), prices, out.slice_mut());
    assert_eq!(lent.slice(), table, "the table is only read");
    lent.assert_guards();
    out.assert_guards();
    (answer, out.slice().to_vec())
}

/// The sum and the rows of a good table, in an output of their exact size, which the reference knows.
fn sheet(table: &[u16], prices: Prices) -> (i64, Vec<[u32; 4]>) {
    let exact = expected(table, prices).1.len();
    let (sum, words) = written(table, prices, exact);
    (sum, words.chunks(4).map(|row| [row[0], row[1], row[2], row[3]]).collect())
}

/// The reference's answer, and what it writes into an output of the exact size.
fn expected(table: &[u16], (p, m): Prices) -> (i64, Vec<u32>) {
    let mut out = vec![OUT_GUARD; 4 * rows(table, p, m).len()];
    let answer = as_number(price_sheet(table, p, m, &mut out).map(|sum| sum as usize));
    (answer, out)
}

/// The steps of each ribbon, dart and type, as the library lists them.
fn ribbons(table: &[u16]) -> Vec<Vec<(u16, u16)>> {
    let mut out = vec![0; 5_000];
    let words = usize::try_from(planner::listing(table, &mut out)).expect("a good table");
    let (mut ribbons, mut at) = (Vec::new(), 0);
    while at < words {
        let steps = usize::from(out[at]);
        if steps == 0 {
            at += 2;
        } else {
            ribbons.push(out[at + 1..=at + steps].iter().map(|word| (word / 2, word % 2)).collect());
            at += 1 + steps;
        }
    }
    ribbons
}

/// The reference's sheet in an output of the exact size and in longer ones, which keep their rest; 7 for shorter ones, which
/// keep all.
fn compare(random: &mut Random, table: &[u16], prices: Prices) {
    let (sum, rows) = expected(table, prices);
    let exact = rows.len();
    for more in [0, 1, 3, 100, random.below(40)] {
        let filled = [&rows[..], &vec![OUT_GUARD; more]].concat();
        assert_eq!(written(table, prices, exact + more), (sum, filled), "{more} words more");
    }
    for size in [exact.saturating_sub(1), exact.saturating_sub(4), random.below(exact + 1), 0] {
        if size < exact {
            assert_eq!(written(table, prices, size), (-7, vec![OUT_GUARD; size]), "{size} of {exact} words");
        }
    }
    assert_eq!(planner::price_sheet_to_null(table, prices), if exact == 0 { 0 } else { -7 });
}

/// The ends of the range, and anything between.
fn price(random: &mut Random) -> u16 {
    let any = [random.word(), random.below(1_000) as u16];
    random.pick(&[0, 1, 65_535, any[0], any[1]])
}

fn prices(random: &mut Random) -> Prices {
    (price(random), price(random))
}

/// So many vertices, each with two loops of these turns, an even number, and this length. At each the walk along the even darts
/// comes first, then each odd dart's own.
fn pairs_of_loops(vertices: u16, turns: i32, length: u16) -> Vec<u16> {
    let rotations = (0..vertices).map(|v| (v, (4 * v..4 * v + 4).collect())).collect();
    Mesh { rotations, edges: (0..2 * vertices).map(|e| (e, turns, length)).collect() }.written()
}

/// A loop of 600 mm and a strip of 250 mm, each with one turn, and so one O: 19,200 + 8 + 320 and 8,000 + 8 + 320.
#[test]
fn a_quotation_by_hand() {
    let mut table = empty_mesh();
    let mut edit = |change: Edit| assert!(planner::edit(&mut table, change) >= 0);
    (0..3).for_each(|v| edit(Edit::AddVertex { v }));
    edit(Edit::InsertEdge { e: 0, c1: 32_768, c2: 32_768, k: 1, length: 9_600 });
    edit(Edit::InsertEdge { e: 1, c1: 32_769, c2: 32_770, k: 1, length: 4_000 });
    let rows = vec![19_528, 2, 12_472, 360, 8_328, 1, 7_672, 300];
    assert_eq!(written(&table, (180, 300), 8), (660, rows));
    assert_eq!(written(&table, (180, 300), 7), (-7, vec![OUT_GUARD; 7]));
}

/// All turns 1: four ribbons over six different edges, three times over. Of 1,000 they are 6,344 long, of 10,000 they are 60,344, which is four
/// metres, of 65,535 they are 393,554, which is 25.
#[test]
fn a_cube_by_hand() {
    let cube = |length| with_lengths(&solid(&cube(), 1), |_| length);
    assert_eq!(sheet(&cube(1_000), (50, 49)), (200, vec![[6_344, 1, 9_656, 50]; 4]));
    assert_eq!(sheet(&cube(10_000), (50, 201)), (804, vec![[60_344, 4, 3_656, 201]; 4]));
    assert_eq!(sheet(&cube(65_535), (50, 201)), (5_000, vec![[393_554, 25, 6_446, 1_250]; 4]));
}

/// 1,024 flat loops in a row: the first ribbon goes along all even darts, and is all their lengths and the lap. It is made a whole
/// number of metres, each that it can be, and a sixteenth more and less.
#[test]
fn every_whole_number_of_metres() {
    let loops = loops_in_a_row(EDGES as u16, 0);
    let first_row = |length: u32| {
        let (each, left) = ((length - 320) / 1_024, (length - 320) % 1_024);
        let table = with_lengths(&loops, |e| (each + u32::from(u32::from(e) < left)) as u16);
        let (sum, rows) = written(&table, (3, 100), 4_100);
        let shown: i64 = rows.chunks(4).map(|row| i64::from(row[3])).sum();
        assert_eq!(sum, shown, "length {length}");
        [rows[0], rows[1], rows[2], rows[3]]
    };
    // 1,024 times 65,535, and 320, are 67,108,160.
    for metres in 1..=4_194 {
        let (whole, price) = (METRE * metres, |metres: u32| if metres <= 33 { 100 } else { 3 * metres });
        assert_eq!(first_row(whole - 1), [whole - 1, metres, 1, price(metres)]);
        assert_eq!(first_row(whole), [whole, metres, 0, price(metres)]);
        assert_eq!(first_row(whole + 1), [whole + 1, metres + 1, 15_999, price(metres + 1)]);
    }
    assert_eq!(first_row(67_108_160), [67_108_160, 4_195, 11_840, 12_585]);
}

/// The row of a ribbon of two steps on one edge, at every length that it can have: twice the length and the lap.
#[test]
fn lengths_of_all_edges() {
    let flat = strip(0);
    for length in 1..=65_535_u32 {
        let table = with_lengths(&flat, |_| length as u16);
        let mut out = [0; 4];
        let answer = planner::price_sheet(&table, (7, 40), &mut out);
        let long = 2 * length + 320;
        // The first number of metres that is long enough.
        let metres = (1..).find(|metres| METRE * metres >= long).unwrap();
        assert_eq!(out, [long, metres, METRE * metres - long, 40.max(7 * metres)]);
        assert_eq!(answer, i64::from(out[3]));
    }
}

/// p for each of two metres, or m where that is more: on the border one more of either decides.
#[test]
fn the_larger_of_two() {
    let table = with_lengths(&strip(0), |_| 10_000);
    for (prices, price) in [
        ((0, 0), 0),
        ((0, 1), 1),
        ((1, 0), 2),
        ((1, 2), 2),
        ((1, 3), 3),
        ((0, 65_535), 65_535),
        ((65_535, 0), 131_070),
        ((65_535, 65_535), 131_070),
        ((32_767, 65_535), 65_535),
        ((32_768, 65_535), 65_536),
    ] {
        assert_eq!(sheet(&table, prices), (i64::from(price), vec![[20_320, 2, 11_680, price]]), "{prices:?}");
    }
}

/// One ribbon over both sides of 1,024 edges, each as long and as often turned as can be: 135,027,008 sixteenths, which are 8,439
/// metres and 3,008 more. At 65,535 cents a metre, 8,440 times that.
#[test]
fn the_longest_ribbon() {
    let mut random = Random::new(0x10e6);
    for turns in [99, -99] {
        let table = with_lengths(&loops_in_a_row(EDGES as u16, turns), |_| 65_535);
        let row = |price| vec![[135_027_008, 8_440, 12_992, price]];
        assert_eq!(sheet(&table, (65_535, 65_535)), (553_115_400, row(553_115_400)));
        assert_eq!(sheet(&table, (7, 59_081)), (59_081, row(59_081)));
        assert_eq!(sheet(&table, (7, 59_079)), (59_080, row(59_080)));
        compare(&mut random, &table, (1, 1));
    }
}

/// Three ribbons at each of 512 vertices. As long as can be, with 98 turns: twice 65,535, 49 O's on each and the lap are 132,174, which is
/// nine metres; once that and the lap are 66,247, which is five. So 512 times 19 metres.
#[test]
fn the_most_ribbons() {
    let mut random = Random::new(0x1536);
    let long = pairs_of_loops(VERTICES as u16, 98, 65_535);
    let three = |nine, five| [[132_174, 9, 11_826, nine], [66_247, 5, 13_753, five], [66_247, 5, 13_753, five]];
    assert_eq!(sheet(&long, (65_535, 65_535)), (637_524_480, three(589_815, 327_675).repeat(512)));
    assert_eq!(sheet(&long, (100, 700)), (512 * 2_300, three(900, 700).repeat(512)));
    // As short as can be: 1 + 1 + 320 and 1 + 320. The least price is paid 1,536 times.
    let short = pairs_of_loops(VERTICES as u16, 0, 1);
    let three = [[322, 1, 15_678, 65_535], [321, 1, 15_679, 65_535], [321, 1, 15_679, 65_535]];
    assert_eq!(sheet(&short, (65_534, 65_535)), (1_536 * 65_535, three.repeat(512)));
    for table in [long, short] {
        compare(&mut random, &table, (3, 4));
        assert_eq!(written(&table, (3, 4), 6_143), (-7, vec![OUT_GUARD; 6_143]));
        assert_eq!(written(&table, (3, 4), 6_144).0, expected(&table, (3, 4)).0);
    }
}

#[test]
fn no_ribbons() {
    let mut table = empty_mesh();
    for v in 0..=VERTICES as u16 {
        if [0, 1, 5, 511, 512].contains(&v) {
            for words in [0, 1, 4, 4 * VERTICES] {
                assert_eq!(written(&table, (65_535, 65_535), words), (0, vec![OUT_GUARD; words]), "{v} vertices");
            }
            assert_eq!(planner::price_sheet_to_null(&table, (65_535, 65_535)), 0);
        }
        planner::edit(&mut table, Edit::AddVertex { v });
    }
}

/// Isolated vertices come and the sheet stays.
#[test]
fn isolated_vertices_have_no_row() {
    let mut random = Random::new(0x150);
    let mut came = 0;
    for _ in 0..60 {
        let mut table = random_table(&mut random);
        let prices = (price(&mut random), 1 + random.below(65_535) as u16);
        let before = sheet(&table, prices);
        let more = random.below(40);
        for v in random.names(more, VERTICES) {
            came += usize::from(planner::edit(&mut table, Edit::AddVertex { v }) >= 0);
        }
        assert_eq!(sheet(&table, prices), before);
        compare(&mut random, &table, prices);
    }
    assert!(came > 300, "{came}");
}

/// Outputs of all sizes up to eight words more than the rows of a few ribbons.
#[test]
fn outputs_of_every_size() {
    let mut random = Random::new(0xe7e2);
    let mut refused = 0;
    for _ in 0..40 {
        let edges = 1 + random.below(6);
        let table = random_mesh(&mut random, 4, edges).written();
        let (sum, rows) = expected(&table, (3, 4));
        for size in 0..=rows.len() + 8 {
            let (answer, out) = written(&table, (3, 4), size);
            if size < rows.len() {
                assert_eq!((answer, out), (-7, vec![OUT_GUARD; size]));
                refused += 1;
            } else {
                let rest = vec![OUT_GUARD; size - rows.len()];
                assert_eq!((answer, out), (sum, [&rows[..], &rest].concat()));
            }
        }
    }
    assert!(refused > 300, "{refused}");
}

#[test]
fn random_tables_at_random_prices() {
    let mut random = Random::new(0x5e11);
    let mut seen: BTreeMap<&str, usize> = BTreeMap::new();
    for _ in 0..500 {
        let table = random_table(&mut random);
        let prices = prices(&mut random);
        compare(&mut random, &table, prices);
        let rows = sheet(&table, prices).1;
        let (p, m) = (u32::from(prices.0), u32::from(prices.1));
        let hands: Vec<i32> = live_edges(&table).map(|e| turns(&table, e)).collect();
        for (what, is_so) in [
            ("no ribbon", rows.is_empty()),
            ("more than 500 ribbons", rows.len() > 500),
            ("a ribbon of more than 1,000 metres", rows.iter().any(|row| row[1] > 1_000)),
            ("prices of both kinds", rows.iter().any(|row| p * row[1] > m) && rows.iter().any(|row| p * row[1] < m)),
            ("turns of both hands", hands.iter().any(|&k| k > 0) && hands.iter().any(|&k| k < 0)),
        ] {
            *seen.entry(what).or_insert(0) += usize::from(is_so);
        }
    }
    assert!(seen.len() == 5 && seen.values().all(|&times| times > 10), "{seen:?}");
}

/// Both numbers at and beside the ends of their range.
#[test]
fn tables_at_all_ends_of_prices() {
    let mut random = Random::new(0x5e12);
    const ENDS: [u16; 8] = [0, 1, 2, 255, 256, 32_768, 65_534, 65_535];
    for _ in 0..12 {
        let table = random_table(&mut random);
        for p in ENDS {
            for m in ENDS {
                assert_eq!(written(&table, (p, m), ENOUGH).0, expected(&table, (p, m)).0, "p {p}, m {m}");
                let words = expected(&table, (p, m)).1;
                assert_eq!(written(&table, (p, m), words.len()).1, words, "p {p}, m {m}");
            }
        }
    }
}

/// Full tables of 1,024 edges, at few vertices and at all.
#[test]
fn full_tables() {
    let mut random = Random::new(0x5e13);
    let mut most = 0;
    for round in 0..120 {
        let vertices = [1, 2, 40, VERTICES][round % 4];
        let table = random_mesh(&mut random, vertices, EDGES).written();
        let prices = prices(&mut random);
        compare(&mut random, &table, prices);
        most = most.max(expected(&table, prices).1.len() / 4);
    }
    assert!(most > 512, "{most} ribbons");
}

/// The rows are those of the listed ribbons, one for each and in their order: each step of a ribbon has its row's length for a cut
/// length. There are as many as the faces less the isolated vertices; the sum is that of the prices; and all lengths together
/// are twice those of the edges, 8 for each crossing and a lap for each ribbon.
#[test]
fn rows_of_the_listed_ribbons() {
    let mut random = Random::new(0x5e14);
    let (mut steps, mut differing) = (0, 0);
    for _ in 0..60 {
        let table = random_table(&mut random);
        let mut out = vec![OUT_GUARD; ENOUGH];
        let prices = prices(&mut random);
        let sum = planner::price_sheet(&table, prices, &mut out);
        let ribbons = ribbons(&table);
        let (rows, rest) = out.split_at(4 * ribbons.len());
        assert!(rest.iter().all(|&word| word == OUT_GUARD));
        for (row, ribbon) in rows.chunks(4).zip(&ribbons) {
            for &(dart, kind) in ribbon {
                assert_eq!(planner::cut_length(&table, dart, kind), i64::from(row[0]));
            }
            assert!(row[2] < METRE && row[0] + row[2] == METRE * row[1]);
            steps += ribbon.len();
        }
        differing += rows.chunks(4).zip(rows[4.min(rows.len())..].chunks(4)).filter(|(a, b)| a[0] != b[0]).count();

        let mut counts = [0; 5];
        assert_eq!(planner::counts(&table, &mut counts), 5);
        let isolated = table[7_168..7_680].iter().filter(|&&word| word == 65_534).count();
        assert_eq!(ribbons.len(), counts[2] as usize - isolated);
        assert_eq!(sum, rows.chunks(4).map(|row| i64::from(row[3])).sum::<i64>());
        let sides = |e: u16| 2 * i64::from(length(&table, e)) + 8 * i64::from(turns(&table, e).abs());
        let strips: i64 = live_edges(&table).map(sides).sum();
        let all: i64 = rows.chunks(4).map(|row| i64::from(row[0])).sum();
        assert_eq!(all, strips + 320 * ribbons.len() as i64);
    }
    assert!(steps > 10_000 && differing > 1_000, "{steps} steps, {differing} neighbours of different lengths");
}

/// A table that is not good is declined with 1 whatever the output is, none of whose words changes.
fn declines_as_torn(random: &mut Random, table: &[u16]) {
    for words in [0, 1, 4, random.below(3_000), ENOUGH] {
        assert_eq!(written(table, prices(random), words), (-1, vec![OUT_GUARD; words]));
    }
    assert_eq!(planner::price_sheet_to_null(table, prices(random)), -1);
}

/// One word or a few of them, moved, exchanged or overwritten; or cut short.
#[test]
fn random_tables_whole_and_damaged() {
    let mut random = Random::new(0x5e15);
    let (mut torn, mut good) = (0, 0);
    for round in 0..1_500 {
        let mut table = whole_or_damaged(&mut random, round);
        if round % 3 == 0 && table.len() == WORDS {
            damage(&mut random, &mut table);
        }
        if is_good(&table) {
            let prices = prices(&mut random);
            compare(&mut random, &table, prices);
            good += 1;
        } else {
            declines_as_torn(&mut random, &table);
            torn += 1;
        }
    }
    assert!(torn > 300 && good > 700, "{torn} torn, {good} good");
}

/// Many words at once, and slices that were never a table. Lengths of a full table may be any but 0.
#[test]
fn words_of_any_kind() {
    let mut random = Random::new(0x5e16);
    let mut torn = 0;
    for round in 0..300 {
        let mut table = random_table(&mut random);
        let kinds = [0..2_048, 2_048..4_096, 4_096..6_144, 6_144..7_168, 7_168..7_680, 7_680..WORDS, 0..WORDS];
        let places = kinds[round % kinds.len()].clone();
        for _ in 0..random.pick(&[10, 100, 20_000]) {
            let word = random.word();
            table[places.start + random.below(places.len())] = word;
        }
        if !is_good(&table) {
            declines_as_torn(&mut random, &table);
            torn += 1;
        }
    }
    assert!(torn > 250, "{torn}");
    for word in [0, 1, 100, 65_534, 65_535] {
        declines_as_torn(&mut random, &[word; WORDS]);
    }
}

#[test]
fn other_sizes_of_a_table() {
    let mut random = Random::new(0x5e17);
    let long = [random_table(&mut random), empty_mesh()].concat();
    for size in [0, 1, 511, 7_680, WORDS - 1, WORDS + 1, 2 * WORDS] {
        declines_as_torn(&mut random, &long[..size]);
    }
}

/// After each edit of a run, declined ones too, the sheet is that of the table as it now is.
#[test]
fn the_sheet_after_each_edit() {
    let mut random = Random::new(0x5e18);
    let (mut kept, mut changed) = (0, 0);
    for round in 0..40 {
        let table = if round % 4 == 0 { random_table(&mut random) } else { empty_mesh() };
        let mut twins = Twins::new(&table);
        let prices = (1 + random.below(500) as u16, price(&mut random));
        let mut before = sheet(twins.words(), prices);
        for _ in 0..120 {
            let change = random_edit(&mut random, twins.words(), WINDOWS[round % WINDOWS.len()], 8);
            let answer = twins.edit(change);
            let (sum, rows) = expected(twins.words(), prices);
            let now = sheet(twins.words(), prices);
            assert_eq!((now.0, now.1.concat()), (sum, rows), "{change:?}");
            assert!(answer >= 0 || now == before, "{change:?}");
            *(if now == before { &mut kept } else { &mut changed }) += 1;
            before = now;
        }
    }
    assert!(kept > 500 && changed > 1_000, "{kept} kept, {changed} changed");
}
