//! planner_walk_step: the reference's steps, ends and tallies over whole walks and twice round, each edge's length
//! from the table, the lap with the last step alone, every refusal, and nothing changed by a declined step.

use host::guarded::Guarded;
use host::planner::{self, Reader, Tally};
use host::tables::{any_step, crossed_loops, loops_in_a_row, whole_or_damaged};
use reference::length::cut_length;
use reference::reader::{read_step, Tally as Expected};
use reference::table::{length, live_darts, DARTS, EDGES, LENGTH, WORDS};
use reference::trace::{other_sense, step, step_after, walk_from, Step};
use reference::trial::random::Random;
use reference::trial::solids::{cube, solid};
use reference::trial::tables::{random_table, with_lengths};
use reference::weave::{count, ribbon_letters, step_letters, Letter};
use std::collections::BTreeMap;

const WORD_GUARD: u16 = 0xa5c3;
const GUARD: Reader = Reader { dart: 0xa5c3, kind: 0xc3a5, start_dart: 0x5a3c, start_kind: 0x3c5a };
const TALLY_GUARD: Tally = Tally { steps: 0xa5c3, overs: 0xc3a5, unders: 0x5a3c, length: 0x3c5a };

/// A reader that stands at one step and whose walk began at another.
fn reader(dart: u16, kind: u16, start_dart: u16, start_kind: u16) -> Reader {
    Reader { dart, kind, start_dart, start_kind }
}

/// A reader at the step that its walk begins at.
fn begun(dart: u16, kind: u16) -> Reader {
    reader(dart, kind, dart, kind)
}

fn expected(tally: Tally) -> Expected {
    Expected { steps: tally.steps, overs: tally.overs, unders: tally.unders, length: tally.length }
}

/// A step of the reference; every type above 1 is one to it.
fn named(dart: u16, kind: u16) -> Step {
    step(dart, kind.min(2) as u8)
}

/// One step of a reader in the host's hands, compared with the reference's: answer, reader and tally. The table is
/// only read.
fn compare(table: &[u16], reader: &mut Reader, tally: &mut Tally) -> i64 {
    let (at, start) = (named(reader.dart, reader.kind), named(reader.start_dart, reader.start_kind));
    let mut brought = expected(*tally);
    let read = read_step(table, start, at, &mut brought);
    let words = Guarded::new(table, WORD_GUARD);
    let mut lent = Guarded::new(&[*reader], GUARD);
    let mut lent_tally = Guarded::new(&[*tally], TALLY_GUARD);
    let answer = planner::walk_step(words.slice(), &mut lent.slice_mut()[0], &mut lent_tally.slice_mut()[0]);
    assert_eq!(words.slice(), table);
    words.assert_guards();
    lent.assert_guards();
    lent_tally.assert_guards();
    assert_eq!(answer, planner::as_number(read.map(|r| usize::from(r.ends))));
    if read.is_ok() {
        let next = step_after(table, at);
        *reader = Reader { dart: next.dart, kind: u16::from(next.t), ..*reader };
    }
    assert_eq!(lent.slice()[0], *reader, "a declined step has not moved");
    *tally = lent_tally.slice()[0];
    assert_eq!(expected(*tally), brought);
    answer
}

#[test]
fn a_cube_by_hand() {
    let table = with_lengths(&solid(&cube(), 1), |_| 1_000);
    let mut reader = begun(0, 0);
    let mut tally = Tally::default();
    // Four ribbons of six steps: the sixth step ends the walk, and the seventh begins it again.
    let ends: Vec<i64> = (0..12).map(|_| compare(&table, &mut reader, &mut tally)).collect();
    assert_eq!(ends, [0, 0, 0, 0, 0, 1, 0, 0, 0, 0, 0, 1]);
    assert_eq!(reader, begun(0, 0));
    // Twelve edges, six O's, two laps.
    assert_eq!(tally, Tally { steps: 12, overs: 6, unders: 6, length: 12_000 + 6 * 8 + 2 * 320 });
}

/// The crossed loops of 99 and -3 turns, with the lengths 1,000 and 70. Step (1, 0) has 50 O's of its 99 letters and
/// (2, 1) has OUO; (0, 1) has 49 and (2, 0) has UOU. So they bring 1,000 + 400, 70 + 16, 1,000 + 392 and 70 + 8, and
/// the last one of a walk 320 more.
fn known() -> Vec<u16> {
    with_lengths(&crossed_loops(99, -3), |e| [1_000, 70][usize::from(e)])
}

/// The length of the tally after each of six steps, and whether it was the last one.
fn six_steps(table: &[u16], mut reader: Reader) -> [(u32, i64); 6] {
    let mut tally = Tally::default();
    [(); 6].map(|()| {
        let ends = compare(table, &mut reader, &mut tally);
        (tally.length, ends)
    })
}

/// Each time round, the lap comes with the last step: not with the first, and not with every one.
#[test]
fn the_lap_comes_with_the_last_step() {
    let table = known();
    let six = |start: Reader| six_steps(&table, start);
    // 1,806 a round: 1,400 and 406, or begun at the other step 86 and 1,720.
    assert_eq!(six(begun(1, 0)), [(1_400, 0), (1_806, 1), (3_206, 0), (3_612, 1), (5_012, 0), (5_418, 1)]);
    assert_eq!(six(begun(2, 1)), [(86, 0), (1_806, 1), (1_892, 0), (3_612, 1), (3_698, 0), (5_418, 1)]);
    // 1,790 a round: 1,392 and 398.
    assert_eq!(six(begun(0, 1)), [(1_392, 0), (1_790, 1), (3_182, 0), (3_580, 1), (4_972, 0), (5_370, 1)]);
    // A reader that stands at the second step: its first step is the last of the walk.
    assert_eq!(six(reader(2, 1, 1, 0)), [(406, 1), (1_806, 0), (2_212, 1), (3_612, 0), (4_018, 1), (5_418, 0)]);
}

/// A walk of one step: each is the first and the last, and brings the lap at once.
#[test]
fn a_walk_of_one_step() {
    // Half of the letters of an even number of turns are O's.
    for (turns, overs) in [(0, 0), (2, 1), (-2, 1), (98, 49), (-98, 49)] {
        let table = with_lengths(&loops_in_a_row(1, turns), |_| 100);
        let once = 100 + 8 * overs + 320;
        for (dart, kind) in [(0, 0), (1, 0), (0, 1), (1, 1)] {
            let expected = [1, 2, 3, 4, 5, 6].map(|round| (round * once, 1));
            assert_eq!(six_steps(&table, begun(dart, kind)), expected, "{turns} turns");
        }
    }
}

/// 1, 2, 4, 6: each where those after it hold too, for the step and for the start. A length is never amiss but in a
/// torn table.
#[test]
fn the_order_of_the_refusals() {
    let table = solid(&cube(), 1);
    let on_full = |table: &[u16], mut reader: Reader| {
        compare(table, &mut reader, &mut Tally { length: u32::MAX, ..Tally::default() })
    };
    assert_eq!(on_full(&table[1..], reader(24, 2, 2_048, 300)), -1);
    assert_eq!(on_full(&table[..LENGTH], begun(0, 0)), -1);
    assert_eq!(on_full(&with_lengths(&table, |e| u16::from(e != 11)), begun(0, 0)), -1, "edge 11 has no length");
    assert_eq!(on_full(&table, reader(24, 0, 2_048, 0)), -2);
    assert_eq!(on_full(&table, reader(2_048, 0, 24, 0)), -2);
    assert_eq!(on_full(&table, reader(0, 2, 0, 0)), -2);
    assert_eq!(on_full(&table, reader(0, 0, 0, 300)), -2);
    assert_eq!(on_full(&table, reader(24, 0, 0, 0)), -4);
    assert_eq!(on_full(&table, reader(0, 0, 24, 0)), -4);
    assert_eq!(on_full(&table, begun(0, 0)), -6);
    assert_eq!(compare(&table, &mut begun(0, 0), &mut Tally { steps: 1, overs: 2, unders: 3, length: 4 }), 0);
}

/// Flat loops in a row, each of another length: a step brings the length of its own edge, by whichever dart it goes.
/// Along the even darts the walk is (0, 0), (2, 0) and so on; each odd dart has a walk of one step.
#[test]
fn every_edge_has_its_own_length() {
    let own = |e: u16| 65_535 - 5 * e;
    let table = with_lengths(&loops_in_a_row(EDGES as u16, 0), own);
    let mut reader = begun(0, 0);
    let mut sum = 0;
    let mut tally = Tally::default();
    for e in 0..EDGES as u16 {
        let last = e == EDGES as u16 - 1;
        assert_eq!(compare(&table, &mut reader, &mut tally), i64::from(last));
        sum += u32::from(own(e)) + if last { 320 } else { 0 };
        assert_eq!(tally.length, sum, "edge {e}");
        let mut alone = Tally::default();
        assert_eq!(compare(&table, &mut begun(2 * e + 1, 0), &mut alone), 1);
        assert_eq!(alone.length, u32::from(own(e)) + 320, "edge {e}");
    }
}

/// A reader whose start is not on the walk of its step goes round it, never answers 1 and has no lap.
#[test]
fn a_start_on_another_walk() {
    let table = with_lengths(&solid(&cube(), 0), |_| 1);
    let steps = walk_from(&table, named(0, 0));
    let other = live_darts(&table).find(|&dart| !steps.contains(&named(dart, 0))).unwrap();
    let mut reader = reader(0, 0, other, 0);
    let mut tally = Tally::default();
    for taken in 0..3 * steps.len() {
        assert_eq!((reader.dart, reader.kind), (steps[taken % steps.len()].dart, 0));
        assert_eq!(compare(&table, &mut reader, &mut tally), 0);
        assert_eq!(tally.length as usize, taken + 1, "no letters, no lap");
    }
}

/// The same among letters: a start on the other ribbon, and one on the other sense of the same face.
#[test]
fn a_start_on_another_walk_has_no_lap() {
    let table = known();
    let other = other_sense(&table, named(1, 0));
    for start in [named(0, 1), named(2, 0), other] {
        let reader = reader(1, 0, start.dart, u16::from(start.t));
        let expected = [(1_400, 0), (1_486, 0), (2_886, 0), (2_972, 0), (4_372, 0), (4_458, 0)];
        assert_eq!(six_steps(&table, reader), expected, "start {start:?}");
    }
}

/// A tally that a step would carry past 32 bits, in each of its fields.
#[test]
fn full_tallies() {
    // A cube with three turns on each edge: a step of type 0 has two overs and one under, and brings 10 + 16.
    let table = with_lengths(&solid(&cube(), 3), |_| 10);
    let most = u32::MAX;
    let at = |steps, overs, unders, length| Tally { steps, overs, unders, length };
    let full = [at(most, 0, 0, 0), at(0, most - 1, 0, 0), at(0, 0, most, 0), at(0, 0, 0, most - 25)];
    for tally in full {
        assert_eq!(compare(&table, &mut begun(0, 0), &mut tally.clone()), -6);
    }
    assert_eq!(compare(&table, &mut begun(0, 0), &mut at(most - 1, most - 2, most - 1, most - 26)), 0);
}

/// The length at the edge of 32 bits, with room for all that the step brings and with one less; with room for a part of it alone.
#[test]
fn full_lengths() {
    let table = known();
    let step_with = |room: u32, mut reader: Reader| {
        let mut tally = Tally { length: u32::MAX - room, ..Tally::default() };
        let answer = compare(&table, &mut reader, &mut tally);
        (answer, u32::MAX - tally.length)
    };
    // Not the last: 1,000 and 400 for the O's. No room is needed for a lap.
    for room in [0, 999, 1_000, 1_319, 1_320, 1_399] {
        assert_eq!(step_with(room, begun(1, 0)), (-6, room));
    }
    for room in [1_400, 1_401, 1_719, 1_720] {
        assert_eq!(step_with(room, begun(1, 0)), (0, room - 1_400));
    }
    // The last: 70, 16 for the O's and 320 for the lap. Without the lap it is 86, without the O's 390.
    for room in [0, 69, 70, 85, 86, 320, 389, 390, 405] {
        assert_eq!(step_with(room, reader(2, 1, 1, 0)), (-6, room));
    }
    for room in [406, 407] {
        assert_eq!(step_with(room, reader(2, 1, 1, 0)), (1, room - 406));
    }
    // The same step where the start is elsewhere: 86.
    assert_eq!(step_with(85, reader(2, 1, 0, 1)), (-6, 85));
    assert_eq!(step_with(86, reader(2, 1, 0, 1)), (0, 0));
}

/// Whole walks, twice round: at the end of each the tally has the ribbon's steps, letters and cut length.
#[test]
fn whole_walks() {
    let mut random = Random::new(0x3a1c);
    for _ in 0..120 {
        let table = random_table(&mut random);
        let Some(dart) = live_darts(&table).nth(random.below(3)) else { continue };
        let kind = random.below(2) as u16;
        let steps = walk_from(&table, named(dart, kind)).len();
        let letters = ribbon_letters(&table, dart, kind).unwrap().len() as u32;
        let cut = cut_length(&table, dart, kind).unwrap();
        let mut reader = begun(dart, kind);
        for _ in 0..2 {
            let mut tally = Tally::default();
            for taken in 1..=steps {
                let (edge, before) = (u32::from(length(&table, reader.dart / 2)), tally);
                let ends = compare(&table, &mut reader, &mut tally);
                assert_eq!(ends, i64::from(taken == steps));
                let lap = if taken == steps { 320 } else { 0 };
                assert_eq!(tally.length - before.length, edge + 8 * (tally.overs - before.overs) + lap);
            }
            assert_eq!((tally.steps as usize, tally.overs + tally.unders, tally.length), (steps, letters, cut));
            assert_eq!(reader, begun(dart, kind));
        }
    }
}

/// What a step that is not declined brings to the length: its edge, its O's, the lap if it is the last. None where it is declined whatever
/// the tally is.
fn brings(table: &[u16], reader: Reader) -> Option<[u32; 3]> {
    let (at, start) = (named(reader.dart, reader.kind), named(reader.start_dart, reader.start_kind));
    let read = read_step(table, start, at, &mut Expected::default()).ok()?;
    let overs = count(&step_letters(table, at), Letter::O);
    Some([u32::from(length(table, at.edge())), 8 * overs, if read.ends { 320 } else { 0 }])
}

/// A step of a live dart if there is one, at times any step.
fn some_step(random: &mut Random, table: &[u16]) -> (u16, u16) {
    let live: Vec<u16> = if table.len() == WORDS { live_darts(table).collect() } else { Vec::new() };
    if live.is_empty() || random.once_in(3) {
        return any_step(random, DARTS);
    }
    (random.pick(&live), random.below(2) as u16)
}

#[test]
fn random_readers_on_whole_and_damaged_tables() {
    let mut random = Random::new(0x4ead);
    let mut seen: BTreeMap<(&str, i64), usize> = BTreeMap::new();
    for round in 0..2_000 {
        let table = whole_or_damaged(&mut random, round);
        for _ in 0..5 {
            let (dart, kind) = some_step(&mut random, &table);
            // The start is the step itself, any step, or the one that comes after it: then it is the last.
            let mut reader = begun(dart, kind);
            let there = brings(&table, reader).is_some();
            match random.below(3) {
                0 => (reader.start_dart, reader.start_kind) = some_step(&mut random, &table),
                1 if there => {
                    let after = step_after(&table, named(dart, kind));
                    (reader.start_dart, reader.start_kind) = (after.dart, u16::from(after.t));
                }
                _ => {}
            }
            let mut near_full =
                || if random.once_in(12) { u32::MAX - random.below(4) as u32 } else { random.below(99) as u32 };
            let mut tally = Tally { steps: near_full(), overs: near_full(), unders: near_full(), length: near_full() };
            let mut what = "as drawn";
            let brought = if random.once_in(5) { None } else { brings(&table, reader) };
            if let Some([edge, overs, lap]) = brought {
                // Room for the whole of it, for one more or less, or for a part.
                let whole = edge + overs + lap;
                let room = random.pick(&[whole, whole, whole + 1, whole - 1, edge, edge + overs, edge + lap]);
                tally.length = u32::MAX - room;
                what = match (lap > 0, room >= whole) {
                    (true, true) => "room at the last step",
                    (true, false) if room >= edge + overs => "no room for the lap",
                    (_, false) if room >= edge + lap => "no room for the O's",
                    (true, false) => "no room at the last step",
                    (false, true) => "room",
                    (false, false) => "no room",
                };
            }
            let answer = compare(&table, &mut reader, &mut tally);
            *seen.entry((what, answer)).or_insert(0) += 1;
        }
    }
    for answer in [1, 0, -1, -2, -4, -6] {
        assert!(seen[&("as drawn", answer)] > 20, "{answer} in {seen:?}");
    }
    for (what, answer) in [("room", 0), ("room at the last step", 1)] {
        assert!(seen[&(what, answer)] > 200 && seen[&(what, -6)] > 20, "{what} in {seen:?}");
    }
    for what in ["no room", "no room at the last step", "no room for the lap", "no room for the O's"] {
        assert!(seen[&(what, -6)] > 50, "{what} in {seen:?}");
        assert!(seen.keys().all(|&(other, answer)| other != what || answer == -6), "{what} in {seen:?}");
    }
}
