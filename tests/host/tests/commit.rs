//! planner_commit_insert_edge, planner_commit_delete_edge, planner_commit_turn_edge: the edit's own refusals, then 12 unless
//! the number offered is the one that ask gives now; else the plain edit, table and answer.

use host::compare::{Seen, Twins};
use host::forecasts::other_than;
use host::planner::{self, A, B1, B2, BEFORE, E};
use reference::edit::Edit;
use reference::table::{empty_mesh, turns, vertex_is_live, EDGES, LENGTH, VERTICES, WORDS};
use reference::trial::damage::damage;
use reference::trial::edits::{random_edge_edit, random_edit, Window, WINDOWS};
use reference::trial::random::Random;
use reference::trial::tables::random_table;

const KINDS: [&str; 3] = ["insert", "delete", "turn"];

/// An insertion with the length that a plain IE writes.
fn insert(e: u16, c1: u16, c2: u16, k: i16) -> Edit {
    insert_long(e, c1, c2, k, 16)
}

fn insert_long(e: u16, c1: u16, c2: u16, k: i16, length: u16) -> Edit {
    Edit::InsertEdge { e, c1, c2, k, length }
}

fn delete(e: u16) -> Edit {
    Edit::DeleteEdge { e }
}

fn turn(e: u16, amount: i16) -> Edit {
    Edit::TurnEdge { e, amount }
}

/// A flat loop at vertex 0 with two faces, and vertex 1 with one.
fn flat_loop() -> Twins {
    Twins::with_edge(32_768, 32_768, 0)
}

/// The same with one turn: one face, and vertex 1 with one.
fn turned_loop() -> Twins {
    Twins::with_edge(32_768, 32_768, 1)
}

/// An edge between the two vertices: one face.
fn bridge() -> Twins {
    Twins::with_edge(32_768, 32_769, 0)
}

/// Edits by hand, one for each rule of each kind, with the forecast: before, rule, after.
fn cases() -> Vec<(Twins, Edit, i64)> {
    vec![
        (flat_loop(), insert(1, 0, 1, 0), 3 * BEFORE + A + 2),
        (turned_loop(), insert(1, 0, 1, 1), 2 * BEFORE + B1 + 3),
        (turned_loop(), insert(1, 0, 1, 0), 2 * BEFORE + B2 + 2),
        (flat_loop(), delete(0), 3 * BEFORE + A + 2),
        (bridge(), delete(0), BEFORE + B1 + 2),
        (turned_loop(), delete(0), 2 * BEFORE + B2 + 2),
        (flat_loop(), turn(0, 1), 3 * BEFORE + A + 2),
        (turned_loop(), turn(0, -1), 2 * BEFORE + B1 + 3),
        (bridge(), turn(0, 1), BEFORE + B2 + 1),
        (flat_loop(), turn(0, 2), 3 * BEFORE + E + 3),
    ]
}

#[test]
fn each_rule_goes_through() {
    for (mut twins, change, forecast) in cases() {
        assert_eq!(twins.ask(change), forecast, "{change:?}");
        let before = twins.words().to_vec();
        assert_eq!(twins.commit(change, forecast), forecast & 0xffff_ffff, "{change:?}: the answer of the plain edit");
        let mut plainly = Twins::new(&before);
        plainly.edit(change);
        assert_eq!(twins.words(), plainly.words(), "{change:?}");
        assert_ne!(twins.words(), before, "{change:?}");
    }
}

/// A forecast that differs from the true one in one of the three answers, in a bit, or altogether.
#[test]
fn every_other_number_is_stale() {
    for (mut twins, change, forecast) in cases() {
        let before = twins.words().to_vec();
        let mut offered: Vec<i64> = vec![0, -1, -2, -4, -6, -12, -13, i64::MIN, i64::MAX, !forecast, -forecast];
        // The count after, the count before, the rule, each alone; and both counts.
        offered.extend([1, -1, 2, -2, BEFORE, -BEFORE, 2 * BEFORE, BEFORE + 1, -BEFORE - 1].map(|by| forecast + by));
        let rules = [0, A, B1, B2, E, E + A, 65_535 * A].map(|rule| forecast & !0xffff_0000 | rule);
        offered.extend(rules.iter().filter(|&&number| number != forecast));
        // The answer of the plain edit, without the count before; and the counts exchanged, where they differ.
        let (after, rule, count) = (forecast & 0xffff, forecast & 0xffff_0000, forecast >> 32);
        offered.push(rule + after);
        offered.extend([after * BEFORE + rule + count].iter().filter(|&&number| number != forecast));
        offered.extend((0..64).map(|bit| forecast ^ 1 << bit));
        for number in offered {
            assert_eq!(twins.commit(change, number), -12, "{change:?} with {number:#x}");
            assert_eq!(twins.words(), before);
        }
        assert_eq!(twins.commit(change, forecast), rule + after, "{change:?}");
    }
}

/// 12 comes after 1, 2, 3, 4, 6 and 9: each of these is answered though the forecast is stale too, whatever it is.
#[test]
fn the_edits_own_numbers_go_first() {
    let mut overturned = Twins::with_edge(32_768, 32_768, 99);
    let declined = [
        (insert(1_024, 0, 0, 0), -2),
        (insert(65_535, 0, 0, 100), -2),
        (insert(1, 2_048, 0, 0), -2),
        (insert(0, 0, 33_280, 100), -2),
        (insert(0, 0, 1, 0), -3),
        (insert(0, 5, 1, 100), -3),
        (insert(1, 5, 0, 0), -4),
        (insert(1, 0, 32_768, 0), -4),
        (insert(1, 0, 32_770, 100), -4),
        (insert(1, 0, 1, 100), -6),
        (insert(1, 0, 1, -32_768), -6),
        (insert_long(1_024, 0, 0, 0, 0), -2),
        (insert_long(0, 0, 1, 0, 0), -3),
        (insert_long(1, 5, 0, 0, 0), -4),
        (insert_long(1, 0, 1, 100, 0), -6),
        (insert_long(1, 0, 1, 0, 0), -9),
        (insert_long(1_023, 32_769, 32_769, -99, 0), -9),
        (delete(1_024), -2),
        (delete(1), -4),
        (turn(1_024, 1), -2),
        (turn(1, 1), -4),
        (turn(1, 2), -4),
        (turn(0, 1), -6),
        (turn(0, 2), -6),
        (turn(0, -32_768), -6),
    ];
    let of_the_loop = overturned.ask(turn(0, -2));
    assert_eq!(of_the_loop, 2 * BEFORE + E + 2, "a true forecast, of another edit");
    let torn = [overturned.words(), &[200]].concat()[1..].to_vec();
    for (change, own) in declined {
        assert_eq!(overturned.ask(change), own, "{change:?}");
        for offered in [0, own, of_the_loop, -12, 2 * BEFORE + A + 1, i64::MAX, i64::MIN] {
            assert_eq!(overturned.commit(change, offered), own, "{change:?} with {offered:#x}");
            assert_eq!(Twins::new(&torn).commit(change, offered), -1, "{change:?} with {offered:#x}");
        }
    }
}

/// A host that commits with what ask answered for a declined edit: declined again with the same number, and stale once nothing
/// is in the edit's way any more.
#[test]
fn a_negative_answer_is_no_forecast() {
    let answers = [
        (insert(0, 32_768, 32_769, 0), delete(0), -3),
        (insert(1, 4, 0, 0), insert(2, 0, 0, 0), -4),
        (delete(5), insert(5, 0, 0, 0), -4),
        (turn(7, 1), insert(7, 0, 0, 0), -4),
        (turn(0, 100), turn(0, -1), -6),
    ];
    for (change, in_between, own) in answers {
        let mut twins = bridge();
        let answer = twins.ask(change);
        assert_eq!(answer, own, "{change:?}");
        assert_eq!(twins.commit(change, answer), own, "{change:?}");
        assert!(twins.edit(in_between) >= 0);
        assert!(twins.ask(change) >= 0, "{change:?}");
        assert_eq!(twins.commit(change, answer), -12, "{change:?}");
    }
}

/// The forecast says nothing of the length, so an insertion may be committed with another length than was asked with;
/// 0 is 9 though the forecast is true.
#[test]
fn a_commit_writes_its_own_length() {
    for length in [1, 2, 15, 16, 17, 255, 256, 32_768, 65_534, 65_535] {
        let mut twins = flat_loop();
        let before = twins.words().to_vec();
        let forecast = twins.ask(insert_long(1_023, 0, 1, 0, 40));
        assert_eq!(forecast, 3 * BEFORE + A + 2);
        assert_eq!(twins.commit(insert_long(1_023, 0, 1, 0, 0), forecast), -9);
        assert_eq!(twins.words(), before);
        assert_eq!(twins.commit(insert_long(1_023, 0, 1, 0, length), forecast), A + 2);
        assert_eq!(twins.words()[LENGTH..WORDS - 1], before[LENGTH..WORDS - 1], "no other length");
        assert_eq!(twins.words()[WORDS - 1], length);
        let back = twins.ask(delete(1_023));
        assert!(twins.commit(delete(1_023), back) >= 0);
        assert_eq!(twins.words(), before, "given back word for word");
    }
}

/// Edits in between that leave the three answers: the commit goes through, on the table as it now is.
#[test]
fn edits_between_that_change_no_answer() {
    // The asked edge itself is turned by 2: then turned from 2 to 3, not from 0 to 1.
    let mut twins = flat_loop();
    let forecast = twins.ask(turn(0, 1));
    assert_eq!(forecast, 3 * BEFORE + A + 2);
    assert_eq!(twins.edit(turn(0, 2)), E + 3);
    assert_eq!(twins.commit(turn(0, 1), forecast), A + 2);
    assert_eq!(turns(twins.words(), 0), 3);

    // Another vertex comes and vertex 1 goes: between the two the forecast is stale.
    let mut twins = flat_loop();
    let forecast = twins.ask(delete(0));
    assert_eq!(forecast, 3 * BEFORE + A + 2);
    assert_eq!(twins.edit(Edit::AddVertex { v: 2 }), 4);
    assert_eq!(twins.commit(delete(0), forecast), -12);
    assert_eq!(twins.edit(Edit::RemoveVertex { v: 1 }), 3);
    assert_eq!(twins.commit(delete(0), forecast), A + 2);
    assert!(vertex_is_live(twins.words(), 2) && !vertex_is_live(twins.words(), 1));

    // A commit comes between: the turned loop's two corners take a loop each that leaves its one face one.
    let mut twins = turned_loop();
    let (first, second) = (twins.ask(insert(1, 0, 0, 1)), twins.ask(insert(2, 1, 1, 1)));
    assert_eq!((first, second), (2 * BEFORE + B2 + 2, 2 * BEFORE + B2 + 2));
    assert_eq!(twins.commit(insert(1, 0, 0, 1), first), B2 + 2);
    assert_eq!(twins.commit(insert(2, 1, 1, 1), second), B2 + 2);
    assert_eq!(twins.commit(insert(2, 1, 1, 1), second), -3, "and its own number comes first again");
}

/// Edits in between that change an answer. The rule and the count before give the count after, so at least two answers move.
#[test]
fn edits_between_that_change_an_answer() {
    // Both counts, under the same rule.
    let mut twins = flat_loop();
    let forecast = twins.ask(turn(0, 1));
    twins.edit(Edit::AddVertex { v: 7 });
    assert_eq!((forecast, twins.ask(turn(0, 1))), (3 * BEFORE + A + 2, 4 * BEFORE + A + 3));
    assert_eq!(twins.commit(turn(0, 1), forecast), -12);

    // Rule and count after: sample 4's walk passes by dart 3 twice; with edge 0 flat it passes by both darts of edge 1.
    let mut twins = turned_loop();
    assert_eq!(twins.edit(insert(1, 0, 1, 0)), B2 + 2);
    let forecast = twins.ask(turn(1, 1));
    assert_eq!(twins.edit(turn(0, 1)), B2 + 2);
    assert_eq!((forecast, twins.ask(turn(1, 1))), (2 * BEFORE + B1 + 3, 2 * BEFORE + B2 + 2));
    assert_eq!(twins.commit(turn(1, 1), forecast), -12);

    // Rule and count before: the flat loop's two faces and vertex 1's; then the turned loop's one face alone.
    let mut twins = flat_loop();
    let forecast = twins.ask(turn(0, 1));
    assert_eq!((twins.edit(turn(0, 1)), twins.edit(Edit::RemoveVertex { v: 1 })), (A + 2, 1));
    assert_eq!((forecast, twins.ask(turn(0, 1))), (3 * BEFORE + A + 2, BEFORE + B1 + 2));
    assert_eq!(twins.commit(turn(0, 1), forecast), -12);

    // All three: the turned loop is turned back, which gives it two faces and the turn another rule.
    let mut twins = turned_loop();
    let forecast = twins.ask(turn(0, 1));
    assert_eq!(twins.edit(turn(0, -1)), B1 + 3);
    assert_eq!((forecast, twins.ask(turn(0, 1))), (2 * BEFORE + B1 + 3, 3 * BEFORE + A + 2));
    assert_eq!(twins.commit(turn(0, 1), forecast), -12);
}

/// The rule alone tells the forecast of an odd turn, B2, from that of an even one, E: both leave the count.
#[test]
fn the_forecast_of_another_edit() {
    let mut twins = bridge();
    let (odd, even) = (twins.ask(turn(0, 1)), twins.ask(turn(0, 2)));
    assert_eq!((odd, even), (BEFORE + B2 + 1, BEFORE + E + 1));
    assert_eq!((twins.commit(turn(0, 1), even), twins.commit(turn(0, 2), odd)), (-12, -12));
    // With the same three answers it is as good: nothing else is compared.
    assert_eq!(twins.commit(turn(0, -4), even), E + 1);
    assert_eq!(turns(twins.words(), 0), -4);
}

/// The commit right after ask, beside the plain edit on the same words.
#[test]
fn right_after_ask() {
    let mut random = Random::new(0xc1);
    let mut seen = Seen::default();
    for round in 0..100 {
        let mut committed = Twins::new(&random_table(&mut random));
        let mut plainly = Twins::new(committed.words());
        for _ in 0..60 {
            let change = random_edge_edit(&mut random, committed.words(), WINDOWS[round % WINDOWS.len()], 5);
            let forecast = committed.ask(change);
            let answer = committed.commit(change, forecast);
            assert_eq!(answer, plainly.edit(change), "{change:?}");
            assert_eq!(committed.words(), plainly.words(), "{change:?}");
            seen.note(change, answer);
        }
    }
    seen.assert_all(&KINDS, 20);
}

/// What became of the commits of a run whose forecasts were older than an accepted edit.
#[derive(Default)]
struct Aged {
    done: usize,
    stale: usize,
}

/// Plain edits, asks and commits over one table. A commit has the forecast of just now, one of some calls ago, with or without
/// other edits in between, or another number.
fn mixed_run(random: &mut Random, table: &[u16], window: Window, calls: usize, seen: &mut Seen, aged: &mut Aged) {
    let mut twins = Twins::new(table);
    let mut asked: Vec<(Edit, i64, usize)> = Vec::new();
    let (mut growth, mut accepted) = (10, 0);
    for call in 0..calls {
        if call % 500 == 499 {
            growth = random.pick(&[10, 10, 5, 0]);
        }
        let older = (!asked.is_empty()).then(|| random.pick(&asked));
        let answer = match (random.below(8), older) {
            (0..=1, _) => twins.edit(random_edit(random, twins.words(), window, growth)),
            (2..=4, Some((change, forecast, then))) => {
                let answer = twins.commit(change, forecast);
                seen.note(change, answer);
                aged.done += usize::from(then < accepted && answer >= 0);
                aged.stale += usize::from(then < accepted && answer == -12);
                answer
            }
            (of, _) => {
                let change = random_edge_edit(random, twins.words(), window, growth);
                let forecast = twins.ask(change);
                asked.push((change, forecast, accepted));
                if asked.len() > 12 {
                    asked.remove(0);
                }
                match of {
                    5 => -1,
                    6 => {
                        let answer = twins.commit(change, other_than(random, forecast));
                        assert!(answer < 0, "{change:?}");
                        seen.note(change, answer);
                        answer
                    }
                    _ => {
                        let answer = twins.commit(change, forecast);
                        assert_ne!(answer, -12, "{change:?}");
                        seen.note(change, answer);
                        answer
                    }
                }
            }
        };
        accepted += usize::from(answer >= 0);
    }
}

/// Small meshes: edits meet each other all the time, and older forecasts often hold.
#[test]
fn long_runs_in_narrow_windows() {
    let (mut seen, mut aged) = (Seen::default(), Aged::default());
    for seed in 0..3 {
        let mut random = Random::new(0xc200 + seed);
        for window in &WINDOWS[..3] {
            mixed_run(&mut random, &empty_mesh(), *window, 8_000, &mut seen, &mut aged);
        }
    }
    seen.assert_all_and(&KINDS, &[-12], 100);
    assert!(aged.done > 1_000 && aged.stale > 1_000, "{} done, {} stale", aged.done, aged.stale);
}

#[test]
fn long_runs_from_random_tables_and_over_the_whole_range() {
    let (mut seen, mut aged) = (Seen::default(), Aged::default());
    let mut random = Random::new(0xc300);
    for _ in 0..30 {
        let (table, window) = (random_table(&mut random), random.pick(&WINDOWS));
        mixed_run(&mut random, &table, window, 250, &mut seen, &mut aged);
    }
    let whole = Window { vertices: VERTICES, edges: EDGES };
    mixed_run(&mut random, &empty_mesh(), whole, 4_000, &mut seen, &mut aged);
    seen.assert_all_and(&KINDS, &[-12], 5);
    assert!(aged.done > 100 && aged.stale > 100, "{} done, {} stale", aged.done, aged.stale);
}

/// A forecast that was true, and a table that is damaged since: 1 where it is torn, else what the damaged table says.
#[test]
fn torn_tables_are_declined_and_kept() {
    let mut random = Random::new(0xc4);
    let (mut torn, mut stale, mut done) = (0, 0, 0);
    for round in 0..4_000 {
        let mut table = random_table(&mut random);
        let change = random_edge_edit(&mut random, &table, WINDOWS[round % WINDOWS.len()], 5);
        let forecast = Twins::new(&table).ask(change);
        damage(&mut random, &mut table);
        match Twins::new(&table).commit(change, forecast) {
            -1 => torn += 1,
            -12 => stale += 1,
            answer if answer >= 0 => done += 1,
            _ => {}
        }
    }
    assert!(torn > 1_500 && stale > 10 && done > 400, "{torn} torn, {stale} stale, {done} done");
}

#[test]
fn other_sizes_are_declined_and_kept() {
    let mut twins = flat_loop();
    let long = [twins.words(), &empty_mesh()].concat();
    let insertions = [insert(1, 0, 1, 0), insert(0, 0, 2_048, 100), insert_long(1, 0, 1, 0, 0)];
    let others = [delete(0), delete(1_024), turn(0, 1), turn(0, 100)];
    for change in insertions.into_iter().chain(others) {
        let forecast = twins.ask(change);
        for offered in [forecast, 0, 3 * BEFORE + A + 2, -1] {
            for size in [0, 1, 511, 7_680, WORDS - 1, WORDS + 1, 2 * WORDS] {
                assert_eq!(Twins::new(&long[..size]).commit(change, offered), -1, "{change:?} over {size} words");
            }
            assert_eq!(planner::commit_null(change, offered), -1, "{change:?}");
        }
    }
}
