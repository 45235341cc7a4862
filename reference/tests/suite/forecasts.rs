//! Ask and commit (document 02, request b): by hand, on histories in which something comes between the two, and on runs that
//! mix commits with plain edits.

use crate::bands::boundary_circles;
use crate::*;
use reference::edit::verdict;
use reference::forecast::{ask, commit, Forecast};
use reference::run::{run, run_calls, Call};
use reference::table::turns;
use reference::trial::damage::damage;
use reference::trial::edits::{random_edge_edit, random_edit, WINDOWS};
use reference::trial::random::Random;
use reference::trial::tables::random_table;
use Refusal::{Absent, Far, NoSuchName, Overturned, StaleForecast, Taken, Torn};
use Rule::{A, B1, B2, E};

fn forecast(before: usize, rule: Rule, after: usize) -> Forecast {
    Forecast { rule, before, after }
}

/// A loop at vertex 0. Flat, its walks are (0, 0) and (1, 0); with one turn its walk is (0, 0), (0, 1).
fn one_loop(k: i16) -> Vec<u16> {
    made(&[add(0), insert(0, around(0), around(0), k)])
}

/// Two vertices and an edge between them: its walk is (0, 0), (1, k).
fn bridge(k: i16) -> Vec<u16> {
    made(&[add(0), add(1), insert(0, around(0), around(1), k)])
}

/// The commit is stale, and the table stays.
fn turns_away(table: &[u16], change: Edit, offered: Forecast) {
    let mut now = table.to_vec();
    assert_eq!(commit(&mut now, change, offered), Err(StaleForecast), "{change:?} with {offered:?}");
    assert_eq!(now, table, "{change:?} with {offered:?}");
}

/// The commit answers this, and leaves the table that the plain edit leaves.
fn goes_through(table: &mut [u16], change: Edit, offered: Forecast, answer: Result<Answer, Refusal>) {
    let mut plainly = table.to_vec();
    assert_eq!(edit(&mut plainly, change), answer, "{change:?}");
    assert_eq!(commit(table, change, offered), answer, "{change:?} with {offered:?}");
    assert_eq!(table, plainly, "{change:?} with {offered:?}");
}

#[test]
fn each_rule_is_foretold_and_done() {
    let cases = [
        (made(&[add(0), add(1)]), insert(0, around(0), around(1), 0), forecast(2, A, 1)),
        (made(&[add(0)]), insert(0, around(0), around(0), 0), forecast(1, B1, 2)),
        (made(&[add(0)]), insert(0, around(0), around(0), 1), forecast(1, B2, 1)),
        (one_loop(0), delete(0), forecast(2, A, 1)),
        (bridge(0), delete(0), forecast(1, B1, 2)),
        (one_loop(1), delete(0), forecast(1, B2, 1)),
        (one_loop(0), turn(0, 1), forecast(2, A, 1)),
        (one_loop(1), turn(0, -1), forecast(1, B1, 2)),
        (bridge(1), turn(0, 3), forecast(1, B2, 1)),
        (one_loop(0), turn(0, 2), forecast(2, E, 2)),
        (one_loop(1), turn(0, 0), forecast(1, E, 1)),
        (bridge(0), turn(0, -98), forecast(1, E, 1)),
    ];
    for (mut table, change, foretold) in cases {
        assert_eq!(ask(&table, change), Ok(foretold), "{change:?}");
        goes_through(&mut table, change, foretold, met(foretold.after, foretold.rule));
    }
}

/// "An edit that would be declined gives its own number to both", whatever is offered.
#[test]
fn the_edits_own_numbers_go_first() {
    let sample = made(&[add(0), add(1), insert(0, around(0), around(0), 99)]);
    let declined = [
        (insert(1_024, 0, 0, 0), NoSuchName),
        (insert(1, 2_048, 0, 0), NoSuchName),
        (insert(1, 0, 33_280, 100), NoSuchName),
        (insert(0, 0, 1, 0), Taken),
        (insert(0, 5, 1, 100), Taken),
        (insert(1, 5, 0, 0), Absent),
        (insert(1, 0, around(0), 100), Absent),
        (insert(1, 0, 1, 100), Overturned),
        (insert_long(1_024, 0, 0, 0, 0), NoSuchName),
        (insert_long(0, 0, 1, 0, 0), Taken),
        (insert_long(1, 5, 0, 0, 0), Absent),
        (insert_long(1, 0, 1, 100, 0), Overturned),
        (insert_long(1, 0, 1, 0, 0), Far),
        (insert_long(1_023, around(1), around(1), -99, 0), Far),
        (delete(1_024), NoSuchName),
        (delete(1), Absent),
        (turn(1_024, 1), NoSuchName),
        (turn(1, 1), Absent),
        (turn(0, 1), Overturned),
        (turn(0, 2), Overturned),
    ];
    let offers = [forecast(0, A, 0), forecast(2, B2, 2), forecast(2, E, 2), forecast(65_535, B1, 65_536)];
    for (change, own) in declined {
        for offered in offers {
            let mut table = sample.clone();
            assert_eq!(ask(&table, change), Err(own), "{change:?}");
            assert_eq!(commit(&mut table, change, offered), Err(own), "{change:?} with {offered:?}");
            assert_eq!(table, sample);
            table[7_000] = 200;
            assert_eq!(ask(&table, change), Err(Torn));
            assert_eq!(commit(&mut table, change, offered), Err(Torn));
            assert_eq!(commit(&mut table[..8_703], change, offered), Err(Torn));
            assert_eq!(commit(&mut sample.clone()[..7_680], change, offered), Err(Torn));
        }
    }
}

/// Three answers are compared: a forecast with one of them wrong is stale.
#[test]
fn each_of_the_three_answers_counts() {
    let right = forecast(3, A, 2);
    let mut table = made(&[add(0), add(1), insert(0, around(0), around(0), 0)]);
    assert_eq!(ask(&table, turn(0, 1)), Ok(right));
    for before in [0, 2, 4, 65_539] {
        turns_away(&table, turn(0, 1), Forecast { before, ..right });
    }
    for after in [0, 1, 3, 65_538] {
        turns_away(&table, turn(0, 1), Forecast { after, ..right });
    }
    for rule in [B1, B2, E] {
        turns_away(&table, turn(0, 1), Forecast { rule, ..right });
    }
    turns_away(&table, turn(0, 1), forecast(2, A, 3));
    goes_through(&mut table, turn(0, 1), right, met(2, A));
}

/// B2 and E both leave the count: here the rule alone tells an odd turn's forecast from an even one's.
#[test]
fn the_rule_alone() {
    let mut table = bridge(0);
    let (odd, even) = (ask(&table, turn(0, 1)).unwrap(), ask(&table, turn(0, 2)).unwrap());
    assert_eq!((odd, even), (forecast(1, B2, 1), forecast(1, E, 1)));
    turns_away(&table, turn(0, 1), even);
    turns_away(&table, turn(0, 2), odd);
    goes_through(&mut table, turn(0, 2), even, met(1, E));
}

/// "Other edits in between are allowed": what does not change the three answers does not matter, and the edit is done to the
/// table as it now is.
#[test]
fn edits_between_that_change_no_answer() {
    let mut table = one_loop(0);
    let foretold = ask(&table, turn(0, 1)).unwrap();
    assert_eq!(foretold, forecast(2, A, 1));
    // The same edge, by an even amount: turned from 0 to 2, then from 2 to 3.
    assert_eq!(edit(&mut table, turn(0, 2)), met(2, E));
    goes_through(&mut table, turn(0, 1), foretold, met(1, A));
    assert_eq!(turns(&table, 0), 3);

    // A vertex comes with its face and another goes with its own.
    let mut table = made(&[add(0), add(1), insert(0, around(0), around(0), 0)]);
    let foretold = ask(&table, delete(0)).unwrap();
    assert_eq!(foretold, forecast(3, A, 2));
    edit(&mut table, add(2)).unwrap();
    turns_away(&table, delete(0), foretold);
    edit(&mut table, remove(1)).unwrap();
    goes_through(&mut table, delete(0), foretold, met(2, A));
    assert_eq!(table, made(&[add(0), add(2)]));
}

/// The answers that edits in between change: both counts, under the same rule; rule and count after; rule and count before.
#[test]
fn edits_between_that_change_an_answer() {
    let mut table = one_loop(0);
    let foretold = ask(&table, turn(0, 1)).unwrap();
    edit(&mut table, add(7)).unwrap();
    assert_eq!(ask(&table, turn(0, 1)), Ok(forecast(3, A, 2)), "from 2 to 1 before");
    turns_away(&table, turn(0, 1), foretold);

    // Sample 4: by dart 3 twice. With edge 0 flat it is sample 5, whose walk is (0, 0), (2, 0), (1, 0), (3, 0).
    let mut table = made(&[add(0), insert(0, around(0), around(0), 1), insert(1, 0, 1, 0)]);
    let foretold = ask(&table, turn(1, 1)).unwrap();
    assert_eq!(foretold, forecast(1, B1, 2));
    assert_eq!(edit(&mut table, turn(0, 1)), met(1, B2));
    assert_eq!(ask(&table, turn(1, 1)), Ok(forecast(1, B2, 1)));
    turns_away(&table, turn(1, 1), foretold);

    // The flat loop's two faces, and vertex 1 with one of its own; then the turned loop's one face alone.
    let mut table = made(&[add(0), add(1), insert(0, around(0), around(0), 0)]);
    let foretold = ask(&table, turn(0, 1)).unwrap();
    assert_eq!(foretold, forecast(3, A, 2));
    edit(&mut table, turn(0, 1)).unwrap();
    edit(&mut table, remove(1)).unwrap();
    assert_eq!(ask(&table, turn(0, 1)), Ok(forecast(1, B1, 2)));
    turns_away(&table, turn(0, 1), foretold);
}

/// Commit compares three answers and nothing else: another edit's forecast that has the same three is as good.
#[test]
fn another_edit_with_the_same_answers() {
    let mut table = one_loop(0);
    let foretold = ask(&table, turn(0, 2)).unwrap();
    goes_through(&mut table, turn(0, -4), foretold, met(2, E));
    assert_eq!(turns(&table, 0), -4);
    let foretold = ask(&table, delete(0)).unwrap();
    goes_through(&mut table, turn(0, 1), foretold, met(1, A));
}

/// The counts a second way, as circles, on the table before and on the table that the plain edit leaves.
#[test]
fn ask_tells_what_the_edit_then_does() {
    let mut random = Random::new(0xa5);
    let (mut foretold, mut declined) = (0, 0);
    for round in 0..300 {
        let mut table = random_table(&mut random);
        if round % 6 == 0 {
            damage(&mut random, &mut table);
        }
        for _ in 0..8 {
            let change = random_edge_edit(&mut random, &table, WINDOWS[round % WINDOWS.len()], 5);
            let mut edited = table.clone();
            match (ask(&table, change), edit(&mut edited, change)) {
                (Ok(told), Ok(answer)) => {
                    assert_eq!((told.before, told.after), (boundary_circles(&table), boundary_circles(&edited)));
                    assert_eq!((told.after, Some(told.rule)), (answer.faces, answer.rule));
                    goes_through(&mut table.clone(), change, told, Ok(answer));
                    foretold += 1;
                }
                (Err(to_ask), Err(own)) => {
                    assert_eq!(to_ask, own);
                    assert_eq!(commit(&mut table.clone(), change, forecast(1, E, 1)), Err(own));
                    declined += 1;
                }
                (told, answer) => panic!("{change:?}: {told:?} and {answer:?}"),
            }
        }
    }
    assert!(foretold > 1_000 && declined > 300, "{foretold} foretold, {declined} declined");
}

/// Calls drawn on the way: plain edits, and commits of edits that were asked for just now or some calls ago, with the
/// forecast of then or with one of its answers changed.
fn some_calls(random: &mut Random, table: &[u16], round: usize) -> Vec<Call> {
    let window = WINDOWS[round % WINDOWS.len()];
    let mut now = table.to_vec();
    let mut asked: Vec<(Edit, Forecast)> = Vec::new();
    let mut calls = Vec::new();
    for _ in 0..60 {
        let call = match random.below(4) {
            0 => Call::Plain(random_edit(random, &now, window, 5)),
            1 if !asked.is_empty() => {
                let (change, told) = random.pick(&asked);
                Call::Commit(change, told)
            }
            of => {
                let change = random_edge_edit(random, &now, window, 5);
                let told = ask(&now, change).unwrap_or(forecast(1, E, 1));
                if verdict(&now, change).is_ok() {
                    asked.push((change, told));
                }
                let changed = [
                    Forecast { before: told.before + 1, ..told },
                    Forecast { after: told.after + 1, ..told },
                    Forecast { rule: random.pick(&[A, B1, B2, E]), ..told },
                ];
                Call::Commit(change, if of == 2 { told } else { random.pick(&changed) })
            }
        };
        let _ = call.made(&mut now);
        calls.push(call);
    }
    calls
}

/// "a commit that goes through has the effect and the answer of the plain edit on the present table, and counts as that edit
/// in a run": the run with its commits, and the run of its accepted edits alone.
#[test]
fn commits_count_as_their_edits_in_a_run() {
    let mut random = Random::new(0xb0);
    let (mut commits, mut stale, mut declined) = (0, 0, 0);
    for round in 0..250 {
        let start = if round % 2 == 0 { made(&[add(0), add(1)]) } else { random_table(&mut random) };
        let calls = some_calls(&mut random, &start, round);
        let (mut mixed, mut plain) = (start.clone(), start);
        let whole = run_calls(&mut mixed, &calls);
        let accepted: Vec<usize> = (0..calls.len()).filter(|&i| whole.answers[i].is_ok()).collect();
        let edits: Vec<Edit> = accepted.iter().map(|&i| calls[i].edit()).collect();
        let alone = run(&mut plain, &edits);

        assert_eq!(mixed, plain);
        assert_eq!(accepted.iter().map(|&i| whole.answers[i]).collect::<Vec<_>>(), alone.answers);
        assert_eq!(accepted.iter().map(|&i| whole.changes[i]).collect::<Vec<_>>(), alone.changes);
        let faces = whole.start_faces as i64 + whole.changes.iter().sum::<i64>();
        assert_eq!(faces, boundary_circles(&mixed) as i64, "the start count plus what the rules call for");
        for (call, answer) in calls.iter().zip(&whole.answers) {
            match (call, answer) {
                (Call::Commit(..), Ok(_)) => commits += 1,
                (Call::Commit(..), Err(StaleForecast)) => stale += 1,
                (Call::Plain(_), Err(StaleForecast)) => panic!("{call:?}: a plain edit has no forecast"),
                (_, Err(_)) => declined += 1,
                _ => {}
            }
        }
    }
    assert!(commits > 2_000 && stale > 2_000 && declined > 1_000, "{commits} done, {stale} stale, {declined} declined");
}
