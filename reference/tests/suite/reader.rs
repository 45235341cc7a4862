//! The walk reader and the tally.

use crate::*;
use reference::length::cut_length;
use reference::reader::{read_step, Read, Reader, Tally};
use reference::refusal::Refusal;
use reference::table::live_darts;
use reference::trace::{step, walk_from, Step};
use reference::trial::random::Random;
use reference::trial::tables::random_table;
use reference::weave::{count, letters_along, Letter};

/// A loop of turns 3: one walk, (0,0) with OUO and (0,1) with UOU. Over an edge of length l the first step brings the
/// tally l+16, the second l+8 and the lap of 320.
fn sample(length: u16) -> Vec<u16> {
    made(&[add(0), insert_long(0, around(0), around(0), 3, length)])
}

#[test]
fn steps_come_round_and_round() {
    let table = sample(5);
    let mut reader = Reader::new(&table, 0, 0).unwrap();
    let mut tally = Tally::default();
    let first = Read { step: step(0, 0), ends: false };
    let last = Read { step: step(0, 1), ends: true };
    for _ in 0..3 {
        assert_eq!(reader.step(&mut tally), Ok(first));
        assert_eq!(reader.step(&mut tally), Ok(last));
    }
    // 6 steps of 5, 9 O's of 8, and 3 laps: 30 + 72 + 960.
    assert_eq!(tally, Tally { steps: 6, overs: 9, unders: 9, length: 1_062 });
}

/// "the lap enters the tally with the walk's last step", each time round, whichever step is the first.
#[test]
fn the_lap_comes_with_the_last_step() {
    let table = sample(100);
    let lengths_from = |start: Step| {
        let mut reader = Reader::new(&table, start.dart, start.t as u16).unwrap();
        let mut tally = Tally::default();
        [(); 6].map(|_| reader.step(&mut tally).map(|_| tally.length).unwrap())
    };
    // From (0,0): 100+16, then 100+8+320, and so on: 544 a round.
    assert_eq!(lengths_from(step(0, 0)), [116, 544, 660, 1_088, 1_204, 1_632]);
    // From (0,1): 100+8, then 100+16+320.
    assert_eq!(lengths_from(step(0, 1)), [108, 544, 652, 1_088, 1_196, 1_632]);
}

/// A loop without turns or with an even number of them has two walks of one step, which is the first and the last.
#[test]
fn a_walk_of_one_step() {
    for (k, overs) in [(0, 0), (2, 1), (-2, 1), (98, 49), (-98, 49)] {
        let table = made(&[add(0), insert_long(0, around(0), around(0), k, 100)]);
        for start in [step(0, 0), step(1, 0), step(0, 1), step(1, 1)] {
            let mut reader = Reader::new(&table, start.dart, start.t as u16).unwrap();
            let mut tally = Tally::default();
            for round in 1..=3 {
                assert_eq!(reader.step(&mut tally), Ok(Read { step: start, ends: true }));
                assert_eq!(tally.length, round * (100 + 8 * overs + 320), "{k} turns");
            }
        }
    }
}

/// A reader whose start is not on the walk of its step never ends, so no lap enters its tally. One whose start is
/// another step of that walk has its lap with the step before it.
#[test]
fn a_start_elsewhere() {
    let table = made(&[add(0), insert_long(0, around(0), around(0), 2, 100)]);
    let mut tally = Tally::default();
    for round in 1..=3 {
        let read = read_step(&table, step(1, 0), step(0, 0), &mut tally);
        assert_eq!(read, Ok(Read { step: step(0, 0), ends: false }));
        assert_eq!(tally.length, round * 108);
    }
    let mut tally = Tally::default();
    let read = read_step(&sample(100), step(0, 1), step(0, 0), &mut tally);
    assert_eq!(read, Ok(Read { step: step(0, 0), ends: true }));
    assert_eq!(tally.length, 436, "100 + 16 + 320");
}

#[test]
fn one_step_at_a_time_is_tallied() {
    let table = sample(65_535);
    let mut reader = Reader::new(&table, 0, 1).unwrap();
    let mut tally = Tally { steps: 10, overs: 20, unders: 30, length: 40 };
    let read = reader.step(&mut tally);
    assert_eq!(read, Ok(Read { step: step(0, 1), ends: false }));
    assert_eq!(tally, Tally { steps: 11, overs: 21, unders: 32, length: 65_583 }, "40 + 65,535 + 8");
}

#[test]
fn making_a_reader_declines() {
    let table = sample(1);
    let made = |table, dart, t| Reader::new(table, dart, t).err();
    assert_eq!(made(&table[..9], 2_048, 9), Some(Refusal::Torn));
    assert_eq!(made(&table, 2_048, 0), Some(Refusal::NoSuchName));
    assert_eq!(made(&table, 5, 2), Some(Refusal::NoSuchName));
    assert_eq!(made(&table, 2, 1), Some(Refusal::Absent));
    assert_eq!(made(&table, 1, 1), None);
}

#[test]
fn a_declined_step_moves_nothing() {
    let table = sample(9);
    let mut reader = Reader::new(&table, 0, 0).unwrap();
    for tally in [
        Tally { steps: u32::MAX, ..Tally::default() },
        Tally { overs: u32::MAX - 1, ..Tally::default() },
        Tally { unders: u32::MAX, ..Tally::default() },
        // The step brings 9 and two O's, 25.
        Tally { length: u32::MAX - 24, ..Tally::default() },
        Tally { length: u32::MAX - 9, ..Tally::default() },
    ] {
        let mut now = tally;
        assert_eq!(reader.step(&mut now), Err(Refusal::Overturned));
        assert_eq!(now, tally);
    }
    let full = Tally { steps: u32::MAX, overs: u32::MAX, unders: u32::MAX, length: u32::MAX };
    let mut tally = Tally { steps: u32::MAX - 1, overs: u32::MAX - 2, unders: u32::MAX - 1, length: u32::MAX - 25 };
    assert_eq!(reader.step(&mut tally), Ok(Read { step: step(0, 0), ends: false }));
    assert_eq!(tally, full);
    // The last step brings 9, one O and the lap: 9 + 8 + 320 is 337.
    for length in [336, 17, 9, 328, 0].map(|room| u32::MAX - room) {
        let mut tally = Tally { length, ..Tally::default() };
        assert_eq!(reader.step(&mut tally), Err(Refusal::Overturned));
        assert_eq!(tally, Tally { length, ..Tally::default() });
    }
    let mut tally = Tally { steps: u32::MAX - 1, overs: u32::MAX - 1, unders: u32::MAX - 2, length: u32::MAX - 337 };
    assert_eq!(reader.step(&mut tally), Ok(Read { step: step(0, 1), ends: true }));
    assert_eq!(tally, full);
}

/// A step brings the length of its own edge. Two flat loops, their darts around the vertex being 0, 3, 1, 2: next after
/// 1 is 2, after 3 is 1, after 0 is 3, after 2 is 0.
#[test]
fn each_step_brings_its_own_edge() {
    let table = made(&[add(0), insert_long(0, around(0), around(0), 0, 30), insert_long(1, 0, 1, 0, 4)]);
    assert_eq!(walk_from(&table, step(0, 0)), [step(0, 0), step(2, 0), step(1, 0), step(3, 0)]);
    let mut reader = Reader::new(&table, 0, 0).unwrap();
    let mut tally = Tally::default();
    let lengths = [(); 4].map(|_| reader.step(&mut tally).map(|_| tally.length).unwrap());
    assert_eq!(lengths, [30, 34, 64, 388], "30, 4, 30, then 4 and the lap");
}

/// A host that holds start and place itself may edit the table between steps. 1, 2, 4, then 6.
#[test]
fn a_step_declines_as_the_making_would() {
    let mut table = made(&[add(0), insert(0, around(0), around(0), 0), insert_long(1, 0, 1, 0, 7)]);
    let mut tally = Tally { steps: u32::MAX - 1, ..Tally::default() };
    let mut read = |table: &[u16], start, at| read_step(table, start, at, &mut tally);
    assert!(read(&table, step(0, 0), step(2, 0)).is_ok());
    assert_eq!(read(&table, step(0, 0), step(2, 0)), Err(Refusal::Overturned));
    edit(&mut table, delete(1)).unwrap();
    assert_eq!(read(&table, step(0, 0), step(2, 0)), Err(Refusal::Absent));
    assert_eq!(read(&table, step(2, 0), step(0, 0)), Err(Refusal::Absent));
    assert_eq!(read(&table, step(2, 0), step(0, 2)), Err(Refusal::NoSuchName));
    assert_eq!(read(&table, step(2_048, 0), step(2, 0)), Err(Refusal::NoSuchName));
    assert_eq!(read(&table[1..], step(2_048, 0), step(2, 0)), Err(Refusal::Torn));
    assert_eq!(read(&table[..7_680], step(0, 0), step(0, 0)), Err(Refusal::Torn));
    table[7_680] = 0;
    assert_eq!(read(&table, step(0, 0), step(0, 0)), Err(Refusal::Torn), "no length");
    assert_eq!(tally, Tally { steps: u32::MAX, overs: 0, unders: 0, length: 7 });
}

/// Over one walk the tally is the walk's steps, letters and cut length.
#[test]
fn a_tally_over_one_walk() {
    let mut random = Random::new(0x7a11);
    for _ in 0..40 {
        let table = random_table(&mut random);
        for start in live_darts(&table).take(2) {
            let walk = walk_from(&table, step(start, 1));
            let mut reader = Reader::new(&table, start, 1).unwrap();
            let mut tally = Tally::default();
            for (i, &s) in walk.iter().enumerate() {
                let ends = i + 1 == walk.len();
                assert_eq!(reader.step(&mut tally), Ok(Read { step: s, ends }));
            }
            let letters = letters_along(&table, &walk);
            assert_eq!(
                (tally.steps as usize, tally.overs, tally.unders),
                (walk.len(), count(&letters, Letter::O), count(&letters, Letter::U))
            );
            assert_eq!(Ok(tally.length), cut_length(&table, start, 1));
        }
    }
}
