//! planner_trial_job: the reference's bytes for many pairs of numbers, nothing written past them, the two refusals in their order; and the job run
//! through the calls and by the job program, which decline none of its records. Bytes by hand are in tests/c/arguments.c.

use host::guarded::Guarded;
use host::planner;
use host::program::printed;
use reference::edit::Edit;
use reference::job::{job, read_record};
use reference::table::{empty_mesh, length, live_edges, EDGES};
use reference::trial::random::Random;
use reference::trial_job::{trial_bytes, trial_job};

const GUARD: u8 = 0xa5;

/// The starting numbers at the ends of the range and in its middle, and numbers of edges at the ends and between.
const STARTS: [u32; 6] = [0, 1, (1 << 31) - 1, 1 << 31, u32::MAX - 1, u32::MAX];
const COUNTS: [u32; 8] = [0, 1, 2, 7, 8, 300, 1_023, 1_024];

/// "32 + 10N bytes"
fn size(edges: u32) -> usize {
    32 + 10 * edges as usize
}

/// Both sides over an output of this size; they agree in the answer and in every byte, those past the job too.
fn compare(start: u32, edges: u32, room: usize) -> i64 {
    let mut lent = Guarded::new(&vec![GUARD; room], GUARD);
    let answer = planner::trial_job(start, edges, lent.slice_mut());
    lent.assert_guards();
    let mut expected = vec![GUARD; room];
    let expected_answer = planner::as_number(trial_job(start, edges, &mut expected));
    assert_eq!(answer, expected_answer, "{start} {edges} into {room} bytes");
    assert!(lent.slice() == expected, "{start} {edges} into {room} bytes: the bytes differ");
    answer
}

/// The library's bytes, into an output of the exact size.
fn made(start: u32, edges: u32) -> Vec<u8> {
    let mut lent = Guarded::new(&vec![GUARD; size(edges)], GUARD);
    assert_eq!(planner::trial_job(start, edges, lent.slice_mut()), size(edges) as i64);
    lent.assert_guards();
    lent.slice().to_vec()
}

#[test]
fn the_ends_of_both_ranges() {
    for start in STARTS {
        for edges in COUNTS {
            assert_eq!(compare(start, edges, size(edges)), size(edges) as i64);
        }
    }
}

#[test]
fn drawn_numbers() {
    let mut random = Random::new(0xf1);
    for round in 0..4_000 {
        let most = if round % 200 == 0 { EDGES } else { random.pick(&[3, 10, 40]) };
        let (start, edges) = (random.draw() as u32, random.below(most + 1) as u32);
        assert_eq!(compare(start, edges, size(edges)), size(edges) as i64);
    }
}

/// Small starting numbers, and those that one draw takes to a small state: 4,276,115,653 is what 1,664,525 has to be multiplied by for 1.
#[test]
fn numbers_in_a_row() {
    assert_eq!(4_276_115_653_u32.wrapping_mul(1_664_525), 1);
    for i in 0..1_000_u32 {
        compare(i, 4, size(4));
        let before = i.wrapping_sub(1_013_904_223).wrapping_mul(4_276_115_653);
        compare(before, 4, size(4));
    }
}

/// "13, N above 1,024", whatever the output is; its bytes are kept.
#[test]
fn many_edges() {
    let mut random = Random::new(0xf2);
    let drawn: Vec<u32> = (0..200).map(|_| 1_025 + random.below(u32::MAX as usize - 1_024) as u32).collect();
    let ends = [1_025, 1_026, 2_048, 65_535, 65_536, 65_537, 66_560, 1 << 31, (1 << 31) + 1, u32::MAX - 1, u32::MAX];
    // 32 + 10 N modulo 2 to the 32 is 36, 30 and 32 for these.
    let wrapping = [429_496_730, 858_993_459, 2_147_483_648];
    for edges in ends.into_iter().chain(wrapping).chain(drawn) {
        for room in [0, 1, 32, 36, 42, 10_271, 10_272, 10_282, 66_000] {
            assert_eq!(compare(random.draw() as u32, edges, room), -13);
        }
        assert_eq!(planner::trial_job_null(0, edges), -13);
    }
}

/// "otherwise 7 for an output shorter than 32 + 10N bytes": every size below the exact one, and the bytes are kept.
#[test]
fn every_size_that_is_short() {
    for edges in [0, 1, 2, 7, 30] {
        for room in 0..size(edges) {
            assert_eq!(compare(u32::MAX, edges, room), -7);
        }
        assert_eq!(planner::trial_job_null(0, edges), -7);
    }
    for edges in [300, 1_023, 1_024] {
        for room in [
            0,
            1,
            31,
            32,
            33,
            42,
            size(edges) / 2,
            size(edges) - 11,
            size(edges) - 10,
            size(edges) - 9,
            size(edges) - 1,
        ] {
            assert_eq!(compare(7, edges, room), -7);
        }
    }
}

/// "An accepted call changes nothing past its output's exact size."
#[test]
fn longer_outputs_keep_their_rest() {
    for edges in COUNTS {
        for more in [1, 2, 9, 10, 11, 1_000, 70_000] {
            assert_eq!(compare(7, edges, size(edges) + more), size(edges) as i64);
        }
    }
}

/// "Every record made so is accepted when run from the empty mesh": by the calls, after which 8 vertices and N edges are there.
#[test]
fn every_record_is_accepted_by_the_calls() {
    let mut random = Random::new(0xf3);
    let drawn: Vec<(u32, u32)> = (0..40).map(|_| (random.draw() as u32, random.below(60) as u32)).collect();
    let ends = STARTS.iter().flat_map(|&start| [0, 1, 8, 1_024].map(|edges| (start, edges)));
    for (start, edges) in ends.chain(drawn) {
        let bytes = made(start, edges);
        let mut rest = bytes.as_slice();
        let mut table = empty_mesh();
        let mut kinds = [0; 2];
        while !rest.is_empty() {
            let (change, after) = read_record(rest).unwrap();
            assert!(planner::edit(&mut table, change) >= 0, "{start} {edges}: {change:?}");
            match change {
                Edit::AddVertex { .. } => kinds[0] += 1,
                Edit::InsertEdge { .. } => kinds[1] += 1,
                _ => panic!("{start} {edges}: {change:?}"),
            }
            rest = after;
        }
        assert_eq!(kinds, [8, edges]);
        assert_eq!(planner::check(&table), 0);
        assert!(live_edges(&table).all(|e| length(&table, e) == 16), "{start} {edges}: a plain IE writes 16");
        let mut counts = [0; 5];
        assert_eq!(planner::counts(&table, &mut counts), 5);
        assert_eq!(counts[..2], [8, edges as i32], "{start} {edges}");
    }
}

/// The job program over trial jobs prints what the reference prints over the reference's, and no line of a declined record.
#[test]
fn the_job_program_runs_them() {
    for (start, edges) in
        [(0, 0), (1, 1), (1, 2), (7, 300), (0, 1_024), (7, 1_024), (1 << 31, 1_023), (u32::MAX, 1_024)]
    {
        let bytes = made(start, edges);
        let report = printed(&bytes, bytes.len());
        assert!(report == job(&trial_bytes(start, edges)), "{start} {edges}");
        assert!(report.starts_with(&format!("mesh 8 {edges} ")), "{start} {edges}");
        assert!(report.lines().all(|line| !line.starts_with("no ")), "{start} {edges}");
    }
}
