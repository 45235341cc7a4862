//! The trial job: bytes by hand, the same job a second way, every record accepted, the wrong readings, and the refusals.

use crate::bands::boundary_circles;
use crate::runs::{corners_once_and_edges_twice, euler_numbers, ribbons_alternate_exactly_if_they_turn_one_way};
use crate::*;
use reference::check::is_good;
use reference::faces::face_count;
use reference::job::{job, read_record, record};
use reference::refusal::Refusal::{self, *};
use reference::run::run;
use reference::table::{length, live_edges, live_vertices, turns};
use reference::trial::random::Random;
use reference::trial_job::{trial_bytes, trial_edits, trial_job};
use Reading::*;

/// Starting numbers at the ends of the range, around its middle and one between.
const STARTS: [u32; 7] = [0, 1, 7, (1 << 31) - 1, 1 << 31, u32::MAX - 1, u32::MAX];

/// "The job adds vertices 0 to 7."
const ADDED: &[u8; 32] = b"AV\0\0AV\0\x01AV\0\x02AV\0\x03AV\0\x04AV\0\x05AV\0\x06AV\0\x07";

fn with_edges(records: &[&[u8; 10]]) -> Vec<u8> {
    ADDED.iter().chain(records.iter().copied().flatten()).copied().collect()
}

/// From 0, each draw as the state, the state by 65,536, and that modulo 8 or 3.
/// Edge 0: 1,013,904,223, 15,470, 6; 1,196,435,762, 18,256, 0; 3,519,870,697, 53,708, 2, less 1 is 1. Vertices 6 and 0 are isolated.
/// Edge 1: 2,868,466,484, 43,769, 1; 1,649,599,747, 25,170, 2; 2,670,642,822, 40,750, 1, less 1 is 0. Vertices 1 and 2 are isolated.
/// Edge 2: 1,476,291,629, 22,526, 6; 2,748,932,008, 41,945, 1; 2,180,890,343, 33,277, 1, less 1 is 0. The smallest dart of vertex 6 is 0,
/// that of edge 0 at its first end; of vertex 1 it is 2, that of edge 1 at its first end.
#[test]
fn from_0_by_hand() {
    let edges = [b"IE\0\0\x80\x06\x80\0\0\x01", b"IE\0\x01\x80\x01\x80\x02\0\0", b"IE\0\x02\0\0\0\x02\0\0"];
    for n in 0..=3 {
        assert_eq!(trial_bytes(0, n), with_edges(&edges[..n as usize]));
    }
}

/// From 1, likewise. Edge 0: 1,015,568,748, 15,496, 0; 1,586,005,467, 24,200, 0; 2,165,703,038, 33,046, 1, less 1 is 0. A loop: the corner of
/// the isolated vertex 0 twice.
/// Edge 1: 3,027,450,565, 46,195, 3; 217,083,232, 3,312, 0; 1,587,069,247, 24,216, 0, less 1 is -1. Vertex 3 is isolated; vertex 0 has the
/// darts 0 and 1.
#[test]
fn from_1_by_hand() {
    let edges = [b"IE\0\0\x80\0\x80\0\0\0", b"IE\0\x01\x80\x03\0\0\xff\xff"];
    for n in 0..=2 {
        assert_eq!(trial_bytes(1, n), with_edges(&edges[..n as usize]));
    }
}

/// The job from 1 with two edges, run by hand. Around vertex 0 stand 0 and 1, and dart 3 goes just before 0: 3, 0, 1. Edge 0 is flat,
/// edge 1 has turns -1. From (0, 0): next after 1 is 3; (3, 0): type 1, before 2 is 2; (2, 1): type 0, next after 3 is 0. From (1, 0): next
/// after 0 is 1, alone. With negative turns the type goes from 0 to 1 under, and back over.
#[test]
fn a_report_by_hand() {
    let lone = "part 1 2 o\npart 2 2 o\npart 4 2 o\npart 5 2 o\npart 6 2 o\npart 7 2 o\n";
    let walks = "walk 0 3 0/0: 3/0:U 2/1:O\nwalk 1 1 1/0:\n";
    let empty = "walk 2 0 *1\nwalk 3 0 *2\nwalk 4 0 *4\nwalk 5 0 *5\nwalk 6 0 *6\nwalk 7 0 *7\n";
    let report = format!("mesh 8 2 8 7 14\npart 0 2 o\n{lone}{walks}{empty}weave plain\n");
    assert_eq!(job(&trial_bytes(1, 2)), report);
}

/// How the document may be read, rightly and wrongly.
#[derive(Clone, Copy, Debug, PartialEq, Eq)]
enum Reading {
    Right,
    DrawBeforeTheMove,
    LowHalf,
    Turns0To2,
    TurnsFirst,
    SecondCornerAfterTheFirstEnd,
    NewestDart,
    LowByteFirst,
}

/// The job a second way, with no table: darts rise, so a vertex's first dart stays its smallest. A state of 32 bits wraps.
fn second_way(reading: Reading, start: u32, edges: u32) -> Vec<u8> {
    let mut s = start;
    let mut draw = |n: u32| {
        let before = s;
        s = s.wrapping_mul(1_664_525).wrapping_add(1_013_904_223);
        let read = if reading == DrawBeforeTheMove { before } else { s };
        (if reading == LowHalf { read & 0xffff } else { read >> 16 }) % n
    };
    let mut bytes: Vec<u8> = ADDED.to_vec();
    let mut named: [Option<u16>; 8] = [None; 8];
    for e in 0..edges as u16 {
        let drawn = if reading == TurnsFirst { [3, 8, 8].map(&mut draw) } else { [8, 8, 3].map(&mut draw) };
        let [a, b, k] = if reading == TurnsFirst { [drawn[1], drawn[2], drawn[0]] } else { drawn };
        let (a, b, k) = (a as usize, b as usize, k as i16 - i16::from(reading != Turns0To2));
        let corner = |named: &[Option<u16>; 8], v: usize| named[v].unwrap_or(32_768 + v as u16);
        let before = named;
        for (v, d) in [(a, 2 * e), (b, 2 * e + 1)] {
            named[v] = Some(if reading == NewestDart { d } else { named[v].unwrap_or(d) });
        }
        let mut between = before;
        between[a] = before[a].or(Some(2 * e));
        let c2 = corner(if reading == SecondCornerAfterTheFirstEnd { &between } else { &before }, b);
        bytes.extend(b"IE");
        for word in [e, corner(&before, a), c2, k as u16] {
            bytes.extend(if reading == LowByteFirst { word.to_le_bytes() } else { word.to_be_bytes() });
        }
    }
    bytes
}

/// Pairs of numbers: the ends of both ranges, then drawn ones, most of them with few edges.
fn pairs(random: &mut Random, drawn: usize) -> Vec<(u32, u32)> {
    let ends = STARTS.iter().flat_map(|&start| [0, 1, 2, 7, 8, 9, 300].map(|edges| (start, edges)));
    let mut pairs: Vec<(u32, u32)> = ends.chain([(0, 1_023), (7, 1_024), (u32::MAX, 1_024)]).collect();
    for _ in 0..drawn {
        let most = random.pick(&[3, 10, 10, 40]);
        pairs.push((random.draw() as u32, random.below(most + 1) as u32));
    }
    pairs
}

#[test]
fn both_ways_give_the_same_bytes() {
    for (start, edges) in pairs(&mut Random::new(0x7a1), 1_500) {
        assert_eq!(trial_bytes(start, edges), second_way(Right, start, edges), "{start} {edges}");
    }
}

/// Two edges from 1 tell every reading from the right one: they have a loop at an isolated vertex, a vertex with two darts and turns of -1.
#[test]
fn wrong_readings_give_other_bytes() {
    let right = trial_bytes(1, 2);
    assert_eq!(second_way(Right, 1, 2), right);
    for wrong in
        [DrawBeforeTheMove, LowHalf, Turns0To2, TurnsFirst, SecondCornerAfterTheFirstEnd, NewestDart, LowByteFirst]
    {
        assert_ne!(second_way(wrong, 1, 2), right, "{wrong:?}");
    }
}

/// The edits of a job, read from its bytes.
fn read(mut bytes: &[u8]) -> Vec<Edit> {
    let mut edits = Vec::new();
    while !bytes.is_empty() {
        let (change, after) = read_record(bytes).unwrap();
        edits.push(change);
        bytes = after;
    }
    edits
}

/// "Every record made so is accepted when run from the empty mesh." After it stand 8 vertices and N edges, each of at
/// most one turn and of the length that a plain IE writes, on a table of which all is true that is true after any
/// run.
#[test]
fn every_record_is_accepted() {
    for (start, edges) in pairs(&mut Random::new(0x7a2), 300) {
        let bytes = trial_bytes(start, edges);
        let edits = read(&bytes);
        assert_eq!(edits, trial_edits(start, edges), "reading the bytes gives the edits");
        assert_eq!(edits.iter().flat_map(|&change| record(change)).collect::<Vec<u8>>(), bytes);
        let mut table = empty_mesh();
        let run = run(&mut table, &edits);
        assert!(run.answers.iter().all(Result::is_ok), "{start} {edges}");
        assert!(live_vertices(&table).eq(0..8) && live_edges(&table).eq(0..edges as u16), "{start} {edges}");
        assert!(live_edges(&table).all(|e| turns(&table, e).abs() <= 1 && length(&table, e) == 16), "{start} {edges}");
        assert!(is_good(&table));
        let faces = run.start_faces as i64 + run.changes.iter().sum::<i64>();
        assert_eq!([boundary_circles(&table) as i64, face_count(&table) as i64], [faces; 2]);
        corners_once_and_edges_twice(&table);
        euler_numbers(&table);
        ribbons_alternate_exactly_if_they_turn_one_way(&table);
    }
}

#[test]
fn the_program_declines_no_record() {
    for (start, edges) in [(0, 0), (1, 2), (7, 300), (7, 1_024), (1 << 31, 1_024), (u32::MAX, 1_023)] {
        let report = job(&trial_bytes(start, edges));
        assert!(report.starts_with(&format!("mesh 8 {edges} ")), "{start} {edges}");
    }
}

/// The call declines an output of this size with this number, and all of its bytes are kept.
fn declines(start: u32, edges: u32, size: usize, refusal: Refusal) {
    let mut out = vec![0xa5; size];
    assert_eq!(trial_job(start, edges, &mut out), Err(refusal), "{start} {edges} into {size} bytes");
    assert!(out.iter().all(|&byte| byte == 0xa5));
}

/// "13, N above 1,024; otherwise 7 for an output shorter than 32 + 10N bytes, and never anything else."
#[test]
fn many_edges_go_before_a_short_output() {
    for edges in [1_025, 1_026, 65_535, 65_536, 65_537, 1 << 31, u32::MAX] {
        for size in [0, 31, 32, 42, 10_272, 10_282, 70_000] {
            declines(7, edges, size, ManyEdges);
        }
    }
    for (edges, exact) in [(0, 32), (1, 42), (2, 52), (9, 122)] {
        for size in 0..exact {
            declines(7, edges, size, ShortSlice);
        }
    }
    for (edges, exact) in [(300, 3_032), (1_023, 10_262), (1_024, 10_272)] {
        for size in [0, 32, exact - 10, exact - 1] {
            declines(u32::MAX, edges, size, ShortSlice);
        }
    }
}

#[test]
fn a_longer_output_keeps_its_rest() {
    for (edges, exact) in [(0, 32), (1, 42), (2, 52), (1_024, 10_272)] {
        for more in [0, 1, 9, 10, 500] {
            let mut out = vec![0xa5; exact + more];
            assert_eq!(trial_job(1, edges, &mut out), Ok(exact));
            assert_eq!(out[..exact], second_way(Right, 1, edges));
            assert!(out[exact..].iter().all(|&byte| byte == 0xa5), "{more} bytes more");
        }
    }
}
