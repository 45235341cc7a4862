//! How the job program reads and writes: reports that take several windows, jobs that take several reads with records cut
//! between them, and streams that fail. What it prints is compared whole with what the reference prints.

use host::program::{errors_on_a_full_disk, printed, printed_by_pieces, printed_from_a_file, where_input_is_a_folder};
use reference::edit::Edit;
use reference::job::{job, record, PLAIN_LENGTH};
use reference::table::{EDGES, MOST_TURNS, VERTICES};
use reference::trial::edits::{random_edit, WINDOWS};
use reference::trial::jobs::random_record;
use reference::trial::random::Random;

/// The program prints its report so many bytes at a time, and reads a job so many bytes at a time.
const WINDOW: usize = 65_536;
const BLOCK: usize = 4_096;

/// The chain's first vertex: the names before it are left for isolated vertices.
const FIRST: u16 = 100;

/// A mesh that is one long ribbon: a chain of edges and, where the vertices are used up, loops in its first corner, all
/// with these turns, which are odd, and beside it vertices of these names.
fn long_ribbon(edges: usize, turns: impl Fn(usize) -> i16, isolated: &[u16]) -> Vec<u8> {
    let chain = edges.min(VERTICES - usize::from(FIRST) - 1) as u16;
    let lone = |v: u16| 32_768 + v;
    let mut edits: Vec<Edit> = (FIRST..=FIRST + chain).map(|v| Edit::AddVertex { v }).collect();
    for e in 0..edges as u16 {
        let (c1, c2) = match e {
            0 => (lone(FIRST), lone(FIRST + 1)),
            _ if e < chain => (2 * e - 1, lone(FIRST + 1 + e)),
            _ => (0, 0),
        };
        edits.push(Edit::InsertEdge { e, c1, c2, k: turns(usize::from(e)), length: PLAIN_LENGTH });
    }
    edits.extend(isolated.iter().map(|&v| Edit::AddVertex { v }));
    edits.into_iter().flat_map(record).collect()
}

/// The edges that are turned until a report has the size that is asked for, and how often by two turns.
const TUNED: usize = 3;
const TIMES: usize = 49;

/// All of the ribbon's edges with the most turns but the tuned ones, which have one turn and so many times two more.
fn tuned_ribbon(edges: usize, times: usize, isolated: &[u16]) -> Vec<u8> {
    let own = |e: usize| times.saturating_sub(e * TIMES).min(TIMES) as i16;
    long_ribbon(edges, |e| if e < TUNED { 1 + 2 * own(e) } else { MOST_TURNS as i16 }, isolated)
}

/// A job without a declined edit whose report has exactly so many bytes. Two turns more are four letters more, since each edge is
/// passed twice; what is left over comes from isolated vertices, whose names and whose walks' indices have one digit or two.
fn job_with_a_report_of(size: usize) -> Vec<u8> {
    let mut edges = size / 214;
    while job(&tuned_ribbon(edges, TUNED * TIMES, &[])).len() < size {
        edges += 1;
    }
    for (ones, twos) in (0..10).flat_map(|ones| [0, 1, 2].map(|twos| (ones, twos))) {
        let isolated: Vec<u16> = (0..ones).chain(10..10 + twos).collect();
        let missing = size.wrapping_sub(job(&tuned_ribbon(edges, 0, &isolated)).len());
        if missing % 4 == 0 && missing / 4 <= TUNED * TIMES {
            let found = tuned_ribbon(edges, missing / 4, &isolated);
            assert_eq!(job(&found).len(), size);
            return found;
        }
    }
    panic!("no job with a report of {size} bytes");
}

#[test]
fn reports_around_whole_windows() {
    for windows in 1..=3 {
        for size in [windows * WINDOW - 1, windows * WINDOW, windows * WINDOW + 1] {
            let input = job_with_a_report_of(size);
            let report = printed(&input, input.len());
            assert!(report == job(&input), "a report of {size} bytes, {} printed", report.len());
        }
    }
}

/// Every edge with the most turns: some 200,000 letters.
#[test]
fn the_report_of_a_full_table() {
    let input = long_ribbon(EDGES, |_| MOST_TURNS as i16, &(0..FIRST).collect::<Vec<_>>());
    let expected = job(&input);
    assert!(expected.len() > 3 * WINDOW && expected.starts_with("mesh 512 1024 "), "{} bytes", expected.len());
    assert!(printed(&input, input.len()) == expected);
}

/// A declined edit on each side of long reports: the lines come before the report, which is whole.
#[test]
fn lines_before_a_long_report() {
    let mut input = record(Edit::DeleteEdge { e: 0 });
    input.extend(job_with_a_report_of(WINDOW));
    input.extend(record(Edit::AddVertex { v: FIRST }));
    let expected = job(&input);
    assert!(expected.starts_with("no 1 4\nno "), "{}", &expected[..40]);
    assert!(printed(&input, input.len()) == expected);
}

/// Edits over a small mesh, so many bytes of them at least; some are declined. Insertions are IE and IL.
fn edits_of(random: &mut Random, bytes: usize) -> Vec<u8> {
    let mut table = reference::table::empty_mesh();
    let mut input = Vec::new();
    while input.len() < bytes {
        let edit = random_edit(random, &table, WINDOWS[1], 10);
        let _ = reference::edit::edit(&mut table, edit);
        input.extend(random_record(random, edit));
    }
    input
}

/// Records of exactly so many bytes, an even number: vertex 0 added, at first and again, and turns of an edge that is
/// not there.
fn filled(bytes: usize) -> Vec<u8> {
    let add = record(Edit::AddVertex { v: 0 });
    let turn = record(Edit::TurnEdge { e: 9, amount: -1 });
    let mut input = add.clone();
    while input.len() < bytes {
        // Six bytes, or four where a multiple of six would go past the place.
        let six = (bytes - input.len()) % 4 != 0;
        input.extend(if six { &turn } else { &add });
    }
    assert_eq!(input.len(), bytes);
    input
}

/// From a file a block ends at a multiple of the program's buffer. In front of an insertion, an IE or an IL, stands
/// so much that it is cut there at each of its places; then comes more than a block. The file ends after all of it,
/// or within the insertion, after each of its bytes.
#[test]
fn insertions_cut_at_the_end_of_a_block() {
    let mut random = Random::new(0xb10c);
    let rest = edits_of(&mut random, 2 * BLOCK);
    for (length, size) in [(PLAIN_LENGTH, 10), (1_000, 12), (0, 12)] {
        let insert = record(Edit::InsertEdge { e: 0, c1: 32_768, c2: 32_768, k: 3, length });
        assert_eq!(insert.len(), size);
        for before in (0..=size).step_by(2) {
            let input = [filled(BLOCK - before), insert.clone(), rest.clone()].concat();
            let expected = job(&input);
            assert_eq!(printed_from_a_file(&input), expected, "{before} bytes of it in the first block");
            for end in BLOCK - before..=BLOCK - before + size {
                assert_eq!(printed_from_a_file(&input[..end]), job(&input[..end]), "cut after {end} bytes");
            }
        }
    }
}

#[test]
fn jobs_in_pieces_of_odd_sizes() {
    let mut random = Random::new(0x0dd);
    let input = edits_of(&mut random, 10 * BLOCK);
    let expected = job(&input);
    assert_eq!(printed_from_a_file(&input), expected);
    for pieces in [
        &[1, 2, 3, 5, 7, 11, 13][..],
        &[9],
        &[BLOCK - 1],
        &[BLOCK + 1],
        &[BLOCK, 1],
        &[101, BLOCK - 3, 999],
        &[3 * BLOCK + 5],
    ] {
        assert_eq!(printed_by_pieces(&input, pieces), expected, "in pieces of {pieces:?}");
    }
    for _ in 0..20 {
        let pieces: Vec<usize> = (0..50).map(|_| 1 + random.below(2 * BLOCK)).collect();
        assert_eq!(printed_by_pieces(&input, &pieces), expected, "in pieces of {pieces:?}");
    }
}

const DISK_FULL: &str = "standard output: No space left on device\n";

#[test]
fn input_that_cannot_be_read() {
    let (output, errors) = where_input_is_a_folder();
    assert_eq!((output.as_str(), errors.as_str()), ("", "standard input: Is a directory\n"));
}

/// Two declined edits: the first line cannot be written, and that ends the program.
#[test]
fn a_full_disk_at_the_line_of_a_declined_edit() {
    let declined = record(Edit::RemoveVertex { v: 0 }).repeat(2);
    assert_eq!(errors_on_a_full_disk(&declined), DISK_FULL);
}

/// A lone byte is a cut record, and its line comes after the reading.
#[test]
fn a_full_disk_at_the_line_of_a_cut_record() {
    assert_eq!(errors_on_a_full_disk(b"A"), DISK_FULL);
}

#[test]
fn a_full_disk_at_the_report() {
    assert_eq!(errors_on_a_full_disk(b""), DISK_FULL);
    assert_eq!(errors_on_a_full_disk(&record(Edit::AddVertex { v: 0 })), DISK_FULL);
    assert_eq!(errors_on_a_full_disk(&job_with_a_report_of(2 * WINDOW + 1)), DISK_FULL);
}
