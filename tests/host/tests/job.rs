//! The job program: what it prints is what the reference prints, for whole, damaged and cut jobs, for noise, and for long
//! jobs. How it reads and writes is in job_streams.rs.

use host::program::printed;
use reference::edit::Edit;
use reference::job::{job, record, record_with_length};
use reference::table::{empty_mesh, EDGES, VERTICES};
use reference::trial::edits::{random_edit, Window, WINDOWS};
use reference::trial::jobs::{random_edits, random_job, random_record};
use reference::trial::random::Random;

fn compare(input: &[u8]) {
    assert_eq!(printed(input, input.len().max(100)), job(input), "{input:02x?}");
}

#[test]
fn the_printed_example() {
    let input = b"AV\0\0IE\0\0\x80\0\x80\0\0\x01TW\0\x01\0\x01";
    let output = "no 3 4\nmesh 1 1 1 1 1\npart 0 1 n\nwalk 0 2 0/0:O 0/1:U\nweave plain\n";
    assert_eq!(printed(input, 100), output);
    assert_eq!(printed(input, 1), output);
}

#[test]
fn no_bytes_at_all() {
    assert_eq!(printed(b"", 100), "mesh 0 0 0 0 0\nweave plain\n");
}

#[test]
fn every_cut_of_a_job() {
    let mut whole = Vec::new();
    for edit in random_edits(&mut Random::new(0xc07), 6) {
        whole.extend(record(edit));
    }
    for end in 0..=whole.len() {
        compare(&whole[..end]);
    }
}

/// An IE and ILs of several lengths, cut after each byte. Of an IL the first ten bytes would be a whole IE; twelve
/// are needed.
#[test]
fn every_cut_of_an_insertion() {
    let insert = |length: u16| Edit::InsertEdge { e: 0, c1: 32_768, c2: 32_768, k: 1, length };
    let add = record(Edit::AddVertex { v: 0 });
    let inserted = "mesh 1 1 1 1 1\npart 0 1 n\nwalk 0 2 0/0:O 0/1:U\nweave plain\n";
    let before = "mesh 1 0 1 1 2\npart 0 2 o\nwalk 0 0 *0\nweave plain\n";
    let longs = [1, 16, 1_000, 65_535].map(|length| (record_with_length(insert(length)), 12));
    for (insertion, size) in longs.into_iter().chain([(record(insert(16)), 10)]) {
        assert_eq!(insertion.len(), size);
        let whole = [add.clone(), insertion].concat();
        for end in 5..whole.len() {
            assert_eq!(printed(&whole[..end], 100), format!("no 2 11\n{before}"), "{end} bytes of {whole:02x?}");
        }
        assert_eq!(printed(&whole, 100), inserted, "{whole:02x?}");
        assert_eq!(printed(&whole, 1), inserted, "{whole:02x?}");
    }
}

/// An IL of length 0 is declined with 9, after 2, 3, 4 and 6, and reading goes on behind its last word.
#[test]
fn insertions_without_a_length() {
    let none = |e: u16, c2: u16, k: i16| record(Edit::InsertEdge { e, c1: 32_768, c2, k, length: 0 });
    let job = [
        record(Edit::AddVertex { v: 0 }),
        none(0, 32_768, 1),
        none(0, 32_768, 100),
        none(0, 32_769, 1),
        none(1_024, 32_768, 1),
        record(Edit::InsertEdge { e: 0, c1: 32_768, c2: 32_768, k: 1, length: 16 }),
        none(0, 0, 1),
        record(Edit::AddVertex { v: 1 }),
    ];
    let no = "no 2 9\nno 3 6\nno 4 4\nno 5 2\nno 7 3\n";
    let report = "mesh 2 1 2 2 3\npart 0 1 n\npart 1 2 o\nwalk 0 2 0/0:O 0/1:U\nwalk 1 0 *1\nweave plain\n";
    for piece in [1, 7, 12, 100] {
        assert_eq!(printed(&job.concat(), piece), format!("{no}{report}"));
    }
}

#[test]
fn random_jobs_whole_and_damaged() {
    let mut random = Random::new(0x10b5);
    let (mut bad, mut cut, mut read_through) = (0, 0, 0);
    for round in 0..2_500 {
        let count = random.below(if round % 50 == 0 { 400 } else { 40 });
        let input = random_job(&mut random, count);
        let expected = job(&input);
        let size = if round % 10 == 0 { 1 + random.below(20) } else { input.len().max(100) };
        assert_eq!(printed(&input, size), expected, "{input:02x?}");
        let last = expected.lines().filter(|line| line.starts_with("no ")).last().unwrap_or("");
        match last.rsplit(' ').next() {
            Some("10") => bad += 1,
            Some("11") => cut += 1,
            _ => read_through += 1,
        }
    }
    assert!(bad > 100 && cut > 100 && read_through > 100, "{bad} {cut} {read_through}");
}

#[test]
fn noise() {
    let mut random = Random::new(0x9015e);
    for _ in 0..300 {
        let bytes: Vec<u8> = (0..random.below(30)).map(|_| random.word() as u8).collect();
        compare(&bytes);
    }
}

/// Records that build on each other: each is drawn for the table that those before it left. Insertions are IE and IL.
fn long_job(random: &mut Random, window: Window, records: usize) -> Vec<u8> {
    let mut table = empty_mesh();
    let mut input = Vec::new();
    let mut growth = 10;
    for i in 0..records {
        if i % 1_000 == 999 {
            growth = random.pick(&[10, 10, 5, 0]);
        }
        let edit = random_edit(random, &table, window, growth);
        let _ = reference::edit::edit(&mut table, edit);
        input.extend(random_record(random, edit));
    }
    input
}

#[test]
fn jobs_that_build_large_meshes() {
    let mut random = Random::new(0xb16);
    for window in [WINDOWS[2], Window { vertices: VERTICES, edges: EDGES }] {
        for records in [700, 4_000] {
            compare(&long_job(&mut random, window, records));
        }
    }
}

/// 100,000 records: small edits over a small mesh, so that the reference is quick too.
#[test]
fn a_job_of_a_hundred_thousand_records() {
    let mut random = Random::new(0x100_000);
    let input = long_job(&mut random, WINDOWS[1], 100_000);
    compare(&input);
    let mut cut = input;
    cut.truncate(cut.len() - 1);
    compare(&cut);
}
