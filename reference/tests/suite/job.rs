//! The job program.

use reference::counts::counts;
use reference::edit::Edit;
use reference::job::{job, read_record, record, record_with_length};
use reference::run::run;
use reference::table::empty_mesh;
use reference::trial::jobs::{random_edits, random_job, random_record};
use reference::trial::random::Random;
use reference::weave::plain;

fn bytes(hex: &str) -> Vec<u8> {
    hex.split_whitespace().map(|b| u8::from_str_radix(b, 16).unwrap()).collect()
}

#[test]
fn the_printed_example() {
    let input = bytes("41 56 00 00 49 45 00 00 80 00 80 00 00 01 54 57 00 01 00 01");
    let output = "no 3 4\nmesh 1 1 1 1 1\npart 0 1 n\nwalk 0 2 0/0:O 0/1:U\nweave plain\n";
    assert_eq!(job(&input), output);
}

#[test]
fn no_input_reports_the_empty_mesh() {
    assert_eq!(job(&[]), "mesh 0 0 0 0 0\nweave plain\n");
}

#[test]
fn one_vertex_is_an_empty_walk() {
    assert_eq!(job(b"AV\x01\xff"), "mesh 1 0 1 1 2\npart 511 2 o\nwalk 0 0 *511\nweave plain\n");
}

#[test]
fn a_lone_byte_is_a_cut_record() {
    for lone in [b"A", b"x", b"\0"] {
        assert_eq!(job(lone), "no 1 11\nmesh 0 0 0 0 0\nweave plain\n");
    }
    assert_eq!(job(b"AV\0\0A"), "no 2 11\nmesh 1 0 1 1 2\npart 0 2 o\nwalk 0 0 *0\nweave plain\n");
}

#[test]
fn a_cut_record_ends_the_reading() {
    for cut in [&b"AV"[..], b"AV\0", b"RV\0", b"IE\0\0\x80\0\x80\0\0", b"DE", b"DE\0", b"TW\0\0\0", b"TW\0\0"] {
        assert_eq!(job(cut), "no 1 11\nmesh 0 0 0 0 0\nweave plain\n", "{cut:?}");
    }
}

#[test]
fn a_bad_mark_ends_the_reading_whatever_follows() {
    for bad in [&b"av\0\0"[..], b"XX", b"VA\0\0AV\0\0", b"A\0\0AV\0\0", b"LI\0\0\0\0\0\0\0\0\0\0", b"ie", b"il", b"IT"]
    {
        assert_eq!(job(bad), "no 1 10\nmesh 0 0 0 0 0\nweave plain\n", "{bad:?}");
    }
    assert_eq!(job(b"AV\0\0??AV\0\x01"), "no 2 10\nmesh 1 0 1 1 2\npart 0 2 o\nwalk 0 0 *0\nweave plain\n");
}

#[test]
fn reading_goes_on_after_a_declined_edit() {
    let output = job(b"RV\0\0AV\x02\0AV\0\0AV\0\0");
    assert_eq!(output, "no 1 4\nno 2 2\nno 4 3\nmesh 1 0 1 1 2\npart 0 2 o\nwalk 0 0 *0\nweave plain\n");
}

#[test]
fn words_are_high_byte_first_and_turns_in_twos_complement() {
    // A loop of turns -2 has two walks of one step, under and then over; then an amount of -97 and one of -1.
    let loop_of_minus_2 = b"AV\0\0IE\x01\x02\x80\0\x80\0\xff\xfe";
    let output = "mesh 1 1 2 1 2\npart 0 2 o\nwalk 0 1 516/0:UO\nwalk 1 1 517/0:UO\nweave plain\n";
    assert_eq!(job(loop_of_minus_2), output);
    let mut further = loop_of_minus_2.to_vec();
    further.extend(b"TW\x01\x02\xff\x9fTW\x01\x02\xff\xff");
    assert!(job(&further).starts_with("no 4 6\nmesh 1 1 1 1 1\n"), "-2 - 97 is -99, and -99 - 1 is too far");
}

#[test]
fn an_edge_without_turns_has_no_letters() {
    let output = "mesh 2 1 1 1 2\npart 3 2 o\nwalk 0 2 0/0: 1/0:\nweave plain\n";
    assert_eq!(job(b"AV\0\x03AV\0\x05IE\0\0\x80\x03\x80\x05\0\0"), output);
}

#[test]
fn parts_come_upward_and_isolated_vertices_last_among_the_walks() {
    let input = b"AV\0\x09AV\0\x01AV\0\x04IE\0\x07\x80\x09\x80\x09\0\x03";
    let output = "mesh 3 1 3 3 5\npart 1 2 o\npart 4 2 o\npart 9 1 n\n\
                  walk 0 2 14/0:OUO 14/1:UOU\nwalk 1 0 *1\nwalk 2 0 *4\nweave plain\n";
    assert_eq!(job(input), output);
}

/// Edge 3 with turns -2 into corners 32,768 and 5, of length 1,000: "Record IL is IE with one more word, the last, for
/// the length".
#[test]
fn the_bytes_of_an_insertion() {
    let of = |length: u16| Edit::InsertEdge { e: 3, c1: 32_768, c2: 5, k: -2, length };
    let (plain, long) = (b"IE\0\x03\x80\0\0\x05\xff\xfe", b"IL\0\x03\x80\0\0\x05\xff\xfe\x03\xe8");
    assert_eq!(read_record(plain), Ok((of(16), &b""[..])), "a plain IE writes 16");
    assert_eq!(read_record(long), Ok((of(1_000), &b""[..])));
    assert_eq!(
        read_record(b"IE\0\x03\x80\0\0\x05\xff\xfe\x03\xe8"),
        Ok((of(16), &b"\x03\xe8"[..])),
        "not a word of it"
    );
    assert_eq!((record(of(16)), record(of(1_000))), (plain.to_vec(), long.to_vec()));
    let with_16 = b"IL\0\x03\x80\0\0\x05\xff\xfe\0\x10";
    assert_eq!((record_with_length(of(16)), read_record(with_16)), (with_16.to_vec(), Ok((of(16), &b""[..]))));
}

/// Document 01's example with its loop of another length: what it prints is the same.
#[test]
fn a_length_is_not_printed() {
    let output = "no 3 4\nmesh 1 1 1 1 1\npart 0 1 n\nwalk 0 2 0/0:O 0/1:U\nweave plain\n";
    for length in ["00 01", "00 10", "03 e8", "80 00", "ff ff"] {
        let input = format!("41 56 00 00 49 4c 00 00 80 00 80 00 00 01 {length} 54 57 00 01 00 01");
        assert_eq!(job(&bytes(&input)), output);
    }
}

/// An IL of length 0 is declined with 9 where nothing else is amiss, and reading goes on behind all of its words.
#[test]
fn a_length_of_0_in_a_job() {
    let input = b"AV\0\0IL\0\0\x80\0\x80\0\0\x01\0\0IL\0\0\x80\0\x80\0\0\x64\0\0IL\0\0\x80\0\x80\x01\0\x01\0\0\
                  IE\0\0\x80\0\x80\0\0\x01IL\0\0\0\0\0\0\0\0\0\0IL\x04\0\0\0\0\0\0\0\0\0";
    let output =
        "no 2 9\nno 3 6\nno 4 4\nno 6 3\nno 7 2\nmesh 1 1 1 1 1\npart 0 1 n\nwalk 0 2 0/0:O 0/1:U\nweave plain\n";
    assert_eq!(job(input), output);
}

/// Fewer bytes than the record needs, from one byte of its mark to all but one of its twelve; ten would be a whole IE.
#[test]
fn a_cut_il() {
    let whole = b"AV\0\0IL\0\0\x80\0\x80\0\0\x01\0\x10";
    for end in 5..16 {
        let output = "no 2 11\nmesh 1 0 1 1 2\npart 0 2 o\nwalk 0 0 *0\nweave plain\n";
        assert_eq!(job(&whole[..end]), output, "{end} bytes");
    }
    assert_eq!(job(whole), "mesh 1 1 1 1 1\npart 0 1 n\nwalk 0 2 0/0:O 0/1:U\nweave plain\n");
}

/// A job of random edits prints what the calls answer on the table after the run.
#[test]
fn a_job_is_a_run() {
    let mut random = Random::new(0x10b);
    for _ in 0..150 {
        let count = random.below(80);
        let edits = random_edits(&mut random, count);
        let mut table = empty_mesh();
        let run = run(&mut table, &edits);
        let mut lines = Vec::new();
        for (i, answer) in run.answers.iter().enumerate() {
            lines.extend(answer.err().map(|refusal| format!("no {} {}", i + 1, refusal.number())));
        }
        let c = counts(&table).unwrap();
        lines.push(format!("mesh {} {} {} {} {}", c.vertices, c.edges, c.faces, c.parts.len(), c.euler()));
        let records: Vec<Vec<u8>> = edits.into_iter().map(|change| random_record(&mut random, change)).collect();
        let output = job(&records.concat());
        let printed: Vec<&str> = output.lines().collect();
        assert_eq!(printed[..lines.len()], lines);
        assert_eq!(printed.len(), lines.len() + c.parts.len() + c.faces + 1);
        let weave = if plain(&table).unwrap() { "weave plain" } else { "weave mixed" };
        assert_eq!(printed.last(), Some(&weave));
    }
}

/// Whatever bytes come in, the report stands at the end.
#[test]
fn any_bytes_are_answered() {
    let mut random = Random::new(0x10c);
    for _ in 0..300 {
        let count = random.below(40);
        let output = job(&random_job(&mut random, count));
        assert!(output.contains("mesh ") && output.ends_with('\n'));
        let noise: Vec<u8> = (0..random.below(30)).map(|_| random.word() as u8).collect();
        assert!(job(&noise).contains("mesh "));
    }
}
