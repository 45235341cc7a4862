//! The trial program: `trial START EDGES` writes the reference's bytes, the job program reads them from it, and arguments that are no such numbers
//! get one line on standard error.

use host::program::{trial_errors_on_a_full_disk, trial_into_job, trial_written};
use reference::job::job;
use reference::trial::random::Random;
use reference::trial_job::trial_bytes;
use std::ffi::{OsStr, OsString};
use std::os::unix::ffi::OsStrExt;

const USAGE: &str = "usage: trial START EDGES\n";
const BAD_START: &str = "trial: START is not a number from 0 to 4294967295\n";
const BAD_EDGES: &str = "trial: EDGES is not a number from 0 to 1024\n";

/// These two arguments write this job, and nothing goes to standard error.
fn writes(arguments: [&str; 2], start: u32, edges: u32) {
    let (bytes, errors) = trial_written(&arguments);
    assert_eq!(errors, "", "{arguments:?}");
    assert!(bytes == trial_bytes(start, edges), "{arguments:?}: the bytes differ");
}

/// These arguments get this one line, and nothing goes to standard output.
fn gets<A: AsRef<OsStr> + std::fmt::Debug>(arguments: &[A], line: &str) {
    let (bytes, errors) = trial_written(arguments);
    assert_eq!((bytes.as_slice(), errors.as_str()), (&b""[..], line), "{arguments:?}");
}

#[test]
fn jobs_by_two_numbers() {
    let mut random = Random::new(0xf4);
    let ends = [(0, 0), (0, 1), (1, 2), (7, 300), (9, 10), (1 << 31, 1_023), (u32::MAX, 0), (u32::MAX, 1_024)];
    let drawn: Vec<(u32, u32)> = (0..100).map(|_| (random.draw() as u32, random.below(50) as u32)).collect();
    for (start, edges) in ends.into_iter().chain(drawn) {
        writes([&start.to_string(), &edges.to_string()], start, edges);
    }
}

/// Every number of digits and every digit, in both places.
#[test]
fn digits() {
    for start in ["5", "67", "890", "1234", "56789", "987654", "1029384", "75643210", "123456789", "4294967289"] {
        writes([start, "3"], start.parse().unwrap(), 3);
    }
    for edges in ["4", "6", "8", "59", "72", "103", "999", "1000", "1019", "1020"] {
        writes(["3", edges], 3, edges.parse().unwrap());
    }
}

#[test]
fn leading_zeros() {
    writes(["00", "000"], 0, 0);
    writes(["0000000000000000000000000007", "0000000000000000000000000300"], 7, 300);
    writes(["00000000004294967295", "00000000001024"], u32::MAX, 1_024);
    // An argument of 4,096 bytes is the longest.
    let padded = |digits: &str, bytes: usize| "0".repeat(bytes - digits.len()) + digits;
    writes([&padded("7", 4_096), "2"], 7, 2);
    writes(["7", &padded("2", 4_096)], 7, 2);
    writes([&padded("4294967295", 4_096), &padded("1024", 4_096)], u32::MAX, 1_024);
    for longer in [4_097, 4_098, 8_192, 70_000] {
        gets(&[&padded("7", longer), "2"], BAD_START);
        gets(&["7", &padded("2", longer)], BAD_EDGES);
        gets(&[&padded("7", longer), &padded("2", longer)], BAD_START);
    }
}

#[test]
fn the_job_program_reads_them() {
    for (start, edges) in [(7, 300), (0, 0), (1, 2), (u32::MAX, 1_024)] {
        let report = trial_into_job(&[start.to_string(), edges.to_string()]);
        assert!(report == job(&trial_bytes(start, edges)), "{start} {edges}");
        assert!(report.starts_with(&format!("mesh 8 {edges} ")), "{start} {edges}");
    }
}

#[test]
fn not_two_arguments() {
    gets::<&str>(&[], USAGE);
    for arguments in [&["7"][..], &[""], &["x"], &["7", "300", "1"], &["7", "300", ""], &["x", "y", "z"], &["7"; 9]] {
        gets(arguments, USAGE);
    }
}

/// What is no number in either place. 2 to the 64 and to the 128 and seven more would be 7 if they wrapped.
const NO_NUMBERS: [&str; 27] = [
    "",
    " ",
    "-",
    "+",
    "-0",
    "-1",
    "+7",
    " 7",
    "7 ",
    "7\n",
    "\t7",
    "7 7",
    "7,0",
    "7.0",
    "7e2",
    "0x7",
    "7_0",
    "7u",
    "seven",
    "--help",
    "7/",
    "7:",
    "18446744073709551616",
    "18446744073709551623",
    "340282366920938463463374607431768211463",
    "\u{664}",
    "\u{ff17}",
];

#[test]
fn starts_that_are_no_numbers() {
    for bad in NO_NUMBERS {
        gets(&[bad, "300"], BAD_START);
    }
    // 2 to the 32, and that and seven more; one digit more than the largest.
    for past in ["4294967296", "4294967303", "9999999999", "42949672950", "9223372036854775807", "9223372036854775808"]
    {
        gets(&[past, "300"], BAD_START);
        gets(&[&("000".to_string() + past), "300"], BAD_START);
    }
}

#[test]
fn edges_that_are_no_numbers() {
    for bad in NO_NUMBERS {
        gets(&["7", bad], BAD_EDGES);
    }
    // 2 to the 16 and to the 32, and those and three more.
    for past in
        ["1025", "1026", "2000", "10240", "65536", "65539", "4294967295", "4294967296", "4294967299", "9999999999"]
    {
        gets(&["7", past], BAD_EDGES);
        gets(&["7", &("000".to_string() + past)], BAD_EDGES);
    }
}

/// Bytes that are no text, digits before and behind them.
#[test]
fn bytes_that_are_no_text() {
    for bytes in [&b"\xff"[..], b"7\xff", b"\x807", b"\xb7", b"7\xb0"] {
        let bad = OsStr::from_bytes(bytes).to_os_string();
        gets(&[bad.clone(), OsString::from("300")], BAD_START);
        gets(&[OsString::from("7"), bad], BAD_EDGES);
    }
}

/// START is tested first, and one line is printed.
#[test]
fn both_are_no_numbers() {
    for (start, edges) in [("x", "y"), ("", ""), ("4294967296", "1025"), ("-7", "-300"), ("7.5", "1025")] {
        gets(&[start, edges], BAD_START);
    }
}

#[test]
fn a_full_disk() {
    for arguments in [["7", "300"], ["0", "0"], ["4294967295", "1024"]] {
        assert_eq!(
            trial_errors_on_a_full_disk(&arguments),
            "standard output: No space left on device\n",
            "{arguments:?}"
        );
    }
    // Nothing is written where an argument is wrong.
    assert_eq!(trial_errors_on_a_full_disk(&["7", "1025"]), BAD_EDGES);
    assert_eq!(trial_errors_on_a_full_disk(&["7"]), USAGE);
}
