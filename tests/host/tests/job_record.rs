//! planner_job_record: the bytes of the reference's records for every mark, with every number in every place, nothing written past them, the two
//! refusals in their order; records read back; and jobs written record by record, which the job program runs. Bytes by hand are in
//! tests/c/arguments.c.

use host::guarded::Guarded;
use host::planner::{self, Numbers};
use host::program::printed;
use reference::edit::Edit;
use reference::job::{job, read_record, record, record_with_length, PLAIN_LENGTH};
use reference::refusal::Refusal;
use reference::trial::jobs::random_edits;
use reference::trial::random::Random;

const GUARD: u8 = 0xa5;

const AV: u16 = 0x4156;
const RV: u16 = 0x5256;
const IE: u16 = 0x4945;
const IL: u16 = 0x494c;
const DE: u16 = 0x4445;
const TW: u16 = 0x5457;
const MARKS: [u16; 6] = [AV, RV, IE, IL, DE, TW];

/// Numbers at the ends of the ranges, and those with one byte of zeros or of ones.
const WORDS: [u16; 9] = [0, 1, 255, 256, 32_767, 32_768, 65_280, 65_534, 65_535];
const TURNS: [i16; 11] = [0, 1, -1, 99, -99, 255, 256, -256, -257, i16::MAX, i16::MIN];
const LENGTHS: [u16; 6] = [0, 1, 16, 255, 256, 65_535];

const ZEROS: Numbers = Numbers { name: 0, c1: 0, c2: 0, k: 0, length: 0 };

fn drawn(random: &mut Random) -> Numbers {
    let [name, c1, c2, k, length] = [(); 5].map(|()| random.word());
    Numbers { name, c1, c2, k: k as i16, length }
}

/// What a mark says, "AV v; RV v; IE e c1 c2 k; DE e; TW e amount" and IL, and none for any other. "a plain IE writes
/// 16".
fn edit_of(mark: u16, n: Numbers) -> Option<Edit> {
    let insert = |length: u16| Edit::InsertEdge { e: n.name, c1: n.c1, c2: n.c2, k: n.k, length };
    match &mark.to_be_bytes() {
        b"AV" => Some(Edit::AddVertex { v: n.name }),
        b"RV" => Some(Edit::RemoveVertex { v: n.name }),
        b"IE" => Some(insert(PLAIN_LENGTH)),
        b"IL" => Some(insert(n.length)),
        b"DE" => Some(Edit::DeleteEdge { e: n.name }),
        b"TW" => Some(Edit::TurnEdge { e: n.name, amount: n.k }),
        _ => None,
    }
}

/// The reference's record with this mark, if it is one.
fn bytes_of(mark: u16, n: Numbers) -> Option<Vec<u8>> {
    let write = if mark == IL { record_with_length } else { record };
    edit_of(mark, n).map(write)
}

/// "A record is a two-byte mark, then 16-bit words": one for a vertex or a deletion, two for a turn, four for an
/// insertion, and "one more word, the last, for the length".
fn size(mark: u16) -> usize {
    match &mark.to_be_bytes() {
        b"IL" => 12,
        b"IE" => 10,
        b"TW" => 6,
        _ => 4,
    }
}

/// What has to be answered: 10 for a mark that is none, otherwise 7 for an output that is shorter than the record.
fn expected(mark: u16, n: Numbers, out: &mut [u8]) -> Result<usize, Refusal> {
    let bytes = bytes_of(mark, n).ok_or(Refusal::BadMark)?;
    let front = out.get_mut(..bytes.len()).ok_or(Refusal::ShortSlice)?;
    front.copy_from_slice(&bytes);
    Ok(bytes.len())
}

/// The call over an output of this size agrees with what is expected, in the answer and in every byte, those past the record too.
fn compare(mark: u16, n: Numbers, room: usize) -> i64 {
    let mut lent = Guarded::new(&vec![GUARD; room], GUARD);
    let answer = planner::job_record(mark, n, lent.slice_mut());
    lent.assert_guards();
    let mut bytes = vec![GUARD; room];
    let expected_answer = planner::as_number(expected(mark, n, &mut bytes));
    assert_eq!(answer, expected_answer, "{mark:04x} {n:?} into {room} bytes");
    assert_eq!(lent.slice(), bytes, "{mark:04x} {n:?} into {room} bytes");
    answer
}

/// The mark of an edit, and the numbers that it has; the others are drawn, for they are not looked at. An insertion
/// of length 16 is an IE.
fn taken_apart(random: &mut Random, change: Edit) -> (u16, Numbers) {
    let other = drawn(random);
    match change {
        Edit::AddVertex { v } => (AV, Numbers { name: v, ..other }),
        Edit::RemoveVertex { v } => (RV, Numbers { name: v, ..other }),
        Edit::InsertEdge { e, c1, c2, k, length: PLAIN_LENGTH } => (IE, Numbers { name: e, c1, c2, k, ..other }),
        Edit::InsertEdge { e, c1, c2, k, length } => (IL, Numbers { name: e, c1, c2, k, length }),
        Edit::DeleteEdge { e } => (DE, Numbers { name: e, ..other }),
        Edit::TurnEdge { e, amount } => (TW, Numbers { name: e, k: amount, ..other }),
    }
}

/// A plain insertion as an IL, every second time.
fn at_times_with_length(random: &mut Random, (mark, n): (u16, Numbers)) -> (u16, Numbers) {
    if mark == IE && random.once_in(2) {
        (IL, Numbers { length: PLAIN_LENGTH, ..n })
    } else {
        (mark, n)
    }
}

/// A job as a host writes it: one call for each edit, each into the rest of one output, which they fill.
fn written(calls: &[(u16, Numbers)]) -> Vec<u8> {
    let whole = calls.iter().map(|&(mark, _)| size(mark)).sum();
    let mut lent = Guarded::new(&vec![GUARD; whole], GUARD);
    let mut at = 0;
    for &(mark, n) in calls {
        let answer = planner::job_record(mark, n, &mut lent.slice_mut()[at..]);
        assert_eq!(answer, size(mark) as i64, "{mark:04x} {n:?} at {at}");
        at += answer as usize;
    }
    lent.assert_guards();
    assert_eq!(at, whole);
    lent.slice().to_vec()
}

/// Document 01's job of three records, and what it prints.
#[test]
fn the_printed_example() {
    let calls = [
        (AV, ZEROS),
        (IE, Numbers { c1: 32_768, c2: 32_768, k: 1, ..ZEROS }),
        (TW, Numbers { name: 1, k: 1, ..ZEROS }),
    ];
    let bytes = written(&calls);
    assert_eq!(bytes, b"\x41\x56\0\0\x49\x45\0\0\x80\0\x80\0\0\x01\x54\x57\0\x01\0\x01");
    assert_eq!(printed(&bytes, 100), "no 3 4\nmesh 1 1 1 1 1\npart 0 1 n\nwalk 0 2 0/0:O 0/1:U\nweave plain\n");
}

/// The two records of an insertion by hand: edge 258 with turns -2 from corner 32,769 to corner 5. The IE does not
/// look at the length, and the IL writes it as it is, also a length of 0, which the insertion would decline.
#[test]
fn the_bytes_of_an_insertion() {
    let n = |length: u16| Numbers { name: 258, c1: 32_769, c2: 5, k: -2, length };
    for length in LENGTHS {
        assert_eq!(written(&[(IE, n(length))]), b"IE\x01\x02\x80\x01\0\x05\xff\xfe");
    }
    for (length, word) in [(0, b"\0\0"), (1, b"\0\x01"), (16, b"\0\x10"), (1_000, b"\x03\xe8"), (65_535, b"\xff\xff")] {
        let bytes = [&b"IL\x01\x02\x80\x01\0\x05\xff\xfe"[..], word].concat();
        assert_eq!(written(&[(IL, n(length))]), bytes);
    }
}

#[test]
fn the_ends_of_the_ranges() {
    for mark in MARKS {
        for name in WORDS {
            for c1 in WORDS {
                for c2 in WORDS {
                    for (k, length) in TURNS.iter().flat_map(|&k| LENGTHS.map(|length| (k, length))) {
                        let n = Numbers { name, c1, c2, k, length };
                        assert_eq!(compare(mark, n, size(mark)), size(mark) as i64);
                    }
                }
            }
        }
    }
}

#[test]
fn drawn_numbers() {
    let mut random = Random::new(0x4ec1);
    for _ in 0..20_000 {
        for mark in MARKS {
            let n = drawn(&mut random);
            assert_eq!(compare(mark, n, size(mark)), size(mark) as i64);
        }
    }
}

/// Any name, corner, k and length is written as it is: each of them through all its values, the others drawn.
#[test]
fn every_number_in_every_place() {
    let mut random = Random::new(0x4ec2);
    for mark in MARKS {
        for word in 0..=u16::MAX {
            let n = drawn(&mut random);
            for n in [
                Numbers { name: word, ..n },
                Numbers { c1: word, ..n },
                Numbers { c2: word, ..n },
                Numbers { k: word as i16, ..n },
                Numbers { length: word, ..n },
            ] {
                assert_eq!(compare(mark, n, 14), size(mark) as i64);
            }
        }
    }
}

/// Of all 65,536 marks six are accepted. 10 comes before 7: whatever the output is, and its bytes are kept.
#[test]
fn all_marks() {
    let mut random = Random::new(0x4ec3);
    let mut accepted = Vec::new();
    for mark in 0..=u16::MAX {
        let n = drawn(&mut random);
        if compare(mark, n, 12) >= 0 {
            accepted.push(mark);
            continue;
        }
        for room in [0, 1, 2, 3, 4, 5, 6, 9, 10, 11, 12, 13, 64] {
            assert_eq!(compare(mark, n, room), -10);
        }
        assert_eq!(compare(mark, ZEROS, 12), -10);
        assert_eq!(planner::job_record_null(mark, n), -10);
    }
    let mut marks = MARKS;
    marks.sort();
    assert_eq!(accepted, marks);
}

/// 7 if the record does not fit, and the bytes are kept; a longer output keeps its rest.
#[test]
fn every_size_of_output() {
    let mut random = Random::new(0x4ec4);
    for mark in MARKS {
        for room in (0..=14).chain([16, 20, 255, 256, 65_535, 65_536, 65_540, 70_000]) {
            let wanted = if room < size(mark) { -7 } else { size(mark) as i64 };
            for n in [ZEROS, drawn(&mut random), drawn(&mut random), drawn(&mut random)] {
                assert_eq!(compare(mark, n, room), wanted);
            }
        }
        assert_eq!(planner::job_record_null(mark, ZEROS), -7);
    }
}

/// The reference reads an edit from the record that was written for it, and all that stands behind it stays.
#[test]
fn records_read_back() {
    let mut random = Random::new(0x4ec5);
    for round in 0..20_000 {
        for mark in MARKS {
            let n = drawn(&mut random);
            let mut out = vec![GUARD; size(mark) + round % 4];
            planner::job_record(mark, n, &mut out);
            let (change, rest) = read_record(&out).unwrap();
            assert_eq!(Some(change), edit_of(mark, n));
            assert_eq!(rest, &vec![GUARD; round % 4]);
        }
    }
}

/// Edits that build on each other, written by the calls: the bytes are the reference's, and the program prints what the reference prints.
#[test]
fn the_job_program_runs_them() {
    let mut random = Random::new(0x4ec6);
    let (mut kinds, mut declined, mut walks) = ([0; 6], 0, 0);
    for round in 0..400 {
        let count = if round % 40 == 0 { 1_000 } else { random.below(60) };
        let edits = random_edits(&mut random, count);
        let mut call = |change: Edit| {
            let plainly = taken_apart(&mut random, change);
            at_times_with_length(&mut random, plainly)
        };
        let calls: Vec<(u16, Numbers)> = edits.iter().map(|&change| call(change)).collect();
        let bytes = written(&calls);
        assert_eq!(bytes, calls.iter().flat_map(|&(mark, n)| bytes_of(mark, n).unwrap()).collect::<Vec<u8>>());
        let report = printed(&bytes, bytes.len().max(100));
        assert_eq!(report, job(&bytes), "{edits:?}");
        for (mark, _) in calls {
            kinds[MARKS.iter().position(|&m| m == mark).unwrap()] += 1;
        }
        declined += report.lines().filter(|line| line.starts_with("no ")).count();
        walks += report.lines().filter(|line| line.starts_with("walk ") && line.contains('/')).count();
    }
    assert!(kinds.iter().all(|&n| n > 1_000) && declined > 1_000 && walks > 300, "{kinds:?} {declined} {walks}");
}

/// Any numbers at all: most are declined, and every record is read.
#[test]
fn the_job_program_reads_any_numbers() {
    let mut random = Random::new(0x4ec7);
    for _ in 0..100 {
        let count = 1 + random.below(60);
        let calls: Vec<(u16, Numbers)> =
            (0..count).map(|_| (random.pick(&MARKS), drawn(&mut random))).chain([(IE, ZEROS)]).collect();
        let bytes = written(&calls);
        let report = printed(&bytes, bytes.len());
        assert_eq!(report, job(&bytes), "{calls:04x?}");
        assert!(report.contains(&format!("no {} ", count + 1)), "{calls:04x?}: the last record is declined");
    }
}

/// A trial job, its records read and written again one by one, has the same bytes.
#[test]
fn a_trial_job_record_by_record() {
    let mut random = Random::new(0x4ec8);
    for (start, edges) in [(0, 0), (7, 300), (u32::MAX, 1_024)] {
        let mut bytes = vec![GUARD; 32 + 10 * edges];
        assert_eq!(planner::trial_job(start, edges as u32, &mut bytes), bytes.len() as i64);
        let (mut rest, mut calls) = (bytes.as_slice(), Vec::new());
        while !rest.is_empty() {
            let (change, after) = read_record(rest).unwrap();
            calls.push(taken_apart(&mut random, change));
            rest = after;
        }
        assert!(written(&calls) == bytes, "{start} {edges}");
    }
}
