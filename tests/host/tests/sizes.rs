//! Every call that takes a table, over slices that are not of 8,704 words: a table of document 01's 7,680 words, one
//! that is a word short and one that has a word too many. Each answers 1, though everything else is right or though
//! everything else is amiss too, and writes nothing; over the whole table each is accepted.

use host::compare::Twins;
use host::guarded::Guarded;
use host::planner::{self, Reader, Tally, B1, B2, BEFORE};
use reference::edit::Edit;
use reference::table::{LENGTH, WORDS};
use reference::trial::random::Random;
use reference::trial::tables::random_table;
use reference::whole::Outputs;
use Beside::{Amiss, Right};

const GUARD: u16 = 0xa5c3;

/// Names, numbers and slices beside the table: all of them right for `accepted`, or amiss in as many ways as the call
/// knows.
#[derive(Clone, Copy, PartialEq, Eq)]
enum Beside {
    Right,
    Amiss,
}

impl Beside {
    /// One of two values.
    fn pick<T>(self, right: T, amiss: T) -> T {
        if self == Right {
            right
        } else {
            amiss
        }
    }
}

type Call = fn(&mut [u16], Beside) -> i64;

const CALLS: [(&str, Call); 24] = [
    ("empty", |table, _| planner::empty(table)),
    ("check", |table, _| planner::check(table)),
    ("listing", |table, beside| kept(beside, 0_u16, |out| planner::listing(table, out))),
    ("add_vertex", |table, beside| planner::edit(table, add(beside))),
    ("remove_vertex", |table, beside| planner::edit(table, remove(beside))),
    ("insert_edge", |table, beside| planner::edit(table, insert(beside))),
    ("delete_edge", |table, beside| planner::edit(table, delete(beside))),
    ("turn_edge", |table, beside| planner::edit(table, turn(beside))),
    ("ask_insert_edge", |table, beside| planner::ask(table, insert(beside))),
    ("ask_delete_edge", |table, beside| planner::ask(table, delete(beside))),
    ("ask_turn_edge", |table, beside| planner::ask(table, turn(beside))),
    ("commit_insert_edge", |table, beside| planner::commit(table, insert(beside), beside.pick(INSERTED, 0))),
    ("commit_delete_edge", |table, beside| planner::commit(table, delete(beside), beside.pick(DELETED, 0))),
    ("commit_turn_edge", |table, beside| planner::commit(table, turn(beside), beside.pick(TURNED, 0))),
    ("counts", |table, beside| kept(beside, -7, |out| planner::counts(table, out))),
    ("parts", |table, beside| kept(beside, -7, |out| planner::parts(table, out))),
    ("alternates", |table, beside| planner::alternates(table, beside.pick(0, 2_048), beside.pick(0, 2))),
    ("plain", |table, _| planner::plain(table)),
    ("letters", |table, beside| {
        kept(beside, 7_u8, |out| planner::letters(table, beside.pick(0, 2_048), beside.pick(0, 2), out))
    }),
    ("cut_length", |table, beside| planner::cut_length(table, beside.pick(0, 2_048), beside.pick(0, 2))),
    ("price_sheet", |table, beside| kept(beside, 7_u32, |out| planner::price_sheet(table, (180, 300), out))),
    ("float_path", float_path),
    ("whole_path", whole_path),
    ("walk_step", walk_step),
];

/// Vertex 0 with a loop of one turn, vertex 1 isolated: two faces. Corners 0 and 1 of the loop have the types 0 and 1.
fn accepted() -> Vec<u16> {
    Twins::with_edge(32_768, 32_768, 1).words().to_vec()
}

fn add(beside: Beside) -> Edit {
    beside.pick(Edit::AddVertex { v: 2 }, Edit::AddVertex { v: 512 })
}

fn remove(beside: Beside) -> Edit {
    beside.pick(Edit::RemoveVertex { v: 1 }, Edit::RemoveVertex { v: 512 })
}

fn insert(beside: Beside) -> Edit {
    let right = Edit::InsertEdge { e: 1, c1: 0, c2: 1, k: 1, length: 16 };
    beside.pick(right, Edit::InsertEdge { e: 0, c1: 2, c2: 2_048, k: 100, length: 0 })
}

fn delete(beside: Beside) -> Edit {
    beside.pick(Edit::DeleteEdge { e: 0 }, Edit::DeleteEdge { e: 1_024 })
}

fn turn(beside: Beside) -> Edit {
    beside.pick(Edit::TurnEdge { e: 0, amount: -1 }, Edit::TurnEdge { e: 1_024, amount: 200 })
}

/// The forecasts of these three: 0, 1 and 1 add to an even number; the loop's walk passes by dart 0 twice.
const INSERTED: i64 = 2 * BEFORE + B1 + 3;
const DELETED: i64 = 2 * BEFORE + B2 + 2;
const TURNED: i64 = 2 * BEFORE + B1 + 3;

/// The answer of a call that writes into an output, which has room enough or none at all. If it is declined the
/// output is kept.
fn kept<T: Copy + PartialEq + std::fmt::Debug>(beside: Beside, word: T, call: impl FnOnce(&mut [T]) -> i64) -> i64 {
    let content = vec![word; beside.pick(100, 0)];
    let mut out = Guarded::new(&content, word);
    let answer = call(out.slice_mut());
    out.assert_guards();
    assert!(answer >= 0 || out.slice() == content);
    answer
}

/// A step of the loop's walk, or a reader and a tally for which nothing is right.
fn walk_step(table: &mut [u16], beside: Beside) -> i64 {
    let (dart, kind) = beside.pick((0, 0), (2_048, 2));
    let reader = Reader { dart, kind, start_dart: dart, start_kind: kind };
    let tally = beside.pick(Tally::default(), Tally { steps: u32::MAX, ..Tally::default() });
    let (mut now, mut brought) = (reader, tally);
    let answer = planner::walk_step(table, &mut now, &mut brought);
    assert!(answer >= 0 || (now, brought) == (reader, tally));
    answer
}

/// Points and lifts for a path, or ones that are short.
fn lent(beside: Beside) -> (Vec<i32>, Vec<i32>) {
    (vec![1; beside.pick(1_536, 9)], vec![1; beside.pick(3_072, 9)])
}

fn float_path(table: &mut [u16], beside: Beside) -> i64 {
    let (points, lifts) = lent(beside);
    let step = beside.pick((0, 0), (2_048, 2));
    kept(beside, GUARD, |kinds| {
        kept(beside, 0.5_f32, |coords| planner::float_path(table, step, &points, &lifts, kinds, coords))
    })
}

fn whole_path(table: &mut [u16], beside: Beside) -> i64 {
    let (points, lifts) = lent(beside);
    let step = beside.pick((0, 0), (2_048, 2));
    kept(beside, GUARD, |kinds| {
        kept(beside, -7, |coords| {
            kept(beside, GUARD, |remainders| {
                planner::whole_path(table, step, &points, &lifts, Outputs { kinds, coords, remainders })
            })
        })
    })
}

/// Every call answers 1 over these words, and they stay.
fn all_decline(words: &[u16]) {
    for (name, call) in CALLS {
        for beside in [Right, Amiss] {
            let mut lent = Guarded::new(words, GUARD);
            assert_eq!(call(lent.slice_mut(), beside), -1, "{name} over {} words", words.len());
            assert_eq!(lent.slice(), words, "{name} over {} words", words.len());
            lent.assert_guards();
        }
    }
}

#[test]
fn the_whole_table_is_accepted() {
    for (name, call) in CALLS {
        assert!(call(&mut accepted(), Right) >= 0, "{name}");
    }
}

/// What was a good table before lengths stood in it.
#[test]
fn tables_of_the_old_size() {
    assert_eq!(LENGTH, 7_680);
    all_decline(&accepted()[..LENGTH]);
    let mut random = Random::new(0x51);
    for _ in 0..40 {
        all_decline(&random_table(&mut random)[..LENGTH]);
    }
}

#[test]
fn a_word_short_and_a_word_too_many() {
    for table in [accepted(), random_table(&mut Random::new(0x52))] {
        all_decline(&table[..WORDS - 1]);
        all_decline(&table[1..]);
        for word in [0, 1, 16, 65_534, 65_535] {
            all_decline(&[&table[..], &[word]].concat());
        }
    }
}

#[test]
fn sizes_around_both() {
    let long = [accepted(), accepted()].concat();
    for size in [0, 1, 7_679, 7_681, 8_192, 8_448, 8_702, 8_706, 9_728, 2 * WORDS] {
        all_decline(&long[..size]);
    }
}
