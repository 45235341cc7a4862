//! The reference tried against documents 01, 02 and 000. Expected values are those that the documents print, or
//! that a second and slower way gives; none is copied from what the program answered.

mod bands;
mod forecasts;
mod good;
mod job;
mod k4;
mod lengths;
mod prices;
mod reader;
mod refusals;
mod ribbons;
mod rules;
mod runs;
mod samples;
mod solids;
mod trial_job;
mod whole;
mod wrong_readings;

use reference::edit::{edit, Answer, Edit};
use reference::faces::{Faces, VERTEX_CORNER};
use reference::refusal::Refusal;
use reference::rule::Rule;
use reference::table::empty_mesh;
use reference::trace::Step;

pub fn add(v: u16) -> Edit {
    Edit::AddVertex { v }
}

pub fn remove(v: u16) -> Edit {
    Edit::RemoveVertex { v }
}

/// An insertion with the length that a plain IE writes, 16.
pub fn insert(e: u16, c1: u16, c2: u16, k: i16) -> Edit {
    insert_long(e, c1, c2, k, 16)
}

pub fn insert_long(e: u16, c1: u16, c2: u16, k: i16, length: u16) -> Edit {
    Edit::InsertEdge { e, c1, c2, k, length }
}

pub fn delete(e: u16) -> Edit {
    Edit::DeleteEdge { e }
}

pub fn turn(e: u16, amount: i16) -> Edit {
    Edit::TurnEdge { e, amount }
}

/// The corner of an isolated vertex.
pub fn around(v: u16) -> u16 {
    VERTEX_CORNER + v
}

/// What an accepted edit of an edge answers.
pub fn met(faces: usize, rule: Rule) -> Result<Answer, Refusal> {
    Ok(Answer { faces, rule: Some(rule) })
}

/// The table after edits from the empty mesh, each of which must be accepted.
pub fn made(edits: &[Edit]) -> Vec<u16> {
    let mut table = empty_mesh();
    for &change in edits {
        edit(&mut table, change).unwrap_or_else(|refusal| panic!("{change:?} declined: {refusal:?}"));
    }
    table
}

/// The steps of each ribbon as they are listed.
pub fn ribbons(table: &[u16]) -> Vec<Vec<Step>> {
    let walks = Faces::of(table).walks;
    walks.iter().map(|walk| walk.steps().to_vec()).filter(|steps| !steps.is_empty()).collect()
}

/// How many steps each listed walk has, in falling order.
pub fn walk_sizes(table: &[u16]) -> Vec<usize> {
    let mut sizes: Vec<usize> = Faces::of(table).walks.iter().map(|walk| walk.steps().len()).collect();
    sizes.sort_by(|a, b| b.cmp(a));
    sizes
}

/// What the float path and the whole path decline alike, "as the float path does" (document 02, e): 1, 2, 4, 7 and 9. The ribbon of dart 0 is on
/// the vertices 0 and 1 and the edges 0 and 1, which are all there are.
pub fn declines_as_a_path<T>(
    table: &[u16],
    points: &[i32],
    lifts: &[i32],
    path: impl Fn(&[u16], u16, u16, &[i32], &[i32]) -> Result<T, Refusal>,
) {
    let declines = |table: &[u16], dart, t, points: &[i32], lifts: &[i32], refusal| {
        assert_eq!(path(table, dart, t, points, lifts).err(), Some(refusal));
    };
    declines(&[], 4_000, 2, &[], &[], Refusal::Torn);
    declines(table, 2_048, 0, &[], &[], Refusal::NoSuchName);
    declines(table, 4, 2, &[], &[], Refusal::NoSuchName);
    declines(table, 4, 0, &[], &[], Refusal::Absent);
    declines(table, 0, 0, &points[..1_535], lifts, Refusal::ShortSlice);
    declines(table, 0, 0, points, &lifts[..3_071], Refusal::ShortSlice);
    let with = |words: &[i32], place: usize, word: i32| {
        let mut words = words.to_vec();
        words[place] = word;
        words
    };
    // Both ends, the lift of the turned edge and that of the flat one.
    for place in 0..6 {
        for word in [65_537, -65_537, i32::MAX, i32::MIN] {
            declines(table, 0, 0, &with(points, place, word), lifts, Refusal::Far);
            declines(table, 0, 0, &with(points, place, word), &lifts[1..], Refusal::ShortSlice);
        }
        for word in [4_097, -4_097, i32::MAX, i32::MIN] {
            declines(table, 0, 0, points, &with(lifts, place, word), Refusal::Far);
        }
        for (point, lift) in [(65_536, 4_096), (-65_536, -4_096)] {
            assert!(path(table, 0, 0, &with(points, place, point), &with(lifts, place, lift)).is_ok());
        }
    }
    let (points, lifts) = (with(points, 6, i32::MIN), with(lifts, 6, i32::MAX));
    assert!(path(table, 0, 0, &points, &lifts).is_ok(), "vertex 2 and edge 2 are not on the walk");
}
