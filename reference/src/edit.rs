//! The five edits ("Edits"): a verdict, then the rule met on the table as it is, then a write, then the new face count by
//! tracing the new table.
//!
//! The count does not come from the rule, nor the rule from the count: tests compare the two.

use crate::check::check;
use crate::faces::{corner, corner_is_there, face_count, Corner};
use crate::refusal::{decline_if, Refusal};
use crate::rule::{deletion_rule, insertion_rule, turn_rule, Rule};
use crate::table::*;

/// An edit with its arguments as a caller gives them: any words at all.
#[derive(Clone, Copy, Debug, PartialEq, Eq)]
pub enum Edit {
    AddVertex { v: u16 },
    RemoveVertex { v: u16 },
    InsertEdge { e: u16, c1: u16, c2: u16, k: i16, length: u16 },
    DeleteEdge { e: u16 },
    TurnEdge { e: u16, amount: i16 },
}

/// "Each accepted edit answers the new face count." "Insert, delete and turn now answer, besides the new face count, the
/// rule met".
#[derive(Clone, Copy, Debug, PartialEq, Eq)]
pub struct Answer {
    pub faces: usize,
    pub rule: Option<Rule>,
}

pub fn edit(table: &mut [u16], edit: Edit) -> Result<Answer, Refusal> {
    verdict(table, edit)?;
    let rule = rule_met(table, edit);
    write(table, edit);
    Ok(Answer { faces: face_count(table), rule })
}

/// Whether an edit is accepted, and if not, the first of the refusals that hold.
pub fn verdict(table: &[u16], edit: Edit) -> Result<(), Refusal> {
    check(table)?;
    match edit {
        Edit::AddVertex { v } => {
            vertex_name(v)?;
            decline_if(vertex_is_live(table, v), Refusal::Taken)
        }
        Edit::RemoveVertex { v } => {
            vertex_name(v)?;
            decline_if(!vertex_is_live(table, v), Refusal::Absent)?;
            decline_if(!vertex_is_isolated(table, v), Refusal::Joined)
        }
        Edit::InsertEdge { e, c1, c2, k, length } => {
            edge_name(e)?;
            let (c1, c2) = (corner_name(c1)?, corner_name(c2)?);
            decline_if(edge_is_live(table, e), Refusal::Taken)?;
            decline_if(!corner_is_there(table, c1) || !corner_is_there(table, c2), Refusal::Absent)?;
            turns_within(k as i32)?;
            // "A length of 0 on insertion is 9, the last of the edit's own numbers."
            decline_if(length == NO_LENGTH, Refusal::Far)
        }
        Edit::DeleteEdge { e } => {
            edge_name(e)?;
            decline_if(!edge_is_live(table, e), Refusal::Absent)
        }
        Edit::TurnEdge { e, amount } => {
            edge_name(e)?;
            decline_if(!edge_is_live(table, e), Refusal::Absent)?;
            turns_within(turns(table, e) + amount as i32)
        }
    }
}

fn vertex_name(v: u16) -> Result<(), Refusal> {
    decline_if(v as usize >= VERTICES, Refusal::NoSuchName)
}

fn edge_name(e: u16) -> Result<(), Refusal> {
    decline_if(e as usize >= EDGES, Refusal::NoSuchName)
}

fn corner_name(c: u16) -> Result<Corner, Refusal> {
    corner(c).ok_or(Refusal::NoSuchName)
}

/// "turns would pass 99 either way", in a type wide enough for any sum.
fn turns_within(turns: i32) -> Result<(), Refusal> {
    decline_if(turns.abs() > MOST_TURNS, Refusal::Overturned)
}

/// Write an edit whose verdict was good.
fn write(table: &mut [u16], edit: Edit) {
    match edit {
        Edit::AddVertex { v } => set_vertex_word(table, v, ISOLATED),
        Edit::RemoveVertex { v } => set_vertex_word(table, v, NOT_LIVE),
        Edit::InsertEdge { e, c1, c2, k, length } => {
            insert_edge(table, e, c1, c2, k as i32);
            set_length(table, e, length);
        }
        Edit::DeleteEdge { e } => delete_edge(table, e),
        Edit::TurnEdge { e, amount } => set_turns(table, e, turns(table, e) + amount as i32),
    }
}

/// "dart 2e goes into corner c1, then 2e+1 into c2, each just before the dart that names the corner". So with
/// c1 = c2 the second dart stands between the first and the dart that names the corner: "old, 2e, 2e+1, d".
fn insert_edge(table: &mut [u16], e: Edge, c1: u16, c2: u16, k: i32) {
    let [first, second] = darts_of(e);
    set_turns(table, e, k);
    put_dart(table, first, corner(c1).expect("not malformed"));
    put_dart(table, second, corner(c2).expect("not malformed"));
}

fn put_dart(table: &mut [u16], d: Dart, c: Corner) {
    match c {
        Corner::Before(named) => put_before(table, d, named),
        // Where both darts go into one isolated vertex's corner, the second finds the first there. Of two darts
        // each is both before and after the other.
        Corner::Around(v) if !vertex_is_isolated(table, v) => put_before(table, d, vertex_word(table, v)),
        Corner::Around(v) => put_alone(table, d, v),
    }
}

fn put_before(table: &mut [u16], d: Dart, named: Dart) {
    let v = leaves(table, named);
    let old = previous(table, named);
    set_neighbours(table, old, d);
    set_neighbours(table, d, named);
    set_leaves(table, d, v);
    set_vertex_word(table, v, vertex_word(table, v).min(d));
}

fn put_alone(table: &mut [u16], d: Dart, v: Vertex) {
    set_neighbours(table, d, d);
    set_leaves(table, d, v);
    set_vertex_word(table, v, d);
}

/// "Insertion takes a length, one 16-bit word, and deletion sets it to 0; no other edit alters one."
fn delete_edge(table: &mut [u16], e: Edge) {
    for d in darts_of(e) {
        take_out(table, d);
    }
    clear_edge(table, e);
}

/// Join the neighbours of a dart; a vertex that loses its last dart is isolated.
fn take_out(table: &mut [u16], d: Dart) {
    let (v, before, after) = (leaves(table, d), previous(table, d), next(table, d));
    if after == d {
        set_vertex_word(table, v, ISOLATED);
    } else {
        set_neighbours(table, before, after);
        let smallest = smallest_around(table, after);
        set_vertex_word(table, v, smallest);
    }
    clear_dart(table, d);
}

/// The smallest dart on the cycle of "next" through a dart.
fn smallest_around(table: &[u16], start: Dart) -> Dart {
    let (mut smallest, mut d) = (start, next(table, start));
    while d != start {
        smallest = smallest.min(d);
        d = next(table, d);
    }
    smallest
}

/// The rule of an edit whose verdict was good, "read on the table just before that edit". Vertices have none.
pub fn rule_met(table: &[u16], edit: Edit) -> Option<Rule> {
    let at = |c: u16| corner(c).expect("not malformed");
    match edit {
        Edit::AddVertex { .. } | Edit::RemoveVertex { .. } => None,
        Edit::InsertEdge { c1, c2, k, .. } => Some(insertion_rule(table, at(c1), at(c2), k as i32)),
        Edit::DeleteEdge { e } => Some(deletion_rule(table, e)),
        Edit::TurnEdge { e, amount } => Some(turn_rule(table, e, amount)),
    }
}

/// The change of the face count that is called for: "An accepted addition of a vertex counts +1, a removal -1, any other
/// accepted edit the change given under 'Edits', read on the table just before that edit".
pub fn face_change(table: &[u16], edit: Edit) -> i64 {
    match edit {
        Edit::AddVertex { .. } => 1,
        Edit::RemoveVertex { .. } => -1,
        _ => rule_met(table, edit).expect("an edge's edit meets a rule").change(),
    }
}
