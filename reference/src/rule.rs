//! The rule that an edit of an edge meets (document 02, request a), read on the table just before the edit: from where
//! its corners or sides lie, as document 01's "Edits" tells the cases apart, and from no face count.

use crate::faces::{Corner, Faces};
use crate::table::Edge;

/// "A (two faces become one), B1 (one becomes two), B2 (one stays one), or E for a turn by an even amount"
#[derive(Clone, Copy, Debug, PartialEq, Eq, PartialOrd, Ord)]
pub enum Rule {
    A,
    B1,
    B2,
    E,
}

impl Rule {
    /// "the letters follow the face change"; "An even amount: 0."
    pub fn change(self) -> i64 {
        match self {
            Rule::A => -1,
            Rule::B1 => 1,
            Rule::B2 | Rule::E => 0,
        }
    }
}

/// "corners on different faces, -1; on one face, +1 if their types and k add to an even number, else 0"
pub fn insertion_rule(table: &[u16], c1: Corner, c2: Corner, k: i32) -> Rule {
    let faces = Faces::of(table);
    let (m1, m2) = (faces.met(c1), faces.met(c2));
    if m1.face != m2.face {
        Rule::A
    } else if (m1.t as i32 + m2.t as i32 + k) % 2 == 0 {
        Rule::B1
    } else {
        Rule::B2
    }
}

/// "Its two sides on different faces: -1; on one walk that passes by both darts, +1; by the same dart twice, 0."
pub fn deletion_rule(table: &[u16], e: Edge) -> Rule {
    match seen_from(table, e) {
        Sides::DifferentFaces => Rule::A,
        Sides::BothDarts => Rule::B1,
        Sides::SameDartTwice => Rule::B2,
    }
}

/// "An even amount: 0. Odd: different faces, -1; same dart twice, +1; both darts, 0."
pub fn turn_rule(table: &[u16], e: Edge, amount: i16) -> Rule {
    if amount % 2 == 0 {
        return Rule::E;
    }
    match seen_from(table, e) {
        Sides::DifferentFaces => Rule::A,
        Sides::SameDartTwice => Rule::B1,
        Sides::BothDarts => Rule::B2,
    }
}

/// How the two sides of an edge lie: the three cases of deletion and of turning.
enum Sides {
    DifferentFaces,
    BothDarts,
    SameDartTwice,
}

fn seen_from(table: &[u16], e: Edge) -> Sides {
    let [a, b] = Faces::of(table).sides(e);
    if a.face != b.face {
        Sides::DifferentFaces
    } else if a.step.dart != b.step.dart {
        Sides::BothDarts
    } else {
        Sides::SameDartTwice
    }
}
