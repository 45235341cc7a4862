//! The faces: each listed once, as a walk; the corners with their faces and types; the two sides of an edge.

use crate::table::*;
use crate::trace::{corner_met, step, walk_from, Step};

/// A listed walk: a ribbon has at least one step, an isolated vertex gives an empty walk.
#[derive(Clone, Debug, PartialEq, Eq)]
pub enum Walk {
    Ribbon(Vec<Step>),
    Empty(Vertex),
}

impl Walk {
    pub fn steps(&self) -> &[Step] {
        match self {
            Walk::Ribbon(steps) => steps,
            Walk::Empty(_) => &[],
        }
    }
}

/// "An isolated vertex v has one corner, named 32,768+v."
pub const VERTEX_CORNER: u16 = 32_768;

/// What a corner word names, whether it is there or not.
#[derive(Clone, Copy, Debug, PartialEq, Eq)]
pub enum Corner {
    /// The corner between the dart before this one and this one.
    Before(Dart),
    /// The one corner of an isolated vertex.
    Around(Vertex),
}

/// "Other corner words are malformed."
pub fn corner(word: u16) -> Option<Corner> {
    if (word as usize) < DARTS {
        return Some(Corner::Before(word));
    }
    let v = word.checked_sub(VERTEX_CORNER)?;
    ((v as usize) < VERTICES).then_some(Corner::Around(v))
}

pub fn corner_is_there(table: &[u16], c: Corner) -> bool {
    match c {
        Corner::Before(d) => dart_is_live(table, d),
        Corner::Around(v) => vertex_is_isolated(table, v),
    }
}

/// How a listed walk meets a corner: the walk's index, and "the t with which its listed walk meets it".
#[derive(Clone, Copy, Debug, PartialEq, Eq)]
pub struct Met {
    pub face: usize,
    pub t: u8,
}

/// One side of an edge: a listed step on it, and the index of that step's walk.
#[derive(Clone, Copy, Debug, PartialEq, Eq)]
pub struct Side {
    pub face: usize,
    pub step: Step,
}

/// The listed walks of a good table, in their order, with the corners that they meet.
pub struct Faces {
    pub walks: Vec<Walk>,
    before: Vec<Option<Met>>,
    around: Vec<Option<Met>>,
}

impl Faces {
    /// "take darts upward, and start at (d, 0) wherever corner d has not been met. Then each isolated vertex, upward,
    /// gives one empty walk."
    pub fn of(table: &[u16]) -> Faces {
        let mut faces = Faces { walks: Vec::new(), before: vec![None; DARTS], around: vec![None; VERTICES] };
        for d in live_darts(table) {
            if faces.before[d as usize].is_none() {
                faces.list_ribbon(table, step(d, 0));
            }
        }
        for v in isolated_vertices(table) {
            faces.around[v as usize] = Some(Met { face: faces.walks.len(), t: 0 });
            faces.walks.push(Walk::Empty(v));
        }
        faces
    }

    fn list_ribbon(&mut self, table: &[u16], start: Step) {
        let steps = walk_from(table, start);
        for &s in &steps {
            self.before[corner_met(table, s) as usize] = Some(Met { face: self.walks.len(), t: s.t });
        }
        self.walks.push(Walk::Ribbon(steps));
    }

    pub fn count(&self) -> usize {
        self.walks.len()
    }

    /// The face of a corner that is there, and the corner's type.
    pub fn met(&self, c: Corner) -> Met {
        let met = match c {
            Corner::Before(d) => self.before[d as usize],
            Corner::Around(v) => self.around[v as usize],
        };
        met.expect("a corner that is there is on a face")
    }

    /// "the two listed steps on an edge are its sides"
    pub fn sides(&self, e: Edge) -> [Side; 2] {
        let steps = self
            .walks
            .iter()
            .enumerate()
            .flat_map(|(face, walk)| walk.steps().iter().map(move |&step| Side { face, step }));
        let mut sides = steps.filter(|side| side.step.edge() == e);
        let mut side = || sides.next().expect("a live edge has two sides");
        [side(), side()]
    }
}

/// F: the number of listed walks.
pub fn face_count(table: &[u16]) -> usize {
    Faces::of(table).count()
}
