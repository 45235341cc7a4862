//! Runs of edits: "any list, also the empty one, of the five edits with any arguments, declined ones included, over
//! one table slice". A commit "that goes through ... counts as that edit in a run" (document 02, request b).

use crate::edit::{edit, face_change, Answer, Edit};
use crate::faces::face_count;
use crate::forecast::{commit, Forecast};
use crate::refusal::Refusal;

/// A call of a run: the plain edit, or its commit with the forecast that the host offers.
#[derive(Clone, Copy, Debug, PartialEq, Eq)]
pub enum Call {
    Plain(Edit),
    Commit(Edit, Forecast),
}

impl Call {
    pub fn edit(self) -> Edit {
        match self {
            Call::Plain(change) | Call::Commit(change, _) => change,
        }
    }

    pub fn made(self, table: &mut [u16]) -> Result<Answer, Refusal> {
        match self {
            Call::Plain(change) => edit(table, change),
            Call::Commit(change, forecast) => commit(table, change, forecast),
        }
    }
}

/// What a run did: the listed walks before it, each call's answer, and for each call the change that the rules call
/// for ("a declined one counts 0").
pub struct Run {
    pub start_faces: usize,
    pub answers: Vec<Result<Answer, Refusal>>,
    pub changes: Vec<i64>,
}

/// Run the edits over a good table; "each edit gets it as the last one left it".
pub fn run(table: &mut [u16], edits: &[Edit]) -> Run {
    run_calls(table, &edits.iter().map(|&change| Call::Plain(change)).collect::<Vec<_>>())
}

/// The same where some of the edits are commits. What an accepted one counts is "read on the table just before that edit".
pub fn run_calls(table: &mut [u16], calls: &[Call]) -> Run {
    let mut run = Run { start_faces: face_count(table), answers: Vec::new(), changes: Vec::new() };
    for &call in calls {
        let before = table.to_vec();
        let answer = call.made(table);
        run.changes.push(if answer.is_ok() { face_change(&before, call.edit()) } else { 0 });
        run.answers.push(answer);
    }
    run
}
