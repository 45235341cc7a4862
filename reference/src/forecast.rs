//! Ask and commit (document 02, request b, "Forecast, then do it"), for an insertion, a deletion or a turn.
//!
//! Nothing is worked out from the rule: ask does the edit on a copy, and counts the faces of both tables.

use crate::edit::{edit, Answer, Edit};
use crate::faces::face_count;
use crate::refusal::{decline_if, Refusal};
use crate::rule::Rule;

/// "its rule and the face count before and after"
#[derive(Clone, Copy, Debug, PartialEq, Eq)]
pub struct Forecast {
    pub rule: Rule,
    pub before: usize,
    pub after: usize,
}

/// "Ask takes an insertion, a deletion or a turn and gives its rule and the face count before and after, writing nothing."
pub fn ask(table: &[u16], change: Edit) -> Result<Forecast, Refusal> {
    let mut tried = table.to_vec();
    let rule = edit(&mut tried, change)?.rule.expect("an insertion, a deletion or a turn");
    Ok(Forecast { rule, before: face_count(table), after: face_count(&tried) })
}

/// "Commit takes the edit and those three answers, and does the edit exactly if the table as it now is would give the same
/// three." "12, stale forecast, tested after all of the edit's own numbers."
pub fn commit(table: &mut [u16], change: Edit, forecast: Forecast) -> Result<Answer, Refusal> {
    let now = ask(table, change)?;
    decline_if(forecast != now, Refusal::StaleForecast)?;
    edit(table, change)
}
