//! The same edit, ask or commit by the library and by the reference, every word and the answer compared.

use crate::guarded::Guarded;
use crate::planner;
use reference::edit::{edit, verdict, Edit};
use reference::forecast::{ask, commit};
use reference::refusal::Refusal;
use reference::table::{empty_mesh, VERTICES};
pub use reference::trial::edits::kind;
use std::collections::BTreeMap;

const GUARD: u16 = 0xa5c3;

/// Words lent to the library, and the same words in the reference's hands.
pub struct Twins {
    lent: Guarded<u16>,
    own: Vec<u16>,
}

impl Twins {
    pub fn new(table: &[u16]) -> Twins {
        Twins { lent: Guarded::new(table, GUARD), own: table.to_vec() }
    }

    /// Vertices 0 and 1, and edge 0 of length 700 with k turns between two of their corners, 32,768 and 32,769. As a
    /// loop at vertex 0 it leaves vertex 1 a face of its own; flat, each of its darts has a face, (0, 0) and (1, 0);
    /// with an odd k the walk is (0, 0), (0, 1). Between the two vertices its walk is (0, 0), (1, t), with t the
    /// parity of k.
    pub fn with_edge(c1: u16, c2: u16, k: i16) -> Twins {
        let mut twins = Twins::new(&empty_mesh());
        let insert = Edit::InsertEdge { e: 0, c1, c2, k, length: 700 };
        for change in [Edit::AddVertex { v: 0 }, Edit::AddVertex { v: 1 }, insert] {
            assert!(twins.edit(change) >= 0);
        }
        twins
    }

    /// The words as they are now, in both hands.
    pub fn words(&self) -> &[u16] {
        &self.own
    }

    /// One edit in both hands; the answer, on which they agree.
    pub fn edit(&mut self, change: Edit) -> i64 {
        let before = self.kept();
        let expected = planner::as_edit_number(edit(&mut self.own, change));
        let answer = planner::edit(self.lent.slice_mut(), change);
        self.agree(&format!("{change:?}"), answer, expected);
        debug_assert!(answer >= 0 || self.own == before);
        answer
    }

    /// The forecast in both hands. The reference cannot write what it is asked about, and the library has not.
    pub fn ask(&mut self, change: Edit) -> i64 {
        let expected = planner::as_forecast_number(ask(&self.own, change));
        let answer = planner::ask(self.lent.slice_mut(), change);
        self.agree(&format!("ask {change:?}"), answer, expected);
        answer
    }

    /// A commit in both hands, with any number for a forecast: one that holds no three answers is stale.
    pub fn commit(&mut self, change: Edit, forecast: i64) -> i64 {
        let before = self.kept();
        let expected = planner::as_edit_number(match planner::forecast_in(forecast) {
            Some(three) => commit(&mut self.own, change, three),
            None => verdict(&self.own, change).and(Err(Refusal::StaleForecast)),
        });
        let answer = planner::commit(self.lent.slice_mut(), change, forecast);
        self.agree(&format!("commit {change:?} with {forecast:#x}"), answer, expected);
        debug_assert!(answer >= 0 || self.own == before);
        answer
    }

    /// The words before a call, where the reference is tested too.
    fn kept(&self) -> Vec<u16> {
        if cfg!(debug_assertions) {
            self.own.clone()
        } else {
            Vec::new()
        }
    }

    /// The answer is the one expected, the words are the same in both hands, and the guards beside them are whole.
    fn agree(&self, call: &str, answer: i64, expected: i64) {
        assert_eq!(answer, expected, "{call}");
        if self.lent.slice() != self.own {
            let place = (0..self.own.len()).find(|&i| self.lent.slice()[i] != self.own[i]).unwrap();
            panic!("{call}, answer {answer}: word {place} is {}, not {}", self.lent.slice()[place], self.own[place]);
        }
        self.lent.assert_guards();
    }
}

/// How often each kind of edit met each rule (under 1 to 4, 0 where it has none) or answered each refusal (under minus its
/// number).
#[derive(Default, Debug)]
pub struct Seen(BTreeMap<(&'static str, i64), usize>);

impl Seen {
    /// The answer of an edit, a forecast or the answer of a commit: each has the rule above 16 bits.
    pub fn note(&mut self, change: Edit, answer: i64) {
        let outcome = if answer < 0 { answer } else { answer / 65_536 % 65_536 };
        *self.0.entry((kind(change), outcome)).or_insert(0) += 1;
    }

    /// Each of these came up at least so often, and nothing else came up.
    pub fn assert_all(&self, kinds: &[&'static str], times: usize) {
        self.assert_all_and(kinds, &[], times);
    }

    /// The same where besides the edit's own outcomes there are others, as a commit's 12.
    pub fn assert_all_and(&self, kinds: &[&'static str], others: &[i64], times: usize) {
        for &kind in kinds {
            for &outcome in outcomes(kind).iter().chain(others) {
                let seen = self.0.get(&(kind, outcome)).copied().unwrap_or(0);
                assert!(seen >= times, "{kind} with {outcome}: {seen} times in {self:?}");
            }
        }
        let expected = |kind: &str, outcome: &i64| outcomes(kind).contains(outcome) || others.contains(outcome);
        assert!(self.0.keys().all(|(kind, outcome)| expected(kind, outcome)), "{self:?}");
    }
}

/// What an edit of a good table can come to: its rules, as they stand under "Edits", and its refusals, as they stand under
/// "When a call declines".
fn outcomes(kind: &str) -> &'static [i64] {
    match kind {
        "add" => &[0, -2, -3],
        "remove" => &[0, -2, -4, -5],
        "insert" => &[1, 2, 3, -2, -3, -4, -6, -9],
        "delete" => &[1, 2, 3, -2, -4],
        _ => &[1, 2, 3, 4, -2, -4, -6],
    }
}

/// Names of every kind: all of the range, its end, and past it.
pub fn vertex_names() -> impl Iterator<Item = u16> {
    (0..VERTICES as u16 + 2).chain([1_023, 2_048, 32_767, 32_768, 33_279, 65_534, 65_535])
}
