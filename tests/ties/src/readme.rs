//! The tables of the README: that of the calls names the functions of the header, and that of the families the crates. Each names all of them, and nothing
//! else.

use crate::markdown::{blocks, spans, Block};
use crate::tree::Tree;
use std::collections::BTreeSet;

const README: &str = "README.md";
/// How the heads of the two columns begin.
const CALLS: &str = "Calls";
const CRATES: &str = "Crates";
/// What the table of the calls leaves out of each name.
const FRONT: &str = "planner_";

/// One line for each fault.
pub fn faults(tree: &Tree) -> Vec<String> {
    let Some(text) = tree.read(README) else {
        return vec![format!("{README} is not there")];
    };
    let blocks = blocks(&text);
    let mut faults = compared(CALLS, named(&blocks, CALLS, call), &tree.header_functions().into_iter().collect());
    faults.extend(compared(CRATES, named(&blocks, CRATES, whole_crate), &tree.crates()));
    faults
}

/// The names in the cells below this head. `whole` makes one of the row's first cell and what stands in a cell.
fn named(blocks: &[Block], head: &str, whole: fn(&str, &str) -> String) -> BTreeSet<String> {
    let mut found = BTreeSet::new();
    for block in blocks {
        let Some(cell) = block.cell.as_ref().filter(|cell| cell.head.starts_with(head)) else { continue };
        // A mark that is not closed leaves the cell's names unread, and so missing.
        let (spans, _) = spans(block).unwrap_or_default();
        found.extend(spans.iter().map(|span| whole(cell.first.trim_matches('`'), span.text.trim_matches('`'))));
    }
    found
}

fn call(_: &str, name: &str) -> String {
    format!("{FRONT}{}", name.trim_start_matches(FRONT))
}

/// `_ask` in the row of the family forecasts is forecasts_ask.
fn whole_crate(family: &str, name: &str) -> String {
    if name.starts_with('_') {
        return format!("{family}{name}");
    }
    name.to_string()
}

fn compared(head: &str, named: BTreeSet<String>, there: &BTreeSet<String>) -> Vec<String> {
    if named.is_empty() {
        return vec![format!("{README}: no table with the column \"{head}\"")];
    }
    let missing = there.difference(&named).map(|name| format!("{README}: \"{head}\" lacks {name}"));
    let others = named.difference(there).map(|name| format!("{README}: \"{head}\" has {name}, which is not there"));
    missing.chain(others).collect()
}
