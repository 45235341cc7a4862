//! The claims, docs/CLAIMS.md and the files of docs/claims/: every name stands in the file that they name, every contract can be read without laws, every
//! wrong program that they name is there, every one is named, and every function of the header has its entry, whose expressions stand in its contract.
//! Each entry has the form that the index says, and the index lists every file and has the reading order.

use crate::citations::Citations;
use crate::entries::{begins_entry, entries, Entry, ANSWER, AT_EXIT};
use crate::markdown::{begins_item, blocks, Block};
use crate::rattle::Function;
use crate::tree::Tree;
use std::collections::BTreeSet;

const INDEX: &str = "docs/CLAIMS.md";
const INTERFACE: &str = "crates/planner/src/lib.rt";

/// The section of the claims that explains the citations, and so holds examples.
const GRAMMAR: &str = "How to read them";
/// The section of the claims whose numbered list is the reading order.
const READING_ORDER: &str = "In which order to read the definitions";

/// One line for each fault.
pub fn faults(tree: &Tree) -> Vec<String> {
    let Some(index) = tree.read(INDEX) else {
        return vec![format!("{INDEX} is not there")];
    };
    let files = tree.files_below("docs", &["claims"]);
    let (mut faults, mut named) = (in_index(tree, &index, &files), BTreeSet::new());
    for document in [INDEX.to_string()].into_iter().chain(files.iter().map(|file| format!("docs/{file}"))) {
        let mut citations = Citations::new(tree, &document);
        read_document(&mut citations, tree, &tree.read(&document).unwrap_or_default());
        faults.append(&mut citations.faults);
        named.append(&mut citations.wrongs);
    }
    let unnamed = tree.wrongs().into_iter().filter(|wrong| !named.contains(wrong));
    faults.extend(unnamed.map(|wrong| format!("{INDEX}: the wrong program {wrong} is not named")));
    faults
}

/// What the index alone has: an entry for each call, the files of the claims, and the reading order.
fn in_index(tree: &Tree, text: &str, files: &BTreeSet<String>) -> Vec<String> {
    let blocks = blocks(text);
    let entries = entries(&blocks).0;
    let calls: BTreeSet<&str> = entries.iter().filter_map(Entry::call).collect();
    let without = tree.header_functions().into_iter().filter(|call| !calls.contains(call.as_str()));
    let mut faults: Vec<String> = without.map(|call| format!("{INDEX}: {call} of the header has no entry")).collect();
    let linked: BTreeSet<String> = links(text).into_iter().filter(|link| link.starts_with("claims/")).collect();
    faults.extend(files.difference(&linked).map(|file| format!("{INDEX}: docs/{file} is not listed")));
    faults.extend(linked.difference(files).map(|file| format!("{INDEX}: there is no docs/{file}")));
    let numbered = |block: &Block| !block.text.starts_with('-') && begins_item(&block.text);
    if !blocks.iter().any(|block| block.section == READING_ORDER && numbered(block)) {
        faults.push(format!("{INDEX}: no numbered reading order under \"{READING_ORDER}\""));
    }
    faults
}

/// Where the links of a document lead: `[..](here)`.
fn links(text: &str) -> Vec<String> {
    text.split("](").skip(1).filter_map(|after| after.split_once(')')).map(|(link, _)| link.to_string()).collect()
}

/// What a document of the claims cites, and the form of its entries.
fn read_document(citations: &mut Citations, tree: &Tree, text: &str) {
    let blocks: Vec<Block> = blocks(text).into_iter().filter(|block| block.section != GRAMMAR).collect();
    let (entries, strays) = entries(&blocks);
    if !text.starts_with("# ") || blocks.first().is_none_or(begins_entry) {
        citations.fault(1, "it does not begin with a head and what it is about".to_string());
    }
    for line in strays {
        citations.fault(line, "an item that stands below no sentence".to_string());
    }
    let interface = tree.functions(INTERFACE).unwrap_or_default();
    let mut expressions = BTreeSet::new();
    for entry in &entries {
        for (line, fault) in entry.faults() {
            citations.fault(line, fault);
        }
        let Some(call) = entry.call() else { continue };
        for item in entry.items.iter().filter(|item| item.key == ANSWER || item.key == AT_EXIT) {
            expressions.insert(item.block.line);
            read_expressions(citations, item.block, call, interface.iter().find(|function| function.name == call));
        }
    }
    for block in blocks.iter().filter(|block| !expressions.contains(&block.line)) {
        citations.read(block);
    }
    citations.finish();
}

/// The expressions of an entry of the C interface stand in the contract of its function.
fn read_expressions(citations: &mut Citations, block: &Block, call: &str, function: Option<&Function>) {
    let Some(function) = function else {
        return citations.fault(block.line, format!("{INTERFACE} has no function {call}"));
    };
    let contract = plainly(function);
    for span in citations.spans_of(block).0 {
        if !contains(&contract, &span.text) {
            citations.fault(span.line, format!("`{}` is not in the contract of {}", span.text, function.name));
        }
    }
}

/// A contract as the claims write it: `x` for a lent slice as it was before the call, which is `x.now` where it is lent to be read, and else `x.old`.
fn plainly(function: &Function) -> String {
    let text = function.text.split_whitespace().collect::<Vec<_>>().join(" ");
    let before = |text: String, (argument, kind): &(String, String)| match kind.strip_prefix('&') {
        Some(lent) => unmarked(&text, argument, if lent.starts_with("mut ") { ".old" } else { ".now" }),
        None => text,
    };
    function.arguments.iter().fold(text, before)
}

/// The text with `name` in the place of `name` and its mark, where these are whole words.
fn unmarked(text: &str, name: &str, mark: &str) -> String {
    let marked = format!("{name}{mark}");
    let (mut plain, mut rest) = (String::new(), text);
    while let Some(at) = rest.find(&marked) {
        let (before, after) = (&rest[..at], &rest[at + marked.len()..]);
        // A field may follow, `x.old.code`.
        let whole = !ends_in_word(before) && (after.starts_with('.') || !begins_in_word(after));
        plain.extend([before, if whole { name } else { &marked }]);
        rest = after;
    }
    plain + rest
}

fn of_a_word(c: char) -> bool {
    c.is_alphanumeric() || "-_?'′.".contains(c)
}

fn ends_in_word(text: &str) -> bool {
    text.ends_with(of_a_word)
}

fn begins_in_word(text: &str) -> bool {
    text.starts_with(of_a_word)
}

/// Does the text have the pieces of the expression, whole words, in their order; `..` stands for anything.
fn contains(text: &str, expression: &str) -> bool {
    let mut rest = text;
    for piece in expression.split("..").map(str::trim).filter(|piece| !piece.is_empty()) {
        let whole = |at: &usize| !ends_in_word(&rest[..*at]) && !begins_in_word(&rest[at + piece.len()..]);
        match rest.match_indices(piece).map(|(at, _)| at).find(whole) {
            Some(at) => rest = &rest[at + piece.len()..],
            None => return false,
        }
    }
    true
}
