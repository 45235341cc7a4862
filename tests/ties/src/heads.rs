//! The heads of the specs. A file of more than 60 lines begins with a comment that says what it is about and lists its names with their meanings, so that a
//! reader finds a name without reading the file. A line of the list is
//!
//! ```text
//! --     name, name     meaning
//! ```
//!
//! Two blanks or more stand between names and meaning, and before a further meaning, or before further names, with or without a meaning of their own, on
//! the same line. A meaning that goes on in the next line is further in. A name is declared in the file, or in its other half where one file of laws stands in
//! both specs/laws/ and proofs/laws/; `front-..` stands for all that begin so, `-end` for one that ends so, and `a .. b` for those from a to b.

use crate::tree::Tree;
use std::collections::BTreeSet;

/// Files of more lines need a head.
const LONG: usize = 60;
/// A list has at least so many lines.
const FEW: usize = 2;
const COMMENT: &str = "-- ";
const LIST: &str = "--     ";

/// One line for each fault.
pub fn faults(tree: &Tree) -> Vec<String> {
    let mut faults = Vec::new();
    for name in tree.crates() {
        let files = tree.files_of_both_rooms(&name).into_iter();
        for file in files.filter(|file| !matches!(file.as_str(), "Lib" | "laws")) {
            let declared = tree.spec(&name, &file).unwrap_or_default().all();
            faults.extend(tree.paths_of_spec(&name, &file).iter().flat_map(|path| in_file(tree, path, &declared)));
        }
    }
    faults
}

fn in_file(tree: &Tree, path: &str, declared: &BTreeSet<String>) -> Vec<String> {
    let text = tree.read(path).unwrap_or_default();
    let head: Vec<&str> = text.lines().take_while(|line| line.starts_with("--")).collect();
    let says = head.first().is_some_and(|line| line.starts_with(COMMENT) && !line.starts_with(LIST));
    let list: Vec<(usize, &str)> = head.iter().enumerate().filter_map(|(i, line)| Some((i + 1, item(line)?))).collect();
    let lines = text.lines().count();
    let mut faults = Vec::new();
    if lines > LONG && !(says && list.len() >= FEW) {
        faults.push(format!("{path}: {lines} lines, and no head that says what it is about and lists its names"));
    }
    for (line, item) in list {
        faults.extend(in_item(item, declared).map(|fault| format!("{path}:{line}: {fault}")));
    }
    faults
}

/// What stands in a line of the list.
fn item(line: &str) -> Option<&str> {
    line.strip_prefix(LIST).filter(|item| !item.is_empty() && !item.starts_with(' '))
}

/// What is wrong with a line of the list.
fn in_item(item: &str, declared: &BTreeSet<String>) -> Option<String> {
    let mut parts = item.split("  ").map(str::trim).filter(|part| !part.is_empty());
    let first = parts.next().unwrap_or("");
    let Some(mut listed) = names(first) else {
        return Some(format!("`{first}` is no list of names; two blanks stand before a meaning"));
    };
    if parts.next().is_none() {
        return Some(format!("no meaning of `{first}`"));
    }
    // After a meaning stands another one, or names; after names a meaning.
    while let Some(part) = parts.next() {
        if let Some(further) = names(part) {
            listed.extend(further);
            parts.next();
        }
    }
    let missing = listed.iter().find(|name| !stands_for_some(name, declared))?;
    Some(format!("it declares no `{missing}`"))
}

/// The names of a list, separated by commas. None if one has a blank in it.
fn names(part: &str) -> Option<Vec<String>> {
    let names: Vec<String> = part.replace(" .. ", ", .., ").split(',').map(|name| name.trim().to_string()).collect();
    names.iter().all(|name| !name.is_empty() && !name.contains(' ')).then_some(names)
}

fn stands_for_some(name: &str, declared: &BTreeSet<String>) -> bool {
    match (name.strip_suffix(".."), name.starts_with('-')) {
        (Some(front), _) => declared.iter().any(|name| name.starts_with(front)),
        (None, true) => declared.iter().any(|declared| declared.ends_with(name)),
        (None, false) => declared.contains(name),
    }
}
