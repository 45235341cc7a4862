//! Every wrong program is refused at its own need, for a fact. `rt ci` has seen that each must-fail edit as a whole is refused; here what the prover said of it
//! is read, target/must-fail/CRATE/EDIT/.log, which `tests/try-edits` keeps, and each of its wrong programs must have an error at the place that its section
//! names. Every error is of a fact, or follows from one that is, and no function fails of its own but those that the edit changes. A log that is missing, is
//! of other sources, or has an error that is not understood is a fault.

use crate::prover::{self, Open, Said, Verdict};
use crate::sections::{self, owner};
use crate::tree::Tree;
use crate::wrong::{Edit, Place};
use std::collections::BTreeMap;

/// One line for each fault.
pub fn faults(tree: &Tree) -> Vec<String> {
    let mut faults = Vec::new();
    for of in tree.crates() {
        let edits = tree.edits_of(&of);
        faults.extend(sections::named_twice(&edits).into_iter().map(|fault| format!("crates/{of}/must-fail: {fault}")));
        for edit in &edits {
            let mut found = sections::faults(tree, &of, edit);
            if found.is_empty() {
                found = in_log(tree, &of, edit);
            }
            faults.extend(found.iter().map(|fault| format!("crates/{of}/must-fail/{}.edit: {fault}", edit.name)));
        }
    }
    faults
}

/// What is amiss with what the prover said of an edit.
fn in_log(tree: &Tree, of: &str, edit: &Edit) -> Vec<String> {
    let tried = format!("target/must-fail/{of}/{}", edit.name);
    let Some(log) = tree.read(&format!("{tried}/.log")) else {
        return vec![format!("there is no {tried}/.log; tests/try-edits makes it")];
    };
    let said = prover::read(&log);
    if !said.refused {
        return vec!["the prover did not say that it is not proved".to_string()];
    }
    let files = match sections::after(tree, of, edit) {
        Ok(changed) => files(tree, of, changed),
        Err(fault) => return vec![fault],
    };
    let mut faults = Vec::new();
    if tree.read(&format!("{tried}/.sources")) != Some(sources(&files)) {
        faults.push(format!("{tried} is not this edit of these sources; tests/try-edits tries it again"));
    }
    for wrong in &edit.wrongs {
        for place in wrong.places.iter().filter(|place| !refuses(&said, of, &files, place)) {
            faults.push(format!("{}: no fact is refused at {place}", wrong.name));
        }
    }
    faults.extend(of_shape(&said));
    faults.extend(failing_besides(tree, of, edit, &said));
    faults
}

/// Errors that show nothing: a proof that no longer fits the code is refused whatever the code does.
fn of_shape(said: &Said) -> Vec<String> {
    let of_shape = said.errors.iter().filter(|error| !error.is_of_a_fact() && !error.follows());
    of_shape
        .map(|error| {
            let begin: String = error.text.chars().take(60).collect();
            format!("{} {} is refused for its shape: {begin}", error.path, error.need)
        })
        .collect()
}

/// Has the prover refused a fact there.
fn refuses(said: &Said, of: &str, files: &BTreeMap<String, String>, place: &Place) -> bool {
    match place {
        Place::In { file, need } => {
            said.errors.iter().any(|error| error.need == *need && error.path == *file && error.is_of_a_fact())
        }
        Place::Of { function, need } => {
            let left_open = |open: &Open| {
                let text = files.get(&open.path).map_or("", String::as_str);
                open.need == *need && sections::function_at(of, &open.path, text, open.line).as_ref() == Some(function)
            };
            match said.verdicts.get(function) {
                Some(Verdict::Fails { open }) => open.contains(need) || said.open.iter().any(left_open),
                Some(Verdict::Follows) => said.open.iter().any(left_open),
                Some(Verdict::Proved) | None => false,
            }
        }
    }
}

/// Functions that fail of their own though no wrong program changes them, and those of which nothing is said. Where a wrong program changes more than a
/// body, any may fail.
fn failing_besides(tree: &Tree, of: &str, edit: &Edit, said: &Said) -> Vec<String> {
    let owners: Option<Vec<_>> = edit.wrongs.iter().map(|wrong| owner(tree, of, wrong).ok()?).collect();
    let Some(owners) = owners else { return Vec::new() };
    let mut faults = Vec::new();
    for function in sections::functions_of(tree, of).iter().filter(|function| !owners.contains(function)) {
        let refused = said.errors.iter().any(|error| !error.follows() && error.path.contains(&function.proofs));
        match said.verdicts.get(&function.path) {
            None => faults.push(format!("nothing is said of {}", function.path)),
            Some(Verdict::Proved | Verdict::Follows) if !refused => {}
            Some(_) => faults.push(format!("{} fails too, and no wrong program changes it", function.path)),
        }
    }
    faults
}

/// The files of a crate as an edit leaves them, by their paths in it.
fn files(tree: &Tree, of: &str, mut changed: BTreeMap<String, String>) -> BTreeMap<String, String> {
    for file in tree.files_below(&format!("crates/{of}"), &["src", "specs", "proofs"]) {
        let text = || tree.read(&format!("crates/{of}/{file}")).unwrap_or_default();
        changed.entry(file.clone()).or_insert_with(text);
    }
    changed
}

/// They in one text, as `tests/try-edits` writes them: each below its path and its size.
pub fn sources(files: &BTreeMap<String, String>) -> String {
    files.iter().map(|(path, text)| format!("== {path} {}\n{text}\n", text.len())).collect()
}
