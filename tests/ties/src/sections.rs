//! The form of the must-fail edits (`wrong`). A wrong program stands whole in its section, so that it can be tried alone. Where a file has
//! several, each changes the body of one function, and of that function's proof what goes along; no two change the same. Callers go by
//! contracts, which stay: so what the prover says of each of these functions is what it would say if the others were as they are. A file with one
//! has its name; and what changes a definition, a contract or a constant stands in a file of its own.

use crate::rattle;
use crate::tree::Tree;
use crate::wrong::{applied, Edit, Place, Wrong};
use std::collections::{BTreeMap, BTreeSet};

/// A function whose body a wrong program may change.
#[derive(Clone, PartialEq)]
pub struct Owner {
    /// As the prover names it.
    pub path: String,
    /// The folder of its proof.
    pub proofs: String,
}

impl Owner {
    fn new(of: &str, source: &str, function: &str) -> Owner {
        let module = source.trim_start_matches("src/").trim_end_matches(".rt");
        let folder = function.replace("::", "/");
        match module {
            "lib" | "main" => Owner { path: format!("{of}::{function}"), proofs: format!("proofs/{folder}/") },
            _ => Owner { path: format!("{of}::{module}::{function}"), proofs: format!("proofs/{module}/{folder}/") },
        }
    }

    fn has(&self, place: &Place) -> bool {
        match place {
            Place::In { file, .. } => file.starts_with(&self.proofs),
            Place::Of { function, .. } => *function == self.path,
        }
    }
}

/// One line for each fault of an edit's form.
pub fn faults(tree: &Tree, of: &str, edit: &Edit) -> Vec<String> {
    let mut faults: Vec<String> = edit.unread.iter().map(|line| format!("cannot read `{line}`")).collect();
    match &edit.wrongs[..] {
        [] => faults.push("it has no line `wrong: NAME`".to_string()),
        [wrong] if wrong.name != edit.name => faults.push(format!("its one wrong program is {}", wrong.name)),
        [_] => {}
        several => {
            if several.iter().any(|wrong| wrong.name == edit.name) {
                faults.push("it has several wrong programs, and the name of one".to_string());
            }
            faults.extend(shared(tree, of, several));
            faults.extend(after(tree, of, edit).err());
        }
    }
    for wrong in &edit.wrongs {
        faults.extend(in_section(tree, of, wrong).map(|fault| format!("{}: {fault}", wrong.name)));
    }
    faults
}

/// Wrong programs of one name: a claim could not tell them apart.
pub fn named_twice(edits: &[Edit]) -> Vec<String> {
    let (mut seen, mut faults) = (BTreeSet::new(), Vec::new());
    for wrong in edits.iter().flat_map(|edit| &edit.wrongs) {
        if !seen.insert(&wrong.name) {
            faults.push(format!("two wrong programs are named {}", wrong.name));
        }
    }
    faults
}

/// What is wrong with a section by itself.
fn in_section(tree: &Tree, of: &str, wrong: &Wrong) -> Option<String> {
    if !wrong.changes.iter().any(|change| has_statements(&change.file)) {
        return Some("it changes neither code nor a statement".to_string());
    }
    let [place] = &wrong.places[..] else {
        return Some(format!("{} lines `refused: PLACE NEED`, not 1", wrong.places.len()));
    };
    match owner(tree, of, wrong) {
        Err(fault) => Some(fault),
        Ok(Some(owner)) if !owner.has(place) => {
            Some(format!("it changes {}, and `{place}` is not of its proof", owner.path))
        }
        Ok(_) => None,
    }
}

/// What is wrong with several sections in one file.
fn shared(tree: &Tree, of: &str, wrongs: &[Wrong]) -> Vec<String> {
    let mut faults = Vec::new();
    let mut owners: Vec<Owner> = Vec::new();
    for wrong in wrongs {
        match owner(tree, of, wrong) {
            Err(_) => {}
            Ok(None) => faults.push(format!("{}: it changes more than a body, and is not alone", wrong.name)),
            Ok(Some(owner)) if owners.contains(&owner) => {
                faults.push(format!("{}: a second wrong program of {}", wrong.name, owner.path));
            }
            Ok(Some(owner)) => owners.push(owner),
        }
    }
    faults
}

fn crate_file(tree: &Tree, of: &str, file: &str) -> Option<String> {
    tree.read(&format!("crates/{of}/{file}"))
}

/// The function whose body is all that the wrong program changes, with its proof; none if it changes anything else. An error if its section cannot
/// be applied.
pub fn owner(tree: &Tree, of: &str, wrong: &Wrong) -> Result<Option<Owner>, String> {
    let before = |file: &str| crate_file(tree, of, file);
    let after = applied(before, &wrong.changes)?;
    let mut bodies = Vec::new();
    for (file, text) in after.iter().filter(|(file, _)| has_statements(file)) {
        match changed_bodies(&before(file).unwrap_or_default(), text) {
            Some(functions) if file.starts_with("src/") => {
                bodies.extend(functions.iter().map(|function| Owner::new(of, file, function)));
            }
            _ => return Ok(None),
        }
    }
    let [owner] = &bodies[..] else { return Ok(None) };
    let own = after.keys().all(|file| file.starts_with("src/") || file.starts_with(&owner.proofs));
    Ok(own.then(|| owner.clone()))
}

/// The functions of a crate.
pub fn functions_of(tree: &Tree, of: &str) -> Vec<Owner> {
    let in_file = |file: String| {
        let source = format!("src/{file}.rt");
        let functions = tree.functions(&format!("crates/{of}/{source}")).unwrap_or_default();
        functions.into_iter().map(move |function| Owner::new(of, &source, &function.path()))
    };
    tree.source_files(of).into_iter().flat_map(in_file).collect()
}

/// The function, as the prover names it, in which a line of a source stands.
pub fn function_at(of: &str, source: &str, text: &str, line: usize) -> Option<String> {
    let function = rattle::functions(text).into_iter().find(|function| function.lines.contains(&line))?;
    Some(Owner::new(of, source, &function.path()).path)
}

/// Is it a file of statements, and not the proof of a function: laws and theorems may stand in proofs/.
fn has_statements(file: &str) -> bool {
    match file.strip_prefix("proofs/") {
        Some(file) => file == "Theorems.antt" || file.strip_prefix("laws/").is_some_and(|law| !law.contains('/')),
        None => true,
    }
}

/// The functions whose bodies differ; none if anything else does.
fn changed_bodies(before: &str, after: &str) -> Option<Vec<String>> {
    let ((functions, outside), (others, outside_after)) = (rattle::apart(before), rattle::apart(after));
    if outside != outside_after {
        return None;
    }
    let differ = functions.iter().zip(&others).filter(|(one, other)| one.body != other.body);
    Some(differ.map(|(one, _)| one.path()).collect())
}

/// The files of the crate as an edit leaves them: those that it changes.
pub fn after(tree: &Tree, of: &str, edit: &Edit) -> Result<BTreeMap<String, String>, String> {
    applied(|file| crate_file(tree, of, file), edit.wrongs.iter().flat_map(|wrong| &wrong.changes))
}
