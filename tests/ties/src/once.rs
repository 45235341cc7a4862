//! A word means one thing: a name that a file of the first room declares is declared by no other crate's first room. Theorems have the names of their laws,
//! and a law's name is for its readers alone, so neither counts; nor do fields, which are read with their record.

use crate::tree::Tree;
use std::collections::BTreeMap;

/// These declare no definitions.
const APART: [&str; 3] = ["Lib", "Theorems", "laws"];

/// One line for each fault.
pub fn faults(tree: &Tree) -> Vec<String> {
    let mut places: BTreeMap<String, Vec<(String, String)>> = BTreeMap::new();
    for name in tree.crates() {
        for file in tree.spec_files(&name).into_iter().filter(|file| !APART.contains(&file.as_str())) {
            for declared in tree.spec(&name, &file).unwrap_or_default().names {
                places.entry(declared).or_default().push((name.clone(), file.clone()));
            }
        }
    }
    let twice = places.into_iter().filter(|(_, places)| places.iter().any(|(of, _)| *of != places[0].0));
    twice.map(|(name, places)| format!("`{name}` is declared in {}", listed(&places))).collect()
}

fn listed(places: &[(String, String)]) -> String {
    places.iter().map(|(of, file)| format!("{of}/{file}")).collect::<Vec<_>>().join(" and ")
}
