//! The order in which a reviewer reads the definitions, at the end of docs/CLAIMS.md, has every file of the first room: who reads along it has read all that
//! is claimed. A path `crates/CRATE/specs/FILE.antt` names its crate, and `FILE.antt` after it stands for the same crate, also `Theorems.antt` where that
//! stands in proofs/. That the files named are there is seen with the other citations.

use crate::tree::Tree;
use std::collections::BTreeSet;

const CLAIMS: &str = "docs/CLAIMS.md";
const HEADING: &str = "## In which order to read the definitions";
/// These list files, and have nothing to read.
const LISTS: [&str; 2] = ["Lib", "laws"];

/// One line for each fault.
pub fn faults(tree: &Tree) -> Vec<String> {
    let text = tree.read(CLAIMS).unwrap_or_default();
    let Some((_, order)) = text.split_once(HEADING) else {
        return vec![format!("{CLAIMS} has no \"{HEADING}\"")];
    };
    let named = named(order);
    let mut faults = Vec::new();
    for name in tree.crates() {
        for file in tree.spec_files(&name).into_iter().filter(|file| !LISTS.contains(&file.as_str())) {
            if !named.contains(&(name.clone(), file.clone())) {
                faults.push(format!("{CLAIMS}: {name}/{file} is not in the order of reading"));
            }
        }
    }
    faults
}

/// The files of the order, each with its crate.
fn named(order: &str) -> BTreeSet<(String, String)> {
    let mut of = String::new();
    let mut named = BTreeSet::new();
    for file in order.split('`').skip(1).step_by(2).filter_map(|text| text.strip_suffix(".antt")) {
        let name = match file.split('/').collect::<Vec<_>>()[..] {
            ["crates", name, "specs" | "proofs", file] => {
                of = name.to_string();
                file
            }
            _ => file,
        };
        named.insert((of.clone(), name.to_string()));
    }
    named
}
