//! Every public function that asks nothing of its caller has a wrong program of its body, which the gate sees refused.

use crate::tree::Tree;
use crate::wrong::Change;

/// One line for each function without one.
pub fn faults(tree: &Tree) -> Vec<String> {
    let mut faults = Vec::new();
    for name in tree.crates() {
        let changes: Vec<Change> =
            tree.edits_of(&name).into_iter().flat_map(|edit| edit.wrongs).flat_map(|wrong| wrong.changes).collect();
        for file in tree.source_files(&name) {
            let source = format!("src/{file}.rt");
            for function in tree.functions(&format!("crates/{name}/{source}")).unwrap_or_default() {
                let in_body = |change: &Change| change.file == source && function.body.contains(&change.old);
                if function.is_open() && !changes.iter().any(in_body) {
                    faults.push(format!(
                        "crates/{name}/{source}: no wrong program changes the body of {}",
                        function.name
                    ));
                }
            }
        }
    }
    faults
}
