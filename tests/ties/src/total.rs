//! What is total: a function that asks nothing of its caller can be called with anything, and its contract says what it does then. An exported function
//! asks nothing, since a host proves nothing; nor do the public operations under it, which are listed here by name.

use crate::tree::Tree;

/// The public operations: documents 01 and 02 name what each of them declines, and that is all they decline.
const OPERATIONS: [(&str, &[&str]); 21] = [
    ("table/src/empty.rt", &["empty"]),
    ("check_table/src/whole.rt", &["check"]),
    ("check_counted/src/whole.rt", &["counted_check"]),
    ("tracing_listing/src/call.rt", &["list"]),
    ("edits_do/src/vertex.rt", &["add_vertex", "remove_vertex"]),
    ("edits_do/src/edge.rt", &["insert_edge", "delete_edge", "turn_edge"]),
    ("edits_do/src/apply.rt", &["apply"]),
    ("forecasts_ask/src/ask.rt", &["ask_insert_edge", "ask_delete_edge", "ask_turn_edge"]),
    ("forecasts_commit/src/commit.rt", &["commit_insert_edge", "commit_delete_edge", "commit_turn_edge"]),
    ("surface_calls/src/call.rt", &["counts", "parts"]),
    ("weave_letters/src/call.rt", &["letters"]),
    ("weave_plain/src/call.rt", &["alternates", "plain"]),
    ("lengths/src/length.rt", &["cut_length"]),
    ("prices/src/call.rt", &["price_sheet"]),
    ("floatpath/src/path.rt", &["float_path"]),
    ("wholepath/src/path.rt", &["whole_path"]),
    ("reader/src/place.rt", &["begin"]),
    ("reader/src/reader.rt", &["new", "step", "step_from"]),
    ("reader/src/standing.rt", &["step_call"]),
    ("records_write/src/marked.rt", &["job_record"]),
    ("trial_make/src/call.rt", &["trial_job"]),
];

/// One line for each fault.
pub fn faults(tree: &Tree) -> Vec<String> {
    let mut faults = Vec::new();
    for of in tree.crates() {
        for function in tree.functions_of(&of).iter().filter(|function| function.is_for_c() && function.asks()) {
            faults.push(format!("crates/{of}/src: {} is for C and has a `requires`", function.name));
        }
    }
    for (source, operations) in OPERATIONS {
        let path = format!("crates/{source}");
        let functions = tree.functions(&path).unwrap_or_default();
        for operation in operations {
            match functions.iter().find(|function| function.name == *operation) {
                None => faults.push(format!("{path} has no operation {operation}")),
                Some(function) if !function.is_public() => faults.push(format!("{path}: {operation} is not public")),
                Some(function) if function.asks() => faults.push(format!("{path}: {operation} has a `requires`")),
                Some(_) => {}
            }
        }
    }
    faults
}
