//! What is total: nothing is found in the sources, and a `requires` is, on an exported function or on an operation.

use std::path::Path;
use ties::small::Trial;
use ties::total::faults;
use ties::tree::Tree;

const INTERFACE: &str = "crates/planner/src/lib.rt";
const LISTING: &str = "crates/tracing_listing/src/call.rt";

const FILES: [(&str, &str); 2] = [
    (
        INTERFACE,
        "#[unsafe(no_mangle)]\npub extern \"C\" fn planner_check(t: &[u16]) -> i64\n    ensures { result ≡ code_of (check_of t.now) }\n{\n    code(check(t))\n}\n\n\
         fn inner(n: u16) -> u16\n    requires { n < 9 }\n    ensures { result ≡ n }\n{\n    n\n}\n",
    ),
    (
        LISTING,
        "pub fn list(t: &[u16], out: &mut [u16]) -> Result<u32, Refusal>\n    ensures { result ≡ list_answer t.now }\n{\n    Ok(0)\n}\n",
    ),
];

/// The operations of other crates are not there.
fn of_these(tree: &Tree) -> Vec<String> {
    faults(tree).into_iter().filter(|fault| !fault.contains(" has no operation ") || fault.contains(" list")).collect()
}

const TRIAL: Trial = Trial { files: &FILES, faults: of_these };

#[test]
fn nothing_where_all_is_well() {
    TRIAL.well("total");
    let whole = Tree::new(&Path::new(env!("CARGO_MANIFEST_DIR")).join("../.."));
    assert_eq!(faults(&whole), Vec::<String>::new());
}

#[test]
fn an_exported_function_that_asks() {
    let asks = "-> i64\n    requires { length t.now ≡ 7680 }\n";
    TRIAL.after("exported", INTERFACE, "-> i64\n", asks, &["planner_check is for C and has a `requires`"]);
    let unmarked = TRIAL.whole("unmarked").change(INTERFACE, "#[unsafe(no_mangle)]\n", "");
    TRIAL.found(&unmarked.change(INTERFACE, "-> i64\n", asks), &["planner_check is for C and has a `requires`"]);
}

#[test]
fn an_operation_that_asks() {
    let asks = "-> Result<u32, Refusal>\n    requires { Good t.now }\n";
    TRIAL.after(
        "operation",
        LISTING,
        "-> Result<u32, Refusal>\n",
        asks,
        &["crates/tracing_listing/src/call.rt: list has a `requires`"],
    );
    let named = "-> Result<u32, Refusal>\n    requires good { Good t.now }\n    requires short { length out.old < 9 }\n";
    TRIAL.after("named", LISTING, "-> Result<u32, Refusal>\n", named, &["list has a `requires`"]);
    let lines = "-> Result<u32, Refusal>\n    requires {\n        Good t.now\n    }\n";
    TRIAL.after("lines", LISTING, "-> Result<u32, Refusal>\n", lines, &["list has a `requires`"]);
    TRIAL.after(
        "private",
        LISTING,
        "pub fn list",
        "fn list",
        &["crates/tracing_listing/src/call.rt: list is not public"],
    );
    TRIAL.after(
        "gone",
        LISTING,
        "pub fn list",
        "pub fn write",
        &["crates/tracing_listing/src/call.rt has no operation list"],
    );
}
