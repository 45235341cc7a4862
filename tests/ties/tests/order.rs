//! The order of reading, on a small tree: nothing is found where all is well, and a file that is left out is found.

use ties::order::faults;
use ties::small::Trial;

const CLAIMS: &str = "docs/CLAIMS.md";

const FILES: [(&str, &str); 7] = [
    (
        CLAIMS,
        "`crates/runs/specs/Run.antt`\n\n## In which order to read the definitions\n\n1. `crates/tracing/specs/Step.antt`, `Walk.antt`: `walk`;\n\
         2. `crates/runs/specs/Run.antt`\n",
    ),
    ("crates/tracing/specs/Step.antt", ""),
    ("crates/tracing/specs/Walk.antt", "pub walk : ℕ\n"),
    ("crates/tracing/specs/Lib.antt", "pub mod Step\npub mod Walk\n"),
    ("crates/tracing/specs/laws.antt", "pub mod Deep\n"),
    ("crates/tracing/specs/laws/Deep.antt", ""),
    ("crates/runs/specs/Run.antt", ""),
];

const TRIAL: Trial = Trial { files: &FILES, faults };

#[test]
fn nothing_where_all_is_well() {
    TRIAL.well("order");
}

#[test]
fn a_file_that_is_left_out() {
    TRIAL.after("left-out", CLAIMS, ", `Walk.antt`", "", &["tracing/Walk is not in the order of reading"]);
    // What stands before the order does not count.
    TRIAL.after(
        "before",
        CLAIMS,
        "2. `crates/runs/specs/Run.antt`",
        "2.",
        &["runs/Run is not in the order of reading"],
    );
    // A file of another crate has another path.
    let moved = "`crates/runs/specs/Step.antt`, `Walk.antt`";
    let missing = ["tracing/Step is not in the order", "tracing/Walk is not in the order"];
    TRIAL.after("crate", CLAIMS, "`crates/tracing/specs/Step.antt`, `Walk.antt`", moved, &missing);
    let new = TRIAL.whole("new").add("crates/runs/specs/New.antt", "pub new : ℕ\n");
    TRIAL.found(&new, &["runs/New is not in the order of reading"]);
    // Theorems, in specs/ or in proofs/.
    let order = |name: &str| TRIAL.whole(name).add("crates/runs/proofs/Theorems.antt", "pub holds : ℕ\n");
    TRIAL.found(&order("theorems-left"), &["runs/Theorems is not in the order of reading"]);
    let last = "2. `crates/runs/specs/Run.antt`";
    TRIAL.found(&order("theorems").change(CLAIMS, last, "2. `crates/runs/specs/Run.antt`, `Theorems.antt`"), &[]);
    let by_path = "2. `crates/runs/proofs/Theorems.antt`; `crates/runs/specs/Run.antt`";
    TRIAL.found(&order("theorems-path").change(CLAIMS, last, by_path), &[]);
    // Laws have no place in it, and a lemma of proofs/ neither.
    let laws = TRIAL.whole("laws").add("crates/runs/proofs/laws/Deep.antt", "").add("crates/runs/proofs/Far.antt", "");
    TRIAL.found(&laws, &[]);
}

#[test]
fn no_order() {
    TRIAL.after(
        "none",
        CLAIMS,
        "## In which order",
        "## In any order",
        &["has no \"## In which order to read the definitions\""],
    );
}
