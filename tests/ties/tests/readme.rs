//! The tables of the README on a small tree: nothing is found where all is well, and each kind of fault is found.

use ties::readme::faults;
use ties::small::Trial;

const README: &str = "README.md";
const HEADER: &str = "include/planner.h";

const FILES: [(&str, &str); 5] = [
    (
        README,
        "# It\n\n| What | Calls, each with `planner_` before it |\n|---|---|\n| fill it | `empty`, `planner_check` |\n\n\
         | Family | Crates | What it is |\n|---|---|---|\n| check | `table`, `_whole` | the `words` |\n| runs | *`runs`* | |\n",
    ),
    (HEADER, "int64_t planner_empty(uint16_t *table, size_t words);\nint64_t planner_check(const uint16_t *table, size_t words);\n"),
    ("crates/table/src/lib.rt", ""),
    ("crates/check_whole/src/lib.rt", ""),
    ("crates/runs/src/lib.rt", ""),
];

const TRIAL: Trial = Trial { files: &FILES, faults };

#[test]
fn nothing_where_all_is_well() {
    TRIAL.well("readme");
}

#[test]
fn another_call() {
    TRIAL.after("call", README, "`empty`, ", "", &["\"Calls\" lacks planner_empty"]);
    TRIAL.after(
        "renamed",
        HEADER,
        "planner_empty",
        "planner_fill",
        &["\"Calls\" lacks planner_fill", "\"Calls\" has planner_empty, which is not there"],
    );
    TRIAL.after("calls", README, "| What | Calls", "| What | Functions", &["no table with the column \"Calls\""]);
    TRIAL.after("open", README, "`empty`, `planner_check`", "`empty`, `planner_check", &["no table with the column"]);
}

#[test]
fn another_crate() {
    let more = TRIAL.whole("more").add("crates/weave/src/lib.rt", "");
    TRIAL.found(&more, &["\"Crates\" lacks weave"]);
    TRIAL.after(
        "family",
        README,
        "| check |",
        "| test |",
        &["lacks check_whole", "has test_whole, which is not there"],
    );
    TRIAL.after("italics", README, "*`runs`*", "*`run`*", &["\"Crates\" lacks runs", "\"Crates\" has run,"]);
    TRIAL.after("crates", README, "| Crates |", "| Rooms |", &["no table with the column \"Crates\""]);
}

#[test]
fn no_readme() {
    TRIAL.found(&TRIAL.whole("no-readme").remove(README), &["README.md is not there"]);
}
