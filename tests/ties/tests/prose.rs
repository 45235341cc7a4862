//! The width of the documents on a small tree: nothing is found where all is well, and each kind of fault is found.

use ties::prose::faults;
use ties::small::Trial;

const README: &str = "README.md";
const DEEP: &str = "docs/notes/deep.md";

/// Twenty characters, of more bytes.
const TWENTY: &str = "abcd efgh ijkl mnö ≤";

const FILES: [(&str, &str); 4] = [
    (README, "# It\n\nWHAT\n\n| a | b |\n|---|---|\n| CELL |\n\n```text\nFENCED\n```\n\nEND\n"),
    ("CHANGELOG.md", "# Changes\n"),
    (DEEP, "# Deep\n\nwords\n"),
    ("docs/figures/wide.svg", "<svg>                                                                                                    </svg>\n"),
];

const TRIAL: Trial = Trial { files: &FILES, faults };

fn after(name: &str, path: &str, old: &str, new: &str, expected: &[&str]) {
    TRIAL.after(name, path, old, new, expected);
}

#[test]
fn nothing_where_all_is_well() {
    TRIAL.well("prose");
    after("full", README, "WHAT", &TWENTY.repeat(5), &[]);
    after("full-row", README, "CELL |", &format!("{}..{}|", TWENTY.repeat(5), &TWENTY[..15]), &[]);
    after("fenced", README, "FENCED", &TWENTY.repeat(9), &[]);
}

#[test]
fn a_line_that_is_too_wide() {
    let wide = TWENTY.repeat(5) + "x";
    after("wide", README, "WHAT", &wide, &["README.md:3: 101 characters, not 100 at most"]);
    after("after-fence", README, "END", &wide, &["README.md:13: 101 characters, not 100 at most"]);
    after("deep", DEEP, "words", &wide, &["docs/notes/deep.md:3: 101 characters, not 100 at most"]);
    after("changes", "CHANGELOG.md", "# Changes", &wide, &["CHANGELOG.md:1: 101 characters"]);
    let row = format!("{}x|", TWENTY.repeat(6));
    after("row", README, "CELL |", &row, &["README.md:7: 124 characters, not 120 at most"]);
    after("indented-row", README, "| CELL |", &format!(" | {}|", TWENTY.repeat(5)), &["104 characters, not 100"]);
}

#[test]
fn a_line_that_ends_with_a_blank() {
    after("blank", README, "WHAT", "WHAT ", &["README.md:3: it ends with a blank"]);
    after("tab", README, "FENCED", "FENCED\t", &["README.md:10: it ends with a blank"]);
    after("empty", DEEP, "\n\nwords", "\n \nwords", &["docs/notes/deep.md:2: it ends with a blank"]);
}

#[test]
fn a_fence_that_is_not_closed() {
    after("open", README, "FENCED\n```", "FENCED", &["README.md:9: a fence that is not closed"]);
}

#[test]
fn a_document_that_is_not_there() {
    TRIAL.found(&TRIAL.whole("gone").remove("CHANGELOG.md"), &["CHANGELOG.md is not there"]);
}
