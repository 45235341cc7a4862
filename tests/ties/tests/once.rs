//! One name for one thing, on a small tree: nothing is found where all is well, and a name of two crates is found.

use ties::once::faults;
use ties::small::Trial;

const WALK: &str = "crates/tracing/specs/Walk.antt";
const RUN: &str = "crates/runs/specs/Run.antt";

const FILES: [(&str, &str); 7] = [
    (WALK, "pub walk : ℕ\nabbrev pub step : ℕ\npub record Step : Type 0 where\n  pub size : ℕ\n"),
    (
        RUN,
        "pub run : ℕ\npub record Run : Type 0 where\n  pub size : ℕ\n\npub data Deed : Type 0 where\n  plain : Deed\n",
    ),
    ("crates/runs/proofs/Theorems.antt", "pub step : ℕ\n"),
    ("crates/runs/proofs/laws/Run.antt", "pub walk : ℕ\n"),
    ("crates/tracing/specs/Theorems.antt", "pub run : ℕ\n"),
    ("crates/tracing/specs/laws/Walk.antt", "pub run : ℕ\n"),
    ("crates/runs/specs/Lib.antt", "pub mod Run\npub mod laws\npub mod Theorems\n"),
];

const TRIAL: Trial = Trial { files: &FILES, faults };

#[test]
fn nothing_where_all_is_well() {
    // A theorem, a law and a field may have a name that is declared elsewhere.
    TRIAL.well("once");
}

#[test]
fn a_name_of_two_crates() {
    TRIAL.after("signed", RUN, "pub run :", "pub walk :", &["`walk` is declared in runs/Run and tracing/Walk"]);
    TRIAL.after(
        "abbreviated",
        RUN,
        "pub run :",
        "abbrev pub step :",
        &["`step` is declared in runs/Run and tracing/Walk"],
    );
    TRIAL.after("record", RUN, "record Run", "record Step", &["`Step` is declared in runs/Run and tracing/Walk"]);
    TRIAL.after("constructor", RUN, "  plain :", "  walk :", &["`walk` is declared in runs/Run and tracing/Walk"]);
    TRIAL.after(
        "constructors",
        RUN,
        "  plain :",
        "  plain walk :",
        &["`walk` is declared in runs/Run and tracing/Walk"],
    );
}
