//! The rotation table and its ribbons, in plain Rust: a second implementation, written from document 01 and from the
//! requests of document 02 alone.
//!
//! It is meant to be read beside the documents, and to be compared with the library call by call. Where two ways
//! were open, the more obvious one was taken: marks and lists in place of bounds, tracing anew in place of counting
//! on. A table is a slice of words; a call answers, or declines with a numbered refusal and has changed nothing.
//!
//! From the bottom upward: `table` (the words), `check` (good or torn), `trace` (step and walk), `faces` (the listed
//! walks, corners and sides), `listing` (their words), `rule` and `edit` (the five edits), `forecast` (ask and commit), `run`
//! (runs of them), `counts` (parts, Euler numbers), `weave` (over and under), `length`, `path`, `whole` and `reader` (one
//! ribbon), `price` (what the ribbons cost), `job` (the program), `trial_job` (a job from two numbers).
//! `trial` makes tables, edits and damage from a seed, for tests.

pub mod check;
pub mod counts;
pub mod edit;
pub mod faces;
pub mod forecast;
pub mod job;
pub mod length;
pub mod listing;
pub mod path;
pub mod price;
pub mod reader;
pub mod refusal;
pub mod rule;
pub mod run;
pub mod table;
pub mod trace;
pub mod trial;
pub mod trial_job;
pub mod weave;
pub mod whole;
