//! What ties the documents, the C header and the wrong programs to the code. `claims` checks the citations of docs/CLAIMS.md and docs/claims/, and
//! the form of their `entries`; `readme` the README's tables of calls and crates; `prose` the width of the documents; `heads` that the specs begin
//! with what they hold; `once` that a definition's name stands in one crate; `order` that all definitions are in the order of reading; `rooms` that
//! what is believed names no law; `total` that exported functions and public operations ask nothing of their caller; `tried` that a wrong program of
//! every public function is there; `counted` that the check counts each word that it reads; `refused` that each wrong program was refused at its own
//! need, by its `sections`; `matching` compares include/planner.h with the exported signatures.
//! The others read the files: `antt` the specs, `rattle` the sources, `wrong` the must-fail edits, `prover` what was said of them, `header` the C header,
//! `markdown` the documents, `citations` what a document cites; `tree` finds the files.
//! The tests in tests/ run these on small made-up trees (`small`) with one fault each.

pub mod antt;
pub mod citations;
pub mod claims;
pub mod counted;
pub mod entries;
pub mod header;
pub mod heads;
pub mod markdown;
pub mod matching;
pub mod once;
pub mod order;
pub mod prose;
pub mod prover;
pub mod rattle;
pub mod readme;
pub mod refused;
pub mod rooms;
pub mod sections;
pub mod small;
pub mod total;
pub mod tree;
pub mod tried;
pub mod wrong;

use std::process::ExitCode;

/// Print a line for each fault, or that there is none.
pub fn told(what: &str, faults: &[String]) -> ExitCode {
    for fault in faults {
        println!("{fault}");
    }
    println!("tests/{what}: {} faults", faults.len());
    ExitCode::from(u8::from(!faults.is_empty()))
}
