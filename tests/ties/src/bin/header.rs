//! Compares include/planner.h with the exported signatures. A line for each difference; the status is 1 if there is one.

use std::process::ExitCode;

fn main() -> ExitCode {
    ties::told("header", &ties::matching::faults(&ties::tree::Tree::given()))
}
