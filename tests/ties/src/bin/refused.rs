//! Reads what the prover said of each must-fail edit: every wrong program is refused at its own need, for a fact. A line for each fault; the status is 1
//! if there is one.

use std::process::ExitCode;

fn main() -> ExitCode {
    ties::told("refused", &ties::refused::faults(&ties::tree::Tree::given()))
}
