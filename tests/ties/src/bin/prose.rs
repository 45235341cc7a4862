//! Checks the width of the documents' lines. A line for each that is too wide or ends with a blank; the status is 1 if there is one.

use std::process::ExitCode;

fn main() -> ExitCode {
    ties::told("prose", &ties::prose::faults(&ties::tree::Tree::given()))
}
