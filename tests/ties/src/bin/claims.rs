//! Checks the citations of docs/CLAIMS.md and docs/claims/, the README's tables of calls and crates, that what is believed names no law, that what is
//! total asks nothing of its caller, that a wrong program of every public function is tried, that the check counts each word that it reads, that the
//! specs begin with what they hold, that a definition's name stands in one crate, and that all definitions are in the order of reading. A line for
//! each fault; the status is 1 if there is one.

use std::process::ExitCode;

fn main() -> ExitCode {
    let tree = ties::tree::Tree::given();
    let mut faults = ties::claims::faults(&tree);
    faults.extend(ties::readme::faults(&tree));
    faults.extend(ties::rooms::faults(&tree));
    faults.extend(ties::total::faults(&tree));
    faults.extend(ties::tried::faults(&tree));
    faults.extend(ties::counted::faults(&tree));
    faults.extend(ties::heads::faults(&tree));
    faults.extend(ties::once::faults(&tree));
    faults.extend(ties::order::faults(&tree));
    ties::told("claims", &faults)
}
