//! What the prover said of a crate: its errors, each in a declaration of a file, and for each function whether it is proved. A line in other words than
//! those below says nothing, so that a prover which words things otherwise is noticed where something is missing.

use std::collections::BTreeMap;

/// An error, with the lines that go on.
pub struct Error {
    /// The path of the file in the crate; empty where none is named.
    pub path: String,
    /// The declaration that was refused; empty where none is named.
    pub need: String,
    pub text: String,
}

impl Error {
    /// Is a fact refused: a type, a value or a bound is not what it has to be. Not so where a proof no longer fits its code: a name that is gone, another
    /// number of arguments, the needs of another place.
    pub fn is_of_a_fact(&self) -> bool {
        let begins = BEGINS.iter().any(|fact| self.text.starts_with(fact));
        let fact = begins || WITHIN.iter().any(|fact| self.text.contains(fact));
        !self.need.is_empty() && fact && !self.text.contains(ANOTHER_PLACE)
    }

    /// Is it only that declarations rest on another that was refused: `2 declarations that depend on `NEED`, which was rejected, were not checked: ..`.
    pub fn follows(&self) -> bool {
        let Some((count, told)) = self.text.split_once(' ') else { return false };
        let depends = ["declaration that depends on `", "declarations that depend on `"];
        let refused = ["`, which was rejected, w", "`, which was not admitted, w"];
        count.chars().all(|c| c.is_ascii_digit())
            && depends.iter().any(|depends| told.starts_with(depends))
            && refused.iter().any(|refused| told.contains(refused))
    }
}

/// How errors begin in which two types or values differ, a goal does not follow, or an equation does not bear on it.
const BEGINS: [&str; 11] = [
    "as printed, the two ",
    "computed as far as they go, the two ",
    "expected type `",
    "`omega`: the goal does not follow from what it read. All of that holds, and the goal fails, at ",
    "`omega`: the part `",
    "`grind`: the goal does not follow. The hypotheses hold, and ",
    "`search`: no proof of `",
    "`rw`: no occurrence of the path's left endpoint in the ",
    "`simp`: no equation of the list has an instance in the goal `",
    "`simp`: no equation of the list can be applied in `",
    "`simp`: no equation of the list has an instance where it is tried in `",
];

/// What stands in errors that begin with the two sides of a comparison, or with advice.
const WITHIN: [&str; 2] = [
    "\n  does not hold (this comparison",
    "` has no last argument, so what it leaves must be a path whose two ends are equal",
];

/// Where what is known at one place of the code is handed over as what is known at another: the wrong program has other steps.
const ANOTHER_PLACE: &str = "expected type `Lts.View.";

/// What is said of a function.
pub enum Verdict {
    Proved,
    /// A function that it calls is not proved; of its own proof nothing is said.
    Follows,
    /// Its own proof fails; where it has no proof file, these needs were left open.
    Fails {
        open: Vec<String>,
    },
}

/// A need that no proof file answers and that the search left open.
pub struct Open {
    /// The source's path in the crate, and the line in it.
    pub path: String,
    pub line: usize,
    pub need: String,
}

#[derive(Default)]
pub struct Said {
    pub errors: Vec<Error>,
    pub open: Vec<Open>,
    /// By the functions' paths.
    pub verdicts: BTreeMap<String, Verdict>,
    /// That the crate is not proved.
    pub refused: bool,
}

pub fn read(log: &str) -> Said {
    let mut said = Said::default();
    let mut in_error = false;
    for line in log.lines() {
        if let Some(error) = error(line) {
            said.errors.push(error);
            in_error = true;
        } else if in_error && line.starts_with("  ") {
            let last = said.errors.last_mut().unwrap();
            last.text.push('\n');
            last.text.push_str(line);
        } else {
            in_error = false;
            said.verdicts.extend(verdict(line));
            said.open.extend(open(line));
            said.refused |= line == "logic=not-proved";
        }
    }
    said
}

/// `PATH:LINE:COLUMN: error: `NEED`: TEXT`. Where the sources are refused before any proof, it is `error[NAME]`.
fn error(line: &str) -> Option<Error> {
    let (at, told) = match line.strip_prefix("error") {
        Some(told) => ("", told),
        None => line.split_once(": error")?,
    };
    let told = told.strip_prefix(": ").or(Some(told).filter(|told| told.starts_with('[')))?;
    let (need, text) = told.strip_prefix('`').and_then(|told| told.split_once("`: ")).unwrap_or(("", told));
    // One with a path alone is an error too; a sentence in which the word stands is none.
    let path = match place(at) {
        Some((path, _)) => path,
        None if at.contains(' ') => return None,
        None => at.strip_prefix("./").unwrap_or(at).to_string(),
    };
    Some(Error { path, need: need.to_string(), text: text.to_string() })
}

/// `PATH:LINE:COLUMN` without the column; nothing where nothing stands.
fn place(at: &str) -> Option<(String, usize)> {
    if at.is_empty() {
        return Some((String::new(), 0));
    }
    let [_, line, path] = at.rsplitn(3, ':').collect::<Vec<_>>()[..] else { return None };
    Some((path.strip_prefix("./").unwrap_or(path).to_string(), line.parse().ok()?))
}

/// `note: PATH:LINE:COLUMN: it is not proved that .. (`NEED`)`.
fn open(line: &str) -> Option<Open> {
    let (at, told) = line.strip_prefix("note: ")?.split_once(": it is not proved that ")?;
    let (_, need) = told.split_once("(`")?;
    let (path, line) = place(at)?;
    Some(Open { path, line, need: need.split_once("`)")?.0.to_string() })
}

/// `fn FUNCTION: proved`, `fn FUNCTION: not proved`, or `fn FUNCTION: no proof: ..` where it has no proof file. After `: ` or `; ` stands why: `it calls ..`, that
/// its proof is by hand, or ``search` did not prove `NEED`, `NEED` and `NEED``.
fn verdict(line: &str) -> Option<(String, Verdict)> {
    let (function, told) = line.strip_prefix("fn ")?.split_once(": ")?;
    let told = told.strip_prefix("no proof: ").map_or(told.to_string(), |why| format!("no proof; {why}"));
    let (told, why) = told.split_once("; ").unwrap_or((&told, ""));
    let whys = || why.split("; ").filter(|why| !why.starts_with("expected answers in "));
    let verdict = if told == "proved" && why.is_empty() {
        Verdict::Proved
    } else if told != "not proved" && (told != "no proof" || why.is_empty()) {
        return None;
    } else if whys().any(|why| why.starts_with("it calls `")) {
        Verdict::Follows
    } else if let Some(open) = whys().find_map(|why| why.strip_prefix("`search` did not prove ")) {
        Verdict::Fails { open: open.split(", ").flat_map(|open| open.split(" and ")).map(bare).collect() }
    } else if why.is_empty() || why.starts_with(BY_HAND) {
        Verdict::Fails { open: Vec::new() }
    } else {
        return None;
    };
    Some((function.to_string(), verdict))
}

/// Of a function that the prover cannot walk itself, and that is proved by hand otherwise.
const BY_HAND: &str = "the borrow checker does not cover this function yet: ";

/// What stands between backquotes.
fn bare(quoted: &str) -> String {
    quoted.trim_matches('`').to_string()
}
