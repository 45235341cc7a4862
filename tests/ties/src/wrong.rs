//! The wrong programs, which the prover must refuse: crates/CRATE/must-fail/FILE.edit. A file has one of them or several, each in a section
//! of its own:
//!
//! ```text
//! wrong: NAME
//! # why, where that is not plain
//! refused: PLACE NEED
//! file: PATH
//! old: TEXT
//! new: TEXT
//! ```
//!
//! PATH is a file under the crate, for the pairs after it, and its TEXT stands there once. PLACE is the file in which the proof must fail and NEED
//! the declaration there, or, where no proof file of a function answers the need, `fn CRATE::MODULE::FUNCTION` and the need. `rt` applies all pairs of a
//! file to one copy of the crate and checks it once; it passes over the lines that it does not know.

use std::collections::BTreeMap;

#[derive(Clone)]
pub struct Change {
    pub file: String,
    pub old: String,
    pub new: String,
}

/// Where a wrong program must be refused.
#[derive(Clone, PartialEq)]
pub enum Place {
    /// A declaration of a file of the crate.
    In { file: String, need: String },
    /// A need of a function that has no proof file.
    Of { function: String, need: String },
}

pub struct Wrong {
    pub name: String,
    pub places: Vec<Place>,
    pub changes: Vec<Change>,
}

/// A must-fail edit.
pub struct Edit {
    pub name: String,
    pub wrongs: Vec<Wrong>,
    /// What was not understood.
    pub unread: Vec<String>,
}

pub fn read(name: &str, text: &str) -> Edit {
    let mut edit = Edit { name: name.to_string(), wrongs: Vec::new(), unread: Vec::new() };
    let (mut file, mut old) = (None, None);
    for line in text.lines() {
        if line.is_empty() || line.starts_with('#') {
            continue;
        }
        if let Some(name) = line.strip_prefix("wrong: ") {
            edit.wrongs.push(Wrong { name: name.to_string(), places: Vec::new(), changes: Vec::new() });
            (file, old) = (None, None);
            continue;
        }
        let Some(wrong) = edit.wrongs.last_mut() else {
            edit.unread.push(line.to_string());
            continue;
        };
        if let Some(place) = line.strip_prefix("refused: ").and_then(place) {
            wrong.places.push(place);
        } else if let Some(path) = line.strip_prefix("file: ") {
            file = Some(path.to_string());
        } else if let Some(text) = line.strip_prefix("old: ").filter(|_| old.is_none()) {
            old = Some(text.to_string());
        } else if let (Some(new), Some(file), Some(was)) = (line.strip_prefix("new:"), &file, &old) {
            let new = new.strip_prefix(' ').unwrap_or(new).to_string();
            wrong.changes.push(Change { file: file.clone(), old: was.clone(), new });
            old = None;
        } else {
            edit.unread.push(line.to_string());
        }
    }
    edit.unread.extend(old.map(|old| format!("old: {old}")));
    edit
}

/// `FILE NEED`, or `fn FUNCTION NEED`.
fn place(text: &str) -> Option<Place> {
    let own = String::from;
    match text.split(' ').collect::<Vec<_>>()[..] {
        ["fn", function, need] => Some(Place::Of { function: own(function), need: own(need) }),
        [file, need] => Some(Place::In { file: own(file), need: own(need) }),
        _ => None,
    }
}

impl std::fmt::Display for Place {
    fn fmt(&self, out: &mut std::fmt::Formatter) -> std::fmt::Result {
        match self {
            Place::In { file, need } => write!(out, "{file} {need}"),
            Place::Of { function, need } => write!(out, "fn {function} {need}"),
        }
    }
}

/// The files of a crate after these changes, one after the other: those that a change names, by their paths. `before` gives a file as it is. An
/// error if an old text does not stand in its file once.
pub fn applied<'a>(
    before: impl Fn(&str) -> Option<String>,
    changes: impl IntoIterator<Item = &'a Change>,
) -> Result<BTreeMap<String, String>, String> {
    let mut after = BTreeMap::new();
    for Change { file, old, new } in changes {
        let text = match after.get(file) {
            Some(text) => Some(String::clone(text)),
            None => before(file),
        };
        let text = text.ok_or_else(|| format!("there is no {file}"))?;
        match text.matches(old.as_str()).count() {
            1 => after.insert(file.clone(), text.replace(old.as_str(), new)),
            times => return Err(format!("`{old}` stands in {file} {times} times")),
        };
    }
    Ok(after)
}
