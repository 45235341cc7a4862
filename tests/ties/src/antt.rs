//! What a spec file declares. A name stands in a file if it is declared at the left margin, or further in as `pub`, or is a
//! constructor of a data type there, or is passed on by `pub use M.{..}`. What a module further in keeps to itself is apart.
//! Local definitions do not count.

use std::collections::BTreeSet;

#[derive(Default)]
pub struct Declared {
    pub names: BTreeSet<String>,
    /// Fields of records, without their dot.
    pub fields: BTreeSet<String>,
    /// Names further in than the left margin that are not `pub`, of a module and not of a definition.
    pub inner: BTreeSet<String>,
}

impl Declared {
    /// What both declare.
    pub fn with(mut self, other: Declared) -> Declared {
        self.names.extend(other.names);
        self.fields.extend(other.fields);
        self.inner.extend(other.inner);
        self
    }

    pub fn all(&self) -> BTreeSet<String> {
        [&self.names, &self.fields, &self.inner].into_iter().flatten().cloned().collect()
    }
}

enum Body {
    Record,
    Data,
}

pub fn declared(text: &str) -> Declared {
    let mut found = Declared::default();
    // The record or data type whose body is being read, and the column at which it was declared.
    let mut body: Option<(Body, usize)> = None;
    let mut passed_on: Option<String> = None;
    // The columns of the modules that are open.
    let mut modules: Vec<usize> = Vec::new();
    for line in text.lines() {
        let (column, line) = (line.len() - line.trim_start().len(), line.trim());
        if line.is_empty() || line.starts_with("--") {
            continue;
        }
        if let Some(names) = passed_on.as_mut() {
            names.push_str(line);
        } else if line.starts_with("pub use ") {
            passed_on = Some(line.to_string());
        } else {
            if matches!(body, Some((_, at)) if column <= at) {
                body = None;
            }
            modules.retain(|at| *at < column);
            match &body {
                Some((kind, at)) if column == at + 2 => note_member(&mut found, kind, line),
                Some(_) => {}
                None if line.trim_start_matches("pub ").starts_with("module ") => modules.push(column),
                None => {
                    let of_module = column == modules.last().map_or(0, |at| at + 2);
                    body = note_declaration(&mut found, column, of_module, line);
                }
            }
        }
        if matches!(&passed_on, Some(names) if names.contains('}')) {
            note_passed_on(&mut found, &passed_on.take().unwrap());
        }
    }
    found
}

/// Fields of a record, or constructors of a data type; those of one type may share a line, `a b : T`.
fn note_member(found: &mut Declared, kind: &Body, line: &str) {
    let line = line.strip_prefix("pub ").unwrap_or(line);
    let names = match line.split_once(" :") {
        Some((names, after)) if after.is_empty() || after.starts_with(' ') => names.split(' ').map(String::from),
        _ => return,
    };
    match kind {
        Body::Record => found.fields.extend(names),
        Body::Data => found.names.extend(names),
    }
}

fn note_declaration(found: &mut Declared, column: usize, of_module: bool, line: &str) -> Option<(Body, usize)> {
    let (mut rest, mut public) = (line, false);
    while let Some((word, after)) = rest.split_once(' ') {
        match word {
            "pub" => public = true,
            "abbrev" | "unfoldable" => {}
            _ => break,
        }
        rest = after;
    }
    if column > 0 && !public {
        found.inner.extend(named(rest).filter(|_| of_module));
        return None;
    }
    for (keyword, body) in [("record ", Body::Record), ("data ", Body::Data)] {
        if let Some(after) = rest.strip_prefix(keyword) {
            found.names.extend(after.split_whitespace().next().map(String::from));
            return Some((body, column));
        }
    }
    found.names.extend(signed(rest));
    None
}

/// The name of a signature, of a record or of a data type.
fn named(line: &str) -> Option<String> {
    let of_type = ["record ", "data "].iter().find_map(|keyword| line.strip_prefix(keyword));
    of_type.map_or_else(|| signed(line), |after| after.split_whitespace().next().map(String::from))
}

/// The name of a signature `name : type`.
fn signed(line: &str) -> Option<String> {
    let (name, rest) = line.split_once(' ')?;
    (rest == ":" || rest.starts_with(": ")).then(|| name.to_string())
}

/// `pub use M.{a, b}` passes a and b on.
fn note_passed_on(found: &mut Declared, line: &str) {
    if let Some((_, names)) = line.split_once('{') {
        let names = names.split('}').next().unwrap_or("");
        found.names.extend(names.split(',').map(|name| name.trim().to_string()).filter(|name| !name.is_empty()));
    }
}
