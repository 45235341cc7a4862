//! What a document cites. The grammar stands at the head of docs/CLAIMS.md, "How to read them"; what does not fit it is a fault.

use crate::markdown::{spans, Block, Mark, Span};
use crate::tree::{Tree, THEOREMS};
use crate::{rattle, rooms};
use std::collections::BTreeSet;

/// A spec file: crates/CRATE/specs/FILE.antt.
#[derive(Clone, PartialEq)]
struct Spec {
    name: String,
    file: String,
}

/// What stands in backquotes.
enum Cited {
    Spec(Spec),
    Source(String),
    Path(String),
    Call(String),
    Field(String),
    Name(String),
}

/// Names that follow each other with no file before them.
#[derive(Default)]
struct Run {
    names: Vec<(String, usize)>,
    contract: bool,
}

pub struct Citations<'a> {
    tree: &'a Tree,
    document: &'a str,
    pub faults: Vec<String>,
    /// Wrong programs, as crate/name.
    pub wrongs: BTreeSet<String>,
    /// Names that were cited with their file.
    placed: BTreeSet<String>,
    /// Names on their own, with their lines.
    alone: Vec<(String, usize)>,
    /// The crate whose specs were named last.
    folder: Option<String>,
}

impl<'a> Citations<'a> {
    pub fn new(tree: &'a Tree, document: &'a str) -> Citations<'a> {
        Citations {
            tree,
            document,
            faults: Vec::new(),
            wrongs: BTreeSet::new(),
            placed: BTreeSet::new(),
            alone: Vec::new(),
            folder: None,
        }
    }

    pub fn fault(&mut self, line: usize, what: String) {
        self.faults.push(format!("{}:{line}: {what}", self.document));
    }

    /// The marked words of a block, and the text after them; a mark that is not closed is a fault.
    pub fn spans_of(&mut self, block: &Block) -> (Vec<Span>, String) {
        spans(block).unwrap_or_else(|fault| {
            self.faults.push(format!("{}:{fault}", self.document));
            (Vec::new(), String::new())
        })
    }

    /// Check what a block cites.
    pub fn read(&mut self, block: &Block) {
        let (spans, tail) = self.spans_of(block);
        // The file whose names are being listed.
        let mut list = None;
        let mut listing = false;
        let mut run = Run::default();
        for (i, span) in spans.iter().enumerate() {
            let after = spans.get(i + 1).map_or(&tail, |next| &next.before);
            if span.mark == Mark::Italics {
                self.read_wrong(span);
                listing = false;
                continue;
            }
            if span.before.ends_with("crate ") {
                self.read_crate(span);
                continue;
            }
            let goes_on = joins(&span.before);
            match self.cited(span) {
                Some(Cited::Spec(spec)) => {
                    self.end_run(&mut run);
                    let there = self.tree.spec(&spec.name, &spec.file).is_some();
                    if !there {
                        self.file_is_missing(span, &spec);
                    }
                    self.folder = Some(spec.name.clone());
                    (list, listing) = (Some(spec).filter(|_| there), true);
                }
                Some(Cited::Name(name)) if listing && goes_on => {
                    self.read_listed(span, list.as_ref(), &name);
                }
                Some(Cited::Field(field)) if listing && goes_on => {
                    self.read_field(span, list.as_ref(), &field);
                }
                Some(Cited::Field(field)) => self.fault(span.line, format!("`.{field}` stands after no file")),
                Some(Cited::Name(name)) => {
                    listing = false;
                    if run.names.is_empty() || !joins(&span.before) {
                        self.end_run(&mut run);
                        run.contract = ends_with_contract(&span.before);
                    }
                    run.names.push((name, span.line));
                }
                Some(Cited::Source(path)) => {
                    listing = false;
                    if !self.tree.has(&path) {
                        self.fault(span.line, format!("there is no {path}"));
                    } else if span.before == " (" && after.starts_with(')') {
                        self.read_contracts(&path, &mut run);
                    }
                }
                Some(Cited::Path(path)) => {
                    listing = false;
                    if !self.tree.has(&path) {
                        self.fault(span.line, format!("there is no {path}"));
                    }
                }
                Some(Cited::Call(name)) => {
                    listing = false;
                    if !self.tree.header_functions().contains(&name) {
                        self.fault(span.line, format!("include/planner.h has no {name}"));
                    }
                }
                None => listing = false,
            }
        }
        self.end_run(&mut run);
    }

    /// What a span in backquotes is; a fault if it is nothing that can be cited.
    fn cited(&mut self, span: &Span) -> Option<Cited> {
        let text = span.text.as_str();
        if text.split('/').any(|part| part == "laws") {
            self.fault(span.line, format!("`{text}` cites a law, which nobody has to read"));
            return None;
        }
        if let Some(spec) = self.spec_of(text) {
            return Some(Cited::Spec(spec));
        }
        if let [name, "src", file] = text.trim_start_matches("crates/").split('/').collect::<Vec<_>>()[..] {
            return Some(Cited::Source(format!("crates/{name}/src/{file}")));
        }
        if text.contains('/') {
            return Some(Cited::Path(text.to_string()));
        }
        if text.starts_with("planner_") {
            return Some(Cited::Call(text.to_string()));
        }
        // What follows the first word are arguments.
        let head = text.split(' ').next().unwrap_or("");
        let field = head.strip_prefix('.');
        if is_name(field.unwrap_or(head)) {
            return Some(field.map_or(Cited::Name(head.to_string()), |field| Cited::Field(field.to_string())));
        }
        self.fault(span.line, format!("cannot read `{text}`"));
        None
    }

    /// `table/Good`, `crates/table/specs/Good.antt`, or `Good.antt` of the crate named last.
    fn spec_of(&self, text: &str) -> Option<Spec> {
        let parts: Vec<&str> = text.split('/').collect();
        let (name, file) = match parts[..] {
            [name, file] if !file.contains('.') => (name.to_string(), file),
            ["crates", name, "specs", file] => (name.to_string(), file.strip_suffix(".antt")?),
            ["crates", name, "proofs", "Theorems.antt"] => (name.to_string(), THEOREMS),
            [file] => (self.folder.clone()?, file.strip_suffix(".antt")?),
            _ => return None,
        };
        let capital = file.starts_with(|c: char| c.is_ascii_uppercase()) && file.chars().all(char::is_alphanumeric);
        capital.then(|| Spec { name, file: file.to_string() })
    }

    fn read_wrong(&mut self, span: &Span) {
        let text = span.text.clone();
        match text.split_once('/') {
            Some((name, wrong)) if is_word(name) && is_word(wrong) => {
                if !self.tree.wrongs_of(name).contains(wrong) {
                    self.fault(span.line, format!("there is no wrong program *{text}*"));
                }
                self.wrongs.insert(text);
            }
            _ => self.fault(span.line, format!("cannot read *{text}*")),
        }
    }

    fn read_crate(&mut self, span: &Span) {
        if !is_word(&span.text) || !self.tree.has(&format!("crates/{}", span.text)) {
            self.fault(span.line, format!("there is no crate `{}`", span.text));
        }
    }

    /// A name in the list after a file. Nothing more is said where the file is not there.
    fn read_listed(&mut self, span: &Span, spec: Option<&Spec>, name: &str) {
        self.placed.insert(name.to_string());
        let Some(Spec { name: of, file }) = spec else { return };
        let declared = self.tree.spec(of, file).unwrap_or_default();
        if declared.names.contains(name) {
            return;
        }
        let hint = if declared.fields.contains(name) {
            " (a field is cited with its dot)".to_string()
        } else {
            let others = self.tree.declaring(name);
            if others.is_empty() {
                String::new()
            } else {
                format!(" ({} does)", others.join(", "))
            }
        };
        self.fault(span.line, format!("{of}/{file} declares no `{name}`{hint}"));
    }

    fn file_is_missing(&mut self, span: &Span, spec: &Spec) {
        let Spec { name, file } = spec;
        let law = self.tree.spec(name, &format!("laws/{file}")).is_some();
        let hint = if law { " (it is a law)" } else { "" };
        self.fault(span.line, format!("there is no crates/{name}/specs/{file}.antt{hint}"));
    }

    fn read_field(&mut self, span: &Span, spec: Option<&Spec>, field: &str) {
        let Some(Spec { name: of, file }) = spec else { return };
        if !self.tree.spec(of, file).unwrap_or_default().fields.contains(field) {
            self.fault(span.line, format!("{of}/{file} has no record with the field `.{field}`"));
        }
    }

    /// "`f`, `g` (`crate/src/file.rt`)": contracts of functions of that file, which a reader of the first room can read.
    fn read_contracts(&mut self, path: &str, run: &mut Run) {
        let source = self.tree.read(path).unwrap_or_default();
        let functions = rattle::functions(&source);
        for (name, line) in std::mem::take(run).names {
            match functions.iter().find(|function| function.name == name) {
                None => self.fault(line, format!("{path} has no function `{name}`")),
                Some(function) if !function.has_contract() => {
                    self.fault(line, format!("`{name}` of {path} promises nothing"));
                }
                Some(function) => {
                    for law in rooms::laws_in(&source, &function.promise()) {
                        self.fault(line, format!("the contract of `{name}` {law}"));
                    }
                }
            }
            self.placed.insert(name);
        }
    }

    /// Names after which no file came: they are on their own.
    fn end_run(&mut self, run: &mut Run) {
        let Run { names, contract } = std::mem::take(run);
        for (name, line) in names {
            if contract {
                self.fault(line, format!("the contract of `{name}` is cited without its file"));
            } else {
                self.alone.push((name, line));
            }
        }
    }

    /// A name on its own has to be cited with its file elsewhere in the document.
    pub fn finish(&mut self) {
        for (name, line) in std::mem::take(&mut self.alone) {
            if !self.placed.contains(&name) {
                self.fault(line, format!("`{name}` stands after no file, here or elsewhere"));
            }
        }
    }
}

/// Text between names of one list: a comma or a colon, `and` or `by`, and before them a remark in parentheses.
fn joins(between: &str) -> bool {
    let after_remark = between.strip_prefix(" (").and_then(|rest| rest.split_once(')')).map(|(_, after)| after);
    matches!(after_remark.unwrap_or(between), " " | ", " | ": " | " and " | ", and " | " by " | ", by ")
}

fn ends_with_contract(before: &str) -> bool {
    before.ends_with("contract of ") || before.ends_with("contracts of ")
}

/// A name of a spec or a function: letters, digits, and the signs that names are made of.
fn is_name(text: &str) -> bool {
    text.starts_with(|c: char| c.is_alphabetic()) && text.chars().all(|c| c.is_alphanumeric() || "-_?'′".contains(c))
}

/// The name of a crate or a wrong program.
fn is_word(text: &str) -> bool {
    !text.is_empty() && text.chars().all(|c| c.is_ascii_lowercase() || c.is_ascii_digit() || c == '_')
}
