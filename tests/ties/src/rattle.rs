//! What a Rattle source declares: its functions with their contracts, its structs and its constants. It relies on the layout that
//! `rt fmt` keeps: a body's opening brace ends its line, and after a contract stands alone on it.

use crate::header::{value, without_comments};
use std::ops::RangeInclusive;

pub struct Function {
    pub name: String,
    /// What the prover calls the impl that it stands in: nothing where it stands in none.
    pub within: String,
    /// Exported to C under its own name.
    pub exported: bool,
    pub arguments: Vec<(String, String)>,
    pub answer: String,
    /// The declaration without its body: signature and contract.
    pub text: String,
    /// The lines between the body's braces.
    pub body: String,
    /// The numbers of its lines, from the one that declares it to its last brace.
    pub lines: RangeInclusive<usize>,
}

pub struct Struct {
    pub name: String,
    /// Laid out as C does.
    pub repr_c: bool,
    pub fields: Vec<(String, String)>,
}

/// The lines of a source without the comments that end them.
fn code(text: &str) -> Vec<&str> {
    text.lines().map(|line| line.split("//").next().unwrap_or("").trim_end()).collect()
}

pub fn functions(text: &str) -> Vec<Function> {
    apart(text).0
}

/// The functions, and all that stands outside their bodies.
pub fn apart(text: &str) -> (Vec<Function>, String) {
    let lines = code(text);
    let (mut found, mut outside, mut within) = (Vec::new(), String::new(), String::new());
    let mut i = 0;
    while i < lines.len() {
        let line = lines[i];
        if line == "}" || line.starts_with("impl") {
            within = impl_name(line);
        }
        if let Some(at) = function_at(line).filter(|_| has_body(&lines[i..])) {
            let declared = declaration(&lines[i..]);
            let begin = i + declared.lines().count();
            let body = body(&lines[begin..], &line[..line.len() - line.trim_start().len()]);
            let exported = line.contains("extern \"C\"") && has_attribute(&lines[..i], "#[unsafe(no_mangle)]");
            outside.push_str(&declared);
            let declaring = i + 1;
            i = begin + body.lines().count();
            let lines = declaring..=i + 1;
            let within = within.clone();
            found.push(Function {
                within,
                body,
                lines,
                ..read_function(&without_comments(&declared), &line[at..], exported)
            });
        } else {
            outside.push_str(line);
            outside.push('\n');
            i += 1;
        }
    }
    (found, outside)
}

/// What the prover calls the impl that a line begins: the words of its type, then those of its trait, without the impl's own parameters.
fn impl_name(line: &str) -> String {
    let Some(rest) = line.strip_prefix("impl") else { return String::new() };
    let (own, rest) = match rest.strip_prefix('<') {
        Some(rest) => rest.split_once("> ").unwrap_or((rest, "")),
        None => ("", rest),
    };
    let head = rest.split(" where ").next().unwrap_or("").trim_end_matches('{').trim();
    let (of, kind) = head.split_once(" for ").unwrap_or(("", head));
    let own: Vec<&str> = own.split(',').map(|own| own.split(':').next().unwrap_or("").trim()).collect();
    let words = |text: &str| -> String {
        let text = text.replace('&', "&ref ");
        let words = text.split(|c: char| !c.is_alphanumeric() && c != '_' && c != '\'').filter(|word| !word.is_empty());
        words.filter(|word| !word.starts_with('\'') && !own.contains(word)).map(capital).collect()
    };
    words(kind) + &words(of)
}

/// The word with a capital letter.
fn capital(word: &str) -> String {
    let (first, rest) = word.split_at(1);
    first.to_uppercase() + rest
}

/// Does one of the attributes that end these lines, a line each, stand for what is declared below them.
fn has_attribute(above: &[&str], attribute: &str) -> bool {
    let attributes = above.iter().rev().map(|line| line.trim()).take_while(|line| line.starts_with("#["));
    attributes.into_iter().any(|line| line == attribute)
}

/// Where the name begins in a line that declares a function.
fn function_at(line: &str) -> Option<usize> {
    let start = line.trim_start();
    let declares = ["fn ", "pub fn ", "pub extern \"C\" fn "].iter().any(|front| start.starts_with(front));
    declares.then(|| line.find("fn ").unwrap() + 3)
}

/// Has the function that these lines begin with a body of lines of its own: a trait's may have none, and one that does nothing has `{}`.
fn has_body(lines: &[&str]) -> bool {
    let ends = |line: &&&str| [";", "{}", " {"].iter().any(|end| line.ends_with(end)) || line.trim() == "{";
    lines.iter().find(ends).is_some_and(|line| line.ends_with('{'))
}

/// The lines up to the one whose brace opens the body.
fn declaration(lines: &[&str]) -> String {
    let mut text = String::new();
    for line in lines {
        text.push_str(line.strip_suffix(" {").unwrap_or(line));
        text.push('\n');
        if line.trim() == "{" || line.ends_with(" {") {
            break;
        }
    }
    text
}

/// The lines up to the brace that closes the body, which is indented as far as the function.
fn body(lines: &[&str], indent: &str) -> String {
    lines.iter().take_while(|line| line.strip_prefix(indent) != Some("}")).flat_map(|line| [line, "\n"]).collect()
}

fn read_function(text: &str, from_name: &str, exported: bool) -> Function {
    let name: String = from_name.chars().take_while(|c| c.is_alphanumeric() || *c == '_').collect();
    let rest = text.split_once(&format!("fn {name}")).map_or("", |(_, rest)| rest);
    let (arguments, after) = rest.split_once('(').and_then(|(_, rest)| rest.split_once(')')).unwrap_or(("", ""));
    let answer = after.trim_start().strip_prefix("->").unwrap_or("").split_whitespace().next().unwrap_or("");
    let (answer, text) = (answer.to_string(), text.to_string());
    Function {
        name,
        within: String::new(),
        exported,
        arguments: pairs(arguments),
        answer,
        text,
        body: String::new(),
        lines: 0..=0,
    }
}

impl Function {
    /// As the prover names it in its module.
    pub fn path(&self) -> String {
        if self.within.is_empty() {
            return self.name.clone();
        }
        format!("{}::{}", self.within, self.name)
    }

    pub fn has_contract(&self) -> bool {
        self.text.lines().any(|line| begins_clause(line, "ensures"))
    }

    /// What it promises to who calls it, without what it asks: each clause of a contract begins a line.
    pub fn promise(&self) -> String {
        let mut within = false;
        let lines = self.text.lines().filter(|line| {
            within = begins_clause(line, "ensures") || (within && !begins_clause(line, "requires"));
            within
        });
        lines.flat_map(|line| [line, "\n"]).collect()
    }

    /// Can be called from C, under whatever name.
    pub fn is_for_c(&self) -> bool {
        self.text.contains("extern \"C\"")
    }

    pub fn is_public(&self) -> bool {
        self.text.trim_start().starts_with("pub")
    }

    /// Does it ask something of who calls it: each clause of a contract begins a line, and a slice that is lent as an array has to be of its length.
    pub fn asks(&self) -> bool {
        let as_array = self.arguments.iter().any(|(_, of)| of.starts_with('&') && of.contains("; "));
        as_array || self.text.lines().any(|line| begins_clause(line, "requires"))
    }

    /// Can be called from outside, and asks nothing of who does.
    pub fn is_open(&self) -> bool {
        self.is_public() && !self.asks()
    }
}

/// Is it the first line of a clause: `requires { .. }`, or one with a name, `requires low { .. }`.
fn begins_clause(line: &str, kind: &str) -> bool {
    let after = line.trim_start().strip_prefix(kind);
    after.is_some_and(|after| !after.starts_with(|c: char| c.is_alphanumeric() || c == '_'))
}

pub fn structs(text: &str) -> Vec<Struct> {
    let lines = code(text);
    let mut found = Vec::new();
    for (i, line) in lines.iter().enumerate() {
        let start = line.trim();
        if let Some(rest) = start.strip_prefix("pub struct ").or_else(|| start.strip_prefix("struct ")) {
            let name = rest.chars().take_while(|c| c.is_alphanumeric()).collect();
            let body: Vec<&str> =
                lines[i + 1..].iter().map(|line| line.trim()).take_while(|line| *line != "}").collect();
            let repr_c = has_attribute(&lines[..i], "#[repr(C)]");
            found.push(Struct { name, repr_c, fields: pairs(&body.join(" ")) });
        }
    }
    found
}

/// The number that `pub const NAME: type = number;` gives a name.
pub fn constant(text: &str, name: &str) -> Option<u64> {
    let declared =
        code(text).into_iter().find_map(|line| line.strip_prefix("pub const ")?.strip_prefix(name)?.strip_prefix(": "));
    value(declared?.split_once(" = ")?.1.strip_suffix(';')?)
}

/// `a: T, b: U`, as arguments and fields are written.
fn pairs(text: &str) -> Vec<(String, String)> {
    let words = text.split_whitespace().collect::<Vec<_>>().join(" ");
    let parts = words.split(',').map(|part| part.trim().trim_start_matches("pub "));
    parts
        .filter(|part| !part.is_empty())
        .map(|part| part.split_once(": ").unwrap_or((part, "")))
        .map(|(name, kind)| (name.to_string(), kind.to_string()))
        .collect()
}

/// Where the source takes a name from: `use a::b::Name;` gives a::b, and so does `use a::b::{Name, Other};`.
pub fn used_from(text: &str, name: &str) -> Option<String> {
    let end = format!("::{name}");
    uses(text).into_iter().find_map(|used| used.strip_suffix(&end).map(String::from))
}

/// What a source brings in, each with its whole path: `use a::{b, c::{d, e as f}};`, in one line or several, brings a::b, a::c::d and a::c::e as f.
pub fn uses(text: &str) -> Vec<String> {
    let mut found = Vec::new();
    let mut open: Option<String> = None;
    for line in code(text).into_iter().map(str::trim) {
        let begun = line.strip_prefix("pub ").unwrap_or(line).strip_prefix("use ").map(String::from);
        let Some(statement) = open.take().map(|open| open + " " + line).or(begun) else { continue };
        match statement.split_once(';') {
            Some((tree, _)) => found.extend(leaves("", tree.trim())),
            None => open = Some(statement),
        }
    }
    found
}

/// The paths of what stands after `use`, below this one.
fn leaves(below: &str, tree: &str) -> Vec<String> {
    let Some((front, list)) = tree.split_once('{') else { return vec![format!("{below}{tree}")] };
    let below = format!("{below}{front}");
    let list = list.trim().strip_suffix('}').unwrap_or(list);
    parts(list).into_iter().flat_map(|part| leaves(&below, part)).collect()
}

/// The parts of a list that commas separate; those within braces do not.
fn parts(list: &str) -> Vec<&str> {
    let (mut depth, mut begin, mut found) = (0, 0, Vec::new());
    for (at, c) in list.char_indices() {
        match c {
            '{' => depth += 1,
            '}' => depth -= 1,
            ',' if depth == 0 => {
                found.push(&list[begin..at]);
                begin = at + 1;
            }
            _ => {}
        }
    }
    found.push(&list[begin..]);
    found.into_iter().map(str::trim).filter(|part| !part.is_empty()).collect()
}
