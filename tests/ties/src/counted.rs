//! The check counts each word that it reads. No function of crates/check_table, nor the one below it that it calls, indexes a slice: a word comes
//! from `read` (crates/table/src/read.rt) alone, which indexes once and counts once; and each call of one of these functions lends the table that was
//! lent to the caller, first, and the count that was lent to him, last. What is lent besides are numbers, and table and count stand nowhere else in a
//! body, so neither is another one, a copy, or used in another way. So what is proved of the count is so of the words that are read. No body but that of
//! `read` has a bracket, so no array stands in the check either; nor a string, a closure or an item of its own, behind which one could hide what this
//! look goes by. No function calls others than these, of which each name is declared once, nor do their files bring in anything but them and the constants
//! and types that are listed here by name. The one function that tells the table to be of its size has a body that is known. The check that keeps no
//! count, and `counted_check`, are a call of the check that is lent one.

use crate::rattle::{self, Function};
use crate::tree::Tree;
use std::collections::BTreeSet;

const CHECK: &str = "check_table";
/// Where the check is lent a number to count in.
const COUNTED: &str = "check_counted";
/// A function of the check that stands below it, since others use it as well.
const BELOW: (&str, &str) = ("crates/table/src/block.rt", "is_dead_with");
/// Where the modules of that function and of the one that reads are declared.
const LIBRARY_BELOW: &str = "crates/table/src/lib.rt";
/// The function that reads, and its body.
const READ: (&str, &str) = ("crates/table/src/read.rt", "read");
const READS: &str = "reads.count();\nt[i]";
/// The function that tells the table to be of its size, and its body.
const SIZED: (&str, &str, &str) = (
    "crates/check_table/src/whole.rt",
    "is_good_with",
    "match t.as_array() {\nSome(t) => keeps_rules(t, reads),\nNone => false,\n}",
);
/// The functions that are one call of another, which is lent a count, and their bodies.
const WITHOUT: [(&str, &str, &str); 3] = [
    ("crates/check_table/src/whole.rt", "is_good", "is_good_with(t, &mut Uncounted)"),
    ("crates/check_table/src/whole.rt", "check", "check_with(t, &mut Uncounted)"),
    (
        "crates/check_counted/src/whole.rt",
        "counted_check",
        "let mut reads: usize = 0;\nlet answer = check_with(t, &mut reads);\nChecked { answer, reads }",
    ),
];
/// What the check may use besides its own functions.
const CONSTANTS: [&str; 16] = [
    "table::block::BLOCK",
    "table::block::DART_BLOCK",
    "table::block::EDGE_BLOCKS",
    "table::block::VERTEX_BLOCKS",
    "table::layout::DARTS",
    "table::layout::EDGE",
    "table::layout::EDGES",
    "table::layout::EDGE_WORD_MAX",
    "table::layout::ISOLATED",
    "table::layout::LEAVES",
    "table::layout::LENGTH",
    "table::layout::NOTHING",
    "table::layout::PREV",
    "table::layout::VERTEX",
    "table::layout::VERTICES",
    "table::layout::WORDS",
];
const TYPES: [&str; 3] = ["table::answer::Refusal", "table::read::Counter", "table::read::Uncounted"];
const BELOW_IT: [&str; 2] = ["table::block::is_dead_with", "table::read::read"];
/// The table, which is lent as a slice until its length is known.
const TABLE: &str = "t";
const TABLES: [&str; 2] = ["&[u16]", "&[u16; WORDS]"];
const COUNT: (&str, &str) = ("reads", "&mut C");
/// What may be lent besides.
const NUMBERS: [&str; 2] = ["usize", "u16"];
/// What may not stand in a body.
const BARRED: [(&str, &str); 2] = [("[", "a bracket"), ("'", "a character or a lifetime")];
/// What the check declares nothing by.
const ITEMS: [&str; 13] = [
    "const",
    "static",
    "type",
    "struct",
    "enum",
    "union",
    "trait",
    "impl",
    "extern",
    "unsafe",
    "macro",
    "macro_rules",
    "dyn",
];

/// One line for each fault.
pub fn faults(tree: &Tree) -> Vec<String> {
    let mut faults = Vec::new();
    let check = tree.functions_of(CHECK);
    if check.is_empty() {
        faults.push(format!("crates/{CHECK}/src has no function"));
    }
    faults.extend(bodies(tree));
    let mut counting: Vec<Function> =
        check.into_iter().filter(|function| !WITHOUT.iter().any(|(_, name, _)| *name == function.name)).collect();
    let (file_below, below) = BELOW;
    let own: Vec<String> = counting.iter().map(|function| function.name.clone()).collect();
    match function_of(tree, file_below, below) {
        Some(function) => counting.push(function),
        None => faults.push(format!("{file_below} has no function {below}")),
    }
    for function in &counting {
        faults.extend(signature(function));
        let (_, sized, _) = SIZED;
        if function.name != sized {
            faults.extend(body(function, if function.name == below { &[] } else { &own }));
        }
    }
    faults.extend(declared_twice(tree, &own));
    faults.extend(hidden(tree));
    faults.extend(own_items(tree));
    faults.extend(unread(tree));
    faults.extend(imports(tree));
    faults
}

fn function_of(tree: &Tree, file: &str, name: &str) -> Option<Function> {
    tree.functions(file).unwrap_or_default().into_iter().find(|function| function.name == name)
}

/// The one that is looked at here could be another than the one that is called.
fn declared_twice(tree: &Tree, own: &[String]) -> Vec<String> {
    let known = WITHOUT.iter().map(|(_, name, _)| *name).chain([BELOW.1, READ.1]);
    let declared = |name: &str| -> usize {
        let times = |path: &String| functions_in(&code(tree, path)).filter(|declared| *declared == name).count();
        looked_at(tree).iter().map(times).sum()
    };
    let twice = own.iter().map(String::as_str).chain(known).filter(|name| declared(name) > 1);
    twice
        .collect::<BTreeSet<_>>()
        .into_iter()
        .map(|name| format!("two functions of the check are named {name}"))
        .collect()
}

/// Functions that are not looked at: within another, or on a single line. And `counted_check` stands in its crate alone.
fn hidden(tree: &Tree) -> Vec<String> {
    let mut faults = Vec::new();
    for path in files(tree) {
        let (all, seen) = (functions_in(&code(tree, &path)).count(), tree.functions(&path).unwrap_or_default().len());
        if all != seen {
            faults.push(format!("{path} has {all} functions, of which {seen} are looked at"));
        }
    }
    for file in tree.source_files(COUNTED) {
        let code = code(tree, &format!("crates/{COUNTED}/src/{file}.rt"));
        let others = functions_in(&code).filter(|name| !WITHOUT.iter().any(|(_, known, _)| known == name));
        faults.extend(others.map(|name| format!("crates/{COUNTED} has the function {name}, which is not looked at")));
    }
    faults
}

/// The names of the functions that a text declares, wherever it does.
fn functions_in(code: &str) -> impl Iterator<Item = &str> {
    let name = |at: usize| {
        let rest = code[at + 2..].trim_start();
        let end = rest.find(|c: char| !c.is_alphanumeric() && c != '_').unwrap_or(rest.len());
        &rest[..end]
    };
    words(code, "fn").map(name)
}

/// The lines of a file without the comments that end them, and without those that the prover alone reads.
fn code(tree: &Tree, path: &str) -> String {
    let text = tree.read(path).unwrap_or_default();
    let lines = text.lines().map(|line| line.split("//").next().unwrap_or("").trim_end());
    let is_ghost = |line: &&str| line.starts_with("ghost use ") && line.find(';').is_none_or(|at| at + 1 == line.len());
    lines.filter(|line| !is_ghost(line)).flat_map(|line| [line, "\n"]).collect()
}

/// The functions whose bodies are known: `read`, the one that tells the table's size, and those that are one call.
fn bodies(tree: &Tree) -> Vec<String> {
    let (file, read) = READ;
    let mut faults = Vec::new();
    for (file, name, body) in WITHOUT.into_iter().chain([(file, read, READS), SIZED]) {
        match function_of(tree, file, name) {
            None => faults.push(format!("{file} has no function {name}")),
            Some(function) if lines(&function.body) != body => {
                faults.push(format!("{file}: {name} is not `{}`", body.replace('\n', " ")));
            }
            Some(_) => {}
        }
    }
    faults
}

/// The lines of a body, each from its first word on.
fn lines(body: &str) -> String {
    body.lines().map(str::trim).filter(|line| !line.is_empty()).collect::<Vec<_>>().join("\n")
}

/// What a function of the check has to be lent: a table first, a count last, and between them numbers.
fn signature(function: &Function) -> Vec<String> {
    let (name, lent) = (&function.name, &function.arguments);
    let is_lent = |argument: Option<&(String, String)>, word: &str, kinds: &[&str]| {
        argument.is_some_and(|(argument, of)| argument == word && kinds.contains(&of.as_str()))
    };
    let mut faults = Vec::new();
    if !function.text.contains(&format!("fn {name}<C: Counter>(")) {
        faults.push(format!("{name} is not generic in C: Counter alone"));
    }
    if !is_lent(lent.first(), TABLE, &TABLES) {
        faults.push(format!("{name} is not lent `{TABLE}: {}` first", TABLES[0]));
    }
    if !is_lent(lent.last(), COUNT.0, &[COUNT.1]) {
        faults.push(format!("{name} is not lent `{}: {}` last", COUNT.0, COUNT.1));
    }
    let between = lent.get(1..lent.len().max(2) - 1).unwrap_or_default();
    let others = between.iter().filter(|(_, of)| !NUMBERS.contains(&of.as_str()));
    faults.extend(others.map(|(argument, of)| format!("{name} is lent `{argument}: {of}`")));
    faults
}

/// What is amiss with the body of a function that is lent a count, which may call those of `own` and the ones below the check.
fn body(function: &Function, own: &[String]) -> Vec<String> {
    let (name, body) = (&function.name, &function.body);
    let mut faults = Vec::new();
    faults.extend(BARRED.iter().filter(|(text, _)| body.contains(text)).map(|(_, what)| format!("{name} has {what}")));
    if body.replace("|=", "").contains('|') {
        faults.push(format!("{name} has a closure"));
    }
    // Nothing is named by a path but a refusal.
    let paths = body.match_indices("::").filter(|(at, _)| !body[..*at].ends_with("Refusal"));
    faults.extend(paths.map(|(at, _)| format!("{name} has a path in `{}`", line_at(body, at))));
    let calls = calls(body);
    let of_another = calls.iter().filter(|call| call.before.trim_end().ends_with('.'));
    faults.extend(of_another.map(|call| format!("{name} calls `{}` of something", call.callee)));
    let others: BTreeSet<&str> = calls.iter().map(|call| call.callee).filter(|callee| !may_call(callee, own)).collect();
    faults.extend(others.into_iter().map(|callee| format!("{name} calls `{callee}`, which is not looked at")));
    // Where the table and the count may stand.
    let mut places = BTreeSet::new();
    for call in calls.iter().filter(|call| is_looked_at(call.callee, own)) {
        match (call.arguments.first(), call.arguments.last()) {
            (Some((table, TABLE)), Some((count, word))) if *word == COUNT.0 => places.extend([*table, *count]),
            _ => faults.push(format!("{name} does not lend its table first and its count last in `{}`", call.text)),
        }
    }
    for word in [TABLE, COUNT.0] {
        let elsewhere = words(body, word).filter(|at| !places.contains(at));
        faults.extend(elsewhere.map(|at| format!("{name} uses `{word}` in `{}`", line_at(body, at))));
    }
    // A name that is called could be given to something else.
    for word in own.iter().map(String::as_str).chain(BELOW_IT.iter().filter_map(|below| below.rsplit("::").next())) {
        let otherwise = words(body, word).filter(|at| !body[at + word.len()..].starts_with('('));
        faults.extend(otherwise.map(|at| format!("{name} does not call `{word}` in `{}`", line_at(body, at))));
    }
    faults
}

/// A call in a body: what stands before it, its name, the arguments, each with its place, and the whole text.
struct Call<'a> {
    before: &'a str,
    callee: &'a str,
    arguments: Vec<(usize, &'a str)>,
    text: &'a str,
}

/// The calls in a body, with a macro's name and mark for its callee. A parenthesis after no name is none.
fn calls(body: &str) -> Vec<Call<'_>> {
    let mut calls = Vec::new();
    // Where each parenthesis that is open stands, and where each of its arguments begins.
    let mut open: Vec<(usize, Vec<usize>)> = Vec::new();
    for (at, c) in body.char_indices() {
        match c {
            '(' => open.push((at, vec![at + 1])),
            ',' => {
                if let Some((_, begins)) = open.last_mut() {
                    begins.push(at + 1);
                }
            }
            ')' => {
                let Some((begin, begins)) = open.pop() else { continue };
                let callee = called(&body[..begin]);
                let ends = begins.iter().skip(1).map(|next| next - 1).chain([at]);
                let arguments = begins.iter().zip(ends).map(|(from, to)| trimmed(body, *from, to));
                let arguments = arguments.filter(|(_, text)| !text.is_empty()).collect();
                if !matches!(callee, "" | "!") {
                    let (before, text) = (&body[..begin - callee.len()], &body[begin - callee.len()..=at]);
                    calls.push(Call { before, callee, arguments, text });
                }
            }
            _ => {}
        }
    }
    calls
}

/// A part of a text without the white space around it, and where it begins.
fn trimmed(text: &str, from: usize, to: usize) -> (usize, &str) {
    let part = text[from..to].trim_start();
    (to - part.len(), part.trim_end())
}

/// The name that ends a text, with its path; a macro's with its mark.
fn called(before: &str) -> &str {
    let of_a_path = |c: char| c.is_alphanumeric() || "_:.<>".contains(c);
    let name = before.strip_suffix('!').unwrap_or(before);
    &before[name.trim_end_matches(of_a_path).len()..]
}

/// A function that is looked at, or a case of an Option or of a Result.
fn may_call(name: &str, own: &[String]) -> bool {
    is_looked_at(name, own) || ["Some", "Ok", "Err"].contains(&name)
}

/// A function of the check that a body may call, or one below it.
fn is_looked_at(name: &str, own: &[String]) -> bool {
    own.iter().any(|function| function == name) || BELOW_IT.iter().any(|below| below.ends_with(&format!("::{name}")))
}

/// Where a whole word stands in a text.
fn words<'a>(text: &'a str, word: &'a str) -> impl Iterator<Item = usize> + 'a {
    let part_of_word = |c: char| c.is_alphanumeric() || c == '_';
    text.match_indices(word)
        .map(|(at, _)| at)
        .filter(move |at| !text[..*at].ends_with(part_of_word) && !text[at + word.len()..].starts_with(part_of_word))
}

/// The line of a text in which a place is.
fn line_at(text: &str, at: usize) -> &str {
    let begin = text[..at].rfind('\n').map_or(0, |end| end + 1);
    text[begin..].lines().next().unwrap_or("").trim()
}

/// The source files of the check, each with its path.
fn files(tree: &Tree) -> Vec<String> {
    tree.source_files(CHECK).iter().map(|file| format!("crates/{CHECK}/src/{file}.rt")).collect()
}

/// The files in which what is looked at stands.
fn looked_at(tree: &Tree) -> BTreeSet<String> {
    let known = [BELOW.0, READ.0].into_iter().chain(WITHOUT.iter().map(|(file, _, _)| *file)).map(String::from);
    files(tree).into_iter().chain(known).collect()
}

/// What this look would not see: text behind a comment or a string, a line that goes on after the brace that ends a body, and a module that is another.
fn unread(tree: &Tree) -> Vec<String> {
    let mut faults = Vec::new();
    for path in looked_at(tree) {
        let text = tree.read(&path).unwrap_or_default();
        let lines: Vec<&str> = text.lines().collect();
        let hides = |line: &&&str| !line.trim_start().starts_with("//") && (line.contains("/*") || line.contains('"'));
        faults.extend(lines.iter().filter(hides).map(|line| format!("{path} may hide something in `{}`", line.trim())));
        let goes_on = lines.windows(2).filter(|pair| pair[0] == "}" && !pair[1].is_empty());
        faults.extend(goes_on.map(|pair| format!("{path} goes on after a body with `{}`", pair[1].trim())));
    }
    let below = tree.read(LIBRARY_BELOW).unwrap_or_default();
    for module in ["pub mod block;", "pub mod read;"] {
        if below.lines().filter(|line| *line == module).count() != 1 {
            faults.push(format!("{LIBRARY_BELOW} has no `{module}`"));
        }
    }
    let renames = below.lines().filter(|line| !line.starts_with("//") && (line.contains("use ") || line.contains('"')));
    faults.extend(renames.map(|line| format!("{LIBRARY_BELOW} has `{line}`")));
    faults
}

/// A constant of the check's own could have the name and not the value of another, a type the name of a function.
fn own_items(tree: &Tree) -> Vec<String> {
    let mut faults = Vec::new();
    for path in files(tree) {
        let code = code(tree, &path);
        let own = code.lines().filter(|line| ITEMS.iter().any(|item| words(line, item).next().is_some()));
        faults.extend(own.map(|line| format!("{path} has an item of its own: {}", line.trim())));
    }
    faults
}

/// What the files bring in besides the constants, the types and the functions that are looked at: nothing under another name.
fn imports(tree: &Tree) -> Vec<String> {
    let mut faults = Vec::new();
    for path in looked_at(tree) {
        let of = path.split('/').nth(1).unwrap_or("");
        let text = tree.read(&path).unwrap_or_default();
        let code = code(tree, &path);
        let others = words(&code, "use")
            .filter(|at| !["", "pub"].contains(&code[..*at].rsplit('\n').next().unwrap_or("").trim()));
        faults.extend(others.map(|at| format!("{path} uses what is not looked at in `{}`", line_at(&code, at))));
        for name in rattle::uses(&text) {
            let whole = name.strip_prefix("crate::").map_or(name.clone(), |rest| format!("{of}::{rest}"));
            let listed = [&CONSTANTS[..], &TYPES, &BELOW_IT].concat().contains(&whole.as_str());
            if !listed && !is_function_of_check(tree, &whole) {
                faults.push(format!("{path} uses `{name}`, which is not looked at"));
            }
        }
    }
    faults
}

/// Is it check_table::module::function.
fn is_function_of_check(tree: &Tree, name: &str) -> bool {
    let [of, module, function] = name.split("::").collect::<Vec<_>>()[..] else { return false };
    of == CHECK && function_of(tree, &format!("crates/{of}/src/{module}.rt"), function).is_some()
}
