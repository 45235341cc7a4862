//! The two rooms of the specs: what is believed stands in specs/, why it holds in specs/laws/ or proofs/. A file of the first room names
//! nothing of the second, and no theorem; but for a crate's Theorems.antt, whose proofs name laws, and for the definitions that are read off a
//! proof and say so. The contract of a public function that asks nothing of its caller names the first room alone.

use crate::rattle;
use crate::tree::Tree;

/// First-room files that a definition leads into laws/, with the line that does.
const READ_OFF_A_PROOF: [(&str, &str); 1] = [("table/Check", "use Rattle.table.specs.laws.Decided.{good_dec}")];

/// The module of a crate's laws, that of its theorems, which name laws, and that of its proofs, where both may stand.
const SECOND_ROOM: [&str; 3] = ["laws", "Theorems", "proofs"];
/// What stands before these in a path, and not before a field of the same name.
const OF_A_PATH: [&str; 3] = ["Rattle", "specs", "proofs"];
/// The library's proofs declare words that definitions are said with, such as `some` and `none`.
const OF_THE_LIBRARY: &str = "Rattle.std.";

/// One line for each fault.
pub fn faults(tree: &Tree) -> Vec<String> {
    let mut faults = Vec::new();
    for name in tree.crates() {
        for file in tree.spec_files(&name) {
            faults.extend(in_spec(tree, &name, &file));
        }
        for file in tree.source_files(&name) {
            faults.extend(in_source(tree, &format!("crates/{name}/src/{file}.rt")));
        }
    }
    faults
}

fn in_spec(tree: &Tree, name: &str, file: &str) -> Vec<String> {
    if matches!(file, "Theorems" | "Lib" | "laws") {
        return Vec::new();
    }
    let text = tree.read(&format!("crates/{name}/specs/{file}.antt")).unwrap_or_default();
    let allowed = |line: &str| READ_OFF_A_PROOF.contains(&(format!("{name}/{file}").as_str(), line));
    let laws = statements(&text).into_iter().filter(|line| names_second_room(line) && !allowed(line));
    laws.map(|line| format!("{name}/{file} names a law: {line}")).collect()
}

/// The lines of a text without their comments; a `use` whose list goes over several is one.
fn statements(text: &str) -> Vec<String> {
    let mut found: Vec<String> = Vec::new();
    let mut open = false;
    for line in text.lines().map(without_comment) {
        match found.last_mut() {
            Some(last) if open => last.push_str(line.trim()),
            _ => found.push(line.to_string()),
        }
        open = found.last().is_some_and(|last| is_use(last) && last.contains('{') && !last.contains('}'));
    }
    found
}

fn without_comment(line: &str) -> &str {
    match line.find("-- ") {
        Some(at) if line[..at].trim().is_empty() || line[..at].ends_with(' ') => &line[..at],
        _ => line,
    }
}

/// Does a line lead into the second room: by an import of it or from it, or by a path through it. A field may have the same name: `t.laws` is one, but
/// `specs.laws` and `t.laws.Deep` are not.
fn names_second_room(line: &str) -> bool {
    let in_path = |room: &str, at: usize| {
        let path = line[..at].rsplit([' ', '(', '{', ',']).next().unwrap_or("");
        let to_module =
            line[at + room.len()..].strip_prefix('.').is_some_and(|name| name.starts_with(char::is_uppercase));
        let is_path = path.split('.').any(|part| OF_A_PATH.contains(&part));
        path.ends_with('.') && (is_path || to_module || room.starts_with(char::is_uppercase))
    };
    let own = |at: &usize| !line[..*at].ends_with(OF_THE_LIBRARY);
    SECOND_ROOM.iter().any(|room| words(line, room).into_iter().filter(own).any(|at| is_use(line) || in_path(room, at)))
}

fn is_use(line: &str) -> bool {
    ["use ", "pub use ", "ghost use "].iter().any(|front| line.trim_start().starts_with(front))
}

fn in_source(tree: &Tree, path: &str) -> Vec<String> {
    let source = tree.read(path).unwrap_or_default();
    let mut faults = Vec::new();
    for function in rattle::functions(&source).iter().filter(|function| function.is_open()) {
        let laws = laws_in(&source, &function.text).into_iter();
        faults.extend(laws.map(|law| format!("{path}: the contract of {} {law}", function.name)));
    }
    faults
}

/// What a contract of a source needs of the second room to be read.
pub fn laws_in(source: &str, contract: &str) -> Vec<String> {
    let named = imported_laws(source).into_iter().filter(|law| !words(contract, law).is_empty());
    let mut found: Vec<String> = named.map(|law| format!("names `{law}`, which stands in laws/")).collect();
    if contract.lines().any(names_second_room) {
        found.push("has a path into laws/".to_string());
    }
    found
}

/// The names that a source brings from laws/, as it calls them: those of a list, or of a whole module its own or the one given to it.
fn imported_laws(text: &str) -> Vec<String> {
    let from_laws = statements(text).into_iter().filter(|line| is_use(line) && names_second_room(line));
    let names = from_laws.flat_map(|line| match line.split_once('{').and_then(|(_, rest)| rest.split_once('}')) {
        Some((list, _)) => list.split(',').map(called).collect::<Vec<_>>(),
        None => vec![called(line.trim_end_matches(';').rsplit('.').next().unwrap_or(""))],
    });
    names.filter(|name| !name.is_empty()).collect()
}

/// `x as y` is called y.
fn called(name: &str) -> String {
    name.rsplit(" as ").next().unwrap_or("").trim().to_string()
}

/// Where the text has the name as a word of its own.
fn words(text: &str, name: &str) -> Vec<usize> {
    let of_a_name = |c: char| c.is_alphanumeric() || "_?'-′·".contains(c);
    let whole = |at: &usize| {
        let before = text[..*at].chars().next_back();
        let after = text[at + name.len()..].chars().next();
        !before.is_some_and(of_a_name) && !after.is_some_and(of_a_name)
    };
    text.match_indices(name).map(|(at, _)| at).filter(whole).collect()
}
