//! The width of the prose: no line of a document is over 100 characters, a row of a table not over 120, and none ends with a blank. What stands between
//! fences may be as wide as it is.

use crate::tree::Tree;

const WIDTH: usize = 100;
const ROW_WIDTH: usize = 120;
const FENCE: &str = "```";
/// The documents outside of docs/.
const OUTSIDE: [&str; 2] = ["README.md", "CHANGELOG.md"];

/// One line for each fault.
pub fn faults(tree: &Tree) -> Vec<String> {
    let inside = tree.files_below("", &["docs"]).into_iter().filter(|path| path.ends_with(".md"));
    let documents = OUTSIDE.iter().map(|path| path.to_string()).chain(inside);
    documents.flat_map(|path| in_document(&path, tree.read(&path))).collect()
}

fn in_document(path: &str, text: Option<String>) -> Vec<String> {
    let Some(text) = text else { return vec![format!("{path} is not there")] };
    let (mut fence, mut faults) = (None, Vec::new());
    for (i, line) in text.lines().enumerate() {
        let number = i + 1;
        if line.trim_start().starts_with(FENCE) {
            fence = if fence.is_none() { Some(number) } else { None };
        } else if fence.is_none() {
            faults.extend(too_wide(line).map(|fault| format!("{path}:{number}: {fault}")));
        }
        if line.ends_with(char::is_whitespace) {
            faults.push(format!("{path}:{number}: it ends with a blank"));
        }
    }
    faults.extend(fence.map(|number| format!("{path}:{number}: a fence that is not closed")));
    faults
}

fn too_wide(line: &str) -> Option<String> {
    let width = if line.starts_with('|') { ROW_WIDTH } else { WIDTH };
    let wide = line.chars().count();
    (wide > width).then(|| format!("{wide} characters, not {width} at most"))
}
