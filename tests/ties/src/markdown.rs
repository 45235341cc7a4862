//! The parts of a document: paragraphs and table cells, and in them the words in backquotes and in italics.

pub struct Block {
    /// The heading that it stands under.
    pub section: String,
    pub line: usize,
    pub text: String,
    pub cell: Option<Cell>,
}

/// Where a table cell stands.
pub struct Cell {
    pub column: usize,
    /// The head of its column, and of the table's first column.
    pub head: String,
    pub first_head: String,
    /// The row's first cell.
    pub first: String,
}

/// Paragraphs (an item of a list is one) and table cells, in order. What stands between fences is left out.
pub fn blocks(text: &str) -> Vec<Block> {
    let mut found: Vec<Block> = Vec::new();
    let (mut section, mut fenced, mut going_on) = (String::new(), false, false);
    let mut heads: Vec<String> = Vec::new();
    for (i, line) in text.lines().enumerate() {
        let number = i + 1;
        if line.starts_with("```") {
            (fenced, going_on) = (!fenced, false);
        } else if fenced {
        } else if line.trim().is_empty() {
            going_on = false;
            heads.clear();
        } else if line.starts_with('#') {
            section = line.trim_start_matches('#').trim().to_string();
            going_on = false;
        } else if line.starts_with('|') {
            let cells = cells(line);
            if heads.is_empty() {
                heads = cells;
            } else if !line.starts_with("|---") {
                let first = cells[0].clone();
                for (column, text) in cells.into_iter().enumerate() {
                    let head = heads.get(column).cloned().unwrap_or_default();
                    let cell = Cell { column, head, first_head: heads[0].clone(), first: first.clone() };
                    found.push(Block { section: section.clone(), line: number, text, cell: Some(cell) });
                }
            }
            going_on = false;
        } else if going_on && !begins_item(line) {
            let last = found.last_mut().unwrap();
            last.text.push('\n');
            last.text.push_str(line);
        } else {
            found.push(Block { section: section.clone(), line: number, text: line.to_string(), cell: None });
            going_on = true;
        }
    }
    found
}

/// A line that begins an item: `1. ..` or `- ..`.
pub fn begins_item(line: &str) -> bool {
    let rest = line.trim_start_matches(|c: char| c.is_ascii_digit());
    line.starts_with("- ") || (rest.len() < line.len() && rest.starts_with(". "))
}

/// A row's cells; `\|` is no border.
fn cells(line: &str) -> Vec<String> {
    let line = line.trim().trim_start_matches('|').replace("\\|", "\u{0}");
    let line = line.strip_suffix('|').unwrap_or(&line);
    line.split('|').map(|cell| cell.trim().replace('\u{0}', "|")).collect()
}

/// What stands around bold words.
pub const BOLD: &str = "**";

#[derive(PartialEq, Clone, Copy)]
pub enum Mark {
    Backquotes,
    Italics,
}

/// Marked words, and the text between those before them and these, each as one line.
pub struct Span {
    pub mark: Mark,
    pub text: String,
    pub line: usize,
    pub before: String,
}

/// The marked words of a block, and the text after the last one. Bold is no mark. An error if a mark is not closed.
pub fn spans(block: &Block) -> Result<(Vec<Span>, String), String> {
    let mut found = Vec::new();
    if block.text.matches(BOLD).count() % 2 == 1 {
        return Err(format!("{}: a {BOLD} is not closed", block.line));
    }
    let text = block.text.replace(BOLD, "");
    let (mut rest, mut line) = (text.as_str(), block.line);
    while let Some(at) = rest.find(['`', '*']) {
        let (before, marked) = rest.split_at(at);
        line += before.matches('\n').count();
        let quote = &marked[..1];
        let Some((text, after)) = marked[1..].split_once(quote) else {
            return Err(format!("{line}: a {quote} is not closed"));
        };
        let mark = if quote == "`" { Mark::Backquotes } else { Mark::Italics };
        found.push(Span { mark, text: one_line(text), line, before: one_line(before) });
        line += text.matches('\n').count();
        rest = after;
    }
    Ok((found, one_line(rest)))
}

/// A text without its line ends: a line that goes on is indented, and that is no part of it.
pub fn one_line(text: &str) -> String {
    let mut lines = text.split('\n');
    let first = lines.next().unwrap_or("").to_string();
    lines.fold(first, |text, line| text + " " + line.trim_start())
}
