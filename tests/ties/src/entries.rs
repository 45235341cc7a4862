//! The entries of the claims, and their form: a sentence in bold, or a call of the C interface, and below it a list of items, each with its key. The form
//! stands at the head of docs/CLAIMS.md, "How to read them".

use crate::markdown::{begins_item, one_line, spans, Block, Mark, BOLD};

pub const ANSWER: &str = "answer";
pub const AT_EXIT: &str = "slice at exit";

/// A key of an item: whether each entry of the kind has to have it, and what the item has to hold.
type Key = (&'static str, bool, Holds);

#[derive(PartialEq, Clone, Copy)]
enum Holds {
    /// A statement, or an expression of a contract.
    Citation,
    Words,
}

/// The keys of a kind of entry, in their order.
const OF_A_SENTENCE: &[Key] =
    &[("says it", true, Holds::Citation), ("said with", false, Holds::Citation), ("rules out", false, Holds::Words)];
const OF_A_WRONG_READING: &[Key] = &[("ruled out by", true, Holds::Citation)];
const OF_A_CALL: &[Key] =
    &[(ANSWER, true, Holds::Citation), (AT_EXIT, true, Holds::Words), ("rules out", true, Holds::Words)];

pub struct Item<'a> {
    pub key: String,
    pub block: &'a Block,
}

pub struct Entry<'a> {
    pub title: &'a Block,
    pub items: Vec<Item<'a>>,
}

impl Entry<'_> {
    /// The call of the C interface that it is about.
    pub fn call(&self) -> Option<&str> {
        let name = self.title.text.strip_prefix(BOLD)?.strip_prefix('`')?.split('`').next()?;
        name.starts_with("planner_").then_some(name)
    }

    fn keys(&self) -> &'static [Key] {
        if self.call().is_some() {
            OF_A_CALL
        } else if self.items.first().is_some_and(|item| item.key == OF_A_WRONG_READING[0].0) {
            OF_A_WRONG_READING
        } else {
            OF_A_SENTENCE
        }
    }

    /// Each with its line.
    pub fn faults(&self) -> Vec<(usize, String)> {
        let keys = self.keys();
        let mut faults = Vec::new();
        for (key, _, _) in keys.iter().filter(|(_, needed, _)| *needed) {
            if !self.items.iter().any(|item| item.key == *key) {
                faults.push((self.title.line, format!("it has no item \"{key}\"")));
            }
        }
        let mut left = keys;
        for item in &self.items {
            let line = item.block.line;
            match left.iter().position(|(key, _, _)| *key == item.key) {
                None => faults.push((line, format!("\"{}\" has no place here", item.key))),
                Some(at) => {
                    let (_, _, holds) = left[at];
                    left = &left[at + 1..];
                    faults.extend(item.fault(holds).map(|fault| (line, fault)));
                }
            }
        }
        faults
    }
}

impl Item<'_> {
    fn fault(&self, holds: Holds) -> Option<String> {
        let text = &self.block.text;
        let words = text.split_once(':').map_or("", |(_, words)| words);
        let cites = spans(self.block).is_ok_and(|(spans, _)| spans.iter().any(|span| span.mark == Mark::Backquotes));
        if words.trim().is_empty() || (holds == Holds::Citation && !cites) {
            return Some(format!("\"{}\" holds nothing", self.key));
        }
        let indented = text.lines().skip(1).all(|line| line.starts_with("  "));
        (!indented).then(|| format!("a line of \"{}\" is not indented", self.key))
    }
}

/// The entries of a document in their order, and the lines of the items that have none.
pub fn entries(blocks: &[Block]) -> (Vec<Entry<'_>>, Vec<usize>) {
    let mut found: Vec<Entry> = Vec::new();
    // The line after the last entry.
    let (mut below, mut strays) = (0, Vec::new());
    for block in blocks {
        let item = Item { key: key(block), block };
        if begins_entry(block) {
            found.push(Entry { title: block, items: Vec::new() });
        } else if block.line == below && begins_item(&block.text) {
            found.last_mut().unwrap().items.push(item);
        } else {
            strays.extend(is_key(&item.key).then_some(block.line));
            continue;
        }
        below = block.line + block.text.lines().count();
    }
    (found, strays)
}

pub fn begins_entry(block: &Block) -> bool {
    block.cell.is_none() && block.text.starts_with(BOLD)
}

/// What stands before the colon of an item.
fn key(block: &Block) -> String {
    let text = one_line(&block.text);
    text.strip_prefix("- ").and_then(|item| item.split_once(':')).map_or(String::new(), |(key, _)| key.to_string())
}

fn is_key(text: &str) -> bool {
    [OF_A_SENTENCE, OF_A_WRONG_READING, OF_A_CALL].concat().iter().any(|(key, _, _)| *key == text)
}
