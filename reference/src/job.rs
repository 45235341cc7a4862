//! The job program: records in, lines out ("The job program"), with the record IL of document 02, request g.

use crate::counts::{counts, Counts};
use crate::edit::{edit, Edit};
use crate::faces::{Faces, Walk};
use crate::refusal::Refusal;
use crate::table::empty_mesh;
use crate::trace::Step;
use crate::weave::{plain, step_letters, Letter};

/// "a plain IE writes 16": the length of an edge whose record says none.
pub const PLAIN_LENGTH: u16 = 16;

/// What the program prints for what it reads. "It starts from the empty mesh".
pub fn job(input: &[u8]) -> String {
    let mut table = empty_mesh();
    let mut lines = run_records(&mut table, input);
    lines.extend(report(&table));
    lines.into_iter().map(|line| line + "\n").collect()
}

/// Run the records and answer a "no" line for each that declines. "Records count from 1. An edit declined prints
/// 'no', record, number, and reading goes on; 10 and 11 print the same and end the reading."
fn run_records(table: &mut [u16], input: &[u8]) -> Vec<String> {
    let mut lines = Vec::new();
    let mut rest = input;
    for record in 1.. {
        if rest.is_empty() {
            break;
        }
        let no = |refusal: Refusal| format!("no {record} {}", refusal.number());
        match read_record(rest) {
            Ok((change, after)) => {
                lines.extend(edit(table, change).err().map(no));
                rest = after;
            }
            Err(refusal) => {
                lines.push(no(refusal));
                break;
            }
        }
    }
    lines
}

/// The first record of the input and what follows it. "A record is a two-byte mark, then 16-bit words, high byte
/// first". A lone byte is a cut record, whatever it is; two bytes that are no mark are a bad mark, whatever follows.
pub fn read_record(input: &[u8]) -> Result<(Edit, &[u8]), Refusal> {
    let [m0, m1, rest @ ..] = input else {
        return Err(Refusal::CutRecord);
    };
    let mark = &[*m0, *m1];
    let words = words_of(mark).ok_or(Refusal::BadMark)?;
    if rest.len() < 2 * words {
        return Err(Refusal::CutRecord);
    }
    let (bytes, after) = rest.split_at(2 * words);
    let word = |i: usize| u16::from_be_bytes([bytes[2 * i], bytes[2 * i + 1]]);
    let signed = |i: usize| word(i) as i16;
    let change = match mark {
        b"AV" => Edit::AddVertex { v: word(0) },
        b"RV" => Edit::RemoveVertex { v: word(0) },
        b"IE" => Edit::InsertEdge { e: word(0), c1: word(1), c2: word(2), k: signed(3), length: PLAIN_LENGTH },
        b"IL" => Edit::InsertEdge { e: word(0), c1: word(1), c2: word(2), k: signed(3), length: word(4) },
        b"DE" => Edit::DeleteEdge { e: word(0) },
        _ => Edit::TurnEdge { e: word(0), amount: signed(1) },
    };
    Ok((change, after))
}

/// An edit as its record: the mark, then the words, high byte first, what is signed in two's complement. An insertion
/// of length 16 is a plain IE, any other an IL.
pub fn record(change: Edit) -> Vec<u8> {
    match change {
        Edit::AddVertex { v } => marked(b"AV", &[v]),
        Edit::RemoveVertex { v } => marked(b"RV", &[v]),
        Edit::InsertEdge { e, c1, c2, k, length: PLAIN_LENGTH } => marked(b"IE", &[e, c1, c2, k as u16]),
        Edit::InsertEdge { .. } => record_with_length(change),
        Edit::DeleteEdge { e } => marked(b"DE", &[e]),
        Edit::TurnEdge { e, amount } => marked(b"TW", &[e, amount as u16]),
    }
}

/// The same where an insertion of length 16 is an IL too: "IE with one more word, the last, for the length".
pub fn record_with_length(change: Edit) -> Vec<u8> {
    match change {
        Edit::InsertEdge { e, c1, c2, k, length } => marked(b"IL", &[e, c1, c2, k as u16, length]),
        _ => record(change),
    }
}

fn marked(mark: &[u8; 2], words: &[u16]) -> Vec<u8> {
    mark.iter().copied().chain(words.iter().flat_map(|word| word.to_be_bytes())).collect()
}

/// How many words follow a mark: "AV v; RV v; IE e c1 c2 k; DE e; TW e amount", and IL, which has one more than IE.
fn words_of(mark: &[u8; 2]) -> Option<usize> {
    match mark {
        b"AV" | b"RV" | b"DE" => Some(1),
        b"TW" => Some(2),
        b"IE" => Some(4),
        b"IL" => Some(5),
        _ => None,
    }
}

/// The lines after the reading: mesh, parts, walks, weave.
fn report(table: &[u16]) -> Vec<String> {
    let good = "edits leave a good table";
    let counts = counts(table).expect(good);
    let mut lines = vec![mesh_line(&counts)];
    for part in &counts.parts {
        let letter = if part.orientable { 'o' } else { 'n' };
        lines.push(format!("part {} {} {letter}", part.smallest, part.euler()));
    }
    for (i, walk) in Faces::of(table).walks.iter().enumerate() {
        lines.push(walk_line(table, i, walk));
    }
    lines.push(if plain(table).expect(good) { "weave plain" } else { "weave mixed" }.to_string());
    lines
}

/// "'mesh' V E F parts Euler"
fn mesh_line(c: &Counts) -> String {
    format!("mesh {} {} {} {} {}", c.vertices, c.edges, c.faces, c.parts.len(), c.euler())
}

/// "'walk' index from 0, steps, each step as dart/type:letters ... (an isolated vertex as *v)"
fn walk_line(table: &[u16], index: usize, walk: &Walk) -> String {
    let mut line = format!("walk {index} {}", walk.steps().len());
    match walk {
        Walk::Ribbon(steps) => steps.iter().for_each(|&s| line += &format!(" {}", step_field(table, s))),
        Walk::Empty(v) => line += &format!(" *{v}"),
    }
    line
}

/// "one letter per crossing in order of travel and none for an edge without turns"
fn step_field(table: &[u16], s: Step) -> String {
    let letters: String = step_letters(table, s).iter().map(|l| if *l == Letter::O { 'O' } else { 'U' }).collect();
    format!("{}/{}:{letters}", s.dart, s.t)
}
