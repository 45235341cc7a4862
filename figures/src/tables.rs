//! The tables that are drawn, each built by edits through the reference. The dome, the tent and the pavilion are read from the
//! files of examples/, so that a picture and its example are one.

use reference::edit::{edit, Edit};
use reference::faces::VERTEX_CORNER;
use reference::job::PLAIN_LENGTH;
use reference::table::*;

pub const DOME: &str = include_str!("../../examples/dome.txt");
pub const TENT: &str = include_str!("../../examples/tent.txt");
const HOST: &str = include_str!("../../examples/host.c");

/// The corner of an isolated vertex.
pub fn lone(v: Vertex) -> u16 {
    VERTEX_CORNER + v
}

pub fn add(v: Vertex) -> Edit {
    Edit::AddVertex { v }
}

/// An insertion with the length that a plain IE writes.
pub fn insert(e: Edge, c1: u16, c2: u16, k: i16) -> Edit {
    insert_long(e, c1, c2, k, PLAIN_LENGTH)
}

/// An insertion with a length, in sixteenths of a millimetre.
pub fn insert_long(e: Edge, c1: u16, c2: u16, k: i16, length: u16) -> Edit {
    Edit::InsertEdge { e, c1, c2, k, length }
}

/// The table after these edits, none of which is declined.
pub fn made(edits: &[Edit]) -> Vec<u16> {
    let mut table = empty_mesh();
    for &e in edits {
        edit(&mut table, e).unwrap_or_else(|refusal| panic!("{e:?} is declined with {}", refusal.number()));
    }
    table
}

/// The edits that lines of text say, in the form that examples/records reads.
pub fn edits(text: &str) -> Vec<Edit> {
    text.lines().filter(|line| !line.is_empty() && !line.starts_with('#')).map(line_edit).collect()
}

fn line_edit(line: &str) -> Edit {
    let fields: Vec<&str> = line.split(' ').collect();
    let word = |i: usize| fields[i].parse::<u16>().expect("a word");
    let signed = |i: usize| fields[i].parse::<i16>().expect("a signed word");
    match fields[0] {
        "AV" => Edit::AddVertex { v: word(1) },
        "RV" => Edit::RemoveVertex { v: word(1) },
        "IE" => insert(word(1), word(2), word(3), signed(4)),
        "IL" => insert_long(word(1), word(2), word(3), signed(4), word(5)),
        "DE" => Edit::DeleteEdge { e: word(1) },
        "TW" => Edit::TurnEdge { e: word(1), amount: signed(2) },
        mark => panic!("{mark} is no mark"),
    }
}

/// The same edits with every edge inserted without turns.
pub fn flat(edits: &[Edit]) -> Vec<Edit> {
    let without = |e: &Edit| match *e {
        Edit::InsertEdge { e, c1, c2, length, .. } => insert_long(e, c1, c2, 0, length),
        other => other,
    };
    edits.iter().map(without).collect()
}

/// The tent as its file leaves it: edits may be declined. Answers the declined records, counted from 1, with their numbers.
pub fn run_lines(text: &str) -> (Vec<u16>, Vec<(usize, u8)>) {
    let mut table = empty_mesh();
    let mut declined = Vec::new();
    for (i, e) in edits(text).into_iter().enumerate() {
        if let Err(refusal) = edit(&mut table, e) {
            declined.push((i + 1, refusal.number()));
        }
    }
    (table, declined)
}

/// The pavilion of examples/host.c. Its strips stand there as {first, second, millimetres}, a corner as a number or
/// as LONE(v).
pub fn pavilion() -> Vec<u16> {
    let strips = HOST.split("strips[] = {").nth(1).expect("the strips").split("};").next().expect("their end");
    let mut edits: Vec<Edit> = (0..8).map(add).collect();
    for (e, strip) in strips.split('{').skip(1).enumerate() {
        let fields: Vec<&str> = strip.split('}').next().expect("its end").split(',').map(str::trim).collect();
        let sixteenths = (16.0 * fields[2].parse::<f64>().expect("millimetres")).round() as u32;
        let length = u16::try_from(sixteenths).expect("a length of 16 bits");
        edits.push(insert_long(e as Edge, host_corner(fields[0]), host_corner(fields[1]), 1, length));
    }
    made(&edits)
}

fn host_corner(field: &str) -> u16 {
    match field.strip_prefix("LONE(") {
        Some(v) => lone(v.trim_end_matches(')').parse().expect("a vertex")),
        None => field.parse().expect("a dart"),
    }
}

/// The darts around a vertex, counterclockwise from one of them.
pub fn around(table: &[u16], first: Dart) -> Vec<Dart> {
    let mut darts = vec![first];
    loop {
        let d = next(table, darts[darts.len() - 1]);
        if d == first {
            return darts;
        }
        darts.push(d);
    }
}
