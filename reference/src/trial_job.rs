//! The trial job (document 02, request f): "Two workshops want to exchange a heavy job by naming two numbers."

use crate::edit::{edit, Edit};
use crate::faces::VERTEX_CORNER;
use crate::job::{record, PLAIN_LENGTH};
use crate::refusal::{decline_if, Refusal};
use crate::table::*;

/// "The job adds vertices 0 to 7."
pub const TRIAL_VERTICES: u16 = 8;

/// Write the job's records and answer their number of bytes. "Turned away: 13, N above 1,024; otherwise 7 for an output
/// shorter than 32 + 10N bytes, and never anything else."
pub fn trial_job(start: u32, edges: u32, out: &mut [u8]) -> Result<usize, Refusal> {
    decline_if(edges > 1_024, Refusal::ManyEdges)?;
    let size = size_of(edges);
    decline_if(out.len() < size, Refusal::ShortSlice)?;
    let bytes: Vec<u8> = trial_edits(start, edges).into_iter().flat_map(record).collect();
    out[..size].copy_from_slice(&bytes);
    Ok(size)
}

/// "32 + 10N bytes"
pub fn size_of(edges: u32) -> usize {
    32 + 10 * edges as usize
}

/// The job in a list of its own, for an N of at most 1,024.
pub fn trial_bytes(start: u32, edges: u32) -> Vec<u8> {
    let mut bytes = vec![0; size_of(edges)];
    trial_job(start, edges, &mut bytes).expect("the list has the job's size");
    bytes
}

/// The edits of the job, each done on a table that begins as the empty mesh: "Every record made so is accepted when run from
/// the empty mesh."
pub fn trial_edits(start: u32, edges: u32) -> Vec<Edit> {
    let mut table = empty_mesh();
    let mut draws = Draws { s: u64::from(start) };
    let mut edits = Vec::new();
    let mut make = |table: &mut [u16], change: Edit| {
        edit(table, change).expect("every record is accepted");
        edits.push(change);
    };
    for v in 0..TRIAL_VERTICES {
        make(&mut table, Edit::AddVertex { v });
    }
    // "Then for each edge 0 to N-1, it draws a vertex below 8, a second below 8, then turns as a draw below 3, less 1
    // afterwards."
    for e in 0..edges as Edge {
        let (first, second) = (draws.below(8) as Vertex, draws.below(8) as Vertex);
        let k = draws.below(3) as i16 - 1;
        // "both chosen on the table before this insertion"
        let (c1, c2) = (corner_at(&table, first), corner_at(&table, second));
        // "a plain IE writes 16", and 10 bytes for each edge are a plain IE.
        make(&mut table, Edit::InsertEdge { e, c1, c2, k, length: PLAIN_LENGTH });
    }
    edits
}

/// "Each end goes to the vertex's only corner if it is isolated, else to the corner named by its smallest dart". That dart is
/// the vertex's word.
fn corner_at(table: &[u16], v: Vertex) -> u16 {
    if vertex_is_isolated(table, v) {
        VERTEX_CORNER + v
    } else {
        vertex_word(table, v)
    }
}

/// "State s begins as the 32-bit starting number"
struct Draws {
    s: u64,
}

impl Draws {
    /// "Each draw sets s to s times 1,664,525 plus 1,013,904,223 modulo 2 to the 32, and a draw below n is s divided by 65,536,
    /// rounded down, modulo n."
    fn below(&mut self, n: u64) -> u64 {
        self.s = (self.s * 1_664_525 + 1_013_904_223) % 4_294_967_296;
        self.s / 65_536 % n
    }
}
