//! Job files, and the ways in which a file can end.

use super::edits::{random_edit, WINDOWS};
use super::random::Random;
use crate::edit::{edit, Edit};
use crate::job::{record, record_with_length};
use crate::table::empty_mesh;

/// A list of edits from the empty mesh, of which most are accepted.
pub fn random_edits(random: &mut Random, count: usize) -> Vec<Edit> {
    let (window, growth) = (random.pick(&WINDOWS), random.below(11));
    let mut table = empty_mesh();
    let mut edits = Vec::new();
    for _ in 0..count {
        let change = random_edit(random, &table, window, growth);
        let _ = edit(&mut table, change);
        edits.push(change);
    }
    edits
}

/// A record of an edit. An insertion of length 16 is an IE or an IL.
pub fn random_record(random: &mut Random, change: Edit) -> Vec<u8> {
    if random.once_in(2) {
        record(change)
    } else {
        record_with_length(change)
    }
}

/// A job file of such edits; some are cut short, some have a bad mark among the records.
pub fn random_job(random: &mut Random, count: usize) -> Vec<u8> {
    let edits = random_edits(random, count);
    let mut records: Vec<Vec<u8>> = edits.into_iter().map(|change| random_record(random, change)).collect();
    if random.once_in(4) {
        let bad = [random.word() as u8, random.word() as u8, 0, 0];
        records.insert(random.below(records.len() + 1), bad.to_vec());
    }
    let mut job = records.concat();
    if random.once_in(4) {
        job.truncate(random.below(job.len() + 1));
    }
    job
}
