//! The calls of include/planner.h, each in a safe function. A slice is a pointer and its length in elements; the
//! answer is 0 or more, or minus the number of the refusal.

use reference::counts::{Counts, Part};
use reference::edit::{Answer, Edit};
use reference::forecast::Forecast;
use reference::refusal::Refusal;
use reference::rule::Rule;
use reference::whole::Outputs;

mod c {
    extern "C" {
        pub fn planner_empty(table: *mut u16, words: usize) -> i64;
        pub fn planner_check(table: *const u16, words: usize) -> i64;
        pub fn planner_listing(table: *const u16, words: usize, out: *mut u16, out_words: usize) -> i64;
        pub fn planner_add_vertex(table: *mut u16, words: usize, v: u16) -> i64;
        pub fn planner_remove_vertex(table: *mut u16, words: usize, v: u16) -> i64;
        pub fn planner_insert_edge(table: *mut u16, words: usize, e: u16, c1: u16, c2: u16, k: i16, length: u16)
            -> i64;
        pub fn planner_delete_edge(table: *mut u16, words: usize, e: u16) -> i64;
        pub fn planner_turn_edge(table: *mut u16, words: usize, e: u16, amount: i16) -> i64;
        pub fn planner_ask_insert_edge(
            table: *const u16,
            words: usize,
            e: u16,
            c1: u16,
            c2: u16,
            k: i16,
            length: u16,
        ) -> i64;
        pub fn planner_ask_delete_edge(table: *const u16, words: usize, e: u16) -> i64;
        pub fn planner_ask_turn_edge(table: *const u16, words: usize, e: u16, amount: i16) -> i64;
        pub fn planner_commit_insert_edge(
            table: *mut u16,
            words: usize,
            e: u16,
            c1: u16,
            c2: u16,
            k: i16,
            length: u16,
            forecast: i64,
        ) -> i64;
        pub fn planner_commit_delete_edge(table: *mut u16, words: usize, e: u16, forecast: i64) -> i64;
        pub fn planner_commit_turn_edge(table: *mut u16, words: usize, e: u16, amount: i16, forecast: i64) -> i64;
        pub fn planner_counts(table: *const u16, words: usize, out: *mut i32, out_words: usize) -> i64;
        pub fn planner_parts(table: *const u16, words: usize, out: *mut i32, out_words: usize) -> i64;
        pub fn planner_alternates(table: *const u16, words: usize, dart: u16, kind: u16) -> i64;
        pub fn planner_plain(table: *const u16, words: usize) -> i64;
        pub fn planner_letters(
            table: *const u16,
            words: usize,
            dart: u16,
            kind: u16,
            out: *mut u8,
            out_bytes: usize,
        ) -> i64;
        pub fn planner_cut_length(table: *const u16, words: usize, dart: u16, kind: u16) -> i64;
        pub fn planner_price_sheet(
            table: *const u16,
            words: usize,
            p: u16,
            m: u16,
            out: *mut u32,
            out_words: usize,
        ) -> i64;
        pub fn planner_float_path(
            table: *const u16,
            words: usize,
            dart: u16,
            kind: u16,
            points: *const i32,
            n_points: usize,
            lifts: *const i32,
            n_lifts: usize,
            kinds: *mut u16,
            n_kinds: usize,
            coords: *mut f32,
            n_coords: usize,
        ) -> i64;
        pub fn planner_whole_path(
            table: *const u16,
            words: usize,
            dart: u16,
            kind: u16,
            points: *const i32,
            n_points: usize,
            lifts: *const i32,
            n_lifts: usize,
            kinds: *mut u16,
            n_kinds: usize,
            coords: *mut i32,
            n_coords: usize,
            remainders: *mut u16,
            n_remainders: usize,
        ) -> i64;
        pub fn planner_walk_step(
            table: *const u16,
            words: usize,
            reader: *mut super::Reader,
            tally: *mut super::Tally,
        ) -> i64;
        pub fn planner_trial_job(start: u32, edges: u32, out: *mut u8, out_bytes: usize) -> i64;
        pub fn planner_job_record(
            mark: u16,
            name: u16,
            c1: u16,
            c2: u16,
            k: i16,
            length: u16,
            out: *mut u8,
            out_bytes: usize,
        ) -> i64;
    }
}

/// struct planner_reader
#[repr(C)]
#[derive(Clone, Copy, Debug, PartialEq, Eq)]
pub struct Reader {
    pub dart: u16,
    pub kind: u16,
    pub start_dart: u16,
    pub start_kind: u16,
}

/// struct planner_tally
#[repr(C)]
#[derive(Clone, Copy, Debug, Default, PartialEq, Eq)]
pub struct Tally {
    pub steps: u32,
    pub overs: u32,
    pub unders: u32,
    pub length: u32,
}

/// What a call of the reference answers, as the C interface says it.
pub fn as_number(answer: Result<usize, Refusal>) -> i64 {
    match answer {
        Ok(answer) => answer as i64,
        Err(refusal) => -i64::from(refusal.number()),
    }
}

/// What each rule adds to an edit's answer: it is faces + 65536 * rule.
pub const A: i64 = 65_536;
pub const B1: i64 = 2 * 65_536;
pub const B2: i64 = 3 * 65_536;
pub const E: i64 = 4 * 65_536;

/// What each face before an edit adds to its forecast: it is after + 65536 * rule + 2^32 * before.
pub const BEFORE: i64 = 4_294_967_296;

fn added(rule: Rule) -> i64 {
    match rule {
        Rule::A => A,
        Rule::B1 => B1,
        Rule::B2 => B2,
        Rule::E => E,
    }
}

/// What an edit of the reference answers, as the C interface says it; a vertex has no rule.
pub fn as_edit_number(answer: Result<Answer, Refusal>) -> i64 {
    as_number(answer.map(|answer| answer.faces)) + answer.ok().and_then(|answer| answer.rule).map_or(0, added)
}

/// What ask of the reference answers, as the C interface says it.
pub fn as_forecast_number(answer: Result<Forecast, Refusal>) -> i64 {
    let above = answer.map_or(0, |forecast| added(forecast.rule) + forecast.before as i64 * BEFORE);
    as_number(answer.map(|forecast| forecast.after)) + above
}

/// What the counts of the reference are, as `planner_counts` writes them.
pub fn as_counts(c: &Counts) -> Vec<i32> {
    [c.vertices as i64, c.edges as i64, c.faces as i64, c.parts.len() as i64, c.euler()].map(|n| n as i32).to_vec()
}

/// What the parts of the reference are, as `planner_parts` writes them.
pub fn as_parts(c: &Counts) -> Vec<i32> {
    let row = |p: &Part| {
        [p.smallest as i64, p.vertices as i64, p.edges as i64, p.faces as i64, p.euler(), i64::from(p.orientable)]
            .map(|n| n as i32)
    };
    c.parts.iter().flat_map(row).collect()
}

/// The three answers in a number that a host offers; none if it is a number that says no three.
pub fn forecast_in(number: i64) -> Option<Forecast> {
    let (high, low) = (u32::try_from(number >> 32).ok()?, number as u32);
    let rule = [Rule::A, Rule::B1, Rule::B2, Rule::E][(low >> 16).checked_sub(1).filter(|&at| at < 4)? as usize];
    Some(Forecast { rule, before: high as usize, after: (low & 0xffff) as usize })
}

pub fn empty(table: &mut [u16]) -> i64 {
    unsafe { c::planner_empty(table.as_mut_ptr(), table.len()) }
}

/// A slice of no words whose pointer is null, as C lends it.
pub fn empty_null() -> i64 {
    unsafe { c::planner_empty(std::ptr::null_mut(), 0) }
}

pub fn check(table: &[u16]) -> i64 {
    unsafe { c::planner_check(table.as_ptr(), table.len()) }
}

/// A slice of no words whose pointer is null, as C lends it.
pub fn check_null() -> i64 {
    unsafe { c::planner_check(std::ptr::null(), 0) }
}

pub fn listing(table: &[u16], out: &mut [u16]) -> i64 {
    unsafe { c::planner_listing(table.as_ptr(), table.len(), out.as_mut_ptr(), out.len()) }
}

/// The listing into an output of no words whose pointer is null.
pub fn listing_to_null(table: &[u16]) -> i64 {
    unsafe { c::planner_listing(table.as_ptr(), table.len(), std::ptr::null_mut(), 0) }
}

pub fn counts(table: &[u16], out: &mut [i32]) -> i64 {
    unsafe { c::planner_counts(table.as_ptr(), table.len(), out.as_mut_ptr(), out.len()) }
}

pub fn parts(table: &[u16], out: &mut [i32]) -> i64 {
    unsafe { c::planner_parts(table.as_ptr(), table.len(), out.as_mut_ptr(), out.len()) }
}

pub fn alternates(table: &[u16], dart: u16, kind: u16) -> i64 {
    unsafe { c::planner_alternates(table.as_ptr(), table.len(), dart, kind) }
}

pub fn plain(table: &[u16]) -> i64 {
    unsafe { c::planner_plain(table.as_ptr(), table.len()) }
}

pub fn letters(table: &[u16], dart: u16, kind: u16, out: &mut [u8]) -> i64 {
    unsafe { c::planner_letters(table.as_ptr(), table.len(), dart, kind, out.as_mut_ptr(), out.len()) }
}

pub fn cut_length(table: &[u16], dart: u16, kind: u16) -> i64 {
    unsafe { c::planner_cut_length(table.as_ptr(), table.len(), dart, kind) }
}

pub fn price_sheet(table: &[u16], (p, m): (u16, u16), out: &mut [u32]) -> i64 {
    unsafe { c::planner_price_sheet(table.as_ptr(), table.len(), p, m, out.as_mut_ptr(), out.len()) }
}

/// The price sheet into an output of no words whose pointer is null.
pub fn price_sheet_to_null(table: &[u16], (p, m): (u16, u16)) -> i64 {
    unsafe { c::planner_price_sheet(table.as_ptr(), table.len(), p, m, std::ptr::null_mut(), 0) }
}

/// The float path of the ribbon through the step, into two outputs.
pub fn float_path(
    table: &[u16],
    (dart, kind): (u16, u16),
    points: &[i32],
    lifts: &[i32],
    kinds: &mut [u16],
    coords: &mut [f32],
) -> i64 {
    unsafe {
        c::planner_float_path(
            table.as_ptr(),
            table.len(),
            dart,
            kind,
            points.as_ptr(),
            points.len(),
            lifts.as_ptr(),
            lifts.len(),
            kinds.as_mut_ptr(),
            kinds.len(),
            coords.as_mut_ptr(),
            coords.len(),
        )
    }
}

/// The whole path of the ribbon through the step, into three outputs.
pub fn whole_path(table: &[u16], (dart, kind): (u16, u16), points: &[i32], lifts: &[i32], out: Outputs) -> i64 {
    unsafe {
        c::planner_whole_path(
            table.as_ptr(),
            table.len(),
            dart,
            kind,
            points.as_ptr(),
            points.len(),
            lifts.as_ptr(),
            lifts.len(),
            out.kinds.as_mut_ptr(),
            out.kinds.len(),
            out.coords.as_mut_ptr(),
            out.coords.len(),
            out.remainders.as_mut_ptr(),
            out.remainders.len(),
        )
    }
}

/// A whole path over slices of no words whose pointers are null.
pub fn whole_path_of_nulls(table: &[u16], (dart, kind): (u16, u16)) -> i64 {
    let (read, none) = (std::ptr::null(), std::ptr::null_mut());
    let (words, coords) = (table.len(), std::ptr::null_mut());
    unsafe { c::planner_whole_path(table.as_ptr(), words, dart, kind, read, 0, read, 0, none, 0, coords, 0, none, 0) }
}

/// One step of the reader that the host keeps.
pub fn walk_step(table: &[u16], reader: &mut Reader, tally: &mut Tally) -> i64 {
    unsafe { c::planner_walk_step(table.as_ptr(), table.len(), reader, tally) }
}

pub fn trial_job(start: u32, edges: u32, out: &mut [u8]) -> i64 {
    unsafe { c::planner_trial_job(start, edges, out.as_mut_ptr(), out.len()) }
}

/// A trial job into an output of no bytes whose pointer is null.
pub fn trial_job_null(start: u32, edges: u32) -> i64 {
    unsafe { c::planner_trial_job(start, edges, std::ptr::null_mut(), 0) }
}

/// The numbers that a job record may have beside its mark; which of them it has goes by the mark.
#[derive(Clone, Copy, Debug, PartialEq, Eq)]
pub struct Numbers {
    pub name: u16,
    pub c1: u16,
    pub c2: u16,
    pub k: i16,
    pub length: u16,
}

pub fn job_record(mark: u16, n: Numbers, out: &mut [u8]) -> i64 {
    unsafe { c::planner_job_record(mark, n.name, n.c1, n.c2, n.k, n.length, out.as_mut_ptr(), out.len()) }
}

/// A job record into an output of no bytes whose pointer is null.
pub fn job_record_null(mark: u16, n: Numbers) -> i64 {
    unsafe { c::planner_job_record(mark, n.name, n.c1, n.c2, n.k, n.length, std::ptr::null_mut(), 0) }
}

pub fn edit(table: &mut [u16], edit: Edit) -> i64 {
    edit_at(table.as_mut_ptr(), table.len(), edit)
}

/// An edit of a table of no words whose pointer is null.
pub fn edit_null(edit: Edit) -> i64 {
    edit_at(std::ptr::null_mut(), 0, edit)
}

fn edit_at(table: *mut u16, words: usize, edit: Edit) -> i64 {
    unsafe {
        match edit {
            Edit::AddVertex { v } => c::planner_add_vertex(table, words, v),
            Edit::RemoveVertex { v } => c::planner_remove_vertex(table, words, v),
            Edit::InsertEdge { e, c1, c2, k, length } => c::planner_insert_edge(table, words, e, c1, c2, k, length),
            Edit::DeleteEdge { e } => c::planner_delete_edge(table, words, e),
            Edit::TurnEdge { e, amount } => c::planner_turn_edge(table, words, e, amount),
        }
    }
}

/// Ask. It is lent words that it could write, so that a test may see that it does not.
pub fn ask(table: &mut [u16], edit: Edit) -> i64 {
    ask_at(table.as_mut_ptr(), table.len(), edit)
}

/// Ask over a table of no words whose pointer is null.
pub fn ask_null(edit: Edit) -> i64 {
    ask_at(std::ptr::null(), 0, edit)
}

fn ask_at(table: *const u16, words: usize, edit: Edit) -> i64 {
    unsafe {
        match edit {
            Edit::InsertEdge { e, c1, c2, k, length } => c::planner_ask_insert_edge(table, words, e, c1, c2, k, length),
            Edit::DeleteEdge { e } => c::planner_ask_delete_edge(table, words, e),
            Edit::TurnEdge { e, amount } => c::planner_ask_turn_edge(table, words, e, amount),
            Edit::AddVertex { .. } | Edit::RemoveVertex { .. } => panic!("{edit:?}: a vertex has no forecast"),
        }
    }
}

pub fn commit(table: &mut [u16], edit: Edit, forecast: i64) -> i64 {
    commit_at(table.as_mut_ptr(), table.len(), edit, forecast)
}

/// A commit over a table of no words whose pointer is null.
pub fn commit_null(edit: Edit, forecast: i64) -> i64 {
    commit_at(std::ptr::null_mut(), 0, edit, forecast)
}

fn commit_at(table: *mut u16, words: usize, edit: Edit, forecast: i64) -> i64 {
    unsafe {
        match edit {
            Edit::InsertEdge { e, c1, c2, k, length } => {
                c::planner_commit_insert_edge(table, words, e, c1, c2, k, length, forecast)
            }
            Edit::DeleteEdge { e } => c::planner_commit_delete_edge(table, words, e, forecast),
            Edit::TurnEdge { e, amount } => c::planner_commit_turn_edge(table, words, e, amount, forecast),
            Edit::AddVertex { .. } | Edit::RemoveVertex { .. } => panic!("{edit:?}: a vertex has no forecast"),
        }
    }
}
