//! The static library as a host sees it: `planner` has a safe function for each call of include/planner.h, `guarded`
//! lends slices that notice a write outside them, `compare` runs an edit here and in the reference, `tables` draws tables
//! and steps to try, `blocks` tables with names at chosen places, `forecasts` what a commit is offered, `program` runs the two programs.
//! Each call's tests are one file in tests/.

pub mod blocks;
pub mod compare;
pub mod forecasts;
pub mod guarded;
pub mod planner;
pub mod program;
pub mod tables;
