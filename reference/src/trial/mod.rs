//! Tables, edits, damage and job files made from a seed, for tests that compare or that try a claim on many inputs.

pub mod damage;
pub mod edits;
pub mod jobs;
pub mod k4;
pub mod random;
pub mod solids;
pub mod tables;
