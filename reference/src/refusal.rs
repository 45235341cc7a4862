//! The numbered refusals ("When a call declines").
//!
//! "Where several hold: 1, 2, 3, 4, 5, 6, 8, 9, with 7 tested after 4." Every call here tests in that order, one
//! `decline_if` after the other, before it writes anything. Document 02 adds 9 for an insertion, "the last of the
//! edit's own numbers", 12 for a commit, "tested after all of the edit's own numbers", and 13 for a trial job, where
//! "otherwise 7" comes after it.

#[derive(Clone, Copy, Debug, PartialEq, Eq)]
pub enum Refusal {
    Torn = 1,
    NoSuchName = 2,
    Taken = 3,
    Absent = 4,
    Joined = 5,
    Overturned = 6,
    ShortSlice = 7,
    ManyTurns = 8,
    Far = 9,
    BadMark = 10,
    CutRecord = 11,
    StaleForecast = 12,
    ManyEdges = 13,
}

impl Refusal {
    pub fn number(self) -> u8 {
        self as u8
    }
}

pub fn decline_if(holds: bool, refusal: Refusal) -> Result<(), Refusal> {
    if holds {
        Err(refusal)
    } else {
        Ok(())
    }
}
