//! The checker of plans, on separate lists and on records.

use crate::link::{refuse, Refusal, Table, CROSSINGS};

/// Two rows that meet, and where.
#[derive(Clone, Copy, Debug, PartialEq, Eq)]
pub struct Collision {
    pub earlier: usize,
    pub later: usize,
    pub crossing: u64,
}

/// "It answers one of: clear; a collision, with both rows and the crossing; a refusal."
#[derive(Clone, Copy, Debug, PartialEq, Eq)]
pub enum Verdict {
    Clear,
    Collision(Collision),
    Refused(Refusal),
}

/// A delay and an offset: one row of the lent list of records.
#[derive(Clone, Copy, Debug, PartialEq, Eq)]
pub struct Record {
    pub delay: u64,
    pub offset: u64,
}

pub fn check(table: &Table, offsets: &[u64]) -> Verdict {
    match judge(table, offsets) {
        Err(refusal) => Verdict::Refused(refusal),
        Ok(()) => match named_collision(table, offsets) {
            Some(collision) => Verdict::Collision(collision),
            None => Verdict::Clear,
        },
    }
}

/// "The checker also takes a lent list of records, a delay and an offset in each, and
/// gives the same answer."
pub fn check_records(period: u64, size: u64, records: &[Record]) -> Verdict {
    let delays: Vec<u64> = records.iter().map(|record| record.delay).collect();
    let offsets: Vec<u64> = records.iter().map(|record| record.offset).collect();
    check(&Table { period, size, delays }, &offsets)
}

/// 5, 6, 8, 7, then 11 if there aren't as many offsets as rows, then 17.
/// The checker, the report and the writer all begin with this.
pub fn judge(table: &Table, offsets: &[u64]) -> Result<(), Refusal> {
    table.judge()?;
    if offsets.len() != table.rows() {
        return refuse(11, 0);
    }
    table.judge_offsets(offsets)
}

/// "The collision named is the one with the least later row, then the least earlier row,
/// then crossing 1 before 2."
pub fn named_collision(table: &Table, offsets: &[u64]) -> Option<Collision> {
    for later in 0..offsets.len() {
        for earlier in 0..later {
            for crossing in CROSSINGS {
                if table.meet_in(crossing, (earlier, offsets[earlier]), (later, offsets[later])) {
                    return Some(Collision { earlier, later, crossing });
                }
            }
        }
    }
    None
}

/// 18: "the row is that of the collision the checker names", the later one.
pub fn judge_clear(table: &Table, offsets: &[u64]) -> Result<(), Refusal> {
    match named_collision(table, offsets) {
        Some(collision) => refuse(18, collision.later),
        None => Ok(()),
    }
}
