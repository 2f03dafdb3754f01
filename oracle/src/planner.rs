//! The two quick planners as one topic: what each looks at, and the numbers of request Three's
//! promise for it.

use crate::cases::{Case, Lent};
use crate::link::{Refusal, Table};
use crate::quick::{first_fit, meta_offset};

/// A quick planner.
#[derive(Clone, Copy, Debug, PartialEq, Eq)]
pub enum Planner {
    FirstFit,
    MetaOffset,
}

impl Planner {
    /// From one offset that it looks at to the next.
    pub fn step(self, size: u64) -> u64 {
        match self {
            Planner::FirstFit => 1,
            Planner::MetaOffset => size,
        }
    }

    /// How many offsets it looks at: P, or m.
    pub fn looks_at(self, period: u64, size: u64) -> u64 {
        period / self.step(size)
    }

    /// The periods with which it looks at so many offsets: one, or one for each remainder by T.
    pub fn periods(self, count: u64, size: u64) -> impl Iterator<Item = u64> {
        let step = self.step(size);
        (0..step).map(move |remainder| count * step + remainder)
    }

    /// The promise: looking at so many offsets or more, it never gives 13. Meta-Offset: "at least
    /// 3n-2". First Fit: when P is above (3n-2)T - n, which is (n-1)(3T-1) + T - 1.
    pub fn enough(self, rows: u64, size: u64) -> u64 {
        match self {
            Planner::FirstFit => (rows - 1) * (3 * size - 1) + size,
            Planner::MetaOffset => 3 * (rows - 1) + 1,
        }
    }

    /// What one earlier row can take away: one multiple in crossing 1 and two in crossing 2; of
    /// First Fit's offsets 2T-1 in each crossing. A First Fit row that is not at 0 found the offset
    /// before its own taken, so in one crossing it stands right behind an earlier row, and there
    /// the two have T-1 in common: hence the promise's 3T-1.
    pub fn most_by_one(self, size: u64) -> u64 {
        match self {
            Planner::FirstFit => 4 * size - 2,
            Planner::MetaOffset => 3,
        }
    }

    /// The rows of `bad::spread` take this many offsets from the last row: all that there are. It is
    /// one less than the promise asks for; only Meta-Offset with T = 1 already has enough with 2n-1,
    /// since there one row takes one multiple in crossing 2.
    pub fn most_taken(self, rows: u64, size: u64) -> u64 {
        match self {
            Planner::MetaOffset if size == 1 => 2 * (rows - 1),
            _ => self.enough(rows, size) - 1,
        }
    }

    /// How many offsets it looks at in the shortest and in the longest period with P div T = 3n-2.
    pub fn just_light(self, rows: u64, size: u64) -> [u64; 2] {
        let shortest = (3 * rows - 2) * size;
        [shortest, shortest + size - 1].map(|period| self.looks_at(period, size))
    }

    /// The last number of offsets that can be taken, the promise's bound, their neighbours, and the
    /// loads that are just light.
    pub fn around_the_bound(self, rows: u64, size: u64) -> Vec<u64> {
        let (most, enough) = (self.most_taken(rows, size), self.enough(rows, size));
        let mut counts = vec![most, most + 1, enough - 1, enough, enough + 1];
        counts.extend(self.just_light(rows, size));
        counts.sort();
        counts.dedup();
        counts
    }

    /// The plan, or the refusal.
    pub fn run(self, table: &Table) -> Result<Vec<u64>, Refusal> {
        let mut list = vec![0; table.rows()];
        match self {
            Planner::FirstFit => first_fit(table, &mut list)?,
            Planner::MetaOffset => meta_offset(table, &mut list)?,
        }
        Ok(list)
    }

    pub fn case(self, table: Table, lent: Lent) -> Case {
        match self {
            Planner::FirstFit => Case::FirstFit { table, lent },
            Planner::MetaOffset => Case::MetaOffset { table, lent },
        }
    }
}
