//! The stretch report.

use crate::checker;
use crate::link::{Refusal, Table};

/// What the report says of one crossing.
#[derive(Clone, Copy, Debug, PartialEq, Eq)]
pub struct Stretches {
    pub free: u64,
    pub stretches: u64,
    pub widest: u64,
}

/// "For a clear plan and each crossing: the number of free slots, the number of free
/// stretches, and the length of the widest (0 if none). A plan that isn't clear is refused
/// with 18."
pub fn report(table: &Table, offsets: &[u64]) -> Result<[Stretches; 2], Refusal> {
    checker::judge(table, offsets)?;
    checker::judge_clear(table, offsets)?;
    Ok([crossing_report(table, offsets, 1), crossing_report(table, offsets, 2)])
}

/// The free slots are counted slot by slot, the stretches from the list of their lengths.
fn crossing_report(table: &Table, offsets: &[u64], crossing: u64) -> Stretches {
    let used = used_slots(table, offsets, crossing);
    let free = used.iter().filter(|&&used| !used).count() as u64;
    let lengths = stretch_lengths(&used);
    let stretches = lengths.len() as u64;
    let widest = lengths.iter().copied().max().unwrap_or(0);
    // "they, the lengths of the stretches summed, and P - nT are all equal"; request Two: "The
    // free total stays equal to P - nT."
    assert_eq!(free, lengths.iter().sum::<u64>());
    assert_eq!(free, table.period - table.rows() as u64 * table.size);
    Stretches { free, stretches, widest }
}

/// The lengths of the stretches. Document 01 has "A stretch is a longest run of free slots from
/// slot 0 to slot P-1, not joined across the end"; request Two of document 02 changes this: "From
/// now on a run at the end and a run at the start are one stretch."
fn stretch_lengths(used: &[bool]) -> Vec<u64> {
    // One run before each used slot and one behind the last; many are empty.
    let mut runs: Vec<u64> = used.split(|&used| used).map(|run| run.len() as u64).collect();
    // Some row uses a slot, so that the run at the end is not the one at the start.
    assert!(runs.len() > 1);
    let at_the_end = runs.pop().unwrap_or(0);
    runs[0] += at_the_end;
    runs.retain(|&length| length > 0);
    runs
}

/// Element s says whether slot s is used by any row in this crossing.
fn used_slots(table: &Table, offsets: &[u64], crossing: u64) -> Vec<bool> {
    let mut used = vec![false; table.period as usize];
    for (row, &offset) in offsets.iter().enumerate() {
        let start = table.start(crossing, row, offset);
        for k in 0..table.size {
            used[((start + k) % table.period) as usize] = true;
        }
    }
    used
}
