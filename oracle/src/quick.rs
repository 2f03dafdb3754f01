//! The two quick planners.

use crate::link::{refuse, Refusal, Table};

/// "First Fit gives each row the least free offset."
pub fn first_fit(table: &Table, list: &mut [u64]) -> Result<(), Refusal> {
    judge(table, list)?;
    place_all(table, 0..table.period, list)
}

/// "Meta-Offset looks only at 0, T, 2T, .., (m-1)T, where m is P divided by T, rounded down."
pub fn meta_offset(table: &Table, list: &mut [u64]) -> Result<(), Refusal> {
    judge(table, list)?;
    let m = table.period / table.size;
    place_all(table, (0..m).map(|k| k * table.size), list)
}

/// 5, 6, 8, 7, then 11 for a list shorter than the rows.
pub fn judge(table: &Table, list: &[u64]) -> Result<(), Refusal> {
    table.judge()?;
    if list.len() < table.rows() {
        return refuse(11, 0);
    }
    Ok(())
}

/// "Rows are taken in table order." The offsets looked at come in rising order.
fn place_all(
    table: &Table,
    looked_at: impl Iterator<Item = u64> + Clone,
    list: &mut [u64],
) -> Result<(), Refusal> {
    let mut plan = Vec::new();
    for row in 0..table.rows() {
        match looked_at.clone().find(|&offset| free(table, &plan, row, offset)) {
            Some(offset) => plan.push(offset),
            // "If a row has no such offset the planner refuses with 13 and that row."
            None => return refuse(13, row),
        }
    }
    list[..plan.len()].copy_from_slice(&plan);
    Ok(())
}

/// "An offset is free for a row when it meets no earlier row in either crossing."
fn free(table: &Table, plan: &[u64], row: usize, offset: u64) -> bool {
    plan.iter().enumerate().all(|(earlier, &placed)| !table.meet((earlier, placed), (row, offset)))
}
