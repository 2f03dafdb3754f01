//! One-slot messages, with a move.
//!
//! The rule is stated over any period and size, as the rest is; only the judging says that the
//! size is 1.

use crate::link::{refuse, Refusal, Table};
use crate::quick;

/// An earlier row put elsewhere so that a new row finds a place.
#[derive(Clone, Copy, Debug, PartialEq, Eq)]
pub struct Move {
    pub new_row: usize,
    pub row: usize,
    pub from: u64,
    pub to: u64,
}

/// The rows placed so far, each by its offset, and the moves made.
#[derive(Clone, Debug, Default, PartialEq, Eq)]
pub struct Placed {
    pub plan: Vec<u64>,
    pub moves: Vec<Move>,
}

/// From so many slots on no row of one-slot messages needs a move: an earlier row takes one offset in
/// each crossing.
pub fn enough(rows: u64) -> u64 {
    2 * (rows - 1) + 1
}

/// The plan of one-slot messages, or the refusal; on refusal nothing is written.
pub fn one_slot(table: &Table, list: &mut [u64]) -> Result<(), Refusal> {
    judge(table, list)?;
    let placed = place_all(table)?;
    list[..table.rows()].copy_from_slice(&placed.plan);
    Ok(())
}

/// 5, 6, 8, 7, 11 as for the quick planners; "25, after 12's place in the order"
pub fn judge(table: &Table, list: &[u64]) -> Result<(), Refusal> {
    quick::judge(table, list)?;
    if table.size != 1 {
        return refuse(25, 0);
    }
    Ok(())
}

/// "Rows go in table order." 13 is at the new row, "exactly when no such single move exists".
pub fn place_all(table: &Table) -> Result<Placed, Refusal> {
    let mut placed = Placed::default();
    while placed.plan.len() < table.rows() {
        place_next(table, &mut placed)?;
    }
    Ok(placed)
}

/// The first row not yet placed, at its least free offset or after a move.
pub fn place_next(table: &Table, placed: &mut Placed) -> Result<(), Refusal> {
    let row = placed.plan.len();
    if take_least_free(table, placed, row) || take_after_a_move(table, placed, row) {
        return Ok(());
    }
    refuse(13, row)
}

/// "A row takes the least free offset." False if it has none.
fn take_least_free(table: &Table, placed: &mut Placed, row: usize) -> bool {
    let least = free(table, &placed.plan, None, row).next();
    placed.plan.extend(least);
    least.is_some()
}

/// "At most one move is made for each new row." False if no move helps.
fn take_after_a_move(table: &Table, placed: &mut Placed, new_row: usize) -> bool {
    let Some((row, to, offset)) = least_move(table, &placed.plan, new_row) else { return false };
    placed.moves.push(Move { new_row, row, from: placed.plan[row], to });
    placed.plan[row] = to;
    placed.plan.push(offset);
    true
}

/// "the least such row, then its least new offset, then the least offset for the new row, so that
/// all rows so far are clear". The rows placed are clear of each other, so only the pairs with the
/// moved row or the new one need a look.
fn least_move(table: &Table, plan: &[u64], new_row: usize) -> Option<(usize, u64, u64)> {
    for row in 0..plan.len() {
        let for_new: Vec<u64> = free(table, plan, Some(row), new_row).collect();
        // Without such an offset no place of the moved row helps.
        if for_new.is_empty() {
            continue;
        }
        for to in free(table, plan, Some(row), row) {
            let clear = |&&offset: &&u64| !table.meet((row, to), (new_row, offset));
            if let Some(&offset) = for_new.iter().find(clear) {
                return Some((row, to, offset));
            }
        }
    }
    None
}

/// The offsets, in rising order, at which a row meets none of the rows placed, one left out.
pub fn free<'a>(
    table: &'a Table,
    plan: &'a [u64],
    left_out: Option<usize>,
    row: usize,
) -> impl Iterator<Item = u64> + 'a {
    let met = move |offset: u64| {
        let mut others = plan.iter().enumerate().filter(move |(other, _)| Some(*other) != left_out);
        others.any(|(other, &stands)| table.meet((other, stands), (row, offset)))
    };
    (0..table.period).filter(move |&offset| !met(offset))
}
