//! Tables of one-slot messages in which rows have no free offset, so that earlier ones move.

use crate::bad::{shuffled, spread, turn_crossing_2};
use crate::link::Table;
use crate::oneslot::{free, place_next, Placed};
use crate::planner::Planner;
use crate::random::Random;

/// Rows and a period from n to 2n, mostly near the lower end: there most moves are.
fn rows_and_period(random: &mut Random) -> (u64, u64) {
    let rows = if random.chance(60) { random.between(2, 16) } else { random.between(17, 64) };
    let more = match random.below(10) {
        0..=4 => random.below(rows / 4 + 1),
        5..=7 => random.below(rows / 2 + 1),
        _ => random.below(rows + 1),
    };
    (rows, rows + more)
}

/// Each delay is the first of a few drawn with which its row has no free offset but a move helps; if
/// none is so, the last drawn.
pub fn moving(random: &mut Random) -> Table {
    let (rows, period) = rows_and_period(random);
    let tried = random.pick(&[1, 2, 4, 8, 16]);
    let mut table = Table::new(period, 1, &[]);
    let mut placed = Placed::default();
    for row in 0..rows as usize {
        table.delays.push(0);
        for _ in 0..tried {
            table.delays[row] = random.below(period);
            if must_move(&table, &placed) {
                break;
            }
        }
        // A row that is refused ends the run; the rows behind it are any.
        if placed.plan.len() == row {
            let _ = place_next(&table, &mut placed);
        }
    }
    above_the_period(random, &mut table);
    table
}

/// Does the table's last row, the next one to be placed, need a move that exists?
fn must_move(table: &Table, placed: &Placed) -> bool {
    let last = table.rows() - 1;
    // Each row placed takes two offsets at most.
    if placed.plan.len() < last || 2 * last < table.period as usize {
        return false;
    }
    let mut next = placed.clone();
    free(table, &placed.plan, None, last).next().is_none() && place_next(table, &mut next).is_ok()
}

/// Rows that take all offsets from the one behind them, as First Fit's refused tables do; then some
/// more rows of any delay.
pub fn spread_then(random: &mut Random) -> Table {
    let rows = random.between(2, 60);
    let order = shuffled(random, rows - 1);
    let mut table = spread(Planner::FirstFit, 2 * rows - 2, 1, &order);
    turn_crossing_2(&mut table, random.below(1000));
    let more = random.between(0, 64 - rows).min(rows - 2);
    table.delays.extend((0..more).map(|_| random.below(2 * rows - 2)));
    table
}

/// Few delays, each of many rows.
pub fn few_delays(random: &mut Random) -> Table {
    let (rows, period) = rows_and_period(random);
    let count = random.between(1, 4);
    let values: Vec<u64> = (0..count).map(|_| random.below(period)).collect();
    let delays = (0..rows).map(|_| random.pick(&values)).collect();
    let mut table = Table { period, size: 1, delays };
    above_the_period(random, &mut table);
    table
}

/// At times some delays are longer by whole periods, which changes no answer.
fn above_the_period(random: &mut Random, table: &mut Table) {
    if random.chance(20) {
        for delay in &mut table.delays {
            *delay += table.period * random.below(3);
        }
    }
}
