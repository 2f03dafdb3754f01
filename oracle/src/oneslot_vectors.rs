//! Vectors of request Five, one-slot messages with a move. Where a comment says "not", it has what
//! another reading would answer; the tables are the smallest that tell the two apart. The self-test
//! compares those of up to six rows with brute force too.

use crate::cases::Case;
use crate::link::Table;
use crate::vectors::{is, last_refused, list, planned, Vector};

const BIG: u64 = 1 << 24;

pub const GROUPS: &[fn() -> Vec<Vector>] =
    &[least_move, all_rows_clear, one_move_a_row, little_and_much, orders, orders_with_25];

fn one_slot(period: u64, size: u64, delays: &[u64], length: usize) -> Case {
    Case::OneSlot { table: Table::new(period, size, delays), lent: list(length) }
}

fn plan(name: &'static str, period: u64, delays: &[u64], offsets: &[u64]) -> Vector {
    planned(name, one_slot, (period, 1), delays, offsets)
}

fn none(name: &'static str, period: u64, delays: &[u64]) -> Vector {
    last_refused(name, one_slot, (period, 1), delays)
}

/// "the least such row, then its least new offset, then the least offset for the new row"
fn least_move() -> Vec<Vector> {
    vec![
        plan("K1", 4, &[0, 2, 1, 1], &[2, 1, 0, 3]),
        // Not 0 2 1, row 1 moved to 2: row 0 is less. Row 0 can't go to 2, its least free offset: there
        // it meets row 2 at either of the two offsets that it gives up.
        plan("K1 row before its offset", 4, &[0, 0, 2], &[3, 1, 0]),
        // Not 0 4 2 1, row 1 moved: the new row's offset comes last.
        plan("K1 row before the new offset", 5, &[0, 0, 0, 2], &[4, 1, 2, 3]),
        // Not 0 4 2 1: row 1 moves to 3, not to 4.
        plan("K1 moved before new offset", 5, &[0, 3, 1, 0], &[0, 3, 2, 4]),
        // Neither row 0 nor row 1 helps.
        plan("K1 row 2 moves", 5, &[0, 1, 1, 4], &[0, 1, 3, 2]),
        // For the last row row 3 moves back, from 3 to 0. Not 13.
        plan("K1 back", 7, &[0, 0, 0, 3, 2, 0], &[4, 1, 2, 0, 5, 6]),
    ]
}

/// "so that all rows so far are clear"
fn all_rows_clear() -> Vec<Vector> {
    vec![
        // Row 0 at 1 and row 1 at 0 meet in crossing 2, both at 1 in crossing 1.
        none("K1 moved and new row, both crossings", 2, &[0, 1]),
        // Row 0 may not stand on row 1, which comes after it: not 1 1 2.
        none("K1 moved row and rows after it", 3, &[0, 0, 1]),
        // Row 0 at 2 meets row 1 in crossing 2: not 2 1 0.
        none("K1 moved row in crossing 2", 3, &[0, 1, 0]),
        // What a moved row gives up is free for later rows, in crossing 1 and in crossing 2.
        plan("K1 offset given up", 7, &[0, 0, 0, 5, 4, 6], &[4, 1, 2, 5, 3, 0]),
        plan("K1 start given up", 7, &[0, 0, 1, 0, 5, 4], &[6, 1, 2, 4, 0, 3]),
    ]
}

/// "At most one move is made for each new row."
fn one_move_a_row() -> Vec<Vector> {
    vec![
        // Row 0 moves for row 3, from 0 to 3, and again for row 4, to 4.
        plan("K3 a row moves twice", 6, &[0, 0, 3, 2, 3], &[4, 1, 2, 0, 3]),
        // 3 1 2 0 5 is clear, but takes two moves.
        none("K3 no two moves", 6, &[0, 0, 2, 2, 0]),
        none("K3 no two moves", 8, &[0, 4, 1, 1, 0, 7]),
        // Row 0 has moved for row 2; the list stays.
        is("K12", one_slot(4, 1, &[0, 2, 1, 1, 0, 0], 7), &[13, 4, 90, 91, 92, 93, 94, 95, 96]),
        // No table of three or four rows is refused that has a clear plan.
        none("K12 no clear plan", 4, &[0, 2, 1, 2]),
    ]
}

fn little_and_much() -> Vec<Vector> {
    let then = |front: Vec<u64>, last: u64| [front, vec![last]].concat();
    let (zeros, from_0) = (vec![0; 63], (0..63).collect::<Vec<u64>>());
    let moved = [vec![64], (1..63).collect(), vec![0]].concat();
    let halves = [vec![0; 32], vec![31; 31], vec![0]].concat();
    let five = [vec![0; 31], vec![31, 61], vec![31; 30], vec![30]].concat();
    vec![
        plan("K1 one row", 1, &[7], &[0]),
        none("K1 one slot", 1, &[0, 0]),
        plan("K1 First Fit's plan", 10, &[0, 3, 7], &[0, 1, 2]),
        plan("K1 2n-1 slots", 5, &[0, 0, 3], &[0, 1, 4]),
        plan("K1 delays above P", 4, &[4, 6, 9, 5], &[2, 1, 0, 3]),
        plan("K1 longest", 4, &[BIG - 4, BIG - 2, BIG - 3, BIG - 3], &[2, 1, 0, 3]),
        plan("K1 64, P = 64", 64, &then(vec![1; 63], 1), &then(from_0.clone(), 63)),
        none("K1 64, P = 64", 64, &then(zeros.clone(), 1)),
        none("K1 64, P = 94", 94, &halves),
        none("K1 64, P = 95", 95, &five),
        plan("K1 64, P = 126", 126, &then(zeros.clone(), 63), &moved),
        plan("K1 64, P = 127", 127, &then(zeros, 64), &then(from_0, 126)),
    ]
}

fn orders() -> Vec<Vector> {
    vec![
        is("A2 tail", one_slot(4, 1, &[0, 2, 1, 1], 6), &[0, 0, 2, 1, 0, 3, 94, 95]),
        is("A2 short", one_slot(4, 1, &[0, 2, 1, 1], 3), &[11, 0, 90, 91, 92]),
        is("A3 11 before 13", one_slot(1, 1, &[0, 0], 1), &[11, 0, 90]),
        is("A3 7 before 11", one_slot(4, 1, &[0, BIG], 1), &[7, 1, 90]),
        is("A4 8 before 7", one_slot(4, 1, &[BIG; 65], 2), &[8, 0, 90, 91]),
        is("A4 no rows", one_slot(4, 1, &[], 1), &[8, 0, 90]),
        is("A10 6 before 8", one_slot(4, 0, &[], 1), &[6, 0, 90]),
        is("A10 5 before 6", one_slot(0, 0, &[0], 1), &[5, 0, 90]),
        is("A9 any u32", one_slot(u64::from(u32::MAX), 1, &[0], 1), &[5, 0, 90]),
    ]
}

/// K4: 25 after 11, before 13; there is no 12.
fn orders_with_25() -> Vec<Vector> {
    vec![
        is("K4", one_slot(10, 2, &[0], 1), &[25, 0, 90]),
        is("K4 size P", one_slot(1_000_000, 1_000_000, &[0], 2), &[25, 0, 90, 91]),
        is("K4 11 before 25", one_slot(10, 2, &[0, 3], 1), &[11, 0, 90]),
        is("K4 25 before 13", one_slot(2, 2, &[0, 0], 2), &[25, 0, 90, 91]),
        is(
            "K4 nine rows",
            one_slot(20, 2, &[0; 9], 10),
            &[&[25, 0], &list(10).numbers()[..]].concat(),
        ),
        is("K4 7 before 25", one_slot(10, 2, &[0, 1, BIG], 3), &[7, 2, 90, 91, 92]),
        is("K4 8 before 25", one_slot(10, 2, &[0; 65], 1), &[8, 0, 90]),
        is("K4 6 before 25", one_slot(10, 11, &[0], 1), &[6, 0, 90]),
        is("K4 size 0", one_slot(10, 0, &[0], 1), &[6, 0, 90]),
        is("K4 5 before 25", one_slot(1_000_001, 2, &[0], 1), &[5, 0, 90]),
    ]
}
