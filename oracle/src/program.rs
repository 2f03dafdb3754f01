//! The program `exact`: from the bytes of its input to the bytes of its output.

use crate::exact::{ceiling, exact};
use crate::link::{Refusal, Table, MAX_ROWS};
use crate::text::read_table;

/// "reads a text table from standard input, uses the ceiling as budget and prints `found` and
/// the tests, then one offset a line (byte 10 ends each line); or `none` and the tests; or
/// `refused`, the number and the place"
pub fn run(input: &[u8]) -> Vec<u8> {
    let mut delays = vec![0; MAX_ROWS];
    let text = match read_table(input, &mut delays) {
        Err(refusal) => refused(refusal),
        Ok(read) => {
            delays.truncate(read.rows as usize);
            plan_lines(&Table { period: read.period, size: read.size, delays })
        }
    };
    text.into_bytes()
}

fn plan_lines(table: &Table) -> String {
    let mut offsets = vec![0; table.rows()];
    let answer = exact(table, ceiling(table.rows() as u64), &mut offsets);
    match answer.refusal {
        None => {
            let lines: String = offsets.iter().map(|offset| format!("{offset}\n")).collect();
            format!("found {}\n{lines}", answer.tests)
        }
        Some(Refusal { number: 14, .. }) => format!("none {}\n", answer.tests),
        Some(refusal) => refused(refusal),
    }
}

fn refused(refusal: Refusal) -> String {
    format!("refused {} {}\n", refusal.number, refusal.place)
}
