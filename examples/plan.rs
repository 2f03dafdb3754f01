//! Reads a text table on standard input, plans it with the exact planner and prints the plan. Exit status 1 if it is refused.
//!
//!     bash -c '. tests/fresh && fresh_archive'
//!     rustc -O examples/plan.rs -L target/staticlib -l static=seamwhisk
//!     ./plan <tables/first.txt

use std::io::Read;
use std::process::ExitCode;

// include/seamwhisk.h has what holds for each; a slice goes as its pointer and its length.
extern "C" {
    fn seamwhisk_read_table(
        text: *const u8,
        length: usize,
        delays: *mut u32,
        room: usize,
        answer: *mut Table,
    );
    fn seamwhisk_exact(
        period: u32,
        size: u32,
        delays: *const u32,
        rows: usize,
        budget: u64,
        offsets: *mut u32,
        room: usize,
        answer: *mut Searched,
    );
    fn seamwhisk_ceiling(rows: usize) -> u64;
}

const MAX_ROWS: usize = 64;

/// The header's seamwhisk_read.
#[repr(C)]
#[derive(Default)]
struct Table {
    number: u64,
    place: u64,
    period: u64,
    size: u64,
    rows: u64,
}

/// The header's seamwhisk_searched.
#[repr(C)]
#[derive(Default)]
struct Searched {
    number: u64,
    place: u64,
    tests: u64,
}

/// A refusal's number and place.
struct Refusal(u64, u64);

struct Plan {
    offsets: Vec<u32>,
    tests: u64,
}

/// The period, the size and the delays of a text table.
fn read_table(text: &[u8]) -> Result<(u32, u32, Vec<u32>), Refusal> {
    let mut delays = [0; MAX_ROWS];
    let mut table = Table::default();
    // SAFETY: each pointer goes with its slice's length, and the slices do not overlap
    unsafe {
        seamwhisk_read_table(text.as_ptr(), text.len(), delays.as_mut_ptr(), MAX_ROWS, &mut table);
    }
    match table.number {
        0 => Ok((table.period as u32, table.size as u32, delays[..table.rows as usize].to_vec())),
        number => Err(Refusal(number, table.place)),
    }
}

/// The plan of the exact planner, with a budget that it never passes.
fn exact(period: u32, size: u32, delays: &[u32]) -> Result<Plan, Refusal> {
    let rows = delays.len();
    let mut offsets = vec![0; rows];
    let mut searched = Searched::default();
    // SAFETY: as above
    unsafe {
        let budget = seamwhisk_ceiling(rows);
        let to = offsets.as_mut_ptr();
        seamwhisk_exact(period, size, delays.as_ptr(), rows, budget, to, rows, &mut searched);
    }
    match searched.number {
        0 => Ok(Plan { offsets, tests: searched.tests }),
        number => Err(Refusal(number, searched.place)),
    }
}

fn main() -> ExitCode {
    let mut text = Vec::new();
    if let Err(fault) = std::io::stdin().read_to_end(&mut text) {
        eprintln!("standard input: {fault}");
        return ExitCode::FAILURE;
    }
    match read_table(&text).and_then(|(period, size, delays)| exact(period, size, &delays)) {
        Ok(plan) => {
            println!("offsets {:?} after {} tests", plan.offsets, plan.tests);
            ExitCode::SUCCESS
        }
        Err(Refusal(number, place)) => {
            println!("refused {number} {place}");
            ExitCode::FAILURE
        }
    }
}
