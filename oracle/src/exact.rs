//! The exact planner: the least whole build, and the number of tests.

use crate::link::{refuse, Refusal, Table, CROSSINGS};
use crate::quick;

pub const MAX_EXACT_ROWS: usize = 8;

/// The answer of the exact planner. 14 and 15 carry their tests too.
#[derive(Clone, Copy, Debug, PartialEq, Eq)]
pub struct Exact {
    pub refusal: Option<Refusal>,
    pub tests: u64,
}

/// "A step names a row j not yet placed, a placed row i, and a crossing (1 or 2)."
#[derive(Clone, Copy, Debug, PartialEq, Eq, PartialOrd, Ord)]
pub struct Step {
    pub j: usize,
    pub i: usize,
    pub crossing: u64,
}

/// Offsets of the rows; `None` for a row not yet placed.
pub type Placing = Vec<Option<u64>>;

pub fn exact(table: &Table, budget: u64, list: &mut [u64]) -> Exact {
    if let Err(refusal) = judge(table, list) {
        return Exact { refusal: Some(refusal), tests: 0 };
    }
    let mut search = Search { table, budget, tests: 0, placing: row_0_at_0(table) };
    let end = search.go_deeper();
    let number = match end {
        // "The answer is the offsets of the least whole build, or 14 if there is none."
        End::Build => {
            for (place, offset) in list.iter_mut().zip(search.placing.iter().flatten()) {
                *place = *offset;
            }
            return Exact { refusal: None, tests: search.tests };
        }
        End::NoBuild => 14,
        // "If this number is above the budget, the answer is 15 with tests equal to the budget"
        End::Spent => 15,
    };
    Exact { refusal: Some(Refusal { number, place: 0 }), tests: search.tests }
}

/// 5, 6, 8, 7, 11, then 12 for 9 to 64 rows.
fn judge(table: &Table, list: &[u64]) -> Result<(), Refusal> {
    quick::judge(table, list)?;
    if table.rows() > MAX_EXACT_ROWS {
        return refuse(12, 0);
    }
    Ok(())
}

/// "Row 0 stands at offset 0."
pub fn row_0_at_0(table: &Table) -> Placing {
    let mut placing = vec![None; table.rows()];
    placing[0] = Some(0);
    placing
}

/// "Steps are ordered by j, then i, then crossing."
pub fn steps(placing: &[Option<u64>]) -> Vec<Step> {
    let mut steps = Vec::new();
    for j in (0..placing.len()).filter(|&j| placing[j].is_none()) {
        for i in (0..placing.len()).filter(|&i| placing[i].is_some()) {
            for crossing in CROSSINGS {
                steps.push(Step { j, i, crossing });
            }
        }
    }
    steps
}

/// "It puts j so that in this crossing j starts in the slot right after i's last slot."
pub fn put(table: &Table, placing: &[Option<u64>], step: Step) -> u64 {
    let offset_of_i = placing[step.i].expect("row i of a step is placed");
    let start_of_j = table.start(step.crossing, step.i, offset_of_i) + table.size;
    match step.crossing {
        1 => start_of_j % table.period,
        _ => {
            let delay = table.delays[step.j] % table.period;
            (start_of_j + table.period - delay) % table.period
        }
    }
}

/// "A step is good when j then meets no placed row in either crossing."
pub fn good(table: &Table, placing: &[Option<u64>], j: usize, offset: u64) -> bool {
    (0..placing.len()).all(|row| match placing[row] {
        Some(placed) => !table.meet((row, placed), (j, offset)),
        None => true,
    })
}

enum End {
    Build,
    NoBuild,
    Spent,
}

struct Search<'a> {
    table: &'a Table,
    budget: u64,
    tests: u64,
    placing: Placing,
}

impl Search<'_> {
    /// Tries the candidates in order: "each candidate either goes one message deeper or hands
    /// over to the next candidate; going deeper in vain, it hands over too."
    fn go_deeper(&mut self) -> End {
        if self.placing.iter().all(|row| row.is_some()) {
            return End::Build;
        }
        for step in steps(&self.placing) {
            if self.tests == self.budget {
                return End::Spent;
            }
            self.tests += 1;
            let offset = put(self.table, &self.placing, step);
            if good(self.table, &self.placing, step.j, offset) {
                self.placing[step.j] = Some(offset);
                match self.go_deeper() {
                    End::NoBuild => self.placing[step.j] = None,
                    end => return end,
                }
            }
        }
        End::NoBuild
    }
}

/// "the sum over s = 1 .. n-1 of the product over k = 1 .. s of 2k(n-k)"; 0 outside 1 .. 8.
pub fn ceiling(n: u64) -> u64 {
    if !(1..=MAX_EXACT_ROWS as u64).contains(&n) {
        return 0;
    }
    (1..n).map(|s| (1..=s).map(|k| 2 * k * (n - k)).product::<u64>()).sum()
}
