//! The shared link: its quantities, the two crossings, and when two rows meet.
//!
//! Every number is held in 64 bits, so that no sum of 32-bit values wraps.

pub const MAX_PERIOD: u64 = 1_000_000;
pub const MAX_DELAY: u64 = 16_777_215;
pub const MAX_ROWS: usize = 64;

/// Periods up to this one are judged by sets of slots, one bit a slot.
pub const SMALL_PERIOD: u64 = 64;

/// The two crossings, in the order in which they are judged.
pub const CROSSINGS: [u64; 2] = [1, 2];

/// A refusal: its number in document 01 and its place.
#[derive(Clone, Copy, Debug, PartialEq, Eq)]
pub struct Refusal {
    pub number: u64,
    pub place: u64,
}

/// Short form for `Err(Refusal { .. })`.
pub fn refuse<T>(number: u64, place: usize) -> Result<T, Refusal> {
    Err(Refusal { number, place: place as u64 })
}

/// A table of rows: period, size and one delay a row.
#[derive(Clone, Debug, PartialEq, Eq)]
pub struct Table {
    pub period: u64,
    pub size: u64,
    pub delays: Vec<u64>,
}

impl Table {
    pub fn new(period: u64, size: u64, delays: &[u64]) -> Table {
        Table { period, size, delays: delays.to_vec() }
    }

    pub fn rows(&self) -> usize {
        self.delays.len()
    }

    /// "Calls on values .. judge 5, 6, 8, 7 (least row)"
    pub fn judge(&self) -> Result<(), Refusal> {
        if !(1..=MAX_PERIOD).contains(&self.period) {
            return refuse(5, 0);
        }
        if !(1..=self.period).contains(&self.size) {
            return refuse(6, 0);
        }
        if !(1..=MAX_ROWS).contains(&self.rows()) {
            return refuse(8, 0);
        }
        match self.delays.iter().position(|&delay| delay > MAX_DELAY) {
            Some(row) => refuse(7, row),
            None => Ok(()),
        }
    }

    /// "then 17 (least row) where offsets come in"
    pub fn judge_offsets(&self, offsets: &[u64]) -> Result<(), Refusal> {
        match offsets.iter().position(|&offset| offset >= self.period) {
            Some(row) => refuse(17, row),
            None => Ok(()),
        }
    }

    /// "Row i with offset A uses, in the first crossing, the T slots A, A+1, ..
    /// Its start in the second crossing is (A + delay) modulo P"
    pub fn start(&self, crossing: u64, row: usize, offset: u64) -> u64 {
        match crossing {
            1 => offset % self.period,
            _ => (offset + self.delays[row]) % self.period,
        }
    }

    /// Do row i at offset a and row j at offset b meet in this crossing?
    pub fn meet_in(&self, crossing: u64, (i, a): (usize, u64), (j, b): (usize, u64)) -> bool {
        let first = self.start(crossing, i, a);
        let second = self.start(crossing, j, b);
        meet(first, second, self.period, self.size)
    }

    /// Do they meet in either crossing?
    pub fn meet(&self, one: (usize, u64), other: (usize, u64)) -> bool {
        CROSSINGS.iter().any(|&crossing| self.meet_in(crossing, one, other))
    }
}

/// Do messages that start at a and b meet?
pub fn meet(a: u64, b: u64, period: u64, size: u64) -> bool {
    if period <= SMALL_PERIOD {
        meet_by_slots(a, b, period, size)
    } else {
        meet_by_differences(a, b, period, size)
    }
}

/// The slots from a start on, "each modulo P": bit s is set when slot s is used.
fn slots(start: u64, period: u64, size: u64) -> u64 {
    (0..size).fold(0, |used, k| used | 1 << ((start + k) % period))
}

/// "Two different rows meet in a crossing when they use a common slot there."
pub fn meet_by_slots(a: u64, b: u64, period: u64, size: u64) -> bool {
    slots(a, period, size) & slots(b, period, size) != 0
}

/// "this is so unless (a-b) modulo P and (b-a) modulo P are both at least T"
pub fn meet_by_differences(a: u64, b: u64, period: u64, size: u64) -> bool {
    let forward = (period + a - b) % period;
    let backward = (period + b - a) % period;
    !(forward >= size && backward >= size)
}
