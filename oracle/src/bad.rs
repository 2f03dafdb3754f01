//! Tables chosen to be bad for a quick planner: the rows before the last take away from the last
//! row as many as they can of the offsets that the planner looks at.

use crate::link::{meet, Table, SMALL_PERIOD};
use crate::planner::Planner;
use crate::random::Random;

/// Period, size and rows.
pub type Shape = (u64, u64, u64);

/// Row i but the last gets offset iT, so that crossing 1 leaves the last row those from (n-1)T on.
/// In crossing 2 the earlier rows start at the places of `order` times a gap with which neighbours
/// take away what lies side by side, nothing twice. The last delay brings the last row's offset
/// (n-1)T as far before the first of these starts as still meets it: with `most_taken` offsets
/// none is left.
pub fn spread(planner: Planner, period: u64, size: u64, order: &[u64]) -> Table {
    let gap = match planner {
        Planner::MetaOffset if size > 1 => 2 * size,
        _ => 2 * size - 1,
    };
    let back = period - size;
    let places = order.iter().zip(0..);
    let mut delays: Vec<u64> =
        places.map(|(place, row)| (place * gap + row * back) % period).collect();
    delays.push(((order.len() as u64 + 1) * back + 1) % period);
    Table { period, size, delays }
}

/// The numbers below `count` in random order.
pub fn shuffled(random: &mut Random, count: u64) -> Vec<u64> {
    let mut order: Vec<u64> = (0..count).collect();
    for last in (1..order.len()).rev() {
        order.swap(last, random.place(last + 1));
    }
    order
}

/// Adding one number to all delays turns crossing 2 and changes no answer.
pub fn turn_crossing_2(table: &mut Table, turn: u64) {
    for delay in &mut table.delays {
        *delay = (*delay + turn) % table.period;
    }
}

/// The rows that the planner has placed, and for every start in each crossing whether it meets one.
#[derive(Clone)]
struct Placed {
    planner: Planner,
    table: Table,
    taken: [Vec<bool>; 2],
}

impl Placed {
    fn none(planner: Planner, period: u64, size: u64) -> Placed {
        let taken = [vec![false; period as usize], vec![false; period as usize]];
        Placed { planner, table: Table::new(period, size, &[]), taken }
    }

    fn all(planner: Planner, table: &Table) -> Placed {
        let mut placed = Placed::none(planner, table.period, table.size);
        table.delays.iter().for_each(|&delay| placed.add(delay));
        placed
    }

    fn looked_at(&self) -> impl Iterator<Item = u64> {
        let step = self.planner.step(self.table.size);
        (0..self.planner.looks_at(self.table.period, self.table.size)).map(move |k| k * step)
    }

    fn is_taken(&self, delay: u64, offset: u64) -> bool {
        let second = (offset + delay) % self.table.period;
        self.taken[0][offset as usize] || self.taken[1][second as usize]
    }

    /// How many offsets are taken for a row of this delay?
    fn taken_for(&self, delay: u64) -> usize {
        self.looked_at().filter(|&offset| self.is_taken(delay, offset)).count()
    }

    /// The delay for which most are taken, the least of these, and how many.
    fn worst_delay(&self) -> (usize, u64) {
        let delays = (0..self.table.period).rev();
        delays.map(|delay| (self.taken_for(delay), delay)).max_by_key(|pair| pair.0).expect("P > 0")
    }

    /// One row more, where the planner puts it; a row that it refuses is only listed.
    fn add(&mut self, delay: u64) {
        let offset = self.looked_at().find(|&offset| !self.is_taken(delay, offset));
        self.table.delays.push(delay);
        let Some(offset) = offset else { return };
        let (period, size) = (self.table.period, self.table.size);
        for (taken, start) in self.taken.iter_mut().zip([offset, (offset + delay) % period]) {
            for (other, taken) in (0..).zip(taken) {
                *taken |= meet(other, start, period, size);
            }
        }
    }
}

/// What a greedy choice of an earlier row's delay makes as large as it can.
#[derive(Clone, Copy, Debug)]
pub enum Greed {
    /// What is taken for the next row, if that has the worst delay.
    ForTheNext,
    /// What is taken for the row itself, which stands late then.
    ForItself,
}

impl Greed {
    fn value(self, placed: &Placed, delay: u64) -> usize {
        match self {
            Greed::ForTheNext => {
                let mut with_row = placed.clone();
                with_row.add(delay);
                with_row.worst_delay().0
            }
            Greed::ForItself => placed.taken_for(delay),
        }
    }
}

/// Delays picked row by row from those that `tried` lists for each row: the first of the greatest
/// value. The last row has the worst delay.
pub fn greedy(
    planner: Planner,
    (period, size, rows): Shape,
    greed: Greed,
    mut tried: impl FnMut() -> Vec<u64>,
) -> Table {
    let mut placed = Placed::none(planner, period, size);
    for row in 1..rows {
        // No more can be taken for the next row, so the other delays need no look. For the row
        // itself, with one earlier row less, it never comes to so much. This leans on no promise.
        let most = (row * planner.most_by_one(size)) as usize;
        let mut best = (0, 0);
        for delay in tried() {
            let value = greed.value(&placed, delay);
            if value > best.0 {
                best = (value, delay);
            }
            if value == most {
                break;
            }
        }
        placed.add(best.1);
    }
    let (_, last) = placed.worst_delay();
    placed.table.delays.push(last);
    placed.table
}

/// A local search: one earlier delay at a time is changed, and stays so if no less is taken for a
/// last row with the worst delay.
pub fn climb(random: &mut Random, planner: Planner, table: &Table, rounds: u64) -> Table {
    let mut earlier = table.clone();
    earlier.delays.pop();
    let mut worst = Placed::all(planner, &earlier).worst_delay();
    for _ in 0..rounds {
        let mut changed = earlier.clone();
        let row = random.place(changed.rows());
        changed.delays[row] = random.below(table.period);
        let value = Placed::all(planner, &changed).worst_delay();
        if value.0 >= worst.0 {
            (earlier, worst) = (changed, value);
        }
    }
    earlier.delays.push(worst.1);
    earlier
}

/// A table near the promise's bound, or near the last period that gets 13 (see `most_taken`).
pub fn near_the_bound(random: &mut Random, planner: Planner) -> Table {
    let few = random.chance(95);
    let rows = if few { random.between(1, 8) } else { random.between(9, 64) };
    let size = match planner {
        // With 64 rows the period stays below a million.
        Planner::MetaOffset if random.chance(10) => random.between(1, 5000),
        _ => random.between(1, if few { 6 } else { 3 }),
    };
    let middle =
        random.pick(&[planner.enough(rows, size), planner.most_taken(rows, size) + 1]).max(3);
    let count = middle - 3 + random.below(5);
    let periods: Vec<u64> = planner.periods(count, size).filter(|&period| period >= size).collect();
    if periods.is_empty() {
        return near_the_bound(random, planner);
    }
    let period = random.pick(&periods);
    let mut table = chosen(random, planner, (period, size, rows));
    turn_crossing_2(&mut table, random.below(1000));
    if random.chance(20) {
        let row = random.place(table.rows());
        table.delays[row] += random.pick(&[1, table.period - 1, table.period]);
    }
    table
}

/// Spread rows; small periods at times by a short greedy choice.
fn chosen(random: &mut Random, planner: Planner, shape: Shape) -> Table {
    let (period, size, rows) = shape;
    if period > SMALL_PERIOD || random.chance(50) {
        let order = shuffled(random, rows - 1);
        return spread(planner, period, size, &order);
    }
    let greed = random.pick(&[Greed::ForTheNext, Greed::ForItself]);
    greedy(planner, shape, greed, || (0..6).map(|_| random.below(period)).collect())
}
