//! Random cases of every kind: short and long, valid and damaged, dense and light.

use crate::bad::near_the_bound;
use crate::brute::text_of;
use crate::cases::{joined, Case, Lent, Part};
use crate::checker::Record;
use crate::damage::{damage_file, damage_joined, damage_text};
use crate::exact::{ceiling, exact, MAX_EXACT_ROWS};
use crate::joined::{plan_texts, FIELDS, MAX_TEXTS};
use crate::link::{Table, CROSSINGS, MAX_ROWS};
use crate::moving::{few_delays, moving, spread_then};
use crate::planfile::plan_file;
use crate::planner::Planner;
use crate::quick::first_fit;
use crate::random::Random;

/// No search of a random case makes more tests than this.
pub const MOST_TESTS: u64 = 20_000;

/// The same for one text of a joined input.
const MOST_TESTS_OF_A_TEXT: u64 = 2_000;

/// Joined texts take the place of one case in 25. They are drawn apart, so that all other cases of
/// a seed stay what they are.
pub fn case(random: &mut Random) -> Case {
    let mut own = random.branch();
    let case = case_of_one_table(random);
    if own.chance(4) {
        joined_case(&mut own)
    } else {
        case
    }
}

fn case_of_one_table(random: &mut Random) -> Case {
    match random.below(216) {
        0..=26 => check_case(random),
        27..=45 => quick_case(random, Planner::FirstFit),
        46..=62 => quick_case(random, Planner::MetaOffset),
        63..=92 => exact_case(random),
        93..=118 => read_table_case(random),
        119..=136 => write_plan_case(random),
        137..=162 => read_plan_case(random),
        163..=177 => report_case(random),
        178 => Case::Ceiling { rows: random.pick(&[0, 1, 2, 3, 4, 5, 6, 7, 8, 9, 13, 64, 65]) },
        179..=186 => records_case(random),
        187..=202 => one_slot_case(random),
        _ => program_case(random),
    }
}

fn check_case(random: &mut Random) -> Case {
    let (mut table, mut offsets) = plan(random);
    spoil(random, &mut table, &mut offsets, 25);
    Case::Check { table, offsets }
}

fn records_case(random: &mut Random) -> Case {
    let (mut table, mut offsets) = plan(random);
    spoil(random, &mut table, &mut offsets, 30);
    let rows = table.delays.iter().zip(&offsets);
    let records = rows.map(|(&delay, &offset)| Record { delay, offset }).collect();
    Case::CheckRecords { period: table.period, size: table.size, records }
}

/// A plan, at times with the crossings exchanged, at times with a message at the period's end. What
/// that takes is drawn apart, so that a seed's cases of other kinds do not hang on it.
fn report_case(random: &mut Random) -> Case {
    let mut own = random.branch();
    let (mut table, mut offsets) = plan(random);
    if own.chance(50) {
        exchange_crossings(&mut table, &mut offsets);
    }
    if own.chance(50) {
        let turn = turn_to_the_end(&mut own, &table, &offsets);
        offsets = turned(&table, &offsets, turn);
    }
    spoil(random, &mut table, &mut offsets, 20);
    Case::Report { table, offsets }
}

/// Each row now starts in crossing 1 where it started in crossing 2, and the other way round:
/// First Fit leaves few stretches in crossing 1.
fn exchange_crossings(table: &mut Table, offsets: &mut [u64]) {
    let period = table.period;
    for (row, offset) in offsets.iter_mut().enumerate() {
        *offset = table.start(2, row, *offset);
        table.delays[row] = period - table.delays[row] % period;
    }
}

/// A turn of the circle with which, in one crossing, a message begins or ends at most two slots
/// from the period's end.
pub fn turn_to_the_end(random: &mut Random, table: &Table, offsets: &[u64]) -> u64 {
    let row = random.place(offsets.len());
    let start = table.start(random.pick(&CROSSINGS), row, offsets[row]);
    let edge = start + random.pick(&[0, table.size]);
    2 * table.period - edge % table.period + random.below(5) - 2
}

/// All offsets moved on by the same number of slots modulo P.
pub fn turned(table: &Table, offsets: &[u64], turn: u64) -> Vec<u64> {
    offsets.iter().map(|offset| (offset + turn) % table.period).collect()
}

/// A quarter of the tables are near the bound of request Three. They come from a generator of their
/// own, so that what follows in a seed's cases does not hang on how such a table is made.
fn quick_case(random: &mut Random, planner: Planner) -> Case {
    let mut own = random.branch();
    let mut table = table(random);
    if own.chance(25) {
        table = near_the_bound(&mut own, planner);
    }
    spoil(random, &mut table, &mut vec![0], 20);
    let lent = lent(random, table.rows());
    planner.case(table, lent)
}

/// Half of the tables are made so that rows move; some have few delays, some wide periods.
pub fn one_slot_case(random: &mut Random) -> Case {
    let mut table = match random.below(20) {
        0..=7 => moving(random),
        8..=9 => spread_then(random),
        10..=13 => few_delays(random),
        14..=16 => any_one_slot(random),
        _ => wide(random),
    };
    if random.chance(4) {
        table.size = random.between(2, 9).min(table.period);
    }
    spoil(random, &mut table, &mut vec![0], 12);
    let lent = lent(random, table.rows());
    Case::OneSlot { table, lent }
}

/// Any table with no more slots than can be needed, few rows mostly.
fn any_one_slot(random: &mut Random) -> Table {
    let rows = if random.chance(70) { random.between(1, 9) } else { random.between(10, 64) };
    let period = random.between(rows.saturating_sub(1).max(1), 2 * rows + 1);
    of_shape(random, (period, 1, rows, 3 * period))
}

/// More slots than needed, up to a million.
fn wide(random: &mut Random) -> Table {
    let rows = random.between(1, 64);
    let period = random.pick(&[2 * rows - 1, 2 * rows, 1000, 65_536, 999_999, 1_000_000]);
    let delays = random.pick(&[period, 1 << 24]);
    of_shape(random, (period.max(rows), 1, rows, delays))
}

fn exact_case(random: &mut Random) -> Case {
    let mut table = table(random);
    if random.chance(90) {
        table.delays.truncate(MAX_EXACT_ROWS);
    }
    spoil(random, &mut table, &mut vec![0], 12);
    let lent = lent(random, table.rows());
    let budget = budget(random, &table);
    Case::Exact { table, budget, lent }
}

/// A budget around the true count, where the count is not too large.
fn budget(random: &mut Random, table: &Table) -> u64 {
    let answer = exact(table, MOST_TESTS, &mut vec![0; table.rows()]);
    let count = answer.tests;
    if answer.refusal.is_some_and(|refusal| refusal.number == 15) {
        return match random.below(4) {
            0 => random.below(MOST_TESTS),
            1 => random.below(10),
            _ => random.below(1000),
        };
    }
    match random.below(8) {
        0 => count.saturating_sub(1),
        1 => count,
        2 => count + 1,
        3 => random.below(count + 1),
        4 => count.saturating_add(random.below(1 << 40)),
        5 => ceiling(table.rows() as u64).max(count),
        6 => random.pick(&[0, 1, 2]),
        _ => u64::MAX,
    }
}

pub fn read_table_case(random: &mut Random) -> Case {
    let mut table = table(random);
    spoil(random, &mut table, &mut vec![0], 20);
    let mut text = text_of(&table);
    if random.chance(65) {
        damage_text(random, &mut text);
    }
    let lent = lent(random, table.rows());
    Case::ReadTable { text, lent }
}

pub fn program_case(random: &mut Random) -> Case {
    let mut table = table(random);
    let rows = random.between(2, 9) as usize;
    table.delays.truncate(rows);
    if random.chance(20) {
        spoil(random, &mut table, &mut vec![0], 100);
    }
    let mut input = text_of(&table);
    if random.chance(35) {
        damage_text(random, &mut input);
    }
    if searches_long(&input) {
        return program_case(random);
    }
    Case::Program { input }
}

/// Would the program make more than `MOST_TESTS` tests on this input?
fn searches_long(input: &[u8]) -> bool {
    let mut delays = vec![0; 64];
    let Ok(read) = crate::text::read_table(input, &mut delays) else { return false };
    delays.truncate(read.rows as usize);
    let table = Table { period: read.period, size: read.size, delays };
    let answer = exact(&table, MOST_TESTS, &mut vec![0; table.rows()]);
    answer.refusal.is_some_and(|refusal| refusal.number == 15)
}

pub fn write_plan_case(random: &mut Random) -> Case {
    let (mut table, mut offsets) = plan(random);
    let needed = plan_file(&table, &offsets).len();
    let mut lent = lent(random, needed);
    lent.first %= 256;
    if random.chance(20) {
        spoil(random, &mut table, &mut offsets, 100);
        lent.length = random.below(10) as usize;
    }
    Case::WritePlan { table, offsets, lent }
}

pub fn read_plan_case(random: &mut Random) -> Case {
    let (mut table, mut offsets) = plan(random);
    let rows = table.rows();
    spoil(random, &mut table, &mut offsets, 10);
    let mut file = plan_file(&table, &offsets);
    if random.chance(60) {
        file = damage_file(random, &table, &offsets);
    }
    let (delays, offsets) = (lent(random, rows), lent(random, rows));
    Case::ReadPlan { file, delays, offsets }
}

/// Texts joined end to end, in about half of the cases with a damage.
pub fn joined_case(random: &mut Random) -> Case {
    let texts = match random.below(20) {
        0..=14 => random.between(1, 6),
        15..=17 => random.between(7, 31),
        _ => random.between(32, 34),
    };
    let mut parts = good_texts(random, texts as usize);
    if random.chance(50) {
        damage_joined(random, &mut parts);
    }
    let budget = joined_budget(random, &joined(&parts));
    let answers = joined_lent(random, FIELDS * MAX_TEXTS, 4);
    let offsets = joined_lent(random, MAX_ROWS * MAX_TEXTS, 52);
    Case::PlanTexts { budget, parts, answers, offsets }
}

/// So many good texts; where they are many some come several times over, to keep the line short.
pub fn good_texts(random: &mut Random, texts: usize) -> Vec<Part> {
    let mut parts = Vec::new();
    let mut left = texts;
    while left > 0 {
        let times = if texts > 6 { 1 + random.place(left.min(3)) } else { 1 };
        let shape = joined_shape(random);
        parts.push(Part::new(times, &text_of(&of_shape(random, shape))));
        left -= times;
    }
    parts
}

/// Mostly small and dense tables: plans, 14 and 15 all come often.
fn joined_shape(random: &mut Random) -> Shape {
    match random.below(40) {
        0..=18 => small(random),
        19..=33 => dense(random),
        34..=35 => light(random),
        36 => medium(random),
        37 => large(random),
        _ => {
            let rows = random.between(9, 64);
            (2 * rows, 1, rows, 10)
        }
    }
}

/// A budget around the tests of one of the texts, or for all of them. No text makes more than
/// `MOST_TESTS_OF_A_TEXT` tests.
fn joined_budget(random: &mut Random, input: &[u8]) -> u64 {
    let (mut answers, mut offsets) = (vec![0; FIELDS * MAX_TEXTS], vec![0; MAX_ROWS * MAX_TEXTS]);
    let run = plan_texts(input, MOST_TESTS_OF_A_TEXT, &mut answers, &mut offsets);
    let answered: Vec<&[u64]> = answers.chunks(FIELDS).take(run.texts as usize).collect();
    let long = answered.iter().any(|answer| answer[0] == 15);
    match random.below(10) {
        0 => random.below(20),
        1..=4 if !answered.is_empty() => {
            let tests = random.pick(&answered)[2];
            (tests + random.pick(&[0, 0, 1])).saturating_sub(random.pick(&[0, 1]))
        }
        5..=7 if !long => random.pick(&[4_000_000_000, 4_000_000_000, 1 << 32, u64::MAX]),
        _ => random.below(MOST_TESTS_OF_A_TEXT + 1),
    }
}

/// A list for joined texts: mostly as long as needed or a little longer, at times shorter.
fn joined_lent(random: &mut Random, needed: usize, more: usize) -> Lent {
    let length = match random.below(40) {
        0 => needed - 1,
        1 => random.place(needed),
        2..=10 => needed + 1 + random.place(more),
        _ => needed,
    };
    let first = match random.below(10) {
        0 => u64::from(u32::MAX) - length as u64,
        1 | 2 => random.below(100),
        _ => random.below(60_000),
    };
    Lent { length, first }
}

/// A lent buffer: mostly as long as needed, at times shorter or longer.
fn lent(random: &mut Random, needed: usize) -> Lent {
    let length = match random.below(20) {
        0 | 1 => needed.saturating_sub(1),
        2 => random.place(needed + 1),
        3..=5 => needed + random.place(4),
        _ => needed,
    };
    let first = match random.below(20) {
        0 => u64::from(u32::MAX) - length as u64,
        1 | 2 => random.below(60_000),
        _ => random.below(100),
    };
    Lent { length, first }
}

/// A good table of one of several shapes.
fn table(random: &mut Random) -> Table {
    let shape = match random.below(100) {
        0..=34 => small(random),
        35..=64 => dense(random),
        65..=80 => medium(random),
        81..=91 => light(random),
        92..=93 => many_rows(random),
        _ => large(random),
    };
    of_shape(random, shape)
}

/// Period, size, rows and the bound of the delays.
type Shape = (u64, u64, u64, u64);

fn of_shape(random: &mut Random, (period, size, rows, delays): Shape) -> Table {
    let delays = (0..rows).map(|_| random.below(delays)).collect();
    Table { period, size, delays }
}

fn small(random: &mut Random) -> Shape {
    let period = random.between(1, 12);
    let most = if random.chance(10) { period } else { period.div_ceil(3) };
    let (size, rows) = (random.between(1, most), random.between(1, 5));
    (period, size, rows, 2 * period)
}

/// Little or no slot to spare, at times too few: planners often refuse.
fn dense(random: &mut Random) -> Shape {
    let (rows, size) = (random.between(2, 8), random.between(1, 3));
    let fitting = if random.chance(85) { rows } else { random.between(1, rows) };
    let period = fitting * size + random.below(4);
    (period, size, rows, 2 * period)
}

fn medium(random: &mut Random) -> Shape {
    let (period, rows) = (random.between(20, 300), random.between(1, 10));
    let size = random.between(1, period / (2 * rows) + 1);
    (period, size, rows, 5000)
}

/// Many slots to spare: every planner finds a plan.
fn light(random: &mut Random) -> Shape {
    let (rows, size) = (random.between(2, 8), random.between(1, 20));
    let period = 4 * rows * size + random.below(50);
    (period, size, rows, 1 << 24)
}

fn many_rows(random: &mut Random) -> Shape {
    let (rows, size) = (random.between(20, 64), random.between(1, 3));
    let period = random.between(2, 4) * rows * size;
    (period, size, rows, 100)
}

/// Long periods, few rows.
fn large(random: &mut Random) -> Shape {
    let doublings = random.below(9);
    let period = random.between(1000, 3900) << doublings;
    let (period, rows) = (period.min(1_000_000), random.between(1, 4));
    let size = random.between(1, period / (2 * rows));
    (period, size, rows, 1 << 24)
}

/// A good table with offsets in range: clear, nearly clear, or far from it.
pub fn plan(random: &mut Random) -> (Table, Vec<u64>) {
    let mut table = table(random);
    let period = table.period;
    let mut offsets: Vec<u64> = table.delays.iter().map(|_| random.below(period)).collect();
    match random.below(10) {
        0..=5 => {
            if let Some(found) = clear_plan(random, &table) {
                offsets = found;
            }
        }
        6..=7 => {
            if let Some(found) = clear_plan(random, &table) {
                offsets = found;
                let row = random.place(table.rows());
                let moved = random.between(1, table.size);
                offsets[row] =
                    (offsets[row] + period + random.pick(&[moved, period - moved])) % period;
            }
        }
        8 => meet_in_crossing_2(random, &mut table, &mut offsets),
        _ if random.chance(50) => over_the_end(random, &table, &mut offsets),
        _ => {}
    }
    (table, offsets)
}

/// A clear plan turned around the circle, if First Fit or a short search finds one.
pub fn clear_plan(random: &mut Random, table: &Table) -> Option<Vec<u64>> {
    let mut offsets = vec![0; table.rows()];
    if first_fit(table, &mut offsets).is_err() {
        exact(table, 2000, &mut offsets).refusal.is_none().then_some(())?;
    }
    let turn = random.below(table.period);
    Some(turned(table, &offsets, turn))
}

/// Rows side by side in crossing 1, one of them brought onto another in crossing 2.
fn meet_in_crossing_2(random: &mut Random, table: &mut Table, offsets: &mut [u64]) {
    let (period, size, rows) = (table.period, table.size, table.rows());
    let turn = random.below(period);
    for (row, offset) in offsets.iter_mut().enumerate() {
        *offset = (turn + row as u64 * size) % period;
    }
    let (one, other) = (random.place(rows), random.place(rows));
    let start = offsets[one] + table.delays[one] + random.below(size);
    table.delays[other] = (start + period - offsets[other]) % period;
}

/// One message over slot P-1, another near slot 0.
fn over_the_end(random: &mut Random, table: &Table, offsets: &mut [u64]) {
    let (one, other) = (random.place(offsets.len()), random.place(offsets.len()));
    offsets[one] = table.period - random.between(1, table.size);
    offsets[other] = random.below(table.size);
}

/// Puts one to three faults into the numbers, in `percent` of 100 calls.
fn spoil(random: &mut Random, table: &mut Table, offsets: &mut Vec<u64>, percent: u64) {
    if !random.chance(percent) {
        return;
    }
    for _ in 0..random.pick(&[1, 1, 2, 3]) {
        spoil_once(random, table, offsets);
    }
}

fn spoil_once(random: &mut Random, table: &mut Table, offsets: &mut Vec<u64>) {
    let most = u64::from(u32::MAX);
    let any_above = |random: &mut Random, least: u64| match random.below(3) {
        0 => least.min(most),
        1 => most,
        _ => random.between(least.min(most), most),
    };
    match random.below(13) {
        0 => table.period = 0,
        1 => table.period = any_above(random, 1_000_001),
        2 => table.size = 0,
        3 => table.size = any_above(random, table.period + 1),
        4 => {
            table.delays.clear();
            offsets.truncate(random.place(2));
        }
        5 => {
            table.delays.resize(65, 0);
            offsets.resize(65, 0);
        }
        6..=8 if table.rows() > 0 => {
            for _ in 0..random.between(1, 2) {
                let row = random.place(table.rows());
                table.delays[row] = any_above(random, 1 << 24);
            }
        }
        9 => offsets.push(0),
        10 => offsets.truncate(offsets.len().saturating_sub(1)),
        11..=12 if !offsets.is_empty() => {
            for _ in 0..random.between(1, 2) {
                let row = random.place(offsets.len());
                offsets[row] = any_above(random, table.period);
            }
        }
        _ => {}
    }
}
