//! Light loads: the groups of the self-test for request Three's promise.

use crate::bad::{climb, greedy, shuffled, spread, turn_crossing_2, Greed, Shape};
use crate::brute::{all_lists, slot_set};
use crate::link::{Refusal, Table};
use crate::planner::Planner;
use crate::random::Random;
use crate::selftest::{quick_both, same};

const PLANNERS: [Planner; 2] = [Planner::MetaOffset, Planner::FirstFit];

/// Is the table refused? With 13 then, since all tables here are good.
fn refused(planner: Planner, table: &Table) -> Result<bool, String> {
    match planner.run(table) {
        Ok(_) => Ok(false),
        Err(Refusal { number: 13, .. }) => Ok(true),
        Err(refusal) => Err(format!("{table:?}: refused {refusal:?}")),
    }
}

/// What one earlier row takes away, by slot sets: in crossing 1, standing on a multiple of T, one
/// multiple; in crossing 2, wherever it starts, two at most; of all offsets 2T-1 in each crossing.
pub fn one_earlier_row() -> Result<u64, String> {
    let mut count = 0;
    for period in 1..=40 {
        for size in 1..=period {
            count += one_earlier_row_of(period, size)?;
        }
    }
    Ok(count)
}

fn one_earlier_row_of(period: u64, size: u64) -> Result<u64, String> {
    let table = Table::new(period, size, &[0]);
    let bits = |start| slot_set(&table, 1, 0, start).iter().fold(0u64, |set, slot| set | 1 << slot);
    let sets: Vec<u64> = (0..period).map(bits).collect();
    let met = |start: u64, offsets: &[u64], delay: u64| {
        let starts = offsets.iter().map(|offset| (offset + delay) % period);
        starts.filter(|&other| sets[start as usize] & sets[other as usize] != 0).count() as u64
    };
    let every: Vec<u64> = (0..period).collect();
    let multiples: Vec<u64> = (0..period / size).map(|k| k * size).collect();
    for &offset in &multiples {
        same((period, size, offset), met(offset, &multiples, 0), 1)?;
    }
    let mut most = 0;
    for (start, delay) in every.iter().flat_map(|a| every.iter().map(move |b| (*a, *b))) {
        most = most.max(met(start, &multiples, delay));
        // With delay 0 this is also crossing 1.
        let offsets = met(start, &every, delay);
        same((period, size, start, delay), offsets, period.min(2 * size - 1))?;
    }
    // Two are reached wherever there are two multiples and a slot between their first slots.
    same((period, size), most, (period / size).min(size).min(2))?;
    Ok(period * period + multiples.len() as u64)
}

/// The sentences as they are written: each is what `enough` says of its planner, and a light load
/// as well as (n-1)(4T-2) below P gives First Fit's, 3nT at most P a light load.
pub fn sentences() -> Result<u64, String> {
    let mut count = 0;
    for (n, t) in (1..=64).flat_map(|n| (1..=60).map(move |t| (n, t))) {
        // All of them hold from 4nT on.
        for p in t..=4 * n * t {
            let light = p / t >= 3 * n - 2;
            let first_fit = (3 * n - 2) * t < p + n;
            let holds = PLANNERS.map(|planner| planner.looks_at(p, t) >= planner.enough(n, t));
            same((p, t, n), holds, [light, first_fit])?;
            let counted_apart = (n - 1) * (4 * t - 2) < p;
            let macro_slots = 3 * n * t <= p;
            same((p, t, n, "light"), light && !first_fit, false)?;
            same((p, t, n, "(n-1)(4T-2) < P"), counted_apart && !first_fit, false)?;
            same((p, t, n, "3nT <= P"), macro_slots && !light, false)?;
            count += 4;
        }
    }
    Ok(count)
}

/// All tables with these numbers. From four rows on row 0 has delay 0: adding one number to all
/// delays turns crossing 2 and changes no answer.
fn all_tables((period, size, rows): Shape) -> impl Iterator<Item = Table> {
    let front: &[u64] = if rows < 4 { &[] } else { &[0] };
    let lists = all_lists(rows as usize - front.len(), period);
    lists.map(move |rest| Table { period, size, delays: [front, &rest].concat() })
}

/// How many of all tables with these numbers are refused, and how many tables there are.
fn refused_of_all(planner: Planner, shape: Shape) -> Result<(u64, u64), String> {
    let (mut refusals, mut count) = (0, 0);
    for table in all_tables(shape) {
        refusals += u64::from(refused(planner, &table)?);
        count += 1;
    }
    Ok((refusals, count))
}

/// At `most_taken` offsets some table is refused, with more none, every remainder of P by T; both
/// planners up to the last load that is just light and a little on.
pub fn all_small_tables() -> Result<u64, String> {
    let mut count = 0;
    for planner in PLANNERS {
        for (rows, size) in (1..=4).flat_map(|rows| (1..=4).map(move |size| (rows, size))) {
            let most = planner.most_taken(rows, size);
            let [_, light] = planner.just_light(rows, size);
            for looked_at in most..=light + 4 / rows {
                for period in planner.periods(looked_at, size).filter(|&period| period >= size) {
                    let (refusals, tables) = refused_of_all(planner, (period, size, rows))?;
                    same((planner, period, size, rows), refusals > 0, looked_at == most)?;
                    count += tables;
                }
            }
        }
    }
    Ok(count)
}

/// Where the planner puts spread rows, if more offsets are looked at than are taken: the last one
/// gets the first behind those taken.
fn spread_plan(planner: Planner, rows: u64, size: u64) -> Vec<u64> {
    let last = match planner {
        Planner::FirstFit => (rows - 1) * (3 * size - 1),
        Planner::MetaOffset => planner.most_taken(rows, size) * size,
    };
    (0..rows - 1).map(|row| row * size).chain([last]).collect()
}

/// Two to 64 rows spread in random order: at `most_taken` offsets the last row is refused, with
/// more there is a plan. So both bounds are sharp for all these n, Meta-Offset's with T >= 2.
pub fn spread_tables() -> Result<u64, String> {
    let mut random = Random::new(15);
    let mut count = 0;
    for planner in PLANNERS {
        for (rows, size) in (2..=64).flat_map(|rows| (1..=6).map(move |size| (rows, size))) {
            let most = planner.most_taken(rows, size);
            let plan = spread_plan(planner, rows, size);
            for looked_at in planner.around_the_bound(rows, size) {
                let none = Refusal { number: 13, place: rows - 1 };
                let expected = if looked_at > most { Ok(plan.clone()) } else { Err(none) };
                for period in planner.periods(looked_at, size) {
                    let order = shuffled(&mut random, rows - 1);
                    let mut table = spread(planner, period, size, &order);
                    turn_crossing_2(&mut table, random.below(period));
                    same(&table, planner.run(&table), expected.clone())?;
                    count += 1;
                }
            }
        }
    }
    Ok(count)
}

/// A way to choose a bad table with these numbers, and up to how many rows it is sure to find one
/// that is refused, where there is one.
type Choice = (fn(&mut Random, Planner, Shape) -> Table, u64);

fn least_of_the_best(_: &mut Random, planner: Planner, shape: Shape) -> Table {
    greedy(planner, shape, Greed::ForTheNext, || (0..shape.0).collect())
}

fn any_of_the_best(random: &mut Random, planner: Planner, shape: Shape) -> Table {
    greedy(planner, shape, Greed::ForTheNext, || shuffled(random, shape.0))
}

/// The best of a few, where trying all delays takes too long.
fn best_of_a_few(random: &mut Random, planner: Planner, shape: Shape) -> Table {
    greedy(planner, shape, Greed::ForTheNext, || (0..8).map(|_| random.below(shape.0)).collect())
}

fn late_rows(random: &mut Random, planner: Planner, shape: Shape) -> Table {
    greedy(planner, shape, Greed::ForItself, || shuffled(random, shape.0))
}

fn climbed(random: &mut Random, planner: Planner, (period, size, rows): Shape) -> Table {
    let delays = (0..rows).map(|_| random.below(period)).collect();
    climb(random, planner, &Table { period, size, delays }, 300 * rows)
}

/// One table of each choice with so many offsets looked at, each with a random remainder of P by T:
/// which are refused? Short periods are compared with brute force as well.
fn refusals(
    random: &mut Random,
    planner: Planner,
    (count, size, rows): Shape,
    choices: &[Choice],
) -> Result<Vec<bool>, String> {
    let mut refusals = Vec::new();
    for (choice, _) in choices {
        let periods: Vec<u64> = planner.periods(count, size).collect();
        let period = random.pick(&periods);
        let table = choice(random, planner, (period, size, rows));
        refusals.push(refused(planner, &table)?);
        if table.period <= 40 {
            quick_both(&table)?;
        }
    }
    Ok(refusals)
}

/// None of the chosen tables is refused from one more than `most_taken` up to the promise's bound
/// (where it is sharp these are one). At `most_taken` itself one is at least, and all those of the
/// choices that are sure with so many rows: else the choices show nothing.
fn around(
    random: &mut Random,
    planner: Planner,
    (size, rows): (u64, u64),
    choices: &[Choice],
) -> Result<u64, String> {
    let (most, enough) = (planner.most_taken(rows, size), planner.enough(rows, size));
    for count in most..=enough {
        let found = refusals(random, planner, (count, size, rows), choices)?;
        let what = (planner, "refused", count, size, rows);
        same(what, found.contains(&true), count == most)?;
        for (&refused, (_, sure)) in found.iter().zip(choices) {
            same(what, refused || rows > *sure || count > most, true)?;
        }
    }
    Ok((enough - most + 1) * choices.len() as u64)
}

/// The least of the best delays finds refused tables wherever it is tried: Meta-Offset from two
/// to 64 rows, First Fit to twelve. Any of the best is sure with three rows: row 0's delay only turns
/// crossing 2, the other two are the worst pair of all. With two rows every choice is sure. Else they
/// may find none, and often do with many rows: they are there for more kinds of tables at the bound.
pub fn greedy_tables() -> Result<u64, String> {
    let mut random = Random::new(16);
    let mut count = 0;
    let (least, few, late): (Choice, Choice, Choice) =
        ((least_of_the_best, 64), (best_of_a_few, 2), (late_rows, 2));
    let all = [least, (any_of_the_best, 3), (any_of_the_best, 3), few, late, late];
    for size in [1, 2, 3, 5] {
        for rows in 2..=12 {
            count += around(&mut random, Planner::MetaOffset, (size, rows), &all)?;
        }
        for rows in 2..=6 {
            count += around(&mut random, Planner::FirstFit, (size, rows), &all)?;
        }
    }
    for rows in [16, 20, 24, 32, 48, 64] {
        count += around(&mut random, Planner::MetaOffset, (2, rows), &[least, few, late])?;
    }
    for rows in [8, 10, 12] {
        count += around(&mut random, Planner::FirstFit, (2, rows), &all)?;
    }
    Ok(count)
}

/// Of four local searches from random tables one at least finds a refused one: Meta-Offset with two
/// to seven rows, First Fit with two to five. Up to there nearly every search does with its number of
/// rounds, with more rows fewer and fewer: the ranges say nothing about the planners.
pub fn climbed_tables() -> Result<u64, String> {
    let mut random = Random::new(17);
    let choices: [Choice; 4] = [(climbed, 2); 4];
    let mut count = 0;
    for size in [1, 2, 3, 5] {
        for rows in 2..=7 {
            count += around(&mut random, Planner::MetaOffset, (size, rows), &choices)?;
        }
        for rows in 2..=5 {
            count += around(&mut random, Planner::FirstFit, (size, rows), &choices)?;
        }
    }
    Ok(count)
}
