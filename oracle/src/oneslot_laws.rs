//! One-slot messages: the groups of the self-test for request Five.

use crate::bad::{shuffled, spread};
use crate::brute::{self, all_lists, Taken};
use crate::cases::Case;
use crate::link::{Refusal, Table};
use crate::mix;
use crate::moving::moving;
use crate::oneslot::{enough, free, one_slot, place_all, place_next, Move, Placed};
use crate::planner::Planner;
use crate::random::Random;
use crate::selftest::same;

/// All tables of one-slot messages with this period and so many rows.
fn tables(rows: usize, period: u64) -> impl Iterator<Item = Table> {
    all_lists(rows, period).map(move |delays| Table { period, size: 1, delays })
}

/// The same with delay 0 for row 0: adding one number to all delays turns crossing 2 and changes no
/// answer, which `turns` tries.
fn turned_tables(rows: usize, period: u64) -> impl Iterator<Item = Table> {
    let with_row_0 = move |rest: Vec<u64>| Table::new(period, 1, &[&[0], &rest[..]].concat());
    all_lists(rows - 1, period).map(with_row_0)
}

/// Rows and periods whose tables are all listed.
fn small_shapes() -> impl Iterator<Item = (usize, u64)> {
    let most_rows = |period: u64| if period < 7 { 4 } else { 3 };
    (1..=7).flat_map(move |period| (1..=most_rows(period)).map(move |rows| (rows, period)))
}

/// What all assignments of the rows so far come to: of the clear ones, by slot sets, those with every
/// earlier row in its place and the new row least; else those with one earlier row elsewhere, by that
/// row, its offset and the new row's.
fn next_of_all_assignments(table: &Table, plan: &[u64]) -> Option<Vec<u64>> {
    let mut listed = Vec::new();
    for offsets in all_lists(plan.len() + 1, table.period) {
        let elsewhere: Vec<usize> =
            (0..plan.len()).filter(|&row| offsets[row] != plan[row]).collect();
        let last = offsets[plan.len()];
        let rank = match elsewhere[..] {
            [] => (0, 0, 0, last),
            [row] => (1, row, offsets[row], last),
            _ => continue,
        };
        if brute::clear(table, &offsets) {
            listed.push((rank, offsets));
        }
    }
    listed.sort();
    listed.into_iter().next().map(|(_, offsets)| offsets)
}

/// The same by listing every offset of the new row, then every three of a row, its offset and the
/// new row's, without any thought of what can be left out.
fn next_of_all_threes(table: &Table, plan: &[u64]) -> Option<Vec<u64>> {
    let with = |row: usize, to: u64, last: u64| {
        let mut offsets = [plan, &[last]].concat();
        offsets[row] = to;
        offsets
    };
    let every = 0..table.period;
    let stay = every.clone().map(|last| [plan, &[last]].concat());
    let one_moved = (0..plan.len()).flat_map(|row| {
        let pairs = every.clone().flat_map(|to| every.clone().map(move |last| (to, last)));
        pairs.map(move |(to, last)| with(row, to, last))
    });
    stay.chain(one_moved).find(|offsets| brute::clear(table, offsets))
}

/// A way to list: the rows so far with the next one placed.
type Listing = fn(&Table, &[u64]) -> Option<Vec<u64>>;

fn by_listing(table: &Table, listing: Listing) -> Result<Vec<u64>, Refusal> {
    let mut plan = Vec::new();
    while plan.len() < table.rows() {
        let none = Refusal { number: 13, place: plan.len() as u64 };
        plan = listing(table, &plan).ok_or(none)?;
    }
    Ok(plan)
}

fn compare(table: &Table, listing: Listing) -> Result<(), String> {
    let got = place_all(table).map(|placed| placed.plan);
    same(table, got, by_listing(table, listing))
}

/// A table of a vector; one of size 2 gets a plan or 13 here, for only the judging says 25.
pub fn by_all_threes(table: &Table) -> Result<(), String> {
    compare(table, next_of_all_threes)
}

/// All small tables against all assignments; sizes above 1 too, for the rule is stated over them.
pub fn all_assignments() -> Result<u64, String> {
    let mut count = 0;
    for (rows, period) in small_shapes() {
        for table in tables(rows, period) {
            compare(&table, next_of_all_assignments)?;
            count += 1;
        }
    }
    for (period, size) in (2..=6).flat_map(|period| (2..=period).map(move |size| (period, size))) {
        for delays in all_lists(3, period) {
            compare(&Table { period, size, delays }, next_of_all_assignments)?;
            count += 1;
        }
    }
    Ok(count)
}

/// Larger tables: those of five rows, random ones, and messages of two slots.
pub fn all_threes() -> Result<u64, String> {
    let mut random = Random::new(20);
    let mut count = 0;
    for table in turned_tables(5, 5).chain(turned_tables(5, 6)) {
        compare(&table, next_of_all_threes)?;
        count += 1;
    }
    while count < 4000 {
        let mut table = moving(&mut random);
        if table.period > 12 {
            continue;
        }
        if count % 4 == 0 {
            table.period = (2 * table.period).min(14);
            table.size = 2;
        }
        compare(&table, next_of_all_threes)?;
        count += 1;
    }
    Ok(count)
}

/// The judging: the faults of a quick planner, then 25; what is refused leaves the list as it was.
pub fn judging() -> Result<u64, String> {
    let mut random = Random::new(21);
    let mut count = 0;
    for _ in 0..6000 {
        let Case::OneSlot { table, lent } = mix::one_slot_case(&mut random) else { continue };
        let taken = Taken { list: Some(lent.length), ..Taken::default() };
        let several = (table.size > 1).then_some(Refusal { number: 25, place: 0 });
        let expected = brute::value_fault(&table, &taken).or(several);
        let mut list = lent.numbers();
        let answer = one_slot(&table, &mut list);
        let fault = answer.err().filter(|refusal| refusal.number != 13);
        same((&table, &lent), fault, expected)?;
        let kept_from = if answer.is_ok() { table.rows() } else { 0 };
        same((&table, &lent), &list[kept_from..], &lent.numbers()[kept_from..])?;
        count += 1;
    }
    Ok(count)
}

/// Is there a clear plan at all? Rows one by one, every offset, all the way back.
fn some_plan_is_clear(table: &Table, plan: &mut Vec<u64>) -> bool {
    let row = plan.len();
    if row == table.rows() {
        return true;
    }
    for offset in 0..table.period {
        let clear =
            plan.iter().enumerate().all(|(other, &at)| !table.meet((other, at), (row, offset)));
        if clear {
            plan.push(offset);
            if some_plan_is_clear(table, plan) {
                return true;
            }
            plan.pop();
        }
    }
    false
}

/// Hall: rows of one slot have a clear plan exactly when they are fewer than the slots, or as many
/// and the delays add up to a multiple of P.
fn hall(table: &Table) -> bool {
    let (rows, period) = (table.rows() as u64, table.period);
    rows < period || (rows == period && table.delays.iter().sum::<u64>() % period == 0)
}

/// Hall's criterion: against all choices of offsets, and for up to seven rows against a search.
/// Whether there is a plan does not hang on the order of the rows, so rising delays are enough.
pub fn halls_criterion() -> Result<u64, String> {
    let rising = |table: &Table| table.delays.windows(2).all(|pair| pair[0] <= pair[1]);
    let mut count = 0;
    for (rows, period) in (1..=5).flat_map(|rows| (1..=5).map(move |period| (rows, period))) {
        for table in tables(rows, period).filter(rising) {
            same(&table, hall(&table), brute::some_choice_is_clear(&table))?;
            count += 1;
        }
    }
    for (rows, period) in (1..=7).flat_map(|rows| (1..=7).map(move |period| (rows, period))) {
        for table in turned_tables(rows, period).filter(rising) {
            same(&table, hall(&table), some_plan_is_clear(&table, &mut Vec::new()))?;
            count += 1;
        }
    }
    Ok(count)
}

/// What holds of every good table: see the messages.
fn laws_of(table: &Table) -> Result<Option<Placed>, String> {
    let (rows, period) = (table.rows() as u64, table.period);
    let placed = place_all(table);
    let first_fit = Planner::FirstFit.run(table);
    if let Ok(placed) = &placed {
        same((table, "clear"), brute::clear(table, &placed.plan), true)?;
        same((table, "a plan only where there is one"), hall(table), true)?;
        same((table, "First Fit where nothing moves"), placed.moves.is_empty(), first_fit.is_ok())?;
        for (later, one) in placed.moves.iter().enumerate() {
            same((table, "to another place"), one.from == one.to, false)?;
            let earlier = placed.moves[..later].iter().all(|two| two.new_row < one.new_row);
            same((table, "one move a row, of an earlier"), earlier && one.row < one.new_row, true)?;
        }
        // A move takes a row before it that takes all, and a row takes two offsets at most.
        let most = rows.saturating_sub(period.div_ceil(2));
        same((table, "n - P/2 moves at most"), placed.moves.len() as u64 <= most, true)?;
    }
    if let Ok(plan) = first_fit {
        same((table, "First Fit's plan"), placed.clone().map(|placed| placed.plan), Ok(plan))?;
    }
    if period >= enough(rows) {
        let moves = placed.clone().map(|placed| placed.moves.len());
        same((table, "no move from 2n-1 slots on"), moves, Ok(0))?;
    }
    Ok(placed.ok())
}

pub fn laws() -> Result<u64, String> {
    let mut count = 0;
    for (rows, period) in small_shapes().chain([(5, 5), (5, 6), (5, 7), (5, 8), (5, 9)]) {
        for table in tables(rows, period) {
            laws_of(&table)?;
            count += 1;
        }
    }
    let mut random = Random::new(22);
    for _ in 0..4000 {
        let Case::OneSlot { table, .. } = mix::one_slot_case(&mut random) else { continue };
        if table.judge().is_ok() && table.size == 1 {
            laws_of(&table)?;
            count += 1;
        }
    }
    Ok(count)
}

/// Adding one number to all delays changes no answer, whole periods added to any delay neither.
pub fn turns() -> Result<u64, String> {
    let mut random = Random::new(23);
    let mut count = 0;
    for _ in 0..1000 {
        let table = moving(&mut random);
        let turn = random.below(1000);
        let mut turned = table.clone();
        for delay in &mut turned.delays {
            *delay += turn + table.period * random.below(3);
        }
        same((&table, turn), place_all(&turned), place_all(&table))?;
        count += 1;
    }
    Ok(count)
}

/// Which of the offsets free for the moved row, its own place among them, is its new one: 1 for the
/// first. And with its own place left out.
fn rank_of_the_new_offset(table: &Table, plan: &[u64], one: &Move) -> [usize; 2] {
    let all: Vec<u64> = free(table, plan, Some(one.row), one.row).collect();
    let rank = all.iter().filter(|&&offset| offset <= one.to).count();
    [rank, rank - usize::from(one.from < one.to)]
}

/// A moved row goes to one of the first three offsets free for it, its own place counted, and to one
/// of the first two of the others: an offset of the new row rules out two, and one is that place.
/// So with three free offsets (two others), and one for the new row, a row always helps. All of
/// these ranks occur.
pub fn first_offsets_are_enough() -> Result<u64, String> {
    let mut random = Random::new(24);
    let (mut count, mut found) = (0, [0, 0]);
    let small = [(4, 5), (5, 6), (5, 7)].map(|(rows, period)| turned_tables(rows, period));
    let larger = (0..3000).map(|_| moving(&mut random)).collect::<Vec<_>>();
    for table in small.into_iter().flatten().chain(larger) {
        let mut placed = Placed::default();
        while placed.plan.len() < table.rows() {
            let (before, moves) = (placed.plan.clone(), placed.moves.len());
            let refused = place_next(&table, &mut placed).is_err();
            if let Some(one) = placed.moves.get(moves) {
                let ranks = rank_of_the_new_offset(&table, &before, one);
                same((&table, one, ranks), ranks[0] <= 3 && ranks[1] <= 2, true)?;
                found = [0, 1].map(|index| found[index].max(ranks[index]));
                count += 1;
            }
            if refused {
                count += no_row_helps(&table, &before)?;
                break;
            }
        }
    }
    same("the last ranks", found, [3, 2])?;
    Ok(count)
}

/// The new row is refused: each earlier row leaves it no offset, or has two free ones at most.
fn no_row_helps(table: &Table, plan: &[u64]) -> Result<u64, String> {
    for row in 0..plan.len() {
        let for_new = free(table, plan, Some(row), plan.len()).count();
        let for_moved = free(table, plan, Some(row), row).count();
        same((table, plan, row), for_new == 0 || for_moved <= 2, true)?;
    }
    Ok(plan.len() as u64)
}

/// The largest P at which a table of so many rows is refused, for two rows on: all tables listed.
const LAST_REFUSED: [(usize, u64); 5] = [(2, 2), (3, 3), (4, 4), (5, 6), (6, 8)];

pub fn last_refused_period() -> Result<u64, String> {
    let mut count = 0;
    for (rows, last) in LAST_REFUSED {
        for period in last..=enough(rows as u64) {
            let refused = turned_tables(rows, period).filter(|table| place_all(table).is_err());
            same((rows, period), refused.count() > 0, period == last)?;
            count += period.pow(rows as u32 - 1);
        }
    }
    Ok(count)
}

/// Half of the rows before the last (rounded up) have delay 0, the others and the slots beyond all of
/// them are as many as this other delay. Each half keeps the other from those slots, in crossing 2, so
/// that no row has another free offset than its own.
pub fn refused_halves(rows: u64) -> Table {
    let earlier = rows - 1;
    let half = earlier / 2;
    let of = |delay: u64, count: u64| vec![delay; count as usize];
    let delays = [of(0, earlier - half), of(half, half), of(0, 1)].concat();
    Table { period: earlier + half, size: 1, delays }
}

/// An even number of rows, from eight on: one slot more than `refused_halves` has. Some rows have a
/// second free offset, but there they meet the last row at either of the offsets that they give up.
fn refused_one_more(rows: u64) -> Table {
    let k = rows / 2 - 1;
    let of = |delay: u64, count: u64| vec![delay; count as usize];
    let delays = [of(0, k), vec![k, 2 * k - 1], of(k, k - 1), vec![k - 1]].concat();
    Table { period: 3 * k + 2, size: 1, delays }
}

/// For 2n-2 slots rows spread take all offsets, and one of them moves (but two rows of two slots are
/// refused): 2n-1 is the least P without a move. For (n-1) + (n-1)/2 slots some tables are refused,
/// though there is a clear plan from n + 1 slots on; with an even number
/// of rows, from eight on, for one slot more too.
pub fn refused_and_moved() -> Result<u64, String> {
    let mut random = Random::new(25);
    for rows in 2..=64 {
        let order = shuffled(&mut random, rows - 1);
        let table = spread(Planner::FirstFit, 2 * rows - 2, 1, &order);
        let moves = place_all(&table).map(|placed| placed.moves.len());
        same(&table, moves.ok(), (rows > 2).then_some(1))?;
        let last = Err(Refusal { number: 13, place: rows - 1 });
        if rows > 2 {
            let table = refused_halves(rows);
            same(&table, place_all(&table), last.clone())?;
        }
        if rows >= 8 && rows % 2 == 0 {
            let table = refused_one_more(rows);
            same(&table, place_all(&table), last)?;
        }
    }
    Ok(63 + 62 + 29)
}
