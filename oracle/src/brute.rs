//! Brute force: every rule once more, by listing everything and taking the least.
//!
//! Nothing here is fast but `stretches_between`. It is used by the self-test only, on small cases.

use crate::link::{Refusal, Table};
use crate::planfile;
use crate::report::Stretches;
use std::collections::BTreeSet;

/// The slots that a row uses in a crossing, as a set.
pub fn slot_set(table: &Table, crossing: u64, row: usize, offset: u64) -> BTreeSet<u64> {
    let start = if crossing == 1 { offset } else { offset + table.delays[row] };
    (start..start + table.size).map(|slot| slot % table.period).collect()
}

/// All collisions of a plan as (later row, earlier row, crossing), the named one first.
pub fn collisions(table: &Table, offsets: &[u64]) -> BTreeSet<(usize, usize, u64)> {
    let mut found = BTreeSet::new();
    for crossing in [2, 1] {
        let sets: Vec<BTreeSet<u64>> =
            (0..offsets.len()).map(|row| slot_set(table, crossing, row, offsets[row])).collect();
        for earlier in 0..sets.len() {
            for later in earlier + 1..sets.len() {
                if !sets[earlier].is_disjoint(&sets[later]) {
                    found.insert((later, earlier, crossing));
                }
            }
        }
    }
    found
}

pub fn clear(table: &Table, offsets: &[u64]) -> bool {
    collisions(table, offsets).is_empty()
}

/// All lists of this length with elements below `bound`.
pub fn all_lists(length: usize, bound: u64) -> impl Iterator<Item = Vec<u64>> {
    let count = bound.pow(length as u32);
    (0..count).map(move |mut index| {
        let mut list = vec![0; length];
        for element in &mut list {
            *element = index % bound;
            index /= bound;
        }
        list
    })
}

/// Is any choice of offsets at all clear? (Demand 3: all offsets 0 to P-1 for all rows.)
pub fn some_choice_is_clear(table: &Table) -> bool {
    all_lists(table.rows(), table.period).any(|offsets| clear(table, &offsets))
}

/// The least of the offsets looked at that is free for the row after those of the plan.
fn least_free(table: &Table, plan: &[u64], looked_at: &[u64]) -> Option<u64> {
    let row = plan.len();
    let free = |&&offset: &&u64| {
        let with_row = [plan, &[offset]].concat();
        !collisions(table, &with_row).iter().any(|&(later, _, _)| later == row)
    };
    looked_at.iter().filter(free).min().copied()
}

/// A quick planner: the plan, or the row without an offset.
pub fn quick(table: &Table, looked_at: &[u64]) -> Result<Vec<u64>, usize> {
    let mut plan = Vec::new();
    while plan.len() < table.rows() {
        match least_free(table, &plan, looked_at) {
            Some(offset) => plan.push(offset),
            None => return Err(plan.len()),
        }
    }
    Ok(plan)
}

/// A step (j, i, crossing): tuples compare as document 01 orders steps.
type Step = (usize, usize, u64);

/// A non-empty step sequence in which every step but perhaps the last is good.
struct Sequence {
    steps: Vec<Step>,
    placed: Vec<(usize, u64)>,
    last_is_good: bool,
}

/// The offsets of the least whole build, if any, and the number of sequences not later.
pub fn exact(table: &Table) -> (Option<Vec<u64>>, u64) {
    if table.rows() == 1 {
        return (Some(vec![0]), 0);
    }
    let mut sequences = Vec::new();
    extensions(table, &[], &[(0, 0)], &mut sequences);
    sequences.reverse();
    // Lists of steps compare step by step, and a list stands before its own extensions.
    sequences.sort_by(|one, other| one.steps.cmp(&other.steps));
    let whole = |one: &Sequence| one.last_is_good && one.placed.len() == table.rows();
    match sequences.iter().position(whole) {
        None => (None, sequences.len() as u64),
        Some(index) => {
            let mut placed = sequences[index].placed.clone();
            placed.sort();
            (Some(placed.iter().map(|&(_, offset)| offset).collect()), index as u64 + 1)
        }
    }
}

/// Lists the sequences that go on from these steps.
fn extensions(table: &Table, steps: &[Step], placed: &[(usize, u64)], found: &mut Vec<Sequence>) {
    for &(i, offset_of_i) in placed {
        for j in (0..table.rows()).filter(|&j| placed.iter().all(|&(row, _)| row != j)) {
            for crossing in [1, 2] {
                let offset = contact(table, crossing, (i, offset_of_i), j);
                let steps = [steps, &[(j, i, crossing)]].concat();
                let last_is_good = placed.iter().all(|&row| apart(table, row, (j, offset)));
                let placed = [placed, &[(j, offset)]].concat();
                if last_is_good {
                    extensions(table, &steps, &placed, found);
                }
                found.push(Sequence { steps, placed, last_is_good });
            }
        }
    }
}

/// The offset at which j starts in the slot right after i's last slot, found by trying all.
fn contact(table: &Table, crossing: u64, (i, offset): (usize, u64), j: usize) -> u64 {
    let delay = |row: usize| if crossing == 1 { 0 } else { table.delays[row] };
    let last = offset + delay(i) + table.size - 1;
    (0..table.period)
        .find(|&offset| (offset + delay(j)) % table.period == (last + 1) % table.period)
        .expect("one offset of P starts in a given slot")
}

/// No common slot in either crossing.
fn apart(table: &Table, (i, a): (usize, u64), (j, b): (usize, u64)) -> bool {
    [1, 2].iter().all(|&crossing| {
        slot_set(table, crossing, i, a).is_disjoint(&slot_set(table, crossing, j, b))
    })
}

/// The number of non-empty step sequences of n rows when every step is good.
pub fn all_good_sequences(rows: u64, placed: u64) -> u64 {
    let unplaced = rows - placed;
    let mut count = 0;
    for _step in 0..2 * placed * unplaced {
        count += 1 + all_good_sequences(rows, placed + 1);
    }
    count
}

/// Free slots, stretches and widest stretch of a crossing: of all arcs of the circle, by first
/// slot and length, the stretches are those that are free and have a used slot just before and
/// just after.
pub fn stretches(table: &Table, offsets: &[u64], crossing: u64) -> Stretches {
    let period = table.period;
    let used: BTreeSet<u64> =
        (0..offsets.len()).flat_map(|row| slot_set(table, crossing, row, offsets[row])).collect();
    let mut answer = Stretches { free: 0, stretches: 0, widest: 0 };
    for first in 0..period {
        answer.free += u64::from(!used.contains(&first));
        for length in 1..=period {
            let free = (first..first + length).all(|slot| !used.contains(&(slot % period)));
            let before = used.contains(&((first + period - 1) % period));
            let after = used.contains(&((first + length) % period));
            if free && before && after {
                answer.stretches += 1;
                answer.widest = answer.widest.max(length);
            }
        }
    }
    answer
}

/// The same of a clear plan from the starts alone, for periods of any length: what lies between
/// a message and the next one on the circle is free.
pub fn stretches_between(table: &Table, offsets: &[u64], crossing: u64) -> Stretches {
    let delay = |row: usize| if crossing == 1 { 0 } else { table.delays[row] };
    let starts = offsets.iter().enumerate().map(|(row, offset)| offset + delay(row));
    let mut starts: Vec<u64> = starts.map(|start| start % table.period).collect();
    starts.sort();
    // After the last message comes the first once more, one period later.
    starts.push(starts[0] + table.period);
    let gaps = starts.windows(2).map(|pair| pair[1] - pair[0] - table.size);
    let gaps: Vec<u64> = gaps.filter(|&gap| gap > 0).collect();
    let (free, widest) = (gaps.iter().sum(), gaps.iter().copied().max().unwrap_or(0));
    Stretches { free, stretches: gaps.len() as u64, widest }
}

/// What a call on values takes beside its table.
#[derive(Default)]
pub struct Taken<'a> {
    /// Offsets that must be as many as the rows.
    pub offsets: Option<&'a [u64]>,
    /// The length of a lent list that must not be shorter than the rows.
    pub list: Option<usize>,
    pub exact: bool,
}

/// The refusal of a call on values: all its faults with their rank in
/// "5, 6, 8, 7 (least row), 11, 12, then 17 (least row)", and of these the first.
pub fn value_fault(table: &Table, taken: &Taken) -> Option<Refusal> {
    let mut faults: Vec<(u32, usize, u64)> = Vec::new();
    let rows = table.delays.len();
    for (row, &offset) in taken.offsets.unwrap_or(&[]).iter().enumerate() {
        if offset >= table.period {
            faults.push((7, row, 17));
        }
    }
    if taken.exact && rows >= 9 {
        faults.push((6, 0, 12));
    }
    if taken.offsets.is_some_and(|offsets| offsets.len() != rows)
        || taken.list.is_some_and(|length| length < rows)
    {
        faults.push((5, 0, 11));
    }
    for (row, _) in table.delays.iter().enumerate().filter(|(_, &delay)| delay >= 1 << 24) {
        faults.push((4, row, 7));
    }
    if rows == 0 || rows >= 65 {
        faults.push((3, 0, 8));
    }
    if table.size == 0 || table.size > table.period {
        faults.push((2, 0, 6));
    }
    if table.period == 0 || table.period >= 1_000_001 {
        faults.push((1, 0, 5));
    }
    let (_, place, number) = faults.into_iter().min()?;
    Some(Refusal { number, place: place as u64 })
}

/// The one text of a table.
pub fn text_of(table: &Table) -> Vec<u8> {
    let rows: String = table.delays.iter().map(|delay| format!("{delay}\n")).collect();
    let (period, size, count) = (table.period, table.size, table.rows());
    format!("pma 1\n{period} {size}\n{rows}end {count}\n").into_bytes()
}

/// A table read with no care for its form: whatever numbers stand in the lines.
pub fn loose_table(text: &[u8]) -> Option<Table> {
    let text = std::str::from_utf8(text).ok()?;
    let numbers: Vec<u64> = text
        .split(|mark: char| !mark.is_ascii_digit())
        .filter_map(|word| word.parse().ok())
        .collect();
    match numbers.as_slice() {
        [1, period, size, delays @ .., _count] => Some(Table::new(*period, *size, delays)),
        _ => None,
    }
}

/// A text is accepted exactly when it is the text of a table in its ranges.
pub fn text_is_good(text: &[u8]) -> bool {
    loose_table(text).is_some_and(|table| table.judge().is_ok() && text_of(&table) == text)
}

/// The refusal of a text (11 apart): all faults of all its lines, and of these the first.
pub fn text_fault(text: &[u8]) -> Option<Refusal> {
    if text.len() > 1024 {
        return Some(Refusal { number: 1, place: 0 });
    }
    let mut faults: Vec<(usize, usize, u64, usize)> = Vec::new();
    let mut place = 0;
    for (index, line) in text.split(|&byte| byte == 10).enumerate() {
        let after = place + line.len() + 1;
        let is_end = index >= 2 && line.starts_with(b"end ");
        if after > text.len() {
            faults.push((index, 0, 3, place));
        }
        for (rank, number) in line_faults(index, line).into_iter().enumerate() {
            faults.push((index, 1 + rank, number, place));
        }
        if is_end && after <= text.len() {
            if after < text.len() {
                faults.push((index, 9, 10, after));
            }
            break;
        }
        place = after;
    }
    let (_, _, number, place) = faults.into_iter().min()?;
    Some(Refusal { number, place: place as u64 })
}

/// The faults of a line, in document 01's order, if all lines before it are right.
fn line_faults(index: usize, line: &[u8]) -> Vec<u64> {
    let line = String::from_utf8_lossy(line);
    let value = |word: &str| word.parse::<u64>().ok().filter(|v| *v < 100_000_000);
    let number = |word: &str| value(word).filter(|v| v.to_string() == word);
    let mut faults = Vec::new();
    match (index, line.strip_prefix("end "), line.split_once(' ')) {
        (0, _, _) => faults.extend((line != "pma 1").then_some(2)),
        (1, _, words) => match words.map(|(p, t)| (number(p), number(t))) {
            Some((Some(period), Some(size))) => {
                faults.extend((period == 0 || period > 1_000_000).then_some(5));
                faults.extend((size == 0 || size > period).then_some(6));
            }
            _ => faults.push(4),
        },
        (_, Some(count), _) => {
            faults.extend(number(count).is_none().then_some(4));
            faults.extend((index == 2).then_some(8));
            faults.extend((number(count) != Some(index as u64 - 2)).then_some(9));
        }
        (_, None, _) => {
            faults.extend(number(&line).is_none().then_some(4));
            faults.extend(number(&line).is_some_and(|delay| delay >= 1 << 24).then_some(7));
            faults.extend((index >= 66).then_some(8));
        }
    }
    faults
}

/// The bytes after the tag, cut behind each byte without its top bit; the last piece may lack
/// such a byte.
fn pieces(file: &[u8]) -> impl Iterator<Item = &[u8]> {
    file[4..].split_inclusive(|&byte| byte < 0x80)
}

/// The value of a piece of any length, whatever its form.
fn loose_value(piece: &[u8]) -> u64 {
    let mut place_value = 1u64;
    let mut value = 0u64;
    for byte in piece {
        value = value.saturating_add(place_value.saturating_mul(u64::from(byte % 128)));
        place_value = place_value.saturating_mul(128);
    }
    value
}

/// A plan read with no care for the form of its numbers.
pub fn loose_plan(file: &[u8]) -> Option<(Table, Vec<u64>)> {
    if !file.starts_with(b"PMA\x01") || *file.last()? >= 0x80 {
        return None;
    }
    let numbers: Vec<u64> = pieces(file).map(loose_value).collect();
    let [period, size, rows, ref pairs @ ..] = numbers[..] else { return None };
    if pairs.len() as u64 != rows.saturating_mul(2) {
        return None;
    }
    let delays: Vec<u64> = pairs.iter().step_by(2).copied().collect();
    let offsets = pairs.iter().skip(1).step_by(2).copied().collect();
    Some((Table { period, size, delays }, offsets))
}

/// A file is accepted exactly when it is what the writer gives for a plan.
pub fn file_is_good(file: &[u8]) -> bool {
    let Some((table, offsets)) = loose_plan(file) else { return false };
    let mut output = vec![0; file.len()];
    let written = planfile::write_plan(&table, &offsets, &mut output);
    written == Ok(file.len() as u64) && output == file
}

/// 19 for each front of the tag that a sender could still go on from, listed one by one; 16
/// for every other file that does not begin with the tag.
fn tag_fault(file: &[u8]) -> Option<u64> {
    match file {
        b"" | b"P" | b"PM" | b"PMA" => Some(19),
        [b'P', b'M', b'A', 1, ..] => None,
        _ => Some(16),
    }
}

/// Are these bytes, all of them, what a sender sends for some number? They must be the form of
/// their own value: as many groups as it needs, at most four.
fn is_a_number(bytes: &[u8]) -> bool {
    let value = loose_value(bytes);
    let Some(needed) = (1..=4).find(|&groups| value < 1 << (7 * groups)) else { return false };
    let form = |index: usize| {
        let group = (value >> (7 * index)) % 128;
        if index + 1 < needed {
            group + 128
        } else {
            group
        }
    };
    bytes.len() == needed && (0..needed).all(|index| u64::from(bytes[index]) == form(index))
}

/// Could a sender still make a number of these bytes by sending more? If any bytes do, the one
/// byte 01 does: it is without its top bit and not zero.
fn is_front_of_a_number(bytes: &[u8]) -> bool {
    if bytes.len() > 3 {
        return false;
    }
    let mut longer = [1; 4];
    longer[..bytes.len()].copy_from_slice(bytes);
    is_a_number(&longer[..=bytes.len()])
}

/// What is wrong with a piece as a number. Fronts of numbers are cut and numbers are right; of
/// the other pieces those that end within four bytes name a value in a form that is not its
/// own, and the rest has a fourth byte that says that more follow.
fn form_fault(piece: &[u8]) -> Option<u64> {
    let ends_in_time = piece.iter().take(4).any(|&byte| byte < 0x80);
    match piece {
        cut if is_front_of_a_number(cut) => Some(19),
        right if is_a_number(right) => None,
        _ if ends_in_time => Some(21),
        _ => Some(20),
    }
}

/// The refusal of the last of these numbers for its range, if all before it are right.
fn range_fault(numbers: &[u64]) -> Option<u64> {
    let (period, index) = (numbers[0], numbers.len() - 1);
    let (least, most, refusal) = match index {
        0 => (1, 1_000_000, 5),
        1 => (1, period, 6),
        2 => (1, 64, 8),
        odd if odd % 2 == 1 => (0, 16_777_215, 7),
        _ => (0, period - 1, 17),
    };
    (numbers[index] < least || numbers[index] > most).then_some(refusal)
}

/// The refusal of a file (11 apart): the first of its pieces that is at fault, else 18. An
/// empty piece behind the others stands for a number that is not there at all.
pub fn file_fault(file: &[u8]) -> Option<Refusal> {
    if let Some(number) = tag_fault(file) {
        return Some(Refusal { number, place: 0 });
    }
    let (mut place, mut numbers) = (4, Vec::new());
    for piece in pieces(file).chain([&[][..]]) {
        let all_read = numbers.len() >= 3 && numbers.len() as u64 == 3 + 2 * numbers[2];
        if all_read && piece.is_empty() {
            break;
        }
        numbers.push(loose_value(piece));
        let left_over = all_read.then_some(22);
        let fault = left_over.or_else(|| form_fault(piece)).or_else(|| range_fault(&numbers));
        if let Some(number) = fault {
            return Some(Refusal { number, place: place as u64 });
        }
        place += piece.len();
    }
    let (table, offsets) = loose_plan(file)?;
    let later = collisions(&table, &offsets).first()?.0;
    Some(Refusal { number: 18, place: later as u64 })
}

/// The whole answer on a file: number, place, period, size, rows, then the lists of delays and
/// of offsets as the call leaves them, here lent as (7, 8) and (9, 10).
pub fn file_answer(file: &[u8]) -> [u64; 9] {
    let refused = |number, place| [number, place, 0, 0, 0, 7, 8, 9, 10];
    if let Some(refusal) = file_fault(file) {
        return refused(refusal.number, refusal.place);
    }
    let (table, plan) = loose_plan(file).expect("a file without fault is a plan");
    let (period, size) = (table.period, table.size);
    match (&table.delays[..], &plan[..]) {
        (&[delay], &[offset]) => [0, 0, period, size, 1, delay, 8, offset, 10],
        (&[delay, next], &[offset, other]) => [0, 0, period, size, 2, delay, next, offset, other],
        _ => refused(11, 0),
    }
}
