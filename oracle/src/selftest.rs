//! The self-test: every rule against brute force, every vector, one line a group.

use crate::brute::{self, all_lists, Taken};
use crate::cases::{joined, line_numbers, line_text, Case, Lent, Part};
use crate::checker::{check, check_records, Record, Verdict};
use crate::exact::{ceiling, exact};
use crate::joined_laws;
use crate::limits;
use crate::link::{meet, meet_by_differences, meet_by_slots, Refusal, Table};
use crate::loads;
use crate::mix::{self, turn_to_the_end, turned};
use crate::oneslot_laws;
use crate::planfile::{read_plan, seven_bit_groups, write_plan, TAG};
use crate::program;
use crate::quick::{first_fit, meta_offset};
use crate::random::Random;
use crate::report::report;
use crate::strings::{self, each_file, LONGEST, PREFIXES};
use crate::text::read_table;
use crate::vectors;

/// A group gives the number of comparisons made, or says what differs.
type Group = fn() -> Result<u64, String>;

const GROUPS: [(&str, Group); 48] = [
    ("meeting: slot sets against differences", meeting),
    ("checker: the least of all collisions", checker),
    ("quick planners: the least of all free offsets", quick_planners),
    ("light loads: which sentence follows from which", loads::sentences),
    ("light loads: what one earlier row takes away", loads::one_earlier_row),
    ("light loads: all small tables around the bound", loads::all_small_tables),
    ("light loads: rows spread, two to 64", loads::spread_tables),
    ("light loads: delays picked greedily", loads::greedy_tables),
    ("light loads: delays by local search", loads::climbed_tables),
    ("exact: all step sequences listed and sorted", exact_by_listing),
    ("exact: longer builds, random tables", exact_by_listing_longer),
    ("exact: none against all offsets of all rows", exact_none),
    ("exact: every budget", exact_budgets),
    ("exact: shorter messages and rows taken out", exact_after_easing),
    ("ceilings: formula, recursion, never passed", ceilings),
    ("report: all arcs of the circle", reports),
    ("report: turning the circle changes nothing", small_circles_turned),
    ("report: larger circles turned, gaps between messages", larger_circles_turned),
    ("order of judging: all faults, the first of them", value_orders),
    ("texts: all short ones accepted as rendered", short_texts),
    ("texts: damaged ones, all faults listed", damaged_texts),
    ("files: all short ones accepted as written", short_files),
    ("files: damaged ones, all faults listed", damaged_files),
    ("files: all of two bytes, all bytes behind fronts of the tag", near_the_tag),
    ("files: every string of up to three bytes behind tag and headers", all_strings),
    ("files: the same behind three bytes of a number", long_numbers),
    ("files: forms of numbers listed from the writer", listed_numbers),
    ("files: fronts cut, bytes left over, tags wrong", file_laws),
    ("files: written and read back", files_read_back),
    ("program: what it prints", programs),
    ("joined texts: good ones split, each text alone", joined_laws::good_inputs),
    ("joined texts: damaged ones, byte by byte and all faults listed", joined_laws::any_inputs),
    ("joined texts: all of up to seven pieces", joined_laws::short_inputs),
    ("joined texts: good ones in front of any", joined_laws::texts_in_front),
    ("joined texts: every byte 10 lost", joined_laws::lost_newlines),
    ("one slot: the least of all assignments", oneslot_laws::all_assignments),
    ("one slot: the first of all threes, larger tables", oneslot_laws::all_threes),
    ("one slot: order of judging, list kept on refusal", oneslot_laws::judging),
    ("one slot: Hall's criterion against all plans", oneslot_laws::halls_criterion),
    ("one slot: clear, First Fit's plan, no move from 2n-1 slots on", oneslot_laws::laws),
    ("one slot: crossing 2 turned", oneslot_laws::turns),
    ("one slot: the first three offsets of a moved row", oneslot_laws::first_offsets_are_enough),
    ("one slot: the last period with a refused table", oneslot_laws::last_refused_period),
    ("one slot: two to 64 rows refused, or moved at 2n-2 slots", oneslot_laws::refused_and_moved),
    ("lent buffers: kept on refusal, tail kept", lent_buffers),
    ("case lines: read back, within their limits", case_lines),
    ("vectors: documents 01 and 02 and readings", all_vectors),
    ("vectors: planners' tables by brute force", planner_vectors),
];

pub fn run() -> Result<(), String> {
    for (name, group) in GROUPS {
        let count = group().map_err(|what| format!("{name}: MISMATCH {what}"))?;
        println!("{name}: {count}");
    }
    println!("selftest ok");
    Ok(())
}

/// Both sides must be the same.
pub fn same<T: PartialEq + std::fmt::Debug>(
    what: impl std::fmt::Debug,
    got: T,
    expected: T,
) -> Result<(), String> {
    if got == expected {
        return Ok(());
    }
    Err(format!("{what:?}: got {got:?}, expected {expected:?}"))
}

/// All tables with this number of rows and this period: all sizes, all delays below P.
fn tables(rows: usize, period: u64) -> impl Iterator<Item = Table> {
    (1..=period).flat_map(move |size| {
        all_lists(rows, period).map(move |delays| Table { period, size, delays })
    })
}

/// All tables of one to four rows: up to `most` slots for one or two rows, fewer for more.
fn small_tables(most: u64) -> impl Iterator<Item = Table> {
    let periods = [most, most, most - 2, most - 3];
    (1..=4)
        .flat_map(move |rows| (1..=periods[rows - 1]).flat_map(move |period| tables(rows, period)))
}

fn meeting() -> Result<u64, String> {
    let mut count = 0;
    for period in 1..=24u64 {
        for size in 1..=period {
            let table = Table::new(period, size, &[0]);
            for (a, b) in (0..period).flat_map(|a| (0..period).map(move |b| (a, b))) {
                let sets = [a, b].map(|start| brute::slot_set(&table, 1, 0, start));
                let expected = !sets[0].is_disjoint(&sets[1]);
                same((period, size, a, b), meet_by_slots(a, b, period, size), expected)?;
                same((period, size, a, b), meet_by_differences(a, b, period, size), expected)?;
                count += 2;
            }
        }
    }
    let mut random = Random::new(1);
    for _ in 0..20_000 {
        let period = random.between(1, 300);
        let size = random.between(1, period);
        let (a, b) = (random.below(period), random.below(period));
        let table = Table::new(period, size, &[0]);
        let sets = [a, b].map(|start| brute::slot_set(&table, 1, 0, start));
        same((period, size, a, b), meet(a, b, period, size), !sets[0].is_disjoint(&sets[1]))?;
        count += 1;
    }
    Ok(count)
}

fn check_both(table: &Table, offsets: &[u64]) -> Result<(), String> {
    let expected = brute::collisions(table, offsets).first().copied();
    let got = match check(table, offsets) {
        Verdict::Collision(named) => Some((named.later, named.earlier, named.crossing)),
        Verdict::Clear => None,
        Verdict::Refused(refusal) => return Err(format!("refused {refusal:?}")),
    };
    same((table, offsets), got, expected)?;
    let rows = table.delays.iter().zip(offsets);
    let records: Vec<Record> = rows.map(|(&delay, &offset)| Record { delay, offset }).collect();
    let answer = check_records(table.period, table.size, &records);
    same((table, offsets), answer, check(table, offsets))
}

fn checker() -> Result<u64, String> {
    let mut count = 0;
    for table in small_tables(6) {
        for offsets in all_lists(table.rows(), table.period) {
            check_both(&table, &offsets)?;
            count += 1;
        }
    }
    let mut random = Random::new(2);
    for _ in 0..20_000 {
        if let Case::Check { table, offsets } = mix::case(&mut random) {
            if table.period < 2000 && !matches!(check(&table, &offsets), Verdict::Refused(_)) {
                check_both(&table, &offsets)?;
                count += 1;
            }
        }
    }
    Ok(count)
}

/// Both quick planners on a good table.
pub fn quick_both(table: &Table) -> Result<(), String> {
    let refused = |row: usize| Refusal { number: 13, place: row as u64 };
    let mut list = vec![0; table.rows()];
    let got = first_fit(table, &mut list).map(|()| list.clone());
    let every: Vec<u64> = (0..table.period).collect();
    same(table, got, brute::quick(table, &every).map_err(refused))?;
    let got = meta_offset(table, &mut list).map(|()| list.clone());
    let all_fit = |offset: &u64| offset + table.size <= table.period;
    let multiples = (0..table.period).step_by(table.size as usize).filter(all_fit);
    let multiples: Vec<u64> = multiples.collect();
    same(table, got, brute::quick(table, &multiples).map_err(refused))
}

fn quick_planners() -> Result<u64, String> {
    let mut count = 0;
    for table in small_tables(8) {
        quick_both(&table)?;
        count += 2;
    }
    let mut random = Random::new(10);
    for _ in 0..5000 {
        if let Case::FirstFit { table, .. } = mix::case(&mut random) {
            if table.judge().is_ok() && table.period < 80 {
                quick_both(&table)?;
                count += 2;
            }
        }
    }
    Ok(count)
}

/// The exact planner with the ceiling as budget: the offsets, if any, and the tests.
fn exact_answer(table: &Table) -> Result<(Option<Vec<u64>>, u64), String> {
    let mut list = vec![0; table.rows()];
    let answer = exact(table, ceiling(table.rows() as u64), &mut list);
    match answer.refusal {
        None => Ok((Some(list), answer.tests)),
        Some(Refusal { number: 14, place: 0 }) => Ok((None, answer.tests)),
        Some(refusal) => Err(format!("{table:?}: refused {refusal:?}")),
    }
}

fn exact_by_listing() -> Result<u64, String> {
    let mut count = 0;
    for table in small_tables(8) {
        same(&table, exact_answer(&table)?, brute::exact(&table))?;
        count += 1;
    }
    Ok(count)
}

fn exact_by_listing_longer() -> Result<u64, String> {
    let mut random = Random::new(3);
    let mut count = 0;
    while count < 400 {
        let rows = if count < 390 { random.between(4, 5) } else { 6 };
        let size = random.between(1, 3);
        let period = rows * size + random.below(4);
        let delays = (0..rows).map(|_| random.below(3 * period)).collect();
        let table = Table { period, size, delays };
        same(&table, exact_answer(&table)?, brute::exact(&table))?;
        count += 1;
    }
    Ok(count)
}

fn exact_none() -> Result<u64, String> {
    let mut count = 0;
    for table in small_tables(8) {
        let (plan, _) = exact_answer(&table)?;
        same(&table, plan.is_some(), brute::some_choice_is_clear(&table))?;
        if let Some(offsets) = plan {
            same(&table, brute::clear(&table, &offsets), true)?;
        }
        count += 1;
    }
    Ok(count)
}

fn exact_budgets() -> Result<u64, String> {
    let mut count = 0;
    for table in small_tables(7) {
        let (plan, tests) = exact_answer(&table)?;
        for budget in (0..=tests + 1).chain([u64::MAX]) {
            let mut list = vec![77; table.rows()];
            let answer = exact(&table, budget, &mut list);
            let number = match &plan {
                _ if tests > budget => 15,
                Some(_) => 0,
                None => 14,
            };
            same((&table, budget), answer.refusal.map_or(0, |refusal| refusal.number), number)?;
            same((&table, budget), answer.tests, tests.min(budget))?;
            let untouched = vec![77; table.rows()];
            let expected = plan.clone().filter(|_| number == 0).unwrap_or(untouched);
            same((&table, budget), list, expected)?;
            count += 1;
        }
    }
    Ok(count)
}

/// "the same table with shorter messages, or with rows taken out but at least one left, never
/// gets "none" at any budget"
fn exact_after_easing() -> Result<u64, String> {
    let mut count = 0;
    for table in small_tables(8) {
        if exact_answer(&table)?.0.is_none() {
            continue;
        }
        for size in 1..table.size {
            let shorter = Table { size, ..table.clone() };
            same(&shorter, exact_answer(&shorter)?.0.is_some(), true)?;
            count += 1;
        }
        for row in 0..table.rows() * usize::from(table.rows() > 1) {
            let mut fewer = table.clone();
            fewer.delays.remove(row);
            same(&fewer, exact_answer(&fewer)?.0.is_some(), true)?;
            count += 1;
        }
    }
    Ok(count)
}

fn ceilings() -> Result<u64, String> {
    let table = [0, 2, 20, 342, 10_472, 509_930, 36_086_652, 3_493_657_790];
    let mut count = 0;
    for (index, &value) in table.iter().enumerate() {
        same(("ceiling", index + 1), ceiling(index as u64 + 1), value)?;
        if index < 7 {
            same(("sequences", index + 1), brute::all_good_sequences(index as u64 + 1, 1), value)?;
        }
        count += 1;
    }
    for rows in [0, 9, 10, 64, u64::MAX] {
        same(("ceiling", rows), ceiling(rows), 0)?;
        count += 1;
    }
    for table in small_tables(8) {
        let (_, tests) = exact_answer(&table)?;
        same(&table, tests <= ceiling(table.rows() as u64), true)?;
        count += 1;
    }
    Ok(count)
}

fn report_once(table: &Table, offsets: &[u64]) -> Result<(), String> {
    let expected = match brute::collisions(table, offsets).first() {
        Some(&(later, _, _)) => Err(Refusal { number: 18, place: later as u64 }),
        None => Ok([1, 2].map(|crossing| brute::stretches(table, offsets, crossing))),
    };
    same((table, offsets), report(table, offsets), expected)
}

fn reports() -> Result<u64, String> {
    let mut count = 0;
    for table in small_tables(7) {
        for offsets in all_lists(table.rows(), table.period) {
            report_once(&table, &offsets)?;
            count += 1;
        }
    }
    let mut random = Random::new(13);
    for _ in 0..3000 {
        let (table, offsets) = mix::plan(&mut random);
        if table.period <= 40 {
            report_once(&table, &offsets)?;
            count += 1;
        }
    }
    Ok(count)
}

/// "a period that repeats": after every one of these turns of the circle the six numbers are
/// the same, and a plan that is not clear is refused with 18 at the same row.
fn turns_change_nothing(table: &Table, offsets: &[u64], turns: &[u64]) -> Result<u64, String> {
    let expected = report(table, offsets);
    if let Err(refusal) = expected {
        same((table, offsets), refusal.number, 18)?;
    }
    for &turn in turns {
        let answer = report(table, &turned(table, offsets, turn));
        same((table, offsets, turn), answer, expected)?;
    }
    Ok(turns.len() as u64)
}

fn small_circles_turned() -> Result<u64, String> {
    let mut count = 0;
    for table in small_tables(8) {
        let turns: Vec<u64> = (0..table.period).collect();
        for offsets in all_lists(table.rows(), table.period) {
            count += turns_change_nothing(&table, &offsets, &turns)?;
        }
    }
    Ok(count)
}

/// Every turn of a short circle; of a long one a few, most of them to the period's end.
fn larger_circle(random: &mut Random, table: &Table, offsets: &[u64]) -> Result<u64, String> {
    if let Ok(numbers) = report(table, offsets) {
        let expected = [1, 2].map(|crossing| brute::stretches_between(table, offsets, crossing));
        same((table, offsets), numbers, expected)?;
    }
    if table.period <= 300 {
        let turns: Vec<u64> = (0..table.period).collect();
        return turns_change_nothing(table, offsets, &turns);
    }
    let mut turns = vec![1, table.period - 1, random.below(table.period)];
    turns.extend((0..4).map(|_| turn_to_the_end(random, table, offsets)));
    turns_change_nothing(table, offsets, &turns)
}

fn larger_circles_turned() -> Result<u64, String> {
    let mut random = Random::new(14);
    let mut count = 0;
    for _ in 0..1000 {
        let (table, offsets) = mix::plan(&mut random);
        count += larger_circle(&mut random, &table, &offsets)?;
    }
    for period in [999_999, 1_000_000, 1_000_000] {
        let (size, rows) = (random.between(1, 60_000), random.between(1, 5));
        let delays = (0..rows).map(|_| random.below(1 << 24)).collect();
        let table = Table { period, size, delays };
        let offsets = mix::clear_plan(&mut random, &table).ok_or("no clear plan")?;
        count += larger_circle(&mut random, &table, &offsets)?;
    }
    Ok(count)
}

/// The judging of calls on values, over good and bad values of everything at once.
fn value_orders() -> Result<u64, String> {
    let most = u64::from(u32::MAX);
    let mut random = Random::new(4);
    let mut count = 0;
    for _ in 0..60_000 {
        let period = random.pick(&[0, 1, 5, 5, 20, 20, 1_000_000, 1_000_001, most]);
        let size = random.pick(&[0, 1, 1, 2, 5, 6, 20, 1_000_000, most]);
        let rows = random.pick(&[0, 1, 1, 2, 3, 8, 9, 64, 65]);
        let delay = [0, 1, 7, 7, 7, 7, 16_777_215, random.pick(&[3, 16_777_216, most])];
        let delays: Vec<u64> = (0..rows).map(|_| random.pick(&delay)).collect();
        let length = random.pick(&[rows, rows, rows, rows + 1, rows.max(1) - 1]);
        let offset = [0, 1, 4, 4, random.pick(&[2, 5, most])];
        let offsets: Vec<u64> = (0..length).map(|_| random.pick(&offset)).collect();
        value_order(&Table { period, size, delays }, &offsets)?;
        count += 1;
    }
    Ok(count)
}

/// All calls on values against the first of all faults; 13 to 15 and 18 are others' matter.
fn value_order(table: &Table, offsets: &[u64]) -> Result<(), String> {
    let early = |refusal: &Refusal| ![13, 14, 15, 18].contains(&refusal.number);
    let mut list = vec![0; offsets.len()];
    let lent = Taken { list: Some(list.len()), ..Taken::default() };
    let expected = brute::value_fault(table, &lent);
    if table.period < 1000 || expected.is_some() {
        same(table, first_fit(table, &mut list).err().filter(early), expected)?;
        same(table, meta_offset(table, &mut list).err().filter(early), expected)?;
    }
    let expected = brute::value_fault(table, &Taken { exact: true, ..lent });
    same(table, exact(table, 9, &mut list).refusal.filter(early), expected)?;
    let given = Taken { offsets: Some(offsets), ..Taken::default() };
    let expected = brute::value_fault(table, &given);
    let verdict = match check(table, offsets) {
        Verdict::Refused(refusal) => Some(refusal),
        _ => None,
    };
    same((table, offsets), verdict, expected)?;
    if table.period < 1000 || expected.is_some() {
        same((table, offsets), report(table, offsets).err().filter(early), expected)?;
    }
    let mut output = vec![0; 500];
    same((table, offsets), write_plan(table, offsets, &mut output).err().filter(early), expected)
}

/// One text: accepted exactly when it is the one rendering of its table, else refused with
/// the first of all its faults.
fn text_once(text: &[u8]) -> Result<(), String> {
    let mut delays = vec![0; 64];
    let shown = String::from_utf8_lossy(text);
    match read_table(text, &mut delays) {
        Ok(read) => {
            delays.truncate(read.rows as usize);
            let table = Table { period: read.period, size: read.size, delays };
            same(&shown, brute::text_of(&table), text.to_vec())?;
            same(&shown, brute::text_is_good(text), true)?;
            same(&shown, None, brute::text_fault(text))
        }
        Err(refusal) => {
            same(&shown, brute::text_is_good(text), false)?;
            same(&shown, Some(refusal), brute::text_fault(text))
        }
    }
}

/// All texts of `pma 1` and up to nine pieces.
fn short_texts() -> Result<u64, String> {
    let pieces: [&[u8]; 5] = [b"1", b"0", b" ", b"\n", b"end "];
    let mut count = 0;
    for length in 0..=9 {
        for list in all_lists(length, pieces.len() as u64) {
            let body: Vec<&[u8]> = list.iter().map(|&piece| pieces[piece as usize]).collect();
            text_once(&[b"pma 1\n", &body.concat()[..]].concat())?;
            count += 1;
        }
    }
    Ok(count)
}

fn damaged_texts() -> Result<u64, String> {
    let mut random = Random::new(5);
    let mut count = 0;
    let made = (0..40_000).map(|round| match round % 3 {
        0 => mix::program_case(&mut random),
        _ => mix::read_table_case(&mut random),
    });
    for case in limits::all().into_iter().chain(made) {
        if let Case::ReadTable { text, .. } | Case::Program { input: text } = case {
            text_once(&text)?;
            count += 1;
        }
    }
    Ok(count)
}

/// One file's whole answer, with lists of two.
fn answered(file: &[u8]) -> Result<(), String> {
    same(file, strings::answer(file), brute::file_answer(file))
}

/// One file: accepted exactly when the writer gives it for the plan read, else refused with
/// the first of all its faults.
fn file_once(file: &[u8]) -> Result<(), String> {
    answered(file)?;
    let (mut delays, mut offsets) = (vec![0; 64], vec![0; 64]);
    match read_plan(file, &mut delays, &mut offsets) {
        Ok(read) => {
            delays.truncate(read.rows as usize);
            offsets.truncate(read.rows as usize);
            let table = Table { period: read.period, size: read.size, delays };
            let mut output = vec![0; file.len()];
            same(file, write_plan(&table, &offsets, &mut output), Ok(file.len() as u64))?;
            same(file, &output[..], file)?;
            same(file, brute::file_is_good(file), true)?;
            same(file, None, brute::file_fault(file))
        }
        Err(refusal) => {
            same(file, brute::file_is_good(file), false)?;
            same(file, Some(refusal), brute::file_fault(file))
        }
    }
}

/// All files of the tag and up to seven bytes of a small alphabet, up to five of a larger.
fn short_files() -> Result<u64, String> {
    let alphabets: [(&[u8], usize); 2] =
        [(&[0, 1, 2, 3, 4, 0x80, 0x81], 7), (&[0, 1, 2, 5, 64, 65, 0x7F, 0x80, 0x82, 0xFF], 5)];
    let mut count = 0;
    for (alphabet, longest) in alphabets {
        for length in 0..=longest {
            for list in all_lists(length, alphabet.len() as u64) {
                let body: Vec<u8> = list.iter().map(|&index| alphabet[index as usize]).collect();
                file_once(&[&TAG, &body[..]].concat())?;
                count += 1;
            }
        }
    }
    Ok(count)
}

fn damaged_files() -> Result<u64, String> {
    let mut random = Random::new(6);
    let mut count = 0;
    let made = (0..15_000).map(|_| mix::read_plan_case(&mut random));
    for case in limits::all().into_iter().chain(made) {
        if let Case::ReadPlan { file, .. } = case {
            file_once(&file)?;
            count += 1;
        }
    }
    Ok(count)
}

/// All files of up to two bytes, and every front of the tag with one or two bytes behind it.
fn near_the_tag() -> Result<u64, String> {
    let mut count = each_file(&[], 0, answered)?;
    for front in 0..=TAG.len() {
        for length in 1..=2 {
            count += each_file(&TAG[..front], length, answered)?;
        }
    }
    Ok(count)
}

fn all_strings() -> Result<u64, String> {
    let mut count = 0;
    for (_, prefix) in PREFIXES {
        for length in 0..=LONGEST {
            count += each_file(prefix, length, answered)?;
        }
    }
    Ok(count)
}

/// Three bytes of a number, then every string of up to two bytes: here numbers get too long.
fn long_numbers() -> Result<u64, String> {
    let mut count = 0;
    for (_, prefix) in PREFIXES {
        for before in [&[][..], &[3], &[0x80, 1]] {
            for number in [[0x80, 0x80, 0x80], [0xFF, 0xFF, 0xFF], [0x81, 0x80, 0x80]] {
                for length in 0..=2 {
                    count += each_file(&[prefix, before, &number].concat(), length, answered)?;
                }
            }
        }
    }
    Ok(count)
}

/// The place of a string of up to three bytes in a table of all of them.
fn index(string: &[u8]) -> usize {
    string.iter().fold(1, |index, &byte| 256 * index + usize::from(byte))
}

/// Marks the strings of up to three bytes that are a number (1) or a proper front of one (2),
/// by writing all numbers of up to three bytes and, of each first three bytes that a number of
/// four can have, one such number.
fn written_forms() -> Vec<u8> {
    let mut forms = vec![0; 2 << 24];
    for value in 0..2 << 21 {
        let bytes = seven_bit_groups(value);
        for length in 0..bytes.len() {
            forms[index(&bytes[..length])] |= 2;
        }
        if bytes.len() <= 3 {
            forms[index(&bytes)] |= 1;
        }
    }
    forms
}

/// The delay behind the header of `ten`: cut exactly when all that is there is a proper front
/// of a written number, right when it begins with one (all these are in range), else with a
/// needless group: three bytes cannot be too long.
fn listed_numbers() -> Result<u64, String> {
    let (_, prefix) = PREFIXES[1];
    let place = prefix.len() as u64;
    let forms = written_forms();
    let mut count = 0;
    for length in 0..=LONGEST {
        count += each_file(prefix, length, |file| {
            let string = &file[prefix.len()..];
            let expected = match (1..=length).find(|&end| forms[index(&string[..end])] & 1 > 0) {
                _ if forms[index(string)] & 2 > 0 => Some(19),
                Some(_) => None,
                None => Some(21),
            };
            let answer = strings::answer(file);
            let at_delay = answer[0] > 0 && answer[1] == place;
            same(file, at_delay.then_some(answer[0]), expected)
        })?;
    }
    Ok(count)
}

/// Number and place of the answer on a file, with lists that are long enough.
fn refused(file: &[u8]) -> Option<(u64, usize)> {
    let (mut delays, mut offsets) = (vec![0; 64], vec![0; 64]);
    let refusal = read_plan(file, &mut delays, &mut offsets).err()?;
    Some((refusal.number, refusal.place as usize))
}

/// Every proper front of an accepted file is cut, at the first byte of its tag or number that
/// is not whole; an accepted file with bytes behind it has them left over, at its old length.
fn fronts_and_ends(random: &mut Random, file: &[u8]) -> Result<u64, String> {
    let mut first_byte = 0;
    for end in 0..file.len() {
        if end == 4 || (end > 4 && file[end - 1] < 0x80) {
            first_byte = end;
        }
        same(&file[..end], refused(&file[..end]), Some((19, first_byte)))?;
    }
    for length in 1..=5 {
        let behind: Vec<u8> = (0..length).map(|_| random.below(256) as u8).collect();
        let longer = [file, &behind].concat();
        same(&longer, refused(&longer), Some((22, file.len())))?;
    }
    Ok(file.len() as u64 + 5)
}

/// 16 comes at place 0 and exactly when one of the first four bytes there is not the tag's;
/// any other fault but a cut stays as it is, whatever bytes come behind; and a cut can be
/// mended: with one byte more the same tag (when three bytes of it are there) or number is not
/// at fault in its form.
fn damage_laws(random: &mut Random, file: &[u8]) -> Result<(), String> {
    let wrong = (0..file.len().min(4)).any(|place| file[place] != TAG[place]);
    let answer = refused(file);
    same(file, answer == Some((16, 0)), wrong)?;
    same(file, answer.is_some_and(|(number, _)| number == 16), wrong)?;
    let byte = random.pick(&[0, 1, 0x80, 0xFF]);
    let longer = [file, &[byte, random.below(256) as u8]].concat();
    match answer {
        Some((19, place)) => {
            let mended = [file, &[*TAG.get(file.len()).unwrap_or(&1)]].concat();
            let form =
                |&(number, at): &(u64, usize)| at == place && [16, 19, 20, 21].contains(&number);
            same(file, refused(&mended).filter(form).is_some(), file.len() < 3)
        }
        None | Some((18, _)) => same(file, refused(&longer), Some((22, file.len()))),
        fault => same(file, refused(&longer), fault),
    }
}

fn file_laws() -> Result<u64, String> {
    let mut random = Random::new(12);
    let mut count = 0;
    for _ in 0..20_000 {
        let Case::ReadPlan { mut file, .. } = mix::read_plan_case(&mut random) else { continue };
        if refused(&file).is_none() {
            count += fronts_and_ends(&mut random, &file)?;
        }
        damage_laws(&mut random, &file)?;
        let place = random.place(file.len().clamp(1, 6));
        if let Some(byte) = file.get_mut(place) {
            *byte ^= 1 << random.below(8);
        }
        damage_laws(&mut random, &file)?;
        count += 2;
    }
    Ok(count)
}

/// "A plan written to a file reads back the same"
fn files_read_back() -> Result<u64, String> {
    let mut random = Random::new(7);
    let mut count = 0;
    for _ in 0..5000 {
        let written = mix::write_plan_case(&mut random);
        let Case::WritePlan { table, offsets, .. } = written else { continue };
        let mut output = vec![0; 459];
        let Ok(length) = write_plan(&table, &offsets, &mut output) else { continue };
        let (mut delays, mut read_offsets) = (vec![0; 64], vec![0; 64]);
        let file = &output[..length as usize];
        let read = read_plan(file, &mut delays, &mut read_offsets);
        let read = read.map_err(|refusal| format!("{table:?}: refused {refusal:?}"))?;
        let rows = read.rows as usize;
        same(&table, Table::new(read.period, read.size, &delays[..rows]), table.clone())?;
        same(&table, &read_offsets[..rows], &offsets[..])?;
        count += 1;
    }
    Ok(count)
}

/// What the program prints, from the listed sequences and the listed faults.
fn printed(input: &[u8]) -> Option<String> {
    if let Some(refusal) = brute::text_fault(input) {
        return Some(format!("refused {} {}\n", refusal.number, refusal.place));
    }
    let table = brute::loose_table(input)?;
    if table.rows() > 8 {
        return Some("refused 12 0\n".to_string());
    }
    if ceiling(table.rows() as u64) > 100_000 {
        return None;
    }
    Some(match brute::exact(&table) {
        (None, tests) => format!("none {tests}\n"),
        (Some(offsets), tests) => {
            let lines: Vec<String> = offsets.iter().map(|offset| format!("{offset}\n")).collect();
            format!("found {tests}\n{}", lines.concat())
        }
    })
}

fn programs() -> Result<u64, String> {
    let mut random = Random::new(11);
    let mut inputs: Vec<Vec<u8>> = small_tables(6).map(|table| brute::text_of(&table)).collect();
    for _ in 0..20_000 {
        if let Case::Program { input } = mix::case(&mut random) {
            inputs.push(input);
        }
    }
    let mut count = 0;
    for input in inputs {
        if let Some(expected) = printed(&input) {
            let got = String::from_utf8_lossy(&program::run(&input)).to_string();
            same(String::from_utf8_lossy(&input), got, expected)?;
            count += 1;
        }
    }
    Ok(count)
}

/// What stood in the buffers of a case, what stands there now, and how many elements of each
/// an answer may write.
fn buffers(case: &Case, answer: &[u64]) -> Vec<(Vec<u64>, Vec<u64>, usize)> {
    let split = |fields: usize, lents: &[(Vec<u64>, u64)]| {
        let mut from = fields;
        let mut buffers = Vec::new();
        for (before, written) in lents {
            let after = answer[from..from + before.len()].to_vec();
            buffers.push((before.clone(), after, *written as usize));
            from += before.len();
        }
        assert_eq!(from, answer.len());
        buffers
    };
    match case {
        Case::FirstFit { table, lent }
        | Case::MetaOffset { table, lent }
        | Case::OneSlot { table, lent } => split(2, &[(lent.numbers(), table.rows() as u64)]),
        Case::Exact { table, lent, .. } => split(3, &[(lent.numbers(), table.rows() as u64)]),
        Case::ReadTable { lent, .. } => split(5, &[(lent.numbers(), answer[4])]),
        Case::WritePlan { lent, .. } => {
            let bytes = lent.bytes().iter().map(|&byte| u64::from(byte)).collect();
            split(3, &[(bytes, answer[2])])
        }
        Case::ReadPlan { delays, offsets, .. } => {
            split(5, &[(delays.numbers(), answer[4]), (offsets.numbers(), answer[4])])
        }
        _ => Vec::new(),
    }
}

/// "Every refusal .. leaves all output buffers with the bytes and numbers they had"; "A lent
/// buffer longer than needed keeps its tail"; "Fields of an answer that don't apply are 0".
fn lent_buffers() -> Result<u64, String> {
    let mut random = Random::new(8);
    let mut count = 0;
    for _ in 0..30_000 {
        let case = mix::case(&mut random);
        let answer = case.answer();
        for (before, after, written) in buffers(&case, &answer) {
            let kept_from = if answer[0] == 0 { written } else { 0 };
            same(&case, &after[kept_from..], &before[kept_from..])?;
            count += 1;
        }
        let fields = match case {
            Case::ReadTable { .. } | Case::ReadPlan { .. } => 2..5,
            Case::WritePlan { .. } => 2..3,
            Case::Exact { .. } if answer[0] != 14 && answer[0] != 15 => 2..3,
            Case::Check { .. } | Case::CheckRecords { .. } | Case::Report { .. } => 2..answer.len(),
            _ => continue,
        };
        let all_zero = answer[fields].iter().all(|&field| field == 0);
        same(&case, answer[0] == 0 || all_zero, true)?;
    }
    Ok(count)
}

fn fits_32_bits(lent: &Lent) -> bool {
    lent.first + lent.length as u64 <= 1 << 32
}

fn joined_within_limits(parts: &[Part], answers: &Lent, offsets: &Lent) -> bool {
    parts.iter().all(|part| part.times > 0)
        && joined(parts).len() <= 33_000
        && answers.length <= 132
        && offsets.length <= 2100
        && fits_32_bits(answers)
        && fits_32_bits(offsets)
}

/// Does a case keep the limits that its reader may count on?
fn within_limits(case: &Case) -> bool {
    let (lists, bytes, lents, byte_lent): (Vec<&[u64]>, &[u8], Vec<&Lent>, usize) = match case {
        Case::Check { table, offsets } | Case::Report { table, offsets } => {
            (vec![&table.delays, offsets], &[], vec![], 0)
        }
        Case::FirstFit { table, lent }
        | Case::MetaOffset { table, lent }
        | Case::OneSlot { table, lent }
        | Case::Exact { table, lent, .. } => (vec![&table.delays], &[], vec![lent], 0),
        Case::ReadTable { text, lent } => (vec![], text, vec![lent], 0),
        Case::WritePlan { table, offsets, lent } => {
            (vec![&table.delays, offsets], &[], vec![], lent.length)
        }
        Case::ReadPlan { file, delays, offsets } => (vec![], file, vec![delays, offsets], 0),
        Case::Program { input } => (vec![], input, vec![], 0),
        Case::CheckRecords { records, .. } if records.len() > 66 => return false,
        Case::CheckRecords { .. } | Case::Ceiling { .. } => (vec![], &[], vec![], 0),
        Case::PlanTexts { parts, answers, offsets, .. } => {
            return joined_within_limits(parts, answers, offsets);
        }
    };
    let lent_fits = |lent: &&Lent| lent.length <= 80 && fits_32_bits(lent);
    let budgets = usize::from(matches!(case, Case::Exact { .. }));
    let wide = case.numbers().iter().filter(|&&number| number > u64::from(u32::MAX)).count();
    lists.iter().all(|list| list.len() <= 80)
        && lents.iter().all(lent_fits)
        && bytes.len() <= 1100
        && byte_lent <= 480
        && wide <= budgets
}

fn case_lines() -> Result<u64, String> {
    let mut random = Random::new(9);
    let mut count = 0;
    let made: Vec<Case> = (0..50_000).map(|_| mix::case(&mut random)).collect();
    let fixed = vectors::all().into_iter().map(|vector| vector.case).chain(limits::all());
    for case in fixed.chain(made) {
        let line = line_text(&case.numbers());
        let read = line_numbers(&line).and_then(|numbers| Case::from_numbers(&numbers));
        same(&line, read.as_ref(), Some(&case))?;
        let longest = if matches!(case, Case::PlanTexts { .. }) { 16_000 } else { 6000 };
        same(&line, line.len() < longest && within_limits(&case), true)?;
        count += 1;
    }
    Ok(count)
}

fn all_vectors() -> Result<u64, String> {
    let mut count = 0;
    for vector in vectors::all() {
        same((vector.name, &vector.case), vector.case.answer(), vector.answer)?;
        count += 1;
    }
    // The program's first example once more, as bytes.
    let output = program::run(b"pma 1\n10 2\n0\n3\n7\nend 3\n");
    same("01 program", output, b"found 3\n0\n2\n5\n".to_vec())?;
    Ok(count + 1)
}

/// The planners on the tables of their vectors, against brute force where that is quick enough.
fn planner_vectors() -> Result<u64, String> {
    let (mut quick, mut searched, mut moved) = (Vec::new(), Vec::new(), Vec::new());
    for vector in vectors::all() {
        match vector.case {
            Case::FirstFit { table, .. } | Case::MetaOffset { table, .. } => quick.push(table),
            Case::Exact { table, .. } => searched.push(table),
            Case::OneSlot { table, .. } => moved.push(table),
            _ => {}
        }
    }
    quick.retain(|table| table.judge().is_ok() && table.rows() <= 12);
    searched.retain(|table| table.judge().is_ok() && table.rows() <= 6);
    // Both quick planners run on a table; most tables that come twice stand side by side.
    quick.dedup();
    for table in &quick {
        quick_both(table)?;
    }
    for table in &searched {
        same(table, exact_answer(table)?, brute::exact(table))?;
    }
    moved.retain(|table| table.judge().is_ok() && table.rows() <= 6);
    for table in &moved {
        oneslot_laws::by_all_threes(table)?;
    }
    Ok((2 * quick.len() + searched.len() + moved.len()) as u64)
}
