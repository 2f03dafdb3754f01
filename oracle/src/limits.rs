//! Hand-picked cases: every limit at, just below and just above, buffers too short, exact and
//! too long, budgets around the true count, and every two faults at once.

use crate::bad::{shuffled, spread, turn_crossing_2};
use crate::brute::text_of;
use crate::cases::{Case, Lent, Part};
use crate::checker::Record;
use crate::exact::{ceiling, exact};
use crate::link::Table;
use crate::planfile::plan_file;
use crate::planner::Planner;
use crate::random::Random;

const MOST: u64 = u32::MAX as u64;
const BIG_DELAY: u64 = 1 << 24;

pub fn all() -> Vec<Case> {
    let mut cases = Vec::new();
    for group in [
        periods_and_sizes,
        delays_and_offsets,
        row_counts,
        budgets,
        larger_searches,
        buffers,
        two_faults,
        texts,
        program_texts,
        long_texts,
        files,
        long_files,
        short_tags,
        left_over_files,
        light_loads,
        longest_light_loads,
        joined_lists,
        joined_lengths,
        joined_mixed,
        joined_many_rows,
        joined_fronts,
        joined_bytes_lost,
        one_slot_limits,
        one_slot_rows,
        one_slot_moves,
    ] {
        cases.extend(group());
    }
    cases
}

/// All calls on values with these numbers, each with buffers of the right length.
fn value_calls(table: &Table, offsets: &[u64]) -> Vec<Case> {
    let (table, offsets) = (table.clone(), offsets.to_vec());
    let lent = Lent::new(table.rows(), 40);
    let bytes = Lent::new(plan_file(&table, &offsets).len(), 250);
    let rows = table.delays.iter().zip(&offsets);
    let records = rows.map(|(&delay, &offset)| Record { delay, offset }).collect();
    let (period, size) = (table.period, table.size);
    vec![
        Case::Check { table: table.clone(), offsets: offsets.clone() },
        Case::CheckRecords { period, size, records },
        Case::FirstFit { table: table.clone(), lent },
        Case::MetaOffset { table: table.clone(), lent },
        Case::Exact { table: table.clone(), budget: 2000, lent },
        Case::Report { table: table.clone(), offsets: offsets.clone() },
        Case::WritePlan { table, offsets, lent: bytes },
    ]
}

/// All calls, the readers and the program included, with the numbers of one table.
fn all_calls(table: &Table, offsets: &[u64]) -> Vec<Case> {
    let mut cases = value_calls(table, offsets);
    let lent = Lent::new(table.rows(), 7);
    let text = text_of(table);
    cases.push(Case::Program { input: text.clone() });
    cases.push(Case::ReadTable { text, lent });
    cases.push(Case::ReadPlan { file: plan_file(table, offsets), delays: lent, offsets: lent });
    cases
}

fn periods_and_sizes() -> Vec<Case> {
    let periods = [0, 1, 2, 999_999, 1_000_000, 1_000_001, MOST];
    let mut pairs: Vec<(u64, u64)> = periods.iter().map(|&period| (period, 1)).collect();
    pairs.extend([(0, 0), (MOST, MOST), (10, MOST)]);
    for period in [1, 10, 1_000_000] {
        pairs.extend([0, period - 1, period, period + 1].map(|size| (period, size)));
    }
    let mut cases = Vec::new();
    for (period, size) in pairs {
        cases.extend(all_calls(&Table::new(period, size, &[0]), &[0]));
    }
    for (period, size) in [(1, 1), (2, 1), (2, 2), (3, 2), (4, 2), (999_999, 499_999)] {
        cases.extend(all_calls(&Table::new(period, size, &[3, 5]), &[0, period / 2]));
    }
    cases
}

fn delays_and_offsets() -> Vec<Case> {
    let (most, above) = (BIG_DELAY - 1, BIG_DELAY);
    let mut cases = Vec::new();
    for delays in [[most, 0], [0, most], [above, 0], [0, above], [above, above], [0, MOST]] {
        cases.extend(all_calls(&Table::new(10, 2, &delays), &[0, 5]));
    }
    let table = Table::new(10, 2, &[0, 0]);
    for offsets in [[9, 4], [4, 9], [10, 0], [0, 10], [11, 10], [MOST, 0], [0, MOST], [9, 0]] {
        cases.extend(all_calls(&table, &offsets));
    }
    let widest = Table::new(1_000_000, 7, &[most, 0]);
    for offsets in [[999_999, 0], [999_999, 6], [0, 999_999], [1_000_000, 0], [0, 1_000_000]] {
        cases.extend(value_calls(&widest, &offsets));
    }
    cases
}

fn row_counts() -> Vec<Case> {
    let mut cases = Vec::new();
    for rows in [0, 1, 2, 7, 8, 9, 63, 64, 65, 66] {
        let table = Table::new(70, 1, &vec![0; rows]);
        let offsets: Vec<u64> = (0..rows as u64).collect();
        cases.extend(all_calls(&table, &offsets));
    }
    for rows in [64, 65] {
        let table = Table::new(64, 1, &vec![1; rows]);
        let offsets: Vec<u64> = (0..rows as u64).map(|row| (row + 63) % 64).collect();
        cases.extend(all_calls(&table, &offsets));
    }
    for rows in [8, 9, 10, 64, 65] {
        for length in [rows - 1, rows, rows + 1] {
            let (table, lent) = (Table::new(70, 1, &vec![0; rows]), Lent::new(length, 0));
            cases.push(Case::Exact { table, budget: 49, lent });
        }
    }
    cases.extend([0, 1, 8, 9, 12, 13, 64, 65, MOST].map(|rows| Case::Ceiling { rows }));
    cases
}

fn budgets() -> Vec<Case> {
    let tables = [
        Table::new(10, 2, &[0, 3, 7]),
        Table::new(4, 1, &[0, 2, 1, 1]),
        Table::new(3, 1, &[0, 0, 1]),
        Table::new(1, 1, &[0]),
        Table::new(1, 1, &[0, 0]),
        Table::new(5, 1, &[0, 1, 2, 3, 1]),
        Table::new(12, 2, &[0, 5, 3, 1, 9]),
        Table::new(30, 3, &[4, 8, 15, 16, 23, 42]),
        Table::new(40, 4, &[0, 31, 7, 19, 2, 28, 11]),
        Table::new(100, 5, &[99, 98, 97, 96, 95, 94, 93, 92]),
    ];
    let mut cases = Vec::new();
    for table in tables {
        let rows = table.rows() as u64;
        let count = exact(&table, 20_000, &mut vec![0; table.rows()]).tests;
        let mut budgets = vec![0, 1, count.saturating_sub(1), count, count + 1, ceiling(rows)];
        budgets.push(u64::MAX);
        for budget in budgets {
            let lent = Lent::new(table.rows(), 500);
            cases.push(Case::Exact { table: table.clone(), budget, lent });
        }
    }
    cases
}

/// The handful of searches with many tests, up to 503,210.
fn larger_searches() -> Vec<Case> {
    let tables = [
        (Table::new(6, 1, &[0, 1, 2, 3, 4, 4]), u64::MAX),
        (Table::new(14, 2, &[0, 3, 6, 9, 12, 1, 4]), 35_060),
        (Table::new(14, 2, &[0, 3, 6, 9, 12, 1, 4]), 35_059),
        (Table::new(18, 2, &[9, 13, 1, 14, 1, 5, 1, 7]), 57_397),
        (Table::new(18, 2, &[9, 13, 1, 14, 1, 5, 1, 7]), 57_396),
        (Table::new(16, 2, &[6, 15, 2, 10, 13, 9, 4, 8]), ceiling(8)),
        (Table::new(8, 1, &[0, 0, 0, 0, 0, 0, 0, 1]), 150_000),
        (Table::new(4, 1, &[0; 8]), u64::MAX),
    ];
    let program = |index: usize| Case::Program { input: text_of(&tables[index].0) };
    let mut cases = vec![program(1), program(3), program(7)];
    for (table, budget) in tables {
        let lent = Lent::new(table.rows(), 1);
        cases.push(Case::Exact { table, budget, lent });
    }
    cases
}

fn buffers() -> Vec<Case> {
    let table = Table::new(10, 2, &[0, 3, 7]);
    let offsets = vec![1, 3, 6];
    let (text, file) = (text_of(&table), plan_file(&table, &offsets));
    let mut cases = Vec::new();
    for length in [0, 1, 2, 3, 4, 80] {
        let lent = Lent::new(length, 1000);
        let high = Lent::new(length, MOST - 80);
        cases.push(Case::FirstFit { table: table.clone(), lent: high });
        cases.push(Case::MetaOffset { table: table.clone(), lent });
        cases.push(Case::Exact { table: table.clone(), budget: 3, lent });
        cases.push(Case::Exact { table: table.clone(), budget: 2, lent: high });
        cases.push(Case::ReadTable { text: text.clone(), lent: high });
        cases.push(Case::ReadPlan { file: file.clone(), delays: lent, offsets: Lent::new(3, 0) });
        cases.push(Case::ReadPlan { file: file.clone(), delays: Lent::new(3, 0), offsets: high });
        cases.push(Case::ReadPlan { file: file.clone(), delays: lent, offsets: lent });
    }
    for length in [0, 1, 12, 13, 14, 300] {
        let (table, offsets) = (table.clone(), offsets.clone());
        cases.push(Case::WritePlan { table, offsets, lent: Lent::new(length, 3) });
    }
    cases
}

/// A fault of a call on values.
type Fault = fn(&mut Table, &mut Vec<u64>);

const FAULTS: [Fault; 9] = [
    |table, _| table.period = 0,
    |table, _| table.period = 1_000_001,
    |table, _| table.size = 0,
    |table, _| table.size = 2_000_000,
    |table, _| table.delays.clear(),
    |table, _| table.delays[1..].fill(BIG_DELAY),
    |_, offsets| offsets[1..].fill(3_000_000),
    |_, offsets| offsets.truncate(2),
    |table, _| table.delays.extend([5; 7]),
];

/// Every two faults at once: the order of judging decides.
fn two_faults() -> Vec<Case> {
    let mut cases = Vec::new();
    for (index, first) in FAULTS.iter().enumerate() {
        for second in &FAULTS[..index] {
            let mut table = Table::new(20, 2, &[0, 3, 7]);
            let mut offsets = vec![0, 2, 2];
            first(&mut table, &mut offsets);
            second(&mut table, &mut offsets);
            cases.extend(value_calls(&table, &offsets));
            let short = Lent::new(1, 0);
            cases.push(Case::FirstFit { table: table.clone(), lent: short });
            cases.push(Case::MetaOffset { table: table.clone(), lent: short });
            cases.push(Case::Exact { table, budget: 0, lent: short });
        }
    }
    cases
}

/// Texts with the numbers of line two, of the first row and of line one at their limits.
fn texts() -> Vec<Case> {
    let numbers = "999999 1000000 1000001 9999999 99999999 100000000 0 00 01 1 16777215 16777216";
    let ends = ["\n5\nend 1\n", "\n5\nend 2\n", "\nend 1\n", "\n"];
    let mut cases = Vec::new();
    for number in numbers.split(' ') {
        for lines in [format!("{number} 1"), format!("10 {number}"), format!("10 1\n{number}")] {
            for end in ends {
                let text = format!("pma 1\n{lines}{end}").into_bytes();
                cases.push(Case::ReadTable { text, lent: Lent::new(2, 60) });
            }
        }
    }
    let words = ["pma 1", "pma 1 ", " pma 1", "pma 01", "PMA 1", "pma 2", "pma1", "pma\t1", "pma"];
    for word in words {
        let text = format!("{word}\n10 2\n1\nend 1\n").into_bytes();
        cases.push(Case::Program { input: text.clone() });
        cases.push(Case::ReadTable { text, lent: Lent::new(1, 60) });
    }
    cases
}

/// The program on texts with one fault each.
fn program_texts() -> Vec<Case> {
    let rows = [
        "0\nend 1\n\n",
        "0\nend 1\nx",
        "0\nend 1\npma 1\n",
        "16777216\nend 1\n",
        "0\n99999999\nend 2\n",
        "end 0\n",
        "0\nend 1",
        "0\n3\nend 3\n",
        "0\n-3\nend 2\n",
    ];
    rows.map(|rows| Case::Program { input: format!("pma 1\n10 2\n{rows}").into_bytes() }).to_vec()
}

/// Texts of 1,023 to 1,025 bytes and of many rows.
fn long_texts() -> Vec<Case> {
    let full = text_of(&Table::new(1_000_000, 1_000_000, &[16_777_215; 64]));
    let mut cases = Vec::new();
    for length in [1023, 1024, 1025, 1100] {
        let mut text = full.clone();
        text.resize(length, 10);
        cases.push(Case::ReadTable { text, lent: Lent::new(64, 0) });
        let mut line = b"pma 1\n10 2\n1\n".to_vec();
        line.resize(length - 1, b'1');
        line.push(10);
        cases.push(Case::Program { input: line });
    }
    for rows in [63, 64, 65] {
        for count in [63, 64, 65] {
            let mut text = text_of(&Table::new(1, 1, &vec![0; rows]));
            let end = text.len() - 7;
            text.splice(end.., format!("end {count}\n").into_bytes());
            cases.push(Case::ReadTable { text, lent: Lent::new(64, 0) });
        }
    }
    for length in [63, 64, 65] {
        cases.push(Case::ReadTable { text: full.clone(), lent: Lent::new(length, 0) });
    }
    cases.push(Case::Program { input: full });
    cases
}

/// A good file cut at every place, and with every number in a needlessly long form.
fn files() -> Vec<Case> {
    let file = plan_file(&Table::new(300, 20, &[0, 16_384, 16_777_215]), &[0, 100, 299 - 20]);
    let lent = Lent::new(3, 0);
    let read = |file: Vec<u8>| Case::ReadPlan { file, delays: lent, offsets: lent };
    let mut cases: Vec<Case> = (0..=file.len()).map(|end| read(file[..end].to_vec())).collect();
    for (place, _) in file.iter().enumerate().skip(4).filter(|(_, &byte)| byte < 0x80) {
        for groups in [&[0][..], &[0x80, 0], &[0x80, 0x80, 0x80, 0], &[0x80, 0x80, 0x80, 1]] {
            let mut longer = file.clone();
            longer[place] |= 0x80;
            longer.splice(place + 1..place + 1, groups.iter().copied());
            cases.push(read(longer));
        }
    }
    for place in 0..4 {
        let mut wrong = file.clone();
        wrong[place] ^= 1;
        cases.push(read(wrong));
    }
    cases
}

/// The longest file of a clear plan (458 bytes), and the longest file of right form (459),
/// whose 64 messages of 16,384 slots cannot be clear.
fn long_files() -> Vec<Case> {
    let mut cases = Vec::new();
    for size in [128, 15_000, 16_384] {
        let table = Table::new(1_000_000, size, &[16_777_215; 64]);
        let offsets: Vec<u64> = (0..64).map(|row| 20_000 + row * size.min(15_000)).collect();
        let file = plan_file(&table, &offsets);
        for length in [file.len() - 1, file.len(), 480] {
            let (table, offsets) = (table.clone(), offsets.clone());
            cases.push(Case::WritePlan { table, offsets, lent: Lent::new(length, 9) });
        }
        for length in [63, 64, 80] {
            let (delays, offsets) = (Lent::new(length, 0), Lent::new(64, 0));
            cases.push(Case::ReadPlan { file: file.clone(), delays, offsets });
        }
    }
    cases
}

/// Every front of the tag with its last byte one off, and with the top bit of that byte set.
fn short_tags() -> Vec<Case> {
    let lent = Lent::new(1, 30);
    let mut cases = Vec::new();
    for length in 1..=4 {
        for change in [1, 0x80] {
            let mut file = plan_file(&Table::new(10, 2, &[0]), &[0])[..length].to_vec();
            file[length - 1] ^= change;
            cases.push(Case::ReadPlan { file, delays: lent, offsets: lent });
        }
    }
    cases
}

/// The longest files and a file that isn't clear, each with bytes left over and one byte short.
fn left_over_files() -> Vec<Case> {
    let lent = Lent::new(64, 0);
    let offsets: Vec<u64> = (0..64).map(|row| 20_000 + row * 15_000).collect();
    let longest = [128, 16_384]
        .map(|size| plan_file(&Table::new(1_000_000, size, &[16_777_215; 64]), &offsets));
    let unclear = plan_file(&Table::new(10, 2, &[0, 0]), &[0, 1]);
    let mut cases = Vec::new();
    for file in longest.into_iter().chain([unclear]) {
        for behind in [&[0][..], &[0x80, 0x80, 0x80, 0x80]] {
            let file = [&file, behind].concat();
            cases.push(Case::ReadPlan { file, delays: lent, offsets: lent });
        }
        let file = file[..file.len() - 1].to_vec();
        cases.push(Case::ReadPlan { file, delays: lent, offsets: lent });
    }
    cases
}

/// Rows spread in random order, crossing 2 turned at random.
fn spread_case(random: &mut Random, planner: Planner, link: (u64, u64), rows: u64) -> Case {
    let order = shuffled(random, rows - 1);
    let mut table = spread(planner, link.0, link.1, &order);
    turn_crossing_2(&mut table, random.below(link.0));
    planner.case(table, Lent::new(rows as usize, 300))
}

/// Around the bound of request Three's promise, what spread rows take away, and just light.
fn light_loads() -> Vec<Case> {
    let mut random = Random::new(3);
    let mut cases = Vec::new();
    for planner in [Planner::FirstFit, Planner::MetaOffset] {
        for (rows, size) in [(2, 1), (2, 7), (3, 2), (5, 4), (8, 3), (16, 5), (33, 2), (64, 1)] {
            for count in planner.around_the_bound(rows, size) {
                let periods: Vec<u64> = planner.periods(count, size).collect();
                let link = (random.pick(&periods), size);
                cases.push(spread_case(&mut random, planner, link, rows));
            }
        }
    }
    cases
}

/// 64 rows and long periods. Meta-Offset: 190 = 3 * 64 - 2 multiples with and without a remainder,
/// and 189. First Fit: P = 190T - 64, which gets 13, and one more, P = 190T, 63(4T-2) one below P;
/// 16 rows with the largest T for which 46T - 16 is below a million, there and one more.
fn longest_light_loads() -> Vec<Case> {
    let mut random = Random::new(4);
    let meta = [(1_000_000, 5263), (999_970, 5263), (999_969, 5263), (994_707, 5263)];
    let first = [(12_096, 64), (12_097, 64), (12_160, 64), (16_003, 64)];
    let first_of_16 = [(999_978, 21_739), (999_979, 21_739)];
    let mut cases = Vec::new();
    for link in meta {
        cases.push(spread_case(&mut random, Planner::MetaOffset, link, 64));
    }
    for link in first {
        cases.push(spread_case(&mut random, Planner::FirstFit, link, 64));
    }
    for link in first_of_16 {
        cases.push(spread_case(&mut random, Planner::FirstFit, link, 16));
    }
    cases
}

/// Joined texts with lists just long enough.
fn joined(budget: u64, parts: &[Part]) -> Case {
    let (answers, offsets) = (Lent::new(128, 20_000), Lent::new(2048, 30_000));
    Case::PlanTexts { budget, parts: parts.to_vec(), answers, offsets }
}

/// A plan, a text without a plan, and a text of nine rows.
fn three_texts() -> [Vec<u8>; 3] {
    [
        text_of(&Table::new(10, 2, &[0, 3, 7])),
        text_of(&Table::new(3, 1, &[0, 0, 1])),
        text_of(&Table::new(20, 1, &[1; 9])),
    ]
}

/// Lists at and around 32 answers and 2,048 offsets, from 0 on, where some elements already have the
/// value that is written, and up to the largest value.
fn joined_lists() -> Vec<Case> {
    let (texts, one_row) = (three_texts(), text_of(&Table::new(1, 1, &[0])));
    let good: Vec<Part> = texts.iter().map(|text| Part::new(1, text)).collect();
    let full = vec![Part::new(31, &texts[0]), Part::new(1, &one_row)];
    let faulty = vec![Part::new(2, &texts[1]), Part::new(1, b"pma 1\n0 0\n")];
    let from_0 = |length: usize| Lent::new(length, 0);
    let to_the_largest = |length: usize| Lent::new(length, MOST - length as u64);
    let lengths = [0, 1, 4, 123, 124, 127, 128, 129, 131, 132].map(|answers| (answers, 2048));
    let more = [0, 1, 64, 1984, 2047, 2048, 2049, 2100].map(|offsets| (128, offsets));
    let mut cases = Vec::new();
    for (a, o) in lengths.into_iter().chain(more).chain([(132, 2100), (127, 2047)]) {
        for (parts, answers, offsets) in [
            (&good, from_0(a), from_0(o)),
            (&full, to_the_largest(a), to_the_largest(o)),
            (&faulty, from_0(a), to_the_largest(o)),
        ] {
            cases.push(Case::PlanTexts { budget: 16, parts: parts.clone(), answers, offsets });
        }
    }
    cases
}

/// Inputs of 32,767 to 32,770 bytes: many short texts, many lines, or no line at all.
fn joined_lengths() -> Vec<Case> {
    let [text, none, nine] = three_texts();
    let mut cases = Vec::new();
    for length in [32_767, 32_768, 32_769, 32_770] {
        for front in [vec![], vec![Part::new(5, &text)], vec![Part::new(32, &none)]] {
            for fill in [b'\n', b' ', b'5'] {
                let used: usize = front.iter().map(|part| part.times * part.bytes.len()).sum();
                let fill = Part::new(length - used, &[fill]);
                cases.push(joined(2000, &[&front[..], &[fill]].concat()));
            }
        }
        let whole = length / nine.len();
        let parts = [Part::new(whole, &nine), Part::new(1, &nine[..length % nine.len()])];
        cases.push(joined(2000, &parts));
    }
    cases
}

/// 32 texts of one to eight rows, four of each, small budgets and all.
fn joined_mixed() -> Vec<Case> {
    let mut random = Random::new(5);
    let mut cases = Vec::new();
    for (period, size) in [(9, 1), (20, 2), (100, 5), (1_000_000, 62_500)] {
        let tables = (0..32).map(|t| {
            let delays: Vec<u64> = (0..=t % 8).map(|_| random.below(2 * period)).collect();
            Table::new(period, size, &delays)
        });
        let parts: Vec<Part> = tables.map(|table| Part::new(1, &text_of(&table))).collect();
        for budget in [0, 6, 50, 2000] {
            cases.push(joined(budget, &parts));
        }
    }
    cases
}

/// Texts of 7 to 10 and 63 to 66 rows, alone and among others; the longest text, 605 bytes, so often
/// that the input is as long as 32 texts can be, or above 32,768 bytes.
fn joined_many_rows() -> Vec<Case> {
    let mut cases = Vec::new();
    let short = Part::new(1, &text_of(&Table::new(10, 2, &[0, 3, 7])));
    for rows in [7, 8, 9, 10, 63, 64, 65, 66] {
        let text = text_of(&Table::new(70, 1, &vec![3; rows]));
        for times in [1, 32] {
            cases.push(joined(49, &[Part::new(times, &text)]));
        }
        cases.push(joined(49, &[short.clone(), Part::new(2, &text), short.clone()]));
    }
    let longest = text_of(&Table::new(1_000_000, 1_000_000, &[16_777_215; 64]));
    for times in [1, 31, 32, 33, 54] {
        cases.push(joined(0, &[Part::new(times, &longest)]));
    }
    cases
}

/// Every front of three joined texts, behind 30 others.
fn joined_fronts() -> Vec<Case> {
    let [text, none, _] = three_texts();
    let last = text_of(&Table::new(1, 1, &[0]));
    let three = [&text[..], &none, &last].concat();
    let before = Part::new(30, &last);
    let fronts = (0..=three.len()).map(|end| Part::new(1, &three[..end]));
    fronts.map(|front| joined(16, &[before.clone(), front])).collect()
}

/// Three joined texts, each of their bytes 10 lost.
fn joined_bytes_lost() -> Vec<Case> {
    let tables = [
        Table::new(1_000_000, 7, &[3]),
        Table::new(10, 2, &[1677, 7216, 0, 99_999, 12]),
        Table::new(100, 5, &[99, 98, 97, 96, 95, 94, 93, 92]),
    ];
    let three = tables.map(|table| text_of(&table)).concat();
    let newlines = (0..three.len()).filter(|&place| three[place] == 10);
    newlines
        .map(|place| {
            let parts = [Part::new(1, &three[..place]), Part::new(1, &three[place + 1..])];
            joined(2000, &parts)
        })
        .collect()
}

fn one_slot(period: u64, size: u64, delays: &[u64], length: usize) -> Case {
    Case::OneSlot { table: Table::new(period, size, delays), lent: Lent::new(length, MOST - 80) }
}

/// One-slot messages with period, size and list at their limits.
fn one_slot_limits() -> Vec<Case> {
    let rows = &[0, 2, 1, 1];
    let links = [(1_000_000, 1), (4, MOST)].map(|(period, size)| one_slot(period, size, rows, 4));
    let lists = [0, 80].map(|length| one_slot(4, 1, rows, length));
    links.into_iter().chain(lists).collect()
}

/// A list too short for 64 rows, 65 rows, and 64 rows with periods from 64 to a million.
fn one_slot_rows() -> Vec<Case> {
    let mut random = Random::new(6);
    let mut cases = Vec::new();
    for (rows, length) in [(64, 63), (65, 65)] {
        cases.push(one_slot(100, 1, &vec![3; rows], length));
    }
    for period in [64, 65, 100, 126, 127, 1_000_000] {
        let delays: Vec<u64> = (0..64).map(|_| random.below(BIG_DELAY)).collect();
        cases.push(one_slot(period, 1, &delays, 64));
    }
    cases.push(one_slot(1_000_000, 1, &[BIG_DELAY - 1; 64], 80));
    cases
}

/// Found by search. P = 64: 28 moves, 683 rows tried in vain, 13 at the last row.
#[rustfmt::skip]
const REFUSED_LATE: [u64; 64] = [
    0, 57, 53, 39, 45, 4, 52, 36, 41, 37, 27, 60, 38, 39, 49, 51,
    47, 44, 41, 47, 41, 36, 31, 31, 53, 31, 45, 40, 40, 22, 29, 15,
    23, 16, 9, 7, 8, 5, 3, 63, 60, 4, 6, 2, 56, 62, 61, 60,
    59, 56, 46, 47, 33, 33, 33, 27, 27, 27, 27, 8, 27, 43, 41, 22,
];

/// P = 65: a plan after 29 moves, 628 rows tried in vain.
#[rustfmt::skip]
const TRIED_LONG: [u64; 64] = [
    0, 58, 44, 32, 38, 60, 58, 36, 62, 61, 56, 57, 40, 39, 45, 30,
    22, 38, 41, 30, 40, 40, 30, 26, 35, 34, 18, 30, 19, 27, 32, 21,
    10, 13, 6, 5, 1, 5, 63, 60, 57, 2, 63, 60, 55, 52, 63, 53,
    57, 53, 48, 47, 47, 24, 22, 22, 22, 35, 10, 29, 15, 9, 61, 22,
];

/// P = 66: a plan after 31 moves, as many as there can be.
#[rustfmt::skip]
const MOVED_MOST: [u64; 64] = [
    0, 48, 9, 18, 46, 55, 64, 43, 14, 17, 55, 5, 56, 4, 49, 41,
    51, 53, 63, 53, 63, 57, 63, 42, 42, 46, 44, 41, 49, 42, 49, 43,
    55, 25, 25, 25, 25, 25, 25, 25, 25, 30, 29, 26, 18, 22, 19, 7,
    29, 29, 18, 15, 4, 7, 5, 62, 28, 23, 4, 3, 65, 47, 47, 13,
];

/// Tables of 64 rows with much to try.
fn one_slot_moves() -> Vec<Case> {
    let tables = [(64, REFUSED_LATE), (65, TRIED_LONG), (66, MOVED_MOST)];
    tables.map(|(period, delays)| one_slot(period, 1, &delays, 64)).to_vec()
}
