//! Vectors: every worked table of document 01, requests One to Four of document 02 (those of Five
//! stand in `oneslot_vectors`), every example
//! of their decided readings, and the manual's tables, each with the answer written down. Answers
//! are the documents' or worked out by hand; the plans of the manual's tables come from brute force
//! over slot sets outside this program. The self-test compares the planners' with its own brute
//! force too, up to twelve rows, the exact planner's up to six.

use crate::cases::{counted, Case, Lent, Part};
use crate::checker::Record;
use crate::link::Table;
use crate::oneslot_vectors;
use crate::planfile::TAG;

pub struct Vector {
    pub name: &'static str,
    pub case: Case,
    pub answer: Vec<u64>,
}

/// The first worked table of document 01.
const FIRST: &[u64] = &[0, 3, 7];
const FIRST_TEXT: &str = "pma 1\n10 2\n0\n3\n7\nend 3\n";
const FIRST_FILE: &[u8] = &[10, 2, 3, 0, 0, 3, 2, 7, 5];

const GROUPS: &[fn() -> Vec<Vector>] = &[
    worked_planners,
    worked_others,
    errors_to_avoid,
    general,
    general_orders,
    crossings,
    step_order,
    exact_planner,
    checker_and_report,
    text_ends,
    text_line_two,
    text_end_line,
    text_numbers,
    text_limits,
    texts_with_four_lent,
    texts_of_64_rows,
    plan_file_numbers,
    plan_file_orders,
    files_with_four_lent,
    files_accepted,
    writer,
    writer_orders,
    longest_file,
    program,
    tags_wrong_or_cut,
    numbers_cut_or_too_long,
    numbers_with_needless_groups,
    form_before_range,
    range_before_the_next_form,
    bytes_left_over,
    every_fault_at_every_number,
    file_of_every_number,
    runs_at_both_ends,
    runs_at_one_end,
    nothing_free,
    crossings_that_differ,
    stretches_at_limits,
    multiples_all_taken,
    multiples_enough,
    offsets_all_taken,
    offsets_enough,
    light_loads_of_64_rows,
    light_loads_of_12_rows,
    tables_of_the_manual,
    texts_joined,
    joined_lists_too_short,
    joined_lists_longer,
    joined_input_too_long,
    thirty_third_text,
    bytes_behind_a_text,
    lines_not_ended,
    lines_ended_at_the_limit,
    joined_input_cut,
    joined_rows,
    joined_budgets,
    joined_tests_one_too_many,
    joined_faults,
    joined_newline_lost,
];

pub fn all() -> Vec<Vector> {
    GROUPS.iter().chain(oneslot_vectors::GROUPS).flat_map(|group| group()).collect()
}

// How the cases are made. A lent list of m elements starts at 90, lent bytes at 200.

pub fn list(length: usize) -> Lent {
    Lent::new(length, 90)
}

pub fn is(name: &'static str, case: Case, answer: &[u64]) -> Vector {
    Vector { name, case, answer: answer.to_vec() }
}

fn check(period: u64, size: u64, delays: &[u64], offsets: &[u64]) -> Case {
    Case::Check { table: Table::new(period, size, delays), offsets: offsets.to_vec() }
}

fn records(period: u64, size: u64, pairs: &[(u64, u64)]) -> Case {
    let records = pairs.iter().map(|&(delay, offset)| Record { delay, offset }).collect();
    Case::CheckRecords { period, size, records }
}

fn first_fit(period: u64, size: u64, delays: &[u64], length: usize) -> Case {
    Case::FirstFit { table: Table::new(period, size, delays), lent: list(length) }
}

fn meta_offset(period: u64, size: u64, delays: &[u64], length: usize) -> Case {
    Case::MetaOffset { table: Table::new(period, size, delays), lent: list(length) }
}

fn exact(period: u64, size: u64, delays: &[u64], budget: u64, length: usize) -> Case {
    Case::Exact { table: Table::new(period, size, delays), budget, lent: list(length) }
}

fn report(period: u64, size: u64, delays: &[u64], offsets: &[u64]) -> Case {
    Case::Report { table: Table::new(period, size, delays), offsets: offsets.to_vec() }
}

/// A report answered: free, stretches and widest of crossing 1, then those of crossing 2.
fn reports(name: &'static str, case: Case, first: [u64; 3], second: [u64; 3]) -> Vector {
    is(name, case, &[&[0, 0], &first[..], &second[..]].concat())
}

fn write(period: u64, size: u64, delays: &[u64], offsets: &[u64], length: usize) -> Case {
    let table = Table::new(period, size, delays);
    Case::WritePlan { table, offsets: offsets.to_vec(), lent: Lent::new(length, 200) }
}

/// A text read into a list of this length.
fn text_into(text: &[u8], length: usize) -> Case {
    Case::ReadTable { text: text.to_vec(), lent: list(length) }
}

/// A text refused, with a list of two that stays as it was.
fn text_refused(name: &'static str, text: &[u8], number: u64, place: u64) -> Vector {
    is(name, text_into(text, 2), &[number, place, 0, 0, 0, 90, 91])
}

/// The same for a text of one line one and one line two that are right, then these lines.
fn rows_refused(name: &'static str, lines: &str, number: u64, place: u64) -> Vector {
    text_refused(name, format!("pma 1\n10 2\n{lines}").as_bytes(), number, place)
}

/// A file: the tag and these bytes.
fn file(body: &[u8]) -> Vec<u8> {
    [&TAG, body].concat()
}

fn file_into(bytes: &[u8], delays: usize, offsets: usize) -> Case {
    Case::ReadPlan { file: bytes.to_vec(), delays: list(delays), offsets: Lent::new(offsets, 70) }
}

/// A file refused, with lists of two that stay as they were.
fn file_refused(name: &'static str, bytes: &[u8], number: u64, place: u64) -> Vector {
    is(name, file_into(bytes, 2, 2), &[number, place, 0, 0, 0, 90, 91, 70, 71])
}

fn body_refused(name: &'static str, body: &[u8], number: u64, place: u64) -> Vector {
    file_refused(name, &file(body), number, place)
}

fn prints(name: &'static str, input: &str, output: &str) -> Vector {
    let case = Case::Program { input: input.as_bytes().to_vec() };
    Vector { name, case, answer: counted(output.as_bytes()) }
}

/// Sixty-four good one-digit rows after `10 2`; the next line begins at byte 139.
fn after_64_rows(rest: &str) -> String {
    format!("pma 1\n10 2\n{}{rest}", "5\n".repeat(64))
}

// Document 01, the worked tables.

fn worked_planners() -> Vec<Vector> {
    let full = u64::MAX;
    vec![
        is("01 table 1 First Fit", first_fit(10, 2, FIRST, 3), &[0, 0, 0, 2, 5]),
        is("01 table 1 Meta-Offset", meta_offset(10, 2, FIRST, 3), &[0, 0, 0, 2, 6]),
        is("01 table 1 exact", exact(10, 2, FIRST, full, 3), &[0, 0, 3, 0, 2, 5]),
        is("01 table 2 First Fit", first_fit(4, 1, &[0, 2, 1, 1], 4), &[13, 2, 90, 91, 92, 93]),
        is("01 table 2 Meta", meta_offset(4, 1, &[0, 2, 1, 1], 4), &[13, 2, 90, 91, 92, 93]),
        is("01 table 2 exact", exact(4, 1, &[0, 2, 1, 1], full, 4), &[0, 0, 16, 0, 3, 1, 2]),
        is("01 table 3 exact", exact(3, 1, &[0, 0, 1], full, 3), &[14, 0, 16, 90, 91, 92]),
        is("01 table 3 budget 16", exact(3, 1, &[0, 0, 1], 16, 3), &[14, 0, 16, 90, 91, 92]),
        is("01 table 3 budget 15", exact(3, 1, &[0, 0, 1], 15, 3), &[15, 0, 15, 90, 91, 92]),
        is("01 table 4 First Fit", first_fit(5, 2, &[0, 4], 2), &[0, 0, 0, 3]),
        is("01 table 5 exact", exact(1, 1, &[0], full, 1), &[0, 0, 0, 0]),
        is("01 table 5 budget 0", exact(1, 1, &[0], 0, 1), &[0, 0, 0, 0]),
        is("01 table 6 First Fit", first_fit(1, 1, &[0, 0], 2), &[13, 1, 90, 91]),
        is("01 table 6 exact", exact(1, 1, &[0, 0], full, 2), &[14, 0, 2, 90, 91]),
        is("01 eight rows", exact(16, 2, &[0; 8], full, 8), &[0, 0, 49, 0, 2, 4, 6, 8, 10, 12, 14]),
        is(
            "01 nine rows",
            exact(18, 2, &[0; 9], full, 9),
            &[12, 0, 0, 90, 91, 92, 93, 94, 95, 96, 97, 98],
        ),
    ]
}

fn worked_others() -> Vec<Vector> {
    vec![
        // Request Two: "document 01's case of it changes so"
        reports("01 stretches", report(5, 2, &[0], &[1]), [3, 1, 3], [3, 1, 3]),
        is("01 collision", check(10, 2, FIRST, &[0, 2, 4]), &[0, 0, 0, 2, 2]),
        is(
            "01 file written",
            write(10, 2, FIRST, &[0, 2, 5], 13),
            &[0, 0, 13, 0x50, 0x4D, 0x41, 1, 10, 2, 3, 0, 0, 3, 2, 7, 5],
        ),
        is("01 file read", file_into(&file(FIRST_FILE), 3, 3), &[0, 0, 10, 2, 3, 0, 3, 7, 0, 2, 5]),
        body_refused("01 number AC 82 00", &[0xAC, 0x82, 0], 21, 4),
        is(
            "01 number AC 02",
            file_into(&file(&[0xAC, 2, 1, 1, 0, 0]), 1, 1),
            &[0, 0, 300, 1, 1, 0, 0],
        ),
        is(
            "01 16,777,215",
            file_into(&file(&[5, 1, 1, 255, 255, 255, 7, 0]), 1, 1),
            &[0, 0, 5, 1, 1, 16_777_215, 0],
        ),
        is("01 size 6 with period 5", check(5, 6, &[0], &[0]), &[6, 0, 0, 0, 0]),
        is("01 size 6 with period 5", first_fit(5, 6, &[0], 1), &[6, 0, 90]),
        text_refused("01 size 6 with period 5", b"pma 1\n5 6\n", 6, 6),
        body_refused("01 size 6 with period 5", &[5, 6], 6, 5),
        is("01 first table read", text_into(FIRST_TEXT.as_bytes(), 3), &[0, 0, 10, 2, 3, 0, 3, 7]),
        prints("01 program", FIRST_TEXT, "found 3\n0\n2\n5\n"),
        prints("01 newline lost", "pma 1\n10 2\n0\n37\nend 3\n", "refused 9 16\n"),
    ]
}

/// Document 01, "Errors a planner could fall into".
fn errors_to_avoid() -> Vec<Vector> {
    vec![
        is("01 over slot P-1", check(10, 2, &[0, 0], &[9, 0]), &[0, 0, 0, 1, 1]),
        is("01 over slot P-1", check(10, 2, &[9, 0], &[0, 5]), &[0, 0, 0, 0, 0]),
        is("01 over slot P-1", check(10, 2, &[9, 5], &[0, 5]), &[0, 0, 0, 1, 2]),
        is("01 contacts in crossing 2", exact(4, 1, &[0, 2, 1, 1], 16, 4), &[0, 0, 16, 0, 3, 1, 2]),
        rows_refused("01 last line cut", "0\n3\nend 2", 3, 15),
        rows_refused("01 last line cut", "0\n3\nend ", 3, 15),
    ]
}

// Readings A to G and O, the refusals of the plan file as request One gives them, stretches as
// request Two has them.

fn general() -> Vec<Vector> {
    vec![
        is("A1", check(10, 2, &[0], &[0, 0]), &[11, 0, 0, 0, 0]),
        is("A1 shorter", check(10, 2, &[0, 0], &[0]), &[11, 0, 0, 0, 0]),
        is("A1 report", report(10, 2, &[0], &[0, 0]), &[11, 0, 0, 0, 0, 0, 0, 0]),
        is("A1 writer", write(10, 2, &[0], &[0, 0], 2), &[11, 0, 0, 200, 201]),
        is("A2 tail", first_fit(10, 2, FIRST, 5), &[0, 0, 0, 2, 5, 93, 94]),
        is("A2 short", first_fit(10, 2, FIRST, 2), &[11, 0, 90, 91]),
        is("A2 tail", meta_offset(10, 2, FIRST, 4), &[0, 0, 0, 2, 6, 93]),
        is("A2 tail", exact(10, 2, FIRST, 3, 4), &[0, 0, 3, 0, 2, 5, 93]),
        is("A2 text short", text_into(FIRST_TEXT.as_bytes(), 2), &[11, 0, 0, 0, 0, 90, 91]),
        is("A2 text tail", text_into(FIRST_TEXT.as_bytes(), 4), &[0, 0, 10, 2, 3, 0, 3, 7, 93]),
        is(
            "A2 delays short",
            file_into(&file(FIRST_FILE), 2, 3),
            &[11, 0, 0, 0, 0, 90, 91, 70, 71, 72],
        ),
        is(
            "A2 offsets short",
            file_into(&file(FIRST_FILE), 3, 2),
            &[11, 0, 0, 0, 0, 90, 91, 92, 70, 71],
        ),
        is(
            "A2 file tails",
            file_into(&file(FIRST_FILE), 4, 5),
            &[0, 0, 10, 2, 3, 0, 3, 7, 93, 0, 2, 5, 73, 74],
        ),
        is("A6 collision has number 0", check(10, 2, &[0, 0], &[0, 1]), &[0, 0, 0, 1, 1]),
        is("A10 size 0", check(5, 0, &[0], &[0]), &[6, 0, 0, 0, 0]),
        is("A10 period and size 0", check(0, 0, &[0], &[0]), &[5, 0, 0, 0, 0]),
    ]
}

fn general_orders() -> Vec<Vector> {
    let big = 1 << 24;
    let nine_kept: Vec<u64> = (90..98).collect();
    vec![
        is(
            "A3 nine rows, eight lent",
            exact(18, 2, &[0; 9], 1, 8),
            &[&[11, 0, 0], &nine_kept[..]].concat(),
        ),
        is("A3 65 rows, one lent", first_fit(90, 1, &[0; 65], 1), &[8, 0, 90]),
        is("A3 offset bad and missing", check(10, 2, &[0, 0], &[10]), &[11, 0, 0, 0, 0]),
        is("A3 11 before 13", first_fit(1, 1, &[0, 0], 1), &[11, 0, 90]),
        is("A3 11 before 14", exact(1, 1, &[0, 0], 9, 1), &[11, 0, 0, 90]),
        is("A3 11 before 15", exact(1, 1, &[0, 0], 1, 1), &[11, 0, 0, 90]),
        is("A3 7 before 11", first_fit(10, 2, &[0, big], 1), &[7, 1, 90]),
        is("A4 65 rows", check(90, 1, &[big; 65], &[0; 65]), &[8, 0, 0, 0, 0]),
        is("A4 no rows", check(10, 2, &[], &[]), &[8, 0, 0, 0, 0]),
        text_refused("A4 text", after_64_rows("16777216\n").as_bytes(), 7, 139),
        is("A5 check", check(10, 2, &[0, big], &[99, 0]), &[7, 1, 0, 0, 0]),
        is("A5 records", records(10, 2, &[(0, 99), (big, 0)]), &[7, 1, 0, 0, 0]),
        body_refused("A5 file", &[10, 2, 2, 0, 99, 0x80, 0x80, 0x80, 8, 0], 17, 8),
        is("A8 no records", records(10, 2, &[]), &[8, 0, 0, 0, 0]),
        is("A9 any u32", check(u64::from(u32::MAX), 1, &[0], &[0]), &[5, 0, 0, 0, 0]),
        is("A9 any u32", check(10, u64::from(u32::MAX), &[0], &[0]), &[6, 0, 0, 0, 0]),
        is("A9 any u32", check(10, 1, &[u64::from(u32::MAX)], &[0]), &[7, 0, 0, 0, 0]),
        is("A9 any u32", check(10, 1, &[0], &[u64::from(u32::MAX)]), &[17, 0, 0, 0, 0]),
    ]
}

fn crossings() -> Vec<Vector> {
    vec![
        is("B1", check(10, 2, &[0, 13], &[0, 2]), &[0, 0, 0, 0, 0]),
        is("B1", check(10, 2, &[0, 18], &[0, 2]), &[0, 0, 0, 1, 2]),
        is("B1 file", file_into(&file(&[10, 2, 1, 13, 4]), 1, 1), &[0, 0, 10, 2, 1, 13, 4]),
        is(
            "B1 text",
            text_into(b"pma 1\n10 2\n16777215\nend 1\n", 1),
            &[0, 0, 10, 2, 1, 16_777_215],
        ),
        is("B2", first_fit(4, 1, &[0, 2, 1, 1], 4), &[13, 2, 90, 91, 92, 93]),
        is("B3", first_fit(3, 2, &[0, 0], 2), &[13, 1, 90, 91]),
        is("B3", first_fit(3, 2, &[0, 1], 2), &[13, 1, 90, 91]),
        is("B3", meta_offset(3, 2, &[7, 5], 2), &[13, 1, 90, 91]),
        is("B3 P = T", meta_offset(3, 3, &[7], 1), &[0, 0, 0]),
        is("B3 P = T", check(3, 3, &[7, 7], &[0, 1]), &[0, 0, 0, 1, 1]),
    ]
}

/// C1: tables on which taking the placed rows in the order of placing, not by row number,
/// gives another number of tests or other offsets. These numbers are long to count by hand: what
/// speaks for them is that the self-test's brute force gives the same.
fn step_order() -> Vec<Vector> {
    let full = u64::MAX;
    vec![
        is("C1", exact(11, 2, &[13, 12, 7, 2], full, 4), &[0, 0, 26, 0, 4, 2, 9]),
        is("C1", exact(15, 3, &[10, 27, 23, 4], full, 4), &[0, 0, 27, 0, 8, 5, 12]),
        is("C1", exact(5, 1, &[8, 3, 5, 4], full, 4), &[0, 0, 49, 0, 2, 1, 3]),
        is("C1", exact(10, 2, &[12, 13, 13, 17], 73, 4), &[0, 0, 73, 0, 3, 5, 7]),
        is("C1", exact(10, 2, &[12, 13, 13, 17], 72, 4), &[15, 0, 72, 90, 91, 92, 93]),
        is("C1", exact(6, 1, &[9, 3, 11, 0, 0], 314, 5), &[0, 0, 314, 0, 4, 1, 5, 2]),
        is("C1", exact(6, 1, &[9, 3, 11, 0, 0], 313, 5), &[15, 0, 313, 90, 91, 92, 93, 94]),
        is("C1", exact(18, 3, &[16, 33, 15, 10, 30], full, 5), &[0, 0, 265, 0, 6, 9, 3, 15]),
        is("C1", exact(8, 1, &[0, 8, 15, 12, 13, 12], full, 6), &[0, 0, 336, 0, 1, 6, 2, 5, 7]),
        is("C1", exact(14, 2, &[0, 14, 14, 24, 22, 12], 272, 6), &[0, 0, 272, 0, 2, 6, 8, 4, 10]),
    ]
}

fn exact_planner() -> Vec<Vector> {
    let ceilings = [0, 0, 2, 20, 342, 10_472, 509_930, 36_086_652, 3_493_657_790, 0, 0, 0, 0, 0];
    let mut vectors: Vec<Vector> = ceilings
        .iter()
        .enumerate()
        .map(|(rows, &value)| is("C6", Case::Ceiling { rows: rows as u64 }, &[value]))
        .collect();
    let most = u64::from(u32::MAX);
    vectors.extend([
        is("C6", Case::Ceiling { rows: 64 }, &[0]),
        is("C6", Case::Ceiling { rows: most }, &[0]),
        is("C4 budget 2", exact(10, 2, FIRST, 2, 3), &[15, 0, 2, 90, 91, 92]),
        is("C4 budget 3", exact(10, 2, FIRST, 3, 3), &[0, 0, 3, 0, 2, 5]),
        is("C4 budget 4", exact(10, 2, FIRST, 4, 3), &[0, 0, 3, 0, 2, 5]),
        is("C4 budget 0, one row", exact(7, 3, &[5], 0, 1), &[0, 0, 0, 0]),
        is("C4 budget 0, two rows", exact(7, 3, &[5, 5], 0, 2), &[15, 0, 0, 90, 91]),
        is("C4 budget 15", exact(3, 1, &[0, 0, 1], 15, 3), &[15, 0, 15, 90, 91, 92]),
        is("C5 14", exact(3, 1, &[0, 0, 1], 17, 3), &[14, 0, 16, 90, 91, 92]),
        is("C9 65 rows", exact(90, 1, &[0; 65], 5, 0), &[8, 0, 0]),
        is(
            "C9 12",
            exact(90, 1, &[0; 10], 0, 10),
            &[12, 0, 0, 90, 91, 92, 93, 94, 95, 96, 97, 98, 99],
        ),
    ]);
    vectors
}

fn checker_and_report() -> Vec<Vector> {
    let meeting = [10, 2, 4, 0, 0, 0, 5, 0, 5, 0, 0];
    vec![
        is("D1", check(10, 2, &[0; 4], &[0, 5, 5, 0]), &[0, 0, 1, 2, 1]),
        is("D1 records", records(10, 2, &[(0, 0), (0, 5), (0, 5), (0, 0)]), &[0, 0, 1, 2, 1]),
        body_refused("D2 reader", &meeting, 18, 2),
        is("D2 report", report(10, 2, &[0; 4], &[0, 5, 5, 0]), &[18, 2, 0, 0, 0, 0, 0, 0]),
        is("D2 writer", write(10, 2, &[0; 4], &[0, 5, 5, 0], 1), &[18, 2, 0, 200]),
        reports("D3", report(10, 2, &[3], &[0]), [8, 1, 8], [8, 1, 8]),
        reports("D3 crossing 1 first", report(10, 2, &[0, 1], &[0, 2]), [6, 1, 6], [6, 2, 5]),
        reports("D3 crossing 1 first", report(10, 2, &[1, 0], &[0, 3]), [6, 2, 5], [6, 1, 6]),
        reports("D4", report(4, 2, &[0, 0], &[0, 2]), [0, 0, 0], [0, 0, 0]),
        reports("D4", report(1, 1, &[9], &[0]), [0, 0, 0], [0, 0, 0]),
        reports("D5 since Two", report(5, 2, &[0], &[1]), [3, 1, 3], [3, 1, 3]),
    ]
}

fn text_ends() -> Vec<Vector> {
    vec![
        text_refused("E1", b"xyz", 3, 0),
        text_refused("E1", b"pma 1\n10 x", 3, 6),
        text_refused("E1", b"pma 1", 3, 0),
        text_refused("E2", b"pma 1\n10 2\n1\n", 3, 13),
        text_refused("E2", b"pma 1\n10 2\n", 3, 11),
        text_refused("E2", b"pma 1\n", 3, 6),
        text_refused("E2", b"", 3, 0),
        text_refused("E10", &[b'x'; 1025], 1, 0),
        text_refused("E10", &[10; 1025], 1, 0),
        text_refused("E10", &[b'x'; 1024], 3, 0),
        text_refused("E10", &[10; 1024], 2, 0),
        text_refused("E14", b"end 3\n", 2, 0),
        text_refused("E14", b"pma 1\nend 3\n", 4, 6),
        text_refused("E15", b"\n", 2, 0),
        text_refused("E15", b"pma 1\n\n", 4, 6),
        rows_refused("E15", "\n", 4, 11),
        rows_refused("E15", "1\n\nend 1\n", 4, 13),
        text_refused("E11 return", b"pma 1\r\n10 2\r\n", 2, 0),
        text_refused("E11 BOM", b"\xEF\xBB\xBFpma 1\n", 2, 0),
        text_refused("E11 return", b"pma 1\n10 2\r\n", 4, 6),
        rows_refused("E11 tab", "\t1\n", 4, 11),
        rows_refused("E11 NUL", "1\0\n", 4, 11),
        text_refused("E11 high byte", b"pma 1\n10 2\n1\xB2\n", 4, 11),
        rows_refused("E11 return", "1\nend 1\r\n", 4, 13),
    ]
}

fn text_line_two() -> Vec<Vector> {
    let line_two = |name, line: &str, number| {
        text_refused(name, format!("pma 1\n{line}\n").as_bytes(), number, 6)
    };
    vec![
        line_two("E3", "0 x", 4),
        line_two("E3", "0 0", 5),
        line_two("E3", "0 1", 5),
        line_two("E3", "1000001 1", 5),
        line_two("E3", "10 11", 6),
        line_two("E3", "10 0", 6),
        line_two("E3", "10  2", 4),
        line_two("E3", "10 2 ", 4),
        line_two("E3", " 10 2", 4),
        line_two("E3", "10", 4),
        line_two("E3", "10 2 0", 4),
        line_two("E3", "10 02", 4),
        line_two("E3", "010 2", 4),
        line_two("E4", "end 0", 4),
        line_two("E8", "12345678 1", 5),
        line_two("E8", "123456789 1", 4),
        line_two("E8", "10 99999999", 6),
        line_two("E8", "10 100000000", 4),
    ]
}

fn text_end_line() -> Vec<Vector> {
    vec![
        rows_refused("E5", "1\nend\n", 4, 13),
        rows_refused("E5", "1\nend3\n", 4, 13),
        rows_refused("E5", "1\nEnd 3\n", 4, 13),
        rows_refused("E5", "end x\n", 4, 11),
        rows_refused("E5", "end 0\n", 8, 11),
        rows_refused("E5", "end 7\n", 8, 11),
        rows_refused("E6", "1\nend 123456789\n", 4, 13),
        rows_refused("E6", "1\n2\n3\nend 03\n", 4, 17),
        rows_refused("E6", "1\n2\n3\nend 3 \n", 4, 17),
        rows_refused("E6", "1\n2\n3\nend  3\n", 4, 17),
        rows_refused("E6", "1\nend \n", 4, 13),
        rows_refused("E6", "1\nend 99999999\n", 9, 13),
        rows_refused("E6", "1\nend 0\n", 9, 13),
        rows_refused("E7", "1\nend 1\n\n", 10, 19),
        rows_refused("E7", "1\nend 1\nx", 10, 19),
        rows_refused("E7", "1\nend 2\n\n", 9, 13),
        rows_refused("E7", "end 0\nx", 8, 11),
        rows_refused("E12 fault before 11", "1\n2\n3\nend 2\n", 9, 17),
        rows_refused("E12 fault before 11", "1\n2\n3\nend 3\n\n", 10, 23),
        rows_refused("E12 11", "1\n2\n3\nend 3\n", 11, 0),
        is("E12 enough", text_into(b"pma 1\n10 2\n1\n2\nend 2\n", 2), &[0, 0, 10, 2, 2, 1, 2]),
    ]
}

fn text_numbers() -> Vec<Vector> {
    vec![
        rows_refused("E8", "123456789\n", 4, 11),
        rows_refused("E8", "000000001\n", 4, 11),
        rows_refused("E8", "16777216\n", 7, 11),
        rows_refused("E8", "99999999\n", 7, 11),
        rows_refused("E8", "1\n16777216\n", 7, 13),
        rows_refused("E8", "00\n", 4, 11),
        rows_refused("E8", "-1\n", 4, 11),
        rows_refused("E8", "+1\n", 4, 11),
        rows_refused("E8", "1.0\n", 4, 11),
        text_refused("E9", after_64_rows("16777216\n").as_bytes(), 7, 139),
        text_refused("E9", after_64_rows("5\n").as_bytes(), 8, 139),
        text_refused("E9", after_64_rows("x\n").as_bytes(), 4, 139),
        text_refused("E9", after_64_rows("5").as_bytes(), 3, 139),
        text_refused("E9", after_64_rows("end 65\n").as_bytes(), 9, 139),
        text_refused("E9", after_64_rows("end 64\n").as_bytes(), 11, 0),
    ]
}

fn text_limits() -> Vec<Vector> {
    let padded = |length: usize| {
        let mut text = FIRST_TEXT.as_bytes().to_vec();
        text.resize(length, b'7');
        text
    };
    let at_limits = "pma 1\n1000000 1000000\n16777215\nend 1\n";
    vec![
        text_refused("E10", &padded(1024), 10, 23),
        text_refused("E10", &padded(1025), 1, 0),
        is(
            "01 limits",
            text_into(at_limits.as_bytes(), 1),
            &[0, 0, 1_000_000, 1_000_000, 1, 16_777_215],
        ),
    ]
}

/// Texts with a list of four, which stays as it was where they are refused.
fn texts_with_four_lent() -> Vec<Vector> {
    let texts: [(&str, &[u8], u64, u64); 21] = [
        ("01 newline lost", b"pma 1\n10 2\n0\n37\nend 3\n", 9, 16),
        ("E1", b"pma 1\n10 2\n0\n3\n7\nend 3", 3, 17),
        ("E3", b"pma 1\n5 0\n", 6, 6),
        ("E5", b"pma 1\n10 2\n1\nend1\n", 4, 13),
        ("E5", b"pma 1\n10 2\n1\nEnd 1\n", 4, 13),
        ("E6", b"pma 1\n10 2\n1\nend 01\n", 4, 13),
        ("E6", b"pma 1\n10 2\n1\nend 1 \n", 4, 13),
        ("E7", b"pma 1\n10 2\n0\n3\n7\nend 3\nx", 10, 23),
        ("E7", b"pma 1\n10 2\n0\n3\n7\nend 3\n\n", 10, 23),
        ("E7", b"pma 1\n10 2\n0\n3\n7\nend 2\nx", 9, 17),
        ("E8 nine digits", b"pma 1\n10 2\n123456789\nend 1\n", 4, 11),
        ("E8", b"pma 1\n10 2\n16777216\nend 1\n", 7, 11),
        ("E8", b"pma 1\n10 2\n99999999\nend 1\n", 7, 11),
        ("E8 period", b"pma 1\n10000000 2\n1\nend 1\n", 5, 6),
        ("E8 leading zero", b"pma 1\n10 2\n01\nend 1\n", 4, 11),
        ("E11 return", b"pma 1\r\n10 2\r\n1\r\nend 1\r\n", 2, 0),
        ("E11 tab", b"pma 1\n10\t2\n", 4, 6),
        ("E11 high byte", b"pma 1\n10 2\n\xFF\n", 4, 11),
        ("E11 BOM", b"\xEF\xBB\xBFpma 1\n10 2\n1\nend 1\n", 2, 0),
        ("E14", b"end 3\n", 2, 0),
        ("E15", b"pma 1\n10 2\n\n", 4, 11),
    ];
    let mut vectors: Vec<Vector> = texts
        .iter()
        .map(|&(name, text, number, place)| {
            is(name, text_into(text, 4), &[number, place, 0, 0, 0, 90, 91, 92, 93])
        })
        .collect();
    vectors.extend([
        is(
            "E8 eight digits",
            text_into(b"pma 1\n10 2\n16777215\nend 1\n", 4),
            &[0, 0, 10, 2, 1, 16_777_215, 91, 92, 93],
        ),
        rows_refused("E12 fault before 11", "0\n37\nend 3\n", 9, 16),
        rows_refused("E12 fault before 11", "0\n3\n7\nend 3\nx", 10, 23),
        is("E12 enough", text_into(b"pma 1\n10 2\n0\n3\nend 2\n", 2), &[0, 0, 10, 2, 2, 0, 3]),
    ]);
    vectors
}

/// The 65th line behind line two, with a list of 65.
fn texts_of_64_rows() -> Vec<Vector> {
    let text = |rest: &str| format!("pma 1\n10 2\n{}{rest}", "1\n".repeat(64)).into_bytes();
    let kept: Vec<u64> = (90..155).collect();
    let refused = |rest, number| {
        let answer = [&[number, 139, 0, 0, 0], &kept[..]].concat();
        is("E9", text_into(&text(rest), 65), &answer)
    };
    let rows = [&[0, 0, 10, 2, 64][..], &[1; 64], &[154]].concat();
    vec![
        refused("16777216\n", 7),
        refused("5\n", 8),
        refused("x\n", 4),
        refused("5", 3),
        is("E9", text_into(&text("end 64\n"), 65), &rows),
    ]
}

fn plan_file_numbers() -> Vec<Vector> {
    vec![
        body_refused("F1", &[0], 5, 4),
        body_refused("F1", &[10, 11], 6, 5),
        body_refused("F1", &[10, 2, 0], 8, 6),
        body_refused("F1", &[10, 2, 65], 8, 6),
        body_refused("F2", &[], 19, 4),
        body_refused("F2", &[10], 19, 5),
        body_refused("F2", &[10, 2], 19, 6),
        body_refused("F2", &[10, 2, 1], 19, 7),
        body_refused("F2", &[10, 2, 1, 0], 19, 8),
        body_refused("F2", &[10, 2, 2, 0, 0], 19, 9),
        body_refused("F2 cut in a number", &[10, 2, 1, 0x80], 19, 7),
        body_refused("F2 cut in a number", &[0x80, 0x80, 0x80], 19, 4),
        file_refused("F3", b"", 19, 0),
        file_refused("F3", b"P", 19, 0),
        file_refused("F3", b"PMA", 19, 0),
        file_refused("F3", b"PMA\0", 16, 0),
        file_refused("F3", b"PMA\x02\x0A\x02\x01\0\0", 16, 0),
        file_refused("F3", b"pma\x01\x0A\x02\x01\0\0", 16, 0),
        body_refused("F4", &[255, 255, 255, 0x7F], 5, 4),
        body_refused("F4", &[10, 2, 1, 255, 255, 255, 0x7F], 7, 7),
        body_refused("F4 five bytes", &[255, 255, 255, 255, 1], 20, 4),
        body_refused("F4 five bytes", &[10, 2, 1, 0x81, 0x80, 0x80, 0x80, 0], 20, 7),
        body_refused("F5", &[0x80, 0], 21, 4),
        body_refused("F5", &[10, 2, 1, 0x80, 0, 0], 21, 7),
        body_refused("F5", &[10, 2, 1, 0x80, 0x80, 0, 0], 21, 7),
        body_refused("F5", &[10, 2, 1, 0xAC, 0x82, 0, 0], 21, 7),
        body_refused("F5", &[10, 2, 1, 0x80, 0x80, 0x80, 0, 0], 21, 7),
        is(
            "F5 16384",
            file_into(&file(&[10, 2, 1, 0x80, 0x80, 1, 0]), 1, 1),
            &[0, 0, 10, 2, 1, 16_384, 0],
        ),
        is("F5 00", file_into(&file(&[10, 2, 1, 0, 0]), 1, 1), &[0, 0, 10, 2, 1, 0, 0]),
    ]
}

fn plan_file_orders() -> Vec<Vector> {
    vec![
        body_refused("F6 left over, 18", &[10, 2, 2, 0, 0, 0, 1, 9], 22, 11),
        body_refused("F6 left over", &[10, 2, 1, 0, 0, 0], 22, 9),
        body_refused("F6 left over", &[10, 2, 1, 0, 0, 0x80], 22, 9),
        body_refused("F6 18", &[10, 2, 2, 0, 0, 0, 1], 18, 1),
        body_refused("F6 18 before 11", &[10, 2, 3, 0, 0, 0, 5, 0, 1], 18, 2),
        body_refused("F6 11", FIRST_FILE, 11, 0),
        body_refused("F6 left over before 11", &[FIRST_FILE, &[0]].concat(), 22, 13),
        body_refused("F7", &[10, 2, 64], 19, 7),
        body_refused("F1 17", &[10, 2, 1, 0, 10], 17, 8),
        body_refused("F1 7", &[10, 2, 1, 0x80, 0x80, 0x80, 8, 99], 7, 7),
    ]
}

/// Files with lists of four that stay as they were.
fn files_with_four_lent() -> Vec<Vector> {
    let files: [(&str, &[u8], u64, u64); 17] = [
        ("F3 other tag", b"PXA\x01\x0A\x02\x01\0\0", 16, 0),
        ("F2 cut in the period", b"PMA\x01\x80\x80", 19, 4),
        ("F2 last number cut", b"PMA\x01\x0A\x02\x03\0\0\x03\x02\x07", 19, 12),
        ("F5 80 00", b"PMA\x01\x80\0\x02\x01\0\0", 21, 4),
        ("F5 80 80 00", b"PMA\x01\x80\x80\0\x02\x01\0\0", 21, 4),
        ("F5 AC 82 00", b"PMA\x01\xAC\x82\0\x02\x01\0\0", 21, 4),
        ("F5 AC 82 00 as size", b"PMA\x01\x0A\xAC\x82\0\x01\0\0", 21, 5),
        ("F5 80 80 80 00", b"PMA\x01\x80\x80\x80\0\x02\x01\0\0", 21, 4),
        ("F4 five bytes", b"PMA\x01\x80\x80\x80\x80\x01\x02\x01\0\0", 20, 4),
        ("F4 FF FF FF 7F", b"PMA\x01\xFF\xFF\xFF\x7F\x02\x01\0\0", 5, 4),
        ("01 size 6 with period 5", b"PMA\x01\x05\x06\x01\0\0", 6, 5),
        ("F1 size 0", b"PMA\x01\x05\0\x01\0\0", 6, 5),
        ("F1 delay 2^24", b"PMA\x01\x0A\x02\x01\x80\x80\x80\x08\0", 7, 7),
        ("F6 left over", b"PMA\x01\x0A\x02\x03\0\0\x03\x02\x07\x05\0", 22, 13),
        ("F6 left over, 18", b"PMA\x01\x0A\x02\x02\0\0\0\x01\0", 22, 11),
        ("F6 18", b"PMA\x01\x0A\x02\x02\0\0\0\x01", 18, 1),
        ("D2 reader", b"PMA\x01\x0A\x02\x04\0\0\0\x05\0\x05\0\0", 18, 2),
    ];
    let mut vectors: Vec<Vector> = files
        .iter()
        .map(|&(name, bytes, number, place)| {
            let answer = [number, place, 0, 0, 0, 90, 91, 92, 93, 70, 71, 72, 73];
            is(name, file_into(bytes, 4, 4), &answer)
        })
        .collect();
    vectors.push(is(
        "F6 18 before 11",
        file_into(&file(&[10, 2, 2, 0, 0, 0, 1]), 1, 3),
        &[18, 1, 0, 0, 0, 90, 70, 71, 72],
    ));
    vectors
}

/// Files of one row, with lists of four that keep their tails.
fn files_accepted() -> Vec<Vector> {
    let files: [(&str, &[u8], u64, u64); 3] = [
        ("01 AC 02", b"PMA\x01\xAC\x02\x02\x01\0\0", 300, 0),
        ("F5 80 80 01", b"PMA\x01\x80\x80\x01\x02\x01\0\0", 16_384, 0),
        ("01 FF FF FF 07", b"PMA\x01\x0A\x02\x01\xFF\xFF\xFF\x07\0", 10, 16_777_215),
    ];
    files
        .iter()
        .map(|&(name, bytes, period, delay)| {
            let answer = [0, 0, period, 2, 1, delay, 91, 92, 93, 0, 71, 72, 73];
            is(name, file_into(bytes, 4, 4), &answer)
        })
        .collect()
}

fn writer() -> Vec<Vector> {
    let plan: [u64; 3] = [0, 2, 5];
    let short: Vec<u64> = (200..212).collect();
    let bytes = [0x50, 0x4D, 0x41, 1, 10, 2, 3, 0, 0, 3, 2, 7, 5];
    vec![
        is("A2 writer short", write(10, 2, FIRST, &plan, 12), &[&[11, 0, 0], &short[..]].concat()),
        is("A2 writer exact", write(10, 2, FIRST, &plan, 13), &[&[0, 0, 13], &bytes[..]].concat()),
        is(
            "A2 writer tail",
            write(10, 2, FIRST, &plan, 15),
            &[&[0, 0, 13], &bytes[..], &[213, 214]].concat(),
        ),
        is("F10 11 before 17", write(10, 2, &[0, 0], &[10], 0), &[11, 0, 0]),
        is("F10 17 before output", write(10, 2, &[0, 0], &[0, 10], 0), &[17, 1, 0]),
        is("F10 18 before output", write(10, 2, &[0, 0], &[0, 9], 0), &[18, 1, 0]),
        is("F10 output", write(10, 2, &[0, 0], &[0, 8], 0), &[11, 0, 0]),
        is("A5 writer 7 before 17", write(10, 2, &[0, 1 << 24], &[99, 0], 0), &[7, 1, 0]),
        is(
            "01 300 is AC 02",
            write(300, 1, &[16_777_215], &[128], 15),
            &[0, 0, 14, 0x50, 0x4D, 0x41, 1, 0xAC, 2, 1, 1, 255, 255, 255, 7, 0x80, 1, 214],
        ),
    ]
}

/// The writer's order, with a buffer of fifteen that stays as it was.
fn writer_orders() -> Vec<Vector> {
    let kept: Vec<u64> = (200..215).collect();
    let refused =
        |name, case, number, place| is(name, case, &[&[number, place, 0], &kept[..]].concat());
    let bad = [0, 99, 5];
    let short = [99, 0];
    let meeting = [0, 2, 4];
    vec![
        refused("F10 period 0", write(0, 2, FIRST, &bad, 15), 5, 0),
        refused("F10 size 6", write(5, 6, FIRST, &bad, 15), 6, 0),
        refused("F10 no rows", write(10, 2, &[], &bad, 15), 8, 0),
        refused("F10 65 rows", write(10, 2, &[0; 65], &bad, 15), 8, 0),
        refused("F10 7 before 17", write(10, 2, &[0, 1 << 24], &short, 15), 7, 1),
        refused("F10 11 before 17", write(10, 2, FIRST, &short, 15), 11, 0),
        refused("F10 11 before 17", write(10, 2, &FIRST[..2], &bad, 15), 11, 0),
        refused("F10 17", write(10, 2, FIRST, &bad, 15), 17, 1),
        refused("F10 18", write(10, 2, FIRST, &meeting, 15), 18, 2),
        is("F10 18", write(10, 2, FIRST, &meeting, 4), &[18, 2, 0, 200, 201, 202, 203]),
        is(
            "01 300 is AC 02",
            write(300, 2, &[16_777_215], &[299], 15),
            &[0, 0, 14, 0x50, 0x4D, 0x41, 1, 0xAC, 2, 2, 1, 255, 255, 255, 7, 0xAB, 2, 214],
        ),
    ]
}

/// The longest file of a clear plan, written and read back: sixty-four rows of seven bytes, 128
/// slots from each to the next.
fn longest_file() -> Vec<Vector> {
    let delays = [16_777_215; 64];
    let offsets: Vec<u64> = (0..64).map(|row| 16_384 + 128 * row).collect();
    let mut file = b"PMA\x01\xC0\x84\x3D\x80\x01\x40".to_vec();
    for row in 0..64 {
        file.extend([0xFF, 0xFF, 0xFF, 7, 0x80, 0x80 + row, 1]);
    }
    let bytes: Vec<u64> = file.iter().map(|&byte| u64::from(byte)).collect();
    let written = [&[0, 0, 458], &bytes[..]].concat();
    let read = [&[0, 0, 1_000_000, 128, 64], &delays[..], &offsets].concat();
    vec![
        is("F9", write(1_000_000, 128, &delays, &offsets, 458), &written),
        is("F9", file_into(&file, 64, 64), &read),
    ]
}

fn program() -> Vec<Vector> {
    let nine = format!("pma 1\n18 2\n{}end 9\n", "0\n".repeat(9));
    let sixty_four = after_64_rows("end 64\n");
    vec![
        prints("G1", FIRST_TEXT, "found 3\n0\n2\n5\n"),
        prints("G1", "pma 1\n3 1\n0\n0\n1\nend 3\n", "none 16\n"),
        prints("G1", "pma 1\n1 1\n0\nend 1\n", "found 0\n0\n"),
        prints("G1", "pma 1\n1 1\n0\n0\nend 2\n", "none 2\n"),
        prints("G1", "pma 1\n4 1\n0\n2\n1\n1\nend 4\n", "found 16\n0\n3\n1\n2\n"),
        prints("G1", "pma 1\n10 2\n0\n37\nend 3\n", "refused 9 16\n"),
        prints("G2", &"x".repeat(1025), "refused 1 0\n"),
        prints("G2", &"x".repeat(1100), "refused 1 0\n"),
        prints("G2", &"x".repeat(1024), "refused 3 0\n"),
        prints("G2", "", "refused 3 0\n"),
        prints("G4", &nine, "refused 12 0\n"),
        prints("G4", &sixty_four, "refused 12 0\n"),
        prints("G5", &after_64_rows("5\nend 65\n"), "refused 8 139\n"),
    ]
}

// Document 02, request One, and readings H.

/// "tag wrong" comes first, also in a short file; "A short file whose bytes so far agree with
/// the tag counts as cut."
fn tags_wrong_or_cut() -> Vec<Vector> {
    vec![
        file_refused("H1 two bytes that agree: cut", b"PM", 19, 0),
        file_refused("H1 first byte wrong", b"X", 16, 0),
        file_refused("H1 first byte wrong: small letter", b"p", 16, 0),
        file_refused("H1 first byte wrong: its top bit", b"\xD0", 16, 0),
        file_refused("H1 second of two wrong", b"PX", 16, 0),
        file_refused("H1 first of two wrong", b"XM", 16, 0),
        file_refused("H1 third of three wrong", b"PMX", 16, 0),
        file_refused("H1 first of three wrong", b"QMA", 16, 0),
        file_refused("H1 third byte missing, the fourth in its place", b"PM\x01", 16, 0),
        file_refused("H1 first byte lost", b"MA\x01\x0A\x02\x01\0\0", 16, 0),
        file_refused("H4 fourth byte 02", b"PMA\x02", 16, 0),
        file_refused("H4 fourth byte 03", b"PMA\x03", 16, 0),
        file_refused("H4 fourth byte 81", b"PMA\x81", 16, 0),
        file_refused("H4 fourth byte 00, the rest right", b"PMA\0\x0A\x02\x01\0\0", 16, 0),
        file_refused("H4 fourth byte 03, the rest right", b"PMA\x03\x0A\x02\x01\0\0", 16, 0),
        file_refused("16 before 19 of a number", b"PMA\0\x80", 16, 0),
        file_refused("16 before 20", b"PXA\x01\x80\x80\x80\x80", 16, 0),
        file_refused("16 before 21", b"XMA\x01\x80\0", 16, 0),
        file_refused("16 before 5", b"PMX\x01\0", 16, 0),
        file_refused("16 before 22", b"PMA\x02\x0A\x02\x01\0\0\0", 16, 0),
    ]
}

/// "bytes end inside the tag or a number of fewer than four bytes so far, a fourth byte with
/// its top bit set"
fn numbers_cut_or_too_long() -> Vec<Vector> {
    vec![
        body_refused("H2 one byte with top bit, then the end", &[0xAC], 19, 4),
        body_refused("H2 two bytes with top bit, then the end", &[0xAC, 0x82], 19, 4),
        body_refused("H2 three bytes with top bit, then the end", &[255, 255, 255], 19, 4),
        body_refused("H2 four at the very end: 20, not 19", &[0x80, 0x80, 0x80, 0x80], 20, 4),
        body_refused("H2 four at the very end: 20, not 19", &[255, 255, 255, 255], 20, 4),
        body_refused("H2 five with top bit", &[0x80, 0x80, 0x80, 0x80, 0x80], 20, 4),
        body_refused("H2 a zero as fifth byte: 20, not 21", &[0x80, 0x80, 0x80, 0x80, 0], 20, 4),
        body_refused("H2 a fifth byte that ends: 20", &[0x8A, 0x80, 0x80, 0x80, 1, 2, 1], 20, 4),
        body_refused(
            "H2 the right number follows: 20",
            &[255, 255, 255, 255, 7, 2, 1, 0, 0],
            20,
            4,
        ),
        body_refused("H2 in the last number: 20", &[10, 2, 1, 0, 0x80, 0x80, 0x80, 0x80, 5], 20, 8),
    ]
}

/// "number with a needless zero group"
fn numbers_with_needless_groups() -> Vec<Vector> {
    vec![
        body_refused("H2 80 80 80 00 at the end: 21", &[0x80, 0x80, 0x80, 0], 21, 4),
        body_refused("H2 FF FF FF 00 at the end: 21", &[255, 255, 255, 0], 21, 4),
        body_refused("F5 80 80 00 at the end: 21", &[0x80, 0x80, 0], 21, 4),
        body_refused("10 in two bytes", &[0x8A, 0, 2, 1, 0, 0], 21, 4),
        body_refused("21 with a cut number behind it", &[0x80, 0x80, 0x80, 0, 0x80], 21, 4),
        body_refused("21 before a number too long", &[0x80, 0, 0x80, 0x80, 0x80, 0x80], 21, 4),
        body_refused("a zero group, then another: 21", &[0x8A, 0x80, 0, 2, 1, 0, 0], 21, 4),
        body_refused("21 in the last number", &[10, 2, 1, 0, 0x85, 0], 21, 8),
        body_refused("21 in the last number, 5 behind it", &[10, 2, 1, 0, 0x80, 0, 5], 21, 8),
        is(
            "a zero group that is not the last",
            file_into(&file(&[10, 2, 1, 0x80, 0x80, 0x80, 1, 0]), 1, 1),
            &[0, 0, 10, 2, 1, 2_097_152, 0],
        ),
    ]
}

/// H3: the form of a number comes before its own range.
fn form_before_range() -> Vec<Vector> {
    vec![
        body_refused("period 0 in three bytes, 21 not 5", &[0x80, 0x80, 0, 2, 1, 0, 0], 21, 4),
        body_refused("size 0 in two bytes, 21 not 6", &[10, 0x80, 0, 1, 0, 0], 21, 5),
        body_refused("size 11 in two bytes, 21 not 6", &[10, 0x8B, 0, 1, 0, 0], 21, 5),
        body_refused("size too long, 20 not 6", &[10, 255, 255, 255, 255, 1], 20, 5),
        body_refused("n of 0 in two bytes, 21 not 8", &[10, 2, 0x80, 0], 21, 6),
        body_refused("n of 65 in two bytes, 21 not 8", &[10, 2, 0xC1, 0], 21, 6),
        body_refused("delay too long, 20 not 7", &[10, 2, 1, 255, 255, 255, 255, 0x7F, 0], 20, 7),
        body_refused("delay cut, 19 not 7", &[10, 2, 1, 255, 255, 255], 19, 7),
        body_refused("offset 10 in two bytes, 21 not 17", &[10, 2, 1, 0, 0x8A, 0], 21, 8),
        body_refused("offset cut, 19 not 17", &[10, 2, 1, 0, 0x8A], 19, 8),
        body_refused("four bytes of right form, 5", &[0x80, 0x80, 0x80, 1], 5, 4),
    ]
}

/// H3: "form (19, 20, 21) of a number, then 5/6/26/8/7/17, then the next number"
fn range_before_the_next_form() -> Vec<Vector> {
    vec![
        body_refused("period 0, then a cut size: 5", &[0, 0x80], 5, 4),
        body_refused("period 0, then a size too long: 5", &[0, 0x80, 0x80, 0x80, 0x80], 5, 4),
        body_refused("period 0, then a needless group: 5", &[0, 0x82, 0], 5, 4),
        body_refused("period 1,000,001, then the end: 5", &[0xC1, 0x84, 0x3D], 5, 4),
        body_refused("period 1,000,000, then the end: 19", &[0xC0, 0x84, 0x3D], 19, 7),
        body_refused("size 0, then a cut n: 6", &[10, 0, 0x80], 6, 5),
        body_refused("size 11, then an n too long: 6", &[10, 11, 0x80, 0x80, 0x80, 0x80], 6, 5),
        body_refused("n of 0 and a row: 8, not 22", &[10, 2, 0, 0, 0], 8, 6),
        body_refused("n of 0, then a needless group: 8", &[10, 2, 0, 0x80, 0], 8, 6),
        body_refused("n of 65, then a cut delay: 8", &[10, 2, 65, 0x80], 8, 6),
        body_refused("delay 2^24, then the end: 7", &[10, 2, 1, 0x80, 0x80, 0x80, 8], 7, 7),
        body_refused("delay 2^24, cut offset: 7", &[10, 2, 1, 0x80, 0x80, 0x80, 8, 0x80], 7, 7),
        body_refused("offset 10, then the end: 17", &[10, 2, 2, 0, 10], 17, 8),
        body_refused("offset 10, needless group: 17", &[10, 2, 2, 0, 10, 0x80, 0], 17, 8),
        body_refused("last offset 10, left over: 17, not 22", &[10, 2, 1, 0, 10, 9], 17, 8),
    ]
}

/// "bytes left over" are judged behind the last number, before 18 and 11, whatever they are.
fn bytes_left_over() -> Vec<Vector> {
    let good = [10, 2, 1, 0, 0];
    let behind = |name, bytes: &[u8]| body_refused(name, &[&good, bytes].concat(), 22, 9);
    vec![
        behind("left over bytes that are no number", &[0x80, 0x80, 0x80, 0x80]),
        behind("left over bytes with a needless group", &[0x80, 0]),
        behind("left over bytes of one more row", &[3, 5]),
        behind("left over: the tag once more", b"PMA\x01"),
        behind("left over: a whole file once more", b"PMA\x01\x0A\x02\x01\0\0"),
        body_refused("n one too small: 22", &[10, 2, 2, 0, 0, 3, 2, 7, 5], 22, 11),
        body_refused("n one too large: 19", &[10, 2, 4, 0, 0, 3, 2, 7, 5], 19, 13),
        body_refused(
            "not clear, two bytes left over: 22, not 18",
            &[10, 2, 2, 0, 0, 0, 1, 0x80, 0],
            22,
            11,
        ),
        is(
            "not clear, lists too short, left over: 22, not 18 or 11",
            file_into(&file(&[10, 2, 2, 0, 0, 0, 1, 9]), 0, 1),
            &[22, 11, 0, 0, 0, 70],
        ),
        is(
            "lists too short, cut: 19, not 11",
            file_into(&file(&[10, 2, 2, 0, 0, 0]), 0, 0),
            &[19, 10, 0, 0, 0],
        ),
    ]
}

/// The file of period 300, size 2, two rows, delays (5 300), offsets (0 128): the bytes before
/// each of its seven numbers are right, then the number has one of these faults.
fn every_fault_at_every_number() -> Vec<Vector> {
    // Bytes before period, size, n, delay 0, offset 0, delay 1 and offset 1, and the place.
    let fronts: [(&[u8], u64); 7] = [
        (&[], 4),
        (&[0xAC, 2], 6),
        (&[0xAC, 2, 2], 7),
        (&[0xAC, 2, 2, 2], 8),
        (&[0xAC, 2, 2, 2, 5], 9),
        (&[0xAC, 2, 2, 2, 5, 0], 10),
        (&[0xAC, 2, 2, 2, 5, 0, 0xAC, 2], 12),
    ];
    let faults: [(&str, &[u8], u64); 7] = [
        ("cut before its first byte", &[], 19),
        ("cut behind its first byte", &[0x81], 19),
        ("cut behind its third byte", &[0x81, 0x80, 0x80], 19),
        ("four bytes with top bit at the end", &[0x81, 0x80, 0x80, 0x80], 20),
        ("five bytes", &[0x81, 0x80, 0x80, 0x80, 0, 5, 0], 20),
        ("1 in two bytes", &[0x81, 0, 1, 0, 5], 21),
        ("1 in four bytes", &[0x81, 0x80, 0x80, 0], 21),
    ];
    let mut vectors = Vec::new();
    for (front, place) in fronts {
        for (name, bytes, number) in faults {
            vectors.push(body_refused(name, &[front, bytes].concat(), number, place));
        }
    }
    vectors
}

/// The same file whole, and with bytes left over.
fn file_of_every_number() -> Vec<Vector> {
    let body = [0xAC, 2, 2, 2, 5, 0, 0xAC, 2, 0x80, 1];
    vec![
        is("whole", file_into(&file(&body), 2, 2), &[0, 0, 300, 2, 2, 5, 300, 0, 128]),
        body_refused("a byte left over", &[&body[..], &[0]].concat(), 22, 14),
        body_refused("a cut number left over", &[&body[..], &[0x80]].concat(), 22, 14),
    ]
}

// Document 02, request Two, and reading I1. All delays are 0, and so both crossings the same,
// where nothing else is said. Above each case stand its free slots, every stretch in brackets.

/// The same plan in both crossings: no row has a delay.
fn undelayed(
    name: &'static str,
    (period, size): (u64, u64),
    offsets: &[u64],
    crossing: [u64; 3],
) -> Vector {
    let delays = vec![0; offsets.len()];
    reports(name, report(period, size, &delays, offsets), crossing, crossing)
}

/// "From now on a run at the end and a run at the start are one stretch."
fn runs_at_both_ends() -> Vec<Vector> {
    vec![
        // (7 8 9 0 1) (4)
        undelayed("I1 runs at both ends join", (10, 2), &[2, 5], [6, 2, 5]),
        // (6 7 8 9 0) (3)
        undelayed("I1 one slot at the start", (10, 2), &[1, 4], [6, 2, 5]),
        // (9 0 1 2 3) (6)
        undelayed("I1 one slot at the end", (10, 2), &[4, 7], [6, 2, 5]),
        // (10 11 0 1) (4) (7)
        undelayed("I1 joined run is the widest", (12, 2), &[2, 5, 8], [6, 3, 4]),
        // (9 10 0 1) (4 5 6)
        undelayed("I1 widest, but neither part is", (11, 2), &[2, 7], [7, 2, 4]),
        // (10 11 0) (3 4 5 6 7)
        undelayed("I1 joined run is not the widest", (12, 2), &[1, 8], [8, 2, 5]),
        // (8 9 0) (3 4 5)
        undelayed("I1 joined run is as wide as another", (10, 2), &[1, 6], [6, 2, 3]),
        // (5 0)
        undelayed("I1 one row, free at both ends only", (6, 4), &[1], [2, 1, 2]),
        // (7 0)
        undelayed("I1 three rows, free at both ends only", (8, 2), &[1, 3, 5], [2, 1, 2]),
        // (2 0)
        undelayed("I1 size 1, free at both ends only", (3, 1), &[1], [2, 1, 2]),
        // two rows meet: 18 as before
        is(
            "I1 not clear, both ends free",
            report(10, 2, &[0, 0], &[4, 5]),
            &[18, 1, 0, 0, 0, 0, 0, 0],
        ),
    ]
}

/// "Runs that touch one end only stay."
fn runs_at_one_end() -> Vec<Vector> {
    vec![
        // (0 1 2 3 4) (7)
        undelayed("I1 a run that touches only slot 0", (10, 2), &[5, 8], [6, 2, 5]),
        // (2) (5 6 7 8 9)
        undelayed("I1 a run that touches only slot P-1", (10, 2), &[0, 3], [6, 2, 5]),
        // (0 1 2 3 4 5 6 7)
        undelayed("I1 one row, its last slot P-1", (10, 2), &[8], [8, 1, 8]),
        // (2 3 4 5 6 7 8 9)
        undelayed("I1 one row, its first slot 0", (10, 2), &[0], [8, 1, 8]),
        // (2 3 4) (8)
        undelayed("I1 over the end, free slots after it", (10, 3), &[9, 5], [4, 2, 3]),
        // (1 2 3 4 5 6 7)
        undelayed("I1 over the end, one row", (10, 3), &[8], [7, 1, 7]),
        // (4 5 6 7)
        undelayed("I1 over the end, a message after it", (10, 3), &[8, 1], [4, 1, 4]),
        // (2 3 4 5 6 7)
        undelayed("I1 side by side at the end", (10, 2), &[8, 0], [6, 1, 6]),
    ]
}

/// "A single row with T = P still has none."
fn nothing_free() -> Vec<Vector> {
    let none = |name, case| reports(name, case, [0, 0, 0], [0, 0, 0]);
    let largest = report(1_000_000, 1_000_000, &[16_777_215], &[999_999]);
    vec![
        none("I1 T = P", report(5, 5, &[3], &[2])),
        none("I1 T = P = 1,000,000", largest),
        none("I1 nT = P, over the end in crossing 1", report(12, 3, &[5; 4], &[10, 1, 4, 7])),
        none("I1 nT = P, table 2", report(4, 1, &[0, 2, 1, 1], &[0, 3, 1, 2])),
        none("I1 nT = P = 2", report(2, 1, &[0, 0], &[0, 1])),
    ]
}

/// Crossings with other starts. Each comment has crossing 1, then crossing 2.
fn crossings_that_differ() -> Vec<Vector> {
    vec![
        // starts 2 5: (7 8 9 0 1) (4); starts 0 2: (4 5 6 7 8 9)
        reports("I1 joined in 1 only", report(10, 2, &[8, 7], &[2, 5]), [6, 2, 5], [6, 1, 6]),
        // starts 0 2: (4 5 6 7 8 9); starts 2 5: (7 8 9 0 1) (4)
        reports("I1 joined in 2 only", report(10, 2, &[2, 3], &[0, 2]), [6, 1, 6], [6, 2, 5]),
        // starts 2 7: (9 10 0 1) (4 5 6); starts 4 6: (8 9 10 0 1 2 3)
        reports("I1 joined in both", report(11, 2, &[2, 10], &[2, 7]), [7, 2, 4], [7, 1, 7]),
        // starts 2 5: (7 8 9 10 11 0 1) (4); starts 1 8: (10 11 0) (3 4 5 6 7)
        reports("I1 widest in 1, not in 2", report(12, 2, &[11, 3], &[2, 5]), [8, 2, 7], [8, 2, 5]),
        // starts 9 5: (2 3 4) (8); starts 2 5: (8 9 0 1)
        reports("I1 over the end in 1", report(10, 3, &[3, 0], &[9, 5]), [4, 2, 3], [4, 1, 4]),
        // start 3: (5 6 7 8 9 0 1 2); start 8: (0 1 2 3 4 5 6 7)
        reports("I1 largest delay", report(10, 2, &[16_777_215], &[3]), [8, 1, 8], [8, 1, 8]),
        // Two's own case, start 1: (3 4 0); but with delay 4, start 0: (2 3 4)
        reports("I1 Two's case, delay 4", report(5, 2, &[4], &[1]), [3, 1, 3], [3, 1, 3]),
    ]
}

fn stretches_at_limits() -> Vec<Vector> {
    let odd: Vec<u64> = (0..64).map(|row| 2 * row + 1).collect();
    let all_but_one = [999_999, 1, 999_999];
    vec![
        // (1); start 1: (0)
        reports("I1 period 2", report(2, 1, &[1], &[0]), [1, 1, 1], [1, 1, 1]),
        undelayed("I1 period 2", (2, 1), &[1], [1, 1, 1]),
        // (500001 .. 999999 0 .. 499999)
        undelayed("I1 period 1,000,000", (1_000_000, 1), &[500_000], all_but_one),
        // (0); start 2: (1)
        reports("I1 T = P - 1", report(1_000_000, 999_999, &[1], &[1]), [1, 1, 1], [1, 1, 1]),
        // (128 0) (2) (4) .. (126); starts 2 4 .. 128: (0 1) (3) (5) .. (127)
        reports("I1 64 rows", report(129, 1, &[1; 64], &odd), [65, 64, 2], [65, 64, 2]),
        // (0) (2) .. (126); starts 2 4 .. 126 0: (1) (3) .. (127)
        reports("I1 64 rows", report(128, 1, &[1; 64], &odd), [64, 64, 1], [64, 64, 1]),
    ]
}

// Document 02, request Three, and reading I3. A comment has what each earlier row takes from the
// last one: in crossing 1 / in crossing 2.

/// A quick planner, by how its cases are made here.
pub type Call = fn(u64, u64, &[u64], usize) -> Case;

/// 13 at the last row, with a list that stays as it was.
pub fn last_refused(name: &'static str, call: Call, link: (u64, u64), delays: &[u64]) -> Vector {
    let rows = delays.len();
    let case = call(link.0, link.1, delays, rows);
    is(name, case, &[&[13, rows as u64 - 1], &list(rows).numbers()[..]].concat())
}

pub fn planned(
    name: &'static str,
    call: Call,
    (period, size): (u64, u64),
    delays: &[u64],
    offsets: &[u64],
) -> Vector {
    is(name, call(period, size, delays, delays.len()), &[&[0, 0], offsets].concat())
}

/// 3n-3 multiples, all taken; with size 1 a row takes only one in crossing 2, and 2n-2 are.
fn multiples_all_taken() -> Vec<Vector> {
    let refused = |name, link, delays: &[u64]| last_refused(name, meta_offset, link, delays);
    vec![
        // 0 / 2 4
        refused("I3 m = 3", (6, 2), &[0, 3]),
        refused("I3 m = 3, rest 1", (7, 2), &[0, 4]),
        // 0 / 3 6
        refused("I3 m = 3", (9, 3), &[0, 5]),
        refused("I3 m = 3, rest 2", (11, 3), &[0, 7]),
        // 0 / 4 6; 2 / 8 10
        refused("I3 m = 6", (12, 2), &[0, 2, 7]),
        refused("I3 m = 6, rest 1", (13, 2), &[0, 2, 8]),
        // 0 / 15 18; 3 / 21 24; 6 / 9 12
        refused("I3 m = 9, rest 1", (28, 3), &[9, 12, 25, 20]),
        // 0 / 24 30; 18 / 36 42; 6 / 60 66; 12 / 48 54
        refused("I3 m = 12", (72, 6), &[33, 26, 60, 44, 5]),
        // 0 / 1
        refused("I3 size 1, m = 2", (2, 1), &[0, 1]),
        // 0 / 2; 1 / 3
        refused("I3 size 1, m = 4", (4, 1), &[0, 0, 2]),
    ]
}

/// 3n-2 multiples: "never gives 13"
fn multiples_enough() -> Vec<Vector> {
    let plan = |name, link, delays: &[u64], offsets: &[u64]| {
        planned(name, meta_offset, link, delays, offsets)
    };
    vec![
        plan("I3 n = 1, m = 1", (5, 5), &[7], &[0]),
        plan("I3 n = 1, m = 1, rest 4", (9, 5), &[7], &[0]),
        // 0 / 4 6
        plan("I3 m = 4", (8, 2), &[0, 3], &[0, 2]),
        // 0 / 2 4
        plan("I3 m = 4, the last is left", (8, 2), &[0, 5], &[0, 6]),
        plan("I3 m = 4, the last is left", (9, 2), &[0, 6], &[0, 6]),
        plan("I3 m = 4, the last is left", (14, 3), &[0, 9], &[0, 9]),
        // 0 / 4 6; 2 / 8 10
        plan("I3 m = 7, the last is left", (14, 2), &[0, 2, 9], &[0, 2, 12]),
        // 0 / 18 21; 3 / 24 27; 6 / 9 12
        plan("I3 m = 10", (30, 3), &[9, 12, 25, 20], &[0, 3, 6, 15]),
        // 0 / 24 30; 18 / 36 42; 6 / 60 66; 12 / 48 54
        plan("I3 m = 13", (78, 6), &[33, 26, 60, 44, 5], &[0, 18, 6, 12, 72]),
        plan("I3 m = 13, rest 5", (83, 6), &[33, 26, 60, 44, 5], &[0, 18, 6, 12, 72]),
        // 0 / 2; 1 / 3
        plan("I3 size 1, m = 2n-1", (5, 1), &[0, 0, 3], &[0, 1, 4]),
    ]
}

/// Where First Fit refuses: up to P = (3n-2)T - n.
fn offsets_all_taken() -> Vec<Vector> {
    let refused = |name, link, delays: &[u64]| last_refused(name, first_fit, link, delays);
    vec![
        // 0 / 1
        refused("I3 P = 4T-2", (2, 1), &[0, 1]),
        // 5 0 1 / 2 3 4
        refused("I3 P = 4T-2", (6, 2), &[0, 3]),
        // 8 9 0 1 2 / 3 4 5 6 7
        refused("I3 P = 4T-2", (10, 3), &[0, 5]),
        // 0 / 2; 1 / 3
        refused("I3 P = 7T-3", (4, 1), &[0, 0, 2]),
        // 10 0 1 / 4 5 6; 1 2 3 / 7 8 9: one is taken twice, always
        refused("I3 P = 7T-3", (11, 2), &[0, 1, 6]),
        // 15 0 1 / 6 7 8; 1 2 3 / 9 10 11; 3 4 5 / 12 13 14
        refused("I3 P = 10T-4", (16, 2), &[0, 1, 2, 9]),
    ]
}

/// First Fit never gives 13 when P is above (3n-2)T - n.
fn offsets_enough() -> Vec<Vector> {
    let plan = |name, link, delays: &[u64], offsets: &[u64]| {
        planned(name, first_fit, link, delays, offsets)
    };
    vec![
        plan("I3 n = 1", (1, 1), &[7], &[0]),
        // 0 / 2
        plan("I3 P = 4T-1", (3, 1), &[0, 1], &[0, 1]),
        // 0 / 1
        plan("I3 P = 4T-1, the last is left", (3, 1), &[0, 2], &[0, 2]),
        // 6 0 1 / 2 3 4
        plan("I3 P = 4T-1", (7, 2), &[0, 4], &[0, 5]),
        // 9 10 0 1 2 / 3 4 5 6 7
        plan("I3 P = 4T-1", (11, 3), &[0, 6], &[0, 8]),
        // 0 / 2; 1 / 3
        plan("I3 P = 7T-2", (5, 1), &[0, 0, 3], &[0, 1, 4]),
        // 11 0 1 / 4 5 6; 1 2 3 / 7 8 9
        plan("I3 P = 7T-2", (12, 2), &[0, 1, 7], &[0, 2, 10]),
        // 11 0 1 / 5 6 7; 1 2 3 / 8 9 10
        plan("I3 P = 7T-2", (12, 2), &[0, 1, 6], &[0, 2, 4]),
        // 12 0 1 / 4 5 6; 1 2 3 / 7 8 9
        plan("I3 P = 7T-1", (13, 2), &[0, 1, 8], &[0, 2, 10]),
        // 13 0 1 / 4 5 6; 1 2 3 / 7 8 9
        plan("I3 P = 7T", (14, 2), &[0, 1, 9], &[0, 2, 10]),
        // 14 0 1 / 4 5 6; 1 2 3 / 7 8 9
        plan("I3 P = 8T-1", (15, 2), &[0, 1, 10], &[0, 2, 10]),
    ]
}

/// Rows at 0 2 .. 124 and, for size 1, at 0 1 .. 62; in crossing 2 one starts two messages, or for
/// size 1 one, behind the other.
fn light_loads_of_64_rows() -> Vec<Vector> {
    let even: Vec<u64> = (0..63).map(|row| 2 * row).collect();
    let all: Vec<u64> = (0..63).collect();
    let then = |front: &[u64], last: u64| [front, &[last]].concat();
    let plan = then(&even, 378);
    vec![
        last_refused("I3 64 rows, m = 189", meta_offset, (378, 2), &then(&even, 251)),
        last_refused("I3 64 rows, m = 189", meta_offset, (379, 2), &then(&even, 252)),
        planned("I3 64 rows, m = 190", meta_offset, (380, 2), &then(&even, 253), &plan),
        planned("I3 64 rows, m = 190", meta_offset, (381, 2), &then(&even, 254), &plan),
        last_refused("I3 64 rows, P = 126", first_fit, (126, 1), &then(&[0; 63], 63)),
        planned("I3 64, P = 127", first_fit, (127, 1), &then(&[0; 63], 64), &then(&all, 126)),
        // 190T - 64 and one more, 63(4T-2) + 1, 190T; in crossing 2 the rows start at 0 3 .. 186
        last_refused("I3 64 rows, P = 316", first_fit, (316, 2), &then(&all, 189)),
        planned("I3 64, P = 317", first_fit, (317, 2), &then(&all, 190), &then(&even, 315)),
        planned("I3 64, P = 379", first_fit, (379, 2), &then(&all, 252), &then(&even, 315)),
        planned("I3 64, P = 380", first_fit, (380, 2), &then(&all, 253), &then(&even, 315)),
    ]
}

/// Size 29, P = 34T - 12 and one more, and 34T. Rows at 0 29 .. 290, in crossing 2 at 0 57 .. 570.
fn light_loads_of_12_rows() -> Vec<Vector> {
    let delays = |last: u64| [0, 28, 56, 84, 112, 140, 168, 196, 224, 252, 280, last];
    let plan = [0, 29, 58, 87, 116, 145, 174, 203, 232, 261, 290, 946];
    vec![
        last_refused("I3 12 rows, P = 974", first_fit, (974, 29), &delays(627)),
        planned("I3 12 rows, P = 975", first_fit, (975, 29), &delays(628), &plan),
        planned("I3 12 rows, P = 986", first_fit, (986, 29), &delays(639), &plan),
    ]
}

/// Twelve rows, period 1000: 34 = 3n-2 multiples with size 29, 33 with size 30, where some tables
/// get 13 and others, as the first with this size, a plan. The plans come from brute force over slot
/// sets outside this program, and the self-test's brute force gives the same.
fn tables_of_the_manual() -> Vec<Vector> {
    let light = [120, 340, 95, 610, 47, 883, 256, 731, 508, 19, 662, 404];
    let first = [0, 29, 58, 87, 135, 164, 193, 222, 251, 280, 320, 384];
    let meta = [0, 29, 58, 87, 145, 116, 174, 203, 232, 261, 377, 406];
    let bad = [1, 31, 61, 91, 121, 151, 181, 211, 241, 271, 301, 670];
    let not_promised = [0, 30, 60, 90, 120, 150, 180, 210, 240, 270, 300, 361];
    let first_30 = [0, 30, 60, 90, 138, 168, 198, 228, 258, 288, 327, 392];
    let meta_30 = [0, 30, 60, 90, 150, 120, 180, 210, 240, 270, 390, 420];
    vec![
        planned("I3 manual, size 29", first_fit, (1000, 29), &light, &first),
        planned("I3 manual, size 29", meta_offset, (1000, 29), &light, &meta),
        last_refused("I3 manual, size 30", meta_offset, (1000, 30), &bad),
        planned("I3 manual, size 30", first_fit, (1000, 30), &bad, &not_promised),
        planned("I3 size 30 for 29", first_fit, (1000, 30), &light, &first_30),
        planned("I3 size 30 for 29", meta_offset, (1000, 30), &light, &meta_30),
    ]
}

// Request Four. Lists are just long enough; answers begin at 5000, offsets at a million, so that
// every number written is seen.

/// What one text gets: number, tests, rows, and the plan.
type Answered<'a> = (u64, u64, u64, &'a [u64]);

const FIRST_ANSWER: Answered = (0, 3, 3, &[0, 2, 5]);

fn lists_of(answers: usize, offsets: usize) -> (Lent, Lent) {
    (Lent::new(answers, 5000), Lent::new(offsets, 1_000_000))
}

/// Texts and other bytes, each so many times; none where this is 0.
fn joined_into(lists: (Lent, Lent), budget: u64, parts: &[(usize, &str)]) -> Case {
    let parts = parts.iter().filter(|(times, _)| *times > 0);
    let parts = parts.map(|&(times, text)| Part::new(times, text.as_bytes())).collect();
    Case::PlanTexts { budget, parts, answers: lists.0, offsets: lists.1 }
}

/// The answer line: number, place, texts, then what changed in both lists.
fn runs(name: &'static str, case: Case, stop: [u64; 2], answered: &[Answered]) -> Vector {
    let (mut answers, mut plans) = (Vec::new(), Vec::new());
    for (t, &(number, tests, rows, plan)) in (0..).zip(answered) {
        answers.extend([4 * t, number, 4 * t + 1, 0, 4 * t + 2, tests, 4 * t + 3, rows]);
        plans.extend((64 * t..).zip(plan).flat_map(|(index, &offset)| [index, offset]));
    }
    let texts = answered.len() as u64;
    let answers = [vec![4 * texts], answers].concat();
    let plans = [vec![plans.len() as u64 / 2], plans].concat();
    is(name, case, &[vec![stop[0], stop[1], texts], answers, plans].concat())
}

/// The same with a budget of a hundred and these parts.
fn joined(
    name: &'static str,
    parts: &[(usize, &str)],
    stop: [u64; 2],
    answered: &[Answered],
) -> Vector {
    runs(name, joined_into(lists_of(128, 2048), 100, parts), stop, answered)
}

fn texts_joined() -> Vec<Vector> {
    let text = FIRST_TEXT;
    let firsts = [FIRST_ANSWER; 32];
    let second = "pma 1\n4 1\n0\n2\n1\n1\nend 4\n";
    let second_answer = (0, 16, 4, &[0, 3, 1, 2][..]);
    vec![
        joined("Four empty", &[], [0, 0], &[]),
        joined("Four empty", &[(1, "")], [0, 0], &[]),
        joined("Four one", &[(1, text)], [0, 0], &firsts[..1]),
        joined("Four two", &[(2, text)], [0, 0], &firsts[..2]),
        joined("Four two", &[(1, text), (1, text)], [0, 0], &firsts[..2]),
        joined("Four three", &[(3, text)], [0, 0], &firsts[..3]),
        joined("Four three", &[(1, text), (2, text)], [0, 0], &firsts[..3]),
        joined("Four 31", &[(31, text)], [0, 0], &firsts[..31]),
        joined("Four 32", &[(32, text)], [0, 0], &firsts),
        joined("Four", &[(1, text), (1, second)], [0, 0], &[FIRST_ANSWER, second_answer]),
        joined("Four", &[(1, second), (1, text)], [0, 0], &[second_answer, FIRST_ANSWER]),
        prints("J10", &text.repeat(2), "refused 10 23\n"),
    ]
}

/// "then 11 if a lent list lacks 32 answers or 2,048 offsets": an answer is four numbers.
fn joined_lists_too_short() -> Vec<Vector> {
    let refused = |answers, offsets, number, parts: &[(usize, &str)]| {
        runs("J4", joined_into(lists_of(answers, offsets), 100, parts), [number, 0], &[])
    };
    let text = (1, FIRST_TEXT);
    vec![
        refused(124, 2048, 11, &[]),
        refused(127, 2048, 11, &[]),
        refused(128, 2047, 11, &[]),
        refused(127, 2047, 11, &[]),
        refused(0, 0, 11, &[]),
        refused(127, 2048, 11, &[text]),
        refused(128, 2047, 11, &[text]),
        refused(4, 3, 11, &[text]),
        refused(127, 2048, 11, &[text, (1, "x\n")]),
        refused(128, 2047, 11, &[(1, "x")]),
        refused(127, 2048, 11, &[(33, FIRST_TEXT)]),
        refused(127, 2048, 11, &[(32_768, "x")]),
        refused(127, 2048, 23, &[(32_769, "x")]),
        refused(128, 2047, 23, &[(32_769, "x")]),
        refused(0, 0, 23, &[(32_769, "x")]),
        refused(0, 0, 23, &[(32, FIRST_TEXT), (32_033, "\n")]),
    ]
}

/// "A lent buffer longer than needed keeps its tail"
fn joined_lists_longer() -> Vec<Vector> {
    let with = |answers, offsets| joined_into(lists_of(answers, offsets), 3, &[(32, FIRST_TEXT)]);
    let firsts = [FIRST_ANSWER; 32];
    vec![
        runs("J9", with(129, 2048), [0, 0], &firsts),
        runs("J9", with(128, 2049), [0, 0], &firsts),
        runs("J9", with(132, 2100), [0, 0], &firsts),
    ]
}

/// 32 times the first text is 736 bytes.
fn joined_input_too_long() -> Vec<Vector> {
    let text = FIRST_TEXT;
    let firsts = [FIRST_ANSWER; 32];
    vec![
        joined("Four 23", &[(32_769, "x")], [23, 0], &[]),
        joined("Four 32,768", &[(32_768, "x")], [1, 0], &[]),
        joined("Four 23", &[(32_769, "\n")], [23, 0], &[]),
        joined("Four 32,768", &[(32_768, "\n")], [2, 0], &[]),
        joined("Four 23", &[(1, text), (32_746, "7")], [23, 0], &[]),
        joined("Four 32,768", &[(1, text), (32_745, "7")], [1, 0], &firsts[..1]),
        joined("Four 32,768", &[(31, text), (32_055, "x")], [1, 0], &firsts[..31]),
        joined("Four 23", &[(32, text), (32_033, "x")], [23, 0], &[]),
        joined("Four 32,768", &[(32, text), (32_032, "x")], [24, 736], &firsts),
        joined("Four 23", &[(32, text), (16_016, "x\n"), (1, "x")], [23, 0], &[]),
        joined("Four 32,768", &[(32, text), (16_016, "x\n")], [24, 736], &firsts),
    ]
}

/// "24 where a thirty-third text begins", whatever stands there.
fn thirty_third_text() -> Vec<Vector> {
    let longest = "1\n".repeat(64);
    let (head, end) = ("pma 1\n9 1\n", "end 64\n");
    let stops = |part: (usize, &str)| {
        joined("J7", &[(32, FIRST_TEXT), part], [24, 736], &[FIRST_ANSWER; 32])
    };
    let mut vectors = vec![
        stops((1, "x")),
        stops((1, "\n")),
        stops((1, " ")),
        stops((1, FIRST_TEXT)),
        stops((2, FIRST_TEXT)),
        stops((1, "x\n")),
        stops((1, "pma 1\n")),
        stops((2000, "7")),
    ];
    // A text of 64 rows here has 145 bytes.
    let text = [head, &longest, end].concat();
    let answered = [(12, 0, 64, &[][..]); 32];
    vectors.push(joined("J7", &[(32, &text), (1, "x")], [24, 4640], &answered));
    vectors
}

/// "Bytes after a last line begin another text, so 10 isn't given here."
fn bytes_behind_a_text() -> Vec<Vector> {
    let text = FIRST_TEXT;
    let firsts = [FIRST_ANSWER; 32];
    let good = "pma 1\n10 2\n5\nend 1\n";
    let mut vectors = vec![joined("J1", &[(1, good), (1, "x\n")], [2, 0], &[(0, 0, 1, &[0])])];
    for texts in [1, 2, 16, 31] {
        let answered = &firsts[..texts];
        vectors.push(joined("J6", &[(texts, text), (1, "\n")], [2, 0], answered));
        vectors.push(joined("J6", &[(texts, text), (1, "x")], [3, 0], answered));
        vectors.push(joined("J6", &[(texts, text), (1, "\n"), (1, text)], [2, 0], answered));
        vectors.push(joined("J6", &[(texts, text), (1, "x"), (1, text)], [2, 0], answered));
        vectors.push(joined("J6", &[(texts, text), (1, "5\nend 4\n")], [2, 0], answered));
    }
    vectors
}

/// "a line not ended within the text's first 1,024 bytes gives 1 if the input goes on past them,
/// and 3 if it doesn't": so many bytes are left from the text's first byte on.
fn lines_not_ended() -> Vec<Vector> {
    let fronts = ["", "pma 1\n", "pma 1\n10 2\n", "pma 1\n10 2\n3\n", "pma 1\n10 2\n3\nend "];
    let places = [0, 6, 11, 13, 13];
    let mut vectors = Vec::new();
    for (front, place) in fronts.into_iter().zip(places) {
        for (left, stop) in [(1023, [3, place]), (1024, [3, place]), (1025, [1, 0])] {
            let line = (left - front.len(), "1");
            let behind = joined("J5", &[(1, FIRST_TEXT), (1, front), line], stop, &[FIRST_ANSWER]);
            vectors.extend([joined("J5", &[(1, front), line], stop, &[]), behind]);
        }
    }
    vectors
}

/// Byte 10 at byte 1,023 and at byte 1,024 of the text, counted from 0.
fn lines_ended_at_the_limit() -> Vec<Vector> {
    let fronts = [("", [2, 0]), ("pma 1\n", [4, 6]), ("pma 1\n10 2\n3\n", [4, 13])];
    let mut vectors = vec![
        joined("J5", &[(1, "x\n"), (2000, "7")], [2, 0], &[]),
        joined("J5", &[(1, FIRST_TEXT), (1, "x\n"), (2000, "7")], [2, 0], &[FIRST_ANSWER]),
        joined("J5", &[(1, "pma 1\n10 2\n7\nend 2\n"), (2000, "7")], [9, 13], &[]),
        joined("J5", &[(1024, "\n")], [2, 0], &[]),
        joined("J5", &[(1025, "\n")], [2, 0], &[]),
    ];
    for (front, fault) in fronts {
        for (newline, stop) in [(1022, fault), (1023, fault), (1024, [1, 0])] {
            let line = (newline - front.len(), "1");
            let parts = [(1, FIRST_TEXT), (1, front), line, (1, "\n"), (1, FIRST_TEXT)];
            vectors.push(joined("J5", &parts[1..4], stop, &[]));
            vectors.push(joined("J5", &parts[1..], stop, &[]));
            vectors.push(joined("J5", &parts, stop, &[FIRST_ANSWER]));
        }
    }
    vectors
}

/// The input ends inside a text: 3 at the line that isn't ended.
fn joined_input_cut() -> Vec<Vector> {
    let mut vectors = Vec::new();
    for (length, place) in [
        (1, 0),
        (5, 0),
        (6, 6),
        (10, 6),
        (11, 11),
        (12, 11),
        (13, 13),
        (16, 15),
        (17, 17),
        (20, 17),
        (21, 17),
        (22, 17),
    ] {
        let cut = (1, &FIRST_TEXT[..length]);
        vectors.push(joined("Four cut", &[cut], [3, place], &[]));
        vectors.push(joined("Four cut", &[(1, FIRST_TEXT), cut], [3, place], &[FIRST_ANSWER]));
    }
    let firsts = [FIRST_ANSWER; 31];
    vectors.push(joined("Four", &[(31, FIRST_TEXT), (1, &FIRST_TEXT[..22])], [3, 17], &firsts));
    vectors
}

/// "refusals 12, 14 and 15 are such answers and don't stop the run"; 65 rows are a text fault.
fn joined_rows() -> Vec<Vector> {
    let text = |rows: usize| format!("pma 1\n10 2\n{}end {rows}\n", "5\n".repeat(rows));
    let (nine, most) = (text(9), text(64));
    let (nine, most) = ((1, &nine[..]), (1, &most[..]));
    let first = (1, FIRST_TEXT);
    let too_many = text(65);
    let too_many = (1, &too_many[..]);
    let none = (1, "pma 1\n1 1\n0\n0\nend 2\n");
    let of_none: Answered = (14, 2, 2, &[]);
    let (of_nine, of_most): (Answered, Answered) = ((12, 0, 9, &[]), (12, 0, 64, &[]));
    vec![
        joined("J3 12", &[nine], [0, 0], &[of_nine]),
        joined("J3 12", &[most], [0, 0], &[of_most]),
        joined("J3 12", &[first, nine, first], [0, 0], &[FIRST_ANSWER, of_nine, FIRST_ANSWER]),
        joined("J3 12", &[most, first, nine], [0, 0], &[of_most, FIRST_ANSWER, of_nine]),
        joined("J3 14", &[none, first, none], [0, 0], &[of_none, FIRST_ANSWER, of_none]),
        joined("Four 8", &[too_many], [8, 139], &[]),
        joined("Four 8", &[first, nine, too_many, first], [8, 139], &[FIRST_ANSWER, of_nine]),
        joined("J9", &[nine, none, (1, "x")], [3, 0], &[of_nine, of_none]),
        joined("J9", &[nine, first, (1, "x\n")], [2, 0], &[of_nine, FIRST_ANSWER]),
    ]
}

/// Five worked tables at one go, each "with the whole budget"; they need 16, 3, 16, 0 and 2 tests.
fn joined_budgets() -> Vec<Vector> {
    let tables = [
        (1, "pma 1\n4 1\n0\n2\n1\n1\nend 4\n"),
        (1, FIRST_TEXT),
        (1, "pma 1\n3 1\n0\n0\n1\nend 3\n"),
        (1, "pma 1\n1 1\n0\nend 1\n"),
        (1, "pma 1\n1 1\n0\n0\nend 2\n"),
    ];
    let plan: [Answered; 5] = [
        (0, 16, 4, &[0, 3, 1, 2]),
        FIRST_ANSWER,
        (14, 16, 3, &[]),
        (0, 0, 1, &[0]),
        (14, 2, 2, &[]),
    ];
    let spent = |rows, budget| -> Answered { (15, budget, rows, &[]) };
    let with = |budget, answered: [Answered; 5]| {
        runs("J8", joined_into(lists_of(128, 2048), budget, &tables), [0, 0], &answered)
    };
    let [four, first, three, one, two] = plan;
    vec![
        with(0, [spent(4, 0), spent(3, 0), spent(3, 0), one, spent(2, 0)]),
        with(1, [spent(4, 1), spent(3, 1), spent(3, 1), one, spent(2, 1)]),
        with(2, [spent(4, 2), spent(3, 2), spent(3, 2), one, two]),
        with(3, [spent(4, 3), first, spent(3, 3), one, two]),
        with(4, [spent(4, 4), first, spent(3, 4), one, two]),
        with(15, [spent(4, 15), first, spent(3, 15), one, two]),
        with(16, [four, first, three, one, two]),
        with(17, plan),
        with(1 << 32, plan),
        with(u64::MAX, plan),
    ]
}

/// The same table 32 times: with its own number of tests as budget every text has its verdict, with
/// one less none has.
fn joined_tests_one_too_many() -> Vec<Vector> {
    let four = "pma 1\n4 1\n0\n2\n1\n1\nend 4\n";
    let three = "pma 1\n3 1\n0\n0\n1\nend 3\n";
    let one = "pma 1\n1 1\n0\nend 1\n";
    let with = |budget, text, answered: Answered| {
        let case = joined_into(lists_of(128, 2048), budget, &[(32, text)]);
        runs("J8", case, [0, 0], &[answered; 32])
    };
    vec![
        with(16, four, (0, 16, 4, &[0, 3, 1, 2])),
        with(15, four, (15, 15, 4, &[])),
        with(16, three, (14, 16, 3, &[])),
        with(15, three, (15, 15, 3, &[])),
        with(3, FIRST_TEXT, FIRST_ANSWER),
        with(2, FIRST_TEXT, (15, 2, 3, &[])),
        with(0, FIRST_TEXT, (15, 0, 3, &[])),
        with(0, one, (0, 0, 1, &[0])),
    ]
}

/// Every text fault in the first text, in the middle and in the last one. With 3 the input ends
/// there: were a byte 10 left, the line would end with it.
fn joined_faults() -> Vec<Vector> {
    let faults = [
        ("pma 2\n10 2\n0\nend 1\n", [2, 0]),
        ("pma 1\n10 2\n0\nend 1", [3, 13]),
        ("pma 1\n10  2\n0\nend 1\n", [4, 6]),
        ("pma 1\n10 2\n0\n-3\nend 2\n", [4, 13]),
        ("pma 1\n10 2\n0\nend 01\n", [4, 13]),
        ("pma 1\n1000001 2\n0\nend 1\n", [5, 6]),
        ("pma 1\n5 6\n0\nend 1\n", [6, 6]),
        ("pma 1\n10 2\n0\n16777216\nend 2\n", [7, 13]),
        ("pma 1\n10 2\nend 0\n", [8, 11]),
        ("pma 1\n10 2\n0\n37\nend 3\n", [9, 16]),
    ];
    let firsts = [FIRST_ANSWER; 31];
    let mut vectors = Vec::new();
    for texts in [0, 15, 31] {
        let before = (texts, FIRST_TEXT);
        for (text, stop) in faults {
            let after = if stop[0] == 3 { 0 } else { 31 - texts };
            let parts = [before, (1, text), (after, FIRST_TEXT)];
            vectors.push(joined("Four faults", &parts, stop, &firsts[..texts]));
        }
        let parts = [before, (1, "pma 1\n10 2\n"), (1020, "7"), (31 - texts, FIRST_TEXT)];
        vectors.push(joined("Four faults", &parts, [1, 0], &firsts[..texts]));
    }
    vectors
}

/// The first text three times, one byte 10 lost: in line one, in line two, where 20 is above the
/// period, as 03, as 37, as 7end, and behind the count, where another line one or nothing comes.
fn joined_newline_lost() -> Vec<Vector> {
    let lost = [(5, [2, 0]), (10, [6, 6]), (12, [4, 11]), (14, [9, 16]), (16, [4, 15])];
    let mut vectors = Vec::new();
    for texts in 0..3 {
        let at_end = if texts == 2 { [3, 17] } else { [4, 17] };
        for (place, stop) in lost.into_iter().chain([(22, at_end)]) {
            let (front, back) = (&FIRST_TEXT[..place], &FIRST_TEXT[place + 1..]);
            let parts = [(texts, FIRST_TEXT), (1, front), (1, back), (2 - texts, FIRST_TEXT)];
            let answered = &[FIRST_ANSWER; 2][..texts];
            vectors.push(joined("Four byte 10 lost", &parts, stop, answered));
        }
    }
    vectors
}
